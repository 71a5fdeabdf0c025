//! A small clause-learning solver that writes down how each clause it learns follows, so that the bench needs no refutation from outside.

/// A clause, and the places of the clauses that it follows from: those that set a literal, in order, then the conflict.
pub struct Step {
    pub clause: Vec<i32>,
    pub hints: Vec<usize>,
}

/// How much more a conflict counts than the one before it, when the next variable to split is chosen.
const GROWTH: f64 = 1.05;

/// Scores above this are scaled down.
const LARGE: f64 = 1e100;

/// So many learned clauses are watched at first; then the longer half is let go, and a tenth more may come.
const WATCHED: usize = 2_000;

struct Solver {
    clauses: Vec<Vec<i32>>,
    /// The clauses that watch each literal by one of their first two.
    watches: Vec<Vec<usize>>,
    /// Of each literal: whether it is true, or no value yet.
    values: Vec<Option<bool>>,
    /// Of each variable that has a value: its level, and the clause that set it.
    level: Vec<usize>,
    reason: Vec<Option<usize>>,
    trail: Vec<i32>,
    propagated: usize,
    /// Where each level above 0 begins on the trail.
    levels: Vec<usize>,
    score: Vec<f64>,
    increment: f64,
    /// The learned clauses that are watched, and how many may be.
    learned: Vec<usize>,
    most: usize,
}

fn variable(literal: i32) -> usize {
    literal.unsigned_abs() as usize
}

fn index(literal: i32) -> usize {
    2 * variable(literal) + usize::from(literal < 0)
}

impl Solver {
    fn new(variables: usize) -> Solver {
        Solver {
            clauses: vec![],
            watches: vec![vec![]; 2 * variables + 2],
            values: vec![None; 2 * variables + 2],
            level: vec![0; variables + 1],
            reason: vec![None; variables + 1],
            trail: vec![],
            propagated: 0,
            levels: vec![],
            score: vec![0.0; variables + 1],
            increment: 1.0,
            learned: vec![],
            most: WATCHED,
        }
    }

    fn value(&self, literal: i32) -> Option<bool> {
        self.values[index(literal)]
    }

    fn set(&mut self, literal: i32, reason: Option<usize>) {
        self.values[index(literal)] = Some(true);
        self.values[index(-literal)] = Some(false);
        self.level[variable(literal)] = self.levels.len();
        self.reason[variable(literal)] = reason;
        self.trail.push(literal);
    }

    /// Takes a clause in; its first two literals are watched. One literal alone holds for good and needs no watch.
    fn add(&mut self, clause: Vec<i32>) -> usize {
        let place = self.clauses.len();
        if let [first, second, ..] = clause[..] {
            self.watches[index(first)].push(place);
            self.watches[index(second)].push(place);
        }
        self.clauses.push(clause);
        place
    }

    /// Whether a clause could watch another literal than the one that became false, which else stands second.
    fn moved(&mut self, place: usize, falsified: i32) -> bool {
        let clause = &mut self.clauses[place];
        if clause[0] == falsified {
            clause.swap(0, 1);
        }
        let values = &self.values;
        if values[index(clause[0])] == Some(true) {
            return false;
        }
        let Some(other) = (2..clause.len()).find(|&n| values[index(clause[n])] != Some(false)) else {
            return false;
        };
        clause.swap(1, other);
        self.watches[index(clause[1])].push(place);
        true
    }

    /// Sets what follows by unit clauses, or answers the clause that became false.
    fn propagate(&mut self) -> Option<usize> {
        while let Some(&literal) = self.trail.get(self.propagated) {
            self.propagated += 1;
            let mut watching = std::mem::take(&mut self.watches[index(-literal)]);
            let mut conflict = None;
            let mut n = 0;
            while n < watching.len() && conflict.is_none() {
                let place = watching[n];
                if self.moved(place, -literal) {
                    watching.swap_remove(n);
                    continue;
                }
                n += 1;
                let first = self.clauses[place][0];
                match self.value(first) {
                    Some(true) => {}
                    Some(false) => conflict = Some(place),
                    None => self.set(first, Some(place)),
                }
            }
            self.watches[index(-literal)] = watching;
            if conflict.is_some() {
                return conflict;
            }
        }
        None
    }

    fn bump(&mut self, v: usize) {
        self.score[v] += self.increment;
        if self.score[v] > LARGE {
            self.score.iter_mut().for_each(|score| *score /= LARGE);
            self.increment /= LARGE;
        }
    }

    /// What a conflict teaches. Back along the trail, each literal that the conflict rests on is replaced by those that set it, until one
    /// of this level is left; those of level 0 all are.
    fn learn(&mut self, conflict: usize) -> Step {
        let this = self.levels.len();
        let mut rests = vec![false; self.level.len()];
        let mut open = 0;
        let mut step = Step { clause: vec![], hints: vec![conflict] };
        for n in (0..=self.trail.len()).rev() {
            // The conflict itself stands past the end of the trail.
            let set_by = match self.trail.get(n) {
                None => conflict,
                Some(&literal) => {
                    let v = variable(literal);
                    if !rests[v] {
                        continue;
                    }
                    let here = self.level[v] == this;
                    if self.level[v] > 0 && !(here && open > 1) {
                        step.clause.push(-literal);
                        continue;
                    }
                    open -= usize::from(here);
                    let reason = self.reason[v].expect("a decision is the last of its level");
                    step.hints.push(reason);
                    reason
                }
            };
            for n in 0..self.clauses[set_by].len() {
                let v = variable(self.clauses[set_by][n]);
                if !std::mem::replace(&mut rests[v], true) {
                    open += usize::from(self.level[v] == this);
                    self.bump(v);
                }
            }
        }
        step.hints.reverse();
        step
    }

    fn back_to(&mut self, level: usize) {
        let Some(&from) = self.levels.get(level) else {
            return;
        };
        for literal in self.trail.drain(from..) {
            self.values[index(literal)] = None;
            self.values[index(-literal)] = None;
        }
        self.levels.truncate(level);
        self.propagated = from;
    }

    /// Lets the longer half of the learned clauses go, at level 0, where no watch needs mending. They stay where hints name them.
    fn forget(&mut self) {
        self.back_to(0);
        let clauses = &self.clauses;
        self.learned.sort_by_key(|&place| clauses[place].len());
        let mut gone = vec![false; clauses.len()];
        for place in self.learned.split_off(self.learned.len() / 2) {
            gone[place] = true;
        }
        for watching in &mut self.watches {
            watching.retain(|&place| !gone[place]);
        }
        self.most += self.most / 10;
    }

    /// Sets a variable false at a level of its own: the one that conflicts met most, and most lately.
    fn split(&mut self) -> bool {
        let open = (1..self.score.len()).filter(|&v| self.values[2 * v].is_none());
        let Some(v) = open.max_by(|&v, &w| self.score[v].total_cmp(&self.score[w])) else {
            return false;
        };
        self.levels.push(self.trail.len());
        self.set(-(v as i32), None);
        true
    }
}

/// The steps of a refutation, as they were learned; none if the clauses can be satisfied.
pub fn refute(variables: usize, clauses: &[Vec<i32>]) -> Option<Vec<Step>> {
    let mut solver = Solver::new(variables);
    for clause in clauses {
        solver.add(clause.clone());
    }
    let mut steps = vec![];
    loop {
        while let Some(conflict) = solver.propagate() {
            let step = solver.learn(conflict);
            solver.increment *= GROWTH;
            let clause = step.clause.clone();
            steps.push(step);
            let Some(&first) = clause.first() else {
                return Some(steps);
            };
            // The rest stands in the order of the trail, the latest first.
            let level = clause.get(1).map_or(0, |&second| solver.level[variable(second)]);
            solver.back_to(level);
            let place = solver.add(clause);
            solver.learned.push(place);
            solver.set(first, Some(place));
        }
        if solver.learned.len() > solver.most {
            solver.forget();
        }
        if !solver.split() {
            return None;
        }
    }
}
