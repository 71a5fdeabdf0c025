//! The numbers of a problem's CNF by closed forms, from what the check meets on its way: no word is looked at twice.

use super::problem::Problem;

/// How many variables, clauses and words a CNF has.
#[derive(Clone, Copy, PartialEq, Eq, Debug, Default)]
pub struct Counts {
    pub variables: usize,
    pub clauses: usize,
    pub words: usize,
}

/// The clauses of a part of the CNF, and their words.
#[derive(Clone, Copy, Default)]
pub struct Size {
    clauses: usize,
    words: usize,
}

impl Size {
    pub const fn plus(self, other: Size) -> Size {
        Size { clauses: self.clauses + other.clauses, words: self.words + other.words }
    }

    const fn times(self, count: usize) -> Size {
        Size { clauses: self.clauses * count, words: self.words * count }
    }
}

/// A clause of so many literals.
const fn clause(literals: usize) -> Size {
    Size { clauses: 1, words: literals + 1 }
}

/// The forms x = a, "or" and Until, and both clauses of -s and x = a.
const EQUAL: Size = clause(2).times(2);
const OR: Size = clause(2).times(2).plus(clause(3));
const UNTIL: Size = clause(2).plus(clause(3).times(3));
const SELECTED: Size = clause(3).times(2);

/// The forms of each op at one position, that of P and that of Q.
pub const FORMS: [Size; 8] = {
    let (equal, or, until) = (EQUAL.plus(EQUAL), OR.plus(EQUAL), UNTIL.plus(UNTIL));
    [equal, or, or, equal, until, until, until, until]
};

/// Items 1 to 8 in order, the constraints after item 2, from the number of fixed resets and the size of all nodes' forms at one position.
pub fn counts(problem: &Problem, fixed: usize, forms: Size) -> Counts {
    let Problem { latches, gates, constraints, nodes, bound, .. } = problem;
    let (latches, gates, nodes, positions) = (latches.len(), gates.len(), nodes.len(), bound + 1);
    let items = [
        clause(1),
        OR.times(positions * gates),
        clause(1).times(positions * constraints.len()),
        clause(1).times(fixed),
        EQUAL.times(bound * latches),
        SELECTED.times(positions * latches),
        clause(2).times(positions * bound / 2),
        forms.times(positions).plus(SELECTED.times(positions).plus(clause(positions + 1)).times(nodes)),
        clause(1),
    ];
    let Size { clauses, words } = items.into_iter().fold(Size::default(), Size::plus);
    let variables = 1 + positions * (problem.width() + 1) + nodes * (2 * positions + 1);
    Counts { variables, clauses, words }
}
