//! All assignments of a small CNF that satisfy it, in two ways.

type Partial = Vec<Option<bool>>;

fn value(values: &Partial, literal: i32) -> Option<bool> {
    values[literal.unsigned_abs() as usize].map(|value| value == (literal > 0))
}

/// Sets what clauses force; false if a clause has become false.
fn propagate(clauses: &[&[i32]], values: &mut Partial) -> bool {
    let mut changed = true;
    while changed {
        changed = false;
        for clause in clauses {
            if clause.iter().any(|&l| value(values, l) == Some(true)) {
                continue;
            }
            let mut open = clause.iter().copied().filter(|&l| value(values, l).is_none());
            let Some(first) = open.next() else {
                return false;
            };
            if open.all(|l| l == first) {
                values[first.unsigned_abs() as usize] = Some(first > 0);
                changed = true;
            }
        }
    }
    true
}

fn split(clauses: &[&[i32]], mut values: Partial, found: &mut Vec<Vec<bool>>) {
    if !propagate(clauses, &mut values) {
        return;
    }
    let Some(variable) = (1..values.len()).find(|&v| values[v].is_none()) else {
        found.push(values.iter().map(|&value| value == Some(true)).collect());
        return;
    };
    for choice in [false, true] {
        values[variable] = Some(choice);
        split(clauses, values.clone(), found);
    }
}

/// All models, by splitting; entry v of a model is variable v, entry 0 is false.
pub fn all(variables: usize, clauses: &[&[i32]]) -> Vec<Vec<bool>> {
    let mut found = Vec::new();
    split(clauses, vec![None; variables + 1], &mut found);
    found
}

/// All models, by trying every assignment.
pub fn all_by_trying(variables: usize, clauses: &[&[i32]]) -> Vec<Vec<bool>> {
    assert!(variables <= 20, "too many variables to try all");
    let mut found = Vec::new();
    for number in 0..1usize << variables {
        let mut model = vec![false];
        model.extend((0..variables).rev().map(|bit| number >> bit & 1 == 1));
        let holds = |&l: &i32| model[l.unsigned_abs() as usize] == (l > 0);
        if clauses.iter().all(|clause| clause.iter().any(holds)) {
            found.push(model);
        }
    }
    found
}
