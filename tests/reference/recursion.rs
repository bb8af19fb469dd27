// Rules that reach themselves (refusal 7).
use crate::syntax::{Kind, Rule};

// The rules that each rule's body uses, written anywhere.
pub fn uses(rules: &[Rule]) -> Vec<Vec<usize>> {
    let of_rule = |rule: &Rule| {
        let used = rule.body.all().into_iter().filter_map(|c| if let Kind::Use(name) = &c.kind { Some(name.target.get()) } else { None });
        used.collect()
    };
    rules.iter().map(of_rule).collect()
}

pub fn check(rules: &[Rule]) -> Result<(), usize> {
    let uses = uses(rules);
    match (0..rules.len()).find(|&rule| reached(&uses, rule)[rule]) {
        Some(rule) => Err(rules[rule].name.place),
        None => Ok(()),
    }
}

// Which rules one or more uses lead to from this one.
pub fn reached(uses: &[Vec<usize>], from: usize) -> Vec<bool> {
    let mut reached = vec![false; uses.len()];
    let mut open = uses[from].clone();
    while let Some(rule) = open.pop() {
        if !reached[rule] {
            reached[rule] = true;
            open.extend(&uses[rule]);
        }
    }
    reached
}
