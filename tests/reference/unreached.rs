// Rules that the start rule does not reach (refusal 12 of Req 06).
use crate::recursion::{reached, uses};
use crate::syntax::Rule;

// The first such rule's name.
pub fn check(rules: &[Rule]) -> Result<(), usize> {
    let reached = reached(&uses(rules), 0);
    // The start rule itself need not be used.
    match (1..rules.len()).find(|&rule| !reached[rule]) {
        Some(rule) => Err(rules[rule].name.place),
        None => Ok(()),
    }
}
