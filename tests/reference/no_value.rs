// Fields whose set has no variable and no value left (refusal 13 of Req 06).
use crate::arithmetic::{ends, set_has_variable, set_ranges};
use crate::syntax::{Construct, Kind, Rule};

// The first such uint or sint.
pub fn check(rules: &[Rule]) -> Result<(), usize> {
    let constructs = rules.iter().flat_map(|rule| rule.body.all());
    match constructs.into_iter().find(|construct| is_without_value(construct)) {
        Some(construct) => Err(construct.place),
        None => Ok(()),
    }
}

fn is_without_value(construct: &Construct) -> bool {
    match &construct.kind {
        Kind::Uint { signed, width, set, .. } => !set_has_variable(set) && set_ranges(set, ends(*signed, width.value as u32), &[]).is_empty(),
        _ => false,
    }
}
