// Weight (refusal 11): an upper bound of the steps for each bit.
use crate::syntax::*;

pub const LARGEST: u64 = 65_535;

// The weight of a use of the start rule, saturated: rules used twice make it grow exponentially.
pub fn of_grammar(rules: &[Rule]) -> u64 {
    let mut bodies = vec![None; rules.len()];
    of_use(0, rules, &mut bodies)
}

fn of_use(rule: usize, rules: &[Rule], bodies: &mut Vec<Option<u64>>) -> u64 {
    let body = match bodies[rule] {
        Some(known) => known,
        None => of_construct(&rules[rule].body, rules, bodies),
    };
    bodies[rule] = Some(body);
    body.saturating_add(1)
}

fn of_construct(construct: &Construct, rules: &[Rule], bodies: &mut Vec<Option<u64>>) -> u64 {
    if let Kind::Use(name) = &construct.kind {
        return of_use(name.target.get(), rules, bodies);
    }
    let parts = construct.parts().into_iter().map(|part| of_construct(part, rules, bodies));
    match &construct.kind {
        Kind::Concatenation(_) => parts.fold(1, u64::saturating_add),
        Kind::Repetition { .. } => parts.fold(1, |sum, body| body.saturating_mul(2).saturating_add(sum)),
        _ => parts.max().unwrap_or(0).saturating_add(1), // an alternative or switch; a field or eod has no parts
    }
}
