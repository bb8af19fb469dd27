// How much a grammar may hold (refusal 5).
use crate::syntax::*;

pub const RULES: usize = 64;
pub const CONSTRUCTS: usize = 256;
pub const VARIABLES: usize = 64;
pub const TERMS: usize = 1024;

#[derive(Debug, Clone, Copy, Default)]
pub struct Totals {
    pub rules: usize,
    pub constructs: usize,
    pub variables: usize,
    pub terms: usize, // numbers, variable uses and signs in sets, counts and conditions
}

// The totals, or the place of the first rule in which one passes its limit.
pub fn check(rules: &[Rule]) -> Result<Totals, usize> {
    let mut totals = Totals::default();
    for rule in rules {
        totals.rules += 1;
        for construct in rule.body.all() {
            totals.constructs += 1;
            totals.variables += usize::from(matches!(construct.kind, Kind::Uint { binder: Some(_), .. }));
            totals.terms += of_construct(construct);
        }
        if totals.rules > RULES || totals.constructs > CONSTRUCTS || totals.variables > VARIABLES || totals.terms > TERMS {
            return Err(rule.name.place);
        }
    }
    Ok(totals)
}

fn of_construct(construct: &Construct) -> usize {
    match &construct.kind {
        Kind::Uint { set, .. } => of_set(set),
        Kind::Repetition { counts, .. } => {
            let tilde = usize::from(matches!(counts, Counts::Between(..)));
            tilde + counts.calculations().into_iter().map(of_calculation).sum::<usize>()
        }
        Kind::Switch { cases, .. } => cases.iter().map(|(condition, _)| of_condition(condition)).sum(),
        _ => 0,
    }
}

fn of_set(set: &Set) -> usize {
    let of_alternative = |(item, exclusion): &(Item, Option<Exclusion>)| {
        of_item(item)
            + match exclusion {
                None => 0,
                Some(Exclusion::Item(item)) => 1 + of_item(item),
                Some(Exclusion::Set(set)) => 1 + of_set(set),
            }
    };
    set.0.len() - 1 + set.0.iter().map(of_alternative).sum::<usize>()
}

fn of_item(item: &Item) -> usize {
    let tilde = usize::from(matches!(item, Item::Span(..)));
    tilde + item.calculations().into_iter().map(of_calculation).sum::<usize>()
}

// A calculation of n operands has n - 1 signs between them.
fn of_calculation(calculation: &Calculation) -> usize {
    let operands: usize = calculation.operands().map(|operand| 1 + usize::from(operand.negated)).sum();
    operands + calculation.operands().count() - 1
}

fn of_condition(condition: &Condition) -> usize {
    match condition {
        Condition::Compare(left, _, right) => 1 + of_calculation(left) + of_calculation(right),
        Condition::All(parts) | Condition::Any(parts) => parts.len() - 1 + parts.iter().map(of_condition).sum::<usize>(),
    }
}
