// What each name means (refusal 6). All faults are gathered and the smallest place taken, since names in a rule may come after their use.
use crate::syntax::*;

const RESERVED: [&str; 21] = [
    "sized", "aligned", "reversed", "ordered", "byte_order", "bom_ordered", "peek", "offset", "var", "eod", "unicode", "uint", "sint", "float", "inf",
    "nan", "nzero", "ordering", "unicode_categories", "msb", "lsb",
];

// A binder of the rule at hand.
struct Binder<'g> {
    name: &'g Name,
    member: Option<usize>, // which top member it is; None where it is misplaced
    variable: usize,
}

// Sets the target of each name: a use its rule, a variable and its binder the binder's number in text order.
pub fn resolve(rules: &[Rule]) -> Result<(), usize> {
    let mut faults = Vec::new();
    let mut variables = 0;
    for (index, rule) in rules.iter().enumerate() {
        rule.name.target.set(index);
        if is_reserved(&rule.name) || rules[..index].iter().any(|earlier| earlier.name.text == rule.name.text) {
            faults.push(rule.name.place);
        }
        let binders = binders(&rule.body, &mut variables);
        check_binders(&binders, &mut faults);
        for (member, construct) in top_members(&rule.body).into_iter().enumerate() {
            for inner in construct.all() {
                resolve_use(inner, rules, &binders, &mut faults);
                resolve_variables(inner, member, &binders, &mut faults);
            }
        }
    }
    faults.into_iter().min().map_or(Ok(()), Err)
}

fn is_reserved(name: &Name) -> bool {
    RESERVED.contains(&name.text.as_str())
}

// The members of a top concatenation in no group; any other body is its own only member.
fn top_members(body: &Construct) -> Vec<&Construct> {
    match &body.kind {
        Kind::Concatenation(members) if !body.grouped => members.iter().collect(),
        _ => vec![body],
    }
}

fn binders<'g>(body: &'g Construct, variables: &mut usize) -> Vec<Binder<'g>> {
    let mut found = Vec::new();
    for (member, construct) in top_members(body).into_iter().enumerate() {
        for inner in construct.all() {
            if let Kind::Uint { binder: Some(name), .. } = &inner.kind {
                let at_top = std::ptr::eq(inner, construct) && !inner.grouped;
                name.target.set(*variables);
                found.push(Binder { name, member: at_top.then_some(member), variable: *variables });
                *variables += 1;
            }
        }
    }
    found
}

fn check_binders(binders: &[Binder], faults: &mut Vec<usize>) {
    for (index, binder) in binders.iter().enumerate() {
        let double = binders[..index].iter().any(|earlier| earlier.name.text == binder.name.text);
        if double || binder.member.is_none() || is_reserved(binder.name) {
            faults.push(binder.name.place);
        }
    }
}

// A use of a rule: a variable of the same name hides the rule.
fn resolve_use(construct: &Construct, rules: &[Rule], binders: &[Binder], faults: &mut Vec<usize>) {
    let Kind::Use(name) = &construct.kind else { return };
    let hidden = binders.iter().any(|binder| binder.name.text == name.text);
    match rules.iter().position(|rule| rule.name.text == name.text) {
        Some(rule) if !hidden && !is_reserved(name) => name.target.set(rule),
        _ => faults.push(name.place),
    }
}

// A use of a variable: only behind its binder, in a later member.
fn resolve_variables(construct: &Construct, member: usize, binders: &[Binder], faults: &mut Vec<usize>) {
    for operand in construct.calculations().into_iter().flat_map(Calculation::operands) {
        let Atom::Variable(name) = &operand.atom else { continue };
        let bound = binders.iter().find(|binder| binder.name.text == name.text && binder.member.is_some_and(|at| at < member));
        match bound {
            Some(binder) if !is_reserved(name) => name.target.set(binder.variable),
            _ => faults.push(name.place),
        }
    }
}
