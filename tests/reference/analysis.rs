// FIRST and FOLLOW (document 01's first and follow windows), and what they refuse: 9 and 10.
use crate::arithmetic::{passes, set_has_variable, set_patterns, Passes};
use crate::grammar::{Between, Refusal};
use crate::lookahead::{self, Strings};
use crate::recursion;
use crate::syntax::*;

// Sets by construct number.
#[derive(Debug)]
pub struct Analysis {
    pub first: Vec<Strings>,
    pub follow: Vec<Strings>,
    pub predict: Vec<Strings>, // of an alternative's branch: FIRST joined with FOLLOW; empty elsewhere
    pub again: Vec<Strings>,   // of a repetition: document 01's go; its stop is its FOLLOW. Empty elsewhere
}

pub fn analyse(rules: &[Rule], constructs: usize) -> Analysis {
    let first = firsts(rules, constructs);
    let follow = follows(rules, &first);
    let mut predict = vec![Strings::default(); constructs];
    let mut again = vec![Strings::default(); constructs];
    for construct in rules.iter().flat_map(|rule| rule.body.all()) {
        match &construct.kind {
            Kind::Alternative(branches) => {
                branches.iter().for_each(|branch| predict[branch.number] = first[branch.number].join(&follow[branch.number]));
            }
            Kind::Repetition { body, .. } => again[construct.number] = first[body.number].repeated(1, None).join(&follow[construct.number]),
            _ => {}
        }
    }
    Analysis { first, follow, predict, again }
}

fn firsts(rules: &[Rule], constructs: usize) -> Vec<Strings> {
    let mut known = vec![None; constructs];
    for rule in rules {
        first(&rule.body, rules, &mut known);
    }
    known.into_iter().map(Option::unwrap_or_default).collect()
}

// No rule reaches itself, so this ends.
fn first(construct: &Construct, rules: &[Rule], known: &mut Vec<Option<Strings>>) -> Strings {
    if let Some(strings) = known[construct.number] {
        return strings;
    }
    let parts: Vec<Strings> = construct.parts().into_iter().map(|part| first(part, rules, known)).collect();
    let strings = match &construct.kind {
        Kind::Alternative(_) | Kind::Switch { default: Some(_), .. } => union(Strings::default(), &parts),
        Kind::Switch { default: None, .. } => union(Strings::empty_string(), &parts),
        Kind::Concatenation(_) => parts.iter().fold(Strings::empty_string(), |all, part| all.join(part)),
        Kind::Repetition { counts, .. } => first_of_repetition(&parts[0], counts),
        Kind::Use(name) => first(&rules[name.target.get()].body, rules, known),
        Kind::Literal(bytes) => first_of_range(u64::from(bytes[0]), u64::from(bytes[0]), 8).collect(),
        Kind::Range(from, to) => first_of_range(u64::from(*from), u64::from(*to), 8).collect(),
        Kind::Uint { signed, width, set, .. } => first_of_uint(*signed, width.value as u32, set),
        Kind::Eod => Strings::empty_string(),
    };
    known[construct.number] = Some(strings);
    strings
}

fn union(some: Strings, parts: &[Strings]) -> Strings {
    parts.iter().fold(some, |all, part| all.union(part))
}

fn first_of_repetition(body: &Strings, counts: &Counts) -> Strings {
    let any = Passes { least: 0, greatest: None };
    let has_variable = counts.calculations().into_iter().any(Calculation::has_variable);
    let allowed = if has_variable { Some(any) } else { passes(counts, &[]) };
    let cut = |count: u64| count.min(u64::from(lookahead::LONGEST)) as u32;
    allowed.map_or(Strings::default(), |allowed| body.repeated(cut(allowed.least), allowed.greatest.map(cut)))
}

// The leading bits of the patterns of a range.
fn first_of_range(from: u64, to: u64, width: u32) -> impl Iterator<Item = u16> {
    let bits = width.min(lookahead::LONGEST);
    let hidden = width - bits;
    (from >> hidden..=to >> hidden).map(move |value| lookahead::string(value, bits))
}

fn first_of_uint(signed: bool, width: u32, set: &Set) -> Strings {
    let all = vec![(0, u64::MAX >> (64 - width))];
    let ranges = if set_has_variable(set) { all } else { set_patterns(set, signed, width, &[]) };
    ranges.into_iter().flat_map(|(from, to)| first_of_range(from, to, width)).collect()
}

fn follows(rules: &[Rule], first: &[Strings]) -> Vec<Strings> {
    let mut follow = vec![Strings::default(); first.len()];
    let mut of_rules = vec![Strings::default(); rules.len()];
    of_rules[0] = Strings::empty_string();
    for rule in users_first(rules) {
        set_follow(&rules[rule].body, of_rules[rule], first, &mut follow, &mut of_rules);
    }
    follow
}

// The rules in an order in which each stands before those it uses.
fn users_first(rules: &[Rule]) -> Vec<usize> {
    fn visit(rule: usize, uses: &[Vec<usize>], order: &mut Vec<usize>) {
        if !order.contains(&rule) {
            uses[rule].iter().for_each(|&used| visit(used, uses, order));
            order.push(rule);
        }
    }
    let uses = recursion::uses(rules);
    let mut order = Vec::new();
    (0..rules.len()).for_each(|rule| visit(rule, &uses, &mut order));
    order.reverse();
    order
}

fn set_follow(construct: &Construct, here: Strings, first: &[Strings], follow: &mut [Strings], of_rules: &mut [Strings]) {
    follow[construct.number] = here;
    match &construct.kind {
        Kind::Concatenation(members) => {
            let mut after = here;
            for member in members.iter().rev() {
                set_follow(member, after, first, follow, of_rules);
                after = first[member.number].join(&after);
            }
        }
        Kind::Repetition { body, .. } => {
            let after = first[body.number].repeated(0, None).join(&here);
            set_follow(body, after, first, follow, of_rules);
        }
        Kind::Use(name) => of_rules[name.target.get()] = of_rules[name.target.get()].union(&here),
        _ => construct.parts().into_iter().for_each(|part| set_follow(part, here, first, follow, of_rules)),
    }
}

// Refusal 9: the smallest mark of a repetition whose body may take no bit.
pub fn check_bodies(rules: &[Rule], analysis: &Analysis) -> Result<(), usize> {
    let fault = |construct: &Construct| match &construct.kind {
        Kind::Repetition { body, mark, .. } if analysis.first[body.number].contains(lookahead::EMPTY_STRING) => Some(*mark),
        _ => None,
    };
    let faults = rules.iter().flat_map(|rule| rule.body.all()).filter_map(fault);
    faults.min().map_or(Ok(()), Err)
}

// Refusal 10: the first construct that lookahead does not decide.
pub fn check_conflicts(rules: &[Rule], analysis: &Analysis) -> Result<(), Refusal> {
    for construct in rules.iter().flat_map(|rule| rule.body.all()) {
        if let Some((window, between)) = conflict(construct, analysis) {
            return Err(Refusal { number: 10, place: construct.place, window: Some(window), between: Some(between) });
        }
    }
    Ok(())
}

// The least common string, and the first two branches that share it.
fn conflict(construct: &Construct, analysis: &Analysis) -> Option<(u16, Between)> {
    match &construct.kind {
        Kind::Alternative(branches) => {
            let sets: Vec<&Strings> = branches.iter().map(|branch| &analysis.predict[branch.number]).collect();
            let pairs = (0..sets.len()).flat_map(|i| (i + 1..sets.len()).map(move |j| (i, j)));
            let shared = pairs.filter_map(|(i, j)| Some((sets[i].least_common(sets[j])?, Between::Branches(i, j))));
            shared.min_by_key(|(window, _)| *window)
        }
        Kind::Repetition { counts: Counts::Exactly(_), .. } => None,
        Kind::Repetition { .. } => {
            let common = analysis.again[construct.number].least_common(&analysis.follow[construct.number])?;
            Some((common, Between::ContinueAndExit))
        }
        _ => None,
    }
}
