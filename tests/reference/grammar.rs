// Admission: a grammar text is refused by a number and a place, or read.
use crate::analysis::Analysis;
use crate::syntax::Rule;
use crate::{analysis, header, limits, names, no_value, numbers, parser, recursion, unreached, weight};

pub const LONGEST_TEXT: usize = 8192;

#[derive(Debug, Clone, PartialEq, Eq)]
pub struct Refusal {
    pub number: u8,
    pub place: usize,
    pub window: Option<u16>, // refusal 10's least common lookahead string
    pub between: Option<Between>,
}

// What shares the least common string of refusal 10.
#[derive(Debug, Clone, Copy, PartialEq, Eq)]
pub enum Between {
    Branches(usize, usize), // the first such pair, counted from 0
    ContinueAndExit,        // document 01's go and stop
}

#[derive(Debug)]
pub struct Grammar {
    pub rules: Vec<Rule>,
    pub constructs: usize,
    pub variables: usize,
    pub weight: u64,
    pub analysis: Analysis,
}

pub(crate) fn refuse<T>(number: u8, place: usize) -> Result<T, Refusal> {
    Err(Refusal { number, place, window: None, between: None })
}

pub fn admit(text: &[u8]) -> Result<Grammar, Refusal> {
    if text.is_empty() || text.len() > LONGEST_TEXT {
        return refuse(2, 0);
    }
    let rules_from = header::check(text).or_else(|place| refuse(3, place))?;
    let rules = parser::parse(text, rules_from).or_else(|place| refuse(4, place))?;
    let totals = limits::check(&rules).or_else(|place| refuse(5, place))?;
    names::resolve(&rules).or_else(|place| refuse(6, place))?;
    recursion::check(&rules).or_else(|place| refuse(7, place))?;
    numbers::check(&rules, totals.variables).or_else(|place| refuse(8, place))?;
    let analysis = analysis::analyse(&rules, totals.constructs);
    analysis::check_bodies(&rules, &analysis).or_else(|place| refuse(9, place))?;
    analysis::check_conflicts(&rules, &analysis)?;
    let weight = weight::of_grammar(&rules);
    if weight > weight::LARGEST {
        return refuse(11, rules[0].name.place);
    }
    unreached::check(&rules).or_else(|place| refuse(12, place))?;
    no_value::check(&rules).or_else(|place| refuse(13, place))?;
    Ok(Grammar { rules, constructs: totals.constructs, variables: totals.variables, weight, analysis })
}
