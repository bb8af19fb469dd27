// Derivations of a frame by their definition: every choice is tried, without windows, steps or weight. Slow, and only for tests.
use crate::arithmetic::{holds, passes};
use crate::grammar::Grammar;
use crate::matcher::{bound, compare};
use crate::syntax::*;

// How far a partial derivation has come.
#[derive(Debug, Clone, PartialEq, Eq)]
pub struct Derivation {
    pub position: usize,
    pub values: Vec<i64>,
    pub reading: Vec<(usize, usize)>,
}

struct Search<'g> {
    grammar: &'g Grammar,
    frame: &'g [u8],
    fuel: usize,
}

// All derivations that cover the frame; None where there is too much to try.
pub fn derivations(grammar: &Grammar, frame: &[u8], fuel: usize) -> Option<Vec<Derivation>> {
    let mut search = Search { grammar, frame, fuel };
    let start = Derivation { position: 0, values: vec![0; grammar.variables], reading: Vec::new() };
    let mut ends = search.ends(&grammar.rules[0].body, &start)?;
    ends.retain(|end| end.position == frame.len() * 8);
    Some(ends)
}

impl Search<'_> {
    // Every way in which a construct goes on from here.
    fn ends(&mut self, construct: &Construct, from: &Derivation) -> Option<Vec<Derivation>> {
        self.fuel = self.fuel.checked_sub(1)?;
        let grammar = self.grammar;
        match &construct.kind {
            Kind::Use(name) => self.ends(&grammar.rules[name.target.get()].body, from),
            Kind::Concatenation(members) => {
                members.iter().try_fold(vec![from.clone()], |ends, member| self.all_ends(member, &ends))
            }
            Kind::Alternative(branches) => {
                let ends: Option<Vec<_>> = branches.iter().map(|branch| self.ends(branch, from)).collect();
                Some(ends?.concat())
            }
            Kind::Switch { cases, default } => {
                let case = cases.iter().find(|(condition, _)| holds(condition, &from.values)).map(|(_, case)| case);
                case.or(default.as_deref()).map_or(Some(vec![from.clone()]), |case| self.ends(case, from))
            }
            Kind::Repetition { body, counts, .. } => self.repetition(body, counts, from),
            _ => Some(self.leaf(construct, from).into_iter().collect()),
        }
    }

    fn all_ends(&mut self, construct: &Construct, from: &[Derivation]) -> Option<Vec<Derivation>> {
        let ends: Option<Vec<_>> = from.iter().map(|from| self.ends(construct, from)).collect();
        Some(ends?.concat())
    }

    // Each pass takes a bit (refusal 9), so the passes come to an end.
    fn repetition(&mut self, body: &Construct, counts: &Counts, from: &Derivation) -> Option<Vec<Derivation>> {
        let Some(allowed) = passes(counts, &from.values) else { return Some(Vec::new()) };
        let mut found = Vec::new();
        let mut ends = vec![from.clone()];
        for done in 0.. {
            if done >= allowed.least {
                found.extend_from_slice(&ends);
            }
            if ends.is_empty() || allowed.greatest == Some(done) {
                break;
            }
            ends = self.all_ends(body, &ends)?;
        }
        Some(found)
    }

    fn leaf(&self, construct: &Construct, from: &Derivation) -> Option<Derivation> {
        let length = compare(construct, self.frame, from.position, &from.values)?;
        let mut end = from.clone();
        if let Kind::Uint { signed, binder: Some(name), .. } = &construct.kind {
            end.values[name.target.get()] = bound(*signed, self.frame, from.position, length);
        }
        if !matches!(construct.kind, Kind::Eod) {
            end.reading.push((construct.number, from.position));
        }
        end.position += length;
        Some(end)
    }
}
