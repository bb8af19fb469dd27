// The run step by step, as document 01's "Steps and weight" tells it: a list of what is still to do, of which each step takes the first entry.
use crate::arithmetic::{holds, passes};
use crate::grammar::Grammar;
use crate::limits::CONSTRUCTS;
use crate::matcher::{bound, compare, upcoming, Outcome, Verdict};
use crate::syntax::*;

#[derive(Debug, Clone, Copy)]
enum Entry<'g> {
    Start, // the opening use of the start rule, no construct
    Part { construct: &'g Construct, passes: u64 },
}

#[derive(Debug, Clone)]
pub struct Machine<'g> {
    grammar: &'g Grammar,
    frame: &'g [u8],
    list: Vec<Entry<'g>>, // the first entry stands last
    pub run: Outcome,
}

fn fresh(construct: &Construct) -> Entry<'_> {
    Entry::Part { construct, passes: 0 }
}

impl<'g> Machine<'g> {
    pub fn open(grammar: &'g Grammar, frame: &'g [u8]) -> Machine<'g> {
        let run = Outcome { verdict: Verdict::Undecided, steps: 0, position: 0, values: vec![0; grammar.variables], reading: Vec::new() };
        Machine { grammar, frame, list: vec![Entry::Start], run }
    }

    // The list as construct numbers and passes, the first entry first. The opening use has the number after the last construct's limit.
    pub fn entries(&self) -> Vec<(usize, u64)> {
        let numbers = |entry: &Entry| match entry {
            Entry::Start => (CONSTRUCTS, 0),
            Entry::Part { construct, passes } => (construct.number, *passes),
        };
        self.list.iter().rev().map(numbers).collect()
    }

    // Takes at most so many steps and says how many it took.
    pub fn grant(&mut self, steps: u64) -> u64 {
        let before = self.run.steps;
        while self.run.steps - before < steps && self.run.verdict == Verdict::Undecided {
            self.step();
        }
        self.run.steps - before
    }

    // One step of an undecided run. Where it fails only the verdict and the count of steps change.
    fn step(&mut self) {
        self.run.steps += 1;
        let Some(&first) = self.list.last() else { return };
        match self.replacement(first) {
            None => self.run.verdict = Verdict::NoMatch,
            Some(entries) => {
                self.list.pop();
                self.list.extend(entries.into_iter().rev());
                if self.list.is_empty() {
                    let end = self.run.position == self.frame.len() * 8;
                    self.run.verdict = if end { Verdict::Match } else { Verdict::NoMatch };
                }
            }
        }
    }

    // What takes the first entry's place, in order; None where the step fails.
    fn replacement(&mut self, entry: Entry<'g>) -> Option<Vec<Entry<'g>>> {
        let Entry::Part { construct, passes } = entry else { return Some(vec![fresh(&self.grammar.rules[0].body)]) };
        match &construct.kind {
            Kind::Use(name) => Some(vec![fresh(&self.grammar.rules[name.target.get()].body)]),
            Kind::Concatenation(members) => Some(members.iter().map(fresh).collect()),
            Kind::Switch { cases, default } => {
                let case = cases.iter().find(|(condition, _)| holds(condition, &self.run.values)).map(|(_, case)| case);
                Some(case.or(default.as_deref()).into_iter().map(fresh).collect())
            }
            Kind::Alternative(branches) => {
                let next = upcoming(self.frame, self.run.position);
                let branch = branches.iter().find(|branch| self.grammar.analysis.predict[branch.number].contains(next))?;
                Some(vec![fresh(branch)])
            }
            Kind::Repetition { body, counts, .. } => {
                let again = vec![fresh(body), Entry::Part { construct, passes: passes + 1 }];
                Some(if self.goes_on(construct, counts, passes)? { again } else { Vec::new() })
            }
            _ => self.field(construct),
        }
    }

    // Whether a repetition takes another pass; None where it can neither go on nor stop.
    fn goes_on(&self, construct: &Construct, counts: &Counts, done: u64) -> Option<bool> {
        let allowed = passes(counts, &self.run.values)?;
        if done < allowed.least {
            return Some(true);
        }
        if allowed.greatest.is_some_and(|greatest| done >= greatest) {
            return Some(false);
        }
        let next = upcoming(self.frame, self.run.position);
        let goes = self.grammar.analysis.again[construct.number].contains(next);
        let stops = self.grammar.analysis.follow[construct.number].contains(next);
        (goes || stops).then_some(goes)
    }

    fn field(&mut self, construct: &'g Construct) -> Option<Vec<Entry<'g>>> {
        let length = compare(construct, self.frame, self.run.position, &self.run.values)?;
        if let Kind::Uint { signed, binder: Some(name), .. } = &construct.kind {
            self.run.values[name.target.get()] = bound(*signed, self.frame, self.run.position, length);
        }
        if !matches!(construct.kind, Kind::Eod) {
            self.run.reading.push((construct.number, self.run.position));
        }
        self.run.position += length;
        Some(Vec::new())
    }
}
