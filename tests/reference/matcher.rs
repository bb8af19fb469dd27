// The run by recursion: each construct is a call, and a call is a step.
use crate::arithmetic::{holds, passes, set_contains, value_of_pattern};
use crate::grammar::Grammar;
use crate::lookahead;
use crate::syntax::*;

#[derive(Debug, Clone, Copy, PartialEq, Eq)]
pub enum Verdict {
    Undecided,
    Match,
    NoMatch,
}

#[derive(Debug, Clone, PartialEq, Eq)]
pub struct Outcome {
    pub verdict: Verdict,
    pub steps: u64,
    pub position: usize,              // in bits
    pub values: Vec<i64>,             // by binder in text order
    pub reading: Vec<(usize, usize)>, // construct number, first bit
}

// Why the recursion ends early.
enum Stop {
    NoMatch,
    NoStepsLeft,
}

struct Matcher<'g> {
    grammar: &'g Grammar,
    frame: &'g [u8],
    granted: u64,
    outcome: Outcome,
}

// The run after at most so many steps.
pub fn run(grammar: &Grammar, frame: &[u8], granted: u64) -> Outcome {
    let outcome = Outcome { verdict: Verdict::Undecided, steps: 0, position: 0, values: vec![0; grammar.variables], reading: Vec::new() };
    let mut matcher = Matcher { grammar, frame, granted, outcome };
    let verdict = match matcher.rule(0) {
        Ok(()) if matcher.outcome.position == frame.len() * 8 => Verdict::Match,
        Ok(()) | Err(Stop::NoMatch) => Verdict::NoMatch,
        Err(Stop::NoStepsLeft) => Verdict::Undecided,
    };
    Outcome { verdict, ..matcher.outcome }
}

impl Matcher<'_> {
    fn step(&mut self) -> Result<(), Stop> {
        if self.outcome.steps == self.granted {
            return Err(Stop::NoStepsLeft);
        }
        self.outcome.steps += 1;
        Ok(())
    }

    fn rule(&mut self, rule: usize) -> Result<(), Stop> {
        let grammar = self.grammar;
        self.step()?;
        self.construct(&grammar.rules[rule].body)
    }

    fn construct(&mut self, construct: &Construct) -> Result<(), Stop> {
        match &construct.kind {
            Kind::Use(name) => return self.rule(name.target.get()),
            Kind::Repetition { body, counts, .. } => return self.repetition(construct, body, counts),
            _ => self.step()?,
        }
        match &construct.kind {
            Kind::Concatenation(members) => members.iter().try_for_each(|member| self.construct(member)),
            Kind::Alternative(branches) => {
                let next = upcoming(self.frame, self.outcome.position);
                let predict = &self.grammar.analysis.predict;
                let branch = branches.iter().find(|branch| predict[branch.number].contains(next));
                self.construct(branch.ok_or(Stop::NoMatch)?)
            }
            Kind::Switch { cases, default } => {
                let case = cases.iter().find(|(condition, _)| holds(condition, &self.outcome.values));
                let chosen = case.map(|(_, case)| case).or(default.as_deref());
                chosen.map_or(Ok(()), |case| self.construct(case))
            }
            _ => self.leaf(construct),
        }
    }

    fn repetition(&mut self, construct: &Construct, body: &Construct, counts: &Counts) -> Result<(), Stop> {
        let mut done = 0;
        loop {
            self.step()?;
            let allowed = passes(counts, &self.outcome.values).ok_or(Stop::NoMatch)?;
            if done >= allowed.least {
                let next = upcoming(self.frame, self.outcome.position);
                let analysis = &self.grammar.analysis;
                if allowed.greatest.is_some_and(|greatest| done >= greatest) {
                    return Ok(());
                } else if !analysis.again[construct.number].contains(next) {
                    let exit = analysis.follow[construct.number].contains(next);
                    return if exit { Ok(()) } else { Err(Stop::NoMatch) };
                }
            }
            self.construct(body)?;
            done += 1;
        }
    }

    fn leaf(&mut self, construct: &Construct) -> Result<(), Stop> {
        let length = compare(construct, self.frame, self.outcome.position, &self.outcome.values).ok_or(Stop::NoMatch)?;
        if let Kind::Uint { signed, binder: Some(name), .. } = &construct.kind {
            self.outcome.values[name.target.get()] = bound(*signed, self.frame, self.outcome.position, length);
        }
        if !matches!(construct.kind, Kind::Eod) {
            self.outcome.reading.push((construct.number, self.outcome.position));
        }
        self.outcome.position += length;
        Ok(())
    }
}

// How many bits a field or eod takes at a position; None where it does not hold.
pub fn compare(construct: &Construct, frame: &[u8], position: usize, values: &[i64]) -> Option<usize> {
    let length = match &construct.kind {
        Kind::Literal(bytes) => bytes.len() * 8,
        Kind::Range(..) => 8,
        Kind::Uint { width, .. } => width.value as usize,
        _ => return (position == frame.len() * 8).then_some(0),
    };
    if position + length > frame.len() * 8 {
        return None;
    }
    let holds = match &construct.kind {
        Kind::Literal(bytes) => bytes.iter().enumerate().all(|(i, &byte)| bits(frame, position + i * 8, 8) == u64::from(byte)),
        Kind::Range(from, to) => (u64::from(*from)..=u64::from(*to)).contains(&bits(frame, position, 8)),
        Kind::Uint { signed, set, .. } => set_contains(set, value_of_pattern(*signed, length as u32, bits(frame, position, length)), values),
        _ => false,
    };
    holds.then_some(length)
}

// What a binder binds: a value of at most 62 bits.
pub fn bound(signed: bool, frame: &[u8], from: usize, width: usize) -> i64 {
    value_of_pattern(signed, width as u32, bits(frame, from, width)) as i64
}

// Bits of the frame as a number, the most significant first.
pub fn bits(frame: &[u8], from: usize, count: usize) -> u64 {
    (from..from + count).fold(0, |value, bit| value * 2 + u64::from(frame[bit / 8] >> (7 - bit % 8) & 1))
}

// What comes next: 8 bits, or all that are left.
pub fn upcoming(frame: &[u8], position: usize) -> u16 {
    let count = (frame.len() * 8 - position).min(lookahead::LONGEST as usize);
    lookahead::string(bits(frame, position, count), count as u32)
}
