// Frames for a grammar: random, derived from it by random choices, or derived and then damaged.
use crate::arithmetic::{ends, holds, passes, pattern_of_value, set_ranges};
use crate::bench::LONGEST_FRAME;
use crate::grammar::Grammar;
use crate::random::Random;
use crate::syntax::*;

pub fn frame(grammar: &Grammar, random: &mut Random) -> Vec<u8> {
    let mut frame = match random.below(8) {
        0 => (0..random.pick(&[0, 1, 2, 3, 5, 40, 256, LONGEST_FRAME])).map(|_| random.next() as u8).collect(),
        1..=4 => derived(grammar, random),
        _ => damaged(derived(grammar, random), random),
    };
    frame.truncate(LONGEST_FRAME);
    frame
}

fn damaged(mut frame: Vec<u8>, random: &mut Random) -> Vec<u8> {
    let at = random.index(frame.len() + 1);
    match random.below(5) {
        0 => frame.truncate(at),
        1 => frame.insert(at, random.next() as u8),
        2 if at < frame.len() => drop(frame.remove(at)),
        3 if at < frame.len() => frame[at] ^= 1 << random.below(8),
        _ => frame.extend_from_within(at..),
    }
    frame
}

struct Deriver<'g> {
    grammar: &'g Grammar,
    random: &'g mut Random,
    bits: Vec<bool>,
    values: Vec<i64>,
    fuel: usize, // ends derivations that would go on for too long
}

// A frame that the grammar derives, unless the choices led to a dead end or past the longest frame.
pub fn derived(grammar: &Grammar, random: &mut Random) -> Vec<u8> {
    let mut deriver = Deriver { grammar, random, bits: Vec::new(), values: vec![0; grammar.variables], fuel: 5000 };
    deriver.construct(&grammar.rules[0].body);
    let byte = |bits: &[bool]| (0..8).fold(0, |byte, i| byte * 2 + u8::from(bits.get(i) == Some(&true)));
    deriver.bits.chunks(8).take(LONGEST_FRAME).map(byte).collect()
}

impl Deriver<'_> {
    fn is_done(&self) -> bool {
        self.fuel == 0 || self.bits.len() > LONGEST_FRAME * 8
    }

    fn construct(&mut self, construct: &Construct) {
        if self.is_done() {
            return;
        }
        self.fuel -= 1;
        let grammar = self.grammar;
        match &construct.kind {
            Kind::Concatenation(members) => members.iter().for_each(|member| self.construct(member)),
            Kind::Alternative(branches) => {
                let branch = self.random.index(branches.len());
                self.construct(&branches[branch]);
            }
            Kind::Switch { cases, default } => {
                let case = cases.iter().find(|(condition, _)| holds(condition, &self.values)).map(|(_, case)| case);
                case.or(default.as_deref()).into_iter().for_each(|case| self.construct(case));
            }
            Kind::Use(name) => self.construct(&grammar.rules[name.target.get()].body),
            Kind::Repetition { body, counts, .. } => self.repetition(body, counts),
            Kind::Literal(bytes) => bytes.iter().for_each(|&byte| self.write(u64::from(byte), 8)),
            Kind::Range(from, to) => {
                let value = from + self.random.below(u64::from(to.saturating_sub(*from)) + 1) as u8;
                self.write(u64::from(value), 8);
            }
            Kind::Uint { signed, width, binder, set } => self.uint(*signed, width.value as u32, binder.as_ref(), set),
            Kind::Eod => {}
        }
    }

    fn repetition(&mut self, body: &Construct, counts: &Counts) {
        let Some(allowed) = passes(counts, &self.values) else { return };
        let more = self.random.below(4);
        let count = allowed.greatest.map_or(allowed.least + more, |greatest| greatest.min(allowed.least + more));
        for _ in 0..count {
            if self.is_done() {
                return;
            }
            self.construct(body);
        }
    }

    // Small values more often, since they are lengths and counts; also the ends of the range and what stands beside 0.
    fn uint(&mut self, signed: bool, width: u32, binder: Option<&Name>, set: &Set) {
        let all = ends(signed, width);
        let ranges = set_ranges(set, all, &self.values);
        let (from, to) = if ranges.is_empty() { all } else { self.random.pick(&ranges) };
        let value = match self.random.below(4) {
            0 => from + i128::from(self.random.next()) % (to - from + 1),
            1 => to.min(from + i128::from(self.random.below(5))),
            2 => (self.random.below(6) as i128 - 1).clamp(from, to),
            _ => self.random.pick(&[from, to]),
        };
        if let Some(name) = binder {
            self.values[name.target.get()] = value as i64;
        }
        self.write(pattern_of_value(width, value), width);
    }

    fn write(&mut self, value: u64, width: u32) {
        self.bits.extend((0..width).rev().map(|bit| value >> bit & 1 == 1));
    }
}
