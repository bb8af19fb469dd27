// Frames of so many bytes that a grammar derives, by random choices.
use reference::arithmetic::{ends, holds, passes, pattern_of_value, set_ranges};
use reference::grammar::Grammar;
use reference::random::Random;
use reference::syntax::*;
use std::ops::RangeInclusive;

const TRIES: usize = 10_000;

// So many frames; every second one has one bit changed.
pub fn frames(grammar: &Grammar, count: usize, lengths: &RangeInclusive<usize>, random: &mut Random) -> Vec<Vec<u8>> {
    let mut all: Vec<Vec<u8>> = (0..count).map(|_| frame(grammar, lengths, random)).collect();
    for frame in all.iter_mut().skip(1).step_by(2) {
        let bit = random.index(8 * frame.len());
        frame[bit / 8] ^= 128 >> (bit % 8);
    }
    all
}

fn frame(grammar: &Grammar, lengths: &RangeInclusive<usize>, random: &mut Random) -> Vec<u8> {
    for _ in 0..TRIES {
        let aim = 8 * (lengths.start() + random.index(lengths.end() + 1 - lengths.start()));
        let mut deriver = Deriver { grammar, random, aim, bits: Vec::new(), values: vec![0; grammar.variables] };
        deriver.construct(&grammar.rules[0].body);
        if deriver.bits.len() % 8 == 0 && lengths.contains(&(deriver.bits.len() / 8)) {
            return deriver.bits.chunks(8).map(|bits| bits.iter().fold(0, |byte, &bit| byte * 2 + u8::from(bit))).collect();
        }
    }
    panic!("no frame of {lengths:?} bytes in {TRIES} tries");
}

struct Deriver<'g> {
    grammar: &'g Grammar,
    random: &'g mut Random,
    aim: usize, // passes without a greatest number go on up to so many bits
    bits: Vec<bool>,
    values: Vec<i64>,
}

impl Deriver<'_> {
    fn construct(&mut self, construct: &Construct) {
        let grammar = self.grammar;
        match &construct.kind {
            Kind::Concatenation(members) => members.iter().for_each(|member| self.construct(member)),
            Kind::Alternative(branches) => {
                let branch = self.random.index(branches.len());
                self.construct(&branches[branch]);
            }
            Kind::Switch { cases, default } => {
                let case = cases.iter().find(|(condition, _)| holds(condition, &self.values)).map(|(_, case)| case);
                case.or(default.as_deref()).into_iter().for_each(|case| self.construct(case));
            }
            Kind::Use(name) => self.construct(&grammar.rules[name.target.get()].body),
            Kind::Repetition { body, counts, .. } => self.repetition(body, counts),
            Kind::Literal(bytes) => bytes.iter().for_each(|&byte| self.write(u64::from(byte), 8)),
            Kind::Range(from, to) => {
                let value = from + self.random.index(usize::from(to - from) + 1) as u8;
                self.write(u64::from(value), 8);
            }
            Kind::Uint { signed, width, binder, set } => self.uint(*signed, width.value as u32, binder.as_ref(), set),
            Kind::Eod => {}
        }
    }

    fn repetition(&mut self, body: &Construct, counts: &Counts) {
        let allowed = passes(counts, &self.values).expect("an allowed count");
        let drawn = allowed.greatest.map(|greatest| allowed.least + self.random.below(greatest - allowed.least + 1));
        let mut done = 0;
        while drawn.map_or(done < allowed.least || self.bits.len() < self.aim, |drawn| done < drawn) {
            self.construct(body);
            done += 1;
        }
    }

    fn uint(&mut self, signed: bool, width: u32, binder: Option<&Name>, set: &Set) {
        let ranges = set_ranges(set, ends(signed, width), &self.values);
        let (from, to) = self.random.pick(&ranges);
        let value = from + i128::from(self.random.next()) % (to - from + 1);
        if let Some(name) = binder {
            self.values[name.target.get()] = value as i64;
        }
        self.write(pattern_of_value(width, value), width);
    }

    fn write(&mut self, value: u64, width: u32) {
        self.bits.extend((0..width).rev().map(|bit| value >> bit & 1 == 1));
    }
}
