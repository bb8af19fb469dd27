// What grants answer, as one number: two builds of the library that print the same have answered alike. Grants of all sizes over the grammars of the vectors and of
// tests/speed and over random ones, and over forged tables and runs. Of a run both its bytes and what the questions say of it are taken in, the second by itself too, for
// a library that saves runs otherwise.
use crate::calls::{self, RUN_BYTES, TABLE_WORDS};
use crate::forged;
use crate::frames::frames;
use crate::guarded::Guarded;
use crate::texts;
use reference::grammar::{admit, Grammar};
use reference::random::Random;
use reference::{random_frame, random_grammar};
use std::ops::RangeInclusive;
use std::path::Path;

const VARIABLES: usize = 64;
const GRANTS: usize = 200; // of a case, at most
const FRAMES: usize = 4; // of a grammar
const LENGTHS: RangeInclusive<usize> = 64..=1024; // of the frames of tests/speed

#[derive(Clone, Copy)]
struct Hash(u64);

impl Hash {
    fn add(&mut self, word: u64) {
        self.0 = (self.0 ^ word).wrapping_mul(0x9e37_79b9_7f4a_7c15).rotate_left(29);
    }

    fn bytes(&mut self, bytes: &[u8]) {
        bytes.chunks(8).for_each(|chunk| self.add(chunk.iter().rev().fold(0, |word, &byte| word << 8 | u64::from(byte))));
    }

    fn words(&mut self, words: &[u32]) {
        words.iter().for_each(|&word| self.add(u64::from(word)));
    }
}

// What is told, and the same with the bytes of runs and tables.
struct Answers {
    told: Hash,
    saved: Hash,
    grants: u64,
    steps: u64,
    verdicts: [u64; 5],
    refused: u64,
}

pub fn report(vectors: &Path, own: &Path, seed: u64, cases: u64, listed: bool) {
    let mut answers = Answers { told: Hash(seed), saved: Hash(seed), grants: 0, steps: 0, verdicts: [0; 5], refused: 0 };
    let (from_vectors, from_own) = (admitted(vectors), admitted(own));
    for case in seed..seed + cases {
        let mut random = Random::new(case);
        match random.below(6) {
            0 | 1 => {
                let (text, grammar) = &from_vectors[random.index(from_vectors.len())];
                answers.sound(text, grammar, &mut random, random_frame::frame);
            }
            2 | 3 => {
                let text = random_grammar::text(&mut random);
                if let Ok(grammar) = admit(&text) {
                    answers.sound(&text, &grammar, &mut random, random_frame::frame);
                }
            }
            4 => answers.forged(&mut random),
            _ => {
                let (text, grammar) = &from_own[random.index(from_own.len())];
                answers.sound(text, grammar, &mut random, |grammar, random| frames(grammar, 2, &LENGTHS, random).swap_remove(random.index(2)));
            }
        }
        if listed {
            println!("{case} {:016x} {:016x}", answers.told.0, answers.saved.0);
        }
    }
    let Answers { told, saved, grants, steps, verdicts, refused } = answers;
    println!(
        "speed: {cases} cases, {grants} grants, {refused} refused, {steps} steps, verdicts from undecided to broken {verdicts:?}: told {:016x}, with saved runs and tables {:016x}",
        told.0, saved.0
    );
}

// The texts below a folder that the reference admits.
fn admitted(folder: &Path) -> Vec<(Vec<u8>, Grammar)> {
    texts::below(folder).into_iter().filter_map(|text| admit(&text).ok().map(|grammar| (text, grammar))).collect()
}

impl Answers {
    fn sound(&mut self, text: &[u8], grammar: &Grammar, random: &mut Random, frame: impl Fn(&Grammar, &mut Random) -> Vec<u8>) {
        let mut table = Guarded::new(&[0; TABLE_WORDS]);
        let answer = calls::admit(&Guarded::new(text), &mut table);
        self.told.add(answer.number as u64);
        answer.words.iter().for_each(|&word| self.told.add(word));
        self.saved.words(table.values());
        for _ in 0..FRAMES {
            let frame = Guarded::new(&frame(grammar, random));
            let mut run = Guarded::new(&[0; RUN_BYTES]);
            let mut reading = Guarded::new(&vec![9; 16 * frame.length + random.index(3)]);
            let opened = calls::open(&table, &frame, &reading, &mut run);
            self.told.add(opened as u64);
            self.grants(&table, &frame, &mut reading, &mut run, random);
        }
    }

    fn forged(&mut self, random: &mut Random) {
        let (table, frame) = forged::tables(random);
        let mut run = Guarded::new(&[0; RUN_BYTES]);
        let mut reading = Guarded::new(&vec![9; random.pick(&[0, 16 * frame.length, 16 * frame.length + 2, 16384])]);
        let opened = calls::open(&table, &frame, &reading, &mut run);
        self.told.add(opened as u64);
        forged::forge(&mut run, opened, random);
        self.grants(&table, &frame, &mut reading, &mut run, random);
    }

    // Grants until one takes nothing that might have taken something.
    fn grants(&mut self, table: &Guarded<u32>, frame: &Guarded<u8>, reading: &mut Guarded<u32>, run: &mut Guarded<u8>, random: &mut Random) {
        let greatest = random.pick(&[1, 3, 20, 3000, u64::MAX]);
        for turn in 0..GRANTS {
            let some = 1 + random.below(greatest);
            let steps = if turn + 1 == GRANTS { u64::MAX } else { random.pick(&[greatest, greatest, 1, 0, some]) };
            let (number, taken) = calls::grant(table, frame, reading, run, steps);
            (self.grants, self.steps, self.refused) = (self.grants + 1, self.steps + taken, self.refused + u64::from(number != 0));
            self.answered(number, taken, run, reading);
            if steps > 0 && taken == 0 {
                break;
            }
        }
        if let Some(count) = self.verdicts.get_mut(calls::verdict(run) as usize) {
            *count += 1;
        }
    }

    fn answered(&mut self, number: usize, taken: u64, run: &Guarded<u8>, reading: &Guarded<u32>) {
        let told = [number as u64, taken, u64::from(calls::verdict(run)), calls::steps(run), calls::fields(run) as u64, calls::position(run) as u64];
        told.iter().for_each(|&word| self.told.add(word));
        (0..VARIABLES).for_each(|k| self.told.add(calls::value(run, k) as u64));
        self.told.words(reading.values());
        self.saved.bytes(run.values());
        self.saved.add(self.told.0);
    }
}
