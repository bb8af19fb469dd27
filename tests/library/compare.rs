// The library against the reference on random and damaged texts, frames and grants.
use crate::calls::{self, RUN_BYTES, TABLE_WORDS};
use crate::guarded::Guarded;
use reference::bench::LONGEST_FRAME;
use reference::grammar::{admit, Between, Grammar, Refusal};
use reference::matcher::{self, Verdict};
use reference::random::{damage, noise, Random};

use reference::{random_frame, random_grammar};

const FRAMES: usize = 6;
const BEHIND: usize = 3; // words behind a table, which stay

#[derive(Default)]
pub struct Tally {
    pub refused: [usize; 14],
    frames: usize,
    steps: u64,
}

pub fn report(seed: u64, texts: u64) {
    let mut tally = Tally::default();
    for number in 0..texts {
        let mut random = Random::new(seed + number);
        let mut text = random_grammar::text(&mut random);
        if random.once_in(3) {
            text = damage(&text, &mut random);
        }
        if random.once_in(50) {
            text = noise(&mut random);
        }
        if let Err(why) = check(&text, &mut random, &mut tally) {
            panic!("seed {}: {why}\n{}", seed + number, String::from_utf8_lossy(&text));
        }
    }
    println!("library: {texts} texts, admitted and refused by number from 0: {:?}; {} frames, {} steps", tally.refused, tally.frames, tally.steps);
}

pub fn same<T: PartialEq + std::fmt::Debug>(what: &str, found: T, expected: T) -> Result<(), String> {
    if found == expected { Ok(()) } else { Err(format!("{what}: found {found:?}, expected {expected:?}")) }
}

pub fn check(text: &[u8], random: &mut Random, tally: &mut Tally) -> Result<(), String> {
    let lent = Guarded::new(text);
    let before: Vec<u32> = (0..TABLE_WORDS + BEHIND).map(|_| random.next() as u32).collect();
    let mut table = Guarded::new(&before);
    let answer = calls::admit(&lent, &mut table);
    tally.refused[answer.number.min(13)] += 1;
    match admit(text) {
        Err(refusal) => {
            same("number", answer.number, usize::from(refusal.number))?;
            same("place", answer.words[0], refusal.place as u64)?;
            same("window", answer.words[1], u64::from(refusal.window.unwrap_or(0)))?;
            check_between(&refusal, &answer)?;
            same("table of a refused grammar", table.values(), &before[..])
        }
        Ok(grammar) => {
            same("number", answer.number, 0)?;
            same("weight", answer.words[0], grammar.weight)?;
            same("words behind the table", &table.values()[TABLE_WORDS..], &before[TABLE_WORDS..])?;
            for _ in 0..FRAMES {
                let frame = random_frame::frame(&grammar, random);
                tally.frames += 1;
                tally.steps += check_frame(&grammar, &table, &frame, random).map_err(|why| format!("frame {frame:02x?}: {why}"))?;
            }
            Ok(())
        }
    }
}

// Two branches have different construct numbers; going on and stopping have 0, 0.
fn check_between(refusal: &Refusal, answer: &calls::Answer) -> Result<(), String> {
    match refusal.between {
        Some(Between::Branches(_, _)) => same("two branches", answer.words[3] < answer.words[4] && answer.words[2] < answer.words[3], true),
        Some(Between::ContinueAndExit) => same("no branches", (answer.words[3], answer.words[4]), (0, 0)),
        None => Ok(()),
    }
}

fn number(verdict: Verdict) -> u32 {
    match verdict {
        Verdict::Undecided => 0,
        Verdict::Match => 1,
        Verdict::NoMatch => 2,
    }
}

fn check_frame(grammar: &Grammar, table: &Guarded<u32>, frame: &[u8], random: &mut Random) -> Result<u64, String> {
    let words = 16 * frame.len() + random.index(3);
    let first: Vec<u32> = (0..words).map(|_| random.next() as u32).collect();
    let lent = Guarded::new(frame);
    let mut reading = Guarded::new(&first);
    let mut run = Guarded::new(&[7u8; RUN_BYTES]);
    let opened = calls::open(table, &lent, &reading, &mut run);
    if frame.len() > LONGEST_FRAME {
        return same("opening", opened, 21).map(|()| 0);
    }
    same("opening", opened, 0)?;
    let whole = matcher::run(grammar, frame, u64::MAX);
    let mut granted = 0u64;
    while granted <= whole.steps {
        let more = match random.below(4) {
            0 => 0,
            1 => 1,
            2 => 1 + random.below(20),
            _ => 1 + random.below(whole.steps + 10),
        };
        let (number, taken) = calls::grant(table, &lent, &mut reading, &mut run, more);
        same("grant", number, 0)?;
        same("steps taken", taken, more.min(whole.steps - granted.min(whole.steps)))?;
        granted += more;
        check_run(grammar, frame, granted, &run, &reading, &first)?;
        check_fields(table, &lent, &run, &reading)?;
    }
    Ok(whole.steps)
}

// Every field that is recorded is told, one after the other up to the position.
fn check_fields(table: &Guarded<u32>, frame: &Guarded<u8>, run: &Guarded<u8>, reading: &Guarded<u32>) -> Result<(), String> {
    let mut at = 0;
    for k in 0..calls::fields(run) {
        let (number, [construct, first, width, value]) = calls::field(table, frame, reading, k);
        same("field", (number, construct, first), (0, u64::from(reading.values()[2 * k]), at))?;
        let bits = if width > 64 { 0..0 } else { at..at + width };
        let number = bits.fold(0, |n, bit| 2 * n + u64::from(frame.values()[bit as usize / 8] >> (7 - bit % 8) & 1));
        // a sint (kind 12) in two's complement of 64 bits
        let negative = table.values()[576 + 8 * construct as usize] == 12 && number >> (width - 1) == 1;
        same("its value", value, if negative && width < 64 { number.wrapping_sub(1 << width) } else { number })?;
        at += width;
    }
    same("the end of the last field", at, calls::position(run) as u64)
}

fn check_run(grammar: &Grammar, frame: &[u8], granted: u64, run: &Guarded<u8>, reading: &Guarded<u32>, first: &[u32]) -> Result<(), String> {
    let expected = matcher::run(grammar, frame, granted);
    same("verdict", calls::verdict(run), number(expected.verdict))?;
    same("steps", calls::steps(run), expected.steps)?;
    same("fields", calls::fields(run), expected.reading.len())?;
    same("position", calls::position(run), expected.position)?;
    let written: Vec<u32> = expected.reading.iter().flat_map(|&(construct, bit)| [construct as u32, bit as u32]).collect();
    same("reading", &reading.values()[..written.len()], &written[..])?;
    same("words beyond", &reading.values()[written.len()..], &first[written.len()..])?;
    for (k, &value) in expected.values.iter().enumerate() {
        same("value", calls::value(run, k), value)?;
    }
    Ok(())
}

