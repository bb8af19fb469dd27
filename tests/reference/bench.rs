// What the bench program prints, and the fuller account that the vectors hold.
use crate::grammar::{admit, Grammar};
use crate::matcher::{self, Outcome, Verdict};

pub const LONGEST_FRAME: usize = 1024;

// The frames of standard input: a line each, or the number that refuses it.
pub fn frames(input: &[u8]) -> Vec<Result<Vec<u8>, u8>> {
    let mut rest = input;
    let mut frames = Vec::new();
    while !rest.is_empty() {
        let (line, after) = match rest.iter().position(|&b| b == b'\n') {
            Some(end) => (rest[..end].strip_suffix(b"\r").unwrap_or(&rest[..end]), &rest[end + 1..]),
            None => (rest, &rest[rest.len()..]),
        };
        frames.push(frame(line));
        rest = after;
    }
    frames
}

fn frame(line: &[u8]) -> Result<Vec<u8>, u8> {
    if line.len() > LONGEST_FRAME * 2 {
        return Err(21);
    }
    let digits: Option<Vec<u32>> = line.iter().map(|&b| char::from(b).to_digit(16)).collect();
    match digits {
        Some(digits) if digits.len() % 2 == 0 => Ok(digits.chunks(2).map(|pair| (pair[0] * 16 + pair[1]) as u8).collect()),
        _ => Err(20),
    }
}

pub fn print(text: &[u8], input: &[u8]) -> String {
    let grammar = match admit(text) {
        Ok(grammar) => grammar,
        Err(refusal) => return format!("grammar {} at {}\n", refusal.number, refusal.place),
    };
    let mut out = format!("grammar 0 weight {}\n", grammar.weight);
    for frame in frames(input) {
        out += &match frame {
            Ok(frame) => line(&grammar, &frame),
            Err(number) => format!("refused {number}\n"),
        };
    }
    out
}

fn line(grammar: &Grammar, frame: &[u8]) -> String {
    let outcome = matcher::run(grammar, frame, u64::MAX);
    let verdict = if outcome.verdict == Verdict::Match { "match" } else { "no match" };
    format!("{verdict} {} of {}\n", outcome.steps, bound(grammar, frame))
}

// Condition 3's bound.
pub fn bound(grammar: &Grammar, frame: &[u8]) -> u64 {
    grammar.weight * (frame.len() as u64 * 8 + 1)
}

// With the window of refusal 10, and values and readings; refused frames are left out.
pub fn print_full(text: &[u8], input: &[u8]) -> String {
    let grammar = match admit(text) {
        Ok(grammar) => grammar,
        Err(refusal) => return format!("refused {} at {} window {}\n", refusal.number, refusal.place, refusal.window.unwrap_or(0)),
    };
    let mut out = format!("admitted weight {} constructs {} variables {}\n", grammar.weight, grammar.constructs, grammar.variables);
    for frame in frames(input).into_iter().flatten() {
        let Outcome { verdict, steps, values, reading, .. } = matcher::run(&grammar, &frame, u64::MAX);
        out += &format!("{verdict:?} {steps} values {values:?} reading {reading:?}\n");
    }
    out
}
