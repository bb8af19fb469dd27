// Compares the reference implementation with itself on random grammars and frames: the recursive matcher with the step machine after every
// number of steps, the verdict with the derivations by their definition, and FIRST of narrow fields with membership.
use reference::analysis::Analysis;
use reference::arithmetic::{ends, set_contains, set_has_variable, value_of_pattern};
use reference::bench::bound;
use reference::derivations::{derivations, Derivation};
use reference::grammar::{admit, Grammar};
use reference::lookahead::{self, Strings};
use reference::machine::Machine;
use reference::matcher::{self, bits, Outcome, Verdict};
use reference::random::Random;
use reference::syntax::{Kind, Set};
use reference::{random_frame, random_grammar};
use std::collections::BTreeSet;

const FRAMES: usize = 6;
const FUEL: usize = 3000; // for the search of derivations

// What was seen, so that a generator that makes nothing worth comparing is noticed.
#[derive(Debug, Default)]
struct Tally {
    refused: [usize; 14], // by number; 0 counts the admitted
    matches: usize,
    no_matches: usize,
    steps: u64,
    searched: usize, // frames whose derivations were all tried
    ends: BTreeSet<(bool, u32, i128)>, // fields at an end of their values, at 0 or at -1: signed, width, value
}

const ENOUGH: usize = 4000; // texts, for every refusal to be among them

pub fn report(seed: u64, texts: usize) {
    let Tally { refused, matches, no_matches, steps, searched, ends } = check(seed, texts);
    println!("reference: {texts} random texts, {} admitted, refused by number from 2: {:?}", refused[0], &refused[2..]);
    println!("reference: {matches} frames match, {no_matches} do not, {steps} steps; all derivations of {searched} frames tried");
    println!("reference: fields of {} widths with a value at an end, 0 or -1", ends.iter().map(|(signed, width, _)| (signed, width)).collect::<BTreeSet<_>>().len());
    assert!(texts < ENOUGH || refused[2..].iter().all(|&count| count > 0), "a refusal never comes");
    let missing: Vec<_> = wanted().into_iter().filter(|end| !ends.contains(end)).collect();
    assert!(texts < ENOUGH || missing.is_empty(), "values that no field had: {missing:?}");
}

const WIDTHS: [u32; 9] = [1, 2, 8, 31, 32, 33, 62, 63, 64];

// Values that some field must have had.
fn wanted() -> Vec<(bool, u32, i128)> {
    let of_width = |signed: bool, width: u32| {
        let (least, greatest) = ends(signed, width);
        [least, greatest, 0, -1].into_iter().filter(move |value| (least..=greatest).contains(value)).map(move |value| (signed, width, value))
    };
    WIDTHS.into_iter().flat_map(|width| of_width(false, width).chain(of_width(true, width))).collect()
}

// The fields that a run took, where they are at an end, at 0 or at -1.
fn note_ends(grammar: &Grammar, frame: &[u8], outcome: &Outcome, tally: &mut Tally) {
    let constructs: Vec<_> = grammar.rules.iter().flat_map(|rule| rule.body.all()).collect();
    for &(number, position) in &outcome.reading {
        let Kind::Uint { signed, width, .. } = &constructs[number].kind else { continue };
        let width = width.value as u32;
        let value = value_of_pattern(*signed, width, bits(frame, position, width as usize));
        let (least, greatest) = ends(*signed, width);
        if [least, greatest, 0, -1].contains(&value) {
            tally.ends.insert((*signed, width, value));
        }
    }
}

fn check(seed: u64, texts: usize) -> Tally {
    let mut tally = Tally::default();
    for number in 0..texts as u64 {
        let mut random = Random::new(seed + number);
        let text = random_grammar::text(&mut random);
        match admit(&text) {
            Err(refusal) => {
                assert!(refusal.place <= text.len(), "seed {}: {refusal:?}", seed + number);
                tally.refused[usize::from(refusal.number)] += 1;
            }
            Ok(grammar) => {
                tally.refused[0] += 1;
                check_first(&grammar);
                for _ in 0..FRAMES {
                    let frame = random_frame::frame(&grammar, &mut random);
                    let outcome = check_frame(&grammar, &frame, &mut random);
                    let outcome = outcome.unwrap_or_else(|why| panic!("seed {}, frame {frame:02x?}: {why}", seed + number));
                    note_ends(&grammar, &frame, &outcome, &mut tally);
                    tally.searched += usize::from(check_derivations(&grammar, &frame, &outcome));
                    tally.matches += usize::from(outcome.verdict == Verdict::Match);
                    tally.no_matches += usize::from(outcome.verdict == Verdict::NoMatch);
                    tally.steps += outcome.steps;
                }
            }
        }
    }
    tally
}

// The decided run, the same by both, or what differs.
fn check_frame(grammar: &Grammar, frame: &[u8], random: &mut Random) -> Result<Outcome, String> {
    let whole = matcher::run(grammar, frame, u64::MAX);
    if whole.verdict == Verdict::Undecided || whole.steps > bound(grammar, frame) {
        return Err(format!("not decided in time: {whole:?}"));
    }
    let mut machine = Machine::open(grammar, frame);
    let mut granted = 0;
    while granted <= whole.steps + 2 {
        let recursive = matcher::run(grammar, frame, granted);
        if recursive != machine.run || recursive.steps != granted.min(whole.steps) {
            return Err(format!("after {granted} steps {recursive:?} by recursion, {:?} step by step", machine.run));
        }
        // Every number of steps in short runs, some in long ones.
        let more = if whole.steps < 100 { 1 } else { 1 + random.below(whole.steps / 20) };
        let taken = machine.grant(more);
        if taken != more.min(whole.steps - granted.min(whole.steps)) {
            return Err(format!("{taken} steps taken of {more} after {granted}"));
        }
        granted += more;
    }
    if machine.run != whole {
        return Err(format!("{whole:?} by recursion, {:?} step by step", machine.run));
    }
    Ok(whole)
}

// A match has exactly one derivation, with its values and reading; else there is none. False where the search would take too long.
fn check_derivations(grammar: &Grammar, frame: &[u8], outcome: &Outcome) -> bool {
    let Some(found) = derivations(grammar, frame, FUEL) else { return false };
    let Outcome { verdict, position, values, reading, .. } = outcome.clone();
    let expected = if verdict == Verdict::Match { vec![Derivation { position, values, reading }] } else { Vec::new() };
    assert_eq!(found, expected, "derivations of {frame:02x?}");
    true
}

// FIRST comes from ranges; membership from the set as written.
fn check_first(grammar: &Grammar) {
    let Analysis { first, .. } = &grammar.analysis;
    for construct in grammar.rules.iter().flat_map(|rule| rule.body.all()) {
        match &construct.kind {
            Kind::Uint { signed, width, set, .. } if width.value <= 8 && !set_has_variable(set) => {
                let bits = width.value as u32;
                for pattern in 0..1 << bits {
                    let predicted = first[construct.number].contains(lookahead::string(pattern, bits));
                    let value = value_of_pattern(*signed, bits, pattern);
                    assert_eq!(predicted, set_contains(set, value, &[]), "{value} in {set:?}");
                }
            }
            Kind::Uint { signed, width, set, .. } if !set_has_variable(set) => check_wide(&first[construct.number], *signed, width.value as u32, set),
            _ => {}
        }
    }
}

// Of a field of more than 8 bits: the first and the last pattern of each window. Where one is in the set, its window is there; between two that
// are not, a value may still be.
fn check_wide(first: &Strings, signed: bool, width: u32, set: &Set) {
    let hidden = width - lookahead::LONGEST;
    for window in 0..1u64 << lookahead::LONGEST {
        let least = window << hidden;
        for pattern in [least, least + 1, least | ((1 << hidden) - 1)] {
            let value = value_of_pattern(signed, width, pattern);
            let predicted = first.contains(lookahead::string(window, lookahead::LONGEST));
            assert!(predicted || !set_contains(set, value, &[]), "{value} in {set:?}");
        }
    }
}
