// The library and both matchers give the same verdicts and readings, as the reference does, on every grammar of the vectors and on random ones.
use crate::engines::Engines;
use crate::guarded::Guarded;
use crate::texts;
use reference::grammar::admit;
use reference::matcher::{self, Verdict};
use reference::random::Random;
use reference::{random_frame, random_grammar};
use std::path::Path;

const FRAMES: usize = 6;

pub fn report(vectors: &Path, seed: u64, random_texts: u64) {
    let (mut grammars, mut matches, mut frames) = (0, 0, 0);
    let random = |seed| random_grammar::text(&mut Random::new(seed));
    for (k, text) in texts::below(vectors).into_iter().chain((seed..seed + random_texts).map(random)).enumerate() {
        if admit(&text).is_ok() {
            grammars += 1;
            matches += agreed(&text, &mut Random::new(seed + k as u64));
            frames += FRAMES;
        }
    }
    println!("speed: library, straightforward and careful matcher agree on {frames} frames of {grammars} grammars, {matches} of them matches");
}

// How many of some frames match.
fn agreed(text: &[u8], random: &mut Random) -> usize {
    let mut engines = Engines::new(text);
    let mut matches = 0;
    for _ in 0..FRAMES {
        let frame = Guarded::new(&random_frame::frame(&engines.grammar, random));
        let expected = matcher::run(&engines.grammar, frame.values(), u64::MAX);
        let outcome = (expected.verdict == Verdict::Match, expected.reading.len());
        let words: Vec<u32> = expected.reading.iter().flat_map(|&(construct, bit)| [construct as u32, bit as u32]).collect();
        assert!(engines.opens(&frame));
        engines.library(&frame);
        let found = [engines.library_outcome(), engines.straightforward(frame.values()), engines.careful(frame.values())];
        assert_eq!(found, [outcome; 3], "{:02x?} by\n{}", frame.values(), String::from_utf8_lossy(text));
        assert_eq!(engines.recorded(outcome.1), [&words[..]; 3], "{:02x?} by\n{}", frame.values(), String::from_utf8_lossy(text));
        matches += usize::from(outcome.0);
    }
    matches
}
