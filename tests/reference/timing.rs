// How long admission and matching take on the vectors. The times are printed and never fail the test.
use reference::bench::frames;
use reference::grammar::{admit, Grammar};
use reference::matcher;
use std::hint::black_box;
use std::path::Path;
use std::time::Instant;

use crate::vectors::grammars;

const TURNS: u32 = 20;

pub fn report(folder: &Path) {
    let texts: Vec<(Vec<u8>, Vec<u8>)> = grammars(&folder.join("base"))
        .iter()
        .map(|path| (std::fs::read(path).expect("a text"), std::fs::read(path.with_extension("frames")).expect("its frames")))
        .collect();
    let admission = nanoseconds(|| texts.iter().for_each(|(text, _)| drop(black_box(admit(text)))));
    println!("reference: admission takes {:.1} microseconds a text", admission / 1000.0 / texts.len() as f64);
    let runs: Vec<(Grammar, Vec<Vec<u8>>)> =
        texts.iter().filter_map(|(text, lines)| Some((admit(text).ok()?, frames(lines).into_iter().flatten().collect()))).collect();
    let mut steps = 0;
    let matching = nanoseconds(|| {
        let outcomes = runs.iter().flat_map(|(grammar, frames)| frames.iter().map(move |frame| matcher::run(grammar, frame, u64::MAX)));
        steps = outcomes.map(|outcome| black_box(outcome).steps).sum();
    });
    println!("reference: matching takes {:.1} nanoseconds a step, over {steps} steps", matching / steps as f64);
}

// Of one turn.
fn nanoseconds(mut turn: impl FnMut()) -> f64 {
    let start = Instant::now();
    (0..TURNS).for_each(|_| turn());
    start.elapsed().as_nanos() as f64 / f64::from(TURNS)
}
