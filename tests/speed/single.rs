// How long a call takes that does little: a grant of no step, of one step, and a question about a saved run.
use crate::calls;
use crate::engines::{Engines, GRAMMARS};
use crate::frames::frames;
use crate::guarded::Guarded;
use crate::ratios::seconds;
use reference::random::Random;
use std::hint::black_box;
use std::ops::RangeInclusive;
use std::path::Path;

const FRAMES: usize = 20;
const CALLS: u64 = 2000;
const TURNS: usize = 9;

pub fn report(folder: &Path, lengths: &RangeInclusive<usize>) {
    for name in GRAMMARS {
        let mut engines = Engines::of(folder, name);
        let frames: Vec<Guarded<u8>> = frames(&engines.grammar, FRAMES, lengths, &mut Random::new(1)).iter().map(|frame| Guarded::new(frame)).collect();
        let (mut by_ones, mut steps) = (0.0, 0);
        for frame in &frames {
            engines.reopen();
            let taken = engines.library(frame);
            steps += taken;
            by_ones += least(|| {
                engines.reopen();
                seconds(|| (0..taken).for_each(|_| _ = engines.granted(frame, 1)))
            });
        }
        engines.reopen();
        let none = least(|| seconds(|| (0..CALLS).for_each(|_| _ = engines.granted(&frames[0], 0))));
        let asked = least(|| seconds(|| (0..CALLS).for_each(|_| _ = black_box(calls::verdict(black_box(&engines.run))))));
        println!(
            "speed: {name}: a grant of one step {:.0} ns, of none {:.0} ns, songrafter_verdict {:.0} ns",
            by_ones * 1e9 / steps as f64, none * 1e9 / CALLS as f64, asked * 1e9 / CALLS as f64
        );
    }
}

fn least(mut turn: impl FnMut() -> f64) -> f64 {
    (0..TURNS).map(|_| turn()).fold(f64::INFINITY, f64::min)
}
