// How long the library's grants take beside the two matchers (Req 11): over frames of three grammars, half of them with one bit changed. Verdicts and readings are the same
// on every frame. Opening is not counted. What counts of a frame is the shortest of some turns, so that what else the machine does is left out.
use crate::engines::{Engines, ENGINES, GRAMMARS};
use crate::frames::frames;
use crate::guarded::Guarded;
use reference::random::Random;
use std::hint::black_box;
use std::ops::RangeInclusive;
use std::path::Path;
use std::time::Instant;

pub const MOST: f64 = 2.0; // the customer's line, against the straightforward matcher
const GOALS: [f64; 2] = [0.9, 1.8]; // ours, against the straightforward and the careful one
const TURNS: usize = 5;
const MORE_TURNS: usize = 9; // where the line is not held in the first ones

struct Bench {
    name: &'static str,
    engines: Engines,
    frames: Vec<Guarded<u8>>,
    steps: u64,
    missed: usize,           // frames that do not match
    shortest: [Vec<f64>; 3], // of each engine, by frame
}

impl Bench {
    fn new(folder: &Path, name: &'static str, count: usize, lengths: &RangeInclusive<usize>, random: &mut Random) -> Bench {
        let engines = Engines::of(folder, name);
        let frames: Vec<Guarded<u8>> = frames(&engines.grammar, count, lengths, random).iter().map(|frame| Guarded::new(frame)).collect();
        let shortest = std::array::from_fn(|_| vec![f64::INFINITY; count]);
        Bench { name, engines, frames, steps: 0, missed: 0, shortest }
    }

    // One grant to the end by the library, and a run by each matcher, on every frame.
    fn compare(&mut self) {
        for (k, frame) in self.frames.iter().enumerate() {
            let engines = &mut self.engines;
            assert!(engines.opens(frame), "{}: frame {k} opens otherwise", self.name);
            self.steps += engines.library(frame);
            let outcome = engines.library_outcome();
            assert_eq!(outcome, engines.straightforward(frame.values()), "{}: frame {k}, straightforward", self.name);
            assert_eq!(outcome, engines.careful(frame.values()), "{}: frame {k}, careful", self.name);
            let [library, straightforward, careful] = engines.recorded(outcome.1);
            assert!(library == straightforward && library == careful, "{}: frame {k}, reading", self.name);
            assert!(outcome.0 || k % 2 == 1, "{}: frame {k} is derived and does not match", self.name);
            self.missed += usize::from(!outcome.0);
        }
    }

    fn turn(&mut self) {
        let Bench { engines, frames, shortest, .. } = self;
        let [library, straightforward, careful] = shortest;
        for (frame, least) in frames.iter().zip(library) {
            engines.reopen();
            *least = least.min(seconds(|| engines.library(frame)));
        }
        for (frame, least) in frames.iter().zip(straightforward) {
            *least = least.min(seconds(|| engines.straightforward(frame.values())));
        }
        for (frame, least) in frames.iter().zip(careful) {
            *least = least.min(seconds(|| engines.careful(frame.values())));
        }
    }

    fn sums(&self) -> [f64; 3] {
        std::array::from_fn(|k| self.shortest[k].iter().sum())
    }
}

pub fn seconds<T>(mut work: impl FnMut() -> T) -> f64 {
    let start = Instant::now();
    black_box(work());
    start.elapsed().as_secs_f64()
}

// `asserted`: the customer's line is held, else the goals are named.
pub fn report(folder: &Path, seed: u64, count: usize, lengths: &RangeInclusive<usize>, asserted: bool) {
    let mut random = Random::new(seed);
    let share = |k: usize| (count + GRAMMARS.len() - 1 - k) / GRAMMARS.len();
    let mut benches: Vec<Bench> = GRAMMARS.iter().enumerate().map(|(k, name)| Bench::new(folder, name, share(k), lengths, &mut random)).collect();
    benches.iter_mut().for_each(Bench::compare);
    let mut turns = 0;
    while turns < TURNS || (asserted && turns < MORE_TURNS && ratio(&all(&benches), 1) > MOST) {
        benches.iter_mut().for_each(Bench::turn);
        turns += 1;
    }
    for bench in &benches {
        let about = format!("{} frames, {} of them no match, {} steps", bench.frames.len(), bench.missed, bench.steps);
        print(bench.name, &about, &bench.sums(), bench.frames.len(), bench.steps);
    }
    let steps = benches.iter().map(|bench| bench.steps).sum();
    let sums = all(&benches);
    let about = format!("{count} frames of {} to {} bytes, half of them with one bit changed; readings not cleared first", lengths.start(), lengths.end());
    print("all three", &about, &sums, count, steps);
    if asserted {
        assert!(ratio(&sums, 1) <= MOST, "the library's grants take over {MOST} times as long as the straightforward matcher");
    } else {
        for k in 1..3 {
            println!("speed: the library's grants take {:.2} times as long as the {} matcher; our goal is {}", ratio(&sums, k), ENGINES[k], GOALS[k - 1]);
        }
        println!("speed: the customer's line is {MOST} times, against the straightforward one");
    }
}

fn all(benches: &[Bench]) -> [f64; 3] {
    std::array::from_fn(|k| benches.iter().map(|bench| bench.sums()[k]).sum())
}

fn ratio(sums: &[f64; 3], to: usize) -> f64 {
    sums[0] / sums[to]
}

fn print(name: &str, about: &str, sums: &[f64; 3], frames: usize, steps: u64) {
    println!("speed: {name}: {about}");
    for (engine, sum) in ENGINES.iter().zip(sums) {
        print!("  {engine} {:.1} microseconds a frame, {:.1} ns a step;", sum * 1e6 / frames as f64, sum * 1e9 / steps as f64);
    }
    println!(" ratio {:.2} and {:.2}", ratio(sums, 1), ratio(sums, 2));
}
