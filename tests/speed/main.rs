// How fast the library's grants are.
// - `speed agree VECTORS SEED TEXTS`: the library and two matchers in Rust give the same verdicts and readings.
// - `speed ratios FOLDER SEED FRAMES SHORTEST LONGEST`: how long they take; fails where the customer's line is not held.
// - `speed figures FOLDER SEED FRAMES SHORTEST LONGEST`: the same beside our goals, and how long a grant of one step takes.
// - `speed counted FOLDER SHORTEST LONGEST`: makes the calls whose instructions `tests/speed/instructions` counts.
// - `speed answers VECTORS FOLDER SEED CASES`: what grants answer, as one number, to compare two builds of the library; `speed listed …`: a line for each case, to find
//   where they part.
mod agree;
mod answers;
#[allow(dead_code)]
#[path = "../library/calls.rs"]
mod calls;
mod careful;
mod careful_program;
mod counted;
mod engines;
#[allow(dead_code)]
#[path = "../library/forged.rs"]
mod forged;
mod frames;
#[allow(dead_code)]
#[path = "../library/guarded.rs"]
mod guarded;
mod ratios;
mod single;
mod straightforward;
mod texts;
#[allow(dead_code)]
#[path = "../library/words.rs"]
mod words;
#[path = "../library/words_terms.rs"]
mod words_terms;

use std::path::Path;

fn main() {
    let arguments: Vec<String> = std::env::args().skip(1).collect();
    match arguments.iter().map(String::as_str).collect::<Vec<_>>()[..] {
        [what @ ("ratios" | "figures"), folder, seed, count, shortest, longest] => {
            let lengths = number(shortest) as usize..=number(longest) as usize;
            ratios::report(Path::new(folder), number(seed), number(count) as usize, &lengths, what == "ratios");
            if what == "figures" {
                single::report(Path::new(folder), &lengths);
            }
        }
        ["agree", vectors, seed, texts] => agree::report(Path::new(vectors), number(seed), number(texts)),
        ["counted", folder, shortest, longest] => counted::calls(Path::new(folder), &(number(shortest) as usize..=number(longest) as usize)),
        [what @ ("answers" | "listed"), vectors, folder, seed, cases] => answers::report(Path::new(vectors), Path::new(folder), number(seed), number(cases), what == "listed"),
        _ => panic!("use: speed agree | ratios | figures | counted | answers | listed, as the head of tests/speed/main.rs says"),
    }
}

fn number(text: &str) -> u64 {
    text.parse().expect("a number")
}
