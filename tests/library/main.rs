// Compares the compiled library with the reference implementation: `library vectors FOLDER`, `library extremes`, `library nulls`, `library compare
// SEED TEXTS` (random and damaged texts, frames and grants), `library forged SEED RUNS` (forged tables and runs), `library bench FOLDER WORST`,
// `library stack FOLDER`. Every array that the library is lent ends where a page begins that nobody may touch, so that a read or write past it ends the program.
mod bench;
mod calls;
mod compare;
mod extremes;
mod forged;
mod guarded;
mod nulls;
mod stack;
mod vectors;
mod words;
mod words_terms;

use std::path::Path;

fn main() {
    let arguments: Vec<String> = std::env::args().skip(1).collect();
    match arguments.iter().map(String::as_str).collect::<Vec<_>>()[..] {
        ["vectors", folder] => println!("library: {} texts as the vectors say", vectors::check(Path::new(folder))),
        ["compare", seed, texts] => compare::report(number(seed), number(texts)),
        ["extremes"] => extremes::report(),
        ["nulls"] => nulls::report(),
        ["forged", seed, runs] => forged::report(number(seed), number(runs)),
        ["bench", folder, worst] => bench::report(Path::new(folder), Path::new(worst)),
        ["stack", folder] => stack::report(Path::new(folder)),
        _ => panic!("use: library vectors FOLDER | compare SEED TEXTS | extremes | nulls | forged SEED RUNS | bench FOLDER WORST | stack FOLDER"),
    }
}

fn number(text: &str) -> u64 {
    text.parse().expect("a number")
}
