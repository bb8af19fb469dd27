// Runs the reference implementation. `reference readings` checks the settled readings' examples and the limits; `vectors FOLDER` checks the
// vectors; `reports FOLDER` checks the stored reports of `explain`; `compare SEED TEXTS` compares it with itself; `text SEED` writes the
// random text that the comparison has at that seed; `timing FOLDER` tells how long the vectors take.
mod boundaries;
mod compare;
mod examples;
mod readings;
mod reports;
mod timing;
mod vectors;

use std::io::Write;
use std::path::Path;

use reference::random::Random;
use reference::random_grammar;

fn main() {
    let arguments: Vec<String> = std::env::args().skip(1).collect();
    match arguments.iter().map(String::as_str).collect::<Vec<_>>()[..] {
        ["readings"] => println!("reference: {} examples of the readings, {} limits", readings::check(), boundaries::check()),
        ["vectors", folder] => println!("reference: {} texts as the vectors say", vectors::check(Path::new(folder))),
        ["reports", folder] => {
            let (reports, examples) = reports::check(Path::new(folder));
            println!("reference: {reports} reports of explain hold its numbers, places and windows; {examples} examples of clashes are right");
        }
        ["timing", folder] => timing::report(Path::new(folder)),
        ["compare", seed, texts] => compare::report(number(seed), number(texts) as usize),
        ["text", seed] => {
            let text = random_grammar::text(&mut Random::new(number(seed)));
            std::io::stdout().write_all(&text).expect("standard output");
        }
        _ => panic!("use: reference readings | vectors FOLDER | reports FOLDER | timing FOLDER | compare SEED TEXTS | text SEED"),
    }
}

fn number(text: &str) -> u64 {
    text.parse().expect("a number")
}
