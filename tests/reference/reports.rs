// Checks the stored reports of `explain`: number, line and column, weight, the least window in binary, and the example of a clash.
use crate::examples;
use crate::vectors::grammars;
use reference::grammar::{admit, Refusal};
use std::fs;
use std::path::Path;

// How many reports were checked, and how many of them have an example.
pub fn check(folder: &Path) -> (usize, usize) {
    let texts = grammars(folder);
    let differences: Vec<String> = texts.iter().filter_map(|path| difference(path)).collect();
    differences.iter().for_each(|difference| println!("{difference}"));
    assert!(differences.is_empty(), "{} differences from the reports", differences.len());
    assert!(!texts.is_empty(), "no reports");
    (texts.len(), texts.iter().filter(|path| has_example(path)).count())
}

fn report_of(path: &Path) -> String {
    String::from_utf8(fs::read(path.with_extension("out")).expect("its report")).expect("ASCII")
}

fn has_example(path: &Path) -> bool {
    let text = fs::read(path).expect("a text");
    match admit(&text) {
        Err(Refusal { place, between: Some(between), .. }) => examples::check(&text, &report_of(path), place, between),
        _ => false,
    }
}

fn difference(path: &Path) -> Option<String> {
    let text = fs::read(path).expect("a text");
    let report = report_of(path);
    let missing = wanted(&text).into_iter().find(|part| !report.contains(part.as_str()));
    missing.map(|part| format!("{}: its report lacks `{part}`", path.display()))
}

// What a report must hold.
fn wanted(text: &[u8]) -> Vec<String> {
    match admit(text) {
        Ok(grammar) => vec![format!(": admitted, weight {}, constructs {}\n", grammar.weight, grammar.constructs)],
        Err(refusal) => [number(&refusal), place(text, &refusal)].into_iter().chain(refusal.window.map(window)).collect(),
    }
}

fn number(refusal: &Refusal) -> String {
    format!(": refused, number {}: ", refusal.number)
}

fn place(text: &[u8], refusal: &Refusal) -> String {
    let before = &text[..refusal.place];
    let lines = before.iter().filter(|byte| **byte == b'\n').count();
    let column = before.iter().rev().take_while(|byte| **byte != b'\n').count();
    format!("\nline {}, column {}:\n", lines + 1, column + 1)
}

// The window's number is a 1 followed by its bits.
fn window(number: u16) -> String {
    match &format!("{number:b}")[1..] {
        "" => "the frame's end: no bits come next.".to_string(),
        bits => format!("admit the bits {bits} ("),
    }
}
