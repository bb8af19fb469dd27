// Checks every vector: the first line, frames, windows, values and readings.
use reference::bench;
use std::fs;
use std::path::{Path, PathBuf};

// How many frames a fuller account tells of.
const FULLY_TOLD: usize = 13;

// The vectors of document 01, and those that a request of document 02 adds.
const FOLDERS: [&str; 8] = ["sheet", "base", "req02/hand", "req02/random", "req06/hand", "req06/random", "req10/hand", "req10/random"];

// How many texts were checked. The first difference of each file is told, and any ends the program.
pub fn check(folder: &Path) -> usize {
    let texts: Vec<PathBuf> = FOLDERS.iter().flat_map(|part| grammars(&folder.join(part))).collect();
    let differences: Vec<String> = texts.iter().flat_map(|text| differences(text)).collect();
    differences.iter().for_each(|difference| println!("{difference}"));
    assert!(differences.is_empty(), "{} differences from the vectors", differences.len());
    assert!(!texts.is_empty(), "no vectors");
    texts.len()
}

pub fn grammars(folder: &Path) -> Vec<PathBuf> {
    let entries = fs::read_dir(folder).expect("the vectors' folder");
    let paths = entries.map(|entry| entry.expect("an entry").path());
    let mut texts: Vec<PathBuf> = paths.filter(|path| path.extension().is_some_and(|e| e == "dogma")).collect();
    texts.sort();
    texts
}

fn differences(path: &Path) -> Vec<String> {
    let read = |extension: &str| fs::read(path.with_extension(extension)).ok();
    let text = read("dogma").expect("a text");
    let frames = read("frames").expect("its frames");
    let out = difference(path, "out", &bench::print(&text, &frames), &read("out").expect("what is printed"));
    // The bench sheet has no fuller account; elsewhere it stops after 13 frames.
    let found = || bench::print_full(&text, &frames).split_inclusive('\n').take(1 + FULLY_TOLD).collect::<String>();
    let full = read("full").and_then(|expected| difference(path, "full", &found(), &expected));
    out.into_iter().chain(full).collect()
}

fn difference(path: &Path, extension: &str, found: &str, expected: &[u8]) -> Option<String> {
    let expected = String::from_utf8_lossy(expected);
    if found == expected {
        return None;
    }
    let line = found.lines().zip(expected.lines()).position(|(a, b)| a != b).unwrap_or(found.lines().count().min(expected.lines().count()));
    let show = |text: &str| text.lines().nth(line).unwrap_or("(nothing)").to_string();
    let name = path.with_extension(extension);
    Some(format!("{}:{}: found `{}`, expected `{}`", name.display(), line + 1, show(found), show(&expected)))
}
