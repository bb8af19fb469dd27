// Every vector: number, place or weight and window of each text, and each frame's verdict and steps.
use crate::calls::{self, RUN_BYTES, TABLE_WORDS};
use crate::guarded::Guarded;
use reference::bench::frames;
use std::fs;
use std::path::{Path, PathBuf};

const READING_WORDS: usize = 16384;
const FOLDERS: [&str; 8] = ["sheet", "base", "req02/hand", "req02/random", "req06/hand", "req06/random", "req10/hand", "req10/random"];

pub fn grammars(folder: &Path) -> Vec<PathBuf> {
    let entries = fs::read_dir(folder).expect("the vectors' folder");
    let mut texts: Vec<PathBuf> = entries.map(|entry| entry.expect("an entry").path()).filter(|path| path.extension().is_some_and(|e| e == "dogma")).collect();
    texts.sort();
    texts
}

pub fn check(folder: &Path) -> usize {
    let texts: Vec<PathBuf> = FOLDERS.iter().flat_map(|part| grammars(&folder.join(part))).collect();
    for path in &texts {
        let text = fs::read(path).expect("a text");
        let lines = fs::read(path.with_extension("frames")).expect("its frames");
        let expected = fs::read_to_string(path.with_extension("out")).expect("what is printed");
        assert_eq!(print(&text, &lines), expected, "{}", path.display());
        if let Ok(full) = fs::read_to_string(path.with_extension("full")) {
            check_window(path, &text, &full);
        }
    }
    assert!(!texts.is_empty(), "no vectors");
    texts.len()
}

fn check_window(path: &Path, text: &[u8], full: &str) {
    let first = full.lines().next().unwrap_or("");
    if let Some((_, window)) = first.split_once(" window ") {
        let answer = calls::admit(&Guarded::new(text), &mut Guarded::new(&[0; TABLE_WORDS]));
        assert_eq!(answer.words[1].to_string(), window, "{}", path.display());
    }
}

// What the bench program prints.
fn print(text: &[u8], lines: &[u8]) -> String {
    let mut table = Guarded::new(&[0; TABLE_WORDS]);
    let answer = calls::admit(&Guarded::new(text), &mut table);
    if answer.number != 0 {
        return format!("grammar {} at {}\n", answer.number, answer.words[0]);
    }
    let weight = answer.words[0];
    let mut out = format!("grammar 0 weight {weight}\n");
    for frame in frames(lines) {
        out += &match frame {
            Ok(frame) => line(&table, weight, &frame),
            Err(number) => format!("refused {number}\n"),
        };
    }
    out
}

fn line(table: &Guarded<u32>, weight: u64, frame: &[u8]) -> String {
    let lent = Guarded::new(frame);
    let mut reading = Guarded::new(&[0; READING_WORDS]);
    let mut run = Guarded::new(&[0; RUN_BYTES]);
    assert_eq!(calls::open(table, &lent, &reading, &mut run), 0);
    calls::grant(table, &lent, &mut reading, &mut run, u64::MAX);
    let verdict = if calls::verdict(&run) == 1 { "match" } else { "no match" };
    format!("{verdict} {} of {}\n", calls::steps(&run), weight * (frame.len() as u64 * 8 + 1))
}
