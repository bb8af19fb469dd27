// How long the calls take, beside the reference. Times and ratios are printed and never fail the test.
use crate::calls::{self, RUN_BYTES, TABLE_WORDS};
use crate::guarded::Guarded;
use crate::vectors::grammars;
use reference::grammar::admit;
use reference::matcher;
use reference::random::Random;
use std::hint::black_box;
use std::path::Path;
use std::time::Instant;

// Grammars whose frames are 128 to 256 bytes long.
const LONG: [(&str, &str); 3] = [
    ("bytes after a length", "dogma_v1 utf-8\n\nframe = uint(8, var(len, ~)) & uint(8, ~){len};"),
    ("records by tag", "dogma_v1 utf-8\n\nframe = record* & \"END\"; record = number | name; number = uint(8, 1) & uint(16, ~); name = uint(8, 2) & uint(8, var(n, 1~9)) & 'a'~'z'{n};"),
    ("nibbles by choice", "dogma_v1 utf-8\n\nframe = (low | high)*; low = uint(4, 0~7) & uint(4, ~); high = uint(4, 8~15) & uint(4, 0~9);"),
];

pub fn report(folder: &Path, worst: &Path) {
    admission(folder);
    for (name, text) in LONG {
        matching(name, text.as_bytes());
    }
    largest();
    worst_found(worst);
    slowest_step();
}

fn seconds(mut turn: impl FnMut()) -> f64 {
    let start = Instant::now();
    turn();
    start.elapsed().as_secs_f64()
}

// What is worked out is not left out.
fn keep<T>(value: T) {
    black_box(value);
}

fn admission(folder: &Path) {
    let texts: Vec<Vec<u8>> = grammars(&folder.join("base")).iter().map(|path| std::fs::read(path).expect("a text")).collect();
    let lent: Vec<Guarded<u8>> = texts.iter().map(|text| Guarded::new(text)).collect();
    let mut table = Guarded::new(&[0; TABLE_WORDS]);
    let library = seconds(|| lent.iter().for_each(|text| keep(calls::admit(text, &mut table))));
    let reference = seconds(|| texts.iter().for_each(|text| keep(admit(text))));
    let slowest = lent.iter().map(|text| seconds(|| keep(calls::admit(text, &mut table)))).fold(0.0, f64::max);
    println!(
        "library: admission {:.1} microseconds a text, slowest {:.2} ms (reference {:.1}, ratio {:.2})",
        library * 1e6 / texts.len() as f64, slowest * 1e3, reference * 1e6 / texts.len() as f64, library / reference
    );
}

// 10,000 frames by the library, in one grant each, and by the recursive matcher.
fn matching(name: &str, text: &[u8]) {
    let grammar = admit(text).expect("an admitted grammar");
    let mut table = Guarded::new(&[0; TABLE_WORDS]);
    assert_eq!(calls::admit(&Guarded::new(text), &mut table).number, 0);
    let mut random = Random::new(1);
    let frames: Vec<Vec<u8>> = (0..10_000).map(|_| frame(name, &mut random)).collect();
    let mut reading = Guarded::new(&[0; 16384]);
    let mut run = Guarded::new(&[0; RUN_BYTES]);
    let lent: Vec<Guarded<u8>> = frames.iter().take(500).map(|frame| Guarded::new(frame)).collect();
    let mut opened = run.values().to_vec();
    let opening = seconds(|| lent.iter().for_each(|frame| keep(calls::open(&table, frame, &reading, &mut run))));
    opened.copy_from_slice(run.values());
    let mut steps = 0;
    let library = seconds(|| {
        for frame in &lent {
            run.values_mut().copy_from_slice(&opened);
            let (_, taken) = calls::grant(&table, frame, &mut reading, &mut run, u64::MAX);
            steps += taken;
        }
    });
    let mut expected = 0;
    let reference = seconds(|| frames.iter().take(500).for_each(|frame| expected += black_box(matcher::run(&grammar, frame, u64::MAX)).steps));
    assert_eq!(steps, expected, "steps of {name}");
    println!(
        "library: {name}: {:.1} ns a step, opening {:.0} microseconds (recursive matcher {:.1} ns a step, ratio {:.2})",
        library * 1e9 / steps as f64, opening * 1e6 / lent.len() as f64, reference * 1e9 / steps as f64, library / reference
    );
}

fn frame(name: &str, random: &mut Random) -> Vec<u8> {
    let length = 128 + random.index(112);
    match name {
        "bytes after a length" => std::iter::once(length as u8).chain((0..length).map(|_| random.next() as u8)).collect(),
        "nibbles by choice" => (0..length).map(|_| [random.below(128) as u8, (8 + random.below(8) as u8) << 4 | random.below(10) as u8][random.index(2)]).collect(),
        _ => {
            let mut bytes = Vec::new();
            while bytes.len() < length {
                if random.once_in(2) {
                    bytes.extend([1, random.next() as u8, random.next() as u8]);
                } else {
                    let n = 1 + random.below(9) as u8;
                    bytes.extend([2, n]);
                    bytes.extend((0..n).map(|_| b'a' + random.below(26) as u8));
                }
            }
            bytes.extend(b"END");
            bytes
        }
    }
}

// A text with one uint.
fn one_uint(width: u32, parts: u64, part: impl Fn(u64) -> String) -> String {
    format!("dogma_v1 utf-8\n\na = uint({width},{});", (0..parts).map(part).collect::<Vec<_>>().join("|"))
}

// A text with one uint whose items are taken away, but for the last (a set with no value left is refused).
fn taken_away(width: u32, parts: u64, item: impl Fn(u64) -> String, away: impl Fn(u64) -> String) -> String {
    one_uint(width, parts, |i| if i + 1 < parts { format!("{}!{}", item(i), away(i)) } else { item(i) })
}

// Large texts: most terms, deepest. A set's ends and the values after them are tried, so the worst sets have many ends that fail.
fn largest() {
    let wide = |i: u64| format!("{}~{}", i * 33554432, i * 33554432 + 99);
    let texts = [
        ("512 items of 32 bits", one_uint(32, 512, |i| format!("{}", i * 3))),
        ("512 items of 64 bits", one_uint(64, 512, |i| format!("{}", i * 90071992547))),
        ("341 negative items of 64 bits", one_uint(64, 341, |i| format!("-{}", i * 13510798882111489)).replace("uint", "sint")),
        ("512 items of 16 bits", one_uint(16, 512, |i| format!("{}", i * 127))),
        ("512 items of 8 bits", one_uint(8, 512, |i| format!("{}", i % 256))),
        ("256 ranges of 32 bits", one_uint(32, 256, |i| format!("{}~{}", i * 16777216 + 7, i * 16777216 + 9))),
        ("170 negative ranges of 64 bits", one_uint(64, 170, |i| format!("-{}~-{}", i * 27021597764222976 + 9, i * 27021597764222976 + 7)).replace("uint", "sint")),
        ("256 items taken away", taken_away(32, 256, |i| i.to_string(), |i| i.to_string())),
        ("256 items of 8 bits taken away", taken_away(8, 256, |i| i.to_string(), |i| i.to_string())),
        ("170 items up to a number, taken away", taken_away(16, 170, |i| format!("~{i}"), |i| format!("~{}", i + 1))),
        ("128 ranges taken away", taken_away(32, 128, wide, wide)),
        ("200 uints of three items", format!("dogma_v1 utf-8\n\na = {};", (0..200).map(|i| format!("uint(32,{i}!{i}|{})", i + 1)).collect::<Vec<_>>().join("&"))),
        ("16 deep", format!("dogma_v1 utf-8\n\na = {}\"x\"{};", "(".repeat(16), "?)".repeat(16))),
        ("8,000 bytes of comments", format!("dogma_v1 utf-8\n\n{}", "# comment\n".repeat(800))),
    ];
    texts.iter().for_each(|(name, text)| answered(name, &text.as_bytes()[..text.len().min(8192)]));
}

// The worst texts found (tests/figures/search.rs).
fn worst_found(folder: &Path) {
    for path in grammars(folder) {
        answered(&path.file_stem().expect("a name").to_string_lossy(), &std::fs::read(&path).expect("a text"));
    }
}

fn answered(name: &str, text: &[u8]) {
    let lent = Guarded::new(text);
    let mut table = Guarded::new(&[0; TABLE_WORDS]);
    let mut number = 0;
    let time = (0..5).map(|_| seconds(|| number = calls::admit(&lent, &mut table).number)).fold(f64::INFINITY, f64::min);
    println!("library: {name}, {} bytes: answered {number} in {:.2} ms{}", lent.length, time * 1e3, opened(&table, number));
}

// How long opening takes, on the table of an admitted text.
fn opened(table: &Guarded<u32>, number: usize) -> String {
    if number != 0 {
        return String::new();
    }
    let (frame, reading, mut run) = (Guarded::new(&[]), Guarded::new(&[]), Guarded::new(&[0; RUN_BYTES]));
    let time = (0..5).map(|_| seconds(|| assert_eq!(calls::open(table, &frame, &reading, &mut run), 0))).fold(f64::INFINITY, f64::min);
    format!(", opened in {:.2} ms", time * 1e3)
}

// The slowest step found: a uint whose set is one product of 512 numbers.
fn slowest_step() {
    let text = format!("dogma_v1 utf-8\n\na = uint(8,0{})*;", "*0".repeat(511));
    let frame = Guarded::new(&[0; 256]);
    let mut table = Guarded::new(&[0; TABLE_WORDS]);
    let mut reading = Guarded::new(&[0; 16384]);
    let mut run = Guarded::new(&[0; RUN_BYTES]);
    assert_eq!(calls::admit(&Guarded::new(text.as_bytes()), &mut table).number, 0);
    let mut fields = || {
        assert_eq!(calls::open(&table, &frame, &reading, &mut run), 0);
        seconds(|| assert_eq!(calls::grant(&table, &frame, &mut reading, &mut run, u64::MAX).0, 0))
    };
    let time = (0..5).map(|_| fields()).fold(f64::INFINITY, f64::min);
    println!("library: a step over a product of 512 numbers takes {:.1} microseconds", time * 1e6 / 256.0);
}
