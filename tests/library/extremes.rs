// Texts at the ends of what may arrive: all of one byte, as long as a text may be and one byte longer, nested without end, names and numbers
// without end; and tables that are too short for any text.
use crate::calls::{self, RUN_BYTES, TABLE_WORDS};
use crate::compare::{check, same, Tally};
use crate::guarded::Guarded;
use reference::grammar::LONGEST_TEXT;
use reference::random::Random;

const HEADER: &[u8] = b"dogma_v1 utf-8\n\n";

pub fn texts() -> Vec<Vec<u8>> {
    [one_byte(), nested(), endless()].concat()
}

pub fn report() {
    let texts = texts();
    let mut tally = Tally::default();
    for (seed, text) in texts.iter().enumerate() {
        if let Err(why) = check(text, &mut Random::new(seed as u64), &mut tally) {
            panic!("{why}\n{}", String::from_utf8_lossy(text));
        }
    }
    if let Err(why) = short_tables() {
        panic!("{why}");
    }
    if let Err(why) = longest_frames() {
        panic!("{why}");
    }
    if let Err(why) = changed_words() {
        panic!("{why}");
    }
    println!("library: {} texts at the ends, admitted and refused by number from 0: {:?}", texts.len(), tally.refused);
}

// A begin and then one part again and again, up to a length.
fn filled(begin: &[u8], part: &[u8], length: usize) -> Vec<u8> {
    let rest = length.saturating_sub(begin.len());
    [begin, &part.repeat(rest / part.len() + 1)[..rest]].concat()
}

fn one_byte() -> Vec<Vec<u8>> {
    let begins = [b"".to_vec(), HEADER.to_vec(), [HEADER, b"a='x';"].concat(), [HEADER, b"a='"].concat(), [HEADER, b"a='x'; #"].concat()];
    let lengths = [LONGEST_TEXT, LONGEST_TEXT + 1];
    let all = |byte: u8| begins.iter().flat_map(move |begin| lengths.map(|length| filled(begin, &[byte], length)));
    (0..=255).flat_map(all).collect()
}

fn nested() -> Vec<Vec<u8>> {
    let pairs: [(&[u8], &[u8]); 4] = [(b"(", b")"), (b"[1=1:", b";]"), (b"[(1)=1:", b";]"), (b"(('y'|", b"))")];
    let depths = [15, 16, 17, 18, 300, 1100];
    let text = |(open, close): (&[u8], &[u8]), n: usize| [HEADER, b"a=", &open.repeat(n), b"'x'", &close.repeat(n), b";"].concat();
    pairs.iter().flat_map(|&pair| depths.map(|n| text(pair, n))).collect()
}

fn endless() -> Vec<Vec<u8>> {
    let begins: [&[u8]; 6] = [b"", b"a=", b"a='x'{", b"a=uint(", b"a=uint(8,", b"a='x'{1+"];
    let parts: [&[u8]; 6] = [b"n", b"9", b"0", b"0x", b"1+", b"'x'&"];
    let text = |begin: &[u8], part: &[u8]| filled(&[HEADER, begin].concat(), part, LONGEST_TEXT);
    begins.iter().flat_map(|begin| parts.map(|part| text(begin, part))).collect()
}

// 1 comes before all else, and no word is changed.
fn short_tables() -> Result<(), String> {
    for text in [&b""[..], b"a", b"dogma_v1 utf-8\n\na='x';"] {
        for words in [0, 1, TABLE_WORDS - 1] {
            let before = vec![7; words];
            let mut table = Guarded::new(&before);
            let answer = calls::admit(&Guarded::new(text), &mut table);
            same("number and place", (answer.number, answer.words[0]), (1, 0))?;
            same("short table", table.values(), &before[..])?;
        }
    }
    Ok(())
}

// A frame of 1,024 bytes and two words for each of its bits are enough; a byte more is 21, before 22, and a word less is 22.
fn longest_frames() -> Result<(), String> {
    let mut table = Guarded::new(&[0; TABLE_WORDS]);
    same("admission", calls::admit(&Guarded::new(b"dogma_v1 utf-8\n\na = sint(1, ~)*;"), &mut table).number, 0)?;
    for (bytes, words, number) in [(1024, 16384, 0), (1024, 16383, 22), (1025, 16400, 21), (1025, 0, 21), (1023, 16368, 0), (1023, 16367, 22)] {
        let (frame, mut reading) = (Guarded::new(&vec![0xa5; bytes]), Guarded::new(&vec![9; words]));
        let mut run = Guarded::new(&[0; RUN_BYTES]);
        same("opening", calls::open(&table, &frame, &reading, &mut run), number)?;
        if number == 0 {
            calls::grant(&table, &frame, &mut reading, &mut run, u64::MAX);
            same("verdict and fields", (calls::verdict(&run), calls::fields(&run)), (1, 8 * bytes))?;
            same("the last words", &reading.values()[words - 2..], &[1, 8 * bytes as u32 - 1])?;
        }
        if number == 21 {
            same("grant", calls::grant(&table, &frame, &mut reading, &mut run, 1), (21, 0))?;
        }
    }
    Ok(())
}

// Tables with one word or two changed: signs, widths and numbers that no admission writes are 23. In `a` construct 1 is the uint that binds variable 0, construct 2
// the sint that binds variable 1; term 0 is `~`, term 2 the use of `x`, term 3 the number.
fn changed_words() -> Result<(), String> {
    let (variable, construct, term) = (|x: usize| 320 + 4 * x, |i: usize| 576 + 8 * i, |t: usize| 2624 + 3 * t);
    let mut table = Guarded::new(&[0; TABLE_WORDS]);
    let text = b"dogma_v1 utf-8\n\na = uint(62, var(x, ~)) & sint(62, var(y, ~)) & uint(64, x | 4294967296~);";
    same("admission", calls::admit(&Guarded::new(text), &mut table).number, 0)?;
    let admitted = table.values().to_vec();
    let changes: [&[(usize, u32)]; 10] = [
        &[(variable(0) + 2, 1)],
        &[(variable(1) + 2, 0)],
        &[(variable(1) + 2, 2)],
        &[(construct(1), 12)],
        &[(construct(1) + 2, 63), (variable(0) + 1, 63)],
        &[(construct(2) + 2, 63), (variable(1) + 1, 63)],
        &[(construct(3) + 2, 65)],
        &[(term(2) + 2, 1)],
        &[(term(3) + 1, 1), (term(3) + 2, 0x4000_0000)],
        &[(term(0) + 2, 1)],
    ];
    let (frame, reading) = (Guarded::new(&[0; 24]), Guarded::new(&[9; 384]));
    let open = |words: &[u32]| calls::open(&Guarded::new(words), &frame, &reading, &mut Guarded::new(&[0; RUN_BYTES]));
    same("as admitted", open(&admitted), 0)?;
    for change in changes {
        let mut words = admitted.clone();
        for &(at, word) in change {
            words[at] = word;
        }
        same("23", (change, open(&words)), (change, 23))?;
    }
    Ok(())
}
