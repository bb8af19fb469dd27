// Forged tables and runs: each is answered as words.rs answers it, what is refused changes nothing, and one grant ends as many grants do.
use crate::calls::{self, RUN_BYTES, TABLE_WORDS};
use crate::guarded::Guarded;
use crate::words::{Run, Words};
use reference::grammar::admit;
use reference::random::Random;
use reference::{random_frame, random_grammar};

// What a grant is handed, and the steps that it grants.
struct Case {
    table: Guarded<u32>,
    frame: Guarded<u8>,
    reading: Vec<u32>,
    run: Vec<u8>,
    steps: u64,
}

// What grants leave: the last one's number, the steps taken by all, the run and the reading.
#[derive(Debug, PartialEq)]
struct Left {
    number: usize,
    taken: u64,
    run: Vec<u8>,
    reading: Vec<u32>,
}

impl Case {
    // The steps are granted at once, or in parts of at most so many: `part` says of what is left.
    fn granted(&self, mut part: impl FnMut(u64) -> u64) -> Left {
        let (mut run, mut reading) = (Guarded::new(&self.run), Guarded::new(&self.reading));
        let (mut left, mut all) = (self.steps, 0);
        loop {
            let steps = part(left).min(left);
            let (number, taken) = calls::grant(&self.table, &self.frame, &mut reading, &mut run, steps);
            (left, all) = (left - steps, all + taken);
            if left == 0 {
                return Left { number, taken: all, run: run.values().to_vec(), reading: reading.values().to_vec() };
            }
        }
    }

    // By the second implementation.
    fn expected(&self) -> Left {
        let words = Words { table: &self.table.values()[..self.table.length.min(TABLE_WORDS)], frame: self.frame.values() };
        let (mut run, mut reading) = (Run::from_bytes(&self.run), self.reading.clone());
        let (number, taken) = words.grant(&mut reading, &mut run, self.steps);
        Left { number, taken, run: run.to_bytes(), reading }
    }

    // By one grant, by parts that chance makes and, the first few, by steps of one.
    fn ends_alike(&self, name: &str, random: &mut Random) -> Left {
        let one = self.granted(|left| left);
        assert_eq!(one, self.expected(), "{name}: the second implementation ends otherwise");
        assert_eq!(one, self.granted(|left| 1 + random.below(left / 2 + 1)), "{name}: parts end otherwise than one grant");
        let mut single = 40;
        let by_ones = |left| {
            single -= 1;
            if single < 0 { left } else { 1 }
        };
        assert_eq!(one, self.granted(by_ones), "{name}: steps of one end otherwise than one grant");
        if one.number != 0 {
            assert_eq!((one.taken, &one.run, &one.reading), (0, &self.run, &self.reading), "{name}: a refused grant changes something");
        }
        one
    }
}

pub fn report(seed: u64, runs: u64) {
    past_counts();
    let mut numbers = std::collections::BTreeMap::new();
    let mut verdicts = [0usize; 5];
    for k in 0..runs {
        let mut random = Random::new(seed + k);
        let (table, frame) = tables(&mut random);
        let mut run = Guarded::new(&[0; RUN_BYTES]);
        let words = [0, 16 * frame.length, 16 * frame.length + 2, 16384][random.index(4)];
        let reading = Guarded::new(&vec![9; words]);
        let opened = calls::open(&table, &frame, &reading, &mut run);
        *numbers.entry(("open", opened)).or_insert(0) += 1;
        forge(&mut run, opened, &mut random);
        let case = Case { table, frame, reading: reading.values().to_vec(), run: run.values().to_vec(), steps: random.below(3000) };
        let left = case.ends_alike(&format!("seed {}", seed + k), &mut random);
        *numbers.entry(("grant", left.number)).or_insert(0) += 1;
        for _ in 0..4 {
            let number = field_as_told(&case, &mut random);
            *numbers.entry(("field", number)).or_insert(0) += 1;
        }
        if left.number == 0 {
            verdicts[calls::verdict(&Guarded::new(&left.run)) as usize] += 1;
        }
    }
    println!("library: {runs} forged runs, answered {numbers:?}, verdicts from undecided to broken {verdicts:?}, one grant, many and the second implementation alike");
}

// A field of a reading that chance makes: as the second implementation says, and `field` is left alone where it is refused.
fn field_as_told(case: &Case, random: &mut Random) -> usize {
    let words = random.index(7);
    let bits = 8 * case.frame.length as u64;
    let reading: Vec<u32> = (0..words).map(|at| if at % 2 == 0 { random.below(9) as u32 } else { random.below(bits + 4) as u32 }).collect();
    let k = [random.index(4), usize::MAX - random.index(3), usize::MAX / 2 + random.index(3)][[0, 0, 0, 0, 1, 2][random.index(6)]];
    let long = Guarded::new(&[7; 1025]);
    let frame = if random.once_in(9) { &long } else { &case.frame };
    let (number, told) = calls::field(&case.table, frame, &Guarded::new(&reading), k);
    let words = Words { table: &case.table.values()[..case.table.length.min(TABLE_WORDS)], frame: frame.values() };
    let expected = words.told(&reading, k).map_or_else(|number| (number, [9; 4]), |told| (0, told));
    assert_eq!((number, told), expected, "field {k} of {reading:?}");
    number
}

// Tables that count fewer constructs, variables or terms than they hold, and a run that has passed more often than it may: broken, by one grant
// and by many.
fn past_counts() {
    let counted = |rules: &str, frame: &[u8], word: usize, count: u32| (rules.to_string(), frame.to_vec(), vec![(word, count)], vec![]);
    let entry = |construct: u8, passes: u8| vec![(548, construct), (549, 0), (1572, passes)];
    let cases = [
        counted("a = \"A\" & \"B\";", b"AB", 2, 2),
        counted("a = \"A\" | \"B\";", b"B", 2, 2),
        counted("a = \"A\"*;", b"A", 2, 1),
        counted("a = uint(8, var(t, ~)) & [t = 1: \"A\"; : \"B\";];", b"\x02B", 2, 4),
        counted("a = uint(8, var(t, ~)) & [t = 1: \"A\"; : \"B\";];", b"\x01A", 4, 3),
        counted("a = uint(8, var(t, ~)) & \"A\"{t};", b"\x01A", 3, 0),
        counted("a = uint(8, var(t, ~)) & \"A\"{t};", b"\x01A", 4, 1),
        counted("a = uint(8, 1~8);", b"\x01", 4, 2),
        ("a = uint(8, var(t, ~)) & \"A\"{t};".to_string(), b"A".to_vec(), vec![(3, 0)], entry(2, 0)),
        ("a = \"A\"*;".to_string(), b"A".to_vec(), vec![], entry(0, 9)),
    ];
    for (rules, frame, words, bytes) in cases {
        let text = format!("dogma_v1 utf-8\n\n{rules}");
        let mut table = Guarded::new(&[0; TABLE_WORDS]);
        let (frame, reading, mut run) = (Guarded::new(&frame), Guarded::new(&[9; 512]), Guarded::new(&[0; RUN_BYTES]));
        assert_eq!(calls::admit(&Guarded::new(text.as_bytes()), &mut table).number, 0, "{rules}");
        assert_eq!(calls::open(&table, &frame, &reading, &mut run), 0, "{rules}");
        words.iter().for_each(|&(at, word)| table.values_mut()[at] = word);
        bytes.iter().for_each(|&(at, byte)| run.values_mut()[at] = byte);
        let case = Case { table, frame, reading: reading.values().to_vec(), run: run.values().to_vec(), steps: 1000 };
        let left = case.ends_alike(&rules, &mut Random::new(1));
        assert_eq!((left.number, calls::verdict(&Guarded::new(&left.run))), (0, 4), "{rules}");
    }
}

// A table, right, damaged, short or random, and a frame.
pub fn tables(random: &mut Random) -> (Guarded<u32>, Guarded<u8>) {
    loop {
        let text = random_grammar::text(random);
        let Ok(grammar) = admit(&text) else { continue };
        let frame = random_frame::frame(&grammar, random);
        let mut table = Guarded::new(&[0; TABLE_WORDS]);
        calls::admit(&Guarded::new(&text), &mut table);
        for _ in 0..random.below(4) {
            let at = [random.index(TABLE_WORDS / 2), random.index(6)][random.index(2)];
            table.values_mut()[at] = [random.next() as u32, random.below(300) as u32, random.below(8) as u32, 0][random.index(4)];
        }
        if random.once_in(30) {
            let words = random.index(TABLE_WORDS);
            return (Guarded::new(&table.values()[..words]), Guarded::new(&frame));
        }
        return (table, Guarded::new(&frame));
    }
}

// Bytes of the run changed, or all of them; from a refused opening an open run is forged.
pub fn forge(run: &mut Guarded<u8>, opened: usize, random: &mut Random) {
    let bytes = run.values_mut();
    if opened != 0 {
        bytes.fill(0);
        bytes[8] = 1;
        bytes[549] = 1;
    }
    if random.once_in(10) {
        bytes.iter_mut().for_each(|b| *b = random.next() as u8);
    }
    for _ in 0..random.below(4) {
        let at = [random.index(RUN_BYTES), random.index(40), 544 + random.index(40)][random.index(3)];
        bytes[at] = [random.next() as u8, random.below(4) as u8][random.index(2)];
    }
}
