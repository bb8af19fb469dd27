// Compares the lookahead sets' join, union, addition, halves and least common string with ones that go pair by pair and string by string, on sets of many
// kinds and on those of the largest grammars (`lookahead FOLDER`, a folder of texts), and how long the two joins take. The join may take at most a quarter
// of the time of the one that goes pair by pair on two full sets (Req 04), and so on sets of all bytes and on the sets of the largest grammars together.
use reference::grammar::admit;
use reference::lookahead::Strings;
use std::collections::BTreeSet;
use std::hint::black_box;
use std::path::Path;
use std::time::Instant;

// What the join may take of the time of one that goes pair by pair.
const MOST: f64 = 0.25;

extern "C" {
    fn lookahead_c_join(sets: *mut u64, len: usize) -> bool;
    fn lookahead_c_union(sets: *mut u64, len: usize) -> bool;
    fn lookahead_c_least(sets: *const u64, len: usize) -> usize;
    fn lookahead_c_add(sets: *mut u64, len: usize) -> bool;
    fn lookahead_c_narrow(set: *const u64, len: usize, table: *mut u32, room: usize) -> bool;
}

type Words = [u64; 8];

const EMPTY: Words = [0; 8];
const FULL: Words = [!1, !0, !0, !0, !0, !0, !0, !0];

fn call(f: unsafe extern "C" fn(*mut u64, usize) -> bool, a: &Words, b: &Words) -> Words {
    let mut sets = [0; 24];
    sets[..8].copy_from_slice(a);
    sets[8..16].copy_from_slice(b);
    assert!(unsafe { f(sets.as_mut_ptr(), sets.len()) });
    assert_eq!((&sets[..8], &sets[8..16]), (&a[..], &b[..]), "the given sets changed");
    sets[16..].try_into().unwrap()
}

fn least(a: &Words, b: &Words) -> usize {
    let mut sets = [0; 16];
    sets[..8].copy_from_slice(a);
    sets[8..].copy_from_slice(b);
    unsafe { lookahead_c_least(sets.as_ptr(), sets.len()) }
}

// The first set with the second added, and whether that changed it.
fn add(a: &Words, b: &Words) -> (Words, bool) {
    let mut sets = [0; 16];
    sets[..8].copy_from_slice(a);
    sets[8..].copy_from_slice(b);
    let grew = unsafe { lookahead_c_add(sets.as_mut_ptr(), sets.len()) };
    assert_eq!(&sets[8..], &b[..], "the second set changed");
    (sets[..8].try_into().unwrap(), grew)
}

// The sixteen u32 words of a set; a word behind them stays.
fn narrow(set: &Words) -> [u32; 16] {
    let mut table = [7; 17];
    assert!(unsafe { lookahead_c_narrow(set.as_ptr(), set.len(), table.as_mut_ptr(), table.len()) });
    assert_eq!(table[16], 7);
    table[..16].try_into().unwrap()
}

fn has(set: &Words, number: usize) -> bool {
    set[number / 64] >> (number % 64) & 1 == 1
}

fn words(numbers: impl IntoIterator<Item = usize>) -> Words {
    let mut set = EMPTY;
    for n in numbers {
        set[n / 64] |= 1 << (n % 64);
    }
    set
}

// A string as its bits, and its number as document 01 has it: a 1 followed by the bits.
fn string(number: usize) -> String {
    format!("{number:b}")[1..].to_string()
}

fn number(string: &str) -> usize {
    usize::from_str_radix(&format!("1{string}"), 2).unwrap()
}

fn strings(set: &Words) -> BTreeSet<String> {
    (1..512).filter(|n| has(set, *n)).map(string).collect()
}

// The join by its definition, over strings.
fn join_by_strings(a: &Words, b: &Words) -> Words {
    let (a, b) = (strings(a), strings(b));
    let pairs = a.iter().flat_map(|x| b.iter().map(move |y| format!("{x}{y}")));
    words(pairs.map(|s| number(&s[..s.len().min(8)])))
}

// The join pair by pair, over numbers: what the benchmark compares with.
fn join_by_pairs(a: &Words, b: &Words) -> Words {
    let mut out = EMPTY;
    for n in (1..512).filter(|n| has(a, *n)) {
        for m in (1..512).filter(|m| has(b, *m)) {
            let (i, j) = (n.ilog2(), m.ilog2());
            let whole = (n << j) + (m - (1 << j));
            let cut = if i + j > 8 { whole >> (i + j - 8) } else { whole };
            out[cut / 64] |= 1 << (cut % 64);
        }
    }
    out
}

fn compare(a: &Words, b: &Words) {
    let joined = join_by_pairs(a, b);
    assert_eq!(call(lookahead_c_join, a, b), joined, "join of {a:x?} and {b:x?}");
    let union = words((1..512).filter(|n| has(a, *n) || has(b, *n)));
    assert_eq!(call(lookahead_c_union, a, b), union, "union of {a:x?} and {b:x?}");
    let both: Words = std::array::from_fn(|i| a[i] | b[i]);
    assert_eq!(add(a, b), (both, both != *a), "{b:x?} added to {a:x?}");
    let halves = narrow(a);
    assert!((0..512).all(|n| (halves[n / 32] >> (n % 32) & 1 == 1) == has(a, n)), "halves of {a:x?}");
    let common = (1..512).find(|n| has(a, *n) && has(b, *n)).unwrap_or(0);
    assert_eq!(least(a, b), common, "least common string of {a:x?} and {b:x?}");
}

// Numbers that look random, the same in each run (xorshift).
struct Random(u64);

impl Random {
    fn next(&mut self) -> u64 {
        self.0 ^= self.0 << 13;
        self.0 ^= self.0 >> 7;
        self.0 ^= self.0 << 17;
        self.0
    }

    // About one bit in 2^thin set, in some of the words; the unused bit may be set too.
    fn set(&mut self, thin: u32) -> Words {
        let mut set = EMPTY;
        let some = self.next();
        for (i, word) in set.iter_mut().enumerate() {
            if some >> i & 1 == 1 {
                *word = (0..thin).fold(!0, |w, _| w & self.next());
            }
        }
        set
    }
}

// FIRST and FOLLOW of each construct of a folder's texts, by the reference implementation: the pairs that admission joins.
fn sets_of_grammars(folder: &Path) -> Vec<(Words, Words)> {
    let mut texts: Vec<_> = std::fs::read_dir(folder).expect("a folder").map(|entry| entry.expect("a text").path()).collect();
    texts.sort();
    let grammar = |path| admit(&std::fs::read(path).expect("a text")).ok();
    let of = |set: &Strings| words(set.iter().map(usize::from));
    let sets = |grammar: reference::grammar::Grammar| {
        let analysis = grammar.analysis;
        let pairs = analysis.first.iter().zip(&analysis.follow).map(|(first, follow)| (of(first), of(follow)));
        pairs.collect::<Vec<_>>()
    };
    texts.iter().filter_map(grammar).flat_map(sets).collect()
}

// Of one join, the least of five times as many as said.
fn nanoseconds(turns: u32, mut f: impl FnMut() -> Words) -> f64 {
    let mut time = || {
        let start = Instant::now();
        for _ in 0..turns {
            black_box(f());
        }
        start.elapsed().as_nanos() as f64 / f64::from(turns)
    };
    (0..5).map(|_| time()).fold(f64::INFINITY, f64::min)
}

// The two joins side by side.
fn ratio(name: &str, pairs: &[(Words, Words)]) -> f64 {
    let by_words = nanoseconds((20_000 / pairs.len() as u32).max(1), || pairs.iter().map(|(a, b)| call(lookahead_c_join, black_box(a), black_box(b))).fold(EMPTY, either));
    let by_pairs = nanoseconds((20 / pairs.len() as u32).max(1), || pairs.iter().map(|(a, b)| join_by_pairs(black_box(a), black_box(b))).fold(EMPTY, either));
    let each = |time: f64| time / pairs.len() as f64;
    println!("{name}: {:.0} ns a join by words, {:.0} ns pair by pair, ratio {:.5}", each(by_words), each(by_pairs), by_words / by_pairs);
    by_words / by_pairs
}

fn either(a: Words, b: Words) -> Words {
    std::array::from_fn(|i| a[i] | b[i])
}

fn same(folder: &Path) -> Vec<(Words, Words)> {
    let mut pairs = 0;
    let special = [EMPTY, FULL, words([1]), words([2]), words([18]), words([321]), words([511]), words(256..512), words([1, 321]), [1, 0, 0, 0, 0, 0, 0, 0], [!0; 8]];
    for a in &special {
        for b in &special {
            compare(a, b);
            assert_eq!(call(lookahead_c_join, a, b), join_by_strings(a, b));
            pairs += 1;
        }
    }
    for n in 1..512 {
        for m in 1..512 {
            let (a, b) = (words([n]), words([m]));
            assert_eq!(call(lookahead_c_join, &a, &b), join_by_pairs(&a, &b), "join of {n} and {m}");
            pairs += 1;
        }
        compare(&words([n]), &FULL);
        compare(&FULL, &words([n]));
        pairs += 2;
    }
    let mut random = Random(0x9e37_79b9_7f4a_7c15);
    for turn in 0..4000 {
        let (a, b) = (random.set(turn % 7), random.set(turn / 7 % 7));
        compare(&a, &b);
        if turn % 50 == 0 {
            assert_eq!(join_by_pairs(&a, &b), join_by_strings(&a, &b));
        }
        pairs += 1;
    }
    let mut short = [0u64; 23];
    assert!(!unsafe { lookahead_c_join(short.as_mut_ptr(), short.len()) }, "a slice without room for three sets");
    let grammars = sets_of_grammars(folder);
    assert!(grammars.len() > 200, "the sets of large grammars");
    for (a, b) in &grammars {
        compare(a, b);
        pairs += 1;
    }
    println!("{pairs} pairs of sets: joins, unions, additions, halves and least common strings are the same");
    grammars
}

fn main() {
    let folder = std::env::args().nth(1).expect("a folder of texts");
    let grammars = same(Path::new(&folder));
    let bytes = words(256..512);
    assert!(ratio("two full sets", &[(FULL, FULL)]) <= MOST);
    assert!(ratio("two sets of all bytes", &[(bytes, bytes)]) <= MOST);
    assert!(ratio("the sets of the largest grammars", &grammars) <= MOST);
    ratio("two sets of one byte", &[(words([321]), words([322]))]);
}
