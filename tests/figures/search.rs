// Searches for texts that take long to admit or to open: `search SEED TURNS FOLDER`. A text is made from numbers (genes); those of the slowest texts so far are
// changed here and there. The slowest to admit and the slowest to open are printed with their times and written to the folder. Run with nothing else running.
use std::time::Instant;

const TABLE_WORDS: usize = 16384;
const RUN_BYTES: usize = 2596;

extern "C" {
    fn songrafter_admit(text: *const u8, text_len: usize, table: *mut u32, table_len: usize, answer: *mut u64, answer_len: usize) -> usize;
    fn songrafter_open(
        table: *const u32, table_len: usize, frame: *const u8, frame_len: usize, reading: *const u32, reading_len: usize, run: *mut u8, run_len: usize,
    ) -> usize;
}

// Numbers that look random (xorshift).
struct Random(u64);

impl Random {
    fn next(&mut self) -> u64 {
        self.0 ^= self.0 << 13;
        self.0 ^= self.0 >> 7;
        self.0 ^= self.0 << 17;
        self.0
    }

    fn below(&mut self, n: usize) -> usize {
        (self.next() % n as u64) as usize
    }
}

type Genes = [u8; 80];

fn shuffled(n: usize, seed: u8) -> Vec<usize> {
    let mut random = Random(u64::from(seed) * 2 + 1);
    let mut order: Vec<usize> = (0..n).collect();
    (1..n).for_each(|i| order.swap(i, random.below(i + 1)));
    order
}

// A repetition in a repetition, so deep.
fn nested(depth: usize, body: &str, counts: &str) -> String {
    format!("{}{body}{}{counts}", "(".repeat(depth), format!("{counts})").repeat(depth))
}

// A set of so many items.
fn set(kind: u8, items: usize, order: u8) -> String {
    let numbers = if order % 3 == 0 { (0..items).collect() } else { shuffled(items, order) };
    let listed = |item: &dyn Fn(usize) -> String| numbers.iter().map(|&i| item(i * 3)).collect::<Vec<_>>().join("|");
    match kind % 8 {
        0 => listed(&|i| format!("{i}")),
        1 => listed(&|i| format!("{i}!{i}")),
        2 => listed(&|i| format!("{}~{}!{}~{}", i * 999, i * 999 + 99, i * 999, i * 999 + 99)),
        3 => listed(&|i| format!("~{i}!~{}", i + 1)),
        7 => listed(&|i| format!("-{i}")),
        4 => format!("1!({})", listed(&|i| format!("{}", i + 3))),
        5 => listed(&|i| format!("{}~{}", i * 9999 + 7, i * 9999 + 9)),
        _ => listed(&|i| format!("{i}!~{}", i + 1)),
    }
}

// The word and the width of a field, up to the comma: one of 128.
fn field(gene: u8) -> String {
    format!("{}({},", if gene & 64 == 0 { "uint" } else { "sint" }, 1 + gene % 64)
}

fn member(kind: u8, genes: &Genes) -> String {
    let counts = ["{8}", "{2}", "{3~7}", "+", "?", "{1}", "*"][usize::from(genes[5]) % 7];
    match kind % 10 {
        0 => format!("uint(1,~){counts}"),
        1 => nested(usize::from(genes[6]) % 15, "uint(1,~)", counts),
        2 => "uint(8,~)".into(),
        3 => "uint(32,5~4000000000)".into(),
        4 => "\"x\"".into(),
        5 => "(uint(8,1)|uint(8,2))".into(),
        6 => format!("uint(8,{}){counts}", genes[7]),
        7 => format!("{}{})", field(genes[8]), set(genes[9], usize::from(genes[10]) % 8 + 1, genes[11])),
        8 => nested(usize::from(genes[6]) % 15, "uint(8,7)", counts),
        _ => format!("uint(16,~){counts}"),
    }
}

// Rules that use each other one way, one of them with many members, or one uint with a large set.
fn text(genes: &Genes) -> String {
    let header = "dogma_v1 utf-8\n\n";
    if genes[0] % 4 == 0 {
        let items = usize::from(genes[1]) * 2 + 1;
        return format!("{header}a={}{});", field(genes[2]), set(genes[3], items, genes[4]));
    }
    let rules = usize::from(genes[1]) % 64 + 1;
    let members = |rule: usize| if rule == 0 || genes[2] % 8 == 0 { usize::from(genes[3]) } else { usize::from(genes[16 + rule]) % 3 };
    let place = match genes[4] % 3 {
        0 => (0..rules).collect(),
        1 => (0..rules).rev().collect(),
        _ => shuffled(rules, genes[12]),
    };
    // Rule k of the chain uses rule k − 1, and some use the first rule too; the chain's last is the start rule.
    let body = |k: usize| {
        let mut parts: Vec<String> = (0..members(k)).map(|i| member(genes[13].wrapping_add((i as u8).wrapping_mul(genes[14])), genes)).collect();
        if k > 0 {
            parts.push(format!("r{}", k - 1));
            if genes[15] % 4 == 1 {
                parts.push("r0".into());
            }
        }
        if parts.is_empty() { "uint(1,1)".into() } else { parts.join("&") }
    };
    let mut written: Vec<usize> = place;
    let start = written.iter().position(|&k| k == rules - 1).expect("the start rule");
    written.remove(start);
    let all = std::iter::once(rules - 1).chain(written).map(|k| format!("r{k}={};", body(k))).collect::<String>();
    format!("{header}{all}")
}

fn seconds(mut turn: impl FnMut()) -> f64 {
    let once = |turn: &mut dyn FnMut()| {
        let start = Instant::now();
        turn();
        start.elapsed().as_secs_f64()
    };
    (0..3).map(|_| once(&mut turn)).fold(f64::INFINITY, f64::min)
}

// How long admission takes, its answer, and how long opening takes where the text is admitted.
fn times(text: &[u8]) -> (f64, usize, f64) {
    let (mut table, mut answer, mut run) = (vec![0u32; TABLE_WORDS], [0u64; 5], vec![0u8; RUN_BYTES]);
    let (frame, reading): ([u8; 1], [u32; 1]) = ([0], [0]);
    let mut number = 0;
    let admission = seconds(|| number = unsafe { songrafter_admit(text.as_ptr(), text.len(), table.as_mut_ptr(), table.len(), answer.as_mut_ptr(), 5) });
    if number != 0 {
        return (admission, number, 0.0);
    }
    let open = || assert_eq!(unsafe { songrafter_open(table.as_ptr(), table.len(), frame.as_ptr(), 0, reading.as_ptr(), 0, run.as_mut_ptr(), run.len()) }, 0);
    (admission, 0, seconds(open))
}

fn main() {
    let arguments: Vec<String> = std::env::args().skip(1).collect();
    let [seed, turns, folder] = &arguments[..] else { panic!("use: search SEED TURNS FOLDER") };
    let mut random = Random(seed.parse::<u64>().expect("a seed") * 2 + 1);
    // The slowest to admit, and to open.
    let mut best: [(f64, Genes, usize); 2] = [(0.0, [0; 80], 0); 2];
    for turn in 0..turns.parse::<usize>().expect("a number") {
        let which = turn % 2;
        let mut genes = best[which].1;
        if turn % 5 < 2 {
            genes.iter_mut().for_each(|gene| *gene = random.next() as u8);
        } else {
            (0..1 + random.below(4)).for_each(|_| genes[random.below(80).min(random.below(80))] = random.next() as u8);
        }
        let text = text(&genes);
        if text.len() > 8192 {
            continue;
        }
        let (admission, number, opening) = times(text.as_bytes());
        for (place, time) in [admission, opening].into_iter().enumerate() {
            if time > best[place].0 && times(text.as_bytes()).0.max(if place == 0 { 0.0 } else { opening }) > best[place].0 {
                best[place] = (time, genes, number);
            }
        }
    }
    for (name, (_, genes, number)) in ["admit", "open"].into_iter().zip(best) {
        let text = text(&genes);
        let (admission, _, opening) = times(text.as_bytes());
        println!("slowest to {name}: {} bytes, answered {number} in {:.2} ms, opened in {:.2} ms", text.len(), admission * 1e3, opening * 1e3);
        std::fs::write(format!("{folder}/{name}.dogma"), text).expect("a folder");
    }
}
