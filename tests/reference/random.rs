// Numbers that look random, the same for the same seed, and texts damaged by them.

#[derive(Debug, Clone)]
pub struct Random(u64);

impl Random {
    pub fn new(seed: u64) -> Random {
        Random(seed)
    }

    // SplitMix64: every seed is a good one, neighbours too.
    pub fn next(&mut self) -> u64 {
        self.0 = self.0.wrapping_add(0x9e37_79b9_7f4a_7c15);
        let mut z = self.0;
        z = (z ^ (z >> 30)).wrapping_mul(0xbf58_476d_1ce4_e5b9);
        z = (z ^ (z >> 27)).wrapping_mul(0x94d0_49bb_1331_11eb);
        z ^ (z >> 31)
    }

    // From 0 up to `limit`, which is not included and not 0.
    pub fn below(&mut self, limit: u64) -> u64 {
        self.next() % limit
    }

    pub fn index(&mut self, length: usize) -> usize {
        self.below(length as u64) as usize
    }

    // True once in so many times.
    pub fn once_in(&mut self, times: u64) -> bool {
        self.below(times) == 0
    }

    pub fn pick<T: Copy>(&mut self, from: &[T]) -> T {
        from[self.index(from.len())]
    }

    // Anywhere in a text, its end too.
    fn place(&mut self, text: &[u8]) -> usize {
        self.index(text.len() + 1)
    }

    // A piece of a text, mostly short.
    fn piece(&mut self, text: &[u8]) -> std::ops::Range<usize> {
        let start = self.place(text);
        let longest = if self.once_in(4) { 200 } else { 6 };
        start..(start + self.index(longest)).min(text.len())
    }
}

// Bytes that mean something in some place, and some that mean nothing anywhere.
const BYTES: &[u8] = b"()[]{}?*+-~!,:;|&=<>\"'#\\_@/. \t\r\n\x0c\x000x9aZ\x7f\x80\xff";

const PHRASES: [&str; 27] = [
    "uint(8, var(n, ~))", "uint(", "var(", "eod", "\\[80]", "\\[]", "\"\"", "'a'~'bc'", "'z'~'a'", "{~}", "{0}", "{5~3}", "[]", "!=", "((", "!(", "--",
    "0x", "0b12", "4611686018427387905", "# ", "\r\n", ";x=", "sized", "sint(", "sint(8, -1)", "s",
];

// One to four changes of any kind.
pub fn damage(text: &[u8], random: &mut Random) -> Vec<u8> {
    let mut text = text.to_vec();
    for _ in 0..1 + random.index(4) {
        damage_once(&mut text, random);
    }
    text
}

fn damage_once(text: &mut Vec<u8>, random: &mut Random) {
    let at = random.place(text);
    match random.below(12) {
        0 => drop(text.drain(random.piece(text))),
        1 => text.truncate(at),
        2 => text.insert(at, random.next() as u8),
        3 | 4 => text.insert(at, random.pick(BYTES)),
        5 | 6 if at < text.len() => text[at] = random.pick(BYTES),
        7 if at < text.len() => text[at] ^= 1 << random.below(8),
        8 => insert(text, at, random.pick(&PHRASES).as_bytes()),
        9 => {
            let piece = text[random.piece(text)].to_vec();
            insert(text, at, &piece);
        }
        10 => double_a_line(text, random),
        _ => {
            let long = overlong(random);
            insert(text, at, &long);
        }
    }
}

fn insert(text: &mut Vec<u8>, at: usize, piece: &[u8]) {
    text.splice(at..at, piece.iter().copied());
}

fn double_a_line(text: &mut Vec<u8>, random: &mut Random) {
    let at = random.place(text);
    let start = text[..at].iter().rposition(|&b| b == b'\n').map_or(0, |n| n + 1);
    let end = text[at..].iter().position(|&b| b == b'\n').map_or(text.len(), |n| at + n + 1);
    let line = text[start..end].to_vec();
    insert(text, start, &line);
}

// Something that goes on for longer than anything may: a name, a number, nesting, a literal, a comment.
fn overlong(random: &mut Random) -> Vec<u8> {
    let count = random.pick(&[15, 16, 17, 31, 32, 33, 64, 300, 9000]);
    match random.below(8) {
        0 => vec![b'n'; count],
        1 => vec![random.pick(b"0179"); count],
        2 => vec![b'('; count],
        3 => vec![b'['; count],
        4 => [&vec![b'('; count][..], b"\"x\"", &vec![b')'; count]].concat(),
        5 => [&b"\""[..], &vec![b'q'; count], b"\""].concat(),
        6 => [&b"#"[..], &vec![random.next() as u8; count]].concat(),
        _ => vec![random.pick(BYTES); count],
    }
}

// Bytes of no form at all.
pub fn noise(random: &mut Random) -> Vec<u8> {
    let length = random.pick(&[0, 1, 2, 20, 200, 8191, 8192, 8193]);
    (0..length).map(|_| if random.once_in(2) { random.pick(BYTES) } else { random.next() as u8 }).collect()
}
