// Sets of lookahead strings (document 01's windows): strings of 0 to 8 bits, each by its number, a 1 followed by its bits.

pub const LONGEST: u32 = 8;
pub const EMPTY_STRING: u16 = 1;

#[derive(Debug, Clone, Copy, PartialEq, Eq, Default)]
pub struct Strings([u64; 8]);

impl Strings {
    // Just the empty string. The set of no strings is the default.
    pub fn empty_string() -> Strings {
        [EMPTY_STRING].into_iter().collect()
    }

    pub fn insert(&mut self, string: u16) {
        self.0[usize::from(string / 64)] |= 1 << (string % 64);
    }

    pub fn contains(&self, string: u16) -> bool {
        self.0[usize::from(string / 64)] >> (string % 64) & 1 == 1
    }

    // In the order of their numbers.
    pub fn iter(&self) -> impl Iterator<Item = u16> + '_ {
        let of_word = |(i, &word): (usize, &u64)| {
            let rests = std::iter::successors(Some(word), |rest| Some(rest & rest.wrapping_sub(1)));
            rests.take_while(|&rest| rest != 0).map(move |rest| i as u16 * 64 + rest.trailing_zeros() as u16)
        };
        self.0.iter().enumerate().flat_map(of_word)
    }

    pub fn union(&self, other: &Strings) -> Strings {
        Strings(std::array::from_fn(|i| self.0[i] | other.0[i]))
    }

    pub fn least_common(&self, other: &Strings) -> Option<u16> {
        Strings(std::array::from_fn(|i| self.0[i] & other.0[i])).iter().next()
    }

    // Each string of the one followed by each of the other, cut at 8 bits. How much of the other is seen depends on the first string's
    // length alone, so the other is cut once for each length and not for each pair.
    pub fn join(&self, other: &Strings) -> Strings {
        let mut seen: [Option<Strings>; 9] = [None; 9];
        let mut joined = Strings::default();
        for front in self.iter() {
            let room = LONGEST - length(front);
            let backs = seen[room as usize].get_or_insert_with(|| other.cut(room));
            backs.iter().for_each(|back| joined.insert(append(front, back)));
        }
        joined
    }

    // The strings, each cut to so many bits.
    fn cut(&self, bits: u32) -> Strings {
        self.iter().map(|string| string >> length(string).saturating_sub(bits)).collect()
    }

    // The strings of so many passes.
    fn passes(&self, count: u32) -> Strings {
        (0..count).fold(Strings::empty_string(), |so_far, _| so_far.join(self))
    }

    // The strings of `least` to `greatest` passes, or of `least` and more. 8 passes have the strings of any more.
    pub fn repeated(&self, least: u32, greatest: Option<u32>) -> Strings {
        let least = least.min(LONGEST);
        let greatest = greatest.unwrap_or(LONGEST).min(LONGEST);
        let mut all = Strings::default();
        let mut now = self.passes(least);
        for _ in least..=greatest {
            all = all.union(&now);
            now = now.join(self);
        }
        all
    }
}

impl FromIterator<u16> for Strings {
    fn from_iter<I: IntoIterator<Item = u16>>(strings: I) -> Strings {
        let mut set = Strings::default();
        strings.into_iter().for_each(|string| set.insert(string));
        set
    }
}

pub fn length(string: u16) -> u32 {
    string.ilog2()
}

// The string with its first `bits` bits of `value`.
pub fn string(value: u64, bits: u32) -> u16 {
    (1 << bits) | value as u16
}

fn append(front: u16, back: u16) -> u16 {
    let bits = length(back);
    (front << bits) | (back - (1 << bits))
}
