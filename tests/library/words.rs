// A grant over any words: a table (docs/TABLE.md), a frame, a reading and a saved run, whatever they hold. What a step finds missing or against the
// layout breaks the run (docs/DECISIONS.md, "Steps"). Written from those pages and document 01.
use crate::calls::TABLE_WORDS;
use crate::words_terms::{condition, counts, member, Broken};

const OPENING: usize = 256; // the opening use of the start rule
const UNDECIDED: u32 = 0;
const LONGEST_FRAME: usize = 1024;

#[derive(Debug, Clone)]
pub struct Run {
    position: u64,
    count: u64,
    captures: u64,
    steps: u64,
    values: Vec<i64>,
    verdict: u32,
    constructs: Vec<u32>,
    passes: Vec<u32>,
}

impl Run {
    pub fn from_bytes(bytes: &[u8]) -> Run {
        let wide = |at: usize| u64::from_le_bytes(bytes[at..at + 8].try_into().expect("8 bytes"));
        let word = |at: usize| u32::from_le_bytes(bytes[at..at + 4].try_into().expect("4 bytes"));
        Run {
            position: wide(0),
            count: wide(8),
            captures: wide(16),
            steps: wide(24),
            values: (0..64).map(|k| wide(32 + 8 * k) as i64).collect(),
            verdict: word(544),
            constructs: (0..256).map(|k| word(548 + 4 * k)).collect(),
            passes: (0..256).map(|k| word(1572 + 4 * k)).collect(),
        }
    }

    pub fn to_bytes(&self) -> Vec<u8> {
        let mut bytes = Vec::new();
        [self.position, self.count, self.captures, self.steps].iter().for_each(|n| bytes.extend(n.to_le_bytes()));
        self.values.iter().for_each(|v| bytes.extend(v.to_le_bytes()));
        bytes.extend(self.verdict.to_le_bytes());
        self.constructs.iter().chain(&self.passes).for_each(|w| bytes.extend(w.to_le_bytes()));
        bytes
    }
}

// What a construct's words say.
enum Kind {
    Alternative,
    Concatenation,
    Repetition { how: usize, start: usize, end: usize },
    Switch,
    Use(usize),
    Literal(usize),
    Range(usize, usize),
    Uint { signed: bool, width: usize, start: usize, end: usize, binder: usize },
    Eod,
}

// What a step does with the first entry, where it is not broken.
enum Act {
    Fail,
    Enter(usize),
    Members(Vec<usize>),
    Again,
    Leave,
    Take { width: usize, binder: usize, value: i128 },
}

pub struct Words<'a> {
    pub table: &'a [u32],
    pub frame: &'a [u8],
}

impl Words<'_> {
    fn word(&self, at: usize) -> usize {
        self.table[at] as usize
    }

    fn bits(&self) -> usize {
        8 * self.frame.len()
    }

    // The refusal's number, or 0 and the steps taken.
    pub fn grant(&self, reading: &mut [u32], run: &mut Run, steps: u64) -> (usize, u64) {
        if self.frame.len() > LONGEST_FRAME {
            return (21, 0);
        }
        if !self.fits(reading.len(), run) {
            return (24, 0);
        }
        let before = run.steps;
        while run.verdict == UNDECIDED && run.steps - before < steps {
            if self.step(reading, run).is_err() {
                run.verdict = 4;
            }
        }
        (0, run.steps - before)
    }

    fn fits(&self, room: usize, run: &Run) -> bool {
        let bits = self.bits() as u64;
        if self.table.len() < TABLE_WORDS || run.position > bits || run.verdict > 4 || run.count > 256 {
            return false;
        }
        let known = |construct: u32| construct == 256 || (construct < 256 && construct < self.table[2]);
        let entries = 0..run.count as usize;
        let fit = entries.clone().all(|k| known(run.constructs[k]) && u64::from(run.passes[k]) <= bits + 1);
        fit && 2 * (u128::from(run.captures) + u128::from(bits - run.position)) <= room as u128
    }

    fn step(&self, reading: &mut [u32], run: &mut Run) -> Result<(), Broken> {
        let weight = self.word(5);
        if weight > 65535 || run.steps >= (weight * (self.bits() + 1)) as u64 || run.count == 0 {
            return Err(Broken);
        }
        let top = run.count as usize - 1;
        let (construct, passes) = (run.constructs[top] as usize, run.passes[top] as usize);
        let entries = match self.decide(construct, passes, run)? {
            Act::Fail => {
                (run.steps, run.verdict) = (run.steps + 1, 2);
                return Ok(());
            }
            Act::Enter(part) => vec![(part, 0)],
            Act::Members(parts) => parts.into_iter().map(|part| (part, 0)).collect(),
            Act::Again if passes > self.bits() => return Err(Broken),
            Act::Again => vec![(construct + 1, 0), (construct, passes + 1)],
            Act::Leave => vec![],
            Act::Take { width, binder, value } => {
                let at = 2 * run.captures as usize;
                let pair = reading.get_mut(at..at + 2).ok_or(Broken)?;
                pair.copy_from_slice(&[construct as u32, run.position as u32]);
                if binder > 0 {
                    run.values[binder - 1] = value as i64;
                }
                (run.captures, run.position) = (run.captures + 1, run.position + width as u64);
                vec![]
            }
        };
        if top + entries.len() > 256 {
            return Err(Broken);
        }
        for (k, (part, passed)) in entries.iter().rev().enumerate() {
            (run.constructs[top + k], run.passes[top + k]) = (*part as u32, *passed as u32);
        }
        (run.count, run.steps) = ((top + entries.len()) as u64, run.steps + 1);
        if run.count == 0 {
            run.verdict = if run.position as usize == self.bits() { 1 } else { 2 };
        }
        Ok(())
    }

    // A construct and its size, if its words say one.
    fn construct(&self, i: usize) -> Option<(Kind, usize)> {
        if i >= 256 {
            return None;
        }
        let at = 576 + 8 * i;
        let [kind, size, a, b, c, d] = std::array::from_fn(|k| self.word(at + k));
        let listed = b <= c && c <= 1024;
        let inner = size >= 2 && i + size <= 256;
        let widest = if d > 0 { 62 } else { 64 };
        let found = match kind {
            1 if inner => Kind::Alternative,
            2 if inner => Kind::Concatenation,
            3 if inner && (1..=3).contains(&a) || inner && a == 4 && listed => Kind::Repetition { how: a, start: b, end: c },
            4 if inner => Kind::Switch,
            5 if size == 1 && a < 64 => Kind::Use(a),
            6 if size == 1 && (1..=32).contains(&a) => Kind::Literal(a),
            7 if size == 1 && a < 128 && b < 128 => Kind::Range(a, b),
            8 | 12 if size == 1 && a >= 1 && a <= widest && listed && d <= 64 => Kind::Uint { signed: kind == 12, width: a, start: b, end: c, binder: d },
            9 if size == 1 => Kind::Eod,
            _ => return None,
        };
        Some((found, size))
    }

    fn decide(&self, i: usize, passes: usize, run: &Run) -> Result<Act, Broken> {
        if i == OPENING {
            return self.open_rule(0);
        }
        let (kind, size) = self.construct(i).ok_or(Broken)?;
        if i + size > self.word(2) {
            return Err(Broken);
        }
        let position = run.position as usize;
        match kind {
            Kind::Alternative => self.branch(i + 1, i + size, position),
            Kind::Concatenation => self.members(i + 1, i + size),
            Kind::Switch => self.case(i + 1, i + size, run),
            Kind::Use(rule) => self.open_rule(rule),
            Kind::Repetition { how, start, end } => {
                let allowed = match how {
                    1 => Some((0, Some(1))),
                    2 => Some((0, None)),
                    3 => Some((1, None)),
                    _ => counts(self.terms(start, end)?, self.known(run))?,
                };
                Ok(self.turn(i, passes as u64, allowed, position))
            }
            _ => self.field(i, kind, run),
        }
    }

    fn field(&self, i: usize, kind: Kind, run: &Run) -> Result<Act, Broken> {
        let position = run.position as usize;
        let taken = |holds: bool, width: usize| if holds { Act::Take { width, binder: 0, value: 0 } } else { Act::Fail };
        match kind {
            Kind::Literal(length) => {
                let byte = |k: usize| u64::from(self.table[5696 + 8 * i + k / 4] >> (8 * (k % 4)) & 255);
                let holds = position + 8 * length <= self.bits() && (0..length).all(|k| self.number(position + 8 * k, 8) == byte(k));
                Ok(taken(holds, 8 * length))
            }
            Kind::Range(low, high) => {
                let holds = position + 8 <= self.bits() && (low as u64..=high as u64).contains(&self.number(position, 8));
                Ok(taken(holds, 8))
            }
            Kind::Uint { signed, width, start, end, binder } => {
                let terms = self.terms(start, end)?;
                if binder > self.word(3) {
                    return Err(Broken);
                }
                if position + width > self.bits() {
                    return Ok(Act::Fail);
                }
                let pattern = i128::from(self.number(position, width));
                let value = if signed && pattern >> (width - 1) == 1 { pattern - (1 << width) } else { pattern };
                Ok(if member(terms, self.known(run), value)? { Act::Take { width, binder, value } } else { Act::Fail })
            }
            _ => Ok(if position == self.bits() { Act::Leave } else { Act::Fail }),
        }
    }

    // What songrafter_field answers: a number, and the four words where it is 0.
    pub fn told(&self, reading: &[u32], k: usize) -> Result<[u64; 4], usize> {
        if self.frame.len() > LONGEST_FRAME {
            return Err(21);
        }
        let first = k.checked_mul(2).ok_or(22usize)?;
        let pair = first.checked_add(2).and_then(|end| reading.get(first..end)).ok_or(22usize)?;
        let (construct, position) = (pair[0] as usize, pair[1] as usize);
        if self.table.len() < TABLE_WORDS {
            return Err(23);
        }
        let (signed, width) = match self.construct(construct) {
            Some((Kind::Literal(length), _)) => (false, 8 * length),
            Some((Kind::Range(_, _), _)) => (false, 8),
            Some((Kind::Uint { signed, width, .. }, _)) => (signed, width),
            _ => return Err(23),
        };
        if position + width > self.bits() {
            return Err(24);
        }
        let number = if width > 64 { 0 } else { self.number(position, width) };
        // a sint's in two's complement of 64 bits
        let negative = signed && width < 64 && number >> (width - 1) == 1;
        let value = if negative { number.wrapping_sub(1 << width) } else { number };
        Ok([construct as u64, position as u64, width as u64, value])
    }

    fn open_rule(&self, rule: usize) -> Result<Act, Broken> {
        let body = self.word(64 + 4 * rule);
        if rule < self.word(1) && body < 256 && body < self.word(2) { Ok(Act::Enter(body)) } else { Err(Broken) }
    }

    // The number after part j; a part whose words say nothing has none after it.
    fn after(&self, j: usize) -> Result<usize, Broken> {
        self.construct(j).map(|(_, size)| j + size).ok_or(Broken)
    }

    fn branch(&self, start: usize, end: usize, position: usize) -> Result<Act, Broken> {
        let mut j = start;
        while j < end {
            if self.holds(7744 + 32 * j, position) {
                return Ok(Act::Enter(j));
            }
            j = self.after(j)?;
        }
        Ok(Act::Fail)
    }

    fn members(&self, start: usize, end: usize) -> Result<Act, Broken> {
        let (mut j, mut parts) = (start, Vec::new());
        while j < end {
            parts.push(j);
            j = self.after(j)?;
        }
        Ok(Act::Members(parts))
    }

    fn case(&self, start: usize, end: usize, run: &Run) -> Result<Act, Broken> {
        let mut j = start;
        while j < end {
            let (from, to) = (self.word(576 + 8 * j + 6), self.word(576 + 8 * j + 7));
            if from >= to || condition(self.terms(from, to)?, self.known(run))? {
                return Ok(Act::Enter(j));
            }
            j = self.after(j)?;
        }
        // no case is true, and there is no default
        Ok(Act::Leave)
    }

    fn turn(&self, i: usize, passes: u64, allowed: Option<(u64, Option<u64>)>, position: usize) -> Act {
        let Some((least, greatest)) = allowed else { return Act::Fail };
        if passes < least {
            return Act::Again;
        }
        if greatest.is_some_and(|most| passes >= most) {
            return Act::Leave;
        }
        let (goes, stops) = (self.holds(7744 + 32 * (i + 1), position), self.holds(7744 + 32 * i + 16, position));
        if goes { Act::Again } else if stops { Act::Leave } else { Act::Fail }
    }

    // The terms' words, three to a term, if the table counts them.
    fn terms(&self, start: usize, end: usize) -> Result<&[u32], Broken> {
        if end > self.word(4) || end > 1024 { Err(Broken) } else { Ok(&self.table[2624 + 3 * start..2624 + 3 * end]) }
    }

    // The values of the table's variables.
    fn known<'r>(&self, run: &'r Run) -> &'r [i64] {
        &run.values[..self.word(3).min(64)]
    }

    fn number(&self, position: usize, width: usize) -> u64 {
        (position..position + width).fold(0, |n, k| 2 * n + u64::from(self.frame[k / 8] >> (7 - k % 8) & 1))
    }

    // Whether the set whose words begin there holds what comes next.
    fn holds(&self, base: usize, position: usize) -> bool {
        let length = (self.bits() - position).min(8);
        let window = (1 << length) + self.number(position, length) as usize;
        self.table[base + window / 32] >> (window % 32) & 1 == 1
    }
}
