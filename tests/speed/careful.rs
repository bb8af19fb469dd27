// The careful matcher: constructs in one array, an explicit stack, a field by one load of eight bytes, lookahead by a list with a place for each window; sets, counts and
// conditions worked out beforehand where they are constant, else by a loop over their terms (careful_program.rs makes the arrays).
use reference::grammar::Grammar;

pub(crate) const WINDOWS: usize = 512;
const DEEPEST: usize = 512; // entries, each construct at most once and its passes beside
pub(crate) const NO_VARIABLE: u8 = u8::MAX;
pub(crate) const STOP: u16 = u16::MAX - 1;
pub(crate) const FAIL: u16 = u16::MAX;

pub struct Matcher {
    program: Program,
    state: State,
    stack: [Entry; DEEPEST],
}

// What a grammar becomes.
#[derive(Default)]
pub(crate) struct Program {
    pub(crate) nodes: Vec<Node>,  // by construct number
    pub(crate) parts: Vec<Entry>, // members, the last first
    pub(crate) choices: Vec<[u16; WINDOWS]>,
    pub(crate) cases: Vec<(Condition, u16)>,
    pub(crate) bytes: Vec<u8>,
    pub(crate) ranges: Vec<(u64, u64)>, // of patterns
    pub(crate) terms: Vec<Term>,
}

struct State {
    values: [i64; 64],
    numbers: Vec<i64>,
    tests: Vec<bool>,
}

#[derive(Clone, Copy)]
pub(crate) struct Entry {
    pub(crate) node: u16,
    pub(crate) passes: u32,
}

#[derive(Clone, Copy)]
pub(crate) enum Node {
    Alternative { choice: u16 },
    Concatenation { from: u16, to: u16 },
    Repetition { counts: Counts, body: u16, choice: u16 },
    Switch { from: u16, to: u16, default: u16 }, // STOP where there is none
    Literal { from: u32, length: u32 },
    Range { from: u8, to: u8 },
    Field { width: u8, binder: u8, least: u64, others: u64 }, // the patterns from the least, and so many others
    Listed { width: u8, binder: u8, from: u32, to: u32 },      // in some of the ranges
    Worked { signed: bool, width: u8, binder: u8, from: u32, to: u32 }, // by terms
    Eod,
    Use { body: u16 },
}

#[derive(Clone, Copy)]
pub(crate) enum Counts {
    Constant { least: u32, greatest: u32 }, // u32::MAX where there is none
    Variable(u8),
    Exactly { from: u32, to: u32 },
    Between { least: (u32, u32), greatest: (u32, u32) }, // open where there are no terms
    Never,
}

#[derive(Clone, Copy)]
pub(crate) enum Condition {
    Simple { variable: u8, comparison: Comparison, number: i64 },
    Worked { from: u32, to: u32 },
}

#[derive(Clone, Copy)]
pub(crate) enum Comparison {
    Equal,
    Unequal,
    Less,
    AtMost,
    Greater,
    AtLeast,
}

#[derive(Clone, Copy)]
pub(crate) enum Term {
    Number(i64),
    Variable(u8),
    Negate,
    Plus,
    Minus,
    Times,
    Any,
    Single,
    Span,
    From,
    UpTo,
    Either,
    Both,
    Without,
    Compare(Comparison),
}

impl Comparison {
    fn holds(self, a: i64, b: i64) -> bool {
        match self {
            Comparison::Equal => a == b,
            Comparison::Unequal => a != b,
            Comparison::Less => a < b,
            Comparison::AtMost => a <= b,
            Comparison::Greater => a > b,
            Comparison::AtLeast => a >= b,
        }
    }
}

// Eight bytes of the frame, those behind its end 0.
#[inline(always)]
fn load(frame: &[u8], at: usize) -> u64 {
    match frame.get(at..at + 8) {
        Some(bytes) => u64::from_be_bytes(bytes.try_into().expect("eight bytes")),
        None => load_end(frame, at),
    }
}

#[cold]
fn load_end(frame: &[u8], at: usize) -> u64 {
    let rest = &frame[at.min(frame.len())..];
    let mut bytes = [0; 8];
    bytes[..rest.len()].copy_from_slice(rest);
    u64::from_be_bytes(bytes)
}

// Bits of the frame, 1 to 64 of them; a field that does not begin at a byte may end in a ninth one.
#[inline(always)]
fn bits(frame: &[u8], position: usize, width: u8) -> u64 {
    let (at, shift) = (position / 8, position as u32 % 8);
    let mut word = load(frame, at) << shift;
    if shift + u32::from(width) > 64 {
        word |= u64::from(frame[at + 8]) >> (8 - shift);
    }
    word >> (64 - u32::from(width))
}

#[inline(always)]
fn window(frame: &[u8], position: usize, end: usize) -> usize {
    let (at, shift) = (position / 8, position % 8);
    if end - position >= 8 {
        let low = if shift == 0 { 0 } else { usize::from(frame[at + 1]) >> (8 - shift) };
        256 | usize::from(frame[at] << shift) | low
    } else if end == position {
        1
    } else {
        let left = end - position;
        1 << left | usize::from(frame[at]) & ((1 << left) - 1)
    }
}

impl Matcher {
    pub fn new(grammar: &Grammar) -> Matcher {
        let state = State { values: [0; 64], numbers: Vec::new(), tests: Vec::new() };
        Matcher { program: Program::new(grammar), state, stack: [fresh(0); DEEPEST] }
    }

    // Whether the frame matches, and how many fields are recorded in the reading.
    #[inline(never)]
    pub fn run(&mut self, frame: &[u8], reading: &mut [u32]) -> (bool, usize) {
        let Matcher { program, state, stack } = self;
        let end = 8 * frame.len();
        let (mut position, mut fields, mut depth) = (0, 0, 1);
        state.values.fill(0);
        stack[0] = fresh(0);
        while depth > 0 {
            let top = &mut stack[depth - 1];
            let Entry { node: number, passes: done } = *top;
            match program.nodes[usize::from(number)] {
                Node::Concatenation { from, to } => {
                    let parts = &program.parts[usize::from(from)..usize::from(to)];
                    stack[depth - 1..depth - 1 + parts.len()].copy_from_slice(parts);
                    depth += parts.len() - 1;
                }
                Node::Use { body } => *top = fresh(body),
                Node::Alternative { choice } => match program.choices[usize::from(choice)][window(frame, position, end)] {
                    FAIL => return (false, fields),
                    node => *top = fresh(node),
                },
                Node::Switch { from, to, default } => match state.chosen(program, &program.cases[usize::from(from)..usize::from(to)], default) {
                    STOP => depth -= 1,
                    node => *top = fresh(node),
                },
                Node::Repetition { counts, body, choice } => {
                    let Some((least, greatest)) = state.counted(program, counts) else { return (false, fields) };
                    let choose = || if done >= greatest { STOP } else { program.choices[usize::from(choice)][window(frame, position, end)] };
                    match if done < least { body } else { choose() } {
                        FAIL => return (false, fields),
                        STOP => depth -= 1,
                        _ => {
                            top.passes = done + 1;
                            stack[depth] = fresh(body);
                            depth += 1;
                        }
                    }
                }
                Node::Eod if position == end => depth -= 1,
                field => {
                    let Some(width) = state.taken(program, field, frame, position) else { return (false, fields) };
                    reading[2 * fields..2 * fields + 2].copy_from_slice(&[u32::from(number), position as u32]);
                    fields += 1;
                    position += width;
                    depth -= 1;
                }
            }
        }
        (position == end, fields)
    }
}

fn fresh(node: u16) -> Entry {
    Entry { node, passes: 0 }
}

fn spelled(frame: &[u8], position: usize, bytes: &[u8]) -> bool {
    if position.is_multiple_of(8) {
        return &frame[position / 8..position / 8 + bytes.len()] == bytes;
    }
    bytes.iter().enumerate().all(|(k, &byte)| bits(frame, position + 8 * k, 8) == u64::from(byte))
}

impl State {
    // How many bits a field takes; None where it does not hold.
    #[inline(always)]
    fn taken(&mut self, program: &Program, field: Node, frame: &[u8], position: usize) -> Option<usize> {
        let has = |width: usize| position + width <= 8 * frame.len();
        let (width, binder, pattern) = match field {
            Node::Literal { from, length } => {
                let bytes = &program.bytes[from as usize..(from + length) as usize];
                return (has(8 * bytes.len()) && spelled(frame, position, bytes)).then_some(8 * bytes.len());
            }
            Node::Range { from, to } => return (has(8) && (u64::from(from)..=u64::from(to)).contains(&bits(frame, position, 8))).then_some(8),
            Node::Field { width, binder, least, others } if has(width.into()) => {
                let pattern = bits(frame, position, width);
                (pattern.wrapping_sub(least) <= others).then_some((width, binder, pattern))?
            }
            Node::Listed { width, binder, from, to } if has(width.into()) => {
                let pattern = bits(frame, position, width);
                let listed = program.ranges[from as usize..to as usize].iter().any(|&(least, greatest)| (least..=greatest).contains(&pattern));
                listed.then_some((width, binder, pattern))?
            }
            Node::Worked { signed, width, binder, from, to } if has(width.into()) => {
                let value = valued(bits(frame, position, width), signed, width);
                self.tested(program, (from, to), value).then_some((width, binder, value as u64))?
            }
            _ => return None,
        };
        if binder != NO_VARIABLE {
            self.values[usize::from(binder)] = pattern as i64;
        }
        Some(usize::from(width))
    }

    // The least and the greatest count; None where no count is allowed.
    #[inline(always)]
    fn counted(&mut self, program: &Program, counts: Counts) -> Option<(u32, u32)> {
        match counts {
            Counts::Constant { least, greatest } => Some((least, greatest)),
            Counts::Variable(variable) => exactly(self.values[usize::from(variable)]),
            _ => self.counted_by_terms(program, counts),
        }
    }

    #[inline(never)]
    fn counted_by_terms(&mut self, program: &Program, counts: Counts) -> Option<(u32, u32)> {
        match counts {
            Counts::Exactly { from, to } => exactly(self.calculated(program, (from, to))),
            Counts::Between { least, greatest } => {
                let open = |(from, to)| from == to;
                let least = if open(least) { 0 } else { self.calculated(program, least).max(0) };
                let greatest = if open(greatest) { i64::MAX } else { self.calculated(program, greatest) };
                (least <= greatest).then_some((capped(least), capped(greatest)))
            }
            _ => None,
        }
    }

    #[inline(always)]
    fn chosen(&mut self, program: &Program, cases: &[(Condition, u16)], default: u16) -> u16 {
        for &(condition, case) in cases {
            let holds = match condition {
                Condition::Simple { variable, comparison, number } => comparison.holds(self.values[usize::from(variable)], number),
                Condition::Worked { from, to } => self.tested(program, (from, to), 0),
            };
            if holds {
                return case;
            }
        }
        default
    }

    fn calculated(&mut self, program: &Program, terms: (u32, u32)) -> i64 {
        self.work(program, terms, 0);
        self.numbers.pop().expect("a number")
    }

    fn tested(&mut self, program: &Program, terms: (u32, u32), value: i64) -> bool {
        self.work(program, terms, value);
        self.tests.pop().expect("a test")
    }

    #[inline(never)]
    fn work(&mut self, program: &Program, (from, to): (u32, u32), value: i64) {
        let State { values, numbers, tests } = self;
        for &term in &program.terms[from as usize..to as usize] {
            match term {
                Term::Number(number) => numbers.push(number),
                Term::Variable(variable) => numbers.push(values[usize::from(variable)]),
                Term::Any => tests.push(true),
                Term::Negate => {
                    let a = numbers.pop().expect("a number");
                    numbers.push(-a);
                }
                Term::Single | Term::From | Term::UpTo => {
                    let a = numbers.pop().expect("a number");
                    tests.push(match term {
                        Term::Single => a == value,
                        Term::From => a <= value,
                        _ => value <= a,
                    });
                }
                Term::Either | Term::Both | Term::Without => {
                    let (b, a) = (tests.pop().expect("a test"), tests.pop().expect("a test"));
                    tests.push(match term {
                        Term::Either => a || b,
                        Term::Both => a && b,
                        _ => a && !b,
                    });
                }
                _ => {
                    let (b, a) = (numbers.pop().expect("a number"), numbers.pop().expect("a number"));
                    match term {
                        Term::Plus => numbers.push(a + b),
                        Term::Minus => numbers.push(a - b),
                        Term::Times => numbers.push(a * b),
                        Term::Compare(comparison) => tests.push(comparison.holds(a, b)),
                        _ => tests.push(a <= value && value <= b),
                    }
                }
            }
        }
    }
}

// A calculation stays within 2^62, so a larger value compares as the largest one does.
fn valued(pattern: u64, signed: bool, width: u8) -> i64 {
    let unused = 64 - u32::from(width);
    if signed { (pattern << unused) as i64 >> unused } else { pattern.min(i64::MAX as u64) as i64 }
}

fn exactly(n: i64) -> Option<(u32, u32)> {
    (n >= 0).then_some((capped(n), capped(n)))
}

// No frame has so many passes as the largest count.
fn capped(n: i64) -> u32 {
    u32::try_from(n).unwrap_or(u32::MAX)
}
