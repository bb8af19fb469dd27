// The straightforward matcher of Req 11: a tree of constructs, and a function that calls itself for each of them. Calculations are trees too. A field is read byte by byte,
// by shifts.
use reference::grammar::Grammar;
use reference::lookahead::{self, Strings};
use reference::syntax;

pub struct Matcher {
    rules: Vec<Construct>,
    variables: usize,
}

enum Construct {
    Alternative(Vec<(Strings, Construct)>), // with the windows of each branch
    Concatenation(Vec<Construct>),
    Repetition { body: Box<Construct>, counts: Counts, go: Strings, stop: Strings },
    Switch { cases: Vec<(Condition, Construct)>, default: Option<Box<Construct>> },
    Use(usize),
    Literal { number: u32, bytes: Vec<u8> },
    Range { number: u32, from: u8, to: u8 },
    Uint { number: u32, signed: bool, width: usize, binder: Option<usize>, set: Set },
    Eod,
}

enum Calculation {
    Number(i64),
    Variable(usize),
    Negated(Box<Calculation>),
    Plus(Box<Calculation>, Box<Calculation>),
    Minus(Box<Calculation>, Box<Calculation>),
    Times(Box<Calculation>, Box<Calculation>),
}

enum Item {
    Single(Calculation),
    Span(Option<Calculation>, Option<Calculation>),
}

struct Set(Vec<(Item, Option<Excluded>)>);

enum Excluded {
    Item(Item),
    Set(Set),
}

enum Counts {
    Exactly(Calculation),
    Between(Option<Calculation>, Option<Calculation>),
}

enum Condition {
    Compare(Calculation, Comparison, Calculation),
    All(Vec<Condition>),
    Any(Vec<Condition>),
}

#[derive(Clone, Copy)]
enum Comparison {
    Equal,
    Unequal,
    Less,
    AtMost,
    Greater,
    AtLeast,
}

// One frame's run.
struct Run<'a> {
    rules: &'a [Construct],
    frame: &'a [u8],
    reading: &'a mut [u32],
    fields: usize,
    position: usize, // in bits
    values: Vec<i64>,
}

impl Matcher {
    pub fn new(grammar: &Grammar) -> Matcher {
        Matcher { rules: grammar.rules.iter().map(|rule| construct(grammar, &rule.body)).collect(), variables: grammar.variables }
    }

    // Whether the frame matches, and how many fields are recorded in the reading.
    #[inline(never)]
    pub fn run(&self, frame: &[u8], reading: &mut [u32]) -> (bool, usize) {
        let mut run = Run { rules: &self.rules, frame, reading, fields: 0, position: 0, values: vec![0; self.variables] };
        let matches = run.construct(&self.rules[0]) && run.position == 8 * frame.len();
        (matches, run.fields)
    }
}

impl Run<'_> {
    fn construct(&mut self, construct: &Construct) -> bool {
        match construct {
            Construct::Alternative(branches) => {
                let next = self.upcoming();
                match branches.iter().find(|(windows, _)| windows.contains(next)) {
                    Some((_, branch)) => self.construct(branch),
                    None => false,
                }
            }
            Construct::Concatenation(members) => members.iter().all(|member| self.construct(member)),
            Construct::Repetition { body, counts, go, stop } => self.repetition(body, counts, go, stop),
            Construct::Switch { cases, default } => {
                let case = cases.iter().find(|(condition, _)| condition.holds(&self.values)).map(|(_, case)| case);
                case.or(default.as_deref()).is_none_or(|case| self.construct(case))
            }
            Construct::Use(rule) => {
                let rules = self.rules;
                self.construct(&rules[*rule])
            }
            Construct::Literal { number, bytes } => {
                let from = self.position;
                let holds = self.has(8 * bytes.len()) && bytes.iter().enumerate().all(|(k, &byte)| bits(self.frame, from + 8 * k, 8) == u64::from(byte));
                holds && self.record(*number, 8 * bytes.len())
            }
            Construct::Range { number, from, to } => {
                let holds = self.has(8) && (u64::from(*from)..=u64::from(*to)).contains(&bits(self.frame, self.position, 8));
                holds && self.record(*number, 8)
            }
            Construct::Uint { number, signed, width, binder, set } => self.has(*width) && self.uint(*number, *signed, *width, *binder, set),
            Construct::Eod => self.position == 8 * self.frame.len(),
        }
    }

    fn repetition(&mut self, body: &Construct, counts: &Counts, go: &Strings, stop: &Strings) -> bool {
        let Some((least, greatest)) = counts.allowed(&self.values) else { return false };
        let mut done = 0;
        loop {
            if done >= least {
                if greatest.is_some_and(|greatest| done >= greatest) {
                    return true;
                }
                let next = self.upcoming();
                if !go.contains(next) {
                    return stop.contains(next);
                }
            }
            if !self.construct(body) {
                return false;
            }
            done += 1;
        }
    }

    // A calculation stays within 2^62, so a larger value compares as the largest one does.
    fn uint(&mut self, number: u32, signed: bool, width: usize, binder: Option<usize>, set: &Set) -> bool {
        let pattern = bits(self.frame, self.position, width);
        let value = if signed { (pattern << (64 - width)) as i64 >> (64 - width) } else { pattern.min(i64::MAX as u64) as i64 };
        if !set.contains(value, &self.values) {
            return false;
        }
        if let Some(variable) = binder {
            self.values[variable] = value;
        }
        self.record(number, width)
    }

    fn has(&self, width: usize) -> bool {
        self.position + width <= 8 * self.frame.len()
    }

    fn record(&mut self, number: u32, width: usize) -> bool {
        self.reading[2 * self.fields] = number;
        self.reading[2 * self.fields + 1] = self.position as u32;
        self.fields += 1;
        self.position += width;
        true
    }

    // What comes next: 8 bits, or all that are left.
    fn upcoming(&self) -> u16 {
        let count = (8 * self.frame.len() - self.position).min(8);
        lookahead::string(bits(self.frame, self.position, count), count as u32)
    }
}

// Bits of the frame as a number, the most significant first: from each byte as many as are wanted.
fn bits(frame: &[u8], from: usize, count: usize) -> u64 {
    let (mut value, mut at, end) = (0, from, from + count);
    while at < end {
        let byte = u64::from(frame[at / 8]);
        let after = (at / 8 * 8 + 8).min(end); // where this byte's part ends
        let part = byte >> (at / 8 * 8 + 8 - after) & ((1 << (after - at)) - 1);
        value = value << (after - at) | part;
        at = after;
    }
    value
}

impl Calculation {
    fn value(&self, values: &[i64]) -> i64 {
        match self {
            Calculation::Number(number) => *number,
            Calculation::Variable(variable) => values[*variable],
            Calculation::Negated(a) => -a.value(values),
            Calculation::Plus(a, b) => a.value(values) + b.value(values),
            Calculation::Minus(a, b) => a.value(values) - b.value(values),
            Calculation::Times(a, b) => a.value(values) * b.value(values),
        }
    }
}

impl Item {
    fn contains(&self, value: i64, values: &[i64]) -> bool {
        match self {
            Item::Single(single) => single.value(values) == value,
            Item::Span(from, to) => from.as_ref().is_none_or(|from| from.value(values) <= value) && to.as_ref().is_none_or(|to| value <= to.value(values)),
        }
    }
}

impl Set {
    fn contains(&self, value: i64, values: &[i64]) -> bool {
        self.0.iter().any(|(item, excluded)| {
            item.contains(value, values)
                && match excluded {
                    None => true,
                    Some(Excluded::Item(item)) => !item.contains(value, values),
                    Some(Excluded::Set(set)) => !set.contains(value, values),
                }
        })
    }
}

impl Counts {
    // The least and the greatest count; None where no count is allowed.
    fn allowed(&self, values: &[i64]) -> Option<(i64, Option<i64>)> {
        match self {
            Counts::Exactly(n) => Some(n.value(values)).filter(|&n| n >= 0).map(|n| (n, Some(n))),
            Counts::Between(least, greatest) => {
                let least = least.as_ref().map_or(0, |least| least.value(values)).max(0);
                let greatest = greatest.as_ref().map(|greatest| greatest.value(values));
                if greatest.is_some_and(|greatest| greatest < least) { None } else { Some((least, greatest)) }
            }
        }
    }
}

impl Condition {
    fn holds(&self, values: &[i64]) -> bool {
        match self {
            Condition::All(parts) => parts.iter().all(|part| part.holds(values)),
            Condition::Any(parts) => parts.iter().any(|part| part.holds(values)),
            Condition::Compare(a, comparison, b) => {
                let (a, b) = (a.value(values), b.value(values));
                match comparison {
                    Comparison::Equal => a == b,
                    Comparison::Unequal => a != b,
                    Comparison::Less => a < b,
                    Comparison::AtMost => a <= b,
                    Comparison::Greater => a > b,
                    Comparison::AtLeast => a >= b,
                }
            }
        }
    }
}

// The tree, from the reference's.
fn construct(grammar: &Grammar, from: &syntax::Construct) -> Construct {
    let part = |part: &syntax::Construct| construct(grammar, part);
    let number = from.number as u32;
    let sets = &grammar.analysis;
    match &from.kind {
        syntax::Kind::Alternative(branches) => Construct::Alternative(branches.iter().map(|branch| (sets.predict[branch.number], part(branch))).collect()),
        syntax::Kind::Concatenation(members) => Construct::Concatenation(members.iter().map(part).collect()),
        syntax::Kind::Repetition { body, counts: of, .. } => {
            Construct::Repetition { body: Box::new(part(body)), counts: counts(of), go: sets.again[from.number], stop: sets.follow[from.number] }
        }
        syntax::Kind::Switch { cases, default } => Construct::Switch {
            cases: cases.iter().map(|(when, case)| (condition(when), part(case))).collect(),
            default: default.as_ref().map(|case| Box::new(part(case))),
        },
        syntax::Kind::Use(name) => Construct::Use(name.target.get()),
        syntax::Kind::Literal(bytes) => Construct::Literal { number, bytes: bytes.clone() },
        syntax::Kind::Range(from, to) => Construct::Range { number, from: *from, to: *to },
        syntax::Kind::Uint { signed, width, binder, set: of } => {
            Construct::Uint { number, signed: *signed, width: width.value as usize, binder: binder.as_ref().map(|name| name.target.get()), set: set(of) }
        }
        syntax::Kind::Eod => Construct::Eod,
    }
}

fn counts(from: &syntax::Counts) -> Counts {
    let number = |n| Some(Calculation::Number(n));
    match from {
        syntax::Counts::Optional => Counts::Between(None, number(1)),
        syntax::Counts::Star => Counts::Between(None, None),
        syntax::Counts::Plus => Counts::Between(number(1), None),
        syntax::Counts::Exactly(n) => Counts::Exactly(calculation(n)),
        syntax::Counts::Between(a, b) => Counts::Between(a.as_ref().map(calculation), b.as_ref().map(calculation)),
    }
}

fn set(from: &syntax::Set) -> Set {
    let excluded = |excluded: &syntax::Exclusion| match excluded {
        syntax::Exclusion::Item(of) => Excluded::Item(item(of)),
        syntax::Exclusion::Set(of) => Excluded::Set(set(of)),
    };
    Set(from.0.iter().map(|(of, without)| (item(of), without.as_ref().map(excluded))).collect())
}

fn item(from: &syntax::Item) -> Item {
    match from {
        syntax::Item::Single(single) => Item::Single(calculation(single)),
        syntax::Item::Span(a, b) => Item::Span(a.as_ref().map(calculation), b.as_ref().map(calculation)),
    }
}

fn calculation(from: &syntax::Calculation) -> Calculation {
    let product = |operands: &[syntax::Operand]| operands.iter().map(operand).reduce(|a, b| Calculation::Times(Box::new(a), Box::new(b))).expect("an operand");
    let (first, rest) = from.products.split_first().expect("a product");
    rest.iter().fold(product(&first.1), |sum, (sign, operands)| match sign {
        syntax::Sum::Plus => Calculation::Plus(Box::new(sum), Box::new(product(operands))),
        syntax::Sum::Minus => Calculation::Minus(Box::new(sum), Box::new(product(operands))),
    })
}

fn operand(from: &syntax::Operand) -> Calculation {
    let atom = match &from.atom {
        syntax::Atom::Number(number) => Calculation::Number(number.value as i64),
        syntax::Atom::Variable(name) => Calculation::Variable(name.target.get()),
    };
    if from.negated { Calculation::Negated(Box::new(atom)) } else { atom }
}

fn condition(from: &syntax::Condition) -> Condition {
    match from {
        syntax::Condition::All(parts) => Condition::All(parts.iter().map(condition).collect()),
        syntax::Condition::Any(parts) => Condition::Any(parts.iter().map(condition).collect()),
        syntax::Condition::Compare(a, comparison, b) => Condition::Compare(calculation(a), compared(comparison), calculation(b)),
    }
}

fn compared(sign: &str) -> Comparison {
    match sign {
        "=" => Comparison::Equal,
        "!=" => Comparison::Unequal,
        "<" => Comparison::Less,
        "<=" => Comparison::AtMost,
        ">" => Comparison::Greater,
        _ => Comparison::AtLeast,
    }
}
