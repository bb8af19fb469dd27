// Checks the example of a report of a clash: a frame's beginning, and after it 8 bits that both sides fit. Every choice is tried, without windows; a
// derivation need only come to the end of the bits.
use reference::arithmetic::{passes, set_patterns};
use reference::grammar::Between;
use reference::parser::parse;
use reference::syntax::*;
use reference::{header, limits, names};

const BEGINNING: &str = "For example, a frame that begins with ";

// What is still to come, the first last.
#[derive(Clone)]
enum Pending<'g> {
    Construct(&'g Construct),
    Turn(&'g Construct, u64), // a repetition, and how many passes it has had
}

struct Search<'g> {
    rules: &'g [Rule],
    bits: Vec<bool>,
    place: usize, // of the construct, in the text
    at: usize,    // its bit
    choice: usize, // a branch; of a repetition 0 goes on and 1 stops
}

// Whether the report has an example, and it is right.
pub fn check(text: &[u8], report: &str, place: usize, between: Between) -> bool {
    let Some(bits) = example(report) else { return false };
    let rules = parse(text, header::check(text).expect("a header")).expect("rules");
    limits::check(&rules).expect("within limits");
    names::resolve(&rules).expect("known names");
    let choices = match between {
        Between::Branches(first, second) => [first, second],
        Between::ContinueAndExit => [0, 1],
    };
    for choice in choices {
        let at = bits.len() - 8;
        let search = Search { rules: &rules, bits: bits.clone(), place, at, choice };
        assert!(search.comes(vec![Pending::Construct(&rules[0].body)], 0, false), "choice {choice} does not fit the example");
    }
    true
}

// The bits of the example: bytes in hexadecimal, or digits with a blank before the last 8.
fn example(report: &str) -> Option<Vec<bool>> {
    let from = report.find(BEGINNING)? + BEGINNING.len();
    let said = report[from..].split(':').next()?;
    match said.strip_prefix("the bits ") {
        Some(digits) => Some(digits.chars().filter(|digit| *digit != ' ').map(|digit| digit == '1').collect()),
        None => Some(said.split(' ').flat_map(byte).collect()),
    }
}

fn byte(digits: &str) -> Vec<bool> {
    let byte = u8::from_str_radix(digits, 16).expect("a byte");
    (0..8).rev().map(|bit| byte >> bit & 1 == 1).collect()
}

impl<'g> Search<'g> {
    // Whether some derivation takes the choice and comes to the end of the bits.
    fn comes(&self, mut pending: Vec<Pending<'g>>, position: usize, taken: bool) -> bool {
        if position >= self.bits.len() {
            return taken;
        }
        match pending.pop() {
            None => false,
            Some(Pending::Turn(repetition, done)) => self.turn(pending, position, taken, repetition, done),
            Some(Pending::Construct(construct)) => self.construct(pending, position, taken, construct),
        }
    }

    fn is_here(&self, construct: &Construct, position: usize) -> bool {
        construct.place == self.place && position == self.at
    }

    fn construct(&self, mut pending: Vec<Pending<'g>>, position: usize, taken: bool, construct: &'g Construct) -> bool {
        match &construct.kind {
            Kind::Alternative(branches) => branches.iter().enumerate().any(|(number, branch)| {
                let mut with = pending.clone();
                with.push(Pending::Construct(branch));
                self.comes(with, position, taken || self.is_here(construct, position) && number == self.choice)
            }),
            Kind::Concatenation(members) => {
                pending.extend(members.iter().rev().map(Pending::Construct));
                self.comes(pending, position, taken)
            }
            Kind::Repetition { .. } => {
                pending.push(Pending::Turn(construct, 0));
                self.comes(pending, position, taken)
            }
            Kind::Use(name) => {
                pending.push(Pending::Construct(&self.rules[name.target.get()].body));
                self.comes(pending, position, taken)
            }
            Kind::Switch { .. } | Kind::Eod => false,
            _ => self.field(pending, position, taken, construct),
        }
    }

    fn turn(&self, pending: Vec<Pending<'g>>, position: usize, taken: bool, repetition: &'g Construct, done: u64) -> bool {
        let Kind::Repetition { body, counts, .. } = &repetition.kind else { return false };
        let Some(allowed) = passes(counts, &[]) else { return false };
        let here = self.is_here(repetition, position);
        let mut again = pending.clone();
        again.extend([Pending::Turn(repetition, done + 1), Pending::Construct(body)]);
        let goes = allowed.greatest.is_none_or(|most| done < most) && self.comes(again, position, taken || here && self.choice == 0);
        goes || done >= allowed.least && self.comes(pending, position, taken || here && self.choice == 1)
    }

    // A field that has a value with the bits that are there.
    fn field(&self, pending: Vec<Pending<'g>>, position: usize, taken: bool, field: &Construct) -> bool {
        let (width, ranges) = match &field.kind {
            Kind::Literal(bytes) => return self.literal(pending, position, taken, bytes),
            Kind::Range(from, to) => (8, vec![(u64::from(*from), u64::from(*to))]),
            Kind::Uint { signed, width, set, .. } => (width.value as usize, set_patterns(set, *signed, width.value as u32, &[])),
            _ => return false,
        };
        let given = width.min(self.bits.len() - position);
        let value = self.bits[position..position + given].iter().fold(0u128, |value, bit| value * 2 + u128::from(*bit));
        let hidden = width - given;
        let (least, most) = (value << hidden, (value + 1 << hidden) - 1);
        ranges.iter().any(|(from, to)| from <= to && u128::from(*from) <= most && least <= u128::from(*to)) && self.comes(pending, position + width, taken)
    }

    fn literal(&self, pending: Vec<Pending<'g>>, position: usize, taken: bool, bytes: &[u8]) -> bool {
        let wanted = bytes.iter().flat_map(|byte| (0..8).rev().map(move |bit| byte >> bit & 1 == 1));
        wanted.zip(&self.bits[position..]).all(|(wanted, bit)| wanted == *bit) && self.comes(pending, position + 8 * bytes.len(), taken)
    }
}
