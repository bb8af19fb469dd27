// Calculations, sets, counts and conditions, worked out with the variables' values. Numbers are exact: admitted calculations stay within 2^62, and
// the values of fields within 64 bits and a sign.
use crate::syntax::*;

// The least and the greatest value of a width.
pub fn ends(signed: bool, width: u32) -> (i128, i128) {
    if signed { (-(1 << (width - 1)), (1 << (width - 1)) - 1) } else { (0, (1 << width) - 1) }
}

// The value of a pattern of bits: in two's complement the first bit counts negative.
pub fn value_of_pattern(signed: bool, width: u32, pattern: u64) -> i128 {
    let value = i128::from(pattern);
    if signed && pattern >> (width - 1) == 1 { value - (1 << width) } else { value }
}

pub fn pattern_of_value(width: u32, value: i128) -> u64 {
    value.rem_euclid(1 << width) as u64
}

pub fn calculate(calculation: &Calculation, values: &[i64]) -> i128 {
    let mut sum = 0;
    for (sign, operands) in &calculation.products {
        let product: i128 = operands.iter().map(|operand| value_of(operand, values)).product();
        sum += if *sign == Sum::Plus { product } else { -product };
    }
    sum
}

fn value_of(operand: &Operand, values: &[i64]) -> i128 {
    let value = match &operand.atom {
        Atom::Number(number) => number.value as i128,
        Atom::Variable(name) => i128::from(values[name.target.get()]),
    };
    if operand.negated { -value } else { value }
}

pub fn set_contains(set: &Set, value: i128, values: &[i64]) -> bool {
    set.0.iter().any(|(item, exclusion)| {
        item_contains(item, value, values)
            && match exclusion {
                None => true,
                Some(Exclusion::Item(item)) => !item_contains(item, value, values),
                Some(Exclusion::Set(set)) => !set_contains(set, value, values),
            }
    })
}

fn item_contains(item: &Item, value: i128, values: &[i64]) -> bool {
    match item {
        Item::Single(single) => calculate(single, values) == value,
        Item::Span(from, to) => {
            from.as_ref().is_none_or(|end| calculate(end, values) <= value) && to.as_ref().is_none_or(|end| value <= calculate(end, values))
        }
    }
}

// The values of a set from `least` to `greatest`, as ranges that may touch or overlap.
pub fn set_ranges(set: &Set, (least, greatest): (i128, i128), values: &[i64]) -> Vec<(i128, i128)> {
    let mut all = Vec::new();
    for (item, exclusion) in &set.0 {
        let mut ranges: Vec<_> = item_range(item, (least, greatest), values).into_iter().collect();
        let excluded = match exclusion {
            None => Vec::new(),
            Some(Exclusion::Item(item)) => item_range(item, (least, greatest), values).into_iter().collect(),
            Some(Exclusion::Set(set)) => set_ranges(set, (least, greatest), values),
        };
        for (from, to) in excluded {
            ranges = ranges.into_iter().flat_map(|range| without(range, from, to)).collect();
        }
        all.extend(ranges);
    }
    all
}

fn item_range(item: &Item, (least, greatest): (i128, i128), values: &[i64]) -> Option<(i128, i128)> {
    let (from, to) = match item {
        Item::Single(single) => (calculate(single, values), calculate(single, values)),
        Item::Span(from, to) => (
            from.as_ref().map_or(least, |end| calculate(end, values)),
            to.as_ref().map_or(greatest, |end| calculate(end, values)),
        ),
    };
    let (from, to) = (from.max(least), to.min(greatest));
    (from <= to).then_some((from, to))
}

// What is left of a range below and above another.
fn without(range: (i128, i128), from: i128, to: i128) -> impl Iterator<Item = (i128, i128)> {
    let below = (range.0 < from).then(|| (range.0, range.1.min(from - 1)));
    let above = (range.1 > to).then(|| (range.0.max(to + 1), range.1));
    below.into_iter().chain(above)
}

// The patterns of a field's values, as ranges: those of negative values come after the others.
pub fn set_patterns(set: &Set, signed: bool, width: u32, values: &[i64]) -> Vec<(u64, u64)> {
    let (least, greatest) = ends(signed, width);
    let halves = [(least, -1), (0, greatest)];
    let ranges = halves.into_iter().flat_map(|half| set_ranges(set, half, values));
    ranges.map(|(from, to)| (pattern_of_value(width, from), pattern_of_value(width, to))).collect()
}

pub fn set_has_variable(set: &Set) -> bool {
    set.calculations().into_iter().any(Calculation::has_variable)
}

// How many passes a repetition allows: from a least to a greatest number, if there is one.
#[derive(Debug, Clone, Copy, PartialEq, Eq)]
pub struct Passes {
    pub least: u64,
    pub greatest: Option<u64>,
}

// None where no count is allowed.
pub fn passes(counts: &Counts, values: &[i64]) -> Option<Passes> {
    let (least, greatest) = match counts {
        Counts::Optional => (0, Some(1)),
        Counts::Star => (0, None),
        Counts::Plus => (1, None),
        Counts::Exactly(n) => {
            let n = calculate(n, values);
            (n, Some(n))
        }
        Counts::Between(a, b) => (a.as_ref().map_or(0, |a| calculate(a, values)), b.as_ref().map(|b| calculate(b, values))),
    };
    if greatest.is_some_and(|greatest| greatest < least.max(0)) {
        return None;
    }
    Some(Passes { least: least.max(0) as u64, greatest: greatest.map(|n| n as u64) })
}

pub fn holds(condition: &Condition, values: &[i64]) -> bool {
    match condition {
        Condition::All(parts) => parts.iter().all(|part| holds(part, values)),
        Condition::Any(parts) => parts.iter().any(|part| holds(part, values)),
        Condition::Compare(left, comparator, right) => {
            let (left, right) = (calculate(left, values), calculate(right, values));
            match *comparator {
                "=" => left == right,
                "!=" => left != right,
                "<" => left < right,
                "<=" => left <= right,
                ">" => left > right,
                _ => left >= right,
            }
        }
    }
}
