// Sets, counts and conditions as words, three to a term: tag, low, high (crate `terms`), worked out on two stacks.

// Malformed, or past 2^62.
#[derive(Debug, PartialEq)]
pub struct Broken;

const LIMIT: i128 = 1 << 62;
const NUMBERS: usize = 4;
const TESTS: usize = 62;

struct Stacks<'v> {
    values: &'v [i64],
    numbers: Vec<i128>,
    tests: Vec<bool>,
}

impl Stacks<'_> {
    fn pop(&mut self) -> Result<i128, Broken> {
        self.numbers.pop().ok_or(Broken)
    }

    fn pair(&mut self) -> Result<(i128, i128), Broken> {
        let b = self.pop()?;
        Ok((self.pop()?, b))
    }

    fn push(&mut self, n: i128) -> Result<(), Broken> {
        if n.abs() > LIMIT || self.numbers.len() == NUMBERS {
            return Err(Broken);
        }
        self.numbers.push(n);
        Ok(())
    }

    fn note(&mut self, test: bool) -> Result<(), Broken> {
        if self.tests.len() == TESTS {
            return Err(Broken);
        }
        self.tests.push(test);
        Ok(())
    }

    fn join(&mut self, both: impl Fn(bool, bool) -> bool) -> Result<(), Broken> {
        let b = self.tests.pop().ok_or(Broken)?;
        let a = self.tests.pop().ok_or(Broken)?;
        self.note(both(a, b))
    }

    // A number, a variable's use or a sign of a calculation.
    fn operate(&mut self, tag: u32, low: u32, high: u32) -> Result<(), Broken> {
        let result = match tag {
            1 => i128::from(low) + (i128::from(high) << 32),
            2 => i128::from(*self.values.get(low as usize).ok_or(Broken)?),
            3..=5 => {
                let (a, b) = self.pair()?;
                [a + b, a - b, a * b][tag as usize - 3]
            }
            6 => -self.pop()?,
            _ => return Err(Broken),
        };
        self.push(result)
    }

    fn only_test(self) -> Result<bool, Broken> {
        if self.numbers.is_empty() && self.tests.len() == 1 { Ok(self.tests[0]) } else { Err(Broken) }
    }
}

fn stacks(values: &[i64]) -> Stacks<'_> {
    Stacks { values, numbers: Vec::new(), tests: Vec::new() }
}

// Whether a value is in a set. 32 more in the tag of a calculation's last term makes it an item.
pub fn member(terms: &[u32], values: &[i64], v: i128) -> Result<bool, Broken> {
    let mut s = stacks(values);
    for term in terms.chunks(3) {
        match term[0] {
            0..=6 => s.operate(term[0], term[1], term[2])?,
            7 => s.note(true)?,
            8 => {
                let (a, b) = s.pair()?;
                s.note(a <= v && v <= b)?;
            }
            9 => {
                let a = s.pop()?;
                s.note(a <= v)?;
            }
            10 => {
                let b = s.pop()?;
                s.note(v <= b)?;
            }
            11 => s.join(|a, b| a || b)?,
            12 => s.join(|a, b| a && !b)?,
            32.. => {
                s.operate(term[0] - 32, term[1], term[2])?;
                let a = s.pop()?;
                s.note(a == v)?;
            }
            _ => return Err(Broken),
        }
    }
    s.only_test()
}

pub fn condition(terms: &[u32], values: &[i64]) -> Result<bool, Broken> {
    let mut s = stacks(values);
    for term in terms.chunks(3) {
        match term[0] {
            0..=6 => s.operate(term[0], term[1], term[2])?,
            11 => s.join(|a, b| a || b)?,
            13 => s.join(|a, b| a && b)?,
            14..=19 => {
                let (a, b) = s.pair()?;
                s.note([a == b, a != b, a < b, a <= b, a > b, a >= b][term[0] as usize - 14])?;
            }
            _ => return Err(Broken),
        }
    }
    s.only_test()
}

// The least and the greatest count that are allowed; None where no count is.
pub fn counts(terms: &[u32], values: &[i64]) -> Result<Option<(u64, Option<u64>)>, Broken> {
    let mut s = stacks(values);
    let form = if terms.is_empty() { return Err(Broken) } else { terms[terms.len() - 3] };
    let ends = (8..=10).contains(&form);
    for term in terms[..terms.len() - if ends { 3 } else { 0 }].chunks(3) {
        if term[0] > 6 {
            return Err(Broken);
        }
        s.operate(term[0], term[1], term[2])?;
    }
    let (low, high) = match (form, &s.numbers[..]) {
        (8, &[a, b]) => (a, Some(b)),
        (9, &[a]) => (a, None),
        (10, &[b]) => (0, Some(b)),
        (8..=10, _) => return Err(Broken),
        (_, &[n]) if n < 0 => return Ok(None),
        (_, &[n]) => (n, Some(n)),
        _ => return Err(Broken),
    };
    let least = low.max(0);
    Ok(if high.is_some_and(|most| most < least) { None } else { Some((least as u64, high.map(|most| most as u64))) })
}
