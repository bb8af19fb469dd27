// Numbers, widths and the sizes of calculations (refusal 8).
use crate::syntax::*;

pub const WIDEST: u128 = 64;
pub const WIDEST_BOUND: u128 = 62;
pub const LARGEST_SIZE: u128 = 1 << 62; // of a number, too

pub fn check(rules: &[Rule], variables: usize) -> Result<(), usize> {
    let mut faults = Vec::new();
    let mut sizes = vec![0; variables];
    // A binder stands before its uses, so its size is known at each of them.
    for construct in rules.iter().flat_map(|rule| rule.body.all()) {
        if let Kind::Uint { signed, width, binder, .. } = &construct.kind {
            let widest = if binder.is_some() { WIDEST_BOUND } else { WIDEST };
            if !(1..=widest).contains(&width.value) {
                faults.push(width.place);
            }
            if let Some(name) = binder {
                sizes[name.target.get()] = largest_size(*signed, width.value.clamp(1, WIDEST_BOUND));
            }
        }
        for calculation in construct.calculations() {
            if largest_part(calculation, &sizes) > LARGEST_SIZE {
                faults.push(calculation.place);
            }
        }
    }
    faults.into_iter().min().map_or(Ok(()), Err)
}

// A variable at its widest: of a signed one its least value is the larger in size.
fn largest_size(signed: bool, width: u128) -> u128 {
    if signed { 1 << (width - 1) } else { (1 << width) - 1 }
}

// The largest size among the parts of a calculation as it is worked out from the left: operands, products so far, sums so far.
fn largest_part(calculation: &Calculation, sizes: &[u128]) -> u128 {
    let (mut largest, mut sum) = (0, 0u128);
    for (_, operands) in &calculation.products {
        let mut product = 1u128;
        for operand in operands {
            let size = match &operand.atom {
                Atom::Number(number) => number.value,
                Atom::Variable(name) => sizes[name.target.get()],
            };
            product = product.saturating_mul(size);
            largest = largest.max(size).max(product);
        }
        sum = sum.saturating_add(product);
        largest = largest.max(sum);
    }
    largest
}
