// The parser's half for sets, calculations and conditions.
use crate::parser::{Parsed, Parser};
use crate::syntax::*;
use crate::tokens::Kind as T;

const COMPARATORS: [&str; 6] = ["=", "!=", "<", "<=", ">", ">="];

impl Parser {
    pub(crate) fn set(&mut self) -> Parsed<Set> {
        let mut alternatives = Vec::new();
        loop {
            let included = self.set_item()?;
            let excluded = if self.accept("!") { Some(self.exclusion()?) } else { None };
            alternatives.push((included, excluded));
            if !self.accept("|") {
                return Ok(Set(alternatives));
            }
        }
    }

    fn exclusion(&mut self) -> Parsed<Exclusion> {
        if !self.is("(") {
            return Ok(Exclusion::Item(self.set_item()?));
        }
        self.open("(")?;
        let set = self.set()?;
        self.close(")")?;
        Ok(Exclusion::Set(set))
    }

    fn set_item(&mut self) -> Parsed<Item> {
        let least = if self.is("~") { None } else { Some(self.calculation()?) };
        if self.accept("~") {
            let greatest = if self.begins_calculation() { Some(self.calculation()?) } else { None };
            return Ok(Item::Span(least, greatest));
        }
        Ok(Item::Single(least.ok_or(self.place())?))
    }

    fn begins_calculation(&self) -> bool {
        matches!(self.peek(), T::Number(_) | T::Name(_) | T::Sign("-"))
    }

    pub(crate) fn calculation(&mut self) -> Parsed<Calculation> {
        let place = self.place();
        let mut products = vec![(Sum::Plus, self.product()?)];
        loop {
            let sum = match self.peek() {
                T::Sign("+") => Sum::Plus,
                T::Sign("-") => Sum::Minus,
                _ => return Ok(Calculation { place, products }),
            };
            self.at += 1;
            products.push((sum, self.product()?));
        }
    }

    fn product(&mut self) -> Parsed<Vec<Operand>> {
        let mut operands = vec![self.operand()?];
        while self.accept("*") {
            operands.push(self.operand()?);
        }
        Ok(operands)
    }

    fn operand(&mut self) -> Parsed<Operand> {
        let negated = self.accept("-");
        let atom = match self.peek() {
            T::Number(_) => Atom::Number(self.number()?),
            _ => Atom::Variable(self.name()?),
        };
        Ok(Operand { negated, atom })
    }

    pub(crate) fn condition(&mut self) -> Parsed<Condition> {
        let first = self.simple_condition()?;
        let sign = match self.peek() {
            T::Sign(sign @ ("&" | "|")) => *sign,
            _ => return Ok(first),
        };
        let mut parts = vec![first];
        while self.accept(sign) {
            parts.push(self.simple_condition()?);
        }
        // The other sign cannot stand after the chain, so mixing is an error at it.
        Ok(if sign == "&" { Condition::All(parts) } else { Condition::Any(parts) })
    }

    fn simple_condition(&mut self) -> Parsed<Condition> {
        if self.is("(") {
            self.open("(")?;
            let inner = self.condition()?;
            self.close(")")?;
            return Ok(inner);
        }
        let left = self.calculation()?;
        let comparator = match self.peek() {
            T::Sign(sign) if COMPARATORS.contains(sign) => *sign,
            _ => return Err(self.place()),
        };
        self.at += 1;
        Ok(Condition::Compare(left, comparator, self.calculation()?))
    }
}
