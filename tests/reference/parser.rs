// Recursive descent over the tokens. An error is the place of the first token that cannot stand where it does (refusal 4).
use crate::syntax::*;
use crate::tokens::{self, Kind as T, Token};
use std::cell::Cell;

pub const DEEPEST: usize = 16;

pub(crate) type Parsed<A> = Result<A, usize>;

pub(crate) struct Parser {
    tokens: Vec<Token>,
    pub at: usize,
    depth: usize, // open ( and [
}

pub fn parse(text: &[u8], from: usize) -> Parsed<Vec<Rule>> {
    let mut parser = Parser { tokens: tokens::scan(text, from), at: 0, depth: 0 };
    let mut rules = vec![parser.rule()?];
    while *parser.peek() != T::End {
        rules.push(parser.rule()?);
    }
    let mut next = 0;
    for rule in &mut rules {
        number(&mut rule.body, &mut next);
    }
    Ok(rules)
}

// Only once a chain is read is it known to be one, so numbers come last.
fn number(construct: &mut Construct, next: &mut usize) {
    construct.number = *next;
    *next += 1;
    for part in construct.parts_mut() {
        number(part, next);
    }
}

// Tokens.
impl Parser {
    // The scanner ends with End or Faulty, which nothing accepts, so the parser never goes past it.
    pub fn peek(&self) -> &T {
        &self.tokens[self.at].kind
    }

    fn peek_second(&self) -> &T {
        self.tokens.get(self.at + 1).map_or(&T::End, |token| &token.kind)
    }

    pub fn place(&self) -> usize {
        self.tokens[self.at].place
    }

    pub fn is(&self, sign: &str) -> bool {
        matches!(self.peek(), T::Sign(s) if *s == sign)
    }

    pub fn accept(&mut self, sign: &str) -> bool {
        let found = self.is(sign);
        self.at += usize::from(found);
        found
    }

    pub fn expect(&mut self, sign: &str) -> Parsed<()> {
        if self.accept(sign) { Ok(()) } else { Err(self.place()) }
    }

    pub fn open(&mut self, sign: &str) -> Parsed<()> {
        let place = self.place();
        self.expect(sign)?;
        self.depth += 1;
        if self.depth > DEEPEST { Err(place) } else { Ok(()) }
    }

    pub fn close(&mut self, sign: &str) -> Parsed<()> {
        self.expect(sign)?;
        self.depth -= 1;
        Ok(())
    }

    pub fn name(&mut self) -> Parsed<Name> {
        let place = self.place();
        let T::Name(text) = self.peek() else { return Err(place) };
        let name = Name { text: text.clone(), place, target: Cell::new(usize::MAX) };
        self.at += 1;
        Ok(name)
    }

    pub fn number(&mut self) -> Parsed<Number> {
        let place = self.place();
        let T::Number(value) = *self.peek() else { return Err(place) };
        self.at += 1;
        Ok(Number { value, place })
    }

    fn literal(&mut self) -> Parsed<Vec<u8>> {
        let T::Literal(bytes) = self.peek() else { return Err(self.place()) };
        let bytes = bytes.clone();
        self.at += 1;
        Ok(bytes)
    }

    // A word opens its own form only before a parenthesis; elsewhere it is a name.
    fn is_word_before_paren(&self, word: &str) -> bool {
        matches!(self.peek(), T::Name(name) if name == word) && *self.peek_second() == T::Sign("(")
    }
}

fn construct(place: usize, kind: Kind) -> Construct {
    Construct { number: 0, place, grouped: false, kind }
}

// Expressions.
impl Parser {
    fn rule(&mut self) -> Parsed<Rule> {
        self.depth = 0;
        let name = self.name()?;
        self.expect("=")?;
        let body = self.expression()?;
        self.expect(";")?;
        Ok(Rule { name, body })
    }

    fn expression(&mut self) -> Parsed<Construct> {
        self.chain("|", Self::concatenation, Kind::Alternative)
    }

    fn concatenation(&mut self) -> Parsed<Construct> {
        self.chain("&", Self::repetition, Kind::Concatenation)
    }

    // One part stands for itself; two or more are one construct.
    fn chain(&mut self, sign: &str, part: fn(&mut Self) -> Parsed<Construct>, kind: fn(Vec<Construct>) -> Kind) -> Parsed<Construct> {
        let place = self.place();
        let first = part(self)?;
        if !self.is(sign) {
            return Ok(first);
        }
        let mut parts = vec![first];
        while self.accept(sign) {
            parts.push(part(self)?);
        }
        Ok(construct(place, kind(parts)))
    }

    fn repetition(&mut self) -> Parsed<Construct> {
        let place = self.place();
        let item = self.item()?;
        let mark = self.place();
        let counts = match self.peek() {
            T::Sign("?") => Counts::Optional,
            T::Sign("*") => Counts::Star,
            T::Sign("+") => Counts::Plus,
            T::Sign("{") => self.braces()?,
            _ => return Ok(item),
        };
        self.at += 1; // the mark, or the closing brace
        Ok(construct(place, Kind::Repetition { body: Box::new(item), counts, mark }))
    }

    // From `{` up to `}`, which is left to the caller.
    fn braces(&mut self) -> Parsed<Counts> {
        self.expect("{")?;
        let least = if self.is("~") { None } else { Some(self.calculation()?) };
        let counts = if self.accept("~") {
            let greatest = if least.is_some() && self.is("}") { None } else { Some(self.calculation()?) };
            Counts::Between(least, greatest)
        } else {
            Counts::Exactly(least.ok_or(self.place())?)
        };
        if self.is("}") { Ok(counts) } else { Err(self.place()) }
    }

    fn item(&mut self) -> Parsed<Construct> {
        let place = self.place();
        match self.peek() {
            T::Sign("(") => self.group(),
            T::Sign("[") => self.switch(),
            T::Literal(_) => self.literal_or_range(),
            T::Name(_) if self.is_word_before_paren("uint") => self.uint(false),
            T::Name(_) if self.is_word_before_paren("sint") => self.uint(true),
            T::Name(word) if word == "eod" => {
                self.at += 1;
                Ok(construct(place, Kind::Eod))
            }
            _ => Ok(construct(place, Kind::Use(self.name()?))),
        }
    }

    fn group(&mut self) -> Parsed<Construct> {
        self.open("(")?;
        let mut inner = self.expression()?;
        self.close(")")?;
        inner.grouped = true;
        Ok(inner)
    }

    fn literal_or_range(&mut self) -> Parsed<Construct> {
        let place = self.place();
        let bytes = self.literal()?;
        if bytes.len() != 1 || !self.accept("~") {
            return Ok(construct(place, Kind::Literal(bytes)));
        }
        let last = self.place();
        match self.literal()?[..] {
            [to] => Ok(construct(place, Kind::Range(bytes[0], to))),
            _ => Err(last),
        }
    }

    fn uint(&mut self, signed: bool) -> Parsed<Construct> {
        let place = self.place();
        self.name()?;
        self.open("(")?;
        let width = self.number()?;
        self.expect(",")?;
        let (binder, set) = if self.is_word_before_paren("var") { self.binder()? } else { (None, self.set()?) };
        self.close(")")?;
        Ok(construct(place, Kind::Uint { signed, width, binder, set }))
    }

    fn binder(&mut self) -> Parsed<(Option<Name>, Set)> {
        self.name()?;
        self.open("(")?;
        let name = self.name()?;
        self.expect(",")?;
        let set = self.set()?;
        self.close(")")?;
        Ok((Some(name), set))
    }

    fn switch(&mut self) -> Parsed<Construct> {
        let place = self.place();
        self.open("[")?;
        let mut cases = Vec::new();
        let mut default = None;
        while cases.is_empty() || !(self.is("]") || self.is(":")) {
            let condition = self.condition()?;
            cases.push((condition, self.case()?));
        }
        if self.is(":") {
            default = Some(Box::new(self.case()?));
        }
        self.close("]")?;
        Ok(construct(place, Kind::Switch { cases, default }))
    }

    fn case(&mut self) -> Parsed<Construct> {
        self.expect(":")?;
        let body = self.expression()?;
        self.expect(";")?;
        Ok(body)
    }
}
