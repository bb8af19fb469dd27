// The tree of a grammar.
use std::cell::Cell;

#[derive(Debug)]
pub struct Rule {
    pub name: Name,
    pub body: Construct,
}

// A name where it stands. `target` is the rule or the variable that it names; names::resolve sets it, in a tree that is otherwise done.
#[derive(Debug, Clone)]
pub struct Name {
    pub text: String,
    pub place: usize,
    pub target: Cell<usize>,
}

#[derive(Debug)]
pub struct Construct {
    pub number: usize, // in text order, the outer before the inner
    pub place: usize,
    pub grouped: bool, // in parentheses of its own
    pub kind: Kind,
}

#[derive(Debug)]
pub enum Kind {
    Alternative(Vec<Construct>),
    Concatenation(Vec<Construct>),
    Repetition { body: Box<Construct>, counts: Counts, mark: usize },
    Switch { cases: Vec<(Condition, Construct)>, default: Option<Box<Construct>> },
    Use(Name),
    Literal(Vec<u8>),
    Range(u8, u8),
    Uint { signed: bool, width: Number, binder: Option<Name>, set: Set }, // a sint is signed
    Eod,
}

#[derive(Debug)]
pub enum Counts {
    Optional,             // ?
    Star,                 // *
    Plus,                 // +
    Exactly(Calculation), // {n}
    Between(Option<Calculation>, Option<Calculation>),
}

#[derive(Debug, Clone, Copy)]
pub struct Number {
    pub value: u128,
    pub place: usize,
}

// Alternatives, each an item with perhaps an exclusion (document 01's `!`).
#[derive(Debug)]
pub struct Set(pub Vec<(Item, Option<Exclusion>)>);

#[derive(Debug)]
pub enum Exclusion {
    Item(Item),
    Set(Set),
}

#[derive(Debug)]
pub enum Item {
    Single(Calculation),
    Span(Option<Calculation>, Option<Calculation>), // a missing end is open
}

// A sum of products. A minus between products is its own field, a product's operands may each have a unary minus.
#[derive(Debug)]
pub struct Calculation {
    pub place: usize,
    pub products: Vec<(Sum, Vec<Operand>)>,
}

#[derive(Debug, Clone, Copy, PartialEq, Eq)]
pub enum Sum {
    Plus,
    Minus,
}

#[derive(Debug)]
pub struct Operand {
    pub negated: bool,
    pub atom: Atom,
}

#[derive(Debug)]
pub enum Atom {
    Number(Number),
    Variable(Name),
}

#[derive(Debug)]
pub enum Condition {
    Compare(Calculation, &'static str, Calculation),
    All(Vec<Condition>),
    Any(Vec<Condition>),
}

impl Construct {
    // The constructs directly inside, in text order.
    pub fn parts(&self) -> Vec<&Construct> {
        match &self.kind {
            Kind::Alternative(parts) | Kind::Concatenation(parts) => parts.iter().collect(),
            Kind::Repetition { body, .. } => vec![body],
            Kind::Switch { cases, default } => cases.iter().map(|(_, case)| case).chain(default.as_deref()).collect(),
            _ => Vec::new(),
        }
    }

    pub fn parts_mut(&mut self) -> Vec<&mut Construct> {
        match &mut self.kind {
            Kind::Alternative(parts) | Kind::Concatenation(parts) => parts.iter_mut().collect(),
            Kind::Repetition { body, .. } => vec![body],
            Kind::Switch { cases, default } => cases.iter_mut().map(|(_, case)| case).chain(default.as_deref_mut()).collect(),
            _ => Vec::new(),
        }
    }

    // This construct and all inside it, in the order of their numbers.
    pub fn all(&self) -> Vec<&Construct> {
        let mut all = vec![self];
        for part in self.parts() {
            all.extend(part.all());
        }
        all
    }

    // The calculations of this construct itself, in text order.
    pub fn calculations(&self) -> Vec<&Calculation> {
        match &self.kind {
            Kind::Uint { set, .. } => set.calculations(),
            Kind::Repetition { counts, .. } => counts.calculations(),
            Kind::Switch { cases, .. } => cases.iter().flat_map(|(condition, _)| condition.calculations()).collect(),
            _ => Vec::new(),
        }
    }
}

impl Counts {
    pub fn calculations(&self) -> Vec<&Calculation> {
        match self {
            Counts::Exactly(n) => vec![n],
            Counts::Between(a, b) => a.iter().chain(b).collect(),
            _ => Vec::new(),
        }
    }
}

impl Set {
    pub fn calculations(&self) -> Vec<&Calculation> {
        let mut found = Vec::new();
        for (item, exclusion) in &self.0 {
            found.extend(item.calculations());
            match exclusion {
                Some(Exclusion::Item(item)) => found.extend(item.calculations()),
                Some(Exclusion::Set(set)) => found.extend(set.calculations()),
                None => {}
            }
        }
        found
    }
}

impl Item {
    pub fn calculations(&self) -> Vec<&Calculation> {
        match self {
            Item::Single(a) => vec![a],
            Item::Span(a, b) => a.iter().chain(b).collect(),
        }
    }
}

impl Condition {
    pub fn calculations(&self) -> Vec<&Calculation> {
        match self {
            Condition::Compare(a, _, b) => vec![a, b],
            Condition::All(parts) | Condition::Any(parts) => parts.iter().flat_map(Condition::calculations).collect(),
        }
    }
}

impl Calculation {
    pub fn operands(&self) -> impl Iterator<Item = &Operand> {
        self.products.iter().flat_map(|(_, operands)| operands)
    }

    pub fn has_variable(&self) -> bool {
        self.operands().any(|operand| matches!(operand.atom, Atom::Variable(_)))
    }
}
