// The careful matcher's arrays, from the reference's tree.
use crate::careful::{Comparison, Condition, Counts, Entry, Node, Program, Term, FAIL, NO_VARIABLE, STOP};
use reference::arithmetic::{passes, set_has_variable, set_patterns};
use reference::grammar::Grammar;
use reference::lookahead::Strings;
use reference::syntax::{self, Kind};

impl Program {
    pub(crate) fn new(grammar: &Grammar) -> Program {
        let mut program = Program { nodes: vec![Node::Eod; grammar.constructs], ..Program::default() };
        for construct in grammar.rules.iter().flat_map(|rule| rule.body.all()) {
            program.nodes[construct.number] = program.node(grammar, construct);
        }
        program
    }

    fn node(&mut self, grammar: &Grammar, construct: &syntax::Construct) -> Node {
        let sets = &grammar.analysis;
        match &construct.kind {
            Kind::Alternative(branches) => {
                let windows: Vec<(&Strings, u16)> = branches.iter().map(|branch| (&sets.predict[branch.number], branch.number as u16)).collect();
                Node::Alternative { choice: self.choice(&windows) }
            }
            Kind::Concatenation(members) => {
                let from = self.parts.len() as u16;
                self.parts.extend(members.iter().rev().map(|member| Entry { node: member.number as u16, passes: 0 }));
                Node::Concatenation { from, to: self.parts.len() as u16 }
            }
            Kind::Repetition { body, counts, .. } => {
                let body = body.number as u16;
                let choice = self.choice(&[(&sets.again[construct.number], body), (&sets.follow[construct.number], STOP)]);
                Node::Repetition { counts: self.counts(counts), body, choice }
            }
            Kind::Switch { cases, default } => {
                let compiled: Vec<(Condition, u16)> = cases.iter().map(|(condition, case)| (self.condition(condition), case.number as u16)).collect();
                let from = self.cases.len() as u16;
                self.cases.extend(compiled);
                Node::Switch { from, to: self.cases.len() as u16, default: default.as_ref().map_or(STOP, |case| case.number as u16) }
            }
            Kind::Use(name) => Node::Use { body: grammar.rules[name.target.get()].body.number as u16 },
            Kind::Literal(bytes) => {
                self.bytes.extend(bytes);
                Node::Literal { from: (self.bytes.len() - bytes.len()) as u32, length: bytes.len() as u32 }
            }
            Kind::Range(from, to) => Node::Range { from: *from, to: *to },
            Kind::Uint { signed, width, binder, set } => self.field(*signed, width.value as u8, binder.as_ref(), set),
            Kind::Eod => Node::Eod,
        }
    }

    fn choice(&mut self, windows: &[(&Strings, u16)]) -> u16 {
        let chosen = |window: usize| windows.iter().find(|(set, _)| set.contains(window as u16)).map_or(FAIL, |&(_, choice)| choice);
        self.choices.push(std::array::from_fn(chosen));
        self.choices.len() as u16 - 1
    }

    fn field(&mut self, signed: bool, width: u8, binder: Option<&syntax::Name>, set: &syntax::Set) -> Node {
        let binder = binder.map_or(NO_VARIABLE, |name| name.target.get() as u8);
        if set_has_variable(set) || (signed && binder != NO_VARIABLE) {
            let from = self.terms.len() as u32;
            self.set(set);
            return Node::Worked { signed, width, binder, from, to: self.terms.len() as u32 };
        }
        let ranges = set_patterns(set, signed, u32::from(width), &[]);
        if let [(least, greatest)] = ranges[..] {
            return Node::Field { width, binder, least, others: greatest - least };
        }
        let from = self.ranges.len() as u32;
        self.ranges.extend(ranges);
        Node::Listed { width, binder, from, to: self.ranges.len() as u32 }
    }

    fn counts(&mut self, counts: &syntax::Counts) -> Counts {
        if !counts.calculations().into_iter().any(syntax::Calculation::has_variable) {
            let cut = |n: u64| u32::try_from(n).unwrap_or(u32::MAX);
            return passes(counts, &[]).map_or(Counts::Never, |p| Counts::Constant { least: cut(p.least), greatest: p.greatest.map_or(u32::MAX, cut) });
        }
        match counts {
            syntax::Counts::Exactly(n) => {
                let (from, to) = self.terms_of(Some(n));
                match self.terms[from as usize..] {
                    [Term::Variable(variable)] => Counts::Variable(variable),
                    _ => Counts::Exactly { from, to },
                }
            }
            syntax::Counts::Between(a, b) => Counts::Between { least: self.terms_of(a.as_ref()), greatest: self.terms_of(b.as_ref()) },
            _ => Counts::Never,
        }
    }

    fn terms_of(&mut self, calculation: Option<&syntax::Calculation>) -> (u32, u32) {
        let from = self.terms.len() as u32;
        calculation.into_iter().for_each(|calculation| self.calculation(calculation));
        (from, self.terms.len() as u32)
    }

    fn calculation(&mut self, calculation: &syntax::Calculation) {
        for (k, (sign, operands)) in calculation.products.iter().enumerate() {
            for (j, operand) in operands.iter().enumerate() {
                self.terms.push(match &operand.atom {
                    syntax::Atom::Number(number) => Term::Number(number.value as i64),
                    syntax::Atom::Variable(name) => Term::Variable(name.target.get() as u8),
                });
                self.terms.extend(operand.negated.then_some(Term::Negate));
                self.terms.extend((j > 0).then_some(Term::Times));
            }
            self.terms.extend((k > 0).then_some(if *sign == syntax::Sum::Plus { Term::Plus } else { Term::Minus }));
        }
    }

    fn item(&mut self, item: &syntax::Item) {
        item.calculations().into_iter().for_each(|calculation| self.calculation(calculation));
        self.terms.push(match item {
            syntax::Item::Single(_) => Term::Single,
            syntax::Item::Span(None, None) => Term::Any,
            syntax::Item::Span(Some(_), None) => Term::From,
            syntax::Item::Span(None, Some(_)) => Term::UpTo,
            syntax::Item::Span(Some(_), Some(_)) => Term::Span,
        });
    }

    fn set(&mut self, set: &syntax::Set) {
        for (k, (item, excluded)) in set.0.iter().enumerate() {
            self.item(item);
            match excluded {
                None => {}
                Some(syntax::Exclusion::Item(item)) => self.item(item),
                Some(syntax::Exclusion::Set(set)) => self.set(set),
            }
            self.terms.extend(excluded.is_some().then_some(Term::Without));
            self.terms.extend((k > 0).then_some(Term::Either));
        }
    }

    fn condition(&mut self, condition: &syntax::Condition) -> Condition {
        let from = self.terms.len();
        self.condition_terms(condition);
        match self.terms[from..] {
            [Term::Variable(variable), Term::Number(number), Term::Compare(comparison)] => Condition::Simple { variable, comparison, number },
            _ => Condition::Worked { from: from as u32, to: self.terms.len() as u32 },
        }
    }

    fn condition_terms(&mut self, condition: &syntax::Condition) {
        let (parts, sign) = match condition {
            syntax::Condition::Compare(a, comparison, b) => {
                self.calculation(a);
                self.calculation(b);
                return self.terms.push(Term::Compare(compared(comparison)));
            }
            syntax::Condition::All(parts) => (parts, Term::Both),
            syntax::Condition::Any(parts) => (parts, Term::Either),
        };
        for (k, part) in parts.iter().enumerate() {
            self.condition_terms(part);
            self.terms.extend((k > 0).then_some(sign));
        }
    }
}

fn compared(sign: &str) -> Comparison {
    match sign {
        "=" => Comparison::Equal,
        "!=" => Comparison::Unequal,
        "<" => Comparison::Less,
        "<=" => Comparison::AtMost,
        ">" => Comparison::Greater,
        _ => Comparison::AtLeast,
    }
}
