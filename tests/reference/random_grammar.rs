// Random grammar texts. Most are right by construction: what follows a choice begins with a byte that nothing else begins with, each rule uses
// the next and no earlier one, fields come in whole bytes. Each kind of fault is then let in now and then.
use crate::random::{damage, noise, Random};
use crate::random_odd::{crowded, misplace, ragged};
use crate::random_text::{header, layout};

// A text of any kind.
pub fn text(random: &mut Random) -> Vec<u8> {
    match random.below(30) {
        0 => noise(random),
        1..=4 => {
            let text = written(random, &grammar);
            damage(&text, random)
        }
        5..=7 => written(random, &|random| {
            let mut tokens = grammar(random);
            (0..1 + random.index(2)).for_each(|_| misplace(&mut tokens, random));
            tokens
        }),
        8 => written(random, &crowded),
        9..=13 => written(random, &ragged),
        _ => written(random, &grammar),
    }
}

fn written(random: &mut Random, tokens: &dyn Fn(&mut Random) -> Vec<String>) -> Vec<u8> {
    let mut text = header(random);
    let tokens = tokens(random);
    text.extend(layout(&tokens, random));
    text
}

pub(crate) struct Writer<'r> {
    pub random: &'r mut Random,
    pub tokens: Vec<String>,
    pub variables: Vec<String>, // those that the member at hand may use
    unused: Vec<String>,        // rules for later, the next one last
    used: Vec<String>,
    reaches_next: bool, // the rule at hand uses the next one
    lead: u8, // the byte that the next choice begins with
}

const NAMES: [&str; 16] = ["frame", "a", "b", "c", "head", "body", "x_1", "Kind", "msb1", "uints", "tail", "n", "T2", "len2", "eod_", "rest"];
const VARIABLES: [&str; 8] = ["n", "m", "len", "t", "k", "Z", "body", "frame"];

// The rules' tokens.
pub fn grammar(random: &mut Random) -> Vec<String> {
    let mut names: Vec<String> = NAMES.map(String::from).to_vec();
    for i in (1..names.len()).rev() {
        names.swap(i, random.index(i + 1));
    }
    names.truncate(random.pick(&[1, 1, 2, 3, 4, 6]));
    let lead = random.next() as u8;
    let mut writer = Writer { random, tokens: Vec::new(), variables: Vec::new(), unused: names, used: Vec::new(), reaches_next: false, lead };
    let mut first = true;
    while let Some(name) = writer.unused.pop() {
        writer.rule(&name, first);
        writer.used.push(name);
        first = false;
    }
    writer.tokens
}

impl Writer<'_> {
    // Adds tokens that are written with blanks between them.
    pub fn put(&mut self, tokens: &str) {
        self.tokens.extend(tokens.split(' ').map(String::from));
    }

    fn is_large(&self) -> bool {
        self.tokens.len() > 500
    }

    fn rule(&mut self, name: &str, first: bool) {
        self.variables.clear();
        self.reaches_next = false;
        self.put(name);
        self.put("=");
        if self.random.once_in(8) {
            self.branches(2);
        } else {
            self.top(!first);
        }
        if !self.reaches_next && !self.random.once_in(16) {
            self.next_rule_use();
        }
        if first && self.random.once_in(8) {
            self.put("& eod");
        }
        self.put(";");
    }

    // A top concatenation: only here stand binders. `begin` asks for a first byte of its own.
    fn top(&mut self, begin: bool) {
        let mut begin = begin;
        for i in 0..1 + self.random.index(6) {
            if i > 0 {
                self.put("&");
            }
            let begins = begin && !self.random.once_in(40);
            begin = if self.random.once_in(3) { self.binder(begins) } else { self.member(begins, 3) };
        }
    }

    fn binder(&mut self, begin: bool) -> bool {
        if begin {
            self.leading_field();
            self.put("&");
        }
        let name = self.new_variable();
        let width = match self.random.below(8) {
            0 => self.random.pick(&[1, 2, 31, 32, 33, 40, 61, 62]),
            1 if self.random.once_in(12) => 63 + self.random.below(3),
            _ => self.random.pick(&[8, 8, 8, 8, 16, 32, 4]),
        };
        let signed = self.field_word();
        self.number(width);
        self.put(&format!(", var ( {name} ,"));
        self.set(signed, width as u32);
        self.put(") )");
        self.variables.push(name);
        self.fill(width);
        false
    }

    // The word that begins a field; says whether it is signed.
    fn field_word(&mut self) -> bool {
        let signed = self.random.once_in(3);
        self.put(if signed { "sint (" } else { "uint (" });
        signed
    }

    // What a field of this width leaves of its last byte, so that bytes begin where bytes begin.
    fn fill(&mut self, width: u64) {
        if width % 8 != 0 && !self.random.once_in(20) {
            self.put(&format!("& uint ( {} , ~ )", 8 - width % 8));
        }
    }

    // A name that the rule has not bound, one in thirty apart.
    fn new_variable(&mut self) -> String {
        let free: Vec<&str> = VARIABLES.into_iter().filter(|name| !self.variables.iter().any(|known| known == name)).collect();
        let any = free.is_empty() || self.random.once_in(30);
        self.random.pick(if any { &VARIABLES } else { &free[..] }).to_string()
    }

    // One or more members; says whether what follows must begin with a byte of its own.
    fn member(&mut self, begin: bool, depth: usize) -> bool {
        if depth == 0 || self.is_large() {
            self.field(begin);
            return false;
        }
        match self.random.below(16) {
            0..=2 => self.repetition(begin, depth - 1),
            3 | 4 => {
                self.put("(");
                self.branches(depth - 1);
                self.put(")");
            }
            5 | 6 => self.switch(depth - 1),
            7 | 8 => self.rule_use(),
            9 => {
                self.put("(");
                self.concatenation(depth - 1);
                self.put(")");
            }
            10 if self.random.once_in(6) => self.put("eod"),
            _ => {
                self.field(begin);
                return false;
            }
        }
        true
    }

    fn concatenation(&mut self, depth: usize) {
        self.leading_field();
        let mut begin = false;
        for _ in 0..self.random.index(4) {
            self.put("&");
            begin = self.member(begin, depth);
        }
    }

    fn branches(&mut self, depth: usize) {
        self.concatenation(depth);
        for _ in 0..1 + self.random.index(3) {
            self.put("|");
            self.concatenation(depth);
        }
    }

    fn rule_use(&mut self) {
        // An earlier rule may lead back to this one.
        let back = self.random.once_in(12);
        let choices = if back { &self.used } else { &self.unused };
        match choices.last().cloned() {
            Some(name) => {
                self.put(&name);
                self.reaches_next |= !back;
            }
            None => self.leading_field(),
        }
    }

    // The next rule, if there is one, behind all else.
    fn next_rule_use(&mut self) {
        if let Some(name) = self.unused.last().cloned() {
            self.put("&");
            self.put(&name);
        }
    }

    fn repetition(&mut self, begin: bool, depth: usize) {
        if !begin && self.random.once_in(2) {
            self.field(false);
            return self.exact_counts();
        }
        match self.random.below(6) {
            0 => {
                self.put("(");
                self.concatenation(depth);
                self.put(")");
            }
            1 => {
                self.put("(");
                self.branches(depth);
                self.put(")");
            }
            2 => self.rule_use(),
            3 if self.random.once_in(6) => self.put("( 'e' ? )"), // a body that may take no bit
            _ => self.leading_field(),
        }
        self.counts();
    }

    fn switch(&mut self, depth: usize) {
        self.put("[");
        for _ in 0..1 + self.random.index(3) {
            self.condition(2);
            self.put(":");
            self.concatenation(depth);
            self.put(";");
        }
        if self.random.once_in(2) {
            self.put(":");
            self.concatenation(depth);
            self.put(";");
        }
        self.put("]");
    }

    fn field(&mut self, begin: bool) {
        if begin {
            return self.leading_field();
        }
        let width = match self.random.below(8) {
            0 => return self.leading_field(),
            1 => return self.put("uint ( 4 , ~ ) & sint ( 4 , ~ 1 )"),
            2 => self.random.pick(&[16, 24, 32, 40, 64]),
            3 => self.random.pick(&[1, 2, 8, 31, 32, 33, 62, 63, 64]),
            4 if self.random.once_in(4) => 1 + self.random.below(65),
            _ => 8,
        };
        let grouped = width % 8 != 0;
        if grouped {
            self.put("(");
        }
        let signed = self.field_word();
        self.number(width);
        self.put(",");
        self.set(signed, width as u32);
        self.put(")");
        if grouped {
            self.fill(width);
            self.put(")");
        }
    }

    // A field that begins with a byte of its own, one in sixty apart.
    fn leading_field(&mut self) {
        if !self.random.once_in(60) {
            self.lead = self.lead.wrapping_add(37);
        }
        let lead = self.lead;
        match self.random.below(6) {
            0 if lead < 128 => {
                let ends = [self.literal(&[lead]), "~".into(), self.literal(&[lead])];
                self.tokens.extend(ends);
            }
            1..=3 if lead < 128 => {
                let mut bytes = vec![lead];
                bytes.extend((0..self.random.index(3)).map(|i| b'A' + i as u8));
                let literal = self.literal(&bytes);
                self.tokens.push(literal);
            }
            4 if self.random.once_in(2) => self.leading_signed(lead),
            4 => self.put(&format!("uint ( 16 , {} ~ {} )", u32::from(lead) * 256, u32::from(lead) * 256 + 255)),
            _ => {
                self.put("uint ( 8 ,");
                self.number(u64::from(lead));
                self.put(")");
            }
        }
    }
    // Signed and wide: the patterns that begin with this byte are those between two values.
    fn leading_signed(&mut self, lead: u8) {
        let width = self.random.pick(&[8, 9, 16, 32, 33, 62, 63]);
        let hidden = width - 8;
        let least = i64::from(lead as i8) << hidden;
        self.put(&format!("sint ( {width} ,"));
        self.signed(least);
        self.put("~");
        self.signed(least + ((1 << hidden) - 1));
        self.put(")");
    }
}
