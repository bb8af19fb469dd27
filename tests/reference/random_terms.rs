// Random sets, counts, conditions, calculations, numbers and literals.
use crate::arithmetic::ends;
use crate::random_grammar::Writer;

impl Writer<'_> {
    pub fn set(&mut self, signed: bool, width: u32) {
        if self.random.once_in(3) {
            return self.put("~");
        }
        self.set_alternative(signed, width);
        while self.random.once_in(4) {
            self.put("|");
            self.set_alternative(signed, width);
        }
    }

    // Mostly one that leaves a value: what is taken away is a little of a lot.
    fn set_alternative(&mut self, signed: bool, width: u32) {
        match self.random.below(10) {
            0 => {
                self.much(signed, width);
                self.put("!");
                self.little(signed, width);
            }
            1 => {
                self.much(signed, width);
                self.put("! (");
                self.little(signed, width);
                if self.random.once_in(2) {
                    self.put("|");
                    if self.random.once_in(6) { self.set_alternative(signed, width) } else { self.little(signed, width) }
                }
                self.put(")");
            }
            _ => self.set_item(signed, width),
        }
    }

    fn much(&mut self, signed: bool, width: u32) {
        match self.random.below(8) {
            0 => self.set_item(signed, width),
            1 | 2 => self.put("0 ~"),
            _ => self.put("~"),
        }
    }

    fn little(&mut self, signed: bool, width: u32) {
        if self.random.once_in(20) {
            return self.set_item(signed, width);
        }
        let form = self.random.below(3);
        self.set_item_of(form, signed, width);
    }

    fn set_item(&mut self, signed: bool, width: u32) {
        let form = self.random.below(6);
        self.set_item_of(form, signed, width);
    }

    // One of two forms of a single value and four of a range. Ends are mostly small, in order and within the width; now and then below it, beyond it or
    // turned round, where no value may be left.
    fn set_item_of(&mut self, form: u64, signed: bool, width: u32) {
        let (least, greatest) = ends(signed, width);
        let odd = self.random.once_in(100);
        let low = self.low_end(form, least, greatest, odd);
        let high = match self.random.below(4) {
            0 => greatest + self.random.below(3) as i128 - 1,
            1 => least + i128::from(self.random.next()) % (greatest - least + 1),
            _ => low.max(least) + self.random.below(6) as i128,
        };
        let high = if odd { high - self.random.below(12) as i128 } else { high.max(low) };
        if form <= 3 {
            self.named(if odd { low + high } else { low });
        }
        if form >= 2 {
            self.put("~");
        }
        if (2..=4).contains(&form) && form != 3 {
            self.named(high);
        }
    }

    // Small, or at an end of the width, or beside 0.
    fn low_end(&mut self, form: u64, least: i128, greatest: i128, odd: bool) -> i128 {
        let below = if odd || form == 2 || form == 3 { i128::from(self.random.once_in(6)) * 9 } else { 0 };
        let low = match self.random.below(8) {
            0 => least,
            1 => greatest,
            2 => -1,
            3 => least + 1,
            _ => self.random.below(12) as i128 - if least < 0 { 6 } else { 0 },
        };
        low.clamp(least, greatest) - below
    }

    // A calculation of a value. None comes past 2^62, but now and then one is asked for.
    fn named(&mut self, value: i128) {
        let largest = 1 << 62;
        let kept = if self.random.once_in(40) { value } else { value.clamp(-largest, largest) };
        self.calculation(kept as i64);
    }

    // Counts decided by lookahead or by a number.
    pub fn counts(&mut self) {
        let least = self.random.below(4) as i64 - i64::from(self.random.once_in(5)) * 3;
        match self.random.below(8) {
            0 => self.put("?"),
            1 => self.put("*"),
            2 => self.put("+"),
            3 => return self.exact_counts(),
            form => {
                self.put("{");
                if form != 4 {
                    self.calculation(least);
                }
                self.put("~");
                if form != 5 {
                    let greatest = least + self.random.below(4) as i64 - i64::from(self.random.once_in(8)) * 2;
                    self.calculation(greatest);
                }
                self.put("}");
            }
        }
    }

    pub fn exact_counts(&mut self) {
        self.put("{");
        if let (false, Some(name)) = (self.random.once_in(3), self.some_variable()) {
            self.put(&name);
            if self.random.once_in(3) {
                self.put("-");
                self.number(2);
            }
        } else {
            let count = self.random.below(4) as i64 - i64::from(self.random.once_in(20)) * 2;
            self.calculation(count);
        }
        self.put("}");
    }

    fn some_variable(&mut self) -> Option<String> {
        if self.variables.is_empty() { None } else { Some(self.variables[self.random.index(self.variables.len())].clone()) }
    }

    // Mostly a calculation of this value, now and then one of a variable.
    fn calculation(&mut self, value: i64) {
        let extra = self.random.below(20) as i64;
        let form = if value.unsigned_abs() > 1 << 61 { 12 } else { self.random.below(12) };
        match form {
            0 => self.sum(&[(value + extra, "-"), (extra, "")]),
            1 => self.sum(&[(-extra, "+"), (value + extra, "")]),
            2 => self.sum(&[(3, "*"), (extra, "+"), (value - 3 * extra, "")]),
            3 => self.sum(&[(value - extra, "-"), (-extra, "")]),
            4 => match self.some_variable() {
                Some(name) => {
                    self.put(&name);
                    let sign = self.random.pick(&["+", "-", "*"]);
                    self.put(sign);
                    self.signed(extra / 4);
                }
                None => self.signed(value),
            },
            _ => self.signed(value),
        }
    }

    fn sum(&mut self, operands: &[(i64, &str)]) {
        for (value, sign) in operands {
            self.signed(*value);
            if !sign.is_empty() {
                self.put(sign);
            }
        }
    }

    pub fn signed(&mut self, value: i64) {
        if value < 0 {
            self.put("-");
        }
        self.number(value.unsigned_abs());
    }

    pub fn number(&mut self, value: u64) {
        let digits = match self.random.below(12) {
            0 => format!("0x{value:x}"),
            1 => format!("0X{value:04X}"),
            2 => format!("0o{value:o}"),
            3 => format!("0b{value:b}"),
            4 => format!("00{value}"),
            _ => value.to_string(),
        };
        self.tokens.push(digits);
    }

    pub fn condition(&mut self, depth: usize) {
        let sign = self.random.pick(&["&", "|"]);
        self.simple_condition(depth);
        while self.random.once_in(4) {
            self.put(sign);
            self.simple_condition(depth);
        }
    }

    fn simple_condition(&mut self, depth: usize) {
        if depth > 0 && self.random.once_in(5) {
            self.put("(");
            self.condition(depth - 1);
            return self.put(")");
        }
        match self.some_variable() {
            Some(name) => self.put(&name),
            None => self.calculation(2),
        }
        let comparator = self.random.pick(&["=", "=", "!=", "<", "<=", ">", ">="]);
        self.put(comparator);
        let value = self.random.below(6) as i64 - i64::from(self.random.once_in(4)) * 4;
        self.calculation(value);
    }

    // A literal of these bytes, below 80, in either quotes and with or without escapes.
    pub fn literal(&mut self, bytes: &[u8]) -> String {
        let quote = self.random.pick(&['"', '\'']);
        let mut literal = String::from(quote);
        for &byte in bytes {
            let char = char::from(byte);
            literal += &match byte {
                b'\\' | b'"' | b'\'' => format!("\\{char}"),
                0x20..=0x7e if !self.random.once_in(8) => char.to_string(),
                _ if self.random.once_in(2) => format!("\\[{byte:x}]"),
                _ => format!("\\[{byte:03X}]"),
            };
        }
        literal.push(quote);
        literal
    }
}
