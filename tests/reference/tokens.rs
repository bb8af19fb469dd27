// Tokens: names, numbers, literals and signs, the longest first.

pub const LONGEST_NAME: usize = 32;
pub const LONGEST_LITERAL: usize = 32;

#[derive(Debug, Clone, PartialEq, Eq)]
pub enum Kind {
    Name(String),
    Number(u128), // saturated: far beyond every limit
    Literal(Vec<u8>),
    Sign(&'static str),
    Faulty, // can stand nowhere
    End,
}

#[derive(Debug, Clone)]
pub struct Token {
    pub kind: Kind,
    pub place: usize,
}

// Two-byte signs before their first bytes.
const SIGNS: [&str; 23] = [
    "!=", "<=", ">=", "=", ";", "|", "&", "(", ")", "[", "]", "{", "}", "?", "*", "+", "-", "~", "!", ",", ":", "<", ">",
];

// All tokens up to the text's end, or up to the first faulty one: nothing after it matters.
pub fn scan(text: &[u8], from: usize) -> Vec<Token> {
    let mut tokens = Vec::new();
    let mut at = from;
    loop {
        at = skip_blanks(text, at);
        let (kind, after) = if at == text.len() { (Kind::End, at) } else { token(text, at) };
        let last = matches!(kind, Kind::End | Kind::Faulty);
        tokens.push(Token { kind, place: at });
        if last {
            return tokens;
        }
        at = after;
    }
}

fn skip_blanks(text: &[u8], mut at: usize) -> usize {
    while at < text.len() {
        match text[at] {
            b' ' | b'\t' | b'\r' | b'\n' => at += 1,
            b'#' => at = text[at..].iter().position(|&b| b == b'\n').map_or(text.len(), |n| at + n),
            _ => break,
        }
    }
    at
}

fn token(text: &[u8], at: usize) -> (Kind, usize) {
    match text[at] {
        b if b.is_ascii_alphabetic() => name(text, at),
        b if b.is_ascii_digit() => number(text, at),
        b'"' | b'\'' => literal(text, at).map_or((Kind::Faulty, at), |(bytes, after)| (Kind::Literal(bytes), after)),
        _ => sign(text, at),
    }
}

fn sign(text: &[u8], at: usize) -> (Kind, usize) {
    match SIGNS.iter().find(|sign| text[at..].starts_with(sign.as_bytes())) {
        Some(sign) => (Kind::Sign(sign), at + sign.len()),
        None => (Kind::Faulty, at),
    }
}

fn name(text: &[u8], at: usize) -> (Kind, usize) {
    let length = text[at..].iter().take_while(|&&b| b.is_ascii_alphanumeric() || b == b'_').count();
    if length > LONGEST_NAME {
        return (Kind::Faulty, at);
    }
    let bytes = &text[at..at + length];
    (Kind::Name(String::from_utf8_lossy(bytes).into_owned()), at + length)
}

fn number(text: &[u8], at: usize) -> (Kind, usize) {
    let radix = match text.get(at + 1) {
        Some(b'x' | b'X') => 16,
        Some(b'o' | b'O') => 8,
        Some(b'b' | b'B') => 2,
        _ => 10,
    };
    if text[at] == b'0' && radix != 10 {
        let (value, after) = digits(text, at + 2, radix);
        if after > at + 2 {
            return (Kind::Number(value), after);
        }
    }
    // A prefix without digits is the number 0 and a name.
    let (value, after) = digits(text, at, 10);
    (Kind::Number(value), after)
}

// The value of the digits from `at`, saturated, and where they end.
fn digits(text: &[u8], mut at: usize, radix: u32) -> (u128, usize) {
    let mut value: u128 = 0;
    while let Some(digit) = text.get(at).and_then(|&b| char::from(b).to_digit(radix)) {
        value = value.saturating_mul(u128::from(radix)).saturating_add(u128::from(digit));
        at += 1;
    }
    (value, at)
}

// The literal's bytes and where it ends; None for every faulty one.
fn literal(text: &[u8], start: usize) -> Option<(Vec<u8>, usize)> {
    let quote = text[start];
    let mut bytes = Vec::new();
    let mut at = start + 1;
    while *text.get(at)? != quote {
        let (byte, after) = if text[at] == b'\\' { escape(text, at + 1)? } else { (text[at], at + 1) };
        if text[at] < 0x20 || text[at] > 0x7e {
            return None;
        }
        bytes.push(byte);
        at = after;
    }
    (1..=LONGEST_LITERAL).contains(&bytes.len()).then_some((bytes, at + 1))
}

// What follows a backslash: a quote, a backslash, or a code point in brackets.
fn escape(text: &[u8], at: usize) -> Option<(u8, usize)> {
    match *text.get(at)? {
        byte @ (b'\\' | b'"' | b'\'') => Some((byte, at + 1)),
        b'[' => {
            let (value, after) = digits(text, at + 1, 16);
            let closed = after > at + 1 && text.get(after) == Some(&b']');
            (closed && value <= 0x7f).then_some((value as u8, after + 1))
        }
        _ => None,
    }
}
