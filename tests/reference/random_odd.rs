// Grammars that are odd on purpose: with a token out of place, at the limits, or made of a few bits without care for conflicts.
use crate::random::Random;

const RESERVED_AND_ODD: [&str; 12] = ["uint", "sint", "sint", "var", "eod", "sized", "msb", "unknown", "n", "a", "frame", "nnnnnnnnnnnnnnnnnnnnnnnnnnnnnnnnn"];
const NUMBERS: [&str; 16] = [
    "0", "1", "62", "63", "64", "65", "0x100000000", "4294967295", "4611686018427387904", "4611686018427387905", "0xffffffffffffffff",
    "18446744073709551616", "0b0", "0o777777777777777777777", "340282366920938463463374607431768211457", "007",
];
const SIGNS: [&str; 24] = ["=", ";", "|", "&", "(", ")", "[", "]", "{", "}", "?", "*", "+", "-", "~", "!", ",", ":", "<", ">", "!=", "<=", ">=", "@"];

// One token replaced, dropped, doubled, moved or put in: mostly by one of its own kind.
pub(crate) fn misplace(tokens: &mut Vec<String>, random: &mut Random) {
    let at = random.index(tokens.len());
    let other = tokens[random.index(tokens.len())].clone();
    match random.below(8) {
        0 => drop(tokens.remove(at)),
        1 => tokens.insert(at, other),
        2 => tokens[at] = other,
        3 => tokens.insert(at, random.pick(&SIGNS).into()),
        _ => {
            let first = tokens[at].as_bytes()[0];
            let choices: &[&str] = match first {
                b if b.is_ascii_digit() => &NUMBERS,
                b if b.is_ascii_alphabetic() => &RESERVED_AND_ODD,
                _ => &SIGNS,
            };
            tokens[at] = random.pick(choices).into();
        }
    }
}

// Grammars at the limits of rules, constructs, variables, terms, nesting, sizes and weight.
pub(crate) fn crowded(random: &mut Random) -> Vec<String> {
    let near = |random: &mut Random, limit: usize| limit - 2 + random.index(4);
    let times = |n: usize, part: &dyn Fn(usize) -> String, between: &str| (0..n).map(part).collect::<Vec<_>>().join(between);
    let rules = match random.below(8) {
        0 => times(near(random, 64), &|i| format!("r{i} = \"a\" ;"), " "),
        1 => format!("f = {} ; g = 'a' ;", times(near(random, 255), &|_| "'x'".into(), " & ")),
        2 => format!("f = {} ;", times(near(random, 64), &|i| format!("uint ( 8 , var ( v{i} , ~ ) )"), " & ")),
        3 => format!("f = uint ( 32 , {} ) ; g = uint ( 8 , 1 ~ 2 ) ;", times(near(random, 511), &|i| format!("{i}"), " | ")),
        4 => {
            let n = near(random, 17);
            format!("f = {} 'x' {} ;", times(n, &|_| "(".into(), " "), times(n, &|_| ")".into(), " "))
        }
        5 => format!("{} f20 = 'z' ;", times(20, &|i| format!("f{i} = f{} & f{} ;", i + 1, if i % 2 == 0 { i + 1 } else { 20 }), " ")),
        6 => {
            let n = near(random, 16);
            format!("f = {} 'a' {} ;", times(n, &|_| "(".into(), " "), times(n, &|i| format!("& '{}' ) {{ 2 }}", char::from(b'b' + i as u8)), " "))
        }
        _ => {
            let product = times(1 + random.index(3), &|i| ["n", "m", "k"][i % 3].into(), " * ");
            let field = |random: &mut Random| random.pick(&["uint", "sint"]);
            let (n, m, k) = (field(random), field(random), field(random));
            let wide = 60 + random.below(5);
            let (n_width, m_width, k_width) = random.pick(&[(32, 30, 2), (32, 31, 1), (33, 30, 3), (wide, 2, 1), (61, 1, 1)]);
            format!("f = {n} ( {n_width} , var ( n , ~ ) ) & {m} ( {m_width} , var ( m , ~ ) ) & {k} ( {k_width} , var ( k , ~ ) ) & 'x' {{ 1 - {product} }} ;")
        }
    };
    rules.split(' ').map(String::from).collect()
}

// Small grammars of narrow fields, where lookahead reaches over several fields and over the frame's end. Most conflict.
pub(crate) fn ragged(random: &mut Random) -> Vec<String> {
    let mut rules = format!("f = {}", expression(random, 3));
    if random.once_in(2) {
        rules += &format!(" & g & uint ( {} , ~ )", random.pick(&[1, 3, 4, 8]));
        rules += &format!(" ; g = {}", expression(random, 2));
    }
    rules += " ;";
    rules.split(' ').map(String::from).collect()
}

fn expression(random: &mut Random, depth: usize) -> String {
    if depth == 0 {
        let width = random.pick(&[1, 1, 2, 3, 4, 4, 5, 8, 9]);
        let value = random.below(1 << width);
        return match random.below(14) {
            0 => "eod".into(),
            1 => format!("uint ( {width} , ~ )"),
            2 => format!("uint ( {width} , {value} ~ )"),
            12 => format!("sint ( {width} , {} )", value as i64 - (1 << (width - 1))).replace('-', "- "),
            13 => format!("sint ( {width} , ~ {} )", value as i64 - (1 << (width - 1))).replace('-', "- "),
            3 => "'\\[5]' ~ 'z'".into(),
            _ => format!("uint ( {width} , {value} )"),
        };
    }
    let inner = |random: &mut Random| expression(random, depth - 1);
    match random.below(8) {
        0 | 1 => format!("( {} | {} )", inner(random), inner(random)),
        2 | 3 => format!("( {} ) {}", inner(random), random.pick(&["*", "+", "?", "{ 2 }", "{ 1 ~ 3 }", "{ 2 ~ }", "{ ~ 2 }"])),
        4..=6 => format!("{} & {}", inner(random), inner(random)),
        _ => format!("( {} & {} | {} )", inner(random), inner(random), inner(random)),
    }
}
