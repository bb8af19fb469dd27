// Headers and the layout of tokens.
use crate::grammar::LONGEST_TEXT;
use crate::random::Random;

const FIRST_LINES: [&str; 4] = ["dogma_v1 utf-8\n", "dogma_v1 utf-8\r\n", "dogma_v1\tUTF-8\n", "dogma_v1 \t Utf-8\n"];
const LINES: [&str; 5] = ["- identifier=kiosk_v1\n", "-  =b\n", "- n= \r\n", "-\tname with = signs=\n", "- charset = utf-8\r\n"];
const WRONG: [&str; 12] = [
    "dogma_v1 utf-8 \n", " dogma_v1 utf-8\n", "dogma_v2 utf-8\n", "- =b\n", "-a=b\n", "- a=\n", "# comment\n", " \n", "\r\r\n",
    "- a=\u{e9}\n", "- \x7f=b\n", "dogma_v1utf-8\n",
];

pub fn header(random: &mut Random) -> Vec<u8> {
    let mut lines = vec![random.pick(&FIRST_LINES)];
    while random.once_in(4) {
        lines.push(random.pick(&LINES));
    }
    lines.push(random.pick(&["\n", "\n", "\r\n"]));
    if random.once_in(40) {
        let at = random.index(lines.len());
        lines[at] = random.pick(&WRONG);
    }
    lines.concat().into_bytes()
}

const BLANKS: [&str; 8] = [" ", "\n", "\t", "\r\n", "\r", " # c\n", "#;\"(\r\n", "#\u{e9}\u{0}~\n"];

// Tokens with nothing, a blank or anything that separates between them. Two words in a row need a blank.
pub fn layout(tokens: &[String], random: &mut Random) -> Vec<u8> {
    let style = random.below(4);
    let mut text = String::new();
    for token in tokens {
        let joins = |c: char| c.is_ascii_alphanumeric() || c == '_';
        let words = text.ends_with(joins) && token.starts_with(joins);
        match style {
            0 if !words => {}
            0 | 1 => text.push(' '),
            _ if words || random.once_in(style * 2) => text += random.pick(&BLANKS),
            _ => {}
        }
        text += token;
    }
    text += random.pick(&["", "\n", " ", "# end", "\r\n"]);
    if random.once_in(100) {
        text += "#";
        text += &"p".repeat((LONGEST_TEXT - 16 + random.index(3)).saturating_sub(text.len()));
    }
    text.into_bytes()
}
