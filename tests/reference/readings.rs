// What the settled readings of documents 01 and 02 say by example. A mark ^ in a text shows the place of the refusal.
use reference::grammar::{admit, Between, Refusal};

const HEADERS: &[(u8, &str)] = &[
    (2, "^"),
    (3, "^dogma_v1 utf-8 \n\na='x';"),
    (3, "^ dogma_v1 utf-8\n\na='x';"),
    (3, "^\u{feff}dogma_v1 utf-8\n\na='x';"),
    (3, "^Dogma_v1 utf-8\n\na='x';"),
    (3, "^dogma_v1 utf-8"),
    (3, "dogma_v1 utf-8\n^"),
    (3, "dogma_v1 utf-8\n^\r"),
    (3, "dogma_v1 utf-8\n^\r\r\na='x';"),
    (3, "dogma_v1 utf-8\n^- a\rb=c\n\na='x';"),
    (3, "dogma_v1 utf-8\n^- =b\n\na='x';"),
    (3, "dogma_v1 utf-8\n^-a=b\n\na='x';"),
    (3, "dogma_v1 utf-8\n- a=b\n^- a=\n\na='x';"),
    (3, "dogma_v1 utf-8\n^- a=b"),
    (3, "dogma_v1 utf-8\n^ \n\na='x';"),
    (3, "dogma_v1 utf-8\n^# c\n\na='x';"),
    (3, "dogma_v1 utf-8\n^- a=\u{7f}\n\na='x';"),
    (0, "dogma_v1 \t UTF-8\r\n-  =b\n-\tn==\n- n= \r\n\r\na='x';"),
    (4, "dogma_v1 utf-8\n\n^"),
    (4, "dogma_v1 utf-8\n\n # c\r\n^"),
];

const FORMS: &[(u8, &str)] = &[
    (4, "a = uint(8, var(n, ~)) & [n < ^= 1: 'x';];"),
    (4, "a = uint(8, var(n, ~)) & [n ^! = 1: 'x';];"),
    (4, "a = uint(8, 1 ^!=2);"),
    (4, "a = 'x'; ^@"),
    (4, "a = 'x'; ^_b = 'y';"),
    (4, "a = 'x' # \r ; \n^"),
    (4, "a = uint(0^x);"),
    (4, "a = uint(0b1^2, ~);"),
    (4, "a = uint(12^ab, ~);"),
    (0, "a = uint(0X8, 0XfF | 0B1 | 0O7 | 0009);"),
    (4, "a = ^\"\";"),
    (4, "a = ^\"abcdefghijklmnopqrstuvwxyzabcdefg\";"),
    (0, "a = \"abcdefghijklmnopqrstuvwxyzabcde\\[00041]\";"),
    (4, "a = ^\"abc;"),
    (4, "a = ^\"a\n\";"),
    (4, "a = ^'\\n';"),
    (4, "a = ^'\\[]';"),
    (4, "a = ^'\\[80]';"),
    (0, "a = '\\[7F]' & \"\\'\" & '\"' & '\\\\';"),
    (0, "abcdefghijklmnopqrstuvwxyzabcdef = 'x';"),
    (4, "^abcdefghijklmnopqrstuvwxyzabcdefg = 'x';"),
    (4, "a = sized^(8, b);"),
    (4, "a = var^(x, ~);"),
    (4, "a = uint(8, 1 | var^(n, ~));"),
    (4, "a = uint(^n, ~);"),
    (4, "a = uint(^-1, ~);"),
    (4, "a = uint(8^+0, ~);"),
    (4, "a = 'ab'^~'c';"),
    (4, "a = 'a'~^'bc';"),
    (0, "a = 'z'~'a';"),
    (4, "a = 'a'{~^};"),
    (4, "a = 'a'{1^|3};"),
    (4, "a = 'a'{^(1)};"),
    (4, "a = 'a'*^*;"),
    (4, "a = uint(8, ^(1|2));"),
    (4, "a = uint(8, 1!(^(2)));"),
    (4, "a = uint(8, 1!2^!3);"),
    (0, "a = uint(8, 1 - -1 ! (3 | 4 ! 2));"),
    (4, "a = uint(8, -^-1);"),
    (4, "a = [^];"),
    (4, "a = [^: 'a';];"),
    (4, "a = [1 = 1: 'a'; : 'b'; ^1 = 2: 'c';];"),
    (4, "a = [1 = 1 & 2 = 2 ^| 3 = 3: 'a';];"),
    (4, "a = [(1 + 1^) = 2: 'a';];"),
    (0, "a = [((1 = 1)): 'a';];"),
    (0, "a = ((((((((((((((((\"x\"))))))))))))))));"),
    (4, "a = ((((((((((((((((^(\"x\")))))))))))))))));"),
    (4, "a = (((((((((((((((uint(8, var^(n, ~)))))))))))))))));"),
    (4, "a = ((((((((((((((((uint^(8, ~)))))))))))))))));"),
];

const NAMES_AND_NUMBERS: &[(u8, &str)] = &[
    (6, "a = ^uint;"),
    (6, "a = uint(8, ^var);"),
    (6, "a = 'x'{^eod};"),
    (6, "^sized = 'x';"),
    (6, "a = 'x'; ^a = 'y';"),
    (6, "a = (uint(8, var(^n, ~)));"),
    (6, "a = uint(8, var(^n, ~)){2};"),
    (6, "a = uint(8, var(^n, ~)) | 'x';"),
    (6, "a = [1 = 1: uint(8, var(^n, ~));];"),
    (6, "a = uint(8, var(n, ~)) & uint(8, var(^n, ~));"),
    (6, "a = uint(8, var(n, ^n));"),
    (6, "a = uint(8, ^n) & uint(8, var(n, ~));"),
    (6, "a = uint(8, var(n, ~)) & b; b = uint(8, ^n);"),
    (6, "a = ^b & uint(8, var(b, ~)); b = 'x';"),
    (6, "a = uint(8, ^b); b = 'x';"),
    (6, "a = uint(8, var(^msb, ~));"),
    (6, "a = 'x'; b = ^c;"),
    (0, "a = c & uint(8, var(a, ~)) & uint(8, var(b, a)); c = b; b = 'x';"),
    (7, "a = 'x'; ^b = c{0}; c = b;"),
    (7, "a = b; ^b = 'x' & c; c = b;"),
    (8, "a = uint(^0, ~);"),
    (8, "a = uint(^65, ~);"),
    (0, "a = uint(64, ~);"),
    (13, "a = ^uint(8, 5 + 4294967296);"),
    (8, "a = uint(8, ^5 + 99999999999999999999);"),
    (8, "a = uint(8, 1 | ^-99999999999999999999);"),
    (0, "a = uint(31, var(x, ~)) & uint(32, var(z, ~)) & uint(8, 0*x*z*4);"),
    (8, "a = uint(31, var(x, ~)) & uint(32, var(z, ~)) & uint(8, ^x*z*0);"),
    (0, "a = uint(8, ~2147483648 * 2147483648);"),
    (8, "a = uint(8, ^2147483648 * 2147483648 + 1);"),
];

const LOOKAHEAD: &[(u8, &str)] = &[
    (12, "a = 'x'; ^b = 'y' | 'y';"), // what nothing follows has no windows
    (10, "a = ('A' & ^'A'?)?;"),
    (10, "a = ^'A'{3~3} & 'A';"),
    (10, "a = ^'A'{5~3} & 'A';"),
    (0, "a = 'A'{3} & 'A';"),
    (9, "a = ('A'?)^{0};"),
    (9, "a = (('A'?)^*)*;"),
    (0, "a = (eod & 'x')*;"),
    (13, "a = ^uint(8, 300)*;"), // not 9 or 10: no windows
    (13, "a = ('A' | 'A') & ^uint(8, 300);"),
    (0, "a = uint(4,1)* & uint(4,1);"),
    (10, "a = uint(8, var(n, ~)) & (^uint(8, n ! n) | 'A');"),
    (10, "a = ^eod & 'x' | 'x';"),
    (10, "a = ^[1 = 2: 'x';] | 'x';"),
    (10, "a = ^('A')* & 'A';"),
    (10, "a = 'b' & ('c' & ^'A'* & 'A' | 'd');"),
];

// Req 06.
const STRICTER: &[(u8, &str)] = &[
    (12, "a = 'x'; ^b = 'y';"),
    (0, "a = b{0}; b = 'y';"),
    (0, "a = [1 = 2: b;]; b = 'y';"),
    (0, "a = c; b = 'y'; c = b;"),
    (12, "a = c; ^b = d; c = 'x'; d = 'y';"), // d is used, but not reached
    (12, "a = 'x'; ^b = c; c = 'y';"),
    (12, "a = uint(8, 300); ^b = 'y';"), // before 13, whatever the places
    (11, "^a = b & b & b & b; b = c & c & c & c; c = d & d & d & d; d = e & e & e & e; e = f & f & f & f; f = g & g & g & g; g = h & h & h & h; h = 'x' & 'y'; i = 'z';"),
    (9, "a = 'x'; b = ('y'?)^*;"), // also in a rule that is not reached
    (8, "a = 'x'; b = uint(^65, ~);"),
    (13, "a = ^uint(8, 256);"),
    (0, "a = uint(8, 255);"),
    (13, "a = ^uint(8, -1);"),
    (13, "a = ^uint(8, ~-1);"),
    (13, "a = ^uint(8, 7~5);"),
    (13, "a = ^uint(8, ~ ! ~);"),
    (13, "a = ^uint(8, ~ ! (0~9 | 10~));"),
    (0, "a = uint(8, ~ ! (0~9 | 11~));"),
    (13, "a = 'x' & (^uint(8, 3 ! 3) | 'y');"),
    (13, "a = ^uint(32, ~ ! ~4294967295);"),
    (0, "a = uint(32, ~ ! ~4294967294);"),
    (13, "a = ^uint(8, var(n, 300)) & uint(8, n);"), // a binder's set too
    (0, "a = uint(8, var(n, ~)) & uint(8, n ! n);"), // a variable excuses it, wherever it stands
    (0, "a = uint(8, var(n, ~)) & uint(8, 300 | 300 ! n);"),
    (0, "a = 'z'~'a';"),
    (0, "a = 'x'{5~3};"),
    (13, "a = b & ^uint(8, 256); b = uint(8, 257);"), // the first in the text
];

// Req 10.
const WIDER: &[(u8, &str)] = &[
    (0, "a = sint(8, ~);"),
    (6, "a = ^sint;"), // it opens its form only before `(`
    (6, "a = sint(8, ^sint);"),
    (4, "a = sint(^n, ~);"),
    (4, "a = uint(8, sint^(8, 1));"),
    (8, "a = sint(^0, ~);"),
    (8, "a = sint(^65, ~);"),
    (0, "a = sint(64, ~) & uint(64, ~);"),
    (0, "a = uint(62, var(n, ~)) & sint(62, var(m, ~));"),
    (8, "a = uint(^63, var(n, ~));"),
    (8, "a = sint(^63, var(n, ~));"),
    (0, "a = uint(64, 4611686018427387904);"),
    (8, "a = uint(64, ^4611686018427387905);"),
    (8, "a = uint(64, ^5 + 4611686018427387905);"),
    (8, "a = uint(64, ^-4611686018427387905);"),
    (8, "a = uint(64, 0 * 1 | ^0 * 4611686018427387905);"),
    (8, "a = 'x'{^0x4000000000000001};"),
    (8, "a = [1 = ^4611686018427387904 + 1: 'x';];"),
    (0, "a = sint(62, var(x, ~)) & sint(4, x + x);"), // of size 2^61 each
    (8, "a = sint(62, var(x, ~)) & sint(4, ^x + x + 1);"),
    (8, "a = uint(62, var(x, ~)) & sint(4, ^x + x);"),
    (0, "a = uint(62, var(x, ~)) & sint(4, x + 1);"),
    (8, "a = uint(62, var(x, ~)) & sint(4, ^x + 2);"),
    (0, "a = sint(1, 0 | -1);"),
    (13, "a = ^sint(1, 1);"),
    (0, "a = sint(8, -128 | 127);"),
    (13, "a = 'x' & ^sint(8, 128);"),
    (13, "a = ^sint(8, var(n, ~-129));"),
    (13, "a = ^sint(64, ~ ! (-4611686018427387904~ | ~));"),
    (0, "a = sint(64, ~ ! (-4611686018427387904~ | 5));"), // -2^63 is left
    (0, "a = uint(64, ~ ! 0~4611686018427387904);"),
    (13, "a = ^uint(62, ~ ! 0~4611686018427387903);"),
    (13, "a = ^uint(62, 4611686018427387904~);"),
    (0, "a = uint(8, -1 + 1) | sint(8, -1);"),
    (0, "a = sint(8, var(n, ~)) & 'x'{n};"), // a negative count is none
    (10, "a = ^sint(8, -1) | uint(8, 255);"),
    (0, "a = sint(4, 1) & uint(4, ~) | sint(4, -1) & uint(4, ~);"),
    (10, "a = ^sint(9, -1) | sint(16, -1);"),
];

const HEADER: &str = "dogma_v1 utf-8\n\n";

pub fn check() -> usize {
    for (number, text) in HEADERS {
        check_one(*number, text, "");
    }
    let rules = [FORMS, NAMES_AND_NUMBERS, LOOKAHEAD, STRICTER, WIDER].concat();
    for (number, rules) in &rules {
        check_one(*number, rules, HEADER);
    }
    check_conflicts();
    HEADERS.len() + rules.len()
}

fn check_one(number: u8, marked: &str, header: &str) {
    let text = format!("{header}{}", marked.replacen('^', "", 1));
    let place = marked.find('^').map(|at| header.len() + at);
    let found = admit(text.as_bytes()).map_or_else(|refusal| (refusal.number, Some(refusal.place)), |_| (0, None));
    assert_eq!(found, (number, place), "{text}");
}

// The least common string is over all pairs of branches, and the first pair that has it is told.
fn check_conflicts() {
    let refused = |rules: &str| admit(format!("{HEADER}{rules}").as_bytes()).err();
    let conflict = |place, window, between| Some(Refusal { number: 10, place, window: Some(window), between: Some(between) });
    assert_eq!(refused("a = 'c' | 'c' | 'b' | 'd' | 'b';"), conflict(20, 256 + 98, Between::Branches(2, 4)));
    assert_eq!(refused("a = 'c'* & 'c';"), conflict(20, 256 + 99, Between::ContinueAndExit));
    assert_eq!(refused("a = uint(4,2) | uint(4,2) & uint(4,~)?;"), conflict(20, 18, Between::Branches(0, 1)));
    assert_eq!(refused("a = sint(16,~-1) | sint(32,-16777216~-3);"), conflict(20, 256 + 255, Between::Branches(0, 1)));
    // The windows of `sint(4, -3~2)`: each pattern of 4 bits clashes with it, or does not.
    for pattern in 0..16 {
        let expected = [0, 1, 2, 13, 14, 15].contains(&pattern).then(|| conflict(20, 16 + pattern, Between::Branches(0, 1)));
        assert_eq!(refused(&format!("a = sint(4, -3~2) | uint(4, {pattern});")), expected.flatten(), "{pattern}");
    }
}
