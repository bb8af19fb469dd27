// Calls whose instructions callgrind counts, one dump for each (tests/speed/instructions). For each call a line: the function, what it belongs to, 1 where its instructions
// are added and -1 where they are taken away, and how many steps they are for. A step's instructions are those of a grant of one step less those of a grant of none.
use crate::calls::{self, RUN_BYTES, TABLE_WORDS};
use crate::engines::{Engines, Outcome, ENGINES, GRAMMARS, READING_WORDS};
use crate::frames::frames;
use crate::guarded::Guarded;
use reference::grammar::admit;
use reference::machine::Machine;
use reference::random::Random;
use std::hint::black_box;
use std::ops::RangeInclusive;
use std::path::Path;

const FRAMES: usize = 16;
const OPENING: usize = 256;
const TAIL: usize = 32; // bytes behind those that matter, so that no step is near the frame's end

// What is counted, the rules, the frame's first bytes, and the construct whose step it is, after so many passes.
type Step = (&'static str, &'static str, &'static [u8], usize, u64);

const SWITCH: &str = "a = uint(8, var(t, ~)) & [t = 1: 'a'; t = 2: 'b'; t = 3: 'c'; t = 4: 'd'; : 'e';];";
const BRANCHES: &str = "a = 'a' | 'b' | 'c' | 'd';";

const STEPS: [Step; 52] = [
    ("the opening use", "a = 'a';", b"a", OPENING, 0),
    ("rule use", "a = b; b = 'a';", b"a", 0, 0),
    ("concatenation of 2", "a = 'a' & 'b';", b"ab", 0, 0),
    ("concatenation of 4", "a = 'a' & 'b' & 'c' & 'd';", b"abcd", 0, 0),
    ("concatenation of 8", "a = 'a' & 'b' & 'c' & 'd' & 'e' & 'f' & 'g' & 'h';", b"abcdefgh", 0, 0),
    ("alternative, first branch", BRANCHES, b"a", 0, 0),
    ("alternative, fourth branch", BRANCHES, b"d", 0, 0),
    ("alternative, no branch", BRANCHES, b"e", 0, 0),
    ("switch, first case", SWITCH, b"\x01a", 2, 0),
    ("switch, fourth case", SWITCH, b"\x04d", 2, 0),
    ("switch, default after four", SWITCH, b"\x05e", 2, 0),
    ("switch, t + 1 = 2 * 1 & t < 9", "a = uint(8, var(t, ~)) & [t + 1 = 2 * 1 & t < 9: 'a';];", b"\x01a", 2, 0),
    ("?, go", "a = 'a'?;", b"a", 0, 0),
    ("?, stop at its greatest", "a = 'a'?;", b"a", 0, 1),
    ("*, go", "a = 'a'* & 'b';", b"aab", 1, 0),
    ("*, stop", "a = 'a'* & 'b';", b"aab", 1, 2),
    ("+, below its least", "a = 'a'+ & 'b';", b"aab", 1, 0),
    ("+, go", "a = 'a'+ & 'b';", b"aab", 1, 1),
    ("+, stop", "a = 'a'+ & 'b';", b"aab", 1, 2),
    ("{3}, go", "a = 'a'{3};", b"aaa", 0, 1),
    ("{3}, stop", "a = 'a'{3};", b"aaa", 0, 3),
    ("{1~3}, below its least", "a = 'a'{1~3} & 'b';", b"aaab", 1, 0),
    ("{1~3}, go", "a = 'a'{1~3} & 'b';", b"aaab", 1, 1),
    ("{1~3}, stop by window", "a = 'a'{1~3} & 'b';", b"aab", 1, 2),
    ("{2~}, go", "a = 'a'{2~} & 'b';", b"aaab", 1, 2),
    ("{~3}, go", "a = 'a'{~3} & 'b';", b"aaab", 1, 1),
    ("{n}, go", "a = uint(8, var(n, ~)) & 'a'{n};", b"\x03aaa", 2, 1),
    ("{n}, stop", "a = uint(8, var(n, ~)) & 'a'{n};", b"\x03aaa", 2, 3),
    ("{n - 1}, go", "a = uint(8, var(n, ~)) & 'a'{n - 1};", b"\x03aaa", 2, 1),
    ("{n * 2 + 1 ~ n * 4}, go", "a = uint(8, var(n, ~)) & 'a'{n * 2 + 1 ~ n * 4} & 'b';", b"\x01aaab", 2, 1),
    ("literal of 1", "a = 'a';", b"a", 0, 0),
    ("literal of 4", "a = 'abcd';", b"abcd", 0, 0),
    ("literal of 32", "a = 'abcdabcdabcdabcdabcdabcdabcdabcd';", b"abcdabcdabcdabcdabcdabcdabcdabcd", 0, 0),
    ("literal of 4, not at a byte", "a = uint(3, ~) & 'abcd' & uint(5, ~);", b"\x0c\x2c\x4c\x6c\x80", 2, 0),
    ("range", "a = 'a'~'z';", b"k", 0, 0),
    ("range, fails", "a = 'a'~'z';", b"K", 0, 0),
    ("uint(8, ~)", "a = uint(8, ~);", b"k", 0, 0),
    ("uint(8, 7)", "a = uint(8, 7);", b"\x07", 0, 0),
    ("uint(8, 1~9)", "a = uint(8, 1~9);", b"\x07", 0, 0),
    ("uint(8, 1~9), fails", "a = uint(8, 1~9);", b"\x77", 0, 0),
    ("uint(8, 1~)", "a = uint(8, 1~);", b"\x07", 0, 0),
    ("uint(8, 1|3|5|7)", "a = uint(8, 1|3|5|7);", b"\x07", 0, 0),
    ("uint(8, ~!9)", "a = uint(8, ~!9);", b"\x07", 0, 0),
    ("uint(8, var(n, 1~9))", "a = uint(8, var(n, 1~9));", b"\x07", 0, 0),
    ("uint(8, n)", "a = uint(8, var(n, ~)) & uint(8, n);", b"\x07\x07", 2, 0),
    ("uint(8, n~n * 2)", "a = uint(8, var(n, ~)) & uint(8, n~n * 2);", b"\x07\x07", 2, 0),
    ("uint(5, 1~9), not at a byte", "a = uint(3, ~) & uint(5, 1~9);", b"\x07", 2, 0),
    ("uint(32, 1~999)", "a = uint(32, 1~999);", b"\0\0\0\x07", 0, 0),
    ("uint(64, ~)", "a = uint(64, ~);", b"\0\0\0\0\0\0\0\x07", 0, 0),
    ("uint(64, 1~999), not at a byte", "a = uint(3, ~) & uint(64, 1~999) & uint(5, ~);", b"\0\0\0\0\0\0\0\0\xff", 2, 0),
    ("sint(16, -9~9)", "a = sint(16, -9~9);", b"\xff\xfe", 0, 0),
    ("eod, fails", "a = eod;", b"", 0, 0),
];

// Not the last thing that they do: a jump to a function is not a return from it.
#[no_mangle]
#[inline(never)]
fn counted_straightforward(engines: &mut Engines, frame: &[u8]) -> Outcome {
    black_box(engines.straightforward(frame))
}

#[no_mangle]
#[inline(never)]
fn counted_careful(engines: &mut Engines, frame: &[u8]) -> Outcome {
    black_box(engines.careful(frame))
}

pub fn calls(folder: &Path, lengths: &RangeInclusive<usize>) {
    for step in &STEPS {
        single(step);
    }
    for name in GRAMMARS {
        whole(folder, name, lengths);
    }
}

// The steps up to the one that is counted, one of it, and none.
fn single(&(name, rules, first, construct, passes): &Step) {
    let text = format!("dogma_v1 utf-8\n\n{rules}").into_bytes();
    let Ok(grammar) = admit(&text) else { panic!("{rules} is refused") };
    let mut table = Guarded::new(&[0; TABLE_WORDS]);
    assert_eq!(calls::admit(&Guarded::new(&text), &mut table).number, 0, "{rules}");
    let frame = [first, &[0; TAIL]].concat();
    let mut machine = Machine::open(&grammar, &frame);
    let mut before = 0;
    while machine.entries()[0] != (construct, passes) {
        before += machine.grant(1);
    }
    let lent = Guarded::new(&frame);
    let (mut reading, mut run) = (Guarded::new(&[0; READING_WORDS]), Guarded::new(&[0; RUN_BYTES]));
    assert_eq!(calls::open(&table, &lent, &reading, &mut run), 0, "{rules}");
    for (steps, sign) in [(before, 0), (0, -1), (1, 1)] {
        assert_eq!(calls::grant(&table, &lent, &mut reading, &mut run, steps), (0, steps), "{name}");
        println!("songrafter_grant\t{name}\t{sign}\t{}", sign.max(0));
    }
}

// Whole frames by each engine, for the steps that the library takes; and a grant of no step.
fn whole(folder: &Path, name: &'static str, lengths: &RangeInclusive<usize>) {
    let mut engines = Engines::of(folder, name);
    for frame in frames(&engines.grammar, FRAMES, lengths, &mut Random::new(1)) {
        let lent = Guarded::new(&frame);
        engines.reopen();
        let steps = engines.library(&lent);
        counted_straightforward(&mut engines, &frame);
        counted_careful(&mut engines, &frame);
        for (function, engine) in ["songrafter_grant", "counted_straightforward", "counted_careful"].iter().zip(ENGINES) {
            println!("{function}\t{name}, a step: {engine}\t1\t{steps}");
        }
        engines.reopen();
        engines.granted(&lent, 0);
        println!("songrafter_grant\ta grant of no step\t1\t1");
    }
}
