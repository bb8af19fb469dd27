// Each call runs within the stack that include/songrafter.h names for it: on a stack of exactly so many bytes, with a page below that nobody may
// touch, so that a call that needs more ends the program. How much of it was written to is told.
use crate::calls::{self, RUN_BYTES, TABLE_WORDS};
use crate::extremes;
use crate::forged;
use crate::guarded::Guarded;
use crate::vectors::grammars;
use reference::random::Random;
use reference::{random_frame, random_grammar};
use std::arch::asm;
use std::ffi::c_void;
use std::path::Path;

const PAGE: usize = 4096;
const FRESH: u8 = 0xa5; // what a stack holds before a call
const HEADER: &str = include_str!("../../include/songrafter.h");
const RANDOM_TEXTS: u64 = 1000;
const FORGED: u64 = 1000;

extern "C" {
    fn mmap(address: *mut c_void, length: usize, protection: i32, flags: i32, file: i32, offset: i64) -> *mut c_void;
    fn mprotect(address: *mut c_void, length: usize, protection: i32) -> i32;
}

// A stack for one kind of call, and the most that was used of it.
struct Stack {
    name: &'static str,
    base: *mut u8,
    bytes: usize,
    used: usize,
}

extern "C" fn enter(work: *mut c_void) {
    let work = unsafe { &mut *work.cast::<&mut dyn FnMut()>() };
    work();
}

impl Stack {
    fn new(name: &'static str) -> Stack {
        let bytes = constant(name);
        assert_eq!(bytes % PAGE, 0, "{name} is a number of pages");
        unsafe {
            let base = mmap(std::ptr::null_mut(), PAGE + bytes, 3, 0x22, -1, 0);
            assert!(base as isize != -1, "no memory");
            assert_eq!(mprotect(base, PAGE, 0), 0);
            Stack { name, base: base.cast::<u8>().add(PAGE), bytes, used: 0 }
        }
    }

    fn run(&mut self, mut work: impl FnMut()) {
        let mut work: &mut dyn FnMut() = &mut work;
        let argument: *mut c_void = (&raw mut work).cast();
        unsafe {
            std::ptr::write_bytes(self.base, FRESH, self.bytes);
            let top = self.base.add(self.bytes);
            asm!("xchg rsp, r12", "call {enter}", "mov rsp, r12", enter = in(reg) enter, inout("r12") top => _, in("rdi") argument, clobber_abi("C"));
            let left = std::slice::from_raw_parts(self.base, self.bytes).iter().take_while(|&&byte| byte == FRESH).count();
            self.used = self.used.max(self.bytes - left);
        }
    }
}

// A constant of the header.
fn constant(name: &str) -> usize {
    let line = HEADER.lines().find(|line| line.split_whitespace().nth(1) == Some(name)).unwrap_or_else(|| panic!("no {name}"));
    line.split_whitespace().nth(2).and_then(|word| word.trim_end_matches('u').parse().ok()).expect("a number")
}

pub fn report(folder: &Path) {
    let mut stacks = ["SONGRAFTER_STACK_ADMIT", "SONGRAFTER_STACK_OPEN", "SONGRAFTER_STACK_GRANT", "SONGRAFTER_STACK_ACCESS"].map(Stack::new);
    let texts = [vectors(folder), deep(), large(), extremes::texts(), random()].concat();
    for (seed, text) in texts.iter().enumerate() {
        calls_on(text, &mut Random::new(seed as u64), &mut stacks);
    }
    for seed in 0..FORGED {
        forged_calls(&mut Random::new(seed), &mut stacks);
    }
    for stack in &stacks {
        println!("library: {} is {}, and {} of it were used by the calls of {} texts and {FORGED} forged runs", stack.name, stack.bytes, stack.used, texts.len());
    }
}

// An opening on a damaged table, and a grant to a damaged run.
fn forged_calls(random: &mut Random, [_, open, grant, access]: &mut [Stack; 4]) {
    let (table, frame) = forged::tables(random);
    let mut reading = Guarded::new(&[0; 16384]);
    let mut run = Guarded::new(&[0; RUN_BYTES]);
    let mut opened = 0;
    open.run(|| opened = calls::open(&table, &frame, &reading, &mut run));
    forged::forge(&mut run, opened, random);
    grant.run(|| _ = calls::grant(&table, &frame, &mut reading, &mut run, 3000));
    access.run(|| _ = (calls::verdict(&run), calls::value(&run, 63), calls::field_into(&table, &frame, &reading, 0, &mut Guarded::null())));
}

// The calls of a kiosk's life; where the text is refused, over a table of 0.
fn calls_on(text: &[u8], random: &mut Random, [admit, open, grant, access]: &mut [Stack; 4]) {
    let lent = Guarded::new(text);
    let mut table = Guarded::new(&[0; TABLE_WORDS]);
    let mut answer = Guarded::new(&[0; calls::ANSWER_WORDS]);
    admit.run(|| _ = calls::admit_into(&lent, &mut table, &mut answer));
    let frames = match reference::grammar::admit(text) {
        Ok(grammar) => vec![random_frame::frame(&grammar, random), random_frame::derived(&grammar, random)],
        Err(_) => vec![vec![1; 3]],
    };
    for frame in frames {
        let frame = Guarded::new(&frame[..frame.len().min(1024)]);
        let mut reading = Guarded::new(&[0; 16384]);
        let mut run = Guarded::new(&[0; RUN_BYTES]);
        open.run(|| _ = calls::open(&table, &frame, &reading, &mut run));
        grant.run(|| _ = calls::grant(&table, &frame, &mut reading, &mut run, u64::MAX));
        access.run(|| _ = (calls::verdict(&run), calls::steps(&run), calls::fields(&run), calls::position(&run), calls::value(&run, 63)));
        access.run(|| _ = calls::field_into(&table, &frame, &reading, 0, &mut Guarded::null()));
    }
}

fn vectors(folder: &Path) -> Vec<Vec<u8>> {
    let paths = ["sheet", "base", "req06/hand", "req10/hand"].iter().flat_map(|part| grammars(&folder.join(part)));
    paths.map(|path| std::fs::read(path).expect("a text")).collect()
}

fn random() -> Vec<Vec<u8>> {
    (0..RANDOM_TEXTS).map(|seed| random_grammar::text(&mut Random::new(seed))).collect()
}

// Groups, switches and conditions as deep as they go: the readers call each other in a cycle.
fn deep() -> Vec<Vec<u8>> {
    let outer: [(&str, &str); 3] = [("(", ")"), ("[1=1:", ";]"), ("[n=1|n=2: 'b'; :", ";]")];
    let inner = ["'x'", "uint(8,1)", "uint(8, 1!(2|(3)))", "[((1=1)): 'x';]", "[n+1*2-3 = -n*n: 'x';]", "'x'{n*n-1~n*n+2}"];
    let mut texts = Vec::new();
    for (open, close) in outer {
        for inside in inner {
            for depth in 10..=16 {
                texts.push(format!("dogma_v1 utf-8\n\na = uint(8, var(n, ~)) & {}{inside}{};", open.repeat(depth), close.repeat(depth)).into_bytes());
            }
        }
    }
    texts
}

// Many constructs, members, terms and rules.
fn large() -> Vec<Vec<u8>> {
    let fields = (0..42).map(|i| format!("uint(8, {i}|{i}+1~{i}*2!7)&(uint(8,n+1)&uint(4,1)&uint(4,2)){{n}}")).collect::<Vec<_>>().join("&");
    let chain = (1..63).map(|i| format!("r{i} = r{} & r{};", i + 1, i + 1)).collect::<String>();
    let bodies = [
        format!("a = uint(8, var(n, ~)) & {fields};"),
        format!("a = {};", (0..255).map(|i| format!("uint(8,{i})")).collect::<Vec<_>>().join("|")),
        format!("a = {};", ["'x'"; 255].join("&")),
        format!("a = uint(32, {});", (0..512).map(|i| format!("{}", i * 3)).collect::<Vec<_>>().join("|")),
        format!("a = uint(32, {});", (0..127).map(|i| format!("{0}~{1}!{0}~{1}|", i * 33554432u64, i * 33554432u64 + 99)).collect::<String>() + "7"),
        format!("a = sint(64, {});", (1..342).map(|i| format!("-{}", i * 13510798882111488u64)).collect::<Vec<_>>().join("|")),
        format!("r0 = r1; {chain} r63 = uint(1, ~);"),
    ];
    bodies.iter().map(|body| format!("dogma_v1 utf-8\n\n{body}").into_bytes()).collect()
}
