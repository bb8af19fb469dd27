// The library's calls (include/songrafter.h).
use crate::guarded::Guarded;

pub const TABLE_WORDS: usize = 16384;
pub const RUN_BYTES: usize = 2596;
pub const ANSWER_WORDS: usize = 5;
pub const FIELD_WORDS: usize = 4;

extern "C" {
    fn songrafter_admit(text: *const u8, text_len: usize, table: *mut u32, table_len: usize, answer: *mut u64, answer_len: usize) -> usize;
    fn songrafter_open(
        table: *const u32, table_len: usize, frame: *const u8, frame_len: usize, reading: *const u32, reading_len: usize, run: *mut u8, run_len: usize,
    ) -> usize;
    fn songrafter_grant(
        table: *const u32, table_len: usize, frame: *const u8, frame_len: usize, reading: *mut u32, reading_len: usize, run: *mut u8, run_len: usize, steps: u64,
        taken: *mut u64, taken_len: usize,
    ) -> usize;
    fn songrafter_field(
        table: *const u32, table_len: usize, frame: *const u8, frame_len: usize, reading: *const u32, reading_len: usize, k: usize, field: *mut u64, field_len: usize,
    ) -> usize;
    fn songrafter_verdict(run: *const u8, run_len: usize) -> u32;
    fn songrafter_steps(run: *const u8, run_len: usize) -> u64;
    fn songrafter_fields(run: *const u8, run_len: usize) -> u64;
    fn songrafter_position(run: *const u8, run_len: usize) -> u64;
    fn songrafter_value(run: *const u8, run_len: usize, k: usize) -> i64;
}

#[derive(Debug, Clone, Copy, PartialEq, Eq)]
pub struct Answer {
    pub number: usize,
    pub words: [u64; ANSWER_WORDS],
}

pub fn admit_into(text: &Guarded<u8>, table: &mut Guarded<u32>, words: &mut Guarded<u64>) -> usize {
    unsafe { songrafter_admit(text.pointer(), text.length, table.pointer_mut(), table.length, words.pointer_mut(), words.length) }
}

pub fn admit(text: &Guarded<u8>, table: &mut Guarded<u32>) -> Answer {
    let mut words = Guarded::new(&[u64::MAX; ANSWER_WORDS]);
    let number = admit_into(text, table, &mut words);
    Answer { number, words: words.values().try_into().expect("five words") }
}

pub fn open(table: &Guarded<u32>, frame: &Guarded<u8>, reading: &Guarded<u32>, run: &mut Guarded<u8>) -> usize {
    unsafe {
        songrafter_open(table.pointer(), table.length, frame.pointer(), frame.length, reading.pointer(), reading.length, run.pointer_mut(), run.length)
    }
}

pub fn grant_into(
    table: &Guarded<u32>, frame: &Guarded<u8>, reading: &mut Guarded<u32>, run: &mut Guarded<u8>, steps: u64, taken: &mut Guarded<u64>,
) -> usize {
    unsafe {
        songrafter_grant(
            table.pointer(), table.length, frame.pointer(), frame.length, reading.pointer_mut(), reading.length, run.pointer_mut(), run.length, steps,
            taken.pointer_mut(), taken.length,
        )
    }
}

pub fn grant(table: &Guarded<u32>, frame: &Guarded<u8>, reading: &mut Guarded<u32>, run: &mut Guarded<u8>, steps: u64) -> (usize, u64) {
    let mut taken = [u64::MAX];
    let number = unsafe {
        songrafter_grant(
            table.pointer(), table.length, frame.pointer(), frame.length, reading.pointer_mut(), reading.length, run.pointer_mut(), run.length, steps,
            taken.as_mut_ptr(), 1,
        )
    };
    (number, taken[0])
}

pub fn field_into(table: &Guarded<u32>, frame: &Guarded<u8>, reading: &Guarded<u32>, k: usize, field: &mut Guarded<u64>) -> usize {
    unsafe {
        songrafter_field(table.pointer(), table.length, frame.pointer(), frame.length, reading.pointer(), reading.length, k, field.pointer_mut(), field.length)
    }
}

// The number, and what stands in `field` afterwards: 9 where nothing was written.
pub fn field(table: &Guarded<u32>, frame: &Guarded<u8>, reading: &Guarded<u32>, k: usize) -> (usize, [u64; FIELD_WORDS]) {
    let mut field = Guarded::new(&[9; FIELD_WORDS]);
    let number = field_into(table, frame, reading, k, &mut field);
    (number, field.values().try_into().expect("four words"))
}

pub fn verdict(run: &Guarded<u8>) -> u32 {
    unsafe { songrafter_verdict(run.pointer(), run.length) }
}

pub fn steps(run: &Guarded<u8>) -> u64 {
    unsafe { songrafter_steps(run.pointer(), run.length) }
}

pub fn fields(run: &Guarded<u8>) -> usize {
    unsafe { songrafter_fields(run.pointer(), run.length) as usize }
}

pub fn position(run: &Guarded<u8>) -> usize {
    unsafe { songrafter_position(run.pointer(), run.length) as usize }
}

pub fn value(run: &Guarded<u8>, k: usize) -> i64 {
    unsafe { songrafter_value(run.pointer(), run.length, k) }
}
