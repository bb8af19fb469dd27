// A null pointer with length 0 is an empty array, in every place of every call.
use crate::calls::{self, RUN_BYTES, TABLE_WORDS};
use crate::compare::same;
use crate::guarded::Guarded;

pub fn report() {
    if let Err(why) = check() {
        panic!("null pointers: {why}");
    }
    println!("library: null pointers with length 0 are empty arrays");
}

fn check() -> Result<(), String> {
    let text = Guarded::new(b"dogma_v1 utf-8\n\na = eod;");
    let (no_bytes, no_words, mut no_answer) = (Guarded::null(), Guarded::null(), Guarded::null());
    let mut table = Guarded::new(&[0; TABLE_WORDS]);
    let mut run = Guarded::new(&[0; RUN_BYTES]);
    same("no text", calls::admit_into(&no_bytes, &mut table, &mut no_answer), 2)?;
    same("no table", calls::admit_into(&text, &mut Guarded::null(), &mut no_answer), 1)?;
    same("no answer", calls::admit_into(&text, &mut table, &mut no_answer), 0)?;
    same("no table to open", calls::open(&no_words, &no_bytes, &no_words, &mut run), 23)?;
    same("no room for a run", calls::open(&table, &no_bytes, &no_words, &mut Guarded::null()), 24)?;
    same("no frame and no reading", calls::open(&table, &no_bytes, &no_words, &mut run), 0)?;
    same("no table to grant on", calls::grant_into(&no_words, &no_bytes, &mut Guarded::null(), &mut run, 9, &mut no_answer), 24)?;
    same("no run", calls::grant_into(&table, &no_bytes, &mut Guarded::null(), &mut Guarded::null(), 9, &mut no_answer), 24)?;
    same("no frame, reading or count", calls::grant_into(&table, &no_bytes, &mut Guarded::null(), &mut run, 9, &mut no_answer), 0)?;
    same("no reading", calls::field_into(&table, &no_bytes, &no_words, 0, &mut no_answer), 22)?;
    same("no table of a field", calls::field_into(&no_words, &no_bytes, &Guarded::new(&[0, 0]), 0, &mut no_answer), 23)?;
    same("no frame", calls::field_into(&table, &no_bytes, &Guarded::new(&[0, 0]), 0, &mut no_answer), 23)?;
    same("its verdict", calls::verdict(&run), 1)?;
    same("a closed run", (calls::verdict(&no_bytes), calls::steps(&no_bytes), calls::fields(&no_bytes), calls::position(&no_bytes), calls::value(&no_bytes, 0)), (3, 0, 0, 0, 0))
}
