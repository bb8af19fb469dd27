// The library and the two matchers over a grammar, each with a reading of its own. No reading is cleared before a frame.
use crate::calls::{self, RUN_BYTES, TABLE_WORDS};
use crate::guarded::Guarded;
use crate::{careful, straightforward};
use reference::grammar::{admit, Grammar};
use std::path::Path;

pub const READING_WORDS: usize = 16384;
pub const GRAMMARS: [&str; 3] = ["records", "tlv", "mailer"];
pub const ENGINES: [&str; 3] = ["library", "straightforward", "careful"];

pub struct Engines {
    pub grammar: Grammar,
    pub table: Guarded<u32>,
    opened: Vec<u8>,
    pub run: Guarded<u8>,
    straightforward: straightforward::Matcher,
    careful: careful::Matcher,
    readings: [Guarded<u32>; 3],
}

// Whether a frame matches, and the fields recorded.
pub type Outcome = (bool, usize);

impl Engines {
    // Of one of the grammars that the speed is measured with.
    pub fn of(folder: &Path, name: &str) -> Engines {
        Engines::new(&std::fs::read(folder.join(name).with_extension("dogma")).expect("a grammar"))
    }

    pub fn new(text: &[u8]) -> Engines {
        let grammar = admit(text).expect("an admitted grammar");
        let mut table = Guarded::new(&[0; TABLE_WORDS]);
        assert_eq!(calls::admit(&Guarded::new(text), &mut table).number, 0, "the library refuses it");
        let (straightforward, careful) = (straightforward::Matcher::new(&grammar), careful::Matcher::new(&grammar));
        let readings = std::array::from_fn(|_| Guarded::new(&[0; READING_WORDS]));
        let mut engines = Engines { grammar, table, opened: Vec::new(), run: Guarded::new(&[0; RUN_BYTES]), straightforward, careful, readings };
        assert_eq!(calls::open(&engines.table, &Guarded::new(&[]), &engines.readings[0], &mut engines.run), 0);
        engines.opened = engines.run.values().to_vec();
        engines
    }

    // The run as an opening leaves it, which is the same for every frame (`opens` asks).
    pub fn reopen(&mut self) {
        self.run.values_mut().copy_from_slice(&self.opened);
    }

    pub fn opens(&mut self, frame: &Guarded<u8>) -> bool {
        calls::open(&self.table, frame, &self.readings[0], &mut self.run) == 0 && self.run.values() == self.opened
    }

    // A grant of so many steps to the open run; the steps taken.
    pub fn granted(&mut self, frame: &Guarded<u8>, steps: u64) -> u64 {
        let (number, taken) = calls::grant(&self.table, frame, &mut self.readings[0], &mut self.run, steps);
        assert_eq!(number, 0);
        taken
    }

    pub fn library(&mut self, frame: &Guarded<u8>) -> u64 {
        self.granted(frame, u64::MAX)
    }

    pub fn library_outcome(&self) -> Outcome {
        (calls::verdict(&self.run) == 1, calls::fields(&self.run))
    }

    pub fn straightforward(&mut self, frame: &[u8]) -> Outcome {
        self.straightforward.run(frame, self.readings[1].values_mut())
    }

    pub fn careful(&mut self, frame: &[u8]) -> Outcome {
        self.careful.run(frame, self.readings[2].values_mut())
    }

    // The first fields of each reading.
    pub fn recorded(&self, fields: usize) -> [&[u32]; 3] {
        std::array::from_fn(|k| &self.readings[k].values()[..2 * fields])
    }
}
