//! Oddrafisk by its C interface, bindings/c/oddrafisk.h, with all that it is lent in guarded memory.

use oddrafisk_sys as sys;

use crate::lent::{about_to_read, Guarded};
use crate::model::writing::Asked;
use crate::model::{Entries, Mode};

/// Both tables, a row after the other.
#[derive(Clone, Debug, Default, PartialEq)]
pub struct Tables {
    pub records: Vec<i64>,
    pub headers: Vec<i64>,
}

/// The library, with a piece of memory for each thing that a call is lent.
pub struct Library {
    lent: Lent,
    output: Guarded,
    answer: Guarded,
    modes: Modes,
}

/// The numbers by which the mode is passed. Every number but 1 is the bare mode: each of some is used
/// in turn.
#[derive(Default)]
struct Modes {
    used: usize,
}

impl Modes {
    const BARE: [u32; 7] = [sys::BARE, sys::BARE, 2, 3, 0x101, 0x8000_0001, u32::MAX];

    fn number(&mut self, mode: Mode) -> u32 {
        match mode {
            Mode::Keyed => sys::KEYED,
            Mode::Bare => {
                self.used = (self.used + 1) % Self::BARE.len();
                Self::BARE[self.used]
            }
        }
    }
}

struct Lent {
    bytes: Guarded,
    batch: Guarded,
    records: Guarded,
    headers: Guarded,
}

impl Lent {
    /// What is asked, in memory that can be read alone.
    fn read_only(&mut self, asked: &Asked) -> Asked<'_> {
        about_to_read(asked.source);
        Asked {
            mode: asked.mode,
            batch: self.batch.read_only(asked.batch).try_into().expect("sixteen are lent"),
            codec: asked.codec,
            records: self.records.read_only(asked.records),
            headers: self.headers.read_only(asked.headers),
            source: self.bytes.read_only(asked.source),
        }
    }
}

/// What an answer holds before a call: what is not named has to be put there.
const UNANSWERED: i64 = 0x5A5A_5A5A_5A5A_5A5A;

impl Library {
    pub fn new() -> Self {
        let [bytes, batch, records, headers, output, answer] = [(); 6].map(|()| Guarded::new());
        let lent = Lent { bytes, batch, records, headers };
        Self { lent, output, answer, modes: Modes::default() }
    }

    pub fn check(&mut self, mode: Mode, bytes: &[u8]) -> (u32, Entries) {
        about_to_read(bytes);
        let mode = self.modes.number(mode);
        let bytes = self.lent.bytes.read_only(bytes);
        let answer = sixteen(self.answer.writable(&[UNANSWERED; 16]));
        (sys::check(mode, bytes, answer), *answer)
    }

    /// The tables are lent as they are, and come back as the library leaves them.
    pub fn read(&mut self, mode: Mode, bytes: &[u8], tables: &mut Tables) -> (u32, Entries) {
        about_to_read(bytes);
        let mode = self.modes.number(mode);
        let bytes = self.lent.bytes.read_only(bytes);
        let records = self.lent.records.writable(&tables.records);
        let headers = self.lent.headers.writable(&tables.headers);
        let answer = sixteen(self.answer.writable(&[UNANSWERED; 16]));
        let number = sys::read(mode, bytes, records, headers, answer);
        tables.records.copy_from_slice(records);
        tables.headers.copy_from_slice(headers);
        (number, *answer)
    }

    pub fn measure(&mut self, asked: &Asked) -> (u32, i64) {
        let mode = self.modes.number(asked.mode);
        let Asked { batch, codec, records, headers, source, .. } = self.lent.read_only(asked);
        let answer = one(self.answer.writable(&[UNANSWERED]));
        (sys::measure(mode, batch, codec, records, headers, source, answer), answer[0])
    }

    /// The output is lent as it is, and comes back as the library leaves it.
    pub fn write(&mut self, asked: &Asked, output: &mut [u8]) -> (u32, i64) {
        let mode = self.modes.number(asked.mode);
        let Asked { batch, codec, records, headers, source, .. } = self.lent.read_only(asked);
        let lent = self.output.writable(output);
        let answer = one(self.answer.writable(&[UNANSWERED]));
        let number = sys::write(mode, batch, codec, records, headers, source, lent, answer);
        output.copy_from_slice(lent);
        (number, answer[0])
    }

    /// The output is lent as it is, and comes back as the library leaves it.
    pub fn convert(&mut self, bytes: &[u8], output: &mut [u8]) -> (u32, [i64; 2]) {
        about_to_read(bytes);
        let bytes = self.lent.bytes.read_only(bytes);
        let lent = self.output.writable(output);
        let answer = self.answer.writable(&[UNANSWERED; 2]);
        let answer: &mut [i64; 2] = answer.try_into().expect("two are lent");
        let number = sys::convert(bytes, lent, answer);
        output.copy_from_slice(lent);
        (number, *answer)
    }

    pub fn is_canonical(&mut self, mode: Mode, bytes: &[u8]) -> u32 {
        about_to_read(bytes);
        sys::is_canonical(self.modes.number(mode), self.lent.bytes.read_only(bytes))
    }

    pub fn crc32c(&mut self, bytes: &[u8]) -> u32 {
        about_to_read(bytes);
        sys::crc32c(self.lent.bytes.read_only(bytes))
    }

    /// The time of a record, or none.
    pub fn record_time(&mut self, [kind, first, greatest, delta]: [i64; 4]) -> Option<i64> {
        let answer = one(self.answer.writable(&[UNANSWERED]));
        let told = sys::record_time(kind, first, greatest, delta, answer);
        assert!(told < 2 && (told == 1 || answer[0] == 0), "a time that is none is told");
        (told == 1).then_some(answer[0])
    }
}

fn sixteen(lent: &mut [i64]) -> &mut Entries {
    lent.try_into().expect("sixteen are lent")
}

fn one(lent: &mut [i64]) -> &mut [i64; 1] {
    lent.try_into().expect("one is lent")
}
