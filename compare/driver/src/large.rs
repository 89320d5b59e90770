//! Batches at the greatest batchLength. Oddrafisk measures them over a source of 1 MiB; the Rust
//! has 2 GiB in its value and as much in each copy of it, so it is asked by hand alone.

use crate::compare::{self, same, Difference};
use crate::model::writing::{self, Asked};
use crate::model::{Entries, Mode, ACCEPTED, RECORDS, RECORD_ROW, TOO_LONG};
use crate::ours::Library;
use crate::random::Random;
use crate::theirs;

const GREATEST: i64 = i32::MAX as i64;
/// What batchLength counts beside records.
const BESIDE_RECORDS: i64 = 49;
/// How many bytes each record has but the last, which has more, and less than twice as many.
const RECORD: i64 = 1 << 19;
/// How many of them are not its value, where that has from 2^13 to 2^20 - 12 bytes and there is
/// nothing else in it.
const BESIDE_VALUE: i64 = 11;
/// By how many bytes the last value is made longer or shorter.
const ABOUT: usize = 4;

struct Large {
    batch: Entries,
    records: Vec<i64>,
    source: Vec<u8>,
}

impl Large {
    fn new(batch_length: i64, random: &mut Random) -> Self {
        let source = random.bytes(2 * RECORD as usize + ABOUT);
        let mut records = Vec::new();
        let mut left = batch_length - BESIDE_RECORDS;
        while left > 0 {
            let record = if left < 2 * RECORD { left } else { RECORD };
            let length = record - BESIDE_VALUE;
            let start = random.below(source.len() - ABOUT - length as usize);
            records.extend([0, 0, 0, -1, start as i64, length, 0, 0]);
            left -= record;
        }
        let mut batch = [0; 16];
        batch[RECORDS] = (records.len() / RECORD_ROW) as i64;
        Self { batch, records, source }
    }

    fn asked(&self) -> Asked<'_> {
        let Self { batch, records, source } = self;
        Asked { mode: Mode::Bare, batch, codec: 0, records, headers: &[], source }
    }
}

/// Measures batches about the greatest. What is to be answered is worked out from how they are
/// made, and the model says the same.
pub fn measure(
    cases: usize,
    library: &mut Library,
    random: &mut Random,
) -> Vec<Result<u32, Difference>> {
    let mut large = Large::new(GREATEST, random);
    let last_length = large.records.len() - 3;
    let length = large.records[last_length];
    let mut measure = |more: i64| {
        large.records[last_length] = length + more;
        let answer = library.measure(&large.asked());
        let expected = if more > 0 { (TOO_LONG, 0) } else { (ACCEPTED, 12 + GREATEST + more) };
        same(answer, expected, "a large batch is measured otherwise")?;
        let keyed = library.measure(&Asked { mode: Mode::Keyed, ..large.asked() });
        same(keyed, expected, "a large batch is measured otherwise in keyed mode")?;
        let modelled = writing::answer(writing::measure(&large.asked()), usize::MAX);
        same(modelled, expected, "the model measures a large batch otherwise")?;
        Ok(answer.0)
    };
    (0..cases).map(|_| measure(random.below(2 * ABOUT + 1) as i64 - ABOUT as i64)).collect()
}

/// Both write the greatest batch, and read it, and refuse one that is a byte longer.
pub fn by_hand(random: &mut Random) -> Result<(), Difference> {
    let library = &mut Library::new();
    let longer = Large::new(GREATEST + 1, random);
    let value = theirs::value(&longer.asked());
    same(theirs::written(&value), None, "the Rust writes more than the greatest")?;
    drop(value);
    let refused = library.measure(&longer.asked());
    same(refused, (TOO_LONG, 0), "more than the greatest is measured")?;
    let greatest = Large::new(GREATEST, random);
    let bytes = theirs::written(&theirs::value(&greatest.asked()));
    let bytes = bytes.ok_or("the Rust refuses the greatest")?;
    compare::request(library, &greatest.asked(), Some(&bytes), bytes.len() + 3, random)?;
    compare::input(library, &bytes, random).map(drop)
}
