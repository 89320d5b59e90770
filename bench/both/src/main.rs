//! Oddrafisk and the Rust, measured beside each other.

mod convert;

use std::hint::black_box;

use driver::cases::Case;
use driver::side::{repeat, Oddrafisk, Operation, Outcome, Runner, Side};
use rskafka::protocol::record::RecordBatch;
use rskafka::protocol::traits::{ReadType, WriteType};

struct Rskafka;

impl Side for Rskafka {
    fn name(&self) -> &'static str {
        "rskafka"
    }

    fn runner<'a>(&self, operation: Operation, case: &'a Case) -> Option<Runner<'a>> {
        let bytes = &case.bytes[..];
        Some(match operation {
            Operation::Check => return None,
            Operation::Read => repeat(move || read(black_box(bytes))),
            Operation::Write => {
                let batch = asked(case)?;
                let mut output = Vec::with_capacity(bytes.len());
                repeat(move || write(black_box(&batch), &mut output))
            }
            Operation::Canonical => {
                let mut output = Vec::with_capacity(bytes.len());
                repeat(move || is_canonical(black_box(bytes), &mut output))
            }
        })
    }

    fn outcome(&self, operation: Operation, case: &Case) -> Option<Outcome> {
        let mut output = Vec::new();
        Some(match operation {
            Operation::Check => return None,
            Operation::Read => Outcome::Read(read(&case.bytes).map(|batch| convert::value(&batch))),
            Operation::Write => {
                let accepted = write(&asked(case)?, &mut output);
                Outcome::Written(accepted.then_some(output))
            }
            Operation::Canonical => Outcome::Verdict(is_canonical(&case.bytes, &mut output)),
        })
    }

    fn checksum<'a>(&self, bytes: &'a [u8]) -> Runner<'a> {
        repeat(move || crc32c::crc32c(black_box(bytes)))
    }
}

/// None where the Rust has no value for what the case asks: it is refused for its rows.
fn asked(case: &Case) -> Option<RecordBatch> {
    let (asked, _) = case.asked.as_ref()?;
    asked.has_value().then(|| convert::record_batch(&asked.value(), asked.codec))
}

/// The batch, where the bytes are one and no more.
fn read(mut bytes: &[u8]) -> Option<RecordBatch> {
    let batch = RecordBatch::read(&mut bytes).ok()?;
    bytes.is_empty().then_some(batch)
}

/// The output keeps the room that it has.
fn write(batch: &RecordBatch, output: &mut Vec<u8>) -> bool {
    output.clear();
    batch.write(output).is_ok()
}

fn is_canonical(bytes: &[u8], output: &mut Vec<u8>) -> bool {
    read(bytes).is_some_and(|batch| write(&batch, output) && output == bytes)
}

fn main() {
    driver::run(&[&Oddrafisk::of_environment(), &Rskafka]);
}
