//! A library under measurement, and Oddrafisk as one.

use std::hint::black_box;

use crate::cases::{Asked, Case};
use crate::oddrafisk::{self, ENTRIES, RECORDS};
use crate::value::Batch;

#[derive(Clone, Copy, Debug, PartialEq)]
pub enum Operation {
    Check,
    Read,
    Write,
    Canonical,
}

impl Operation {
    pub fn name(self) -> &'static str {
        match self {
            Self::Check => "check",
            Self::Read => "read",
            Self::Write => "write",
            Self::Canonical => "is_canonical",
        }
    }
}

/// What an operation gives, by which two libraries are compared.
#[derive(Debug, PartialEq)]
pub enum Outcome {
    Read(Option<Batch>),
    Written(Option<Vec<u8>>),
    Verdict(bool),
}

/// Does the operation as many times as it is told.
pub type Runner<'a> = Box<dyn FnMut(u64) + 'a>;

pub trait Side {
    fn name(&self) -> &'static str;

    /// None where the library has no such operation or cannot be given this case.
    fn runner<'a>(&self, operation: Operation, case: &'a Case) -> Option<Runner<'a>>;

    /// Done once, with its outcome.
    fn outcome(&self, operation: Operation, case: &Case) -> Option<Outcome>;

    /// The checksum that it uses, of bytes lent.
    fn checksum<'a>(&self, bytes: &'a [u8]) -> Runner<'a>;
}

/// Repeats a step, whose result is taken for used.
pub fn repeat<'a, T>(mut step: impl FnMut() -> T + 'a) -> Runner<'a> {
    Box::new(move |times| {
        for _ in 0..times {
            black_box(step());
        }
    })
}

/// Oddrafisk in a mode. No case has a marker, so that both modes give the same.
pub struct Oddrafisk {
    pub mode: u32,
}

impl Oddrafisk {
    /// In the mode that the environment names: ODDRAFISK_BENCH_CONTROL=bare, or keyed, the default.
    pub fn of_environment() -> Self {
        const VARIABLE: &str = "ODDRAFISK_BENCH_CONTROL";
        let mode = match std::env::var(VARIABLE).as_deref() {
            Ok("bare") => oddrafisk::BARE,
            Ok("keyed") | Err(std::env::VarError::NotPresent) => oddrafisk::KEYED,
            word => panic!("{VARIABLE} is bare or keyed, and not {word:?}"),
        };
        Self { mode }
    }
}

impl Side for Oddrafisk {
    fn name(&self) -> &'static str {
        "oddrafisk"
    }

    fn runner<'a>(&self, operation: Operation, case: &'a Case) -> Option<Runner<'a>> {
        let (mode, bytes) = (self.mode, &case.bytes[..]);
        Some(match operation {
            Operation::Check => {
                let mut answer = [0; ENTRIES];
                repeat(move || oddrafisk::check(mode, black_box(bytes), &mut answer))
            }
            Operation::Read => {
                let mut tables = case.tables();
                let mut answer = [0; ENTRIES];
                repeat(move || oddrafisk::read(mode, black_box(bytes), &mut tables, &mut answer))
            }
            Operation::Write => {
                let (asked, _) = case.asked.as_ref()?;
                let mut output = vec![0; bytes.len()];
                repeat(move || write(mode, black_box(asked), &mut output))
            }
            Operation::Canonical => repeat(move || oddrafisk::is_canonical(mode, black_box(bytes))),
        })
    }

    fn outcome(&self, operation: Operation, case: &Case) -> Option<Outcome> {
        match operation {
            Operation::Check => None,
            Operation::Read => Some(Outcome::Read(read(self.mode, case))),
            Operation::Write => {
                let (asked, expected) = case.asked.as_ref()?;
                let mut output = vec![0; case.bytes.len()];
                let number = write(self.mode, asked, &mut output);
                assert_eq!(number, *expected, "write, {}", case.name);
                Some(Outcome::Written((number == oddrafisk::ACCEPTED).then_some(output)))
            }
            Operation::Canonical => {
                Some(Outcome::Verdict(oddrafisk::is_canonical(self.mode, &case.bytes)))
            }
        }
    }

    fn checksum<'a>(&self, bytes: &'a [u8]) -> Runner<'a> {
        repeat(move || oddrafisk::crc32c(black_box(bytes)))
    }
}

fn read(mode: u32, case: &Case) -> Option<Batch> {
    let mut tables = case.tables();
    let mut answer = [0; ENTRIES];
    let number = oddrafisk::read(mode, &case.bytes, &mut tables, &mut answer);
    assert_eq!(number, case.reads_as, "read, {}", case.name);
    let count = answer[RECORDS] as usize;
    (number == oddrafisk::ACCEPTED).then(|| Batch::from_rows(&answer, count, &tables, &case.bytes))
}

fn write(mode: u32, asked: &Asked, output: &mut [u8]) -> u32 {
    let Asked { entries, codec, tables, source } = asked;
    oddrafisk::write(mode, entries, *codec, tables, source, output, &mut [0])
}
