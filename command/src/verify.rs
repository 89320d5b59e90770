//! `oddrafisk verify`: whether a log is all right, and else its first fault.

use std::fmt;
use std::io::{self, Write};
use std::ops::Range;

use oddrafisk::{ReadError, Refusal};

use crate::arguments::Work;
use crate::console::{Console, Status};
use crate::hex::Excerpt;
use crate::log::{self, Log, Trouble};
use crate::verbs::{Operands, Verb};

pub const VERB: Verb = Verb {
    name: "verify",
    about: "whether a log is all right, and else its first fault",
    help: "\
A file that is all right has one line, with how many batches, records and bytes it has. Of any other
the first fault is shown: its number, the place of its batch and what it is in words; what stands
before it; of a batch that is there in full the checksum that it has and the one that its bytes
have; and the bytes around it, with those at fault marked, or the batch's first eight where the
number does not tell. Nothing after the first fault is looked at.

Base offset and leader epoch lie outside a batch's checksum, and whether offsets run on from batch
to batch is not looked at: `oddrafisk list` shows them.

examples:
  oddrafisk verify *.log
  oddrafisk verify -- -odd-name.log
  ssh broker cat 00000000000000000000.log | oddrafisk verify -
",
    operands: Operands::Files,
    options: &[],
    streams: false,
    run,
};

/// The fixed part of a batch, which ends with the count of records.
const FIXED: usize = 61;
const CHECKSUM: Range<usize> = 17..21;
/// A bare marker, after the fixed part.
const BARE_MARKER: Range<u64> = 61..65;
/// So many bytes from the place on are shown: up to a bare marker's end, the rest of that line and
/// a line more.
const SHOWN: usize = FIXED + 4 + 31;
/// The attributes' second byte has the bit that says whether a batch is a marker.
const ATTRIBUTES_LOW: usize = 22;
const CONTROL: u8 = 0x20;
const LENGTH: Range<u64> = 8..12;
/// What is marked where only the batch is known: its base offset.
const FIRST_BYTES: Range<u64> = 0..8;

/// What has been found to be right.
#[derive(Default)]
struct Sums {
    batches: u64,
    records: u64,
}

impl fmt::Display for Sums {
    fn fmt(&self, f: &mut fmt::Formatter<'_>) -> fmt::Result {
        let Sums { batches, records } = *self;
        let [es, s] = [
            if batches == 1 { "" } else { "es" },
            if records == 1 { "" } else { "s" },
        ];
        write!(f, "{batches} batch{es}, {records} record{s}")
    }
}

fn run(work: &Work, console: &mut Console) -> io::Result<()> {
    log::each(work, console, verify)
}

fn verify(log: &mut Log, console: &mut Console) -> Result<(), Trouble> {
    let mut sums = Sums::default();
    let mode = log.mode;
    let ended = log.walk(|_, bytes| {
        let outline = oddrafisk::check_in(mode, bytes)?;
        sums.batches += 1;
        sums.records += outline.records as u64;
        Ok(outline.bytes)
    });
    match ended {
        Ok(()) => all_right(log, &sums, console)?,
        Err(Trouble::Stopped(reason)) => {
            console.worsen(log::status_of(reason));
            fault(log, reason, &sums, console)?;
        }
        Err(trouble) => return Err(trouble),
    }
    Ok(())
}

fn all_right(log: &Log, sums: &Sums, console: &mut Console) -> io::Result<()> {
    let (name, bytes) = (log.name, log.place());
    writeln!(console, "{name}: all right, {sums}, {bytes} bytes")
}

fn fault(log: &mut Log, reason: ReadError, sums: &Sums, console: &mut Console) -> io::Result<()> {
    let (place, number, words) = (log.place(), reason.number(), log.words(reason));
    writeln!(console, "{}: stop {number} at {place}: {words}", log.name)?;
    writeln!(console, "  {sums} before it")?;
    if log::status_of(reason) == Status::Torn {
        writeln!(
            console,
            "  the file ends inside the batch, or the length of the batch is damaged"
        )?;
    }
    let marked = at_fault(reason);
    if let Some(batch) = log.batch() {
        write_checksums(batch, console)?;
        if marked.is_none() {
            let part = part_of(batch);
            writeln!(
                console,
                "  the reader names the batch and not the byte: the fault is in its {part}"
            )?;
        }
    }
    let marked = marked.unwrap_or(FIRST_BYTES);
    let (first, bytes) = log.around(SHOWN);
    let excerpt = Excerpt {
        first,
        bytes,
        marked: place + marked.start..place + marked.end,
        colour: console.colour,
    };
    excerpt.write(place, console)
}

fn write_checksums(batch: &[u8], console: &mut Console) -> io::Result<()> {
    let stored = batch[CHECKSUM]
        .iter()
        .fold(0, |sum, &byte| sum << 8 | u32::from(byte));
    let computed = oddrafisk::crc32c(&batch[CHECKSUM.end..]);
    writeln!(
        console,
        "  checksum stored 0x{stored:08X}, computed 0x{computed:08X}"
    )
}

/// The bytes of a batch that are at fault, where the number tells.
fn at_fault(reason: ReadError) -> Option<Range<u64>> {
    let refusal = match reason {
        ReadError::Refused(refusal) => refusal,
        // The length is there, and names more bytes than there are.
        ReadError::MoreBytes { needed } => return (12 < needed).then_some(LENGTH),
    };
    match refusal {
        Refusal::LengthTooSmall => Some(LENGTH),
        Refusal::UnknownMagic => Some(16..17),
        Refusal::ChecksumDiffers => Some(17..21),
        Refusal::UnknownCodec | Refusal::Compressed => Some(21..23),
        Refusal::WrongCount => Some(57..61),
        Refusal::BareMarker => Some(BARE_MARKER),
        _ => None,
    }
}

/// The part of a batch that is read after its checksum has been found right.
fn part_of(batch: &[u8]) -> &'static str {
    if batch.len() < FIXED {
        "fixed fields"
    } else if batch[ATTRIBUTES_LOW] & CONTROL != 0 {
        "marker"
    } else {
        "records"
    }
}
