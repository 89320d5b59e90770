//! A sample of inputs and the Rust's answers to them, for a program that has no Rust at hand.

use std::collections::BTreeMap;
use std::fmt::Write;

use crate::inputs;
use crate::model::reading;
use crate::model::{Mode, ACCEPTED, BARE_MARKER, BEYOND_LIMITS, BYTES, MORE_BYTES, STANDING};
use crate::random::Random;
use crate::tally::hex;
use crate::theirs::{self, Accepted, Answer};

/// What the program that replays them can hold.
const MOST_BYTES: usize = 65_536;
const LONGEST_INPUT: usize = 200;
const ACCEPTED_INPUTS: usize = 150;
const REFUSED_INPUTS: usize = 24;

/// Each input after its length in four bytes; and a text with an answer for each.
pub fn sample() -> (Vec<u8>, String) {
    let mut framed = Vec::new();
    let mut answers = String::new();
    for input in chosen() {
        framed.extend((input.len() as u32).to_be_bytes());
        framed.extend(&input);
        match theirs::read(&input) {
            Answer::Accepted(accepted) => put_accepted(&mut answers, &input, &accepted),
            Answer::Refused => answers.push_str("refused\n"),
            Answer::Panicked => panic!("the Rust panics at {}", hex(&input)),
        }
    }
    assert!(framed.len() <= MOST_BYTES, "the sample has {} bytes", framed.len());
    (framed, answers)
}

/// The small batches, and random inputs, so many of each number in the domain, but for the control
/// batches that the Rust accepts (41). The numbers are the model's: they serve to choose, and are in
/// no answer.
fn chosen() -> Vec<Vec<u8>> {
    let mut chosen: Vec<Vec<u8>> = inputs::small().iter().map(|batch| batch.bytes()).collect();
    chosen.retain(|input| number_in_both(input).is_some_and(|number| number != BARE_MARKER));
    let mut wanted: BTreeMap<u32, usize> = [MORE_BYTES]
        .into_iter()
        .chain(STANDING)
        .filter(|number| ![BEYOND_LIMITS, BARE_MARKER].contains(number))
        .map(|number| (number, REFUSED_INPUTS))
        .collect();
    wanted.insert(ACCEPTED, ACCEPTED_INPUTS);
    let mut random = Random::new(1);
    while !wanted.is_empty() {
        let input = inputs::random(&mut random);
        let Some(number) = number_in_both(&input) else { continue };
        if let Some(more) = wanted.get_mut(&number).filter(|_| input.len() <= LONGEST_INPUT) {
            *more -= 1;
            if *more == 0 {
                wanted.remove(&number);
            }
            chosen.push(input);
        }
    }
    chosen
}

/// The number in bare mode, where keyed mode accepts and refuses the same: so that the Rust's answer,
/// which knows no keyed marker, is that of either mode.
fn number_in_both(input: &[u8]) -> Option<u32> {
    let [bare, keyed] = [Mode::Bare, Mode::Keyed].map(|mode| reading::read(mode, input).number);
    ((bare == ACCEPTED) == (keyed == ACCEPTED)).then_some(bare)
}

fn shown(bytes: Option<&[u8]>) -> String {
    bytes.map_or("null".to_string(), |bytes| format!("x{}", hex(bytes)))
}

fn put_accepted(text: &mut String, input: &[u8], accepted: &Accepted) {
    let entries = theirs::entries(&accepted.batch, accepted.consumed);
    let fields = entries[..10].iter().map(i64::to_string).collect::<Vec<_>>().join(" ");
    let mut line =
        |line: std::fmt::Arguments| writeln!(text, "{line}").expect("a string takes all");
    line(format_args!("accepted {} {fields} records", entries[BYTES]));
    for record in theirs::records(&accepted.batch) {
        let [key, value] = [&record.key, &record.value].map(|bytes| shown(bytes.as_deref()));
        line(format_args!(
            "record {} {} {key} {value}",
            record.timestamp_delta, record.offset_delta
        ));
        for header in &record.headers {
            let [key, value] =
                [header.key.as_bytes(), &header.value].map(|bytes| shown(Some(bytes)));
            line(format_args!("header {key} {value}"));
        }
    }
    line(format_args!("written {}", shown(Some(&accepted.written))));
    let canonical = if accepted.is_canonical(input) { "yes" } else { "no" };
    line(format_args!("canonical {canonical}"));
}
