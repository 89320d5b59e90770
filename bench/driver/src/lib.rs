//! Measures libraries of record batches beside each other. What is printed is tab-separated: the part of the
//! measurement, operation, case, bytes, side, unit, the median of the rounds, and the quartiles below and above it.

pub mod cases;
pub mod oddrafisk;
pub mod side;
mod sliced;
mod timing;
mod users;
pub mod value;

use std::hint::black_box;
use std::path::Path;
use std::time::Duration;

use cases::{CHECKED, MAKERS};
use side::{repeat, Operation, Runner, Side};
use timing::{in_turns, Plan, Spread};
use users::Pair;

const COMPARED: [Operation; 3] = [Operation::Read, Operation::Write, Operation::Canonical];
const GROWING: [Operation; 4] =
    [Operation::Check, Operation::Read, Operation::Write, Operation::Canonical];

const USAGE: &str = "\
agree                                     that the sides give the same, case by case
time MICROSECONDS ROUNDS                  each operation of each case; a turn lasts MICROSECONDS
checksum MICROSECONDS ROUNDS              the checksums alone
growth MICROSECONDS ROUNDS LARGEST        the first side, from 1 KiB to LARGEST bytes
users ROUNDS PROGRAM FOLDER               the safe crate, the conversion, and PROGRAM on files that are put into FOLDER
cells                                     what `repeat` can be told, with the case's name and bytes
repeat SIDE OPERATION CASE TIMES          one operation of one case by one side, and nothing else";

/// Does what the command line says with these sides, of which Oddrafisk is the first.
pub fn run(sides: &[&dyn Side]) {
    let words: Vec<String> = std::env::args().skip(1).collect();
    let words: Vec<&str> = words.iter().map(String::as_str).collect();
    match words[..] {
        ["agree"] => agree(sides),
        ["time", turn, rounds] => time(sides, plan(turn, rounds)),
        ["checksum", turn, rounds] => checksum(sides, plan(turn, rounds)),
        ["growth", turn, rounds, largest] => growth(sides[0], plan(turn, rounds), number(largest)),
        ["users", rounds, program, folder] => users(number(rounds), program, Path::new(folder)),
        ["cells"] => cells(sides),
        ["repeat", side, operation, case, times] => {
            again(sides, side, operation, number(case), number(times))
        }
        _ => {
            eprintln!("{USAGE}");
            std::process::exit(2);
        }
    }
}

fn number(word: &str) -> usize {
    word.parse().unwrap_or_else(|_| panic!("not a number: {word}"))
}

fn plan(turn: &str, rounds: &str) -> Plan {
    Plan { turn: Duration::from_micros(number(turn) as u64), rounds: number(rounds) }
}

/// Each side's outcomes are compared with what the case was made from; where one differs, the program fails.
fn agree(sides: &[&dyn Side]) {
    let (mut compared, mut differing) = (0, 0);
    for case in MAKERS.map(|make| make()) {
        for operation in COMPARED {
            for side in sides {
                let Some(outcome) = side.outcome(operation, &case) else { continue };
                compared += 1;
                if outcome != case.expected(operation) {
                    eprintln!("{} of {}: {} differs", operation.name(), case.name, side.name());
                    differing += 1;
                }
            }
        }
    }
    if differing > 0 {
        eprintln!("{differing} of {compared} outcomes differ");
        std::process::exit(1);
    }
    let names: Vec<_> = sides.iter().map(|side| side.name()).collect();
    println!("{compared} outcomes of {} are as expected", names.join(" and "));
}

fn time(sides: &[&dyn Side], plan: Plan) {
    for case in MAKERS.map(|make| make()) {
        for operation in COMPARED {
            let runners = sides
                .iter()
                .filter_map(|side| Some((side.name(), side.runner(operation, &case)?)))
                .collect();
            print_times("time", operation.name(), case.name, case.bytes.len(), runners, plan);
        }
    }
}

/// Over the bytes that a batch's checksum covers.
fn checksum(sides: &[&dyn Side], plan: Plan) {
    let (by_8, by_16) = (sliced::by_8(), sliced::by_16());
    for case in MAKERS.map(|make| make()).iter().filter(|case| case.is_accepted()) {
        let bytes = &case.bytes[CHECKED..];
        let crc = oddrafisk::crc32c(bytes);
        assert_eq!([by_8.crc32c(bytes), by_16.crc32c(bytes)], [crc, crc], "{}", case.name);
        let mut runners: Vec<(_, Runner)> = vec![
            ("slicing by 8", repeat(move || by_8.crc32c(black_box(bytes)))),
            ("slicing by 16", repeat(move || by_16.crc32c(black_box(bytes)))),
        ];
        runners.extend(sides.iter().map(|side| (side.name(), side.checksum(bytes))));
        print_times("checksum", "checksum", case.name, bytes.len(), runners, plan);
    }
}

/// From 1 KiB, each four times the one before; beside a plain copy, which shows what memory alone does.
fn growth(side: &dyn Side, plan: Plan, largest: usize) {
    let sizes = std::iter::successors(Some(1024), |size| Some(size * 4));
    for size in sizes.take_while(|size| *size <= largest) {
        for case in [cases::many_small(size), cases::one_large(size)] {
            let bytes = &case.bytes[..];
            for operation in GROWING {
                let runner = side.runner(operation, &case).expect("the case is accepted");
                let runners = vec![(side.name(), runner)];
                print_times("growth", operation.name(), case.name, bytes.len(), runners, plan);
            }
            let mut output = vec![0; bytes.len()];
            let copy = repeat(move || black_box(&mut output).copy_from_slice(black_box(bytes)));
            print_times("growth", "copy", case.name, bytes.len(), vec![("copy", copy)], plan);
        }
    }
}

/// One log in two ways, four times, the last two times with markers in it. A turn is the whole log, which takes longer
/// than these milliseconds.
fn users(rounds: usize, program: &str, folder: &Path) {
    let log = users::pinnings();
    let marked = users::with_markers(&log);
    let plan = Plan { turn: Duration::from_millis(10), rounds };
    let pairs = [
        users::reading(&log),
        users::verifying(&log, program, folder),
        users::converting(&marked),
        users::converting_file(&marked, program, folder),
    ];
    for Pair { operation, log, runners } in pairs {
        print_times("users", operation, "a million pinnings", log.len(), runners, plan);
    }
}

fn cells(sides: &[&dyn Side]) {
    for (at, case) in MAKERS.map(|make| make()).iter().enumerate() {
        for operation in COMPARED {
            for side in sides.iter().filter(|side| side.runner(operation, case).is_some()) {
                let (side, operation, bytes) = (side.name(), operation.name(), case.bytes.len());
                println!("{side}\t{operation}\t{at}\t{}\t{bytes}", case.name);
            }
        }
    }
}

fn again(sides: &[&dyn Side], side: &str, operation: &str, case: usize, times: usize) {
    let case = MAKERS[case]();
    let side = sides.iter().find(|known| known.name() == side).expect("a side");
    let operation = COMPARED.into_iter().find(|known| known.name() == operation);
    let runner = side.runner(operation.expect("an operation"), &case);
    runner.expect("a case of this side")(times as u64);
}

fn print_times(
    part: &str,
    operation: &str,
    case: &str,
    bytes: usize,
    runners: Vec<(&str, Runner)>,
    plan: Plan,
) {
    let (names, mut runners): (Vec<_>, Vec<_>) = runners.into_iter().unzip();
    for (side, spread) in names.iter().zip(in_turns(&mut runners, plan)) {
        let Spread { median, low, high } = spread;
        let cell = format!("{part}\t{operation}\t{case}\t{bytes}\t{side}");
        println!("{cell}\tns\t{median:.2}\t{low:.2}\t{high:.2}");
    }
}
