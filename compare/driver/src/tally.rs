//! What was compared, counted, and the shortest input of each kind that has to be shown.

use std::collections::BTreeMap;

use crate::asked::Answered;
use crate::compare::{Compared, Converted, Difference, Keyed};
use crate::model::{
    ACCEPTED, BARE_MARKER, BEYOND_LIMITS, CODEC_ASKED, MORE_BYTES, SHORT_OUTPUT, STANDING,
    WRONG_ROW,
};

#[derive(Default)]
pub struct Tally {
    groups: Vec<Group>,
    read: BTreeMap<u32, usize>,
    asked: BTreeMap<u32, usize>,
    times: [usize; 2],
    canonical: usize,
    no_room: usize,
    outside_accepted: Shortest,
    keyed: KeyedTally,
    converted: ConvertedTally,
    differences: BTreeMap<Difference, Shortest>,
}

/// What was compared in keyed mode.
#[derive(Default)]
struct KeyedTally {
    without_control_bit: usize,
    /// Control batches: by number, and by what the accepted ones do.
    read: BTreeMap<(u32, i64), usize>,
    /// Those of them that had to be answered as in bare mode.
    alike: usize,
    canonical: usize,
    /// Requests to write a marker.
    asked: BTreeMap<u32, usize>,
}

impl KeyedTally {
    fn input(&mut self, keyed: &Keyed) {
        if !keyed.control_bit {
            self.without_control_bit += 1;
            return;
        }
        *self.read.entry((keyed.number, keyed.kind)).or_default() += 1;
        self.alike += usize::from(keyed.alike);
        self.canonical += usize::from(keyed.canonical);
    }

    /// Every answer that there is to a control batch and to a request for a marker, with how often
    /// it was given.
    fn answers(&self) -> impl Iterator<Item = (String, usize)> + '_ {
        let refused = [MORE_BYTES].into_iter().chain(STANDING);
        let refused = refused.map(|number| (number, 0, String::new()));
        let accepted = [(1, ", abort"), (2, ", commit")];
        let accepted = accepted.map(|(kind, said)| (ACCEPTED, kind, said.to_string()));
        let read = accepted.into_iter().chain(refused).map(|(number, kind, said)| {
            let count = self.read.get(&(number, kind)).copied().unwrap_or(0);
            (format!("answered {number}{said}"), count)
        });
        let asked = [ACCEPTED, CODEC_ASKED, WRONG_ROW, SHORT_OUTPUT].into_iter().map(|number| {
            let count = self.asked.get(&number).copied().unwrap_or(0);
            (format!("answered {number}, in writing"), count)
        });
        read.chain(asked)
    }

    fn print(&self) {
        println!("by number, of control batches in keyed mode:");
        self.answers().for_each(print_answer);
        let control: usize = self.read.values().sum();
        let outside = self.read.get(&(BEYOND_LIMITS, 0)).copied().unwrap_or(0);
        let apart = control - self.alike;
        let Self { without_control_bit, alike, canonical, .. } = self;
        println!(
            "in keyed mode: {} inputs read, of which {without_control_bit} without the control bit \
             and {alike} with it, answered 1 to 7 or 41, are answered as in bare mode",
            without_control_bit + control
        );
        println!(
            "control batches answered 0 or 8 to 13 there: {apart}, of which canonical {canonical}; \
             excluded from the comparison with the Rust, but for the record in {} of them",
            apart - outside
        );
    }
}

/// An answer with how often it was given.
fn print_answer((answer, count): (String, usize)) {
    println!("{count:>10} {answer}{}", if count == 0 { ": EMPTY" } else { "" });
}

/// What was converted.
#[derive(Default)]
struct ConvertedTally {
    /// By number, and by whether what is given is not the batch's own bytes.
    answered: BTreeMap<(u32, bool), usize>,
}

impl ConvertedTally {
    fn input(&mut self, converted: &Converted) {
        *self.answered.entry((converted.number, converted.changed)).or_default() += 1;
    }

    fn count(&self, number: u32, changed: bool) -> usize {
        self.answered.get(&(number, changed)).copied().unwrap_or(0)
    }

    /// Every answer that there is to what is to be converted, with how often it was given. Each that
    /// is accepted was also converted to an output that is too short.
    fn answers(&self) -> impl Iterator<Item = (String, usize)> + '_ {
        let [copied, changed] = [false, true].map(|changed| self.count(ACCEPTED, changed));
        let refused = [MORE_BYTES].into_iter().chain(STANDING);
        let refused = refused.filter(|&number| number != BARE_MARKER);
        let refused = refused.map(|number| (number.to_string(), self.count(number, false)));
        [(format!("{ACCEPTED}, a bare marker made keyed"), changed)]
            .into_iter()
            .chain([(format!("{ACCEPTED}, copied"), copied)])
            .chain(refused)
            .chain([(SHORT_OUTPUT.to_string(), copied + changed)])
            .map(|(answer, count)| (format!("answered {answer}"), count))
    }

    fn print(&self) {
        println!("by number, in converting:");
        self.answers().for_each(print_answer);
    }
}

fn all_met(mut answers: impl Iterator<Item = (String, usize)>) -> bool {
    answers.all(|(_, count)| count > 0)
}

/// A group of inputs: each is a test, which fails where one of them differs or there is none.
struct Group {
    name: &'static str,
    inputs: usize,
    differing: usize,
}

impl Group {
    fn passed(&self) -> bool {
        self.inputs > 0 && self.differing == 0
    }

    fn print(&self) {
        let Self { name, inputs, differing } = self;
        let differing = match differing {
            0 => String::new(),
            _ => format!(", {differing} of them DIFFERENT"),
        };
        println!("{inputs:>10} {name}{differing}");
    }
}

/// How many there were, and the shortest of them.
#[derive(Default)]
struct Shortest {
    count: usize,
    bytes: Vec<u8>,
}

impl Shortest {
    fn add(&mut self, bytes: &[u8]) {
        if self.count == 0 || bytes.len() < self.bytes.len() {
            self.bytes = bytes.to_vec();
        }
        self.count += 1;
    }

    fn print(&self) {
        if self.count > 0 {
            println!("    shortest: {}", hex(&self.bytes));
        }
    }
}

pub fn hex(bytes: &[u8]) -> String {
    bytes.iter().map(|byte| format!("{byte:02x}")).collect()
}

impl Tally {
    /// What is counted from now on belongs to this group. The one before it is told.
    pub fn group(&mut self, name: &'static str) {
        self.groups.last().into_iter().for_each(Group::print);
        self.groups.push(Group { name, inputs: 0, differing: 0 });
    }

    /// Counts an input of the group, and gives what was compared where nothing differs.
    fn count<T>(&mut self, bytes: &[u8], compared: Result<T, Difference>) -> Option<T> {
        let group = self.groups.last_mut().expect("a group has been named");
        group.inputs += 1;
        compared
            .map_err(|difference| {
                group.differing += 1;
                self.differences.entry(difference).or_default().add(bytes);
            })
            .ok()
    }

    pub fn input(&mut self, bytes: &[u8], compared: Result<Compared, Difference>) {
        let Some(compared) = self.count(bytes, compared) else { return };
        *self.read.entry(compared.number).or_default() += 1;
        self.canonical += usize::from(compared.canonical);
        self.no_room += usize::from(compared.no_room);
        if compared.accepted && !compared.in_domain {
            self.outside_accepted.add(bytes);
        }
        self.keyed.input(&compared.keyed);
        self.converted.input(&compared.converted);
    }

    pub fn asked(&mut self, answered: Result<Answered, Difference>) {
        if let Some(Answered { number, keyed_marker }) = self.count(&[], answered) {
            *self.asked.entry(number).or_default() += 1;
            if let Some(number) = keyed_marker {
                *self.keyed.asked.entry(number).or_default() += 1;
            }
        }
    }

    /// The time of a record was told, or there is none.
    pub fn time(&mut self, told: Result<bool, Difference>) {
        if let Some(told) = self.count(&[], told) {
            self.times[usize::from(told)] += 1;
        }
    }

    pub fn print(&self) -> Result<(), &'static str> {
        self.groups.last().into_iter().for_each(Group::print);
        println!("by number, in reading:");
        self.read.iter().for_each(|(number, count)| println!("{count:>10} answered {number}"));
        println!("by number, in writing:");
        self.asked.iter().for_each(|(number, count)| println!("{count:>10} answered {number}"));
        self.print_sums();
        self.keyed.print();
        self.converted.print();
        for (difference, shortest) in &self.differences {
            println!("DIFFERENT, {} times: {difference}", shortest.count);
            shortest.print();
        }
        // That each answer is among those that were compared are tests as well.
        let met =
            [self.bare_met(), all_met(self.keyed.answers()), all_met(self.converted.answers())];
        let met_tests = met.iter().filter(|&&met| met).count();
        let passed = self.groups.iter().filter(|group| group.passed()).count();
        let failed = self.groups.len() + met.len() - passed - met_tests;
        println!("{} passed, {failed} failed", passed + met_tests);
        if passed < self.groups.len() || passed == 0 {
            Err("Oddrafisk, the model and the Rust are not alike")
        } else if met_tests < met.len() {
            Err("an answer is not among those that were compared")
        } else {
            Ok(())
        }
    }

    /// Whether bare mode has given each answer that there is to bytes, and refused a bare marker in
    /// writing.
    fn bare_met(&self) -> bool {
        let mut numbers = [ACCEPTED, MORE_BYTES].into_iter().chain(STANDING);
        numbers.all(|number| self.read.contains_key(&number))
            && self.asked.contains_key(&BARE_MARKER)
    }

    fn print_sums(&self) {
        let read = |number| self.read.get(&number).copied().unwrap_or(0);
        let [outside, withdrawn] = [read(BEYOND_LIMITS), read(BARE_MARKER)];
        let compared: usize = self.read.values().sum();
        let asked: usize = self.asked.values().sum();
        let (accepted, canonical) = (read(ACCEPTED), self.canonical);
        let [untimed, timed] = self.times;
        println!("times of records: {timed}, and {untimed} that have none");
        println!(
            "accepted: {accepted}, of which canonical {canonical}, read without room {}",
            self.no_room
        );
        println!(
            "outside the domain: {outside}, of which the Rust accepts {}",
            self.outside_accepted.count
        );
        self.outside_accepted.print();
        println!(
            "control batches that the Rust accepts: {withdrawn}, which are answered 41 in both modes, as \
             no others are; excluded from the comparison with the Rust, and held by their twins"
        );
        println!(
            "compared with the model: {compared} inputs read, {asked} asked to be written; with the \
             Rust too: {} inputs read",
            compared - outside - withdrawn
        );
    }
}
