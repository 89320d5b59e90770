//! A restarted balancer: reads a pinning log and keeps the latest pinning of each cookie.
//!
//! ```text
//! cargo run --release --example balancer FILE [--skip]
//! ```
//!
//! A record's key is a cookie and its value the server that the cookie is pinned to; a null value
//! withdraws the pinning. What a producer wrote in a transaction counts once the transaction's
//! commit is met, from where it stands in the log; after an abort, or without a marker, it does not
//! count. Prints a summary, and fails where the log is damaged or cut off.
//!
//! With `--skip` it goes on after a batch that is refused, by the batch's own length, and says
//! which bytes it has passed over. What stood there is lost, and where the length itself is damaged
//! the next place need be no batch's beginning: so it stops where what it finds there is refused as
//! well, or does not come after what it has read. A marker may be among what is lost, so that what
//! stands in a transaction which is open there is dropped, and is said to be lost.

use std::collections::{BTreeMap, HashMap};
use std::path::Path;
use std::process::ExitCode;
use std::time::{Duration, Instant};
use std::{env, fs};

use oddrafisk::{Batch, Kind, Log, LogError, Marker};

/// What a record says of a cookie. The later of two has the greater number.
#[derive(Clone, Copy)]
struct Change<'a> {
    number: u64,
    cookie: &'a [u8],
    server: Option<&'a [u8]>,
}

/// What has been read. Cookies and servers are parts of the log's bytes.
#[derive(Default)]
struct Pinnings<'a> {
    latest: HashMap<&'a [u8], Change<'a>>,
    /// What stands in transactions that have no marker yet, by producer.
    undecided: HashMap<i64, Vec<Change<'a>>>,
    batches: u64,
    records: u64,
    without_cookie: u64,
    aborted: usize,
    passed_over: u64,
    lost: usize,
}

impl<'a> Pinnings<'a> {
    fn take_batch(&mut self, batch: &Batch<'a, '_>) {
        self.batches += 1;
        match batch.kind() {
            Kind::Records => self.take_records(batch),
            Kind::Marker(marker) => self.end_transaction(batch.fields().producer_id, marker),
        }
    }

    fn take_records(&mut self, batch: &Batch<'a, '_>) {
        let fields = batch.fields();
        for record in batch.records() {
            self.records += 1;
            let Some(cookie) = record.key() else {
                self.without_cookie += 1;
                continue;
            };
            let change = Change {
                number: self.records,
                cookie,
                server: record.value(),
            };
            if fields.is_transactional {
                self.undecided
                    .entry(fields.producer_id)
                    .or_default()
                    .push(change);
            } else {
                self.apply(change);
            }
        }
    }

    fn end_transaction(&mut self, producer: i64, marker: Marker) {
        let changes = self.undecided.remove(&producer).unwrap_or_default();
        match marker {
            Marker::Commit => changes.into_iter().for_each(|change| self.apply(change)),
            Marker::Abort => self.aborted += changes.len(),
        }
    }

    /// A batch was passed over. Whether it ended one of the open transactions, and how, nobody knows
    /// any more.
    fn pass_over_batch(&mut self) {
        self.passed_over += 1;
        self.lost += self
            .undecided
            .drain()
            .map(|(_, lost)| lost.len())
            .sum::<usize>();
    }

    /// A commit comes after its records, and other producers may have written in between.
    fn apply(&mut self, change: Change<'a>) {
        let latest = self.latest.entry(change.cookie).or_insert(change);
        if latest.number < change.number {
            *latest = change;
        }
    }

    fn print(&self) {
        let mut servers = BTreeMap::new();
        for server in self.latest.values().filter_map(|change| change.server) {
            *servers.entry(server).or_insert(0) += 1;
        }
        let pinned: usize = servers.values().sum();
        let undecided: usize = self.undecided.values().map(Vec::len).sum();
        println!("batches {}", self.batches);
        if self.passed_over != 0 {
            println!("batches passed over {}", self.passed_over);
            println!("records lost in open transactions {}", self.lost);
        }
        println!("records {}", self.records);
        println!("records without a cookie {}", self.without_cookie);
        println!("records aborted {}", self.aborted);
        println!("records undecided {undecided}");
        println!("cookies pinned {pinned}");
        println!("cookies withdrawn {}", self.latest.len() - pinned);
        for (server, cookies) in servers {
            println!("{} {cookies}", server.escape_ascii());
        }
    }
}

/// A log that is read on after damage, where that is asked for.
struct Reading<'a> {
    log: Log<'a>,
    skips: bool,
    last_offset: Option<i64>,
    /// Whether the batch before was passed over.
    passed_over: bool,
}

impl<'a> Reading<'a> {
    /// Whether a batch may stand here. After damage that is so only where its offsets come after
    /// those of the last that was read: what a damaged length leads to may be a batch inside a
    /// value.
    fn is_next(&self, batch: &Batch<'a, '_>) -> bool {
        let follows = |last| last < batch.fields().base_offset;
        !self.passed_over || self.last_offset.is_none_or(follows)
    }

    /// Passes over the batch that was refused. One after the other is a sign that the length of the
    /// first was damaged.
    fn pass_over(&mut self, error: LogError) -> Result<(), String> {
        if !self.skips || self.passed_over {
            return Err(error.to_string());
        }
        let length = self.log.pass_over().map_err(|_| error.to_string())?;
        eprintln!("{length} bytes are passed over {error}");
        self.passed_over = true;
        Ok(())
    }

    /// Takes all pinnings up to the log's end, or says why it stops before.
    fn read_into(&mut self, pinnings: &mut Pinnings<'a>) -> Result<usize, String> {
        let mut told = Instant::now();
        while let Some(read) = self.log.next() {
            match read {
                Ok(batch) if self.is_next(&batch) => {
                    pinnings.take_batch(&batch);
                    self.last_offset = batch.fields().last_offset();
                    self.passed_over = false;
                }
                Ok(batch) => return Err(format!("at a batch out of order: {batch:?}")),
                Err(error) => {
                    self.pass_over(error)?;
                    pinnings.pass_over_batch();
                }
            }
            if Duration::from_secs(1) <= told.elapsed() {
                eprintln!("{} MB", self.log.place() / 1_000_000);
                told = Instant::now();
            }
        }
        Ok(self.log.place())
    }
}

fn main() -> ExitCode {
    let arguments: Vec<_> = env::args_os().skip(1).collect();
    let (file, skips) = match &arguments[..] {
        [file] => (file, false),
        [file, option] if option == "--skip" => (file, true),
        _ => {
            eprintln!("balancer FILE [--skip]");
            return ExitCode::from(2);
        }
    };
    let bytes = match fs::read(file) {
        Ok(bytes) => bytes,
        Err(error) => {
            eprintln!("{}: {error}", Path::new(file).display());
            return ExitCode::from(2);
        }
    };
    let mut pinnings = Pinnings::default();
    let mut reading = Reading {
        log: Log::new(&bytes),
        skips,
        last_offset: None,
        passed_over: false,
    };
    let end = reading.read_into(&mut pinnings);
    pinnings.print();
    match end {
        Ok(place) => {
            println!("end at {place}");
            ExitCode::SUCCESS
        }
        Err(why) => {
            println!("stop {why}");
            ExitCode::FAILURE
        }
    }
}
