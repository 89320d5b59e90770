//! Compares Oddrafisk with a model of document 01 and with the Rust that it follows:
//!
//!     driver compare INPUTS SEED    all inputs of some kinds, and INPUTS random ones
//!     driver random INPUTS SEED     the random ones alone
//!     driver large                  the greatest batch, and how much memory that takes
//!     driver store STDIN STDOUT     writes a sample of inputs, and the Rust's answers to them

mod asked;
mod compare;
mod damage;
mod inputs;
mod keyed;
mod large;
mod lent;
mod model;
mod ours;
mod random;
mod shape;
mod store;
mod tally;
mod theirs;

use std::error::Error;
use std::process::ExitCode;

use asked::Answered;
use ours::Library;
use random::Random;
use tally::Tally;

fn main() -> ExitCode {
    let arguments: Vec<String> = std::env::args().skip(1).collect();
    let arguments: Vec<&str> = arguments.iter().map(String::as_str).collect();
    match run(&arguments) {
        Ok(()) => ExitCode::SUCCESS,
        Err(error) => {
            eprintln!("{error}");
            ExitCode::FAILURE
        }
    }
}

fn run(arguments: &[&str]) -> Result<(), Box<dyn Error>> {
    lent::watch();
    match arguments {
        ["compare", inputs, seed] => {
            let mut run = Run::new(seed.parse()?);
            let inputs = inputs.parse()?;
            run.all_of_a_kind();
            run.random(inputs);
            run.all_keyed();
            run.random_keyed(inputs);
            run.tally.print()?;
        }
        ["random", inputs, seed] => {
            let mut run = Run::new(seed.parse()?);
            let inputs = inputs.parse()?;
            run.random(inputs);
            run.random_keyed(inputs);
            run.tally.print()?;
        }
        ["large"] => {
            large::by_hand(&mut Random::new(1))?;
            println!("the greatest batch is written and read alike, and a longer one refused");
            println!("memory at most, what is lent counted twice: {}", greatest_memory()?);
        }
        ["store", stdin, stdout] => {
            let (framed, answers) = store::sample();
            std::fs::write(stdin, framed)?;
            std::fs::write(stdout, answers)?;
        }
        _ => Err(
            "usage: driver compare INPUTS SEED | random INPUTS SEED | large | store STDIN STDOUT",
        )?,
    }
    Ok(())
}

/// What Linux says of this process. What is lent is mapped twice, and counts as often.
fn greatest_memory() -> std::io::Result<String> {
    let status = std::fs::read_to_string("/proc/self/status")?;
    let most = status.lines().find_map(|line| line.strip_prefix("VmHWM:"));
    Ok(most.unwrap_or("not known").trim().to_string())
}

struct Run {
    library: Library,
    random: Random,
    tally: Tally,
}

impl Run {
    fn new(seed: u64) -> Self {
        println!("seed {seed}, on {}", std::env::consts::ARCH);
        // A panic of the Rust is a difference; its message would stand among the figures.
        let told = std::panic::take_hook();
        std::panic::set_hook(Box::new(move |panic| {
            if !theirs::is_reading() {
                told(panic);
            }
        }));
        Self { library: Library::new(), random: Random::new(seed), tally: Tally::default() }
    }

    fn input(&mut self, bytes: &[u8]) {
        let compared = compare::input(&mut self.library, bytes, &mut self.random);
        self.tally.input(bytes, compared);
    }

    /// A beginning of a batch, with other bytes after it.
    fn stands(&mut self, beginning: &[u8], tail: &[u8]) {
        let bytes = [beginning, tail].concat();
        let cut = beginning.len();
        let compared = compare::stands(&mut self.library, &bytes, cut, &mut self.random);
        self.tally.input(&bytes, compared);
    }

    fn all_of_a_kind(&mut self) {
        for (name, group) in inputs::GROUPS {
            self.tally.group(name);
            group(&mut |bytes| self.input(bytes));
        }
        self.tally.group("beginnings of small and of producers' batches, with other tails");
        inputs::beginnings_with_tails(&mut |beginning, tail| self.stands(beginning, tail));
        self.tally.group("batches about the greatest, to be measured");
        for number in large::measure(4000, &mut self.library, &mut self.random) {
            self.tally.asked(number.map(Answered::from));
        }
    }

    /// The same of keyed markers. They come last, so that the inputs before them are what they are
    /// without them.
    fn all_keyed(&mut self) {
        for (name, group) in keyed::GROUPS {
            self.tally.group(name);
            group(&mut |bytes| self.input(bytes));
        }
        self.tally.group("keyed markers, beginnings with other tails");
        keyed::beginnings_with_tails(&mut |beginning, tail| self.stands(beginning, tail));
        self.tally.group("markers to be written, with each entry at its limits");
        for answered in asked::markers(&mut self.library, &mut self.random) {
            self.tally.asked(answered);
        }
    }

    fn random_keyed(&mut self, inputs: usize) {
        let shared = |share: usize| (inputs / share).max(1);
        self.tally.group("random keyed markers");
        for _ in 0..shared(4) {
            let bytes = keyed::random(&mut self.random);
            self.input(&bytes);
        }
        self.tally.group("random beginnings of keyed markers with random tails");
        for _ in 0..shared(16) {
            let [bytes, tail] = [(); 2].map(|()| keyed::random(&mut self.random));
            self.spliced(&bytes, &tail);
        }
    }

    /// A beginning of the one with an end of the other.
    fn spliced(&mut self, bytes: &[u8], tail: &[u8]) {
        let [end, start] = [bytes, tail].map(|all| self.random.below(all.len() + 1));
        self.stands(&bytes[..end], &tail[start..]);
    }

    /// So many random inputs, and a share of them of each other random kind, one at least.
    fn random(&mut self, inputs: usize) {
        let shared = |share: usize| (inputs / share).max(1);
        for (name, share, make) in inputs::RANDOM {
            self.tally.group(name);
            for _ in 0..shared(share) {
                let bytes = make(&mut self.random);
                self.input(&bytes);
            }
        }
        self.tally.group("random beginnings with random tails");
        for _ in 0..shared(8) {
            let [bytes, tail] = [(); 2].map(|()| inputs::random(&mut self.random));
            self.spliced(&bytes, &tail);
        }
        self.tally.group("random batches to be written, with wild rows");
        for _ in 0..shared(4) {
            let answered = asked::ask(&mut self.library, &mut self.random);
            self.tally.asked(answered);
        }
        self.tally.group("random times of records");
        for _ in 0..shared(8) {
            let told = asked::time(&mut self.library, &mut self.random);
            self.tally.time(told);
        }
    }
}
