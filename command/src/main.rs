//! `oddrafisk`: lists, dumps, verifies and converts logs of Kafka's version 2 record batches.
//!
//! A verb is a file of its own and a row of [`verbs::VERBS`]. What all of them share is here too:
//! the command line (`arguments`), going through a file of any size (`log` over `window`), and what
//! is said where (`console`).

#![forbid(unsafe_code)]

mod arguments;
mod console;
mod convert;
mod dump;
mod hex;
mod list;
mod log;
mod name;
mod progress;
mod quoted;
mod verbs;
mod verify;
mod window;

use std::env;
use std::io::{self, Write};
use std::process::ExitCode;

use arguments::Request;
use console::{complain, Console, Status};

fn main() -> ExitCode {
    let request = match arguments::parse(env::args_os().skip(1)) {
        Ok(request) => request,
        Err(wrong) => {
            complain(wrong);
            return Status::WrongLine.into();
        }
    };
    match Console::new() {
        Ok(mut console) => {
            let ended = answer(&request, &mut console);
            console.end(ended).into()
        }
        Err(error) => {
            complain(format_args!("standard output: {error}"));
            Status::Unusable.into()
        }
    }
}

fn answer(request: &Request, console: &mut Console) -> io::Result<()> {
    match request {
        Request::Page(text) => console.write_all(text.as_bytes()),
        Request::Work(work) => (work.verb.run)(work, console),
    }
}
