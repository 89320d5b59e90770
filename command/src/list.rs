//! `oddrafisk list`: document 01's listing, for files of any size.

use std::io::{self, Write};

use crate::arguments::Work;
use crate::console::Console;
use crate::log::{self, Log, Trouble};
use crate::verbs::{Operands, Verb};

pub const VERB: Verb = Verb {
    name: "list",
    about: "a line for each batch, and where the log ends or stops",
    help: "\
The first line is a heading. Then comes a line for each batch: its base offset, its bytes, its kind
(records, abort or commit), and how many records and headers it has. The last line is `end at` and
the length of the file, or `stop`, the number of the refusal, `at` and the place of the batch that
is refused. The words for a stop are on standard error.

With several files each listing has a line `FILE:` before it, and there is an empty line between
two of them.

examples:
  oddrafisk list 00000000000000000000.log
  oddrafisk list *.log | grep stop
  xz -dc old.log.xz | oddrafisk list -
",
    operands: Operands::Files,
    options: &[],
    streams: true,
    run,
};

fn run(work: &Work, console: &mut Console) -> io::Result<()> {
    let several = 1 < work.files.len();
    let mut first = true;
    log::each(work, console, |log, console| {
        if several {
            let gap = if first { "" } else { "\n" };
            writeln!(console, "{gap}{}:", log.name)?;
        }
        first = false;
        list(log, console)
    })
}

fn list(log: &mut Log, console: &mut Console) -> Result<(), Trouble> {
    writeln!(console, "base bytes kind records headers")?;
    let mode = log.mode;
    let ended = log.walk(|_, bytes| {
        let outline = oddrafisk::check_in(mode, bytes)?;
        writeln!(
            console,
            "{} {} {} {} {}",
            outline.fields.base_offset,
            outline.bytes,
            log::name_of(outline.kind),
            outline.records,
            outline.headers
        )?;
        Ok(outline.bytes)
    });
    match &ended {
        Ok(()) => writeln!(console, "end at {}", log.place())?,
        Err(Trouble::Stopped(reason)) => {
            writeln!(console, "stop {} at {}", reason.number(), log.place())?;
        }
        Err(_) => {}
    }
    ended
}
