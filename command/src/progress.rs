//! How far a file has been read, on a terminal, for files that take longer than a second.

use std::io::{self, IsTerminal, Write};
use std::time::{Duration, Instant};

use crate::name::Name;

/// A file that takes less than this has no bar.
const PATIENCE: Duration = Duration::from_secs(1);
const PAUSE: Duration = Duration::from_millis(100);
/// With a shortened name and all numbers a line has less than 80 columns.
const BAR: usize = 26;
const NAME: usize = 24;

/// A bar on standard error.
pub struct Progress {
    /// The file's name, where there is to be a bar.
    name: Option<String>,
    pub length: Option<u64>,
    next: Instant,
    /// How many columns of the terminal's line it has filled.
    columns: usize,
}

impl Progress {
    /// A verb that streams writes while it reads: on the same terminal the bar would be in its way.
    pub fn new(name: &Name, streams: bool) -> Self {
        let wanted = io::stderr().is_terminal() && !(streams && io::stdout().is_terminal());
        Progress {
            name: wanted.then(|| shortened(&name.to_string())),
            length: None,
            next: Instant::now() + PATIENCE,
            columns: 0,
        }
    }

    /// So many bytes have been read.
    pub fn at(&mut self, read: u64) {
        let Some(name) = &self.name else { return };
        let now = Instant::now();
        if now < self.next {
            return;
        }
        self.next = now + PAUSE;
        let line = line(name, read, self.length);
        self.show(&line);
    }

    /// Clears the line for what is said next, and shows no more.
    pub fn end(&mut self) {
        self.name = None;
        if 0 < self.columns {
            // First the blanks, and then back to where they begin.
            self.show("");
            self.show("");
        }
    }

    /// Shows a line in place of the one before, which may have been longer.
    fn show(&mut self, line: &str) {
        let text = format!("\r{line:columns$}", columns = self.columns);
        self.columns = line.chars().count();
        let _ = io::stderr().write_all(text.as_bytes());
    }
}

/// A file that cannot be read ends at any time.
impl Drop for Progress {
    fn drop(&mut self) {
        self.end();
    }
}

/// The end of a name tells more than its beginning.
fn shortened(name: &str) -> String {
    let length = name.chars().count();
    if length <= NAME {
        return name.to_string();
    }
    format!(
        "..{}",
        name.chars().skip(length - NAME + 2).collect::<String>()
    )
}

fn line(name: &str, read: u64, length: Option<u64>) -> String {
    match length {
        Some(length) if 0 < length && read <= length => {
            let share = |whole: usize| (read as u128 * whole as u128 / length as u128) as usize;
            let (filled, percent) = ("#".repeat(share(BAR)), share(100));
            format!("{name} [{filled:-<BAR$}] {percent:3} % of {}", size(length))
        }
        _ => format!("{name} {}", size(read)),
    }
}

fn size(bytes: u64) -> String {
    if bytes < 1_000_000_000 {
        format!("{:.1} MB", bytes as f64 / 1e6)
    } else {
        format!("{:.1} GB", bytes as f64 / 1e9)
    }
}

#[cfg(test)]
mod tests {
    use super::*;

    #[test]
    fn bar_is_as_long_as_its_share() {
        for (read, bar, percent) in [
            (0, "--------------------------", "  0"),
            (1_500_000, "#############-------------", " 50"),
            (2_999_999, "#########################-", " 99"),
            (3_000_000, "##########################", "100"),
        ] {
            let due = format!("a.log [{bar}] {percent} % of 3.0 MB");
            assert_eq!(line("a.log", read, Some(3_000_000)), due);
        }
    }

    #[test]
    fn file_without_a_length_has_its_bytes_so_far() {
        assert_eq!(line("-", 1_250_000, None), "- 1.2 MB");
        assert_eq!(line("-", 2_500_000_000, Some(0)), "- 2.5 GB");
        assert_eq!(line("grown", 2_000_000, Some(1_000_000)), "grown 2.0 MB");
    }

    #[test]
    fn line_fits_a_terminal() {
        let name = shortened(&"long/".repeat(20));
        assert_eq!(name.len(), NAME);
        assert!(name.starts_with("..") && name.ends_with("ong/long/"));
        assert!(line(&name, u64::MAX, Some(u64::MAX)).len() < 80);
    }
}
