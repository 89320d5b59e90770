//! A window that goes through a source of any length, and grows to the batch at hand.

use std::io::{self, ErrorKind, Read};

/// How many bytes are asked for at a time. A damaged length may name any number of them, so the
/// window grows as they come.
pub const PIECE: usize = 1 << 18;

/// How many bytes before the place stay at hand, to be shown with a fault: those of its own line of
/// 16, and a line more.
const KEPT: usize = 31;

/// The bytes of a source from a place on, as many as were asked for, with some before it.
pub struct Window<R> {
    source: R,
    buffer: Vec<u8>,
    /// The place, in the buffer.
    start: usize,
    /// Where that ends in the buffer which was read.
    end: usize,
    /// The place, in the source.
    place: u64,
    source_ended: bool,
}

impl<R: Read> Window<R> {
    pub fn new(source: R) -> Self {
        Window {
            source,
            buffer: Vec::new(),
            start: 0,
            end: 0,
            place: 0,
            source_ended: false,
        }
    }

    pub fn source(&self) -> &R {
        &self.source
    }

    pub fn source_mut(&mut self) -> &mut R {
        &mut self.source
    }

    pub fn place(&self) -> u64 {
        self.place
    }

    /// What is at hand from the place on.
    pub fn bytes(&self) -> &[u8] {
        &self.buffer[self.start..self.end]
    }

    /// What is at hand with the bytes that were kept from before the place, and where that begins.
    pub fn around(&self) -> (u64, &[u8]) {
        let kept = self.start.min(KEPT);
        (
            self.place - kept as u64,
            &self.buffer[self.start - kept..self.end],
        )
    }

    /// Moves the place past so many bytes, which are at hand.
    pub fn pass(&mut self, bytes: usize) {
        self.start += bytes;
        self.place += bytes as u64;
    }

    /// Reads on until so many bytes are at hand, or the source has ended.
    pub fn reach(&mut self, needed: usize) -> io::Result<()> {
        if self.has(needed) {
            return Ok(());
        }
        self.move_to_front();
        while !self.has(needed) {
            self.read_piece(needed)?;
        }
        Ok(())
    }

    fn has(&self, needed: usize) -> bool {
        needed <= self.end - self.start || self.source_ended
    }

    fn move_to_front(&mut self) {
        let kept = self.start.min(KEPT);
        let from = self.start - kept;
        self.buffer.copy_within(from..self.end, 0);
        self.start = kept;
        self.end -= from;
    }

    fn read_piece(&mut self, needed: usize) -> io::Result<()> {
        if self.end == self.buffer.len() {
            self.grow(needed)?;
        }
        let most = self.buffer.len().min(self.end + PIECE);
        match self.source.read(&mut self.buffer[self.end..most]) {
            Ok(0) => self.source_ended = true,
            Ok(bytes) => self.end += bytes,
            Err(error) if error.kind() == ErrorKind::Interrupted => {}
            Err(error) => return Err(error),
        }
        Ok(())
    }

    /// By half at the most, and to no more than is needed.
    fn grow(&mut self, needed: usize) -> io::Result<()> {
        let length = self.buffer.len();
        let wanted = PIECE.max(self.start + needed);
        let next = wanted.min(PIECE.max(length + length / 2));
        self.buffer.try_reserve_exact(next - length)?;
        self.buffer.resize(next, 0);
        Ok(())
    }
}

#[cfg(test)]
mod tests {
    use super::*;

    /// Gives at most so many bytes at a time, is interrupted before each, and fails at its end
    /// where it is to.
    struct Slow<'a> {
        bytes: &'a [u8],
        most: usize,
        fails: bool,
        interrupted: bool,
    }

    impl<'a> Slow<'a> {
        fn new(bytes: &'a [u8], most: usize) -> Self {
            Slow {
                bytes,
                most,
                fails: false,
                interrupted: false,
            }
        }
    }

    impl Read for Slow<'_> {
        fn read(&mut self, buffer: &mut [u8]) -> io::Result<usize> {
            self.interrupted = !self.interrupted;
            if self.interrupted {
                return Err(ErrorKind::Interrupted.into());
            }
            if self.fails && self.bytes.is_empty() {
                return Err(ErrorKind::Other.into());
            }
            let most = self.most.min(buffer.len());
            (&mut self.bytes).take(most as u64).read(buffer)
        }
    }

    /// Bytes that tell their places, as far as 251 does.
    fn counted(length: usize) -> Vec<u8> {
        (0..length).map(|place| (place % 251) as u8).collect()
    }

    fn go_through(length: usize, step: usize, most: usize) {
        let bytes = counted(length);
        let mut window = Window::new(Slow::new(&bytes, most));
        loop {
            window.reach(step).unwrap();
            let place = window.place() as usize;
            let due = step.min(length - place);
            assert_eq!(window.bytes()[..due], bytes[place..place + due]);
            let (first, around) = window.around();
            assert_eq!(first as usize, place.saturating_sub(KEPT));
            assert!(bytes[first as usize..].starts_with(around));
            if due == 0 {
                return assert_eq!(place, length);
            }
            window.pass(due);
        }
    }

    #[test]
    fn every_byte_comes_once_and_in_order() {
        for step in [1, 17, 32, 33, 1000, 5000] {
            go_through(5000, step, 1);
            go_through(5000, step, 64);
        }
        for step in [61, PIECE - 1, PIECE, PIECE + 1, 3 * PIECE, 9 * PIECE] {
            go_through(5 * PIECE + 123, step, usize::MAX);
            go_through(5 * PIECE + 123, step, 65536);
        }
    }

    #[test]
    fn more_than_there_is_costs_no_more_than_there_is() {
        let bytes = counted(3 * PIECE);
        let mut window = Window::new(Slow::new(&bytes, usize::MAX));
        window.reach(i32::MAX as usize + 12).unwrap();
        assert_eq!(window.bytes(), bytes);
        assert!(window.buffer.capacity() < 5 * PIECE);
    }

    #[test]
    fn window_grows_to_what_is_needed_and_reads_little_past_it() {
        let bytes = counted(20 * PIECE);
        let mut window = Window::new(Slow::new(&bytes, usize::MAX));
        window.reach(8 * PIECE).unwrap();
        assert_eq!(window.buffer.capacity(), 8 * PIECE);
        window.pass(8 * PIECE);
        window.reach(17).unwrap();
        assert_eq!(window.bytes().len(), PIECE);
        assert_eq!(window.buffer.capacity(), 8 * PIECE);
    }

    #[test]
    fn read_error_is_given_after_the_bytes_before_it() {
        let bytes = counted(100);
        let mut source = Slow::new(&bytes, 30);
        source.fails = true;
        let mut window = Window::new(source);
        window.reach(90).unwrap();
        window.pass(90);
        assert!(window.reach(11).is_err());
        assert_eq!(window.bytes(), &bytes[90..]);
    }
}
