//! Memory that is lent to the library: each slice ends at a page that nobody may touch, and what is
//! lent to be read cannot be written through what is lent. A touch ends the run, with the input
//! that showed it.

use std::ffi::{c_char, c_int, c_long, c_void};
use std::ptr::{self, null_mut};
use std::sync::atomic::{AtomicPtr, AtomicUsize, Ordering::Relaxed};

extern "C" {
    fn memfd_create(name: *const c_char, flags: u32) -> c_int;
    fn ftruncate(file: c_int, size: c_long) -> c_int;
    fn close(file: c_int) -> c_int;
    fn mmap(
        at: *mut c_void,
        size: usize,
        protection: c_int,
        flags: c_int,
        file: c_int,
        from: c_long,
    ) -> *mut c_void;
    fn munmap(at: *mut c_void, size: usize) -> c_int;
    fn signal(number: c_int, handler: extern "C" fn(c_int)) -> usize;
    fn write(file: c_int, bytes: *const u8, count: usize) -> isize;
    fn _exit(status: c_int) -> !;
}

/// Linux's numbers.
const NOTHING: c_int = 0;
const READ: c_int = 1;
const READ_AND_WRITE: c_int = 3;
const SHARED: c_int = 1;
const ANONYMOUS: c_int = 0x22;
const FIXED: c_int = 0x10;
const FAULTS: [c_int; 2] = [7, 11];

/// At least the size of a page on every processor that this runs on.
const PAGE: usize = 1 << 16;

/// Numbers that every pattern of bits is one of.
pub trait Plain: Copy {}
impl Plain for u8 {}
impl Plain for i64 {}

/// Memory that is mapped twice, to be written and to be read alone, before a guard page each time.
pub struct Guarded {
    writable: *mut u8,
    readable: *mut u8,
    size: usize,
}

impl Guarded {
    pub fn new() -> Self {
        Self::of(PAGE)
    }

    fn of(size: usize) -> Self {
        // SAFETY: a new file of this size is mapped over two new ranges that nothing else uses.
        unsafe {
            let file = memfd_create(c"lent".as_ptr(), 0);
            assert!(file >= 0 && ftruncate(file, size as c_long) == 0, "no memory to lend");
            let [writable, readable] = [READ_AND_WRITE, READ].map(|protection| {
                let range = mmap(null_mut(), size + PAGE, NOTHING, ANONYMOUS, -1, 0);
                let mapped = mmap(range, size, protection, SHARED | FIXED, file, 0);
                assert!(mapped == range && range as isize != -1, "no memory to lend");
                range.cast()
            });
            close(file);
            Self { writable, readable, size }
        }
    }

    /// Where so many numbers start, by the one mapping and by the other, if they end at its end.
    fn places<T: Plain>(&mut self, count: usize) -> (*mut T, *const T) {
        let bytes = count * size_of::<T>();
        if bytes > self.size {
            *self = Self::of(bytes.next_multiple_of(PAGE));
        }
        let start = self.size - bytes;
        // SAFETY: the start lies in both mappings, or is their end.
        unsafe { (self.writable.add(start).cast(), self.readable.add(start).cast()) }
    }

    /// A copy to be read alone.
    pub fn read_only<T: Plain>(&mut self, numbers: &[T]) -> &[T] {
        let (writable, readable) = self.places(numbers.len());
        // SAFETY: both are of this length, aligned since a page's end is, and live as long as `self`,
        // which is borrowed until the copy is no longer used.
        unsafe {
            ptr::copy_nonoverlapping(numbers.as_ptr(), writable, numbers.len());
            std::slice::from_raw_parts(readable, numbers.len())
        }
    }

    /// A copy to be changed.
    pub fn writable<T: Plain>(&mut self, numbers: &[T]) -> &mut [T] {
        let (writable, _) = self.places(numbers.len());
        // SAFETY: as above.
        unsafe {
            ptr::copy_nonoverlapping(numbers.as_ptr(), writable, numbers.len());
            std::slice::from_raw_parts_mut(writable, numbers.len())
        }
    }
}

impl Drop for Guarded {
    fn drop(&mut self) {
        for mapped in [self.writable, self.readable] {
            // SAFETY: these are the ranges that were mapped, and no slice of them is borrowed.
            unsafe { munmap(mapped.cast(), self.size + PAGE) };
        }
    }
}

static INPUT: AtomicPtr<u8> = AtomicPtr::new(null_mut());
static INPUT_SIZE: AtomicUsize = AtomicUsize::new(0);

/// The input that is shown where memory is touched that was not lent.
pub fn about_to_read(input: &[u8]) {
    INPUT.store(input.as_ptr().cast_mut(), Relaxed);
    INPUT_SIZE.store(input.len(), Relaxed);
}

/// From now on a touch of what was not lent ends the run as a difference does, with status 1.
pub fn watch() {
    for fault in FAULTS {
        // SAFETY: the handler only writes and ends the process.
        unsafe { signal(fault, touched) };
    }
}

extern "C" fn touched(_: c_int) {
    const SAID: &[u8] =
        b"DIFFERENT: memory is touched that was not lent, or not lent to be changed; input: ";
    let [input, size] = [INPUT.load(Relaxed) as usize, INPUT_SIZE.load(Relaxed)];
    // SAFETY: the input is borrowed by the call in which this happens.
    unsafe {
        write(2, SAID.as_ptr(), SAID.len());
        for place in input..input + size {
            let byte = *(place as *const u8);
            let digit = |half: u8| b"0123456789abcdef"[usize::from(half)];
            write(2, [digit(byte >> 4), digit(byte & 15)].as_ptr(), 2);
        }
        write(2, b"\n".as_ptr(), 1);
        _exit(1)
    }
}
