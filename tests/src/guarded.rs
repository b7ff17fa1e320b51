//! Memory to lend between two stretches where nothing is mapped, so that a call
//! which reads or writes beyond what it was lent ends the test.
//!
//! A hole among other mappings might not stay one: a thread that asks for memory
//! can be given the hole, and a touch there no longer faults. So this memory lies
//! far below all addresses that Linux chooses by itself, and is no neighbour of
//! any other. Still its guards are checked, before it is lent and when it is given
//! back, and a page that came to lie in them fails the test.

use std::ffi::{c_int, c_long, c_void};
use std::io::Error;
use std::slice;
use std::sync::atomic::{AtomicUsize, Ordering};
use std::thread;

const READ: c_int = 1;
const READ_AND_WRITE: c_int = 3;
/// MAP_PRIVATE and MAP_ANONYMOUS, as Linux numbers them.
const PRIVATE_AND_ANONYMOUS: c_int = 0x22;
/// ENOMEM, which mincore answers where nothing is mapped.
const NOT_MAPPED: c_int = 12;

/// The length of a guard: whole pages of any size in use, so that each of its
/// ends lies on a page's edge.
pub const GUARD: usize = 65536;

/// From the start of one memory to that of the next, and where the next one starts.
const STRETCH: usize = 1 << 30;
static NEXT: AtomicUsize = AtomicUsize::new(64 * STRETCH);

extern "C" {
    fn mmap(
        address: *mut c_void,
        length: usize,
        access: c_int,
        flags: c_int,
        file: c_int,
        offset: c_long,
    ) -> *mut c_void;
    fn mprotect(address: *mut c_void, length: usize, access: c_int) -> c_int;
    fn munmap(address: *mut c_void, length: usize) -> c_int;
    fn mincore(address: *mut c_void, length: usize, resident: *mut u8) -> c_int;
    fn getpagesize() -> c_int;
}

/// On which side lent memory is flush with a guard.
#[derive(Clone, Copy, Debug, PartialEq, Eq)]
pub enum Flush {
    Start,
    End,
}

/// Both sides.
pub const BOTH: [Flush; 2] = [Flush::Start, Flush::End];

/// The length of a page.
pub fn page() -> usize {
    // SAFETY: the call takes nothing and touches no memory.
    unsafe { getpagesize() as usize }
}

/// Maps new memory, all 0, at an address where there is none.
pub fn map(address: usize, length: usize) -> *mut u8 {
    let wanted = address as *mut c_void;
    // SAFETY: where memory is already, the system maps elsewhere and leaves it.
    let mapped = unsafe { mmap(wanted, length, READ_AND_WRITE, PRIVATE_AND_ANONYMOUS, -1, 0) };
    assert_eq!(mapped, wanted, "no memory to be had at this address");
    mapped.cast()
}

/// Memory between two guards, all 0 at first.
pub struct Guarded {
    start: *mut u8,
    length: usize,
    read_only: bool,
}

impl Guarded {
    /// At least `length` bytes.
    pub fn new(length: usize) -> Self {
        let length = length.next_multiple_of(GUARD).max(GUARD);
        let start = map(NEXT.fetch_add(STRETCH, Ordering::Relaxed), length);
        let memory = Self { start, length, read_only: false };
        memory.check_guards();
        memory
    }

    /// No page of a guard is mapped.
    fn check_guards(&self) {
        let (below, beyond) = (self.start as usize - GUARD, self.start as usize + self.length);
        for at in (0..GUARD).step_by(page()).flat_map(|at| [below + at, beyond + at]) {
            let mut resident = 0;
            // SAFETY: asked of one page, the call writes one byte at most.
            let answer = unsafe { mincore(at as *mut c_void, 1, &mut resident) };
            let error = Error::last_os_error().raw_os_error();
            assert_eq!((answer, error), (-1, Some(NOT_MAPPED)), "a page in a guard, {at:#x}");
        }
    }

    /// Where `size` bytes lie that are flush with a guard.
    pub fn place(&self, size: usize, flush: Flush) -> *mut u8 {
        assert!(size <= self.length, "{size} bytes of {}", self.length);
        match flush {
            Flush::Start => self.start,
            // SAFETY: the offset lies within the memory or at its end.
            Flush::End => unsafe { self.start.add(self.length - size) },
        }
    }

    /// Copies bytes flush with a guard.
    pub fn bytes(&mut self, from: &[u8], flush: Flush) -> &mut [u8] {
        self.set_read_only(false);
        let place = self.place(from.len(), flush);
        // SAFETY: the place has room for as many bytes, all of them initialised,
        // and they are borrowed from this memory for as long as the slice lives.
        let bytes = unsafe { slice::from_raw_parts_mut(place, from.len()) };
        bytes.copy_from_slice(from);
        bytes
    }

    /// As `bytes`, and until the next copy a write to them ends the test.
    pub fn bytes_to_read(&mut self, from: &[u8], flush: Flush) -> &[u8] {
        self.bytes(from, flush);
        self.set_read_only(true);
        // SAFETY: this is where the bytes were copied to.
        unsafe { slice::from_raw_parts(self.place(from.len(), flush), from.len()) }
    }

    /// Copies 16-bit numbers flush with a guard.
    pub fn numbers(&mut self, from: &[u16], flush: Flush) -> &[u16] {
        self.set_read_only(false);
        let place = self.place(2 * from.len(), flush).cast::<u16>();
        // SAFETY: as for bytes; a guard's edge is even, and so is the place.
        let numbers = unsafe { slice::from_raw_parts_mut(place, from.len()) };
        numbers.copy_from_slice(from);
        numbers
    }

    /// As `numbers`, and until the next copy a write to them ends the test.
    pub fn numbers_to_read(&mut self, from: &[u16], flush: Flush) -> &[u16] {
        self.numbers(from, flush);
        self.set_read_only(true);
        let place = self.place(2 * from.len(), flush).cast::<u16>();
        // SAFETY: this is where the numbers were copied to.
        unsafe { slice::from_raw_parts(place, from.len()) }
    }

    /// Everything between the guards.
    pub fn all(&mut self) -> &mut [u8] {
        self.set_read_only(false);
        // SAFETY: this is the whole memory, borrowed for as long as the slice lives.
        unsafe { slice::from_raw_parts_mut(self.start, self.length) }
    }

    fn set_read_only(&mut self, read_only: bool) {
        if self.read_only != read_only {
            let access = if read_only { READ } else { READ_AND_WRITE };
            // SAFETY: this is the whole memory between the guards.
            let changed = unsafe { mprotect(self.start.cast(), self.length, access) };
            assert_eq!(changed, 0, "access not changed");
            self.read_only = read_only;
        }
    }
}

impl Drop for Guarded {
    fn drop(&mut self) {
        if !thread::panicking() {
            self.check_guards();
        }
        // SAFETY: the mapping is the one that was made, and nothing borrows it now.
        unsafe { munmap(self.start.cast(), self.length) };
    }
}
