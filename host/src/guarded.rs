//! Memory that may only be read, between two pages that may not be touched: a call that reads before or behind what it is
//! lent, or writes to it, ends the run. For Linux on x86-64, as the library is.

use std::ffi::c_void;

const PAGE: usize = 4_096;

const PROT_NONE: i32 = 0;
const PROT_READ: i32 = 1;
const PROT_WRITE: i32 = 2;
const MAP_PRIVATE: i32 = 2;
const MAP_ANONYMOUS: i32 = 0x20;

extern "C" {
    fn mmap(at: *mut c_void, len: usize, may: i32, flags: i32, file: i32, from: i64)
        -> *mut c_void;
    fn mprotect(at: *mut c_void, len: usize, may: i32) -> i32;
    fn munmap(at: *mut c_void, len: usize) -> i32;
}

/// Which of the two pages the bytes lie against.
#[derive(Clone, Copy, Debug, PartialEq, Eq)]
pub enum Against {
    /// The first byte follows the page before.
    Front,
    /// The page behind follows the last byte.
    Rear,
}

/// The memory, for one slice at a time.
pub struct Guarded {
    base: *mut u8,
    /// The bytes between the two pages.
    room: usize,
}

impl Guarded {
    /// Memory for slices of up to so many bytes.
    pub fn new(most: usize) -> Self {
        let room = most.div_ceil(PAGE).max(1) * PAGE;
        let flags = MAP_PRIVATE | MAP_ANONYMOUS;
        // SAFETY: new memory of this length, anywhere; nothing else lies in it.
        let base = unsafe {
            mmap(
                std::ptr::null_mut(),
                room + 2 * PAGE,
                PROT_NONE,
                flags,
                -1,
                0,
            )
        };
        assert!(base as isize != -1, "no memory");
        Guarded {
            base: base.cast(),
            room,
        }
    }

    /// Holds a copy of a slice that lies against one of the pages.
    pub fn hold(&mut self, words: &[u32], against: Against) -> &[u32] {
        let bytes = self.place(size_of_val(words), against);
        self.allow(PROT_READ | PROT_WRITE);
        // SAFETY: `bytes` is aligned, since the pages are and the length is a multiple of four, and has room for the words
        // between the two pages; nobody else holds a slice of this memory.
        unsafe { std::ptr::copy_nonoverlapping(words.as_ptr(), bytes.cast(), words.len()) };
        self.allow(PROT_READ);
        // SAFETY: the words were just written there, and none is written before this borrow ends.
        unsafe { std::slice::from_raw_parts(bytes.cast(), words.len()) }
    }

    /// The same for bytes.
    pub fn hold_bytes(&mut self, source: &[u8], against: Against) -> &[u8] {
        let bytes = self.place(source.len(), against);
        self.allow(PROT_READ | PROT_WRITE);
        // SAFETY: `bytes` has room for the source between the two pages; nobody else holds a slice of this memory.
        unsafe { std::ptr::copy_nonoverlapping(source.as_ptr(), bytes, source.len()) };
        self.allow(PROT_READ);
        // SAFETY: the bytes were just written there, and none is written before this borrow ends.
        unsafe { std::slice::from_raw_parts(bytes, source.len()) }
    }

    /// Where so many bytes begin.
    fn place(&self, len: usize, against: Against) -> *mut u8 {
        assert!(len <= self.room);
        let from = match against {
            Against::Front => PAGE,
            Against::Rear => PAGE + self.room - len,
        };
        // SAFETY: it lies inside the memory.
        unsafe { self.base.add(from) }
    }

    fn allow(&mut self, may: i32) {
        // SAFETY: these pages are this memory's own.
        let done = unsafe { mprotect(self.base.add(PAGE).cast(), self.room, may) };
        assert_eq!(done, 0);
    }
}

impl Drop for Guarded {
    fn drop(&mut self) {
        // SAFETY: this memory is given back once, and nobody holds a slice of it.
        unsafe { munmap(self.base.cast(), self.room + 2 * PAGE) };
    }
}

#[cfg(test)]
mod tests {
    use super::*;

    #[test]
    fn what_is_held_is_what_was_given() {
        let mut guarded = Guarded::new(5_000);
        assert_eq!(guarded.room, 2 * PAGE);
        let words: Vec<u32> = (0..1_250).collect();
        for against in [Against::Front, Against::Rear] {
            assert_eq!(guarded.hold(&words, against), words);
            assert_eq!(guarded.hold_bytes(b"a := unit", against), b"a := unit");
            assert_eq!(guarded.hold(&[], against), [0_u32; 0]);
        }
    }

    #[test]
    fn slices_lie_against_the_pages() {
        let mut guarded = Guarded::new(8);
        let (base, room) = (guarded.base as usize, guarded.room);
        let front = guarded.hold(&[1, 2], Against::Front).as_ptr() as usize;
        let rear = guarded.hold(&[1, 2], Against::Rear).as_ptr() as usize;
        assert_eq!((front, rear), (base + PAGE, base + PAGE + room - 8));
    }

    /// Set for the process that reads outside.
    const OUTSIDE: &str = "GUARDED_READ_OUTSIDE";

    #[test]
    fn a_read_behind_ends_the_process() {
        if std::env::var_os(OUTSIDE).is_some() {
            let mut guarded = Guarded::new(8);
            let held = guarded.hold_bytes(b"ab", Against::Rear);
            // SAFETY: none; the process ends here.
            println!("read {}", unsafe { held.as_ptr().add(2).read_volatile() });
            return;
        }
        let program = std::env::current_exe().unwrap();
        let run = std::process::Command::new(program)
            .args(["guarded::tests::a_read_behind_ends_the_process", "--exact"])
            .env(OUTSIDE, "1")
            .output()
            .unwrap();
        assert_eq!(run.status.code(), None, "it was not ended by a signal");
    }
}
