//! Runs libFuzzer over the comparison, with libFuzzer's options and folders as arguments. If `FUZZ_TRIAL` is set, the library
//! has a mistake.
//!
//! The program has a C `main`, since Rust's own would handle the signals by which libFuzzer learns of a crash.

#![no_main]

use fuzz::{changed, Fuzzed, Mistaken, ANSWERS};
use std::ffi::{c_char, c_int, c_uint};
use std::process::abort;
use std::sync::atomic::{AtomicPtr, AtomicU8, Ordering};
use std::sync::{LazyLock, Mutex};
use zaghdurem_host::random::Random;
use zaghdurem_host::reader::{Callee, Library};

extern "C" {
    /// libFuzzer's loop, which calls a function with each input. It ends the process itself, unless its options are wrong.
    fn LLVMFuzzerRunDriver(
        argc: *mut c_int,
        argv: *mut *mut *mut c_char,
        one_input: extern "C" fn(*const u8, usize) -> c_int,
    ) -> c_int;

    /// libFuzzer's own change to the bytes of an input, in place; gives the new length, which is at most `most`.
    fn LLVMFuzzerMutate(bytes: *mut u8, len: usize, most: usize) -> usize;

    /// Has a function called when the process ends by `exit`.
    fn atexit(last: extern "C" fn()) -> c_int;
}

/// A count for each answer. libFuzzer keeps an input that moves one, so that files that the oracle never sees are kept too:
/// those over the limits, and those that are not UTF-8.
#[link_section = "__libfuzzer_extra_counters"]
static COUNTERS: [AtomicU8; ANSWERS] = [const { AtomicU8::new(0) }; ANSWERS];

/// The comparison, which one thread uses.
static FUZZED: LazyLock<Mutex<Fuzzed>> = LazyLock::new(|| Mutex::new(Fuzzed::new(callee())));

/// What is compared with the oracle.
fn callee() -> &'static dyn Callee {
    match std::env::var_os("FUZZ_TRIAL") {
        Some(_) => &Mistaken,
        None => &Library,
    }
}

/// Runs libFuzzer on a thread with a large stack.
#[no_mangle]
pub extern "C" fn main(mut argc: c_int, argv: *mut *mut c_char) -> c_int {
    let argv = AtomicPtr::new(argv);
    oracle::with_stack(move || {
        let mut argv = argv.into_inner();
        // SAFETY: both are those of this program, which live until it ends; so do the functions.
        unsafe {
            atexit(report);
            LLVMFuzzerRunDriver(&mut argc, &mut argv, one_input)
        }
    })
}

/// Prints what was compared. An input that fails ends the process in another way.
extern "C" fn report() {
    if let Ok(fuzzed) = FUZZED.try_lock() {
        eprintln!("compared: {fuzzed}");
    }
}

/// Compares one input. A disagreement is printed with a smaller input, and ends the process; libFuzzer then saves the input.
extern "C" fn one_input(bytes: *const u8, len: usize) -> c_int {
    // SAFETY: libFuzzer gives a pointer to so many bytes, which stay as they are during the call.
    let input = unsafe { std::slice::from_raw_parts(bytes, len) };
    let mut fuzzed = FUZZED.lock().expect("no input panicked before");
    match fuzzed.compare(input) {
        Ok(answer) => {
            COUNTERS[answer].fetch_add(1, Ordering::Relaxed);
            0
        }
        Err(found) => {
            eprintln!("a disagreement:\n{found}");
            abort()
        }
    }
}

/// Changes an input in place, by its tokens or by its bytes, and gives its new length. libFuzzer calls it by this name.
#[export_name = "LLVMFuzzerCustomMutator"]
extern "C" fn change(bytes: *mut u8, len: usize, most: usize, seed: c_uint) -> usize {
    let mut random = Random::new(seed.into());
    if random.chance(1, 2) {
        // SAFETY: this is what libFuzzer lent.
        return unsafe { LLVMFuzzerMutate(bytes, len, most) };
    }
    // SAFETY: libFuzzer lends `most` bytes, of which the first `len` are the input.
    let changed = changed(
        unsafe { std::slice::from_raw_parts(bytes, len) },
        &mut random,
    );
    let len = changed.len().min(most);
    // SAFETY: as above, and what is copied is a vector of its own.
    unsafe { std::ptr::copy_nonoverlapping(changed.as_ptr(), bytes, len) };
    len
}
