//! The proved library: its C face and safe wrappers. Without the feature `proved` nothing is linked and calls panic. Also
//! the entry that a fuzzer calls, for all unsafe code stands here.

use crate::Verdict;
use std::ops::Range;

/// Whether this build has the proved library.
pub const LINKED: bool = cfg!(feature = "proved");

#[cfg(feature = "proved")]
extern "C" {
    fn claim_check(
        file: *const u8,
        file_len: usize,
        answer: *mut u8,
        answer_len: usize,
        a: *mut usize,
        b: *mut usize,
    ) -> usize;

    fn claim_record(file: *const u8, file_len: usize, number: usize, start: *mut usize) -> usize;
}

/// A byte that an empty slice's pointer can stand on.
#[cfg(feature = "proved")]
static NOTHING: u8 = 0;

/// The pointer of a slice; for an empty one, a pointer that is valid all the same.
#[cfg(feature = "proved")]
fn start_of(bytes: &[u8]) -> *const u8 {
    if bytes.is_empty() {
        &NOTHING
    } else {
        bytes.as_ptr()
    }
}

/// Decides a file.
#[cfg(feature = "proved")]
pub fn check(file: &[u8], answer: &mut [u8]) -> Verdict {
    let mut nothing = 0u8;
    let length = answer.len();
    let answer = if length == 0 {
        &mut nothing as *mut u8
    } else {
        answer.as_mut_ptr()
    };
    // Values that no verdict has, so that a library that leaves them unwritten is found out.
    let (mut a, mut b) = (usize::MAX, usize::MAX);
    // SAFETY: both pairs are a valid pointer and the length that may be read or written there; a and b are places to write.
    let number = unsafe { claim_check(start_of(file), file.len(), answer, length, &mut a, &mut b) };
    assert_eq!(nothing, 0, "a write into an answer of length 0");
    Verdict {
        number: number as u32,
        a,
        b,
    }
}

/// The part of the file that holds the record of a shape.
#[cfg(feature = "proved")]
pub fn record(file: &[u8], number: usize) -> Range<usize> {
    let mut start = usize::MAX;
    // SAFETY: a valid pointer and the length that may be read there; start is a place to write.
    let length = unsafe { claim_record(start_of(file), file.len(), number, &mut start) };
    start..start.saturating_add(length)
}

#[cfg(not(feature = "proved"))]
pub fn check(_file: &[u8], _answer: &mut [u8]) -> Verdict {
    panic!("built without the feature `proved`")
}

#[cfg(not(feature = "proved"))]
pub fn record(_file: &[u8], _number: usize) -> Range<usize> {
    panic!("built without the feature `proved`")
}

/// What libFuzzer calls with each input.
///
/// # Safety
/// `start` and `length` are bytes that may be read for the length of the call.
#[cfg(feature = "soak")]
#[no_mangle]
pub unsafe extern "C" fn LLVMFuzzerTestOneInput(start: *const u8, length: usize) -> i32 {
    let file = if length == 0 {
        &[]
    } else {
        // SAFETY: as above; an empty input may come with any pointer.
        unsafe { std::slice::from_raw_parts(start, length) }
    };
    crate::soak::one(file);
    0
}
