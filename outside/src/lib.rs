//! Outside tests of the claim checker: an independent implementation of document 01, a fast one, the proved library behind
//! the feature `proved`, and what compares them.

pub mod boundary;
pub mod closing;
pub mod fast;
pub mod faults;
pub mod generate;
pub mod judge;
pub mod large;
pub mod library;
pub mod notation;
pub mod random;
pub mod reference;
pub mod rounds;
pub mod routines;
pub mod runs;
pub mod soak;
pub mod timeout;

use std::fmt;
use std::ops::Range;

/// A verdict: 0 for acceptance or the number of the refusal, with the document's a and b.
#[derive(Clone, Copy, Debug, PartialEq, Eq)]
pub struct Verdict {
    pub number: u32,
    pub a: usize,
    pub b: usize,
}

impl Verdict {
    pub fn accepted(self) -> bool {
        self.number == 0
    }
}

impl fmt::Display for Verdict {
    fn fmt(&self, f: &mut fmt::Formatter) -> fmt::Result {
        match self.number {
            0 => write!(f, "accept {} {}", self.a, self.b),
            number => write!(f, "refuse {} {} {}", number, self.a, self.b),
        }
    }
}

/// What decides a file, as every implementation here does.
pub type Check = fn(&[u8], &mut [u8]) -> Verdict;

/// What the program prints for a file: the verdict and, if it is acceptance, the answer bytes on a second line.
pub fn printed(check: Check, file: &[u8]) -> String {
    let mut answer = [0; 64];
    let verdict = check(file, &mut answer);
    if !verdict.accepted() {
        return format!("{verdict}\n");
    }
    let points = file[6] as usize;
    let bytes: Vec<String> = answer[..points].iter().map(u8::to_string).collect();
    format!("{verdict}\n{}\n", bytes.join(" "))
}

/// The two calls of an implementation.
#[derive(Clone, Copy)]
pub struct Implementation {
    pub check: Check,
    pub record: fn(&[u8], usize) -> Range<usize>,
}

/// Every implementation that this build has, the reference first.
pub fn implementations() -> Vec<(&'static str, Implementation)> {
    let mut all = vec![
        (
            "reference",
            Implementation {
                check: reference::check,
                record: reference::record,
            },
        ),
        (
            "fast",
            Implementation {
                check: fast::check,
                record: fast::record,
            },
        ),
    ];
    if library::LINKED {
        all.push((
            "library",
            Implementation {
                check: library::check,
                record: library::record,
            },
        ));
    }
    all
}
