//! One input of the long run: judged as in the comparison, and the process aborts when something disagrees.

use crate::judge::{Disagreement, Judge};
use std::cell::RefCell;

thread_local! {
    static JUDGE: RefCell<Judge> = RefCell::new(Judge::new());
}

/// Judges an input with a buffer that is long enough and one whose length the input's last byte gives.
pub fn one(file: &[u8]) {
    let result = JUDGE.with_borrow_mut(|judge| judge_one(judge, file));
    if let Err(disagreement) = result {
        eprintln!("{disagreement}");
        std::process::abort();
    }
}

fn judge_one(judge: &mut Judge, file: &[u8]) -> Result<(), Disagreement> {
    let last = file.last().copied().unwrap_or(0);
    judge.file("soak", file)?;
    judge.answer("soak, other lengths", file, usize::from(last) % 67)?;
    judge.records(file)
}

#[cfg(test)]
mod tests {
    use super::*;
    use crate::rounds::FILE_F;

    #[test]
    fn what_agrees_goes_on() {
        one(&[]);
        one(&FILE_F);
        JUDGE.with_borrow(|judge| assert_eq!(judge.kinds["soak"], 2));
    }
}
