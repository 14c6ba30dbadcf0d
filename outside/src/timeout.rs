//! The incident: a routine that takes the timed-out cell out of a long pending list and pushes it on the retry list.

use crate::closing::{close, Listed};
use crate::notation::shape;
use crate::reference::{Claim, Shape, Statement};

const PENDING: u8 = 0;
const RETRY: u8 = 1;
const LATE: u8 = 2;
const PREV: u8 = 3;
const WALK: u8 = 4;

/// The names of the variables.
pub const NAMES: [&str; 5] = ["pending", "retry", "late", "prev", "walk"];

/// The point where the walk goes on to the next cell, and the one where its outcomes are.
pub const WALK_ON: u8 = 5;
pub const WALKED: u8 = 2;

/// The stop.
pub const STOP: u8 = 12;

/// The routine: find the cell before the late one, unlink the late one, push it on the retry list.
pub fn program() -> Vec<Statement> {
    [
        [2, PREV, 0, 1, 0],        //  0  prev = null
        [3, WALK, PENDING, 2, 0],  //  1  walk = pending
        [8, WALK, 0, STOP, 3],     //  2  walk == null?
        [9, WALK, LATE, 6, 4],     //  3  walk == late?
        [3, PREV, WALK, 5, 0],     //  4  prev = walk
        [5, WALK, WALK, 2, 0],     //  5  walk = walk->n
        [5, WALK, LATE, 7, 0],     //  6  walk = late->n
        [8, PREV, 0, 8, 9],        //  7  prev == null?
        [3, PENDING, WALK, 10, 0], //  8  pending = walk
        [7, PREV, WALK, 10, 0],    //  9  prev->n = walk
        [7, LATE, RETRY, 11, 0],   // 10  late->n = retry
        [3, RETRY, LATE, STOP, 0], // 11  retry = late
        [0, 0, 0, 0, 0],           // 12  stop
    ]
    .map(Statement::from_record)
    .to_vec()
}

/// The entry shapes: the late cell first or later in a pending list of any length, beside a retry list of any length.
/// Keys: pending 1, retry 2, late 4, pending and late 5; 0 stands for all other cells of both lists.
pub fn entries() -> Vec<Shape> {
    [
        // The late cell is first, without other cells and with them.
        "{5}",
        "{2, 5}",
        "{0s, 5} 5>0:h 0>0:h",
        "{0s, 2, 5} 5>0:h 2>0:h 0>0:h",
        // The late cell comes later.
        "{1, 4} 1>4:1",
        "{1, 2, 4} 1>4:1",
        "{0s, 1, 4} 1>0:h 1>4:h 0>0:h 0>4:h 4>0:h",
        "{0s, 1, 2, 4} 1>0:h 1>4:h 2>0:h 0>0:h 0>4:h 4>0:h",
    ]
    .map(shape)
    .to_vec()
}

/// The whole claim.
pub fn claim() -> Claim {
    close(
        NAMES.len() as u8,
        &program(),
        &entries(),
        Listed::Covered,
        512,
    )
    .expect("the claim has at most 512 shapes")
}

/// The outcome that is missed: the walk goes on from the first cell of a pending list to one of many others, and others are
/// left, the late cell behind them.
pub fn divided() -> Shape {
    shape("{0s, 4, 9, 16} 9>16:1 16>0:h 16>4:h 0>0:h 0>4:h 4>0:h")
}

/// The claim that misses the case: the outcome of the divided individual isn't listed where the walk has gone on.
pub fn missed() -> Claim {
    let mut claim = claim();
    let divided = (WALKED, divided());
    claim.listed.retain(|listed| *listed != divided);
    claim
}

#[cfg(test)]
mod tests {
    use super::*;
    use crate::reference::{check, run_step, step, Next, Store};

    #[test]
    fn the_whole_claim_is_accepted_with_nothing_open_and_nothing_shared_at_the_stop() {
        let mut answer = [0; 13];
        let verdict = check(&claim().bytes(), &mut answer);
        assert!(verdict.accepted() && verdict.b == 0, "{verdict}");
        assert_eq!(answer[STOP as usize], 4);
        // The late cell and the one before it link to the same cell for one step.
        assert_eq!(answer[10], 1);
        assert!(answer.iter().all(|&byte| byte % 4 < 2));
    }

    #[test]
    fn the_missed_case_is_refused_at_the_shape_that_leads_to_it() {
        let whole = claim();
        let claim = missed();
        assert_eq!(claim.listed.len() + 1, whole.listed.len());
        let verdict = check(&claim.bytes(), &mut [0; 13]);
        assert_eq!((verdict.number, verdict.b), (8, WALKED.into()));
        let (point, start) = &claim.listed[verdict.a];
        assert_eq!(*point, WALK_ON);
        let expected = "{0s, 4, 25} 25>0:h 25>4:h 0>0:h 0>4:h 4>0:h";
        assert_eq!(*start, shape(expected));
        let results = step(start, claim.program[WALK_ON as usize]);
        let lost: Vec<&(u8, Shape)> = results
            .iter()
            .filter(|(_, result)| !claim.at(WALKED).any(|listed| result.covered_by(listed)))
            .collect();
        assert_eq!(lost, [&(WALKED, divided())]);
        // No shape before it has an outcome that is missing.
        for (point, before) in &claim.listed[..verdict.a] {
            for (successor, result) in step(before, claim.program[*point as usize]) {
                assert!(claim.at(successor).any(|listed| result.covered_by(listed)));
            }
        }
    }

    /// A pending list with the late cell at a place of it, and a retry list, by their lengths.
    fn lists(pending: usize, place: usize, retry: usize) -> Store {
        let head = |length: usize, first: usize| (length > 0).then_some(first);
        let next = |cell: usize| cell + 1 != pending && cell + 1 != pending + retry;
        Store {
            variables: vec![
                head(pending, 0),
                head(retry, pending),
                Some(place),
                None,
                None,
            ],
            links: (0..pending + retry)
                .map(|cell| (cell, next(cell).then_some(cell + 1)))
                .collect(),
        }
    }

    fn list_from(store: &Store, variable: u8) -> Vec<usize> {
        let first = store.variables[variable as usize];
        std::iter::successors(first, |cell| store.links[cell]).collect()
    }

    #[test]
    fn runs_move_the_late_cell_from_one_list_to_the_other() {
        let claim = claim();
        for pending in 1..7 {
            for place in 0..pending {
                for retry in 0..4 {
                    let mut store = lists(pending, place, retry);
                    let mut expected = list_from(&store, PENDING);
                    let mut retried = list_from(&store, RETRY);
                    retried.insert(0, expected.remove(place));
                    let mut point = 0;
                    loop {
                        assert!(claim.at(point).any(|shape| store.fits(shape)));
                        match run_step(&store, claim.program[point as usize]) {
                            Next::At(successor, after) => (point, store) = (successor, after),
                            Next::Stopped => break,
                            Next::ThroughNull => panic!("through null at {point}"),
                        }
                    }
                    assert_eq!(list_from(&store, PENDING), expected);
                    assert_eq!(list_from(&store, RETRY), retried);
                }
            }
        }
    }
}
