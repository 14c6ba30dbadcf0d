//! The verdict on a file and the answer bytes.

use super::file::{read, Claim};
use super::step::step;
use crate::Verdict;

/// Decides a file. Acceptance writes the first N bytes of the answer, a refusal writes nothing.
pub fn check(file: &[u8], answer: &mut [u8]) -> Verdict {
    let claim = match read(file) {
        Ok(reading) => reading.claim,
        Err(refusal) => return refusal,
    };
    let refuse = |number, a, b| Verdict { number, a, b };
    if claim.at(0).next().is_none() {
        return refuse(7, 0, 0);
    }
    let points = claim.program.len();
    if answer.len() < points {
        return refuse(9, points, 0);
    }
    if let Some((number, successor)) = first_uncovered(&claim) {
        return refuse(8, number, successor.into());
    }
    let bytes: Vec<u8> = (0..points as u8)
        .map(|point| byte_of(&claim, point))
        .collect();
    answer[..points].copy_from_slice(&bytes);
    Verdict {
        number: 0,
        a: claim.listed.len(),
        b: bytes.iter().filter(|&byte| byte % 4 == 2).count(),
    }
}

/// The lowest shape number with a result that no shape at the successor covers, and the successor.
pub fn first_uncovered(claim: &Claim) -> Option<(usize, u8)> {
    for (number, (point, shape)) in claim.listed.iter().enumerate() {
        for (successor, result) in step(shape, claim.program[*point as usize]) {
            if !claim.at(successor).any(|listed| result.covered_by(listed)) {
                return Some((number, successor));
            }
        }
    }
    None
}

/// The answer byte of a point of an accepted claim.
fn byte_of(claim: &Claim, point: u8) -> u8 {
    if claim.at(point).next().is_none() {
        return 3;
    }
    let low = match claim.program[point as usize].dereferenced() {
        None => 0,
        Some(variable)
            if claim
                .at(point)
                .all(|shape| shape.holder(variable).is_some()) =>
        {
            1
        }
        Some(_) => 2,
    };
    let unshared = !claim.at(point).any(|shape| shape.has_shared());
    low + if unshared { 4 } else { 0 }
}
