//! Closing a claim: every outcome that isn't listed at its successor is added, until nothing is missing.

use crate::reference::{step, Claim, Shape, Statement};

/// When an outcome counts as listed.
#[derive(Clone, Copy, PartialEq, Eq)]
pub enum Listed {
    /// A shape at the successor covers it.
    Covered,
    /// The shape itself stands at the successor.
    Itself,
}

/// The closed claim of a program and its entry shapes; none if it has more than `most` shapes.
pub fn close(
    variables: u8,
    program: &[Statement],
    entries: &[Shape],
    listed: Listed,
    most: usize,
) -> Option<Claim> {
    let mut at: Vec<Vec<Shape>> = vec![Vec::new(); program.len()];
    let mut waiting: Vec<(u8, Shape)> = Vec::new();
    let mut count = 0;
    let mut add = |point: u8, shape: Shape, waiting: &mut Vec<(u8, Shape)>| {
        let here = &mut at[point as usize];
        let found = here.iter().any(|other| match listed {
            Listed::Covered => shape.covered_by(other),
            Listed::Itself => shape == *other,
        });
        if !found {
            here.push(shape.clone());
            waiting.push((point, shape));
            count += 1;
        }
        count <= most
    };
    for entry in entries {
        if !add(0, entry.clone(), &mut waiting) {
            return None;
        }
    }
    let mut next = 0;
    while next < waiting.len() {
        let (point, shape) = waiting[next].clone();
        next += 1;
        for (successor, result) in step(&shape, program[point as usize]) {
            if !add(successor, result, &mut waiting) {
                return None;
            }
        }
    }
    let mut claim = Claim {
        variables,
        program: program.to_vec(),
        listed: waiting,
    };
    claim.listed.sort_by_key(|(point, _)| *point);
    Some(claim)
}

#[cfg(test)]
mod tests {
    use super::*;
    use crate::notation::shape;
    use crate::reference::{check, read};
    use std::fs;
    use std::path::Path;

    #[test]
    fn a_closed_claim_is_accepted() {
        let program = [Statement::New { x: 0, next: 0 }];
        let claim = close(1, &program, &[shape("{}")], Listed::Itself, 512).unwrap();
        assert_eq!(claim.listed.len(), 4);
        assert!(check(&claim.bytes(), &mut [0; 1]).accepted());
    }

    #[test]
    fn the_limit_is_kept() {
        let program = [Statement::New { x: 0, next: 0 }];
        assert!(close(1, &program, &[shape("{}")], Listed::Itself, 3).is_none());
    }

    /// Whether every shape of one claim is covered by one at the same point of the other.
    fn covered(one: &Claim, other: &Claim) -> bool {
        one.listed
            .iter()
            .all(|(point, shape)| other.at(*point).any(|listed| shape.covered_by(listed)))
    }

    /// The routines list nothing that their entry shapes don't lead to.
    #[test]
    fn the_routines_are_closed_by_their_entries() {
        let claims = Path::new(env!("CARGO_MANIFEST_DIR")).join("../claims");
        let mut count = 0;
        for entry in fs::read_dir(claims).unwrap() {
            let path = entry.unwrap().path();
            let name = path.file_name().unwrap().to_string_lossy().into_owned();
            if !name.ends_with(".shc") || name == "timeout_retry_missed.shc" {
                continue;
            }
            let claim = read(&fs::read(&path).unwrap()).unwrap().claim;
            let entries: Vec<Shape> = claim.at(0).cloned().collect();
            let closed = close(
                claim.variables,
                &claim.program,
                &entries,
                Listed::Covered,
                512,
            );
            let closed = closed.expect("a routine has at most 512 shapes");
            assert!(covered(&closed, &claim), "{name}");
            assert!(covered(&claim, &closed), "{name}");
            count += 1;
        }
        assert_eq!(count, 18);
    }
}
