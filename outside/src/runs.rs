//! Demand 3 tried: stores that fit an entry shape of an accepted claim are run, and each store that is reached must fit a
//! listed shape and be as the answer byte says.

use crate::generate::{self, fitting_store};
use crate::random::Random;
use crate::reference::{run_step, step, Claim, Next, Shape, Store};

/// What was tried.
#[derive(Default)]
pub struct Tried {
    /// Runs from stores that fit an entry shape.
    pub runs: u64,
    /// Stores that runs reached.
    pub stores: u64,
    /// Single steps of a store held against the results of a shape that it fits.
    pub steps: u64,
}

/// One step of a random store that fits a random shape: the store after it fits one of the shape's results at the same
/// successor.
pub fn try_step(random: &mut Random, tried: &mut Tried) -> Result<(), String> {
    let variables = 1 + random.below(4) as u8;
    let cells = random.below(7);
    let store = generate::store(random, variables, cells);
    let shape = generate::blurred(random, &store.shape());
    let statement = generate::program(random, variables, 2)[0];
    tried.steps += 1;
    let Next::At(successor, after) = run_step(&store, statement) else {
        return Ok(());
    };
    let fits = |(at, result): &(u8, Shape)| *at == successor && after.fits(result);
    if step(&shape, statement).iter().any(fits) {
        Ok(())
    } else {
        Err(format!(
            "{store:?} fits {shape:?}, and after {statement:?} it fits no result"
        ))
    }
}

/// Runs some stores from the entry shapes; the error says what didn't hold.
pub fn try_runs(
    random: &mut Random,
    claim: &Claim,
    answer: &[u8],
    runs: usize,
    steps: usize,
    tried: &mut Tried,
) -> Result<(), String> {
    let entries: Vec<&Shape> = claim.at(0).collect();
    for _ in 0..runs {
        let entry = *random.pick(&entries);
        let Some(start) = fitting_store(random, entry, claim.variables) else {
            continue;
        };
        tried.runs += 1;
        run(claim, answer, start, steps, tried)?;
    }
    Ok(())
}

fn run(
    claim: &Claim,
    answer: &[u8],
    start: Store,
    steps: usize,
    tried: &mut Tried,
) -> Result<(), String> {
    let mut point = 0;
    let mut store = start.clone();
    for step in 0..=steps {
        tried.stores += 1;
        let next = run_step(&store, claim.program[point as usize]);
        holds(claim, answer[point as usize], point, &store, &next).map_err(|what| {
            format!("{what}, at point {point} after {step} steps: {store:?}, run from {start:?}")
        })?;
        match next {
            Next::At(successor, after) => (point, store) = (successor, after),
            Next::Stopped | Next::ThroughNull => return Ok(()),
        }
    }
    Ok(())
}

/// What an accepted claim says of a store that is reached at a point.
fn holds(claim: &Claim, byte: u8, point: u8, store: &Store, next: &Next) -> Result<(), String> {
    if !claim.at(point).any(|shape| store.fits(shape)) {
        return Err("the store fits no listed shape".into());
    }
    let dereferences = claim.program[point as usize].dereferenced().is_some();
    match byte % 4 {
        0 if dereferences => return Err("low part 0 at a dereference".into()),
        1 if *next == Next::ThroughNull => return Err("a null was excluded and met".into()),
        2 if !dereferences => return Err("low part 2 without a dereference".into()),
        3 => return Err("the point is never reached".into()),
        _ => {}
    }
    if byte >= 4 && store.cells().into_iter().any(|cell| store.is_shared(cell)) {
        return Err("a cell is shared where none is".into());
    }
    Ok(())
}

#[cfg(test)]
mod tests {
    use super::*;
    use crate::notation::shape;
    use crate::reference::Statement;

    fn walk(listed: Vec<(u8, Shape)>) -> Claim {
        Claim {
            variables: 1,
            program: vec![
                Statement::Follow {
                    x: 0,
                    y: 0,
                    next: 1,
                },
                Statement::Stop,
            ],
            listed,
        }
    }

    #[test]
    fn a_claim_that_misses_a_case_is_found_out() {
        let entry = (0, shape("{0s, 1} 1>0:h 0>0:h"));
        let claim = walk(vec![entry, (1, shape("{0s}  0>0:h"))]);
        let mut tried = Tried::default();
        let result = try_runs(&mut Random::new(3), &claim, &[5, 4], 200, 10, &mut tried);
        assert!(result.is_err() && tried.runs > 0);
    }

    #[test]
    fn bytes_that_overclaim_are_found_out() {
        let claim = walk(vec![(0, shape("{}"))]);
        for byte in [0, 1, 3, 5] {
            let mut tried = Tried::default();
            let result = try_runs(&mut Random::new(3), &claim, &[byte, 3], 5, 10, &mut tried);
            assert!(result.is_err(), "{byte}");
        }
    }
}
