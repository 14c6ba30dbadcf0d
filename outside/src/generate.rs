//! Random programs, shapes, stores and claims.

use crate::closing::{close, Listed};
use crate::random::Random;
use crate::reference::{Claim, Key, Shape, Statement, Store, Truth};
use std::collections::{BTreeMap, BTreeSet};

/// A random program; without variables it only stops and goes on.
pub fn program(random: &mut Random, variables: u8, points: u8) -> Vec<Statement> {
    (0..points)
        .map(|point| statement(random, variables, points, point))
        .collect()
}

fn statement(random: &mut Random, variables: u8, points: u8, point: u8) -> Statement {
    let op = if variables == 0 {
        random.below(2) as u8
    } else {
        // Steps that change links are the ones worth most.
        *random.pick(&[0, 1, 2, 3, 3, 4, 4, 5, 5, 5, 6, 6, 7, 7, 7, 7, 8, 8, 9, 9])
    };
    let used = crate::reference::program::used_fields(op);
    let mut record = [op, 0, 0, 0, 0];
    for field in 0..4 {
        if used[field] {
            record[field + 1] = if field < 2 {
                random.below(variables.into()) as u8
            } else if random.once_in(5) {
                random.below(points.into()) as u8
            } else {
                (point + 1) % points
            };
        }
    }
    Statement::from_record(record)
}

/// A random link value; `density` of 10 aren't 0.
fn value(random: &mut Random, density: usize) -> Truth {
    if random.below(10) >= density {
        Truth::Zero
    } else if random.once_in(3) {
        Truth::One
    } else {
        Truth::Half
    }
}

/// A random shape as the file allows it, whether or not a store fits it.
pub fn shape(random: &mut Random, variables: u8) -> Shape {
    let mut groups: Vec<BTreeSet<u8>> = Vec::new();
    for variable in 0..variables {
        match random.below(6) {
            0 => {}
            1 | 2 if !groups.is_empty() => {
                let group = random.below(groups.len());
                groups[group].insert(variable);
            }
            _ => groups.push(BTreeSet::from([variable])),
        }
    }
    let mut shape = Shape::empty();
    for group in groups {
        shape.add(Key::new(&group, random.once_in(3)), false);
    }
    for nameless in [Key(0), Key(256)] {
        if !random.once_in(3) {
            shape.add(nameless, !random.once_in(3));
        }
    }
    let density = random.below(10) + 1;
    for from in shape.keys() {
        for to in shape.keys() {
            shape.set_link(from, to, value(random, density));
        }
    }
    shape
}

/// A random store.
pub fn store(random: &mut Random, variables: u8, cells: usize) -> Store {
    let place = |random: &mut Random| {
        if cells == 0 || random.once_in(4) {
            None
        } else {
            Some(random.below(cells))
        }
    };
    Store {
        variables: (0..variables).map(|_| place(random)).collect(),
        links: (0..cells).map(|cell| (cell, place(random))).collect(),
    }
}

/// A shape that covers the one given: some links become 1/2, some nameless individuals summaries.
pub fn blurred(random: &mut Random, shape: &Shape) -> Shape {
    let mut blurred = shape.clone();
    let rate = *random.pick(&[1, 2, 4, 8]);
    for key in shape.keys() {
        if key.mask() == 0 && random.once_in(2) {
            blurred.add(key, true);
        }
        for to in shape.keys() {
            if random.once_in(rate) {
                blurred.set_link(key, to, Truth::Half);
            }
        }
    }
    blurred
}

/// An entry shape: of a random store, blurred, or any shape at all.
fn entry(random: &mut Random, variables: u8) -> Shape {
    if random.once_in(4) {
        return shape(random, variables);
    }
    let cells = random.below(7);
    let exact = store(random, variables, cells).shape();
    if random.once_in(2) {
        exact
    } else {
        blurred(random, &exact)
    }
}

/// A random accepted claim of at most `most` shapes: entry shapes and every uncovered outcome until nothing is missing.
/// The largest of some that were made, for most programs come to an end soon.
pub fn accepted_claim(random: &mut Random, most: usize) -> Claim {
    let mut best: Option<Claim> = None;
    let tries = 1 + random.below(6);
    let mut made = 0;
    while made < tries {
        let Some(claim) = closed_claim(random, most) else {
            continue;
        };
        made += 1;
        if best
            .as_ref()
            .is_none_or(|best| best.listed.len() < claim.listed.len())
        {
            best = Some(claim);
        }
    }
    best.expect("at least one claim was made")
}

fn closed_claim(random: &mut Random, most: usize) -> Option<Claim> {
    // Mostly small, now and then up to the limits of the format.
    let (variables, points) = if random.once_in(10) {
        (random.below(9), 1 + random.below(64))
    } else {
        (1 + random.below(5), 1 + random.below(8))
    };
    let (variables, points) = (variables as u8, points as u8);
    let program = program(random, variables, points);
    let entries: Vec<Shape> = (0..1 + random.below(3))
        .map(|_| entry(random, variables))
        .collect();
    let listed = if random.once_in(4) {
        Listed::Itself
    } else {
        Listed::Covered
    };
    close(variables, &program, &entries, listed, most)
}

/// A random store that fits the shape; none if none was found.
pub fn fitting_store(random: &mut Random, shape: &Shape, variables: u8) -> Option<Store> {
    (0..40).find_map(|_| {
        let store = likely_store(random, shape, variables);
        store.fits(shape).then_some(store)
    })
}

/// A store with cells for each key and links where the shape allows them; it may fit or not.
fn likely_store(random: &mut Random, shape: &Shape, variables: u8) -> Store {
    let mut key_of: Vec<Key> = Vec::new();
    for key in shape.keys() {
        let count = if shape.is_summary(key) {
            1 + random.below(4)
        } else {
            1
        };
        key_of.extend((0..count).map(|_| key));
    }
    let held = (0..variables)
        .map(|variable| key_of.iter().position(|key| key.holds(variable)))
        .collect();
    let mut linked = vec![0; key_of.len()];
    let mut links: BTreeMap<usize, Option<usize>> = BTreeMap::new();
    let mut order: Vec<usize> = (0..key_of.len()).collect();
    for last in (1..order.len()).rev() {
        order.swap(last, random.below(last + 1));
    }
    for from in order {
        let value = |to: &usize| shape.link(key_of[from], key_of[*to]);
        let forced = (0..key_of.len()).find(|to| value(to) == Truth::One);
        let free: Vec<usize> = (0..key_of.len())
            .filter(|to| value(to) == Truth::Half && (key_of[*to].shared() || linked[*to] == 0))
            .collect();
        let to = match forced {
            Some(to) => Some(to),
            None if free.is_empty() || random.once_in(4) => None,
            None => Some(*random.pick(&free)),
        };
        if let Some(to) = to {
            linked[to] += 1;
        }
        links.insert(from, to);
    }
    Store {
        variables: held,
        links,
    }
}

#[cfg(test)]
mod tests {
    use super::*;
    use crate::reference::check;

    #[test]
    fn random_claims_are_accepted_and_blurring_covers() {
        let mut random = Random::new(1);
        for _ in 0..100 {
            let claim = accepted_claim(&mut random, 60);
            assert!(check(&claim.bytes(), &mut [0; 64]).accepted());
            let shape = shape(&mut random, 4);
            assert!(shape.covered_by(&blurred(&mut random, &shape)));
        }
    }

    #[test]
    fn a_store_fits_its_shape_and_what_covers_it() {
        let mut random = Random::new(2);
        for _ in 0..300 {
            let cells = random.below(6);
            let store = store(&mut random, 3, cells);
            let shape = store.shape();
            assert!(store.fits(&shape));
            assert!(store.fits(&blurred(&mut random, &shape)));
            assert!(fitting_store(&mut random, &shape, 3).is_none_or(|found| found.fits(&shape)));
        }
    }
}
