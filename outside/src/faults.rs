//! Claims with one thing changed, and files that are hardly claims.

use crate::random::Random;
use crate::reference::{Claim, Key, Shape, Truth};

/// The claim without one of its shapes.
pub fn drop_shape(random: &mut Random, claim: &Claim) -> Claim {
    let mut changed = claim.clone();
    changed.listed.remove(random.below(claim.listed.len()));
    changed
}

/// The claim with one of its shapes listed twice.
pub fn double_shape(random: &mut Random, claim: &Claim) -> Claim {
    let mut changed = claim.clone();
    let number = random.below(claim.listed.len());
    let shape = claim.listed[number].clone();
    changed.listed.insert(number, shape);
    changed
}

/// A copy of the claim, the number of one of its shapes and that shape's keys; none if it has no individuals.
fn picked(random: &mut Random, claim: &Claim) -> Option<(Claim, usize, Vec<Key>)> {
    let number = random.below(claim.listed.len());
    let keys = claim.listed[number].1.keys();
    (!keys.is_empty()).then(|| (claim.clone(), number, keys))
}

/// The claim with one link value changed; none if the shape that was picked has no individuals.
pub fn change_link(random: &mut Random, claim: &Claim) -> Option<Claim> {
    let (mut changed, number, keys) = picked(random, claim)?;
    let shape = &mut changed.listed[number].1;
    let (from, to) = (*random.pick(&keys), *random.pick(&keys));
    let values = [Truth::Zero, Truth::One, Truth::Half];
    let others: Vec<Truth> = values
        .into_iter()
        .filter(|&value| value != shape.link(from, to))
        .collect();
    shape.set_link(from, to, *random.pick(&others));
    Some(changed)
}

/// The claim with one key changed in its shared bit, a variable or its summary bit, still in order; none if that makes no
/// shape.
pub fn change_key(random: &mut Random, claim: &Claim) -> Option<Claim> {
    let (mut changed, number, keys) = picked(random, claim)?;
    let shape = &mut changed.listed[number].1;
    let old = *random.pick(&keys);
    if old.mask() == 0 && random.once_in(2) {
        let summary = shape.is_summary(old);
        shape.add(old, !summary);
        return Some(changed);
    }
    let bit = match random.below(claim.variables as usize + 1) {
        0 => 256,
        variable => 1 << (variable - 1),
    };
    let new = Key(old.0 ^ bit);
    let held = (0..claim.variables).any(|variable| {
        new.holds(variable) && !old.holds(variable) && shape.holder(variable).is_some()
    });
    let summary_with_variable = new.mask() != 0 && shape.is_summary(old);
    if held || summary_with_variable || shape.has_key(new) {
        return None;
    }
    *shape = renamed(shape, old, new);
    Some(changed)
}

fn renamed(shape: &Shape, old: Key, new: Key) -> Shape {
    let name = |key: Key| if key == old { new } else { key };
    let mut renamed = Shape::empty();
    for key in shape.keys() {
        renamed.add(name(key), shape.is_summary(key));
    }
    for from in shape.keys() {
        for to in shape.keys() {
            renamed.set_link(name(from), name(to), shape.link(from, to));
        }
    }
    renamed
}

/// The file with one byte changed where a shape's masks and flags stand, in order or not.
pub fn spoil_key(random: &mut Random, file: &[u8], record: std::ops::Range<usize>) -> Vec<u8> {
    let mut spoilt = file.to_vec();
    let count = file[record.start + 1] as usize;
    let place = record.start + 1 + random.below(2 * count + 1);
    spoilt[place] = if random.once_in(2) {
        random.byte()
    } else {
        spoilt[place] ^ 1 << random.below(8)
    };
    spoilt
}

/// Random bytes, from nothing at all to files that begin well.
pub fn random_bytes(random: &mut Random) -> Vec<u8> {
    let mut file: Vec<u8> = Vec::new();
    let depth = random.below(5);
    if depth >= 1 {
        file.extend(b"SHC\x01\x00");
    }
    if depth >= 2 {
        file.extend([random.below(9) as u8, 1 + random.below(4) as u8]);
    }
    if depth >= 3 {
        for _ in 0..file[6] {
            // Ops that stop or go on to point 0 are right whatever V and N are.
            file.extend([random.below(2) as u8, 0, 0, 0, 0]);
        }
        file.extend([random.below(4) as u8, 0]);
    }
    let small = depth == 4;
    for _ in 0..random.below(60) {
        file.push(if small {
            random.below(4) as u8
        } else {
            random.byte()
        });
    }
    file
}
