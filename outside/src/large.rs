//! Large claims that are accepted and take work: the longest files there are, and many shapes at one point.

use crate::reference::{Claim, Key, Shape, Statement, Truth};

pub const VARIABLES: u8 = 8;

/// Ten individuals, one for each variable, those in `shared` shared, and two nameless summaries. Every link is 1/2 but
/// those from variables to the shared nameless one: so it is never opened and never lost.
fn wide(shared: u8) -> Shape {
    let mut shape = Shape::empty();
    for variable in 0..VARIABLES {
        let mask = 1 << variable;
        let bit = u16::from(shared >> variable & 1);
        shape.add(Key(256 * bit + mask), false);
    }
    shape.add(Key(0), true);
    shape.add(Key(256), true);
    for from in shape.keys() {
        for to in shape.keys() {
            if from.mask() == 0 || to != Key(256) {
                shape.set_link(from, to, Truth::Half);
            }
        }
    }
    shape
}

/// `points` points in a ring, each setting a link, with the same eight shapes at each. With 64 points it has the length of
/// the longest file.
pub fn many_points(points: u8) -> Claim {
    let program = (0..points)
        .map(|point| Statement::SetLink {
            x: point % VARIABLES,
            y: point % 3,
            next: (point + 1) % points,
        })
        .collect();
    let listed = (0..points)
        .flat_map(|point| (0..8).map(move |shared| (point, wide(shared))))
        .collect();
    Claim {
        variables: VARIABLES,
        program,
        listed,
    }
}

/// One point that sets a link and comes back, with 2 to the power of `bits` shapes. Up to 256 have different keys; of 512
/// the first half has the keys of the second and one link less, so that it covers fewer results and is looked at first.
pub fn one_point(bits: u32) -> Claim {
    let count = 1usize << bits;
    let listed = (0..count)
        .map(|number| {
            let mut shape = wide((number % 256) as u8);
            if number + 256 < count {
                shape.set_link(Key(0), Key(256), Truth::Zero);
            }
            (0, shape)
        })
        .collect();
    Claim {
        variables: VARIABLES,
        program: vec![Statement::SetLink {
            x: 0,
            y: 1,
            next: 0,
        }],
        listed,
    }
}

#[cfg(test)]
mod tests {
    use super::*;
    use crate::fast::check;

    #[test]
    fn the_longest_file_is_accepted() {
        let file = many_points(64).bytes();
        assert_eq!(file.len(), 62_793);
        assert_eq!(check(&file, &mut [0; 64]).to_string(), "accept 512 0");
    }

    #[test]
    fn all_sizes_are_accepted() {
        for bits in 2..=9 {
            let verdict = check(&one_point(bits).bytes(), &mut [0; 1]);
            assert_eq!(verdict.to_string(), format!("accept {} 0", 1 << bits));
        }
        for points in [8, 16, 32] {
            assert!(check(&many_points(points).bytes(), &mut [0; 64]).accepted());
        }
    }
}
