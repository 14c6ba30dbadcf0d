//! Files at the limits of the format and one beyond.

use crate::large;
use crate::notation::shape;
use crate::random::Random;
use crate::reference::{Claim, Key, Shape, Statement, Truth};

/// A shape with V + 2 individuals, every link the same.
fn full(variables: u8, value: Truth) -> Shape {
    let mut shape = Shape::empty();
    for variable in 0..variables {
        shape.add(Key(1 << variable), false);
    }
    shape.add(Key(0), true);
    shape.add(Key(256), true);
    for from in shape.keys() {
        for to in shape.keys() {
            shape.set_link(from, to, value);
        }
    }
    shape
}

fn ring(points: u8) -> Vec<Statement> {
    (0..points)
        .map(|point| Statement::GoOn {
            next: (point + 1) % points,
        })
        .collect()
}

/// The longest file with every point going on to the next: 64 points, 8 shapes of ten individuals at each.
fn longest(random: &mut Random) -> Claim {
    let values = [Truth::Zero, Truth::One, Truth::Half];
    let eight: Vec<Shape> = (0..8)
        .map(|_| {
            let mut shape = full(8, Truth::Half);
            for from in shape.keys() {
                for to in shape.keys() {
                    shape.set_link(from, to, *random.pick(&values));
                }
            }
            shape
        })
        .collect();
    let listed = (0..64)
        .flat_map(|point| eight.iter().map(move |shape| (point, shape.clone())))
        .collect();
    Claim {
        variables: 8,
        program: ring(64),
        listed,
    }
}

/// Whether a file is long enough to be sampled and not gone through.
pub fn is_large(file: &[u8]) -> bool {
    file.len() > 2_000
}

/// Every boundary file.
pub fn files(random: &mut Random) -> Vec<Vec<u8>> {
    let mut files = Vec::new();
    let claim = |variables, points, listed: Vec<(u8, Shape)>| {
        Claim {
            variables,
            program: ring(points),
            listed,
        }
        .bytes()
    };
    for variables in [0, 1, 7, 8] {
        for points in [1, 2, 63, 64] {
            files.push(claim(variables, points, vec![]));
            for value in [Truth::Zero, Truth::One, Truth::Half] {
                let shape = full(variables, value);
                let listed = (0..points).map(|point| (point, shape.clone())).collect();
                files.push(claim(variables, points, listed));
            }
        }
        files.extend(every_op(variables));
    }
    for count in [1, 255, 256, 257, 511, 512] {
        files.push(claim(0, 1, vec![(0, shape("{}")); count]));
        files.push(claim(1, 2, vec![(0, shape("{0s, 1} 1>0:h 0>0:h")); count]));
    }
    // One beyond a limit: V 9, N 0 and 65, M 513 and more, k = V + 3.
    let small = claim(
        2,
        2,
        vec![(0, full(2, Truth::Half)), (1, full(2, Truth::Half))],
    );
    let count = 7 + 2 * 5;
    for (place, value) in [(5, 9), (6, 0), (6, 65), (count + 1, 3), (count + 3, 5)] {
        let mut file = small.clone();
        file[place] = value;
        files.push(file);
    }
    files.push(claim(0, 1, vec![(0, shape("{}")); 513]));
    files.push(claim(0, 65, vec![(0, shape("{}"))]));
    files.push(claim(9, 1, vec![(0, shape("{}"))]));
    for longest in [longest(random).bytes(), large::many_points(64).bytes()] {
        assert_eq!(longest.len(), 62_793);
        let mut longer = longest.clone();
        longer.push(0);
        files.push(longest[..62_792].to_vec());
        files.extend([longest, longer]);
    }
    files.push(large::one_point(8).bytes());
    files.push(large::one_point(9).bytes());
    files
}

/// Full shapes through every op with every choice of two variables among the first, the second and the last.
fn every_op(variables: u8) -> Vec<Vec<u8>> {
    let mut files = Vec::new();
    let last = variables.saturating_sub(1);
    for op in 0..10 {
        for (x, y) in [(0, 0), (0, last), (last, 0), (last, last), (1, last)] {
            let used = crate::reference::program::used_fields(op);
            let field = |number: usize, value: u8| if used[number] { value } else { 0 };
            let record = [op, field(0, x), field(1, y), field(2, 1), field(3, 0)];
            let claim = Claim {
                variables,
                program: vec![Statement::from_record(record), Statement::Stop],
                listed: [Truth::Half, Truth::Zero, Truth::One]
                    .into_iter()
                    .map(|value| (0, full(variables, value)))
                    .collect(),
            };
            files.push(claim.bytes());
        }
    }
    files
}
