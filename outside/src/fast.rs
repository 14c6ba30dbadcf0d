//! A second implementation of the same algorithm, written for speed: arrays, no allocation, early tests before copies. It
//! is what the benchmark measures the proved library against.

mod engine;
mod fold;
mod reader;

use crate::Verdict;
use engine::{each_result, Working};
use fold::{Folded, LONGEST};
use reader::{Layout, RECORD};
use std::ops::Range;

/// Decides a file. Acceptance writes the first N bytes of the answer, a refusal writes nothing.
pub fn check(file: &[u8], answer: &mut [u8]) -> Verdict {
    let mut layout = Layout::new();
    if let Err(refusal) = layout.read(file) {
        return refusal;
    }
    if layout.at(0).is_empty() {
        return refuse(7, 0, 0);
    }
    if answer.len() < layout.points {
        return refuse(9, layout.points, 0);
    }
    if let Some((number, successor)) = first_uncovered(file, &layout) {
        return refuse(8, number, successor);
    }
    let mut open = 0;
    for (point, byte) in answer[..layout.points].iter_mut().enumerate() {
        *byte = byte_of(file, &layout, point);
        open += usize::from(*byte % 4 == 2);
    }
    Verdict {
        number: 0,
        a: layout.shapes,
        b: open,
    }
}

fn refuse(number: u32, a: usize, b: usize) -> Verdict {
    Verdict { number, a, b }
}

/// The part of the file that holds the record of a shape.
pub fn record(file: &[u8], number: usize) -> Range<usize> {
    let mut layout = Layout::new();
    match layout.read(file) {
        Ok(()) if number < layout.shapes => layout.record(number),
        _ => 0..0,
    }
}

fn first_uncovered(file: &[u8], layout: &Layout) -> Option<(usize, usize)> {
    let mut start = Working::new();
    let mut folded = Folded::new();
    for point in 0..layout.points {
        let statement = layout.statement(file, point);
        for number in layout.at(point) {
            let record = &file[layout.record(number)][1..];
            let uncovered = match statement[0] {
                0 => None,
                1 | 8 | 9 => {
                    let successor = branch(statement, record);
                    let covered = is_covered(file, layout, successor, record);
                    (!covered).then_some(successor)
                }
                _ => {
                    start.load(record);
                    let successor = statement[3] as usize;
                    let all = each_result(&start, statement, &mut |result| {
                        folded.fold_keys(result);
                        result_is_covered(file, layout, successor, result, &mut folded)
                    });
                    (!all).then_some(successor)
                }
            };
            if let Some(successor) = uncovered {
                return Some((number, successor));
            }
        }
    }
    None
}

/// The successor of ops 1, 8 and 9, whose result is the shape itself.
fn branch(statement: &[u8; RECORD], record: &[u8]) -> usize {
    let [op, x, y, yes, no] = *statement;
    let decided = match op {
        8 => holder_mask(record, x) == 0,
        9 => holder_mask(record, x) == holder_mask(record, y),
        _ => true,
    };
    usize::from(if decided { yes } else { no })
}

/// The mask of the individual that holds a variable; 0 if the variable is null.
fn holder_mask(record: &[u8], variable: u8) -> u8 {
    let header = &record[1..1 + 2 * record[0] as usize];
    let masks = header.chunks_exact(2).map(|pair| pair[0]);
    masks
        .into_iter()
        .find(|mask| mask >> variable & 1 == 1)
        .unwrap_or(0)
}

/// The summary bit in each pair of mask and flags of a word.
const SUMMARIES: u64 = 0x0200_0200_0200_0200;

/// Whether the masks and flags of a result allow covering: the same keys, and a summary only where one is listed. Four
/// individuals are compared at once.
fn keys_covered(result: &[u8], listed: &[u8]) -> bool {
    let (result_words, result_rest) = result.as_chunks::<8>();
    let (listed_words, listed_rest) = listed.as_chunks::<8>();
    let covered = |r: u64, l: u64| ((r ^ l) & !SUMMARIES) | (r & !l) == 0;
    result_words
        .iter()
        .zip(listed_words)
        .all(|(r, l)| covered(u64::from_le_bytes(*r), u64::from_le_bytes(*l)))
        && result_rest
            .chunks_exact(2)
            .zip(listed_rest.chunks_exact(2))
            .all(|(r, l)| r[0] == l[0] && (r[1] == l[1] || r[1] | 2 == l[1]))
}

/// Whether each link value of a result lies under the listed one.
fn links_covered(result: &[u8], listed: &[u8]) -> bool {
    result
        .iter()
        .zip(listed)
        .fold(true, |all, (&r, &l)| all & (r == l || l == 2))
}

/// The first of these shapes whose keys and summaries allow covering, and its link values.
fn first_like<'a>(
    file: &'a [u8],
    layout: &Layout,
    mut numbers: Range<usize>,
    keys: &[u8],
) -> Option<(usize, &'a [u8])> {
    let count = keys.len() / 2;
    let links = count * count;
    numbers.find_map(|number| {
        let listed = &file[layout.start(number)..];
        if listed[1] as usize != count {
            return None;
        }
        let (listed_keys, rest) = listed[2..].split_at(keys.len());
        keys_covered(keys, listed_keys).then(|| (number, &rest[..links]))
    })
}

/// Whether a record is covered by one of the shapes at the successor.
fn is_covered(file: &[u8], layout: &Layout, successor: usize, record: &[u8]) -> bool {
    let (keys, links) = record[1..].split_at(2 * record[0] as usize);
    let mut numbers = layout.at(successor);
    while let Some((number, listed)) = first_like(file, layout, numbers.clone(), keys) {
        if links_covered(links, listed) {
            return true;
        }
        numbers.start = number + 1;
    }
    false
}

/// As `is_covered`, but the links are folded only once the keys agree.
fn result_is_covered(
    file: &[u8],
    layout: &Layout,
    successor: usize,
    result: &Working,
    folded: &mut Folded,
) -> bool {
    let mut numbers = layout.at(successor);
    let Some((mut number, mut listed)) = first_like(file, layout, numbers.clone(), folded.keys())
    else {
        return false;
    };
    folded.links(result);
    while !links_covered(folded.link_values(), listed) {
        numbers.start = number + 1;
        let Some(next) = first_like(file, layout, numbers.clone(), folded.keys()) else {
            return false;
        };
        (number, listed) = next;
    }
    true
}

fn byte_of(file: &[u8], layout: &Layout, point: usize) -> u8 {
    let listed = layout.at(point);
    if listed.is_empty() {
        return 3;
    }
    let [op, x, y, _, _] = *layout.statement(file, point);
    let dereferenced = match op {
        5 => Some(y),
        6 | 7 => Some(x),
        _ => None,
    };
    let mut null = false;
    let mut shared = false;
    for number in listed {
        let record = &file[layout.record(number)][1..];
        let header = &record[1..1 + 2 * record[0] as usize];
        shared |= header.chunks_exact(2).any(|pair| pair[1] & 1 == 1);
        null |= dereferenced.is_some_and(|variable| holder_mask(record, variable) == 0);
    }
    let low = match (dereferenced, null) {
        (None, _) => 0,
        (Some(_), false) => 1,
        (Some(_), true) => 2,
    };
    low + if shared { 0 } else { 4 }
}

/// The results of one step in order, each with its successor, shapes as records without their point: for tests.
pub fn results(statement: [u8; RECORD], record: &[u8]) -> Vec<(u8, Vec<u8>)> {
    let mut results = Vec::new();
    match statement[0] {
        0 => {}
        1 | 8 | 9 => results.push((branch(&statement, record) as u8, record.to_vec())),
        _ => {
            let mut start = Working::new();
            start.load(record);
            let mut folded = Folded::new();
            each_result(&start, &statement, &mut |result| {
                folded.fold_keys(result);
                folded.links(result);
                results.push((statement[3], folded.bytes().to_vec()));
                true
            });
        }
    }
    debug_assert!(results.iter().all(|(_, result)| result.len() <= LONGEST));
    results
}
