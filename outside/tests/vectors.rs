//! The data that stands beside: single steps with their results, claim files with what the program prints, the routines.

use outside::reference::file::{shape_bytes, shape_from_bytes};
use outside::reference::{read, step, Statement};
use outside::{fast, implementations, printed};
use std::fs;
use std::path::{Path, PathBuf};

fn here(path: &str) -> PathBuf {
    Path::new(env!("CARGO_MANIFEST_DIR")).join(path)
}

fn numbers(text: &str) -> Vec<u8> {
    text.split_whitespace()
        .map(|word| word.parse().expect("a byte"))
        .collect()
}

#[test]
fn every_step_has_its_results_in_order() {
    let text = fs::read_to_string(here("data/steps.txt")).unwrap();
    let mut count = 0;
    for line in text.lines().filter(|line| !line.starts_with('#')) {
        let mut parts = line.split(';');
        let record: [u8; 5] = numbers(parts.next().unwrap()).try_into().unwrap();
        let start = numbers(parts.next().unwrap());
        let expected: Vec<(u8, Vec<u8>)> = parts
            .map(|part| {
                let (successor, result) = part.split_once(':').unwrap();
                (successor.trim().parse().unwrap(), numbers(result))
            })
            .collect();
        let shape = shape_from_bytes(&start, 8).expect("a shape");
        let found: Vec<(u8, Vec<u8>)> = step(&shape, Statement::from_record(record))
            .iter()
            .map(|(successor, result)| (*successor, shape_bytes(result)))
            .collect();
        assert_eq!(found, expected, "{line}");
        assert_eq!(fast::results(record, &start), expected, "fast: {line}");
        count += 1;
    }
    assert_eq!(count, 450);
}

/// Checks every claim file of a directory against what stands beside it, and gives their count.
fn check_directory(directory: &Path) -> usize {
    let mut count = 0;
    for entry in fs::read_dir(directory).unwrap() {
        let path = entry.unwrap().path();
        if path.extension().is_none_or(|extension| extension != "shc") {
            continue;
        }
        let file = fs::read(&path).unwrap();
        let expected = fs::read_to_string(path.with_extension("expected")).unwrap();
        for (name, implementation) in implementations() {
            let found = printed(implementation.check, &file);
            assert_eq!(found, expected, "{name}: {}", path.display());
        }
        if let Ok(reading) = read(&file) {
            assert_eq!(reading.claim.bytes(), file, "{}", path.display());
        }
        count += 1;
    }
    count
}

#[test]
fn every_file_of_base_prints_what_is_expected() {
    assert_eq!(check_directory(&here("data/base")), 200);
}

#[test]
fn every_routine_prints_what_is_expected() {
    assert_eq!(check_directory(&here("../claims")), 19);
}
