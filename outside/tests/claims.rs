//! The files in `claims/` are what `cargo run --bin claims` writes.

use outside::reference::check;
use outside::rounds::claim_files;
use outside::routines::{describe, ROUTINES};
use outside::{printed, timeout};
use std::fs;
use std::path::{Path, PathBuf};

fn claims() -> PathBuf {
    Path::new(env!("CARGO_MANIFEST_DIR")).join("../claims")
}

#[test]
fn every_claim_has_its_text() {
    let mut names: Vec<&str> = ROUTINES.iter().map(|routine| routine.name).collect();
    names.sort();
    let paths = claim_files(&claims());
    let found: Vec<String> = paths
        .iter()
        .map(|path| path.file_stem().unwrap().to_string_lossy().into_owned())
        .collect();
    assert_eq!(found, names);
    for routine in &ROUTINES {
        let file = fs::read(claims().join(format!("{}.shc", routine.name))).unwrap();
        let text = fs::read_to_string(claims().join(format!("{}.txt", routine.name))).unwrap();
        assert_eq!(text, describe(routine, &file), "{}", routine.name);
    }
}

#[test]
fn the_incident_is_as_it_is_made() {
    for (name, claim) in [
        ("timeout_retry", timeout::claim()),
        ("timeout_retry_missed", timeout::missed()),
    ] {
        let file = fs::read(claims().join(format!("{name}.shc"))).unwrap();
        assert_eq!(file, claim.bytes(), "{name}");
        let expected = fs::read_to_string(claims().join(format!("{name}.expected"))).unwrap();
        assert_eq!(expected, printed(check, &file), "{name}");
    }
}
