//! What the comparison goes through: the exhaustive part once, and rounds of random claims.

use crate::judge::{Disagreement, Judge};
use crate::random::Random;
use crate::reference::{read, Claim};
use crate::runs::{try_runs, try_step, Tried};
use crate::{boundary, faults, generate};
use std::fs;
use std::path::Path;

/// File F of document 01.
pub const FILE_F: [u8; 26] = [
    0x53, 0x48, 0x43, 1, 0, 1, 2, 4, 0, 0, 1, 0, 0, 0, 0, 0, 0, 2, 0, 0, 0, 1, 1, 1, 0, 0,
];

/// The routines that are small enough to be gone through byte by byte.
const SMALL_ROUTINES: [&str; 5] = [
    "create",
    "create3",
    "delete_all",
    "search_nullderef",
    "swap",
];

/// A dozen accepted files: F, small routines and random claims.
fn dozen(claims: &Path, random: &mut Random) -> Vec<Vec<u8>> {
    let mut files = vec![FILE_F.to_vec()];
    for name in SMALL_ROUTINES {
        let path = claims.join(name).with_extension("shc");
        files.push(fs::read(&path).unwrap_or_else(|error| panic!("{}: {error}", path.display())));
    }
    while files.len() < 12 {
        let file = generate::accepted_claim(random, 20).bytes();
        if (60..260).contains(&file.len()) {
            files.push(file);
        }
    }
    files
}

/// The dozen files cut at every place and with every byte changed to every other; boundary files; every claim that stands
/// in the repository, with its runs.
pub fn exhaustive(
    judge: &mut Judge,
    tried: &mut Tried,
    claims: &Path,
    seed: u64,
) -> Result<(), Disagreement> {
    let mut random = Random::new(seed);
    for file in dozen(claims, &mut random) {
        judge.file("the dozen files", &file)?;
        judge.every_length(&file)?;
        judge.records(&file)?;
        for length in 0..file.len() {
            judge.file("cut short", &file[..length])?;
        }
        let mut changed = file.clone();
        for place in 0..file.len() {
            for byte in (0..=255).filter(|&byte| byte != file[place]) {
                changed[place] = byte;
                judge.file("one byte changed", &changed)?;
            }
            changed[place] = file[place];
        }
        changed.push(random.byte());
        judge.file("one byte more", &changed)?;
    }
    for file in boundary::files(&mut random) {
        judge.file("boundary files", &file)?;
        if boundary::is_large(&file) {
            for _ in 0..20 {
                let length = random.below(file.len());
                judge.file("large files cut short", &file[..length])?;
                let mut changed = file.clone();
                changed[length] = random.byte();
                judge.file("large files, a byte changed", &changed)?;
            }
        } else {
            judge.every_length(&file)?;
            judge.records(&file)?;
        }
    }
    for path in claim_files(claims) {
        let file = fs::read(&path).unwrap_or_else(|error| panic!("{}: {error}", path.display()));
        let kind = "claims of the repository";
        let (verdict, answer) = judge.answer(kind, &file, 66)?;
        judge.records(&file)?;
        if let (true, Ok(reading)) = (verdict.accepted(), read(&file)) {
            try_runs(&mut random, &reading.claim, &answer, 100, 200, tried)
                .map_err(|what| Disagreement { kind, what, file })?;
        }
    }
    Ok(())
}

/// The paths of the claim files in a directory, in order.
pub fn claim_files(directory: &Path) -> Vec<std::path::PathBuf> {
    let entries =
        fs::read_dir(directory).unwrap_or_else(|error| panic!("{}: {error}", directory.display()));
    let mut paths: Vec<_> = entries
        .map(|entry| entry.expect("a directory entry").path())
        .filter(|path| path.extension().is_some_and(|extension| extension == "shc"))
        .collect();
    paths.sort();
    paths
}

/// One round: a random accepted claim, its changes, its records and buffers, its runs, and some random bytes.
pub fn round(
    judge: &mut Judge,
    random: &mut Random,
    tried: &mut Tried,
) -> Result<(), Disagreement> {
    let most = *random.pick(&[10, 20, 40, 80, 200, 512]);
    let claim = generate::accepted_claim(random, most);
    let file = claim.bytes();
    let fault = |what: String| Disagreement {
        kind: "random accepted claims",
        what,
        file: file.clone(),
    };
    let (verdict, answer) = judge.answer("random accepted claims", &file, 66)?;
    if !verdict.accepted() {
        return Err(fault(format!("a closed claim was refused: {verdict}")));
    }
    try_runs(random, &claim, &answer, 6, 60, tried).map_err(&fault)?;
    for _ in 0..20 {
        try_step(random, tried).map_err(&fault)?;
    }
    judge.every_length(&file)?;
    judge.records(&file)?;
    for _ in 0..4 {
        changes(judge, random, &claim, &file)?;
    }
    for _ in 0..20 {
        judge.file("random bytes", &faults::random_bytes(random))?;
    }
    let mut shapes = claim.clone();
    for (_, shape) in &mut shapes.listed {
        *shape = generate::shape(random, claim.variables);
    }
    judge.file("random shapes", &shapes.bytes())?;
    Ok(())
}

fn changes(
    judge: &mut Judge,
    random: &mut Random,
    claim: &Claim,
    file: &[u8],
) -> Result<(), Disagreement> {
    let dropped = faults::drop_shape(random, claim).bytes();
    judge.file("one shape dropped", &dropped)?;
    let doubled = faults::double_shape(random, claim).bytes();
    judge.file("one shape doubled", &doubled)?;
    if let Some(changed) = faults::change_link(random, claim) {
        judge.file("one link changed", &changed.bytes())?;
    }
    if let Some(changed) = faults::change_key(random, claim) {
        judge.file("one key changed", &changed.bytes())?;
    }
    let parts = read(file).map_or(Vec::new(), |reading| reading.parts);
    let part = random.pick(&parts).clone();
    let spoilt = faults::spoil_key(random, file, part);
    judge.file("one key spoilt", &spoilt)?;
    judge.records(&spoilt)
}
