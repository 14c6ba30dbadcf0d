//! Compares every implementation with the reference and prints what was compared; leaves off with exit status 1 at the
//! first disagreement.

use outside::judge::{Disagreement, Judge};
use outside::random::Random;
use outside::rounds::{exhaustive, round};
use outside::runs::Tried;
use std::path::Path;
use std::process::ExitCode;
use std::time::{Duration, Instant};

const USAGE: &str =
    "usage: compare [--seconds S | --count ROUNDS] [--seed N] [--round R] [--file PATH]";

struct Options {
    budget: Option<Duration>,
    rounds: Option<u64>,
    seed: u64,
    only: Option<u64>,
    file: Option<String>,
}

fn options() -> Option<Options> {
    let mut options = Options {
        budget: Some(Duration::from_secs(30)),
        rounds: None,
        seed: 1,
        only: None,
        file: None,
    };
    let mut words = std::env::args().skip(1);
    while let Some(word) = words.next() {
        let value = words.next()?;
        match word.as_str() {
            "--seconds" => options.budget = Some(Duration::from_secs(value.parse().ok()?)),
            "--count" => {
                options.rounds = Some(value.parse().ok()?);
                options.budget = None;
            }
            "--seed" => options.seed = value.parse().ok()?,
            "--round" => options.only = Some(value.parse().ok()?),
            "--file" => options.file = Some(value),
            _ => return None,
        }
    }
    Some(options)
}

/// The generator of a round, so that a round can be run alone.
fn random_of(seed: u64, round: u64) -> Random {
    Random::new(seed.wrapping_mul(1_000_003).wrapping_add(round))
}

fn compare(judge: &mut Judge, options: &Options, tried: &mut Tried) -> Result<(), String> {
    let dump = |round: String| {
        move |disagreement: Disagreement| format!("{disagreement}to repeat: compare {round}")
    };
    let seed = options.seed;
    if let Some(path) = &options.file {
        let file = std::fs::read(path).map_err(|error| format!("{path}: {error}"))?;
        let one = format!("--file {path}");
        let verdict = judge
            .file("the file given", &file)
            .map_err(dump(one.clone()))?;
        judge.every_length(&file).map_err(dump(one.clone()))?;
        judge.records(&file).map_err(dump(one))?;
        println!("{verdict}");
        return Ok(());
    }
    if let Some(number) = options.only {
        let one = format!("--seed {seed} --round {number}");
        return round(judge, &mut random_of(seed, number), tried).map_err(dump(one));
    }
    let claims = Path::new(env!("CARGO_MANIFEST_DIR")).join("../claims");
    exhaustive(judge, tried, &claims, seed).map_err(dump(format!("--seed {seed} --count 0")))?;
    let start = Instant::now();
    let mut number = 0;
    while options.rounds.is_none_or(|rounds| number < rounds)
        && options.budget.is_none_or(|budget| start.elapsed() < budget)
    {
        let one = format!("--seed {seed} --round {number}");
        round(judge, &mut random_of(seed, number), tried).map_err(dump(one))?;
        number += 1;
    }
    Ok(())
}

fn main() -> ExitCode {
    let Some(options) = options() else {
        eprintln!("{USAGE}");
        return ExitCode::from(2);
    };
    let mut judge = Judge::new();
    let mut tried = Tried::default();
    println!("compared with the reference: {}", judge.names().join(", "));
    if let Err(dump) = compare(&mut judge, &options, &mut tried) {
        eprintln!("{dump}");
        return ExitCode::FAILURE;
    }
    for (kind, count) in &judge.kinds {
        println!("{count:>9}  {kind}");
    }
    for (number, count) in judge.numbers.iter().enumerate() {
        println!("{count:>9}  verdicts with number {number}");
    }
    for (count, what) in [
        (tried.runs, "runs from stores that fit an entry shape"),
        (
            tried.stores,
            "stores reached, tested for fit and against the answer",
        ),
        (
            tried.steps,
            "single steps of a store and of a shape that it fits",
        ),
    ] {
        println!("{count:>9}  {what}");
    }
    let all: u64 = judge.kinds.values().sum();
    println!("{all:>9}  comparisons, nothing disagreed");
    ExitCode::SUCCESS
}
