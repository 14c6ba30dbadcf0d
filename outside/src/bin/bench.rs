//! The benchmark: the same inputs through the proved library and the fast implementation, alternating, in one run. The
//! figure is the ratio. Without the feature `proved` the reference takes the library's place.

use outside::random::Random;
use outside::rounds::claim_files;
use outside::{fast, generate, implementations, large, library, reference, Check};
use std::hint::black_box;
use std::path::Path;
use std::process::ExitCode;
use std::time::{Duration, Instant};

/// Inputs that are measured together.
struct Workload {
    name: String,
    files: Vec<Vec<u8>>,
}

/// How long a workload is measured, and the shortest turn worth timing.
const BUDGET: Duration = Duration::from_millis(2_000);
const TURN: Duration = Duration::from_millis(2);
const FEWEST_TURNS: usize = 3;
const MOST_TURNS: usize = 101;

fn workloads() -> Vec<Workload> {
    let one = |name: &str, file: Vec<u8>| Workload {
        name: name.into(),
        files: vec![file],
    };
    let claims = Path::new(env!("CARGO_MANIFEST_DIR")).join("../claims");
    let routines = claim_files(&claims)
        .iter()
        .map(|path| std::fs::read(path).expect("a claim file that can be read"))
        .collect();
    let mut random = Random::new(2_000);
    let small = (0..2_000)
        .map(|_| generate::accepted_claim(&mut random, 20).bytes())
        .collect();
    let mut all = vec![
        one("longest file, 64 points", large::many_points(64).bytes()),
        one("512 shapes at one point", large::one_point(9).bytes()),
        Workload {
            name: "the routines".into(),
            files: routines,
        },
        Workload {
            name: "2,000 small claims".into(),
            files: small,
        },
    ];
    for points in [8, 16, 32, 64] {
        let shapes = 8 * u32::from(points);
        all.push(one(
            &format!("growth, 8 shapes a point, M {shapes}"),
            large::many_points(points).bytes(),
        ));
    }
    for bits in 6..=9 {
        all.push(one(
            &format!("growth, one point, M {}", 1 << bits),
            large::one_point(bits).bytes(),
        ));
    }
    all
}

/// The time that one pass over the files takes, measured over some passes.
fn turn(check: Check, files: &[Vec<u8>], passes: u32) -> Duration {
    let mut answer = [0; 64];
    let start = Instant::now();
    for _ in 0..passes {
        for file in files {
            black_box(check(black_box(file), &mut answer));
        }
    }
    start.elapsed() / passes
}

/// So many passes that a turn is long enough to be timed.
fn passes(check: Check, files: &[Vec<u8>]) -> u32 {
    let once = turn(check, files, 1).max(Duration::from_nanos(100));
    (TURN.as_nanos() / once.as_nanos()).clamp(1, 100_000) as u32
}

fn median(mut values: Vec<f64>) -> f64 {
    values.sort_by(f64::total_cmp);
    values[values.len() / 2]
}

/// Medians over the turns of a workload: microseconds that one pass takes, and the ratio of turns taken side by side, which
/// other load on the machine disturbs least.
struct Figures {
    one: f64,
    other: f64,
    ratio: f64,
}

fn measure(checks: [Check; 2], files: &[Vec<u8>]) -> Figures {
    let passes = checks.map(|check| passes(check, files));
    let mut times: Vec<[f64; 2]> = Vec::new();
    let start = Instant::now();
    while times.len() < FEWEST_TURNS || (times.len() < MOST_TURNS && start.elapsed() < BUDGET) {
        // Which comes first changes from turn to turn.
        let first = times.len() % 2;
        let mut both = [0.0; 2];
        for which in [first, 1 - first] {
            both[which] = turn(checks[which], files, passes[which]).as_secs_f64() * 1e6;
        }
        times.push(both);
    }
    Figures {
        one: median(times.iter().map(|both| both[0]).collect()),
        other: median(times.iter().map(|both| both[1]).collect()),
        ratio: median(times.iter().map(|both| both[0] / both[1]).collect()),
    }
}

/// `--once WHO ROW`: one pass of one implementation over the inputs of a row, for a profiler that counts instructions.
fn once(who: &str, row: &str) -> Result<(), String> {
    let all = implementations();
    let names: Vec<&str> = all.iter().map(|(name, _)| *name).collect();
    let (_, implementation) = all
        .iter()
        .find(|(name, _)| *name == who)
        .ok_or(format!("no {who} here, there are: {}", names.join(", ")))?;
    let mut workloads = workloads();
    let row: usize = row
        .parse()
        .ok()
        .filter(|&row| row < workloads.len())
        .ok_or(format!("rows are 0 to {}", workloads.len() - 1))?;
    let Workload { name, files } = workloads.swap_remove(row);
    turn(implementation.check, &files, 1);
    println!("{who}, one pass: {name}");
    Ok(())
}

fn main() -> ExitCode {
    let words: Vec<String> = std::env::args().skip(1).collect();
    match words.iter().map(String::as_str).collect::<Vec<_>>()[..] {
        [] => {
            bench();
            ExitCode::SUCCESS
        }
        ["--once", who, row] => match once(who, row) {
            Ok(()) => ExitCode::SUCCESS,
            Err(error) => {
                eprintln!("{error}");
                ExitCode::FAILURE
            }
        },
        _ => {
            eprintln!("usage: bench [--once reference|fast|library ROW]");
            ExitCode::from(2)
        }
    }
}

fn bench() {
    if cfg!(debug_assertions) {
        println!("not built for release: the figures mean nothing");
    }
    let (name, check): (&str, Check) = if library::LINKED {
        ("library", library::check)
    } else {
        ("reference", reference::check)
    };
    println!(
        "{:<36}{:>9}{:>14}{:>14}{:>10}",
        "input",
        "bytes",
        format!("{name} us"),
        "fast us",
        "ratio"
    );
    for Workload { name, files } in workloads() {
        let Figures { one, other, ratio } = measure([check, fast::check], &files);
        let bytes: usize = files.iter().map(Vec::len).sum();
        println!("{name:<36}{bytes:>9}{one:>14.2}{other:>14.2}{ratio:>10.2}");
    }
}
