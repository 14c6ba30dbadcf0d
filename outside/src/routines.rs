//! The routines that stand as claims in the repository, and the readable text beside each.

use crate::notation::{text, words};
use crate::reference::{check, read, Claim, Statement};
use crate::{printed, timeout};

/// A routine: its name, what it does, where it comes from, and the names of its variables.
pub struct Routine {
    pub name: &'static str,
    pub does: &'static str,
    pub from: &'static str,
    pub names: &'static [&'static str],
}

const fn routine(
    name: &'static str,
    does: &'static str,
    from: &'static str,
    names: &'static [&'static str],
) -> Routine {
    Routine {
        name,
        does,
        from,
        names,
    }
}

pub const ROUTINES: [Routine; 19] = [
    routine(
        "create",
        "pushes new cells on a list without end",
        "source document 001, appendix B.1, enqueue in a loop",
        &["list", "new"],
    ),
    routine(
        "create3",
        "makes a list of three cells",
        "source document 000, figure 1",
        &["list", "first", "second", "third"],
    ),
    routine(
        "create_oracle_exit",
        "pushes a new cell for each cell of an oracle list, whose end is the stop",
        "as create, with a stop",
        &["list", "new", "oracle"],
    ),
    routine(
        "delete_all",
        "takes a list apart cell by cell; clearing the link stands for freeing",
        "source document 001",
        &["list", "old"],
    ),
    routine(
        "enqueue_events",
        "appends new cells to two queues in turn, without end",
        "source document 001, figure 5.1",
        &["head1", "tail1", "head2", "tail2", "new"],
    ),
    routine(
        "get_last",
        "goes to the last cell of a list",
        "source document 001, tables 3.8 and 5.2, where it is named",
        &["list", "last", "next"],
    ),
    routine(
        "get_last_cyclic",
        "goes once round a cycle to the cell before its start",
        "source document 001, on a cycle",
        &["start", "last", "next"],
    ),
    routine(
        "insert",
        "puts a new cell behind the last one",
        "source document 003, figure 1(b), without its test of data",
        &["x", "y", "t", "e"],
    ),
    routine(
        "insert_oracle",
        "puts a new cell somewhere into a list; the end of an oracle list says where",
        "source document 003, figure 1(b), with an oracle list for its test of data",
        &["x", "y", "t", "e", "oracle"],
    ),
    routine(
        "reverse",
        "reverses a list",
        "source document 001, appendix B.1, the move loop of dequeue",
        &["x", "y", "t"],
    ),
    routine(
        "reverse_cyclic",
        "the same on a cycle",
        "source document 001, on a cycle",
        &["x", "y", "t"],
    ),
    routine(
        "reverse_panhandle",
        "the same on a list that runs into a cycle",
        "source document 001, on a panhandle",
        &["x", "y", "t"],
    ),
    routine(
        "search",
        "walks along a list until a given cell or the end, with the test for null",
        "source document 001, mended",
        &["x", "sought"],
    ),
    routine(
        "search_nullderef",
        "walks along a list until a given cell, without the test for null: one real error",
        "source document 001",
        &["x", "sought"],
    ),
    routine(
        "stack_push_pop",
        "pushes a cell on a stack and pops it, compare-and-swap as a test",
        "source document 001, figure 6.1, one thread",
        &["top", "node", "seen", "next"],
    ),
    routine(
        "swap",
        "swaps the first two cells of a list",
        "source document 001",
        &["x", "y", "t"],
    ),
    routine(
        "timeout_retry",
        "takes the timed-out cell out of the pending list and pushes it on the retry list",
        "the incident, with every case",
        &timeout::NAMES,
    ),
    routine(
        "timeout_retry_missed",
        "the same routine",
        "the incident, with one case missed: where the walk has gone on to one of many cells",
        &timeout::NAMES,
    ),
    routine(
        "traverse",
        "walks from the first cell of a list to a given last one",
        "source document 001, figure 3.1",
        &["first", "last", "walk"],
    ),
];

/// A statement in words.
fn statement(statement: Statement, names: &[&str]) -> String {
    let name = |variable: u8| names[variable as usize];
    match statement {
        Statement::Stop => "stop".into(),
        Statement::GoOn { next } => format!("go on to {next}"),
        Statement::SetNull { x, next } => format!("{} = null, then {next}", name(x)),
        Statement::Copy { x, y, next } => format!("{} = {}, then {next}", name(x), name(y)),
        Statement::New { x, next } => format!("{} = new, then {next}", name(x)),
        Statement::Follow { x, y, next } => format!("{} = {}->n, then {next}", name(x), name(y)),
        Statement::ClearLink { x, next } => format!("{}->n = null, then {next}", name(x)),
        Statement::SetLink { x, y, next } => format!("{}->n = {}, then {next}", name(x), name(y)),
        Statement::IsNull { x, yes, no } => format!("{} == null? yes {yes}, no {no}", name(x)),
        Statement::Same { x, y, yes, no } => {
            format!("{} == {}? yes {yes}, no {no}", name(x), name(y))
        }
    }
}

/// What an answer byte says.
fn meaning(byte: u8) -> String {
    let low = match byte % 4 {
        0 => "no dereference",
        1 => "null is excluded",
        2 => "open: null may be dereferenced",
        _ => return "never reached".into(),
    };
    let shared = if byte >= 4 {
        "no cell is shared"
    } else {
        "a cell may be shared"
    };
    format!("{low}, {shared}")
}

/// The text that stands beside a claim.
///
/// # Panics
/// If the file can't be read.
pub fn describe(routine: &Routine, file: &[u8]) -> String {
    let claim = read(file).expect("a claim that can be read").claim;
    let mut lines = vec![
        format!("{}: {}", routine.name, routine.does),
        format!("From: {}.", routine.from),
        String::new(),
    ];
    let variables: Vec<String> = routine
        .names
        .iter()
        .enumerate()
        .map(|(number, name)| format!("{name} (x{number}, key {})", 1 << number))
        .collect();
    lines.push(format!("Variables: {}.", variables.join(", ")));
    lines.extend([String::new(), "Program:".into()]);
    for (point, &line) in claim.program.iter().enumerate() {
        lines.push(format!("  {point:>2}  {}", statement(line, routine.names)));
    }
    lines.extend([
        String::new(),
        "Entry shapes (-> links, -?> may link):".into(),
    ]);
    for shape in claim.at(0) {
        lines.push(format!("  {}", text(shape)));
        lines.push(format!("      {}", words(shape, routine.names)));
    }
    lines.push(String::new());
    lines.extend(answer(routine, &claim, file));
    lines.join("\n") + "\n"
}

/// The lines on what the answer says.
fn answer(routine: &Routine, claim: &Claim, file: &[u8]) -> Vec<String> {
    let mut answer = vec![0; claim.program.len()];
    let verdict = check(file, &mut answer);
    let printed = printed(check, file);
    let first = printed.lines().next().unwrap_or_default();
    let mut lines = vec![format!("Answer: {first}")];
    if verdict.accepted() {
        let open = match verdict.b {
            0 => "no point is open".to_string(),
            1 => "one point is open".to_string(),
            count => format!("{count} points are open"),
        };
        lines.push(format!("The {} shapes hold; {open}.", verdict.a));
        for (point, &byte) in answer.iter().enumerate() {
            lines.push(format!("  {point:>2}  {byte}  {}", meaning(byte)));
        }
    } else {
        assert_eq!(
            verdict.number, 8,
            "a routine is refused with 8 or not at all"
        );
        let (point, shape) = &claim.listed[verdict.a];
        lines.push(format!(
            "Shape {} stands at point {point} and has an outcome that no shape at point {} covers:",
            verdict.a, verdict.b
        ));
        lines.push(format!("  {}", text(shape)));
        lines.push(format!("      {}", words(shape, routine.names)));
        lines.push("The outcome is:".into());
        for (successor, result) in crate::reference::step(shape, claim.program[*point as usize]) {
            if !claim.at(successor).any(|listed| result.covered_by(listed)) {
                lines.push(format!("  {}", text(&result)));
                lines.push(format!("      {}", words(&result, routine.names)));
            }
        }
    }
    lines
}
