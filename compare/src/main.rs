//! `compare run [long]`, `compare list [FUNCTION...]`, `compare known`, `compare bench`.

use std::env;
use std::path::{Path, PathBuf};
use std::process::ExitCode;
use std::sync::Arc;

use compare::driver::{self, Outcome, Plan, Replay, shown};
use compare::listed::Listed;
use compare::request::Function;
use compare::{calls, list, request, tables};

/// Random expressions in the long comparison.
const LONG_ROUNDS: u64 = 11_000_000;

fn main() -> ExitCode {
    let words: Vec<String> = env::args().skip(1).collect();
    let words: Vec<&str> = words.iter().map(String::as_str).collect();
    let done = match words[..] {
        ["run"] => run(false),
        ["run", "long"] => run(true),
        ["list", ref rest @ ..] => make_list(rest),
        ["known"] => print_known(),
        #[cfg(feature = "bench")]
        ["bench"] => compare::bench::run(&root().join("compare/bench.txt")),
        _ => Err("run [long] | list [FUNCTION...] | known".into()),
    };
    match done {
        Ok(true) => ExitCode::SUCCESS,
        Ok(false) => ExitCode::FAILURE,
        Err(why) => {
            eprintln!("compare: {why}");
            ExitCode::from(2)
        }
    }
}

fn root() -> PathBuf {
    Path::new(env!("CARGO_MANIFEST_DIR")).join("..")
}

/// The program under comparison: `REPLAY`, else where `tools/make replay` puts it; without the library it is tried.
fn replay() -> Replay {
    if calls::LINKED {
        Replay::Linked(env::var_os("REPLAY").map_or_else(|| root().join("target/bin/replay"), PathBuf::from))
    } else {
        Replay::Tried(root())
    }
}

/// A variable's number, else the default.
fn number(name: &str, default: u64) -> Result<u64, String> {
    match env::var(name) {
        Ok(text) => text.parse().map_err(|_| format!("{name} is {text:?}, not a number")),
        Err(_) => Ok(default),
    }
}

fn run(long: bool) -> Result<bool, String> {
    let replay = replay();
    let listed = Listed::from_file(&root().join("docs/DIFFERENCES.md"));
    let stop = env::var_os("STOP_AT_FIRST").is_some();
    let rounds = number("ROUNDS", if long { LONG_ROUNDS } else { 0 })?;
    let plan =
        Plan { replay: &replay, long, seed: number("SEED", 1)?, stop, rounds, listed: Arc::new(listed) };
    match &replay {
        Replay::Linked(path) => println!("replay {}, seed {}", path.display(), plan.seed),
        Replay::Tried(_) => {
            println!("replay is not linked: compiled by rt try, without a proof, seed {}", plan.seed)
        }
    }
    let asked = if calls::LINKED {
        tables::compare(&root().join("target/bin/tables"))?
    } else {
        tables::compare_tried(&root())?
    };
    println!("white space and status words: {asked} questions, no difference");
    let known = driver::known(&replay)?;
    let mut outcome = driver::run(&plan, &known);
    if outcome.failure.is_none() {
        outcome.failure = driver::check_ends(&replay).err();
    }
    report(&outcome, &known);
    Ok(outcome.total().differences == 0 && outcome.failure.is_none())
}

/// The smallest differences, the table of cases and the line of totals.
fn report(outcome: &Outcome, known: &[Function]) {
    for (function, difference) in &outcome.smallest {
        println!("\nsmallest difference of {}:", function.word());
        println!("  request {}", shown(&difference.request));
        if let Some((_, fields)) = request::parse(&difference.request) {
            let texts: Vec<String> = fields.iter().map(|f| format!("\"{}\"", f.escape_ascii())).collect();
            println!("  that is {}", shown(texts.join(" ").as_bytes()));
        }
        println!("  oracle  {}", shown(&difference.due));
        println!("  replay  {}", shown(&difference.said));
    }
    println!("\n{:<11}{:>12}{:>13}{:>9}{:>13}", "function", "cases", "in process", "by time", "differences");
    for (function, count) in &outcome.counts {
        let word = function.word();
        println!(
            "{word:<11}{:>12}{:>13}{:>9}{:>13}",
            count.cases, count.called, count.timed, count.differences
        );
    }
    println!("demand 3 on both sides: {} trees", outcome.trees);
    for line in outcome.left_out_lines() {
        println!("{line}");
    }
    if !calls::LINKED {
        println!("a part of the cases: where tools/make replay has linked the program, all are asked");
    }
    let missing: Vec<&str> = Function::ALL.iter().filter(|f| !known.contains(f)).map(|f| f.word()).collect();
    if !missing.is_empty() {
        println!("left out, as replay does not know them: {}", missing.join(" "));
    }
    let total = outcome.total();
    let listed = if total.listed > 0 { format!(", {} listed", total.listed) } else { String::new() };
    let failed = outcome.failure.as_ref().map_or(String::new(), |why| format!(", and failed: {why}"));
    println!("compare: {} cases, {} differences{listed}{failed}", total.cases, total.differences);
}

/// Writes the list for the named functions, else for all.
fn make_list(words: &[&str]) -> Result<bool, String> {
    let named = |word: &&str| Function::of(word.as_bytes()).ok_or(format!("no function {word}"));
    let mut known: Vec<Function> = words.iter().map(named).collect::<Result<_, _>>()?;
    if known.is_empty() {
        known = Function::ALL.to_vec();
    }
    let (replay, compare) = (root().join("crates/replay"), root().join("compare"));
    match env::var_os("INTO").map(PathBuf::from) {
        Some(into) => list::write(&into, &into, &known)?,
        None => list::write(&replay, &compare, &known)?,
    }
    Ok(true)
}

/// Prints the functions that replay knows.
fn print_known() -> Result<bool, String> {
    for function in driver::known(&replay())? {
        println!("{}", function.word());
    }
    Ok(true)
}
