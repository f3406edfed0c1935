//! The original and ours on the same inputs in the same driver: time a call, ratio, stack.

use std::hint::black_box;
use std::path::Path;
use std::time::Instant;

use crate::oracle::{LONGEST_TEXT, MOST_OPEN};
use crate::original::conditions::{EvalError, Expr, Status, Truth};
use crate::original::formatbedingung;
use crate::tree;

/// Timed runs of which the median is taken, and how long a run lasts at least.
const RUNS: usize = 31;
const RUN_NANOSECONDS: u128 = 3_000_000;
/// The stack that is looked at.
const STACK: usize = 256 * 1024;
const BUFFER: usize = 8 * 1024;

/// A status with answers and a value.
struct Line {
    status: String,
    expr: Option<Expr>,
    tree: Vec<u8>,
    answers: Vec<u8>,
    value: String,
}

impl Line {
    fn new(status: &str, letters: &str, value: &str) -> Result<Self, String> {
        let read = Status::parse(status).ok_or(format!("no status: {status}"))?;
        let tree = read.expr.as_ref().map(tree::encode).unwrap_or_default();
        let answers: Vec<u8> = letters
            .bytes()
            .map(|letter| b"futne".iter().position(|b| *b == letter).unwrap_or(5) as u8)
            .collect();
        let cited = read.expr.as_ref().map_or(0, |expr| expr.cited().len());
        if cited != answers.len() {
            return Err(format!("{cited} citations, {} answers: {status}", answers.len()));
        }
        Ok(Self { status: status.to_owned(), expr: read.expr, tree, answers, value: value.to_owned() })
    }

    fn expr(&self) -> &Expr {
        self.expr.as_ref().expect("a line with an expression")
    }

    /// The answers by text, as the original's oracle gives them.
    fn by_text(&self) -> Vec<(&str, Truth)> {
        self.expr().cited().into_iter().zip(self.answers.iter().map(|a| truth(*a))).collect()
    }
}

/// Keeps a result from being left out.
#[inline(always)]
fn used<T>(result: T) {
    black_box(result);
}

fn truth(answer: u8) -> Truth {
    [Truth::False, Truth::Unknown, Truth::True, Truth::Neutral][usize::from(answer.min(3))]
}

/// Nanoseconds a call, the median of the runs.
fn time(lines: &[&Line], mut call: impl FnMut(&Line)) -> f64 {
    let mut once = || lines.iter().for_each(|line| call(black_box(line)));
    let start = Instant::now();
    once();
    let rounds = (RUN_NANOSECONDS / start.elapsed().as_nanos().max(1)).clamp(1, 100_000);
    let mut times: Vec<f64> = (0..RUNS)
        .map(|_| {
            let start = Instant::now();
            (0..rounds).for_each(|_| once());
            start.elapsed().as_nanos() as f64 / (rounds as f64 * lines.len() as f64)
        })
        .collect();
    times.sort_by(f64::total_cmp);
    times[RUNS / 2]
}

/// Bytes of stack that the deepest of the calls takes, to some hundred bytes.
#[inline(never)]
fn stack(lines: &[&Line], call: &mut dyn FnMut(&Line)) -> usize {
    let here = 0u8;
    let top = black_box(&raw const here).addr() - 256;
    let place = |below: usize| std::ptr::with_exposed_provenance_mut::<u8>(top - below);
    let mut most = 0;
    for line in lines {
        (1..STACK).for_each(|below| unsafe { place(below).write_volatile(0xA5) });
        call(black_box(line));
        let used = (1..STACK).rev().find(|below| unsafe { place(*below).read_volatile() } != 0xA5);
        most = most.max(used.unwrap_or(0) + 256);
    }
    most
}

mod print {
    #[link(name = "ahbprint", kind = "static")]
    unsafe extern "C" {
        pub fn ahb_print(tree: *const u8, tree_length: usize, out: *mut u8, out_length: usize) -> u64;
    }
}

fn print(tree: &[u8], out: &mut [u8]) -> u64 {
    unsafe { print::ahb_print(tree.as_ptr(), tree.len(), out.as_mut_ptr(), out.len()) }
}

/// Writes a row: both times, their ratio, both stacks.
fn row(name: &str, what: &str, lines: &[&Line], mut rust: impl FnMut(&Line), mut ours: impl FnMut(&Line)) {
    let (theirs, us) = (time(lines, &mut rust), time(lines, &mut ours));
    let (their_stack, our_stack) = (stack(lines, &mut rust), stack(lines, &mut ours));
    println!(
        "| {name} | {what} | {theirs:.0} | {us:.0} | {:.2} | {their_stack} | {our_stack} |",
        theirs / us
    );
}

fn reading(name: &str, lines: &[&Line]) {
    let mut out = [0; BUFFER];
    let rust = |line: &Line| used(Status::parse(&line.status));
    row(name, "reading", lines, rust, |line| used(ahb::read_status(line.status.as_bytes(), &mut out)));
}

fn judging(name: &str, lines: &[&Line]) {
    let mut out = [0; BUFFER];
    let printed = |line: &Line| used(line.expr().to_string());
    row(name, "printing", lines, printed, |line| used(print(&line.tree, &mut out)));
    let presence = |line: &Line| used(ahb::presence(&line.tree, &line.answers));
    row(name, "presence, answers looked up by text", lines, evaluated_by_text(lines), presence);
    row(name, "presence, answers at no cost", lines, evaluated_in_turn, presence);
    let truth = |line: &Line| used(formatbedingung::truth(line.expr(), &line.value));
    let violations = |line: &Line| used(formatbedingung::violations(line.expr(), &line.value));
    let both = |line: &Line| {
        truth(line);
        violations(line);
    };
    let mut verdicts = |line: &Line| used(ahb::verdicts(&line.tree, line.value.as_bytes(), &mut out));
    row(name, "verdicts, against both calls", lines, both, &mut verdicts);
    row(name, "verdicts, against truth alone", lines, truth, &mut verdicts);
    row(name, "verdicts, against violations alone", lines, violations, &mut verdicts);
}

/// The original's presence with an oracle that looks the text up in a list made beforehand.
fn evaluated_by_text<'a>(lines: &[&'a Line]) -> impl FnMut(&Line) + use<'a> {
    let lists: Vec<(*const Line, Vec<(&str, Truth)>)> =
        lines.iter().map(|l| (*l as *const Line, l.by_text())).collect();
    let mut next = 0;
    move |line| {
        if lists[next].0 != line as *const Line {
            next = lists
                .iter()
                .position(|(known, _)| *known == line as *const Line)
                .expect("a line of the table");
        }
        let list = &lists[next].1;
        next = (next + 1) % lists.len();
        let mut oracle = |text: &str| -> Result<Truth, EvalError> {
            Ok(list.iter().find(|(known, _)| *known == text).map_or(Truth::Unknown, |(_, truth)| *truth))
        };
        used(line.expr().eval(&mut oracle));
    }
}

/// The original's presence with an oracle that does not look at the text: the next answer byte.
fn evaluated_in_turn(line: &Line) {
    let mut next = line.answers.iter().cycle();
    let mut oracle =
        |_: &str| -> Result<Truth, EvalError> { Ok(next.next().map_or(Truth::Unknown, |a| truth(*a))) };
    used(line.expr().eval(&mut oracle));
}

/// The lines of bench.txt: a status, its answers as letters and a value, parted by tabs.
fn table(path: &Path) -> Result<Vec<Line>, String> {
    let text = std::fs::read_to_string(path).map_err(|e| format!("{}: {e}", path.display()))?;
    let line = |line: &str| match line.split('\t').collect::<Vec<_>>()[..] {
        [status, answers, value] => Line::new(status, answers, value),
        _ => Err(format!("not three fields: {line}")),
    };
    text.lines().map(line).collect()
}

/// `[1]` to `[9]`, joined by the operators in turn.
fn in_turn(citations: usize) -> String {
    let operators = [" ∧ ", " ∨ ", " ⊻ "];
    let part = |i: usize| format!("{}[{}]", if i == 0 { "" } else { operators[i % 3] }, i % 9 + 1);
    (0..citations).map(part).collect()
}

/// Parentheses so deep, with And and Or in turn, around a last citation.
fn nested(cited: &str, last: &str, depth: usize) -> String {
    let part = |i: usize| format!("[{cited}] {} (", ["∧", "∨"][i % 2]);
    (0..depth).map(part).collect::<String>() + &format!("[{last}]") + &")".repeat(depth)
}

/// The worst cases inside the limits whose trees are large too; two more are only read, since their tree is that of `[1]`.
fn worst() -> Result<Vec<(&'static str, Line)>, String> {
    let hints = nested("500", "1", 200).replace('∧', "⊻");
    let only = nested("500", "501", 200).replace('∧', "⊻");
    Ok(vec![
        (
            "256 citations, operators in turn",
            Line::new(&format!("X {}", in_turn(256)), &"t".repeat(256), "1")?,
        ),
        ("254 deep", Line::new(&format!("X {}", nested("1", "2", 254)), &"t".repeat(255), "1")?),
        ("256 violations", Line::new(&format!("X {}", ["[903]"; 256].join(" ")), &"n".repeat(256), "0")?),
        ("hints under 200 nested choices", Line::new(&format!("X {hints}"), &("n".repeat(200) + "t"), "1")?),
        ("one citation of 2,048 bytes, ASCII", Line::new(&format!("X [{}]", "a".repeat(2_048)), "n", "1")?),
        (
            "one citation of 2,048 bytes, no ASCII",
            Line::new(&format!("X [{}]", "é".repeat(1_024)), "n", "1")?,
        ),
        ("hints only, under 200 nested choices", Line::new(&format!("X {only}"), &"n".repeat(201), "1")?),
    ])
}

/// Writes the tables, on a thread of its own, whose stack may be written to below what is in use.
pub fn run(path: &Path) -> Result<bool, String> {
    let path = path.to_owned();
    let thread = std::thread::Builder::new().stack_size(64 << 20).spawn(move || tables(&path));
    thread.map_err(|e| e.to_string())?.join().map_err(|_| "the benchmark failed".to_owned())?
}

fn tables(path: &Path) -> Result<bool, String> {
    let table = table(path)?;
    let all: Vec<&Line> = table.iter().collect();
    let with_tree: Vec<&Line> = table.iter().filter(|line| line.expr.is_some()).collect();
    println!(
        "Medians of {RUNS} runs. Nanoseconds a call; bytes of stack. Buffers are not cleared between calls.\n"
    );
    println!(
        "| input | function | Rust | ours | ratio | stack, Rust | stack, ours |\n|---|---|---:|---:|---:|---:|---:|"
    );
    let name = format!("table of {} lines", table.len());
    reading(&name, &all);
    judging(&name, &with_tree);
    for (name, line) in worst()? {
        reading(name, &[&line]);
        judging(name, &[&line]);
    }
    let spaces = Line::new(&format!("X [1]{}", " ".repeat(LONGEST_TEXT - 5)), "t", "1")?;
    reading("4,400 bytes, white space", &[&spaces]);
    let open = Line::new(&format!("X {}[1]{}", "(".repeat(MOST_OPEN), ")".repeat(MOST_OPEN)), "t", "1")?;
    reading("256 parentheses around one citation", &[&open]);
    Ok(true)
}
