//! Calls the library in process and sends the rest to `replay`; holds the answers to the oracle's.

use std::collections::BTreeMap;
use std::fs;
use std::io::{BufRead, BufReader, Read, Write};
use std::path::{Path, PathBuf};
use std::process::{Child, ChildStdout, Command, Stdio};
use std::sync::mpsc::{Receiver, SyncSender, sync_channel};
use std::sync::{Arc, Mutex};
use std::thread;
use std::time::{Duration, Instant};

use crate::asked::{ASKED, Asked, Reason};
use crate::calls;
use crate::cases::{self, Cases};
use crate::listed::Listed;
use crate::oracle::{Answer, Origin};
use crate::request::{self, BAD_REQUEST, Function, write_hex, write_request};
use crate::tried::{Folder, MOST_WRITTEN, Written};

const PROGRESS: Duration = Duration::from_secs(4);

/// The bytes of requests that one process is given; it ends before the next begins, so that it may keep its answers back
/// as long as it likes. One that is tried is compiled for each batch.
const BATCH_REQUESTS: usize = if calls::LINKED { 8 << 20 } else { 24 << 20 };
/// The bytes of answers that one process is asked for where it is tried: an answer has hardly more bytes than the longest
/// request.
const BATCH_DUE: usize = MOST_WRITTEN - (1 << 17);
/// Bytes up to which a request and an answer are short.
const SHORT: (usize, usize) = (160, 4);
const TRIED_AT_ONCE: usize = 2;

/// Requests in a row with the answers that are due, a line each.
#[derive(Default)]
struct Batch {
    requests: Vec<u8>,
    due: Vec<u8>,
    cases: Vec<(Function, Origin)>,
}

/// The program that is asked.
pub enum Replay {
    Linked(PathBuf),
    /// Compiled by `rt try`, from the repository at this folder.
    Tried(PathBuf),
}

/// How a comparison is to be run.
pub struct Plan<'a> {
    pub replay: &'a Replay,
    pub long: bool,
    pub seed: u64,
    /// Whether to stop at the first difference.
    pub stop: bool,
    /// Rounds of random expressions in process, after the cases by subject.
    pub rounds: u64,
    pub listed: Arc<Listed>,
}

#[derive(Default, Clone, Copy)]
pub struct Count {
    pub cases: u64,
    /// Of these, called in process.
    pub called: u64,
    /// Of these, through the stand-in for `time`.
    pub timed: u64,
    pub differences: u64,
    pub listed: u64,
}

/// Requests that a rule takes out of the comparison with the original.
#[derive(Debug, Default, Clone, Copy, PartialEq)]
pub struct LeftOut {
    /// Held to the model.
    pub modelled: u64,
    /// Held to nothing.
    pub unanswered: u64,
}

impl LeftOut {
    fn add(&mut self, more: &LeftOut) {
        self.modelled += more.modelled;
        self.unanswered += more.unanswered;
    }

    fn line(&self, what: &str) -> String {
        let count = self.modelled + self.unanswered;
        format!("left out of the comparison{what}: {count}, the model answered {}", self.modelled)
    }
}

/// A request whose answers differ.
pub struct Difference {
    pub request: Vec<u8>,
    pub due: Vec<u8>,
    pub said: Vec<u8>,
}

#[derive(Default)]
pub struct Outcome {
    pub counts: BTreeMap<Function, Count>,
    /// The shortest difference of each function.
    pub smallest: BTreeMap<Function, Difference>,
    /// The function that was asked last.
    pub last: Option<Function>,
    /// What was taken out, by reason.
    pub left_out: BTreeMap<Reason, LeftOut>,
    /// Trees of which demand 3 was run.
    pub trees: u64,
    /// What went wrong with the process itself.
    pub failure: Option<String>,
}

impl Outcome {
    pub fn total(&self) -> Count {
        let mut total = Count::default();
        for count in self.counts.values() {
            total.cases += count.cases;
            total.called += count.called;
            total.timed += count.timed;
            total.differences += count.differences;
            total.listed += count.listed;
        }
        total
    }

    /// The cases of each function, in a line.
    fn by_function(&self) -> String {
        let words =
            self.counts.iter().map(|(function, count)| format!("{} {}", function.word(), count.cases));
        format!(
            "{} cases, {} differences: {}",
            self.total().cases,
            self.total().differences,
            words.collect::<Vec<_>>().join(", ")
        )
    }

    fn count(&mut self, function: Function, origin: Origin) -> &mut Count {
        let count = self.counts.entry(function).or_default();
        count.cases += 1;
        count.timed += u64::from(origin == Origin::Time);
        self.last = Some(function);
        if let Origin::Model(reason) = origin {
            self.left_out.entry(reason).or_default().modelled += 1;
        }
        count
    }

    /// Counts a request that nobody answers.
    fn leave_out(&mut self, reason: Reason) {
        self.left_out.entry(reason).or_default().unanswered += 1;
    }

    fn count_all(&mut self, cases: &[(Function, Origin)]) {
        for (function, origin) in cases {
            self.count(*function, *origin);
        }
    }

    fn differs(&mut self, listed: &Listed, function: Function, difference: Difference) {
        let count = self.counts.entry(function).or_default();
        if listed.has(&difference.request, &difference.due, &difference.said) {
            count.listed += 1;
            return;
        }
        count.differences += 1;
        let smallest = self.smallest.get(&function);
        if smallest.is_none_or(|d| difference.request.len() < d.request.len()) {
            self.smallest.insert(function, difference);
        }
    }

    /// What was left out, all and by reason.
    pub fn left_out_lines(&self) -> Vec<String> {
        let mut all = LeftOut::default();
        self.left_out.values().for_each(|one| all.add(one));
        let by_reason = self.left_out.iter().map(|(reason, one)| one.line(&format!(", {reason}")));
        [all.line("")].into_iter().chain(by_reason).collect()
    }

    /// Takes over what another part of the run has counted.
    fn add(&mut self, other: Outcome) {
        for (function, more) in other.counts {
            let count = self.counts.entry(function).or_default();
            count.cases += more.cases;
            count.called += more.called;
            count.timed += more.timed;
            count.differences += more.differences;
            count.listed += more.listed;
        }
        for (function, difference) in other.smallest {
            let smallest = self.smallest.get(&function);
            if smallest.is_none_or(|d| difference.request.len() < d.request.len()) {
                self.smallest.insert(function, difference);
            }
        }
        for (reason, more) in other.left_out {
            self.left_out.entry(reason).or_default().add(&more);
        }
        self.trees += other.trees;
        self.failure = self.failure.take().or(other.failure);
    }
}

/// A process that is given a batch by a thread of its own, and its answers.
fn start(replay: &Path, batch: Arc<Batch>) -> Result<(Child, BufReader<ChildStdout>), String> {
    let mut command = Command::new(replay);
    command.stdin(Stdio::piped()).stdout(Stdio::piped());
    let mut child = command.spawn().map_err(|e| format!("{}: {e}", replay.display()))?;
    let mut stdin = child.stdin.take().ok_or("no standard input")?;
    let stdout = child.stdout.take().ok_or("no standard output")?;
    thread::spawn(move || stdin.write_all(&batch.requests));
    Ok((child, BufReader::with_capacity(1 << 18, stdout)))
}

/// The answers to a few lines.
fn answers(replay: &Path, input: &[u8]) -> Result<Vec<u8>, String> {
    let batch = Batch { requests: input.to_vec(), ..Batch::default() };
    let (mut child, mut stdout) = start(replay, Arc::new(batch))?;
    let mut output = Vec::new();
    stdout.read_to_end(&mut output).map_err(|e| e.to_string())?;
    ended(&mut child)?;
    Ok(output)
}

fn ended(child: &mut Child) -> Result<(), String> {
    let status = child.wait().map_err(|e| e.to_string())?;
    if status.success() { Ok(()) } else { Err(format!("replay ended with {status}")) }
}

/// The functions that replay does not answer `bad request`; one that is tried is held to all of them.
pub fn known(replay: &Replay) -> Result<Vec<Function>, String> {
    let Replay::Linked(replay) = replay else {
        return Ok(Function::ALL.to_vec());
    };
    let mut input = Vec::new();
    for function in Function::ALL {
        input.extend(function.probe());
        input.push(b'\n');
    }
    let output = answers(replay, &input)?;
    let lines: Vec<&[u8]> = output.split(|b| *b == b'\n').collect();
    if lines.len() != Function::ALL.len() + 1 {
        return Err(format!("replay gave {} lines for {}", lines.len() - 1, Function::ALL.len()));
    }
    let asked = Function::ALL.into_iter().zip(lines);
    let known = |(f, line): &(Function, &[u8])| *f == Function::Protocol || *line != BAD_REQUEST.as_bytes();
    Ok(asked.filter(known).map(|(f, _)| f).collect())
}

/// Inputs without a last line feed, and no input at all.
pub fn check_ends(replay: &Replay) -> Result<(), String> {
    let Replay::Linked(replay) = replay else {
        return Ok(());
    };
    for (input, due) in [("", ""), ("kind 31", "0\n"), ("kind 31\nx", "0\nbad request\n")] {
        let said = answers(replay, input.as_bytes())?;
        if said != due.as_bytes() {
            let said = String::from_utf8_lossy(&said).into_owned();
            return Err(format!("the whole input {input:?} is answered {said:?}, not {due:?}"));
        }
    }
    Ok(())
}

/// Names the request over which the oracle panics.
struct Request<'a>(Function, &'a [&'a [u8]]);

impl Drop for Request<'_> {
    fn drop(&mut self) {
        if thread::panicking() {
            let mut line = Vec::new();
            write_request(self.0, self.1, &mut line);
            eprintln!("the oracle was asked: {}", shown(&line));
        }
    }
}

/// Of so many requests of a function one is sent to replay. Where it is linked, what the library exports is called in
/// process besides; where it is tried, it is compiled for each batch, also runs without optimization, and may not write much. The
/// lists of verdicts are short, so of these more are sent.
fn one_in(function: Function, long: bool) -> u64 {
    match (calls::LINKED, function.exported()) {
        _ if function == Function::Protocol => 1,
        (true, true) => 16,
        (true, false) => 1,
        (false, true) if function == Function::Verdicts => 5,
        (false, true) if function.lends() => 241,
        (false, false) if function.lends() => 31,
        (false, _) if long => 7,
        (false, _) => 1,
    }
}

/// Answers in process, or fills batches and hands them on.
struct Producer {
    batch: Batch,
    to_comparer: SyncSender<Batch>,
    open: bool,
    line: Vec<u8>,
    caller: Caller,
    /// The requests of each function.
    asked: BTreeMap<Function, u64>,
}

impl Producer {
    fn new(to_comparer: SyncSender<Batch>, caller: Caller) -> Self {
        let asked = BTreeMap::new();
        Self { batch: Batch::default(), to_comparer, open: true, line: Vec::new(), caller, asked }
    }

    /// Lines as they stand, all of them for replay.
    fn take_lines(&mut self, text: &[u8]) {
        for line in text.split_inclusive(|b| *b == b'\n') {
            let line = [line.strip_suffix(b"\n").unwrap_or(line)];
            let _request = Request(Function::Protocol, &line);
            self.line = line[0].to_vec();
            let function = request::parse(&self.line).map_or(Function::Protocol, |(function, _)| function);
            if let Some(origin) = self.answer(function) {
                self.pipe(function, origin);
            }
        }
    }

    fn take(&mut self, function: Function, fields: &[&[u8]]) {
        if !self.open {
            return;
        }
        let _request = Request(function, fields);
        if calls::LINKED && function.exported() {
            self.open = self.caller.call(function, fields);
        }
        if function.lends() && !self.has_turn(function, true) {
            return;
        }
        self.line.clear();
        write_request(function, fields, &mut self.line);
        let due = self.batch.due.len();
        let Some(origin) = self.answer(function) else {
            return;
        };
        let long = self.line.len() > SHORT.0 || self.batch.due.len() - due > SHORT.1;
        if function.lends() || self.has_turn(function, long) {
            self.pipe(function, origin);
        } else {
            self.batch.due.truncate(due);
        }
    }

    /// Whether replay is sent this request.
    fn has_turn(&mut self, function: Function, long: bool) -> bool {
        let of = one_in(function, long);
        let asked = self.asked.entry(function).or_default();
        *asked += u64::from(of > 1);
        of == 1 || *asked % of == 0
    }

    /// Adds the line's answer to what is due, if there is one.
    fn answer(&mut self, function: Function) -> Option<Origin> {
        let answered = self.caller.asked.answer(&self.line, &mut self.batch.due);
        let origin = answered.map_err(|reason| self.caller.outcome.leave_out(reason)).ok()?;
        self.batch.due.push(b'\n');
        let request = function != Function::Protocol;
        assert!(!request || origin != Origin::Protocol, "a generator wrote no request");
        Some(origin)
    }

    /// Sends the line, whose answer is the last that is due.
    fn pipe(&mut self, function: Function, origin: Origin) {
        let batch = &mut self.batch;
        batch.requests.extend_from_slice(&self.line);
        batch.requests.push(b'\n');
        batch.cases.push((function, origin));
        let full = batch.requests.len() >= BATCH_REQUESTS || !calls::LINKED && batch.due.len() >= BATCH_DUE;
        if full {
            self.send();
        }
    }

    fn send(&mut self) {
        let batch = std::mem::take(&mut self.batch);
        self.open &= self.to_comparer.send(batch).is_ok();
    }
}

/// Calls the library and compares at once.
struct Caller {
    asked: Asked,
    outcome: Outcome,
    calls: u64,
    stop: bool,
    listed: Arc<Listed>,
    last_report: Instant,
}

impl Caller {
    fn new(asked: Asked, listed: Arc<Listed>, stop: bool) -> Self {
        Self { asked, outcome: Outcome::default(), calls: 0, stop, listed, last_report: Instant::now() }
    }

    /// Asks both sides; whether to go on.
    fn call(&mut self, function: Function, fields: &[&[u8]]) -> bool {
        self.calls += 1;
        let (due, origin) = match self.asked.ask(function, fields) {
            Ok(due) => due,
            Err(reason) => {
                self.outcome.leave_out(reason);
                return true;
            }
        };
        let said = calls::ask(function, fields);
        self.outcome.count(function, origin).called += 1;
        let before = if function.lends() { fields[fields.len() - 1] } else { &[] };
        if !calls::agrees(&said, &due, before) {
            let difference = difference(function, fields, &due, &said, before);
            self.outcome.differs(&self.listed, function, difference);
            return !(self.stop && self.outcome.total().differences > 0);
        }
        true
    }

    fn report(&mut self, what: &str) {
        if self.calls % 4096 == 0 && self.last_report.elapsed() > PROGRESS {
            self.last_report = Instant::now();
            let total = self.outcome.total();
            println!("{what}: {} cases in process, {} differences", total.cases, total.differences);
        }
    }
}

/// A call that is answered differently, in the words of the line protocol.
fn difference(
    function: Function,
    fields: &[&[u8]],
    due: &Answer,
    said: &calls::Said,
    before: &[u8],
) -> Difference {
    let mut request = Vec::new();
    write_request(function, fields, &mut request);
    let (words, mut lent) = match due {
        Ok((words, result)) => (words.clone(), result.clone()),
        Err(number) => (format!("refused {number}"), Vec::new()),
    };
    lent.extend_from_slice(&before[lent.len().min(before.len())..]);
    let line = |words: &str, lent: &[u8]| {
        let mut line = words.as_bytes().to_vec();
        if function.lends() {
            line.push(b' ');
            write_hex(lent, &mut line);
        }
        line
    };
    Difference { request, due: line(&words, &lent), said: line(&said.words, &said.lent) }
}

/// Runs the comparison to its end, or to the first difference if the plan says so.
pub fn run(plan: &Plan, known: &[Function]) -> Outcome {
    let (to_comparer, batches) = sync_channel(1);
    let (long, seed, known, listed, stop) =
        (plan.long, plan.seed, known.to_vec(), plan.listed.clone(), plan.stop);
    let first = match plan.replay {
        Replay::Linked(_) => Vec::new(),
        Replay::Tried(root) => fs::read(root.join("crates/replay/stdin")).unwrap_or_default(),
    };
    let producer = thread::spawn(move || {
        let caller = Caller::new(ASKED, listed, stop);
        let mut producer = Producer::new(to_comparer, caller);
        producer.take_lines(&first);
        let mut take = |function, fields: &[&[u8]]| {
            producer.take(function, fields);
            if calls::LINKED {
                producer.caller.report("cases by subject");
            }
        };
        let mut cases = Cases::new(long, seed, &known, &mut take);
        cases::all(&mut cases);
        let trees = cases.trees;
        producer.send();
        producer.caller.outcome.trees = trees;
        producer.caller.outcome
    });
    let mut outcome = match plan.replay {
        Replay::Linked(replay) => Comparer::of(plan).all(|comparer| comparer.compare(replay, batches)),
        Replay::Tried(root) => tried(plan, root, batches),
    };
    match producer.join() {
        Ok(called) => {
            if calls::LINKED {
                println!("cases by subject, in process, seed {}: {}", plan.seed, called.by_function());
            }
            outcome.add(called);
        }
        Err(_) => {
            outcome.failure =
                outcome.failure.or(Some("the oracle failed; its own message stands above".to_owned()))
        }
    }
    if plan.rounds > 0 && outcome.failure.is_none() && outcome.total().differences == 0 {
        outcome.add(many(plan));
    }
    outcome
}

/// Random expressions, statuses and trees in process, a thread and a seed for each processor.
fn many(plan: &Plan) -> Outcome {
    let threads = thread::available_parallelism().map_or(1, |n| n.get() as u64);
    let (rounds, stop) = (plan.rounds / threads, plan.stop);
    let start = |number: u64| {
        let (seed, listed) = (plan.seed * 1_000 + number, plan.listed.clone());
        println!("random expressions, statuses and trees: seed {seed}, {rounds} rounds");
        thread::spawn(move || called_rounds(seed, rounds, listed, stop))
    };
    let started: Vec<_> = (1..=threads).map(start).collect();
    let mut outcome = Outcome::default();
    for (number, thread) in (1..).zip(started) {
        match thread.join() {
            Ok(called) => {
                println!("seed {}: {}", plan.seed * 1_000 + number, called.by_function());
                outcome.add(called);
            }
            Err(_) => outcome.failure = Some("the oracle failed; its own message stands above".to_owned()),
        }
    }
    outcome
}

fn called_rounds(seed: u64, rounds: u64, listed: Arc<Listed>, stop: bool) -> Outcome {
    let known: Vec<Function> = Function::ALL.into_iter().filter(|f| f.exported()).collect();
    let mut caller = Caller::new(ASKED, listed, stop);
    let mut open = true;
    let mut take = |function, fields: &[&[u8]]| {
        if open {
            let _request = Request(function, fields);
            open = caller.call(function, fields);
            caller.report(&format!("seed {seed}"));
        }
    };
    let mut cases = Cases::new(true, seed, &known, &mut take);
    cases::many::many(&mut cases, rounds);
    let trees = cases.trees;
    caller.outcome.trees = trees;
    caller.outcome
}

struct Comparer<'a> {
    plan: &'a Plan<'a>,
    outcome: Outcome,
    last_report: Instant,
}

impl<'a> Comparer<'a> {
    fn of(plan: &'a Plan<'a>) -> Self {
        Self { plan, outcome: Outcome::default(), last_report: Instant::now() }
    }

    /// What comes of comparing; an error is replay's failure to answer.
    fn all(mut self, compare: impl FnOnce(&mut Self) -> Result<(), String>) -> Outcome {
        self.outcome.failure = compare(&mut self).err();
        self.outcome
    }

    /// Compares every batch.
    fn compare(&mut self, replay: &Path, batches: Receiver<Batch>) -> Result<(), String> {
        for batch in batches {
            self.compare_batch(replay, Arc::new(batch))?;
            if self.ends() {
                break;
            }
        }
        Ok(())
    }

    /// Whether to stop here; says how far it is, now and then.
    fn ends(&mut self) -> bool {
        let total = self.outcome.total();
        if self.last_report.elapsed() > PROGRESS {
            self.last_report = Instant::now();
            let word = self.outcome.last.map_or("", Function::word);
            println!("{} cases, {} differences, at {word}", total.cases, total.differences);
        }
        self.plan.stop && total.differences > 0
    }

    fn compare_batch(&mut self, replay: &Path, batch: Arc<Batch>) -> Result<(), String> {
        let (mut child, mut answers) = start(replay, batch.clone())?;
        let mut requests = batch.requests.split(|b| *b == b'\n');
        let mut due = batch.due.split(|b| *b == b'\n');
        let mut said = Vec::new();
        for (function, origin) in &batch.cases {
            let (request, due) = (requests.next().unwrap_or(b""), due.next().unwrap_or(b""));
            said.clear();
            let read = answers.read_until(b'\n', &mut said);
            if read.map_err(|e| e.to_string())? == 0 {
                return Err(format!("replay ended before it answered {}", shown(request)));
            }
            self.outcome.count(*function, *origin);
            if said.strip_suffix(b"\n") != Some(due) {
                let said = said.strip_suffix(b"\n").unwrap_or(&said);
                let [request, due, said] = [request, due, said].map(<[u8]>::to_vec);
                self.outcome.differs(&self.plan.listed, *function, Difference { request, due, said });
            }
        }
        let mut rest = Vec::new();
        answers.read_to_end(&mut rest).map_err(|e| e.to_string())?;
        ended(&mut child)?;
        if rest.is_empty() { Ok(()) } else { Err("replay wrote more lines than it was asked".into()) }
    }
}

/// Compares every batch with what a program writes that `rt try` compiles, some batches at a time.
fn tried(plan: &Plan, root: &Path, batches: Receiver<Batch>) -> Outcome {
    let batches = Mutex::new(Some(batches));
    let next = || batches.lock().ok()?.as_ref()?.recv().ok();
    let work = || {
        Comparer::of(plan).all(|comparer| {
            let folder = Folder::new(root, "replay")?;
            while let Some(batch) = next() {
                comparer.try_lines(&folder, Lines::of(&batch))?;
                if comparer.ends() {
                    batches.lock().ok().and_then(|mut batches| batches.take());
                }
            }
            Ok(())
        })
    };
    let mut outcome = Outcome::default();
    thread::scope(|scope| {
        let started: Vec<_> = (0..TRIED_AT_ONCE).map(|_| scope.spawn(work)).collect();
        for worker in started {
            match worker.join() {
                Ok(done) => outcome.add(done),
                Err(_) => outcome.failure = Some("a thread failed; its message stands above".to_owned()),
            }
        }
    });
    outcome
}

impl Comparer<'_> {
    /// Compares lines up to their first difference, and on from there where that one is listed.
    fn try_lines(&mut self, folder: &Folder, asked: Lines) -> Result<(), String> {
        match folder.run(asked.requests, asked.due)? {
            Written::AsDue => {
                self.outcome.count_all(asked.cases);
                Ok(())
            }
            Written::Late if asked.cases.len() > 1 => {
                let (first, second) = asked.split(asked.cases.len() / 2);
                self.try_lines(folder, first)?;
                self.try_lines(folder, second)
            }
            Written::Late => Err(format!("replay takes too long over {}", shown(asked.requests))),
            Written::Else { at, said } => {
                let before = asked.due[..at].iter().filter(|b| **b == b'\n').count();
                if before >= asked.cases.len() {
                    return Err("replay wrote more lines than it was asked".into());
                }
                let (same, rest) = asked.split(before);
                let (one, after) = rest.split(1);
                self.outcome.count_all(same.cases);
                self.outcome.count_all(one.cases);
                let [request, due] =
                    [one.requests, one.due].map(|line| line.strip_suffix(b"\n").unwrap_or(line));
                let said = [&due[..at - same.due.len()], said.as_bytes()].concat();
                let listed = self.outcome.total().listed;
                let difference = Difference { request: request.to_vec(), due: due.to_vec(), said };
                self.outcome.differs(&self.plan.listed, one.cases[0].0, difference);
                let goes_on = self.outcome.total().listed > listed && !after.cases.is_empty();
                if goes_on { self.try_lines(folder, after) } else { Ok(()) }
            }
        }
    }
}

/// A part of a batch.
#[derive(Clone, Copy)]
struct Lines<'a> {
    requests: &'a [u8],
    due: &'a [u8],
    cases: &'a [(Function, Origin)],
}

impl<'a> Lines<'a> {
    fn of(batch: &'a Batch) -> Self {
        Self { requests: &batch.requests, due: &batch.due, cases: &batch.cases }
    }

    /// The first so many lines, and the rest.
    fn split(self, count: usize) -> (Self, Self) {
        let ((requests, more), (due, more_due)) = (lines(self.requests, count), lines(self.due, count));
        let (cases, more_cases) = self.cases.split_at(count);
        (Self { requests, due, cases }, Self { requests: more, due: more_due, cases: more_cases })
    }
}

/// The first so many lines, and the rest.
fn lines(text: &[u8], count: usize) -> (&[u8], &[u8]) {
    let end: usize = text.split_inclusive(|b| *b == b'\n').take(count).map(<[u8]>::len).sum();
    text.split_at(end)
}

/// A line for the reader, cut where it is long.
pub fn shown(line: &[u8]) -> String {
    const MOST: usize = 1_500;
    let cut = if line.len() > MOST { " (cut here)" } else { "" };
    format!("{}{cut}", String::from_utf8_lossy(&line[..line.len().min(MOST)]))
}

#[cfg(test)]
mod tests {
    use super::*;
    use crate::asked::made_up;

    #[test]
    fn requests_and_answers_are_split_alike() {
        let cases = [(Function::Kind, Origin::Rust); 3];
        let asked = Lines { requests: b"kind 31\nkind 32\nkind 33", due: b"0\n0\n0\n", cases: &cases };
        let (first, rest) = asked.split(2);
        assert_eq!((first.requests, first.due), (&b"kind 31\nkind 32\n"[..], &b"0\n0\n"[..]));
        assert_eq!((rest.requests, rest.due), (&b"kind 33"[..], &b"0\n"[..]));
        assert_eq!((first.cases.len(), rest.cases.len()), (2, 1));
    }

    /// Of four kinds one is of the original, two of the model, and one of nobody.
    #[test]
    fn what_is_taken_out_is_counted_and_held_to_the_model() {
        let (to_comparer, batches) = sync_channel(1);
        let listed = Arc::new(Listed::from_file(Path::new("")));
        let mut producer = Producer::new(to_comparer, Caller::new(made_up::ASKED, listed, false));
        for text in ["801", "901", "9", "9012"] {
            producer.take(Function::Kind, &[text.as_bytes()]);
        }
        producer.send();
        let batch = batches.recv().expect("a batch");
        assert_eq!(batch.requests, b"kind 383031\nkind 393031\nkind 39\n");
        assert_eq!(batch.due, b"1\n7\n7\n");

        let mut outcome = Outcome::default();
        outcome.count_all(&batch.cases);
        outcome.add(producer.caller.outcome);
        assert_eq!(outcome.total().cases, 3);
        let counted = LeftOut { modelled: 2, unanswered: 1 };
        assert_eq!(outcome.left_out, BTreeMap::from([(made_up::REASON, counted)]));
        let lines = ["", ", made up"]
            .map(|what| format!("left out of the comparison{what}: 3, the model answered 2"));
        assert_eq!(outcome.left_out_lines(), lines);
    }
}
