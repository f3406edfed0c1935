//! The fixed list that the gate replays: requests and answers, with their origins.

use std::collections::BTreeMap;
use std::fmt::Write;
use std::fs;
use std::path::Path;

use crate::asked::ASKED;
use crate::cases::{self, Cases};
use crate::oracle::Origin;
use crate::original::formatbedingung::REGISTERED;
use crate::paper;
use crate::random::hash;
use crate::request::{self, Function};

/// Requests that are longer are left to the section on limits.
const LONGEST_SAMPLE: usize = 400;
/// Requests kept of those that are answered alike.
const OF_A_CONDITION: usize = 24;
const OF_A_BOUNDARY: usize = 100;
const OF_A_FUNCTION: usize = 70;
/// Bytes of the whole list, requests and answers.
const MOST_BYTES: usize = 2 << 20;

struct Entry {
    section: &'static str,
    origin: Origin,
    function: Function,
    request: Vec<u8>,
    answer: Vec<u8>,
}

/// Writes stdin and stdout, and LIST.md with their origins.
pub fn write(into: &Path, contents_into: &Path, known: &[Function]) -> Result<(), String> {
    let mut entries = paper_entries(known)?;
    entries.extend(limit_entries(known));
    entries.extend(sampled_entries(known));
    entries.sort_by_key(|e| (e.section != EXAMPLES, e.section != LIMITS, e.function, e.origin));
    let (mut stdin, mut stdout) = (Vec::new(), Vec::new());
    for entry in &entries {
        stdin.extend([entry.request.as_slice(), b"\n"].concat());
        stdout.extend([entry.answer.as_slice(), b"\n"].concat());
    }
    let bytes = stdin.len() + stdout.len();
    if bytes > MOST_BYTES {
        return Err(format!("the list has {bytes} bytes, over {MOST_BYTES}"));
    }
    put(&into.join("stdin"), &stdin)?;
    put(&into.join("stdout"), &stdout)?;
    put(&contents_into.join("LIST.md"), contents(&entries).as_bytes())?;
    println!("{} requests, {bytes} bytes", entries.len());
    Ok(())
}

fn put(path: &Path, bytes: &[u8]) -> Result<(), String> {
    fs::write(path, bytes).map_err(|e| format!("{}: {e}", path.display()))
}

const EXAMPLES: &str = "examples and bounds";
const LIMITS: &str = "limits and lines that are no requests";
const SAMPLE: &str = "sample of the short comparison";

fn line(function: Function, fields: &[&[u8]]) -> Vec<u8> {
    let mut line = Vec::new();
    request::write_request(function, fields, &mut line);
    line
}

/// A request with its answer, where there is one.
fn entry(section: &'static str, function: Function, request: &[u8]) -> Option<Entry> {
    let mut answer = Vec::new();
    let origin = ASKED.answer(request, &mut answer).ok()?;
    Some(Entry { section, origin, function, request: request.to_vec(), answer })
}

/// The documents' examples; whoever is asked must answer as they do.
fn paper_entries(known: &[Function]) -> Result<Vec<Entry>, String> {
    let mut entries = Vec::new();
    for (line, due) in paper::examples(known) {
        let function = request::parse(&line).map_or(Function::Protocol, |(f, _)| f);
        match entry(EXAMPLES, function, &line) {
            Some(entry) if entry.answer == due.as_bytes() => entries.push(entry),
            _ => {
                let line = String::from_utf8_lossy(&line).into_owned();
                return Err(format!("the documents answer {line} with {due}, the oracle does not"));
            }
        }
    }
    Ok(entries)
}

fn limit_entries(known: &[Function]) -> Vec<Entry> {
    let mut entries = Vec::new();
    let mut take =
        |function, fields: &[&[u8]]| entries.extend(entry(LIMITS, function, &line(function, fields)));
    let mut cases = Cases::new(false, 1, known, &mut take);
    cases::limits::limits(&mut cases);
    cases::protocol::requestless(&mut cases);
    entries
}

/// What is asked and answered alike, so that each kind of answer gets its share.
type Class = (Function, Vec<u8>, Vec<u8>);

fn class(function: Function, request: &[u8], answer: &[u8]) -> Class {
    let refused = answer.starts_with(b"refused");
    let texts = function == Function::Cited && !refused;
    let two = refused || function == Function::Verdicts;
    let words = answer.split(|b| *b == b' ').take(if two { 2 } else { usize::from(!texts) });
    let said = words.collect::<Vec<_>>().join(&b' ');
    let id = match request::parse(request) {
        Some((Function::Evaluate, fields)) if !refused => fields[0].clone(),
        _ => Vec::new(),
    };
    let condition = REGISTERED.iter().any(|c| c.as_bytes() == id);
    (function, if condition { id } else { Vec::new() }, said)
}

/// How many requests of a class are kept.
fn share((_, condition, _): &Class) -> usize {
    match condition.as_slice() {
        b"" => OF_A_FUNCTION,
        [b'U', ..] => OF_A_BOUNDARY,
        _ => OF_A_CONDITION,
    }
}

/// Of each class of the short comparison the requests with the smallest hashes.
fn sampled_entries(known: &[Function]) -> Vec<Entry> {
    let mut classes: BTreeMap<_, BTreeMap<u64, Entry>> = BTreeMap::new();
    let mut take = |function, fields: &[&[u8]]| {
        let line = line(function, fields);
        if function == Function::Protocol || line.len() > LONGEST_SAMPLE {
            return;
        }
        let Some(entry) = entry(SAMPLE, function, &line) else {
            return;
        };
        let class = class(function, &line, &entry.answer);
        let most = share(&class);
        let kept = classes.entry(class).or_default();
        kept.insert(hash(&line), entry);
        if kept.len() > most {
            kept.pop_last();
        }
    };
    cases::all(&mut Cases::new(false, 1, known, &mut take));
    classes.into_values().flat_map(BTreeMap::into_values).collect()
}

fn origin_words(origin: Origin) -> String {
    match origin {
        Origin::Rust => "the Rust original".to_owned(),
        Origin::Time => "the Rust original over the stand-in for `time`".to_owned(),
        Origin::Paper => "our documents (docs/FORMAT.md, docs/SEMANTICS.md)".to_owned(),
        Origin::Model(reason) => format!("the model: {reason}"),
        Origin::Protocol => "the line protocol".to_owned(),
    }
}

/// The table of line ranges with what they hold and whose answers they are.
fn contents(entries: &[Entry]) -> String {
    let mut out = String::from(
        "# The list of replay\n\nWritten by `compare/list`. Lines of crates/replay/stdin and stdout, \
         and whose answers they are.\n\n| lines | section | function | answers of |\n|---|---|---|---|\n",
    );
    let mut first = 0;
    let same = |a: &Entry, b: &Entry| (a.section, a.function, a.origin) == (b.section, b.function, b.origin);
    for run in entries.chunk_by(same) {
        let (last, head) = (first + run.len(), &run[0]);
        let (word, whose) = (head.function.word(), origin_words(head.origin));
        let _ = writeln!(out, "| {}–{last} | {} | {word} | {whose} |", first + 1, head.section);
        first = last;
    }
    out
}
