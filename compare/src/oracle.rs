//! The original's answers, within our limits (docs/FORMAT.md).

use std::collections::HashMap;

use crate::asked::Reason;
use crate::original::conditions::{ConditionKind, EvalError, Expr, ExprError, Paket, Status, Truth, inside};
use crate::original::formatbedingung::{self, FormatVerdict};
use crate::request::{Function, write_hex};
use crate::standin::time;
use crate::tree::{self, MOST_CITATIONS, MOST_TEXT_BYTES};

pub const LONGEST_TEXT: usize = 4_400;
pub const LONGEST_VALUE: usize = 1_024;
pub const MOST_OPEN: usize = 256;
pub const STATUS_WORDS: [&str; 7] = ["Muss", "Soll", "Kann", "X", "M", "S", "K"];
/// Registered in the original, but not here.
pub const IDENTIFIERS: [&str; 6] = ["922", "950", "951", "953", "960", "961"];

/// The refusals of README's table.
pub mod refusal {
    pub const STRAY: u8 = 1;
    pub const UNTERMINATED: u8 = 2;
    pub const EMPTY_CONDITION: u8 = 3;
    pub const MISSING_OPERAND: u8 = 4;
    pub const PARENTHESES: u8 = 5;
    pub const EMPTY: u8 = 6;
    pub const CHOICE_OVER_NEUTRAL: u8 = 7;
    pub const FAILED_ANSWER: u8 = 8;
    pub const NO_STATUS_WORD: u8 = 9;
    pub const TOO_LONG: u8 = 10;
    pub const NOT_UTF8: u8 = 11;
    pub const TOO_MANY_CITATIONS: u8 = 12;
    pub const TOO_DEEP: u8 = 13;
    pub const NO_ROOM: u8 = 14;
    pub const NOT_A_TREE: u8 = 15;
    pub const WRONG_ANSWERS: u8 = 16;
    pub const NOT_A_PAKET: u8 = 17;
}

use refusal::*;

/// Whose answer it is.
#[derive(Debug, Clone, Copy, PartialEq, Eq, PartialOrd, Ord)]
pub enum Origin {
    /// The original's.
    Rust,
    /// The original's over the stand-in for `time`.
    Time,
    /// Our documents (docs/FORMAT.md, docs/SEMANTICS.md), where the original has none.
    Paper,
    /// The plain model's, where a rule takes the request out for this reason.
    Model(Reason),
    /// The line protocol's.
    Protocol,
}

/// An answer: words, and for a lent buffer what is written into it.
pub type Answer = Result<(String, Vec<u8>), u8>;

/// The answer to a function, and whose it is; a lent buffer is the last field.
pub fn ask(function: Function, fields: &[&[u8]]) -> (Answer, Origin) {
    let (fields, lent) = match fields.split_last() {
        Some((lent, fields)) if function.lends() => (fields, Some(*lent)),
        _ => (fields, None),
    };
    let asked = time::asked();
    let answer = within(answer_fields(function, fields), lent);
    let origin = origin(function, fields, &answer, time::asked() > asked);
    (answer, origin)
}

/// Whether the original judges a tree and its flat tree alike (demand 3).
pub fn judged_alike(a: &Expr, b: &Expr, answers: &[u8], value: &str) -> bool {
    evaluated(a, answers) == evaluated(b, answers)
        && verdicts(a, value) == verdicts(b, value)
        && pakete(a) == pakete(b)
}

/// Refusal 14 for a result that the lent buffer cannot hold.
fn within(answer: Answer, lent: Option<&[u8]>) -> Answer {
    match (&answer, lent) {
        (Ok((_, result)), Some(lent)) if result.len() > lent.len() => Err(NO_ROOM),
        _ => answer,
    }
}

/// Writes an answer, and after it what a lent buffer holds.
pub fn write_answer(answer: Answer, lent: Option<Vec<u8>>, out: &mut Vec<u8>) {
    let (words, result) = answer.unwrap_or_else(|n| (format!("refused {n}"), Vec::new()));
    out.extend_from_slice(words.as_bytes());
    if let Some(mut lent) = lent {
        lent[..result.len()].copy_from_slice(&result);
        out.push(b' ');
        write_hex(&lent, out);
    }
}

fn origin(function: Function, fields: &[&[u8]], answer: &Answer, timed: bool) -> Origin {
    let shut_off = |text: &[u8]| IDENTIFIERS.iter().any(|id| id.as_bytes() == text);
    let by_text = matches!(function, Function::Evaluate | Function::Registered);
    match answer {
        Err(TOO_LONG..=WRONG_ANSWERS) => Origin::Paper,
        _ if function == Function::Tree => Origin::Paper,
        _ if by_text && shut_off(fields[0]) => Origin::Paper,
        _ if timed => Origin::Time,
        _ => Origin::Rust,
    }
}

fn answer_fields(function: Function, fields: &[&[u8]]) -> Answer {
    let first = fields[0];
    let second = fields.get(1).copied().unwrap_or_default();
    match function {
        Function::Kind => plain(kind(first)?),
        Function::Paket => Ok((paket(first)?, Vec::new())),
        Function::Name => Ok((name(first)?, Vec::new())),
        Function::Evaluate => plain(evaluate(first, second)?),
        Function::Registered => plain(u8::from(formatbedingung::is_registered(text(first)?))),
        Function::Expr => Ok(read_answer("ok", &read(text(first)?)?)),
        Function::Status => status(first),
        Function::Tree => plain(expr(first).map(|_| "ok")?),
        Function::Print => {
            let print = expr(first)?.to_string();
            Ok((format!("ok {}", print.len()), print.into_bytes()))
        }
        Function::Cited => Ok((cited(&expr(first)?), Vec::new())),
        Function::Eval => plain(presence(first, second)?),
        Function::Pakete => Ok(pakete(&expr(first)?)),
        Function::Verdicts => {
            let expr = expr(first)?;
            Ok(verdicts(&expr, value(second)?))
        }
        Function::Protocol => unreachable!("no request"),
    }
}

fn plain(word: impl ToString) -> Answer {
    Ok((word.to_string(), Vec::new()))
}

/// A text or value: 10 and then 11.
fn utf8(bytes: &[u8], longest: usize) -> Result<&str, u8> {
    if bytes.len() > longest {
        return Err(TOO_LONG);
    }
    std::str::from_utf8(bytes).map_err(|_| NOT_UTF8)
}

pub fn text(bytes: &[u8]) -> Result<&str, u8> {
    utf8(bytes, LONGEST_TEXT)
}

pub fn value(bytes: &[u8]) -> Result<&str, u8> {
    utf8(bytes, LONGEST_VALUE)
}

fn expr(bytes: &[u8]) -> Result<Expr, u8> {
    tree::decode(bytes).ok_or(NOT_A_TREE)
}

fn kind(bytes: &[u8]) -> Result<u8, u8> {
    Ok(match ConditionKind::of(text(bytes)?) {
        ConditionKind::Voraussetzung => 0,
        ConditionKind::Hinweis => 1,
        ConditionKind::Format => 2,
        ConditionKind::Wiederholbarkeit => 3,
        ConditionKind::Zeitpunkt => 4,
        ConditionKind::Paket => 5,
        ConditionKind::Other => 6,
    })
}

fn read_paket(bytes: &[u8]) -> Result<Paket, u8> {
    Paket::parse(text(bytes)?).ok_or(NOT_A_PAKET)
}

/// A Paket's name, in hex.
fn name(bytes: &[u8]) -> Result<String, u8> {
    Ok(format!("ok {}", hex(read_paket(bytes)?.id.as_bytes())))
}

fn paket(bytes: &[u8]) -> Result<String, u8> {
    let paket = read_paket(bytes)?;
    let (mark, high) = bound(&paket);
    Ok(format!("ok {} {mark} {high}", paket.min))
}

/// The mark of a bounded Paket and its bound, else zeros.
fn bound(paket: &Paket) -> (u8, u64) {
    paket.max.map_or((0, 0), |high| (1, high as u64))
}

fn evaluate(id: &[u8], bytes: &[u8]) -> Result<char, u8> {
    let id = text(id)?;
    Ok(match formatbedingung::evaluate(id, value(bytes)?) {
        FormatVerdict::Holds => 'H',
        FormatVerdict::Violated(_) => 'V',
        FormatVerdict::Unregistered => 'U',
    })
}

fn number(error: &ExprError) -> u8 {
    match error {
        ExprError::Stray(_) => STRAY,
        ExprError::Unterminated => UNTERMINATED,
        ExprError::EmptyCondition => EMPTY_CONDITION,
        ExprError::MissingOperand => MISSING_OPERAND,
        ExprError::Parentheses => PARENTHESES,
        ExprError::Empty => EMPTY,
    }
}

/// An expression within the limits: 1, 2, 3, then 6, 12, 13, then 4 and 5.
pub fn read(text: &str) -> Result<Expr, u8> {
    let sizes = inside::sizes(text).map_err(|e| number(&e))?;
    if sizes.tokens == 0 {
        return Err(EMPTY);
    }
    if sizes.citations > MOST_CITATIONS || sizes.bytes > MOST_TEXT_BYTES {
        return Err(TOO_MANY_CITATIONS);
    }
    if sizes.depth > MOST_OPEN {
        return Err(TOO_DEEP);
    }
    Expr::parse(text).map_err(|e| number(&e))
}

fn read_answer(words: &str, expr: &Expr) -> (String, Vec<u8>) {
    let tree = tree::encode(expr);
    (format!("{words} {}", tree.len()), tree)
}

/// The original tells no refusal of a status from another, so its pieces are asked in turn.
fn status(bytes: &[u8]) -> Answer {
    let text = text(bytes)?;
    let mut words = text.split_whitespace();
    let word = words.next().ok_or(NO_STATUS_WORD)?;
    let kind = Status::parse(word).ok_or(NO_STATUS_WORD)?.kind;
    let code = STATUS_WORDS.iter().position(|w| *w == kind.as_str());
    let code = code.expect("a status word");
    let rest: Vec<&str> = words.collect();
    if rest.is_empty() {
        return Ok((format!("ok {code} none"), Vec::new()));
    }
    let read = read(&rest.join(" "));
    if !matches!(read, Err(TOO_MANY_CITATIONS | TOO_DEEP)) {
        let whole = Status::parse(text).and_then(|status| status.expr);
        assert_eq!(whole.as_ref(), read.as_ref().ok(), "the pieces of a status: {text:?}");
    }
    Ok(read_answer(&format!("ok {code}"), &read?))
}

fn cited(expr: &Expr) -> String {
    let texts: Vec<String> = expr.cited().iter().map(|text| hex(text.as_bytes())).collect();
    texts.join(",")
}

fn hex(bytes: &[u8]) -> String {
    let mut out = Vec::new();
    write_hex(bytes, &mut out);
    String::from_utf8(out).expect("hex")
}

fn truth_code(truth: Truth) -> u8 {
    match truth {
        Truth::False => 0,
        Truth::Unknown => 1,
        Truth::True => 2,
        Truth::Neutral => 3,
    }
}

/// An answer byte as the original's oracle gives it; 4 is any error of its own.
fn answered(byte: u8) -> Result<Truth, EvalError> {
    match byte {
        0 => Ok(Truth::False),
        1 => Ok(Truth::Unknown),
        2 => Ok(Truth::True),
        3 => Ok(Truth::Neutral),
        _ => Err(EvalError::PaketCycle(String::new())),
    }
}

fn presence(tree: &[u8], answers: &[u8]) -> Result<u8, u8> {
    evaluated(&expr(tree)?, answers)
}

fn evaluated(expr: &Expr, answers: &[u8]) -> Result<u8, u8> {
    let cited = expr.cited();
    if answers.len() != cited.len() || answers.iter().any(|a| *a > 4) {
        return Err(WRONG_ANSWERS);
    }
    let mut by_text = HashMap::new();
    for (text, byte) in cited.iter().zip(answers) {
        let former = by_text.insert(*text, *byte);
        assert!(former.is_none_or(|f| f == *byte), "equal texts need equal answers");
    }
    match expr.eval(&mut |text| answered(by_text[text])) {
        Ok(truth) => Ok(truth_code(truth)),
        Err(EvalError::ChoiceOverNeutral) => Err(CHOICE_OVER_NEUTRAL),
        Err(_) => Err(FAILED_ANSWER),
    }
}

/// The rows of the readable Paket citations, with their citation numbers.
fn pakete(expr: &Expr) -> (String, Vec<u8>) {
    let mut rows = Vec::new();
    let mut found = Vec::new();
    for (number, text) in expr.cited().into_iter().enumerate() {
        let is_paket = ConditionKind::of(text) == ConditionKind::Paket;
        let Some(paket) = Paket::parse(text).filter(|_| is_paket) else {
            continue;
        };
        let (mark, high) = bound(&paket);
        rows.extend_from_slice(&(number as u16).to_le_bytes());
        rows.extend_from_slice(&(paket.min as u64).to_le_bytes());
        rows.push(mark);
        rows.extend_from_slice(&high.to_le_bytes());
        found.push(paket);
    }
    assert_eq!(found, expr.pakete(), "the original lists the same");
    (format!("ok {}", found.len()), rows)
}

/// The original's format truth, how many citations it lists as violated, and their numbers.
fn verdicts(expr: &Expr, value: &str) -> (String, Vec<u8>) {
    let truth = truth_code(formatbedingung::truth(expr, value));
    let numbers = violations(expr, value);
    (format!("ok {truth} {}", numbers.len() / 2), numbers)
}

/// The numbers of the citations that the original lists as violated.
fn violations(expr: &Expr, value: &str) -> Vec<u8> {
    let listed = formatbedingung::violations(expr, value);
    let mut due = listed.iter().map(|(id, _)| id.as_str()).peekable();
    let mut numbers = Vec::new();
    for (number, text) in expr.cited().into_iter().enumerate() {
        if due.peek() == Some(&text) {
            due.next();
            numbers.extend_from_slice(&(number as u16).to_le_bytes());
        }
    }
    assert!(due.next().is_none(), "violations stand in the order of citations");
    numbers
}

#[cfg(test)]
mod tests {
    use super::*;
    use crate::asked::ASKED;

    #[test]
    fn conversion_from_bool() {
        assert_eq!([Truth::from(false), Truth::from(true)], [Truth::False, Truth::True]);
    }

    #[test]
    fn document_examples() {
        for (line, due) in crate::paper::examples(&Function::ALL) {
            let mut said = Vec::new();
            let _ = ASKED.answer(&line, &mut said);
            let asked = String::from_utf8_lossy(&line).into_owned();
            assert_eq!(String::from_utf8_lossy(&said), due, "{asked}");
        }
    }
}
