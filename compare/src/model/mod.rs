//! A plain model of what the original does not answer, or no longer answers as it should: written from the papers with the
//! simplest data structures, and neither from the original nor from the port. It has a file for each subject.

pub mod judged;
pub mod kinds;
pub mod reading;
pub mod tree;

use crate::oracle::refusal::{NO_ROOM, NOT_A_PAKET, NOT_A_TREE, WRONG_ANSWERS};
use crate::oracle::{Answer, text, value};
use crate::request::{Function, write_hex};
use tree::Node;

/// The model's answer to a request, where it has one; a lent buffer is the last field.
pub fn answer(function: Function, fields: &[&[u8]]) -> Option<Answer> {
    let first = fields[0];
    let answer = match function {
        Function::Kind => text(first).and_then(|text| said(kinds::kind_number(text))),
        Function::Expr => text(first).and_then(|text| wrote("ok", reading::expression(text)?.bytes())),
        Function::Status => status(first),
        Function::Tree => tree(first).and_then(|_| said("ok")),
        Function::Print => tree(first).and_then(|node| wrote("ok", reading::print(&node).into_bytes())),
        Function::Cited => cited(first),
        Function::Eval => presence(first, fields[1]),
        Function::Pakete => tree(first).and_then(|node| listed(&judged::pakete(&node))),
        Function::Verdicts => verdicts(first, fields[1]),
        Function::Evaluate if is_boundary(first) && is_other_form(fields[1]) => said('V'),
        Function::Paket | Function::Name | Function::Evaluate | Function::Registered if is_900(first) => {
            alone(function, fields)
        }
        _ => return None,
    };
    Some(match answer {
        Ok((_, written)) if function.lends() && written.len() > fields[fields.len() - 1].len() => {
            Err(NO_ROOM)
        }
        other => other,
    })
}

/// Whether the model's verdicts on two trees are the same.
pub fn judged_alike(a: &[u8], b: &[u8], value: &str) -> bool {
    verdicts(a, value.as_bytes()) == verdicts(b, value.as_bytes())
}

/// Whether the bytes are a number equal to 900.
pub fn is_900(bytes: &[u8]) -> bool {
    str::from_utf8(bytes).is_ok_and(|text| kinds::number(text) == Some(900))
}

/// Whether the bytes are the text of a condition on day boundaries.
pub fn is_boundary(bytes: &[u8]) -> bool {
    matches!(bytes, b"UB1" | b"UB2" | b"UB3")
}

/// Whether the bytes are a value, and none in full form.
pub fn is_other_form(bytes: &[u8]) -> bool {
    value(bytes).is_ok_and(|value| !judged::is_full_form(value))
}

/// A number equal to 900 by itself is no Paket, and no condition that has an evaluator.
fn alone(function: Function, fields: &[&[u8]]) -> Answer {
    text(fields[0])?;
    match function {
        Function::Evaluate => value(fields[1]).and_then(|_| said('U')),
        Function::Registered => said(0),
        _ => Err(NOT_A_PAKET),
    }
}

fn said(word: impl ToString) -> Answer {
    Ok((word.to_string(), Vec::new()))
}

/// Words, and how many bytes were written.
fn wrote(words: &str, bytes: Vec<u8>) -> Answer {
    Ok((format!("{words} {}", bytes.len()), bytes))
}

/// How many rows there are, and the rows.
fn listed(rows: &[Vec<u8>]) -> Answer {
    Ok((format!("ok {}", rows.len()), rows.concat()))
}

fn tree(bytes: &[u8]) -> Result<Node, u8> {
    Node::of_bytes(bytes).ok_or(NOT_A_TREE)
}

fn status(bytes: &[u8]) -> Answer {
    match reading::status(text(bytes)?)? {
        (code, None) => said(format!("ok {code} none")),
        (code, Some(node)) => wrote(&format!("ok {code}"), node.bytes()),
    }
}

fn cited(bytes: &[u8]) -> Answer {
    let mut out = Vec::new();
    for text in tree(bytes)?.texts() {
        if !out.is_empty() {
            out.push(b',');
        }
        write_hex(text.as_bytes(), &mut out);
    }
    said(String::from_utf8_lossy(&out))
}

fn presence(bytes: &[u8], answers: &[u8]) -> Answer {
    let node = tree(bytes)?;
    if answers.len() != node.texts().len() || answers.iter().any(|byte| *byte > 4) {
        return Err(WRONG_ANSWERS);
    }
    said(judged::presence(&node, answers)? as u8)
}

/// The format truth, how many violations there are, and their numbers.
fn verdicts(bytes: &[u8], of: &[u8]) -> Answer {
    let node = tree(bytes)?;
    let value = value(of)?;
    let (truth, numbers) = (judged::format_truth(&node, value), judged::violations(&node, value));
    let list = numbers.iter().flat_map(|number| (*number as u16).to_le_bytes()).collect();
    Ok((format!("ok {} {}", truth as u8, numbers.len()), list))
}
