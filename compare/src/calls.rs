//! Reading, presence and verdicts, called in process through the library for callers.

#[cfg(feature = "library")]
use ahb::{Refusal, StatusKind, Truth};

use crate::oracle::Answer;
use crate::request::Function;

/// Whether this build has the library.
pub const LINKED: bool = cfg!(feature = "library");

/// What the library says, in the words of the line protocol, and what the lent buffer holds afterwards.
pub struct Said {
    pub words: String,
    pub lent: Vec<u8>,
}

/// Without the library nothing is called.
#[cfg(not(feature = "library"))]
pub fn ask(_: Function, _: &[&[u8]]) -> Said {
    unreachable!("this build has no library")
}

/// Asks an exported function; a lent buffer is the last field.
#[cfg(feature = "library")]
pub fn ask(function: Function, fields: &[&[u8]]) -> Said {
    let mut lent = if function.lends() { fields[fields.len() - 1].to_vec() } else { Vec::new() };
    let words = match function {
        Function::Expr => ahb::read_expression(fields[0], &mut lent).map(|n| format!("ok {n}")),
        Function::Status => ahb::read_status(fields[0], &mut lent).map(status_words),
        Function::Eval => ahb::presence(fields[0], fields[1]).map(truth_word),
        Function::Verdicts => ahb::verdicts(fields[0], fields[1], &mut lent).map(verdicts_words),
        _ => unreachable!("not exported"),
    };
    let refused = |why: Refusal| format!("refused {}", why.number());
    Said { words: words.unwrap_or_else(refused), lent }
}

#[cfg(feature = "library")]
fn truth_word(truth: Truth) -> String {
    truth.number().to_string()
}

#[cfg(feature = "library")]
fn verdicts_words((truth, count): (Truth, usize)) -> String {
    format!("ok {} {count}", truth_word(truth))
}

#[cfg(feature = "library")]
fn status_words((kind, length): (StatusKind, Option<usize>)) -> String {
    let code = kind.code();
    match length {
        Some(length) => format!("ok {code} {length}"),
        None => format!("ok {code} none"),
    }
}

/// Whether it is what is due, in every byte of the lent buffer.
pub fn agrees(said: &Said, due: &Answer, before: &[u8]) -> bool {
    match due {
        Err(number) => said.words == format!("refused {number}") && said.lent == before,
        Ok((words, result)) => {
            let (head, rest) = said.lent.split_at(result.len().min(said.lent.len()));
            said.words == *words && head == result && rest == &before[head.len()..]
        }
    }
}
