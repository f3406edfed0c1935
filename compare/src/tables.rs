//! White space over every scalar value, and the status words: the program `tables` writes both, and the original is asked
//! for the same.

use std::path::Path;
use std::process::Command;

use crate::original::conditions::{Expr, Status};
use crate::tried::{Folder, Written};

/// The words that are asked: the status words, and their like.
const WORDS: [&str; 16] = [
    "Muss", "Soll", "Kann", "X", "M", "S", "K", "muss", "MUSS", "Mus", "Musss", "x", "XX", "MS", "Ä", "Kann.",
];

/// The lines that `tables` owes, by the original, and how many questions they answer.
fn due() -> (Vec<String>, usize) {
    let mut lines = Vec::new();
    let mut asked = 0;
    for c in (0..=0x0010_FFFF).filter_map(char::from_u32) {
        asked += 1;
        // outside a citation white space is what may stand between two citations and is no operator or parenthesis
        let between = Expr::parse(&format!("[1]{c}[2]")).is_ok_and(|e| e.cited() == ["1", "2"]);
        if between
            && Expr::parse(&c.to_string()).is_err_and(|e| e == crate::original::conditions::ExprError::Empty)
        {
            lines.push(format!("white {:06x}", u32::from(c)));
        }
    }
    let mut code = 0;
    for word in WORDS {
        asked += 1;
        if let Some(status) = Status::parse(word) {
            let who = if status.kind.is_receiver_checkable() { "receiver" } else { "sender" };
            lines.push(format!("word {} {code} {who}", status.kind.as_str()));
            code += 1;
        }
    }
    (lines, asked)
}

/// How many questions the tables of the program at `path` answer as the original does.
pub fn compare(path: &Path) -> Result<usize, String> {
    let said = Command::new(path).output().map_err(|why| format!("{}: {why}", path.display()))?;
    let said = String::from_utf8(said.stdout).map_err(|_| "tables does not write text".to_owned())?;
    let (due, asked) = due();
    let said: Vec<&str> = said.lines().collect();
    for at in 0..due.len().max(said.len()) {
        let (one, other) = (due.get(at).map(String::as_str), said.get(at).copied());
        if one != other {
            return Err(format!("tables, line {}: the original has {one:?}, the program {other:?}", at + 1));
        }
    }
    Ok(asked)
}

/// The same of the program that `rt try` compiles from the repository at `root`.
pub fn compare_tried(root: &Path) -> Result<usize, String> {
    let (due, asked) = due();
    let due: String = due.iter().map(|line| format!("{line}\n")).collect();
    match Folder::new(root, "tables")?.run(b"", due.as_bytes())? {
        Written::AsDue => Ok(asked),
        Written::Late => Err("tables takes too long".to_owned()),
        Written::Else { at, said } => {
            let line = due[..at].lines().count();
            Err(format!(
                "tables, about line {line}: the original has {:?}, the program goes on {said:?}",
                due.lines().nth(line)
            ))
        }
    }
}
