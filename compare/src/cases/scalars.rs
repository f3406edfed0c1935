//! Every scalar value: 918, white space, and characters that are no condition.

use super::{Cases, every_scalar, pakete};
use crate::request::Function::{Evaluate, Expr, Kind, Registered, Status};

pub fn scalars(cases: &mut Cases) {
    for character in every_scalar() {
        let mut bytes = [0; 4];
        let text: &str = character.encode_utf8(&mut bytes);
        cases.ask(Evaluate, &[b"918", text.as_bytes()]);
        around_a_citation(cases, text);
        if cases.long || (character as u32) < 0x3100 || character as u32 % 61 == 0 {
            in_the_leaves(cases, text);
        }
    }
    runs(cases);
}

/// As white space after a status word, between citations and alone in a citation.
fn around_a_citation(cases: &mut Cases, text: &str) {
    cases.ask_lent(Status, &[format!("X{text}[1]").as_bytes()], 23);
    cases.ask_lent(Expr, &[format!("[1]{text}[2]").as_bytes()], 46);
    cases.ask_lent(Expr, &[format!("[{text}]").as_bytes()], 26);
    if cases.long {
        cases.ask_lent(Status, &[format!("{text}K{text}").as_bytes()], 1);
        cases.ask_lent(Status, &[format!("M [a{text}{text}b]").as_bytes()], 40);
    }
}

fn in_the_leaves(cases: &mut Cases, text: &str) {
    cases.ask(Kind, &[text.as_bytes()]);
    cases.ask(Kind, &[format!("{text}5").as_bytes()]);
    cases.ask(Kind, &[format!("5{text}").as_bytes()]);
    pakete::ask(cases, format!("1P{text}1..2").as_bytes());
    pakete::ask(cases, format!("1{text}P1..2").as_bytes());
    cases.ask(Registered, &[format!("90{text}").as_bytes()]);
    for id in ["902", "905", "910", "939", "940", "942"] {
        cases.ask(Evaluate, &[id.as_bytes(), format!("+{text}").as_bytes()]);
    }
}

/// Runs of neighbouring characters in one value, forwards and backwards.
fn runs(cases: &mut Cases) {
    let all: Vec<char> = every_scalar().collect();
    for run in all.chunks(200) {
        for run in [run.iter().collect::<String>(), run.iter().rev().collect()] {
            cases.ask(Evaluate, &[b"918", run.as_bytes()]);
            cases.ask(Evaluate, &[b"904", run.as_bytes()]);
        }
    }
}
