//! `Expr::parse` and `Status::parse`; what is read is judged as a tree too.

use super::limits::limit_texts;
use super::trees::{Judged, TREE_FUNCTIONS};
use super::{Cases, strings};
use crate::model::reading::expression;
use crate::oracle::STATUS_WORDS;
use crate::request::Function::{Expr, Status};
use crate::tree::MOST_CITATIONS;

/// A citation of each kind, operators, parentheses, white space, a stray character, torn brackets.
const TOKENS: [&str; 17] = [
    "[1]", "[500]", "[931]", "[2000]", "[UB1]", "[1P0..1]", "[x]", "∧", "∨", "⊻", "(", ")", " ", "+", "[",
    "]", "[ ]",
];
const STRUCTURE: [&str; 6] = ["[1]", "∧", "∨", "⊻", "(", ")"];
const CITED: [&str; 22] = [
    "1", "2", "499", "500", "501", "902", "903", "914", "931", "950", "UB1", "UB4", "2000", "1P0..1", "7P",
    "1P5..2", "xP", "+5", " 5", "1 [2", "a  b", "é(∧",
];
const SPACES: [&str; 10] = ["", "", "", " ", " ", "  ", "\t", "\u{a0}", "\u{3000}", "\r\n"];
const OPERATORS: [&str; 3] = ["∧", "∨", "⊻"];

pub fn reading(cases: &mut Cases) {
    if !cases.knows_any(&[Expr, Status]) && !cases.knows_any(&TREE_FUNCTIONS) {
        return;
    }
    let mut judged = Judged::default();
    status_words(cases);
    short_texts(cases, &TOKENS, cases.size(4, 5), &mut judged);
    short_texts(cases, &STRUCTURE, cases.size(6, 8), &mut judged);
    for text in limit_texts() {
        ask_around(cases, &text);
        judged.judge_text(cases, &text);
    }
    groups(cases, &mut judged);
    random_texts(cases, &mut judged);
    texts_near_the_limits(cases, &mut judged);
}

/// Reads a text as an expression and after a status word, into one buffer each.
pub fn ask_near(cases: &mut Cases, text: &str) {
    let length = result_length(text);
    cases.ask_lent_near(Expr, &[text.as_bytes()], length);
    let word = *cases.random.pick(&STATUS_WORDS);
    let space = *cases.random.pick(&[" ", "  ", "\t", "\u{2003}", "\n"]);
    cases.ask_lent_near(Status, &[format!("{word}{space}{text}").as_bytes()], length);
}

/// The same into buffers of every interesting length.
fn ask_around(cases: &mut Cases, text: &str) {
    let length = result_length(text);
    cases.ask_lent_around(Expr, &[text.as_bytes()], length);
    cases.ask_lent_around(Status, &[format!("S {text}").as_bytes()], length);
}

fn result_length(text: &str) -> usize {
    expression(text).map_or(3, |node| node.bytes().len())
}

fn short_texts(cases: &mut Cases, tokens: &[&str], most: usize, judged: &mut Judged) {
    strings(tokens, most, &mut |text| {
        ask_near(cases, text);
        judged.judge_text(cases, text);
    });
}

/// Every text of these citations in this order: an operator or none between two, groups wherever one can stand, and at most so
/// many citations in its first operand.
pub fn chains(cited: &[&str], most: usize) -> Vec<String> {
    let mut all = Vec::new();
    for count in 1..=most {
        let (first, rest) = cited.split_at(count);
        let firsts = match first {
            [one] => vec![format!("[{one}]")],
            _ => chains(first, count - 1).iter().map(|chain| format!("({chain})")).collect(),
        };
        if rest.is_empty() {
            all.extend(firsts);
            continue;
        }
        let rests = chains(rest, rest.len());
        for (first, rest) in firsts.iter().flat_map(|first| rests.iter().map(move |rest| (first, rest))) {
            all.extend([" ", " ∧ ", "∨", " ⊻"].map(|between| format!("{first}{between}{rest}")));
        }
    }
    all
}

/// Groups of few citations, first, later and both, also with more parentheses than needed; and the most groups that lead.
fn groups(cases: &mut Cases, judged: &mut Judged) {
    for cited in [&["1", "902", "3"][..], &["1", "2", "3", "4"], &["500", "0900", "1P0..1", "UB1"]] {
        for text in chains(cited, cited.len() - 1) {
            for text in [
                text.replace('(', "((").replace(')', "))"),
                text.replace('[', "([").replace(']', "])"),
                format!("({text})"),
                text,
            ] {
                ask_around(cases, &text);
                judged.judge_text(cases, &text);
            }
        }
    }
    for operator in OPERATORS {
        let more = format!(" {operator} [12345678])");
        for groups in [1, 2, 100, MOST_CITATIONS - 2, MOST_CITATIONS - 1] {
            let text = format!("{}[87654321]{}", "(".repeat(groups), more.repeat(groups));
            ask_around(cases, &text);
            judged.judge_text(cases, &text);
        }
    }
}

fn status_words(cases: &mut Cases) {
    let ends =
        ["", " ", "  ", "[1]", " [1]", "\t[1]", " [1] ", "s", "\u{a0}", "\u{200b}", "\0", " M", " ∧", " ()"];
    let mut words: Vec<String> = STATUS_WORDS.map(String::from).into();
    words.extend(STATUS_WORDS.iter().flat_map(|w| [w.to_lowercase(), w.to_uppercase()]));
    words.extend(STATUS_WORDS.iter().map(|w| w[..w.len() - 1].to_owned()));
    words.extend(["MM", "Must", "Mus", "XX", "\u{feff}X", "[1]", "A", "Κ", "Х"].map(String::from));
    for word in words {
        for start in ["", " ", "\u{3000}\n", "x"] {
            for end in ends {
                cases.ask_lent_around(Status, &[format!("{start}{word}{end}").as_bytes()], 23);
            }
        }
    }
    for byte in 0..=255u8 {
        for word in STATUS_WORDS {
            cases.ask_lent(Status, &[&[word.as_bytes(), &[byte], b"[1]"].concat()], 23);
            cases.ask_lent(Status, &[&[word.as_bytes(), &[byte]].concat()], 2);
        }
    }
    let mut texts = Vec::new();
    strings(&["M", "u", "s", "X", "K", " ", "S"], 5, &mut |text| texts.push(text.to_owned()));
    for text in texts {
        cases.ask_lent(Status, &[text.as_bytes()], 1);
    }
}

/// Writes an expression of at most so many citations, oddly spaced.
pub fn write_chain(cases: &mut Cases, left: &mut usize, depth: usize, out: &mut String) {
    loop {
        write_run(cases, left, depth, out);
        if *left == 0 || cases.random.one_in(3) {
            return;
        }
        out.push_str(cases.random.part(&SPACES));
        out.push_str(cases.random.part(&OPERATORS));
        out.push_str(cases.random.part(&SPACES));
    }
}

fn write_run(cases: &mut Cases, left: &mut usize, depth: usize, out: &mut String) {
    loop {
        if depth > 0 && *left > 1 && cases.random.one_in(3) {
            out.push('(');
            write_chain(cases, left, depth - 1, out);
            out.push(')');
        } else {
            *left = left.saturating_sub(1);
            out.push('[');
            out.push_str(cases.random.part(&CITED));
            out.push(']');
        }
        out.push_str(cases.random.part(&SPACES));
        if *left == 0 || !cases.random.one_in(3) {
            return;
        }
    }
}

/// A text with a few characters left out, doubled or replaced.
pub fn damaged(cases: &mut Cases, text: &str) -> String {
    let mut characters: Vec<char> = text.chars().collect();
    for _ in 0..=cases.random.below(2) {
        let place = cases.random.below(characters.len().max(1));
        let other = *cases.random.pick(&['(', ')', '[', ']', '∧', ' ', 'x', '\u{2227}', '+']);
        match cases.random.below(3) {
            0 if place < characters.len() => drop(characters.remove(place)),
            1 => characters.insert(place.min(characters.len()), other),
            _ if place < characters.len() => characters[place] = other,
            _ => {}
        }
    }
    characters.into_iter().collect()
}

fn random_texts(cases: &mut Cases, judged: &mut Judged) {
    for round in 0..cases.size(40_000, 1_500_000) {
        let mut left = 1 + cases.random.below(if round % 16 == 0 { 60 } else { 8 });
        let mut text = String::new();
        write_chain(cases, &mut left, 5, &mut text);
        if cases.random.one_in(3) {
            text = damaged(cases, &text);
        }
        ask_near(cases, &text);
        if round % 8 == 0 {
            ask_bytes(cases, &text);
        }
        judged.judge_text(cases, &text);
    }
}

/// A text with one byte changed, often no longer UTF-8.
fn ask_bytes(cases: &mut Cases, text: &str) {
    let mut bytes = text.as_bytes().to_vec();
    let place = cases.random.below(bytes.len());
    bytes[place] = *cases.random.pick(&[0x80, 0xC3, 0xE2, 0xFF, b']', b' ', 0x88]);
    cases.ask_lent(Expr, &[&bytes], 40);
    bytes.splice(0..0, *b"Kann ");
    cases.ask_lent(Status, &[&bytes], 40);
}

/// Long texts with about as many citations, bytes, parentheses as are allowed.
fn texts_near_the_limits(cases: &mut Cases, judged: &mut Judged) {
    for _ in 0..cases.size(300, 20_000) {
        let citations = 250 + cases.random.below(12);
        let extra = cases.random.below(10);
        let open = if cases.random.one_in(3) { 250 + cases.random.below(12) } else { 3 };
        let mut text = "(".repeat(open);
        for number in 0..citations {
            let fill = if number == 0 { 2_048 - 255 * 3 - 6 + extra } else { 3 };
            text.push_str(&format!("[{}]", "4".repeat(fill)));
            text.push_str(cases.random.part(&["", "∧", " ∨ ", "⊻"]));
            if open > 0 && cases.random.one_in(2) {
                text.push(')');
            }
        }
        text.push_str("[5]");
        ask_near(cases, &text);
        judged.judge_text(cases, &text);
    }
}

#[cfg(test)]
mod tests {
    use super::*;

    #[test]
    fn counts_of_chains() {
        assert_eq!(chains(&["1", "2"], 1), ["[1] [2]", "[1] ∧ [2]", "[1]∨[2]", "[1] ⊻[2]"]);
        assert_eq!([chains(&["1"; 3], 2).len(), chains(&["1"; 4], 3).len()], [48, 704]);
    }
}
