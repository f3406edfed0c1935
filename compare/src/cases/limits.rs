//! Texts, values, citations, parentheses and buffers one under, at and over each limit.

use super::Cases;
use crate::oracle::{LONGEST_TEXT, LONGEST_VALUE, MOST_OPEN, read};
use crate::request::Function::{self, *};
use crate::tree::{MOST_CITATIONS, MOST_TEXT_BYTES, encode, encode_parts};

pub fn limits(cases: &mut Cases) {
    for function in [Kind, Paket, Name, Registered] {
        text_limits(cases, function, &[]);
    }
    text_limits(cases, Evaluate, &[b"1"]);
    text_limits(cases, Expr, &[b"\x55\x55"]);
    text_limits(cases, Status, &[b"\x55\x55"]);
    value_limits(cases);
    reading_limits(cases);
    tree_limits(cases);
    largest(cases);
}

fn around(limit: usize) -> [usize; 3] {
    [limit - 1, limit, limit + 1]
}

fn text_limits(cases: &mut Cases, function: Function, more: &[&[u8]]) {
    for length in [LONGEST_TEXT, LONGEST_TEXT + 1] {
        for last in [b'5', b' ', 0xC3] {
            let mut text = vec![if last == b' ' { b' ' } else { b'0' }; length];
            text[length - 1] = last;
            cases.ask(function, &[&[text.as_slice()], more].concat());
        }
    }
}

/// Both fields of `evaluate` too long or not UTF-8, in every combination.
fn value_limits(cases: &mut Cases) {
    let texts: [&[u8]; 4] = [b"902", b"x", b"\xff", &[b'9'; LONGEST_TEXT + 1]];
    let long_and_bad = [0xFF; LONGEST_VALUE + 1];
    let values: [&[u8]; 7] = [
        b"1",
        b"\xff",
        &[b'0'; LONGEST_VALUE - 1],
        &[b'0'; LONGEST_VALUE],
        &[b'0'; LONGEST_VALUE + 1],
        &long_and_bad[..LONGEST_VALUE],
        &long_and_bad,
    ];
    for text in texts {
        for value in values {
            cases.ask(Evaluate, &[text, value]);
        }
    }
    let one = encode_parts(1, &[0, 0, 0, 0, 1, 0], &[b"902"]);
    for tree in [one.as_slice(), b"", &one[1..]] {
        for value in values {
            cases.ask_lent(Verdicts, &[tree, value], 1);
        }
    }
}

/// Texts for refusals 12 and 13, with a buffer too short for any tree.
fn reading_limits(cases: &mut Cases) {
    for text in limit_texts() {
        cases.ask_lent(Expr, &[text.as_bytes()], 3);
        cases.ask_lent(Status, &[format!("X {text}").as_bytes()], 3);
    }
}

pub fn limit_texts() -> Vec<String> {
    let mut texts = Vec::new();
    for count in around(MOST_CITATIONS) {
        let ones = "[1]".repeat(count);
        texts.extend(["", "[", "[ ]", "+", ")", "(", " ∧"].map(|end| ones.clone() + end));
        texts.push(["[1]"].repeat(count).join(" ∨ "));
    }
    for bytes in around(MOST_TEXT_BYTES) {
        texts.push(format!("[{}]", "x".repeat(bytes)));
        texts.push(format!("[{}][é]", "x".repeat(bytes - 2)));
        texts.push(format!("[{}]{}", "x".repeat(bytes - 255), "[1]".repeat(255)));
        texts.push(format!("[{}  {}]", "x".repeat(bytes / 2), "y".repeat(bytes - bytes / 2 - 1)));
    }
    for open in around(MOST_OPEN) {
        texts.push("(".repeat(open));
        texts.push(format!("{}[1]{}", "(".repeat(open), ")".repeat(open)));
        texts.push(format!("{}[1]{}", "(".repeat(open), ")".repeat(open - 1)));
        texts.push(format!("){}", "(".repeat(open)));
        texts.push(format!("){}[1]", "()".repeat(open)));
        texts.push(format!("()){}", "(".repeat(open)));
    }
    texts
}

/// The longest print, 4,343 bytes: 256 citations of 8 bytes, And and Or in turn, each in the other's parentheses.
pub fn longest_print() -> String {
    let operand = |i: usize| format!("[1234567{}] {} (", i % 10, ["∧", "∨"][i % 2]);
    let most = MOST_CITATIONS - 2;
    (0..most).map(operand).collect::<String>() + "[12345678] ⊻ [12345678]" + &")".repeat(most)
}

/// The largest results, each into a buffer that is one byte short, exact, and one byte longer.
fn largest(cases: &mut Cases) {
    let text = longest_print();
    let tree = encode(&read(&text).expect("within the limits"));
    let padded = text.clone() + &" ".repeat(LONGEST_TEXT - text.len());
    for length in around(tree.len()) {
        cases.ask_lent(Expr, &[text.as_bytes()], length);
    }
    for length in around(text.len()) {
        cases.ask_lent(Print, &[&tree], length);
    }
    cases.ask_lent(Expr, &[padded.as_bytes()], tree.len());
    cases.ask_lent(Expr, &[(padded + " ").as_bytes()], 3);
    cases.ask(Cited, &[&tree]);
    cases.ask(Eval, &[&tree, &[2; MOST_CITATIONS]]);
    for open in [MOST_OPEN, MOST_OPEN + 1] {
        let text = format!("{}[1]{}", "(".repeat(open), ")".repeat(open));
        cases.ask_lent(Expr, &[text.as_bytes()], 23);
    }
    for length in around(23) {
        cases.ask_lent(Expr, &[b"[1]"], length);
    }
    let violated = encode(&read(&"[903]".repeat(MOST_CITATIONS)).expect("within the limits"));
    let pakete = encode(&read(&"[1P]".repeat(MOST_CITATIONS)).expect("within the limits"));
    for length in around(2 * MOST_CITATIONS) {
        cases.ask_lent(Verdicts, &[&violated, b"0"], length);
    }
    for length in [19 * MOST_CITATIONS - 1, 19 * MOST_CITATIONS] {
        cases.ask_lent(Pakete, &[&pakete], length);
    }
}

/// Trees one under, at and over the limits on citations and their bytes.
fn tree_limits(cases: &mut Cases) {
    for count in around(MOST_CITATIONS) {
        tree_of(cases, &vec![1; count]);
    }
    for bytes in around(MOST_TEXT_BYTES) {
        tree_of(cases, &[bytes - 1, 1]);
        let mut lengths = vec![8; 255];
        lengths.push(bytes - 8 * 255);
        tree_of(cases, &lengths);
    }
}

/// Asks everything of a juxtaposition of citations with these lengths.
fn tree_of(cases: &mut Cases, lengths: &[usize]) {
    let mut rows = vec![1, 0];
    rows.extend((lengths.len() as u16).to_le_bytes());
    rows.extend((lengths.len() as u16 + 1).to_le_bytes());
    for number in 0..lengths.len() as u16 {
        rows.extend([0, 0]);
        rows.extend(number.to_le_bytes());
        rows.extend([1, 0]);
    }
    let texts: Vec<Vec<u8>> = lengths.iter().map(|n| vec![b'7'; *n]).collect();
    let texts: Vec<&[u8]> = texts.iter().map(Vec::as_slice).collect();
    let tree = encode_parts(lengths.len() + 1, &rows, &texts);
    cases.ask(Tree, &[&tree]);
    cases.ask_lent(Print, &[&tree], 2);
    cases.ask(Eval, &[&tree, &vec![2; lengths.len()]]);
    cases.ask_lent(Verdicts, &[&tree, b"1"], 2);
}

#[cfg(test)]
mod tests {
    use super::*;

    #[test]
    fn largest_results() {
        let text = longest_print();
        let expr = read(&text).expect("within the limits");
        assert_eq!((text.len(), encode(&expr).len()), (4_343, 6_150));
        assert_eq!(expr.to_string(), text);
    }
}
