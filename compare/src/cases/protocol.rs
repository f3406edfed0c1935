//! Lines that are no requests, and the longest that are.

use super::Cases;
use crate::request::{Function, LONGEST_LINE};

const NO_REQUESTS: [&str; 32] = [
    "", " ", "kind", "kind ", "kind  31", " kind 31", "kind 31 ", "kind 31 31", "kind 3", "kind 313",
    "kind 3A", "kind 3g", "kind --", "kind -31", "kind 31-", "kind - -", "Kind 31", "KIND 31", "kinds 31",
    "kin 31", "kind\t31", "kind 31\r", "kind 31\t", "kind 0x31", "evaluate 31", "evaluate 31 ",
    "evaluate 31 31 31", "registered", "paket - -", "protocol", "truth - -", "violations - - -",
];

pub fn lines(cases: &mut Cases) {
    requestless(cases);
    for byte in (0..=255u8).filter(|b| *b != b'\n') {
        cases.ask_line(&[byte]);
        cases.ask_line(&[b"kind 3".as_slice(), &[byte]].concat());
        cases.ask_line(&[b"kind".as_slice(), &[byte], b"31"].concat());
    }
    around_the_longest(cases);
}

/// Lines that are no requests.
pub fn requestless(cases: &mut Cases) {
    for line in NO_REQUESTS {
        cases.ask_line(line.as_bytes());
    }
    missing_and_further_fields(cases);
}

fn missing_and_further_fields(cases: &mut Cases) {
    for function in Function::ALL.into_iter().filter(|f| *f != Function::Protocol) {
        if !cases.knows(function) {
            continue;
        }
        for fields in (0..6).filter(|n| *n != function.fields()) {
            cases.ask_line(format!("{}{}", function.word(), " 31".repeat(fields)).as_bytes());
            cases.ask_line(format!("{}{}", function.word(), " -".repeat(fields)).as_bytes());
        }
    }
}

fn around_the_longest(cases: &mut Cases) {
    for length in [LONGEST_LINE - 1, LONGEST_LINE, LONGEST_LINE + 1, LONGEST_LINE + 2, 200_000] {
        cases.ask_line(&[b"kind ".as_slice(), &vec![b'3'; length - 5]].concat());
        cases.ask_line(&[b"paket ".as_slice(), &vec![b'3'; length - 6]].concat());
        cases.ask_line(&vec![b'a'; length]);
    }
}
