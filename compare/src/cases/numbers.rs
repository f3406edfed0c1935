//! `evaluate` on numbers: bounds, signs, points, zeros, counts of digits, lengths.

use super::Cases;
use super::formats::every_condition;
use crate::oracle::LONGEST_VALUE;
use crate::original::formatbedingung::REGISTERED;
use crate::request::Function::Evaluate;

const WHOLE: [&str; 24] = [
    "", "0", "1", "2", "5", "9", "10", "11", "99", "100", "101", "999", "1000", "1001", "9999", "10000",
    "12345", "99998", "99999", "100000", "999999", "1000000", "9999999", "18446744073709551616",
];
const FRACTIONS: [&str; 12] = ["", ".", ".0", ".00", ".5", ".9", ".01", ".10", "..", ".0.", ".x", ".-1"];
const ODD: [&str; 22] = [
    "", "+", "-", "--1", "-+1", "+-1", "++1", "1-", "1+", " 1", "1 ", "1,5", "1e3", "0x1", "１", "1é", "NaN",
    "inf", "1_000", "-.", "+.", "-.-",
];
const PARTS: [&str; 14] = ["0", "0", "1", "9", "5", ".", "00", "99", "+", "-", "10", "000", "4", "x"];

pub fn numbers(cases: &mut Cases) {
    if !cases.knows(Evaluate) {
        return;
    }
    let signs: &[&str] = if cases.long { &["", "-", "+", "--", "+-", " "] } else { &["", "-", "+"] };
    let zeros: &[&str] = if cases.long { &["", "0", "000", "0000000"] } else { &["", "0"] };
    let fractions = fractions(cases.long);
    for sign in signs {
        for zero in zeros {
            for whole in WHOLE {
                for fraction in &fractions {
                    every_condition(cases, format!("{sign}{zero}{whole}{fraction}").as_bytes());
                }
            }
        }
    }
    for value in ODD {
        every_condition(cases, value.as_bytes());
    }
    digit_counts(cases);
    lengths(cases);
    random(cases);
}

/// Fractions of up to so many digits, with and without further zeros.
fn fractions(long: bool) -> Vec<String> {
    let mut fractions: Vec<String> = FRACTIONS.map(String::from).into();
    for digits in 1..=13 {
        fractions.push(format!(".{}1", "0".repeat(digits - 1)));
        if long {
            fractions.push(format!(".{}", "9".repeat(digits)));
            fractions.push(format!(".{}100", "0".repeat(digits - 1)));
        }
    }
    fractions
}

/// Every count of digits on each side of the point, with outer zeros.
fn digit_counts(cases: &mut Cases) {
    for whole in 0..=9 {
        for fraction in 0..=14 {
            for (before, after) in [("", ""), ("00", ""), ("", "00"), ("0", "0")] {
                let value = format!("{before}{}.{}{after}", "7".repeat(whole), "3".repeat(fraction));
                every_condition(cases, value.as_bytes());
            }
        }
    }
}

/// Values of every length (the short size leaves most out).
fn lengths(cases: &mut Cases) {
    let long = cases.long;
    let wanted = |n: &usize| long || n % 61 == 0 || *n < 34 || *n > LONGEST_VALUE - 4;
    for length in (0..=LONGEST_VALUE + 1).filter(wanted) {
        let filled = |byte: u8| vec![byte; length];
        for mut value in [filled(b'0'), filled(b'1'), filled(b'A')] {
            every_condition(cases, &value);
            for (from_end, byte) in [(1, b'1'), (2, b'.'), (length, b'-'), (length, b'.')] {
                if let Some(place) = length.checked_sub(from_end).filter(|p| *p < length) {
                    value[place] = byte;
                    every_condition(cases, &value);
                }
            }
        }
    }
}

fn random(cases: &mut Cases) {
    for _ in 0..cases.size(200_000, 6_000_000) {
        let value = cases.random.joined(&PARTS, 10);
        let id = *cases.random.pick(REGISTERED);
        cases.ask(Evaluate, &[id.as_bytes(), value.as_bytes()]);
    }
}
