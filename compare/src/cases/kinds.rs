//! `ConditionKind::of`.

use super::{Cases, strings};
use crate::oracle::LONGEST_TEXT;
use crate::request::Function::Kind;

const PARTS: [&str; 18] =
    ["0", "1", "2", "4", "5", "8", "9", "+", "-", "U", "B", "P", "u", "p", " ", ".", "é", "٣"];

pub fn kinds(cases: &mut Cases) {
    if !cases.knows(Kind) {
        return;
    }
    for number in 0..=cases.size(3_000, 70_000) as u64 {
        spellings(cases, number);
    }
    for power in [16, 31, 32, 33, 63, 64] {
        for number in (1u128 << power) - 600..(1u128 << power) + 600 {
            cases.ask(Kind, &[number.to_string().as_bytes()]);
        }
    }
    wrapped(cases);
    leading_zeros(cases);
    letters(cases);
    for _ in 0..cases.size(150_000, 3_000_000) {
        let text = cases.random.joined(&PARTS, 9);
        cases.ask(Kind, &[text.as_bytes()]);
    }
}

fn spellings(cases: &mut Cases, number: u64) {
    let forms = [
        format!("{number}"),
        format!("+{number}"),
        format!("0{number}"),
        format!("+000{number}"),
        format!(" {number}"),
        format!("{number} "),
        format!("-{number}"),
        format!("++{number}"),
        format!("{number}.0"),
        format!("{number}P"),
        format!("P{number}"),
        format!("UB{number}"),
        format!("U{number}"),
        format!("{number}UB"),
        format!("{number}+"),
        format!("0x{number}"),
    ];
    for text in forms {
        cases.ask(Kind, &[text.as_bytes()]);
    }
}

/// Numbers that would be in a range if 2^32 or 2^64 were taken off.
fn wrapped(cases: &mut Cases) {
    for base in [1u128 << 32, 1 << 33, 10 << 32, 1 << 64, 1 << 65] {
        for rest in [0, 1, 5, 499, 500, 899, 900, 902, 999, 1_000, 2_000, 2_499, 2_500] {
            for sign in ["", "+", "00", "+0"] {
                cases.ask(Kind, &[format!("{sign}{}", base + rest).as_bytes()]);
            }
        }
    }
}

fn leading_zeros(cases: &mut Cases) {
    let lengths = [0, 1, 2, 3, 7, 8, 9, 10, 11, 18, 19, 20, 21, 40, 255, 256, 1_000, 4_000];
    let bounds = [0, 1, 499, 500, 899, 900, 901, 999, 1_000, 1_999, 2_000, 2_499, 2_500, u32::MAX];
    for zeros in lengths {
        for bound in bounds {
            for sign in ["", "+", "-", "UB", "P"] {
                let text = format!("{sign}{}{bound}", "0".repeat(zeros));
                cases.ask(Kind, &[text.as_bytes()]);
            }
        }
    }
    for length in 0..=cases.size(300, LONGEST_TEXT) {
        for digit in ["1", "9", "P", "UB"] {
            cases.ask(Kind, &[format!("{}{digit}", "0".repeat(length)).as_bytes()]);
        }
        cases.ask(Kind, &["9".repeat(length).as_bytes()]);
    }
}

fn letters(cases: &mut Cases) {
    let most = cases.size(5, 6);
    let mut texts = Vec::new();
    strings(&["U", "B", "P", "1", "u", "+", "é"], most, &mut |text| texts.push(text.to_owned()));
    for text in texts {
        cases.ask(Kind, &[text.as_bytes()]);
    }
}
