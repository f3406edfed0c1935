//! What is UTF-8, asked through the leaves.

use super::Cases;
use crate::request::Function::{Evaluate, Kind, Registered};

/// Bytes beside the bounds of Unicode's table of well-formed byte sequences.
const EDGES: [u8; 21] = [
    0x00, 0x41, 0x7F, 0x80, 0x8F, 0x90, 0x9F, 0xA0, 0xBF, 0xC0, 0xC1, 0xC2, 0xDF, 0xE0, 0xE1, 0xED, 0xEF,
    0xF0, 0xF4, 0xF5, 0xFF,
];

pub fn utf8(cases: &mut Cases) {
    for first in 0..=255u8 {
        ask(cases, &[first]);
        for second in 0..=255u8 {
            ask(cases, &[first, second]);
        }
    }
    triples(cases);
    quadruples(cases);
    for _ in 0..cases.size(40_000, 2_000_000) {
        let bytes: Vec<u8> = (0..cases.random.below(9)).map(|_| *cases.random.pick(&EDGES)).collect();
        ask(cases, &bytes);
    }
}

fn ask(cases: &mut Cases, bytes: &[u8]) {
    cases.ask(Kind, &[bytes]);
    match bytes.len() % 3 {
        0 => cases.ask(Registered, &[bytes]),
        1 => cases.ask(Evaluate, &[b"904", bytes]),
        _ => cases.ask(Evaluate, &[b"905", bytes]),
    }
}

fn triples(cases: &mut Cases) {
    let every: Vec<u8> = (0..=255).collect();
    let last: &[u8] = if cases.long { &every } else { &EDGES };
    for first in 0xE0..=0xF0u8 {
        for second in 0..=255u8 {
            for third in last {
                ask(cases, &[first, second, *third]);
            }
        }
    }
}

fn quadruples(cases: &mut Cases) {
    let every: Vec<u8> = (0..=255).collect();
    let second: &[u8] = if cases.long { &every } else { &EDGES };
    for first in 0xEF..=0xF8u8 {
        for second in second {
            for third in EDGES {
                for fourth in EDGES {
                    ask(cases, &[first, *second, third, fourth]);
                }
            }
        }
    }
}
