//! `Paket::parse`: the bounds and the name.

use super::{Cases, strings};
use crate::request::Function::{Name, Paket};

const PARTS: [&str; 16] =
    ["0", "1", "7", "9", "P", "P", ".", "..", "..", "n", "+", "-", " ", "é", "N", "18446744073709551615"];

pub fn pakete(cases: &mut Cases) {
    if !cases.knows_any(&[Paket, Name]) {
        return;
    }
    let most = cases.size(6, 8);
    let mut asked = |text: &str| ask(cases, text.as_bytes());
    strings(&["1", "0", "P", ".", "n", "+"], most, &mut asked);
    bounds(cases);
    names(cases);
    for _ in 0..cases.size(150_000, 3_000_000) {
        let name = cases.random.joined(&["0", "1", "9", "+", "é", "P"], 4);
        let rest = cases.random.joined(&PARTS, 9);
        ask(cases, format!("{name}P{rest}").as_bytes());
    }
}

/// Asks a text for its bounds and its name.
pub fn ask(cases: &mut Cases, text: &[u8]) {
    cases.ask(Paket, &[text]);
    cases.ask(Name, &[text]);
}

/// Low and high around the widths that could be taken for 64 bits.
fn bounds(cases: &mut Cases) {
    let mut numbers: Vec<String> = ["", "0", "00", "1", "n", "nn", "x", "1_0"].map(String::from).into();
    for power in [31, 32, 63, 64, 65] {
        let near = (1u128 << power) - 2..(1u128 << power) + 3;
        numbers.extend(near.map(|number| number.to_string()));
    }
    numbers.extend([10u128.pow(19), 10u128.pow(20), 10u128.pow(38)].map(|n| n.to_string()));
    numbers.push("9".repeat(20));
    let signed = |number: &String| ["", "+", "-", "++", "000", "+0", " "].map(|s| s.to_owned() + number);
    let all: Vec<String> = numbers.iter().flat_map(signed).collect();
    for number in &all {
        for other in all.iter().step_by(cases.size(5, 1)) {
            ask(cases, format!("1P{number}..{other}").as_bytes());
            ask(cases, format!("1P{other}..{number}").as_bytes());
        }
        ask(cases, format!("{number}P1..2").as_bytes());
    }
}

/// What may stand before the first `P`, at many lengths.
fn names(cases: &mut Cases) {
    for length in 0..=cases.size(200, 4_390) {
        let zeros = "0".repeat(length);
        for text in [
            format!("{zeros}P0..1"),
            format!("{zeros}P"),
            format!("{zeros}xP0..1"),
            format!("1P{zeros}1..{zeros}2"),
            format!("1P0..{zeros}"),
            format!("1P0..1{zeros}"),
        ] {
            ask(cases, text.as_bytes());
        }
    }
    for byte in 0..=255u8 {
        ask(cases, &[byte, b'P', b'1', b'.', b'.', b'2']);
        ask(cases, &[b'1', b'P', byte, b'.', b'.', b'2']);
        ask(cases, &[b'1', b'P', b'1', b'.', b'.', byte]);
        ask(cases, &[b'1', b'P', byte]);
    }
}
