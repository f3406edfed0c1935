//! `is_registered`, and `evaluate` on texts that are no condition and on fixed shapes.

use super::{Cases, strings};
use crate::original::formatbedingung::{REGISTERED, example};
use crate::request::Function::{Evaluate, Registered};

const UNREGISTERED: [&str; 36] = [
    "", "0902", "+902", " 902", "902 ", "9O2", "900", "901", "911", "916", "919", "924", "970", "999",
    "1000", "90", "9", "9020", "90200", "2", "02", "-902", "902.", "٩02", "９０２", "UB", "UB0", "UB4",
    "UBx", "UB11", "ub1", "Ub1", "UB1 ", " UB1", "U1", "1P0..1",
];

/// Asks every registered condition and the six identifier conditions.
pub fn every_condition(cases: &mut Cases, value: &[u8]) {
    for id in REGISTERED {
        cases.ask(Evaluate, &[id.as_bytes(), value]);
    }
}

pub fn registered(cases: &mut Cases) {
    for text in UNREGISTERED.iter().chain(REGISTERED) {
        ask_id(cases, text);
    }
    for number in 0..=cases.size(2_600, 100_000) {
        ask_id(cases, &number.to_string());
    }
    let parts = ["9", "0", "3", "6", "U", "B", "1", " ", "é"];
    let mut texts = Vec::new();
    strings(&parts, cases.size(4, 6), &mut |text| texts.push(text.to_owned()));
    for text in texts {
        ask_id(cases, &text);
    }
    for id in REGISTERED {
        neighbours(cases, id);
    }
}

fn ask_id(cases: &mut Cases, id: &str) {
    cases.ask(Registered, &[id.as_bytes()]);
    cases.ask(Evaluate, &[id.as_bytes(), b"1"]);
}

/// A condition's text with a byte changed, cut off or added.
fn neighbours(cases: &mut Cases, id: &str) {
    for byte in 0..=255u8 {
        for place in 0..id.len() {
            let mut text = id.as_bytes().to_vec();
            text[place] = byte;
            cases.ask(Registered, &[&text]);
        }
        cases.ask(Registered, &[&[id.as_bytes(), &[byte]].concat()]);
        cases.ask(Registered, &[&[&[byte], id.as_bytes()].concat()]);
    }
    for length in 0..id.len() {
        ask_id(cases, &id[..length]);
    }
}

pub fn shapes(cases: &mut Cases) {
    if !cases.knows(Evaluate) {
        return;
    }
    groups(cases);
    fields(cases);
    hours(cases);
    character_counts(cases);
    marks(cases);
    changed_samples(cases);
    latin_pairs(cases);
}

fn ask_each(cases: &mut Cases, ids: &[&str], value: &str) {
    for id in ids {
        cases.ask(Evaluate, &[id.as_bytes(), value.as_bytes()]);
    }
}

const GROUPED: [&str; 6] = ["942", "943", "948", "949", "957", "959"];

/// Digit groups with every width one less, as due and one more.
fn groups(cases: &mut Cases) {
    let shapes: [&[usize]; 4] = [&[1, 2, 1, 3], &[1, 2, 1, 8, 2, 1], &[1, 2, 1, 8], &[13, 2]];
    for widths in shapes {
        for choice in 0..3usize.pow(widths.len() as u32) {
            let changed = |(i, w): (usize, &usize)| w + choice / 3usize.pow(i as u32) % 3 - 1;
            let lengths: Vec<usize> = widths.iter().enumerate().map(changed).collect();
            for count in 1..=widths.len() {
                ask_each(cases, &GROUPED, &joined(&lengths[..count], "1"));
            }
        }
        let due = joined(widths, "4");
        ask_each(cases, &GROUPED, &format!("{due}-"));
        ask_each(cases, &GROUPED, &format!("-{due}"));
        ask_each(cases, &GROUPED, &format!("{due}-1-22"));
        ask_each(cases, &GROUPED, &due.replace("44", "é"));
        ask_each(cases, &GROUPED, &due.replace("44", "٤"));
        ask_each(cases, &GROUPED, &due.replace('-', "."));
        ask_each(cases, &GROUPED, &due.replace('-', "--"));
    }
    for text in ["", "-", "--", "---", "1-", "1--1"] {
        ask_each(cases, &GROUPED, text);
    }
}

fn joined(widths: &[usize], digit: &str) -> String {
    widths.iter().map(|w| digit.repeat(*w)).collect::<Vec<_>>().join("-")
}

const FIELDS: [&str; 5] = ["932", "933", "934", "935", "947"];

/// Every four digits where the fields are looked for, and ends of many lengths.
fn fields(cases: &mut Cases) {
    for four in 0..10_000 {
        ask_each(cases, &FIELDS[..4], &format!("20260930{four:04}+00"));
        ask_each(cases, &FIELDS[4..], &format!("2026{four:04}2300+00"));
        ask_each(cases, &FIELDS[4..], &format!("20261231{four:04}+00"));
    }
    let ends = ["", "+", "+0", "+00", "+000", "€", "é0", "0é", "é", "😀", "xyz", "\0\0\0", "+0é"];
    for hhmm in ["2200", "2300", "0400", "0500", "12312300"] {
        for end in ends {
            for start in ["20260930", "2026", "2026093", "202609300", "", "éééé", "２026093", "+2609301"]
            {
                ask_each(cases, &FIELDS, &format!("{start}{hhmm}{end}"));
            }
        }
    }
}

fn hours(cases: &mut Cases) {
    for four in 0..10_000 {
        ask_each(cases, &["964", "965"], &format!("{four:04}"));
    }
    let values = ["", "0", "00", "000", "00000", "23590", "+123", "12 0", "12é", "١٢", "-000", "2a59"];
    for value in values {
        ask_each(cases, &["964", "965"], value);
    }
}

/// Characters of one to four bytes, in every count up to twenty and mixed.
fn character_counts(cases: &mut Cases) {
    for character in ["a", "é", "€", "😀", "\u{301}", "\0"] {
        for count in 0..=20 {
            ask_each(cases, &["904", "905"], &character.repeat(count));
            ask_each(cases, &["904", "905"], &format!("{}x", character.repeat(count)));
        }
    }
    for _ in 0..cases.size(5_000, 200_000) {
        let value = cases.random.joined(&["a", "é", "€", "😀", "0"], 19);
        ask_each(cases, &["904", "905"], &value);
    }
}

/// Marks of 931, 939 and 940 in every order.
fn marks(cases: &mut Cases) {
    let most = cases.size(5, 7);
    let mut values = Vec::new();
    strings(&["+", "0", "@", ".", "9", "é"], most, &mut |text| values.push(text.to_owned()));
    for value in values {
        ask_each(cases, &["931", "939", "940"], &value);
    }
}

/// A value that holds, with one byte replaced, left out or added, and cut at every length.
fn changed_samples(cases: &mut Cases) {
    for id in REGISTERED {
        let Some(sample) = example(id) else { continue };
        let sample = sample.as_bytes();
        for place in 0..=sample.len() {
            for byte in 0..=255u8 {
                let added = [&sample[..place], &[byte], &sample[place..]].concat();
                cases.ask(Evaluate, &[id.as_bytes(), &added]);
                let mut replaced = sample.to_vec();
                if place < sample.len() {
                    replaced[place] = byte;
                    cases.ask(Evaluate, &[id.as_bytes(), &replaced]);
                }
            }
            every_condition(cases, &sample[..place]);
            every_condition(cases, &sample[place..]);
        }
    }
}

/// Two Latin-1 codes beside each other for 918.
fn latin_pairs(cases: &mut Cases) {
    let step = cases.size(3, 1);
    for first in 0..=0x100u32 {
        for second in (first as usize % step..=0x100).step_by(step) {
            let pair = [first, second as u32].map(|c| char::from_u32(c).unwrap_or(' '));
            ask_each(cases, &["918"], &pair.iter().collect::<String>());
        }
    }
}
