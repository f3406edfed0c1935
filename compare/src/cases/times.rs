//! `evaluate` on UB1 to UB3: dates, switch weeks, spellings of the fields, cut values.

use super::Cases;
use crate::request::Function::Evaluate;

const BOUNDARIES: [&str; 3] = ["UB1", "UB2", "UB3"];
const TIMES: [&str; 4] = ["2200", "2300", "0400", "0500"];
const OTHER_TIMES: [&str; 18] = [
    "0000", "0059", "0100", "0101", "2159", "2201", "2259", "2301", "2359", "2360", "2400", "0460", "+4+0",
    "04+0", "+400", "22+0", "+2+3", "99-1",
];
const YEARS: std::ops::RangeInclusive<i32> = -999..=9999;

pub fn times(cases: &mut Cases) {
    if !cases.knows(Evaluate) {
        return;
    }
    switch_weeks(cases);
    spellings(cases);
    whole_years(cases);
    leap_days(cases);
    other_times(cases);
    cut(cases);
    wide_characters(cases);
    random(cases);
}

fn ask(cases: &mut Cases, id: &str, value: &str) {
    cases.ask(Evaluate, &[id.as_bytes(), value.as_bytes()]);
}

/// A year in four bytes.
fn year_digits(year: i32) -> String {
    if year < 0 { format!("-{:03}", -year) } else { format!("{year:04}") }
}

/// The days in which a last Sunday can lie, and in the long size a week around them.
fn switch_days(long: bool) -> Vec<(u8, u8)> {
    let (before, after) = if long { (18, 7) } else { (24, 1) };
    let month = |m: u8| (before..=31).map(move |d| (m, d)).chain((1..=after).map(move |d| (m + 1, d)));
    month(3).chain(month(10)).collect()
}

fn switch_weeks(cases: &mut Cases) {
    let days = switch_days(cases.long);
    for year in YEARS {
        let whole = cases.long || year % 16 == 5 || (1990..2040).contains(&year);
        for (month, day) in &days {
            let date = format!("{}{month:02}{day:02}", year_digits(year));
            if whole {
                every_boundary(cases, &date);
            } else {
                let id = BOUNDARIES[year.rem_euclid(3) as usize];
                let time = TIMES[if id == "UB2" { 2 } else { 0 }];
                ask(cases, id, &format!("{date}{time}+00"));
            }
        }
    }
}

fn every_boundary(cases: &mut Cases, date: &str) {
    for id in BOUNDARIES {
        for time in TIMES {
            ask(cases, id, &format!("{date}{time}+00"));
        }
    }
}

/// A two-byte field with each number that can be spelled otherwise.
fn field_spellings(number: u8) -> Vec<String> {
    let mut all = vec![format!("{number:02}")];
    if number < 10 {
        all.push(format!("+{number}"));
    }
    all
}

fn year_spellings(year: i32) -> Vec<String> {
    let mut all = vec![year_digits(year)];
    if (0..1000).contains(&year) {
        all.push(format!("+{year:03}"));
    }
    if year == 0 {
        all.push("-000".to_owned());
    }
    all
}

/// Every spelling of year, month and day in the switch weeks.
fn spellings(cases: &mut Cases) {
    let step = cases.size(97, 1);
    let days = switch_days(true);
    for year in YEARS.step_by(step).chain([-1, 0, 1, 999]) {
        for (month, day) in &days {
            for first in year_spellings(year) {
                for second in field_spellings(*month) {
                    for third in field_spellings(*day) {
                        spelled(cases, &format!("{first}{second}{third}"));
                    }
                }
            }
        }
    }
}

/// Asks a date that is not spelled in digits alone.
fn spelled(cases: &mut Cases, date: &str) {
    if !date.contains(['+', '-']) {
        return;
    }
    let asked = [("UB1", 0), ("UB1", 1), ("UB2", 2), ("UB2", 3), ("UB3", 0), ("UB3", 3)];
    for (id, time) in asked.map(|(id, time)| (id, TIMES[time])) {
        ask(cases, id, &format!("{date}{time}+00"));
    }
}

/// Every month from 0 to 13 and day from 0 to 32, existing or not.
fn whole_years(cases: &mut Cases) {
    let few = vec![-999, -400, -100, -4, -1, 0, 1, 4, 100, 1582, 1900, 2000, 2024, 2025, 2026, 9999];
    let years = if cases.long { (1800..2201).collect() } else { few };
    for year in years {
        for month in 0..=13 {
            for day in 0..=32 {
                let date = format!("{}{month:02}{day:02}", year_digits(year));
                ask(cases, "UB1", &format!("{date}2200+00"));
                ask(cases, "UB1", &format!("{date}2300+00"));
                ask(cases, "UB2", &format!("{date}0400+00"));
            }
        }
    }
}

fn leap_days(cases: &mut Cases) {
    for year in YEARS.step_by(cases.size(4, 1)) {
        for near in [year, year - year % 100] {
            for day in ["0228", "0229", "0230", "0301", "1231", "0101", "0001", "1301", "0431"] {
                ask(cases, "UB1", &format!("{}{day}2300+00", year_digits(near)));
            }
        }
    }
}

fn other_times(cases: &mut Cases) {
    for date in ["20260328", "20260329", "20261025", "20261026", "00000329", "-0011025", "+9990331"] {
        for time in OTHER_TIMES {
            for id in BOUNDARIES {
                ask(cases, id, &format!("{date}{time}+00"));
            }
        }
    }
    for four in (0..10_000).step_by(cases.size(7, 1)) {
        for id in BOUNDARIES {
            ask(cases, id, &format!("20260701{four:04}+00"));
            ask(cases, id, &format!("20261201{four:04}+00"));
        }
    }
}

const VALUES: [&str; 5] =
    ["202603282300+00", "202603292200+00", "202607010400+00", "202612010500+00", "-0010701220000000+00"];

/// Values cut at every length, with and without the end, and with bytes between.
fn cut(cases: &mut Cases) {
    for value in VALUES {
        for length in 0..=value.len() {
            for end in ["", "+00", "+0", "+000", "0+00", "x+00", "é+00", "+00 ", "\0+00"] {
                for id in BOUNDARIES {
                    ask(cases, id, &format!("{}{end}", &value[..length]));
                }
            }
        }
        for length in 0..=cases.size(40, 1_024) {
            let value = format!("{}{}+00", &value[..12], "z".repeat(length));
            for id in BOUNDARIES {
                ask(cases, id, &value);
            }
        }
    }
}

/// Characters of several bytes across every place, and the bytes of them alone.
fn wide_characters(cases: &mut Cases) {
    for value in VALUES {
        for character in ["é", "€", "😀", "１", "٣", "+\u{0}", "-", "+"] {
            for start in 0..value.len() {
                for width in [0, character.len()] {
                    let end = (start + width).min(value.len());
                    let changed = format!("{}{character}{}", &value[..start], &value[end..]);
                    let bytes = changed.as_bytes();
                    for id in BOUNDARIES {
                        ask(cases, id, &changed);
                        let id = id.as_bytes();
                        cases.ask(Evaluate, &[id, &[&bytes[..start], &bytes[start + 1..]].concat()]);
                    }
                }
            }
        }
    }
}

fn random(cases: &mut Cases) {
    let years = ["2026", "2025", "0000", "-001", "+999", "1900", "-400", "9999", "2o26", "+-26", "026"];
    let twos =
        ["01", "02", "03", "10", "11", "12", "+3", "+1", "25", "29", "30", "31", "00", "13", "-1", "++", "1"];
    let times = ["2200", "2300", "0400", "0500", "+400", "2260", "2500", "22", ""];
    let ends = ["+00", "+00", "+00", "", "+01", "-00", "+00+00", "9+00"];
    for _ in 0..cases.size(60_000, 3_000_000) {
        let random = &mut cases.random;
        let date = [random.pick(&years), random.pick(&twos), random.pick(&twos)].map(|s| *s);
        let value = format!("{}{}{}", date.concat(), random.pick(&times), random.pick(&ends));
        let id = *random.pick(&BOUNDARIES);
        ask(cases, id, &value);
    }
}
