//! The cases, by function; each generator has a short and a long size.

pub mod formats;
pub mod kinds;
pub mod limits;
pub mod many;
pub mod numbers;
pub mod pakete;
pub mod protocol;
pub mod reading;
pub mod scalars;
pub mod times;
pub mod trees;
pub mod utf8;

use crate::random::Random;
use crate::request::Function;

/// Takes a function and its fields; for `Protocol` the one field is the whole line.
pub type Take<'a> = dyn FnMut(Function, &[&[u8]]) + 'a;

/// Where the generators leave their requests.
pub struct Cases<'a> {
    pub long: bool,
    pub random: Random,
    /// Trees of which demand 3 was run on the original.
    pub trees: u64,
    known: &'a [Function],
    take: &'a mut Take<'a>,
}

impl<'a> Cases<'a> {
    pub fn new(long: bool, seed: u64, known: &'a [Function], take: &'a mut Take<'a>) -> Self {
        Self { long, random: Random::new(seed), trees: 0, known, take }
    }

    pub fn knows(&self, function: Function) -> bool {
        self.known.contains(&function)
    }

    pub fn knows_any(&self, functions: &[Function]) -> bool {
        functions.iter().any(|f| self.knows(*f))
    }

    /// The short size or the long one.
    pub fn size(&self, short: usize, long: usize) -> usize {
        if self.long { long } else { short }
    }

    /// Asks a function, if it is known.
    pub fn ask(&mut self, function: Function, fields: &[&[u8]]) {
        if !self.knows(function) {
            return;
        }
        (self.take)(function, fields);
    }

    /// A line as it stands.
    pub fn ask_line(&mut self, line: &[u8]) {
        (self.take)(Function::Protocol, &[line]);
    }

    /// Asks with a lent buffer of the length, filled with a pattern.
    pub fn ask_lent(&mut self, function: Function, fields: &[&[u8]], length: usize) {
        if !self.knows(function) {
            return;
        }
        let shift = self.random.below(256);
        let lent: Vec<u8> = (0..length).map(|i| (i * 37 + shift) as u8).collect();
        let mut fields = fields.to_vec();
        fields.push(&lent);
        self.ask(function, &fields);
    }

    /// Asks with no buffer, one byte short, exact and longer.
    pub fn ask_lent_around(&mut self, function: Function, fields: &[&[u8]], result: usize) {
        for length in [0, result.saturating_sub(1), result, result + 1, result + 9] {
            self.ask_lent(function, fields, length);
        }
    }

    /// Asks with one of these buffers.
    pub fn ask_lent_near(&mut self, function: Function, fields: &[&[u8]], result: usize) {
        let short = result.saturating_sub(1);
        let length = *self.random.pick(&[result, result, result + 5, short, 0]);
        self.ask_lent(function, fields, length);
    }
}

/// Every generator, one after the other.
pub fn all(cases: &mut Cases) {
    limits::limits(cases);
    protocol::lines(cases);
    kinds::kinds(cases);
    pakete::pakete(cases);
    formats::registered(cases);
    formats::shapes(cases);
    numbers::numbers(cases);
    times::times(cases);
    utf8::utf8(cases);
    reading::reading(cases);
    trees::trees(cases);
    scalars::scalars(cases);
}

/// Every string of up to so many parts, joined.
pub fn strings(parts: &[&str], most: usize, take: &mut dyn FnMut(&str)) {
    fn extend(text: &mut String, parts: &[&str], left: usize, take: &mut dyn FnMut(&str)) {
        take(text);
        if left == 0 {
            return;
        }
        for part in parts {
            text.push_str(part);
            extend(text, parts, left - 1, take);
            text.truncate(text.len() - part.len());
        }
    }
    extend(&mut String::new(), parts, most, take);
}

/// Every scalar value.
pub fn every_scalar() -> impl Iterator<Item = char> {
    (0..=0x10_FFFF).filter_map(char::from_u32)
}
