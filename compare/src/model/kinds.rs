//! The kind of a citation by its text (docs/SEMANTICS.md, 'Kinds of citations').

#[derive(Debug, Clone, Copy, PartialEq, Eq)]
pub enum Kind {
    Voraussetzung,
    Hinweis,
    Format,
    Wiederholbarkeit,
    Zeitpunkt,
    Paket,
    Other,
}

use Kind::*;

/// The kinds in the order of their numbers among callers.
const NUMBERED: [Kind; 7] = [Voraussetzung, Hinweis, Format, Wiederholbarkeit, Zeitpunkt, Paket, Other];

/// The number that a text is, if it is one: a `+` or none, then digits; at most 4,294,967,295.
pub fn number(text: &str) -> Option<u32> {
    let digits = text.strip_prefix('+').unwrap_or(text);
    if digits.is_empty() || !digits.bytes().all(|b| b.is_ascii_digit()) {
        return None;
    }
    digits.parse().ok()
}

pub fn kind(text: &str) -> Kind {
    if text.starts_with("UB") {
        return Zeitpunkt;
    }
    if text.contains('P') {
        return Paket;
    }
    match number(text) {
        Some(1..=499) => Voraussetzung,
        Some(500..=899) => Hinweis,
        Some(901..=999) => Format,
        Some(2000..=2499) => Wiederholbarkeit,
        _ => Other,
    }
}

/// A kind's number among callers.
pub fn kind_number(text: &str) -> usize {
    NUMBERED.iter().position(|one| *one == kind(text)).expect("every kind has a number")
}

#[cfg(test)]
mod tests {
    use super::*;

    #[test]
    fn nine_hundred_is_other_however_it_is_spelt() {
        for text in ["900", "0900", "+900", "+000900"] {
            assert_eq!((number(text), kind(text)), (Some(900), Other), "{text}");
        }
        assert_eq!(["899", "901", "999", "1000"].map(kind), [Hinweis, Format, Format, Other]);
        assert_eq!(["++900", "900 ", "UB900", "900P", "4294968196"].map(number), [None; 5]);
    }
}
