//! Presence, package rows and verdicts of a tree (docs/SEMANTICS.md). The model's own are the kinds, which violations are
//! listed, and that a day boundary is written in full form; what else a condition says of a value by itself, and the bounds of
//! a Paket's text, the original is asked.

use super::is_boundary;
use super::kinds::{Kind, kind};
use super::tree::{Node, Sign};
use crate::oracle::refusal::{CHOICE_OVER_NEUTRAL, FAILED_ANSWER};
use crate::original::conditions::Paket;
use crate::original::formatbedingung::{self, FormatVerdict};

#[derive(Debug, Clone, Copy, PartialEq, Eq)]
pub enum Truth {
    False,
    Unknown,
    True,
    Neutral,
}

use Truth::*;

/// The presence by one answer byte for each citation in turn, or 7 or 8.
pub fn presence(node: &Node, answers: &[u8]) -> Result<Truth, u8> {
    let Node::Joined(sign, operands) = node else {
        return match answers[0] {
            0 => Ok(False),
            1 => Ok(Unknown),
            2 => Ok(True),
            3 => Ok(Neutral),
            _ => Err(FAILED_ANSWER),
        };
    };
    let choosing = matches!(sign, Sign::Or | Sign::Xor);
    let mut kept = Vec::new();
    let mut rest = answers;
    for operand in operands {
        let (own, later) = rest.split_at(operand.texts().len());
        rest = later;
        if !(choosing && cites_only_hints(operand)) {
            kept.push((operand, own));
        }
    }
    let gating = kept.iter().filter(|(operand, _)| gates(operand)).count();
    if choosing && gating > 0 && gating < kept.len() {
        return Err(CHOICE_OVER_NEUTRAL);
    }
    let mut truths = Vec::new();
    for (operand, own) in kept {
        truths.push(presence(operand, own)?);
    }
    Ok(match sign {
        Sign::Then | Sign::And => every(&truths),
        Sign::Or => some(&truths),
        Sign::Xor => exactly_one(&truths),
    })
}

fn cites_only_hints(node: &Node) -> bool {
    node.texts().into_iter().all(|text| kind(text) == Kind::Hinweis)
}

fn gates(node: &Node) -> bool {
    node.texts().into_iter().any(|text| matches!(kind(text), Kind::Voraussetzung | Kind::Paket))
}

/// Whether a value is twelve ASCII digits and then `+00`, 15 bytes in all.
pub fn is_full_form(value: &str) -> bool {
    value.len() == 15 && value.ends_with("+00") && value.bytes().take(12).all(|b| b.is_ascii_digit())
}

/// What a citation counts as on a value.
fn counts(text: &str, value: &str) -> Truth {
    if !matches!(kind(text), Kind::Format | Kind::Zeitpunkt) {
        return True;
    }
    if is_boundary(text.as_bytes()) && !is_full_form(value) {
        return False;
    }
    match formatbedingung::evaluate(text, value) {
        FormatVerdict::Holds => True,
        FormatVerdict::Violated(_) => False,
        FormatVerdict::Unregistered => Unknown,
    }
}

pub fn format_truth(node: &Node, value: &str) -> Truth {
    match node {
        Node::Cited(text) => counts(text, value),
        Node::Joined(sign, operands) => {
            let truths: Vec<Truth> = operands.iter().map(|operand| format_truth(operand, value)).collect();
            match sign {
                Sign::Then | Sign::And => every(&truths),
                Sign::Or | Sign::Xor => some(&truths),
            }
        }
    }
}

/// For each citation in turn the format truths from its own up to that of the whole, one for each node on the way.
fn ways(node: &Node, value: &str) -> Vec<Vec<Truth>> {
    let own = vec![format_truth(node, value)];
    match node {
        Node::Cited(_) => vec![own],
        Node::Joined(_, operands) => {
            let below = operands.iter().flat_map(|operand| ways(operand, value));
            below.map(|way| [way, own.clone()].concat()).collect()
        }
    }
}

/// The numbers of the citations that are violated where every group around them, and so the whole, is False.
pub fn violations(node: &Node, value: &str) -> Vec<usize> {
    let ways = ways(node, value);
    (0..ways.len()).filter(|number| ways[*number].iter().all(|truth| *truth == False)).collect()
}

/// The rows of the Paket citations that can be read.
pub fn pakete(node: &Node) -> Vec<Vec<u8>> {
    let mut rows = Vec::new();
    for (number, text) in node.texts().into_iter().enumerate() {
        if kind(text) != Kind::Paket {
            continue;
        }
        let Some(paket) = Paket::parse(text) else {
            continue;
        };
        let mut row = (number as u16).to_le_bytes().to_vec();
        row.extend((paket.min as u64).to_le_bytes());
        row.push(u8::from(paket.max.is_some()));
        row.extend((paket.max.unwrap_or(0) as u64).to_le_bytes());
        rows.push(row);
    }
    rows
}

fn every(truths: &[Truth]) -> Truth {
    if truths.contains(&False) {
        False
    } else if truths.contains(&Unknown) {
        Unknown
    } else if truths.iter().all(|one| *one == Neutral) {
        Neutral
    } else {
        True
    }
}

fn some(truths: &[Truth]) -> Truth {
    if truths.iter().all(|one| *one == Neutral) {
        Neutral
    } else if truths.contains(&True) {
        True
    } else if truths.contains(&Unknown) {
        Unknown
    } else {
        False
    }
}

/// As `some`, but two that are True make it False, and one that is True does not decide before one that is Unknown.
fn exactly_one(truths: &[Truth]) -> Truth {
    let count = truths.iter().filter(|one| **one == True).count();
    if count >= 2 {
        False
    } else if truths.contains(&Unknown) {
        Unknown
    } else {
        some(truths)
    }
}

#[cfg(test)]
mod tests {
    use super::*;
    use crate::model::reading::expression;

    fn tree(text: &str) -> Node {
        expression(text).expect("an expression")
    }

    #[test]
    fn rules() {
        assert_eq!(presence(&tree("[1] ⊻ [2] ⊻ [3]"), &[2, 2, 1]), Ok(False));
        assert_eq!(presence(&tree("[1] ⊻ [2] ⊻ [3]"), &[2, 3, 0]), Ok(True));
        assert_eq!(presence(&tree("[500] ∨ [1]"), &[4, 2]), Ok(True));
        assert_eq!(presence(&tree("[500] ∨ [501]"), &[4, 4]), Ok(Neutral));
        assert_eq!(presence(&tree("[1] ∨ [931]"), &[4, 4]), Err(CHOICE_OVER_NEUTRAL));
        assert_eq!(presence(&tree("[1] [2]"), &[0, 4]), Err(FAILED_ANSWER));
        assert_eq!(presence(&tree("[931] ∧ [932]"), &[3, 3]), Ok(Neutral));
        assert_eq!(presence(&tree("[1] ∧ [931]"), &[2, 3]), Ok(True));
        assert_eq!(
            pakete(&tree("[1] [XP1..2] [7P]")),
            [[2, 0].into_iter().chain([0; 17]).collect::<Vec<u8>>()]
        );
    }

    #[test]
    fn full_form() {
        for value in ["202607012200+00", "000000000000+00", "999999999999+00"] {
            assert!(is_full_form(value), "{value}");
        }
        let others = [
            "20260701220+00", "2026070122000+00", "202607012200+01", "202607012200-00", "+02607012200+00",
            "-02607012200+00", "2026+7012200+00", "202607+12200+00", "20260701+400+00", "2026070122+0+00",
            "202607é2200+00", "2026070122é+00", "",
        ];
        for value in others {
            assert!(!is_full_form(value), "{value}");
        }
        assert_eq!(format_truth(&tree("[UB1] ∨ [UB4]"), "202607012200draft+00"), Unknown);
        assert_eq!(format_truth(&tree("[UB1]"), "202607012200+00"), True);
        assert_eq!(violations(&tree("[UB1] ∧ [931] ∧ [UB3]"), "-00002292300+00"), [0, 2]);
    }

    #[test]
    fn nine_hundred_neither_gates_nor_is_judged() {
        assert_eq!(presence(&tree("[1] ∨ [900]"), &[2, 3]), Err(CHOICE_OVER_NEUTRAL));
        assert_eq!(format_truth(&tree("[900]"), "0"), True);
        assert_eq!(format_truth(&tree("[900] ∨ [902]"), "-1"), True);
        assert_eq!(format_truth(&tree("[900] ∧ [951]"), "0"), Unknown);
        assert_eq!(violations(&tree("[900] ∧ [902]"), "-1"), [1]);
        assert_eq!(violations(&tree("([900] ∨ [902]) ∧ [914]"), "-1"), [2]);
    }

    /// On `0` are 902, 909 and 910 held, 903, 914, 927 and 929 violated; 951 has no evaluator.
    #[test]
    fn violations_in_groups_that_are_false() {
        let due: [(&str, &[usize]); 19] = [
            ("[903]", &[0]),
            ("([902] ∨ [903]) [1] ∧ [914]", &[3]),
            ("([902] ∨ [903]) [914]", &[2]),
            ("([902] ∨ [903]) [1] ∧ [909]", &[]),
            ("[903] ∨ [902]", &[]),
            ("[903] ∨ [951]", &[]),
            ("([903] ∨ [951]) ∧ [902]", &[]),
            ("([903] ∨ [951]) ∧ [914]", &[2]),
            ("([903] ∨ [914]) ∧ [902]", &[0, 1]),
            ("([902] ⊻ [909] ⊻ [903]) ∧ [914]", &[3]),
            ("([903] ⊻ [927]) [902] ∧ [914]", &[0, 1, 3]),
            ("([902] ∧ [903]) ∨ [914]", &[1, 2]),
            ("(([902] ∧ [903]) ∨ [910]) ∧ [914]", &[3]),
            ("(([902] ∧ [903]) ∨ [914]) ∧ [910]", &[1, 2]),
            ("([903] ∨ [902]) ∧ [903]", &[2]),
            ("[903] ∧ ([903] ∨ [902]) ∧ [903]", &[0, 3]),
            ("[903] ∨ [914] ∨ [927]", &[0, 1, 2]),
            ("[903] ⊻ ([914] ∧ ([902] ∨ [929])) ⊻ ([927] [902])", &[0, 1, 4]),
            ("[902] ∧ [903] ∧ [914] [927]", &[1, 2, 3]),
        ];
        for (text, numbers) in due {
            assert_eq!(violations(&tree(text), "0"), numbers, "{text}");
        }
        assert_eq!(violations(&tree("([902] ∨ [951]) ∧ [914]"), "-1"), [2]);
        assert_eq!(violations(&tree("([902] ∨ [903]) [1] ∧ [914]"), "-1"), [0, 1, 3]);
    }
}
