//! Texts with a group in front of its own operator. The original has no such group: it merges the group's
//! operands into the chain.

use std::mem;

use crate::model::reading::{Token, tokens};
use crate::model::tree::{Node, Sign};
use crate::oracle::Answer;
use crate::oracle::refusal::NO_ROOM;

/// Whether there is such a group in a text. A text that is refused at a character or at a citation has none.
pub fn group_leads(text: &str) -> bool {
    let (tokens, refused) = tokens(text);
    refused.is_none() && leads(&tokens)
}

/// A chain, as far as it has been met.
#[derive(Default)]
struct Chain {
    begun: bool,
    /// The operator of a group, if that group is all of it.
    group: Option<Sign>,
    /// The operator that was met last.
    last: Option<Sign>,
}

impl Chain {
    /// Takes an operand, a group with its operator.
    fn operand(&mut self, sign: Option<Sign>) {
        self.group = if self.begun { None } else { sign };
        self.begun = true;
    }
}

/// Whether an operator follows a group that has the same one and in front of which its chain has no operand. (Nor has it an operator, where
/// the text is not refused.)
fn leads(tokens: &[Token]) -> bool {
    let mut chain = Chain::default();
    let mut around = Vec::new();
    for token in tokens {
        match token {
            Token::Cited(_) => chain.operand(None),
            Token::Open => around.push(mem::take(&mut chain)),
            Token::Close => {
                let Some(outer) = around.pop() else {
                    return false;
                };
                let group = mem::replace(&mut chain, outer);
                chain.operand(group.last.or(group.group));
            }
            Token::Operator(sign) if chain.group == Some(*sign) => return true,
            Token::Operator(sign) => {
                chain.group = None;
                chain.last = Some(*sign);
            }
        }
    }
    false
}

/// Whether the original's tree is the model's with such groups merged, or both are the same refusal. Where the model's is longer
/// than the buffer, the original's is too, or it is shorter and has no such group.
pub fn was_merged(model: &Answer, original: &Answer) -> bool {
    match (model, original) {
        (Ok(model), Ok(original)) => read(model)
            .zip(read(original))
            .is_some_and(|((words, kept), (same, tree))| words == same && merged(kept) == tree),
        (Err(NO_ROOM), Ok(original)) => read(original).is_some_and(|(_, tree)| merged(tree.clone()) == tree),
        _ => model.is_err() && model == original,
    }
}

/// The words in front of the length, and the tree; none if that is not its length.
fn read((words, bytes): &(String, Vec<u8>)) -> Option<(&str, Node)> {
    let (before, length) = words.rsplit_once(' ')?;
    if length != bytes.len().to_string() {
        return None;
    }
    Some((before, Node::of_bytes(bytes)?))
}

/// The tree in which the operands of a first operand take its place, if it has the operator of the whole.
fn merged(node: Node) -> Node {
    let Node::Joined(sign, operands) = node else {
        return node;
    };
    let mut operands: Vec<Node> = operands.into_iter().map(merged).collect();
    if let Node::Joined(same, first) = &operands[0]
        && *same == sign
        && sign != Sign::Then
    {
        let first = first.clone();
        operands.splice(..1, first);
    }
    Node::Joined(sign, operands)
}

#[cfg(test)]
mod tests {
    use super::*;
    use crate::cases::reading::chains;
    use crate::cases::strings;
    use crate::model::reading::expression;
    use crate::oracle;
    use crate::tree::encode;

    fn has_kept(node: &Node) -> bool {
        let Node::Joined(sign, operands) = node else {
            return false;
        };
        *sign != Sign::Then && matches!(&operands[0], Node::Joined(same, _) if same == sign)
            || operands.iter().any(has_kept)
    }

    /// Holds the tokens of a text that is read, and the original's tree of it, to the model's tree; whether a group is kept there.
    fn compared(text: &str) -> Option<bool> {
        let node = expression(text).ok()?;
        let kept = has_kept(&node);
        assert_eq!(group_leads(text), kept, "{text}");
        let original = oracle::read(text).expect("reads, as in the model");
        assert_eq!(merged(node.clone()).bytes(), encode(&original), "{text}");
        assert_eq!(merged(node.clone()) != node, kept, "{text}");
        Some(kept)
    }

    #[test]
    fn tokens_tell_what_the_tree_tells() {
        let mut found = [0, 0];
        strings(&["[1]", "∧", "∨", "(", ")"], 9, &mut |text| {
            if let Some(kept) = compared(text) {
                found[usize::from(kept)] += 1;
            }
        });
        assert_eq!(found, [2_127, 38]);
        for text in chains(&["1", "2", "3", "4", "5"], 4) {
            let kept = compared(&text).expect("reads");
            assert_eq!(compared(&text.replace('(', "((").replace(')', "))")), Some(kept));
            assert_eq!(compared(&text.replace('[', "([").replace(']', "])")), Some(kept));
            found[usize::from(kept)] += 1;
        }
        assert_eq!(found, [11_667, 2_018]);
    }

    #[test]
    fn groups_that_lead() {
        for text in [
            "([1] ⊻ [2]) ⊻ [3]",
            "(((([1] ⊻ [2])))) ⊻ [3]",
            "([1] ∧ [2] ∨ [3]) ∨ [4]",
            "([1] [2] ∨ [3]) ∨ [4]",
            "[4] ∧ (([1] ∨ [2]) ∨ [3])",
            "[4] (([1] ∨ [2]) ∨ [3])",
            "((([1] ∨ [2]) ∧ [3]) ∧ [4]) ∨ [5]",
            "(([1] ∨ [2]) [3] ∨ [4]) ∨ [5]",
            // refused, as by the original
            "([1] ∨ [2]) ∨",
            "([1] ∨ [2]) ∨ [3])",
            "((([1] ∨ [2]) ∨ [3]",
            "() ∨ (([1] ∨ [2]) ∨ [3])",
        ] {
            assert!(group_leads(text), "{text}");
        }
    }

    #[test]
    fn other_groups() {
        for text in [
            "", ")", "([1]) ⊻ [2] ⊻ [3]", "([1] [2]) [3] ∨ [4]", "([1] ∨ [2]) [3] ∨ [4]",
            "[3] ([1] ∨ [2]) ∨ [4]", "[3] ∨ ([1] ∨ [2]) ∨ [4]", "([1] ∨ [2] ∧ [3]) ∨ [4]",
            "([1] ∨ [2]) ∧ [3] ∨ [4]", "([1] ∨ [2]) ∧ [3] ∧ [4]", "(([1] ∨ [2]) ∧ [3]) ∨ [4]",
            "([1] ∨ [2]) ∧ ∨ [3]", "[1] ∨ [2]) ∨ [3]", ") ([1] ∨ [2]) ∨ [3]", "([1] ∨ [2]) ∨ [3] +",
            "([1] ∨ [2]) ∨ [3] [", "([1] ∨ [2]) ∨ [ ]",
        ] {
            assert!(!group_leads(text), "{text}");
        }
    }

    /// An answer with the tree of a text, as an expression or after a status word.
    fn tree(words: &str, text: &str) -> Answer {
        let bytes = expression(text).expect("an expression").bytes();
        Ok((format!("{words} {}", bytes.len()), bytes))
    }

    #[test]
    fn trees_beside_the_originals() {
        let (kept, run) = ("([1] ∨ [2]) ∨ [3]", "[1] ∨ [2] ∨ [3]");
        let short = || Err(NO_ROOM);
        for words in ["ok", "ok 3"] {
            for (model, original) in [
                (kept, run),
                (run, run),
                ("(([1] ∨ [2]) ∨ [3]) ∨ ([4] ∨ [5])", "[1] ∨ [2] ∨ [3] ∨ ([4] ∨ [5])"),
                ("[0] ∧ (([1] ∨ [2]) ∨ [3])", "[0] ∧ ([1] ∨ [2] ∨ [3])"),
                ("([1] [2]) [3]", "([1] [2]) [3]"),
            ] {
                assert!(was_merged(&tree(words, model), &tree(words, original)), "{model}");
            }
            for (model, original) in [
                (kept, kept),
                (run, kept),
                (kept, "[1] ∨ [2] ∨ [4]"),
                (kept, "[1] ∨ [2]"),
                (kept, "[1] ∧ [2] ∧ [3]"),
                ("[3] ∨ ([1] ∨ [2])", "[3] ∨ [1] ∨ [2]"),
                ("([1] [2]) [3]", "[1] [2] [3]"),
            ] {
                assert!(!was_merged(&tree(words, model), &tree(words, original)), "{model}");
            }
            assert!(was_merged(&short(), &tree(words, run)));
            assert!(!was_merged(&short(), &tree(words, kept)));
            assert!(!was_merged(&tree(words, kept), &short()));
        }
        assert!(!was_merged(&tree("ok 3", kept), &tree("ok", run)));
        assert!(!was_merged(&tree("ok 3", kept), &tree("ok 4", run)));
    }

    #[test]
    fn refusals_and_answers_that_cannot_be() {
        let run = || tree("ok", "[1] ∨ [2] ∨ [3]");
        for number in 1..=17 {
            assert!(was_merged(&Err(number), &Err(number)));
            assert!(!was_merged(&run(), &Err(number)));
            assert_eq!(was_merged(&Err(number), &run()), number == NO_ROOM);
            assert!(!was_merged(&Err(number), &Err(number + 1)));
        }
        let Ok((words, bytes)) = run() else { unreachable!("a tree") };
        for wrong in [
            Ok((words.clone(), bytes[1..].to_vec())),
            Ok((format!("ok {}", bytes.len() - 1), bytes[..bytes.len() - 1].to_vec())),
            Ok(("ok 3 none".to_owned(), Vec::new())),
            Ok((bytes.len().to_string(), bytes.clone())),
        ] {
            assert!(!was_merged(&wrong, &wrong), "{wrong:?}");
            assert!(!was_merged(&run(), &wrong), "{wrong:?}");
            assert!(!was_merged(&Err(NO_ROOM), &wrong), "{wrong:?}");
        }
    }
}
