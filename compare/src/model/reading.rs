//! Reading an expression or a status, and printing (docs/FORMAT.md).

use super::tree::{Node, Sign, is_white};
use crate::oracle::refusal::*;

const WORDS: [&str; 7] = ["Muss", "Soll", "Kann", "X", "M", "S", "K"];

#[derive(Debug, Clone, PartialEq, Eq)]
pub enum Token {
    Cited(String),
    Open,
    Close,
    Operator(Sign),
}

/// The tokens of a text in front of the first place that is refused, and that refusal.
pub fn tokens(text: &str) -> (Vec<Token>, Option<u8>) {
    let mut found = Vec::new();
    let mut rest = text;
    while let Some(c) = rest.chars().next() {
        rest = &rest[c.len_utf8()..];
        match c {
            '[' => {
                let Some((cited, after)) = rest.split_once(']') else {
                    return (found, Some(UNTERMINATED));
                };
                if cited.chars().all(is_white) {
                    return (found, Some(EMPTY_CONDITION));
                }
                found.push(Token::Cited(cited.to_owned()));
                rest = after;
            }
            '(' => found.push(Token::Open),
            ')' => found.push(Token::Close),
            '∧' => found.push(Token::Operator(Sign::And)),
            '∨' => found.push(Token::Operator(Sign::Or)),
            '⊻' => found.push(Token::Operator(Sign::Xor)),
            _ if is_white(c) => {}
            _ => return (found, Some(STRAY)),
        }
    }
    (found, None)
}

/// The expression of a text.
pub fn expression(text: &str) -> Result<Node, u8> {
    let (tokens, refused) = tokens(text);
    if let Some(number) = refused {
        return Err(number);
    }
    if tokens.is_empty() {
        return Err(EMPTY);
    }
    let mut cited: Vec<&str> = Vec::new();
    let (mut open, mut deepest) = (0, 0);
    for token in &tokens {
        match token {
            Token::Cited(text) => cited.push(text),
            Token::Open => open += 1,
            Token::Close if open > 0 => open -= 1,
            _ => {}
        }
        deepest = deepest.max(open);
    }
    if cited.len() > 256 || cited.concat().len() > 2_048 {
        return Err(TOO_MANY_CITATIONS);
    }
    if deepest > 256 {
        return Err(TOO_DEEP);
    }
    let mut rest = tokens.as_slice();
    let node = chain(&mut rest)?;
    if rest.is_empty() { Ok(node) } else { Err(PARENTHESES) }
}

/// Operand runs with operators between them, from left to right. An operator like the one in front of it in the same chain adds
/// an operand to its node; any other makes a node of its own.
fn chain(rest: &mut &[Token]) -> Result<Node, u8> {
    let mut left = run(rest)?;
    let mut before = None;
    while let Some((Token::Operator(sign), after)) = rest.split_first() {
        *rest = after;
        let right = run(rest)?;
        left = match left {
            Node::Joined(same, mut operands) if before == Some(*sign) => {
                operands.push(right);
                Node::Joined(same, operands)
            }
            other => Node::Joined(*sign, vec![other, right]),
        };
        before = Some(*sign);
    }
    Ok(left)
}

/// Operands side by side.
fn run(rest: &mut &[Token]) -> Result<Node, u8> {
    let mut operands = vec![operand(rest)?];
    while matches!(rest.first(), Some(Token::Cited(_) | Token::Open)) {
        operands.push(operand(rest)?);
    }
    if operands.len() > 1 {
        return Ok(Node::Joined(Sign::Then, operands));
    }
    Ok(operands.remove(0))
}

fn operand(rest: &mut &[Token]) -> Result<Node, u8> {
    let Some((first, after)) = rest.split_first() else {
        return Err(MISSING_OPERAND);
    };
    *rest = after;
    match first {
        Token::Cited(text) => Ok(Node::Cited(text.clone())),
        Token::Open => {
            let node = chain(rest)?;
            let Some((Token::Close, after)) = rest.split_first() else {
                return Err(PARENTHESES);
            };
            *rest = after;
            Ok(node)
        }
        _ => Err(MISSING_OPERAND),
    }
}

/// The words of a status after its first, joined.
pub fn after_word(text: &str) -> (Option<&str>, String) {
    let mut words = text.split(is_white).filter(|word| !word.is_empty());
    let first = words.next();
    (first, words.collect::<Vec<_>>().join(" "))
}

/// A status word's code, and the expression after it.
pub fn status(text: &str) -> Result<(usize, Option<Node>), u8> {
    let (word, rest) = after_word(text);
    let code = WORDS.iter().position(|one| Some(*one) == word).ok_or(NO_STATUS_WORD)?;
    Ok((code, if rest.is_empty() { None } else { Some(expression(&rest)?) }))
}

pub fn print(node: &Node) -> String {
    match node {
        Node::Cited(text) => format!("[{text}]"),
        Node::Joined(sign, operands) => {
            let between = match sign {
                Sign::Then => " ",
                Sign::And => " ∧ ",
                Sign::Or => " ∨ ",
                Sign::Xor => " ⊻ ",
            };
            operands.iter().map(print_operand).collect::<Vec<_>>().join(between)
        }
    }
}

fn print_operand(node: &Node) -> String {
    match node {
        Node::Joined(Sign::And | Sign::Or | Sign::Xor, _) => format!("({})", print(node)),
        _ => print(node),
    }
}

#[cfg(test)]
mod tests {
    use super::*;

    fn cited(text: &str) -> Node {
        Node::Cited(text.to_owned())
    }

    fn joined(sign: Sign, operands: &[Node]) -> Node {
        Node::Joined(sign, operands.to_vec())
    }

    fn prints_back(text: &str, node: &Node) {
        assert_eq!(expression(text).as_ref(), Ok(node), "{text}");
        assert_eq!(expression(&print(node)).as_ref(), Ok(node), "{text}");
    }

    #[test]
    fn one_run_of_an_operator_is_one_node() {
        let [one, two, three, four] = ["1", "2", "3", "4"].map(cited);
        let xor = joined(Sign::Xor, &[one.clone(), two.clone(), three.clone()]);
        prints_back("[1] ⊻ [2] ⊻ [3]", &xor);
        prints_back("([1]) ⊻ ([2] ⊻ [3])", &joined(Sign::Xor, &[one, joined(Sign::Xor, &[two, three])]));
        let node = |text: &str| expression(text).expect("an expression");
        let mixed = joined(Sign::Or, &[node("[1] ∧ [2]"), node("[3] [4]")]);
        prints_back("[1]∧[2]∨[3] [4]", &mixed);
        assert_eq!(print(&mixed), "([1] ∧ [2]) ∨ [3] [4]");
        prints_back("[1] ∧ [2] ∧ [3] ∨ [4]", &joined(Sign::Or, &[node("[1] ∧ [2] ∧ [3]"), four]));
    }

    #[test]
    fn groups_are_operands() {
        let three = cited("3");
        let pair = joined(Sign::Xor, &["1", "2"].map(cited));
        let led = joined(Sign::Xor, &[pair.clone(), three.clone()]);
        for text in ["([1] ⊻ [2]) ⊻ [3]", "(([1] ⊻ [2])) ⊻ [3]", "(([1] ⊻ [2]) ⊻ ([3]))"] {
            prints_back(text, &led);
        }
        assert_eq!(print(&led), "([1] ⊻ [2]) ⊻ [3]");
        let grown = joined(Sign::Xor, &[pair.clone(), three.clone(), cited("4")]);
        prints_back("([1] ⊻ [2]) ⊻ [3] ⊻ [4]", &grown);
        prints_back("(([1] ⊻ [2]) ⊻ [3]) ⊻ [4]", &joined(Sign::Xor, &[led, cited("4")]));
        let later = joined(Sign::Xor, &[three, pair.clone()]);
        prints_back("[3] ⊻ ([1] ⊻ [2])", &later);
        assert_eq!(print(&later), "[3] ⊻ ([1] ⊻ [2])");
        prints_back("(([1] ⊻ [2]))", &pair);
        prints_back("(([1]))", &cited("1"));
        let side = joined(Sign::Then, &[joined(Sign::Then, &["1", "2"].map(cited)), cited("3")]);
        assert_eq!(expression("([1] [2]) [3]"), Ok(side.clone()));
        assert_eq!(print(&side), "[1] [2] [3]");
    }

    #[test]
    fn a_group_of_several_operators_is_of_its_last() {
        let and = joined(Sign::And, &["1", "2"].map(cited));
        let or = joined(Sign::Or, &[and.clone(), cited("3")]);
        let led = joined(Sign::Or, &[or.clone(), cited("4")]);
        prints_back("([1] ∧ [2] ∨ [3]) ∨ [4]", &led);
        assert_eq!(print(&led), "(([1] ∧ [2]) ∨ [3]) ∨ [4]");
        prints_back("([1] ∧ [2] ∨ [3]) ∧ [4]", &joined(Sign::And, &[or, cited("4")]));
        let group = joined(Sign::Or, &["1", "2"].map(cited));
        let first = joined(Sign::And, &[group.clone(), cited("3")]);
        prints_back("([1] ∨ [2]) ∧ [3] ∨ [4]", &joined(Sign::Or, &[first, cited("4")]));
        let run = joined(Sign::Then, &[group, cited("3")]);
        prints_back("([1] ∨ [2]) [3] ∨ [4]", &joined(Sign::Or, &[run, cited("4")]));
    }

    #[test]
    fn refusals_in_their_order() {
        let due = [
            ("[1] + [2]", 1),
            ("[1] ∧ [2", 2),
            ("[ ]", 3),
            ("[1] ∧", 4),
            ("()", 4),
            ("([1]", 5),
            ("[1])", 5),
            ("   ", 6),
            ("", 6),
        ];
        for (text, number) in due {
            assert_eq!(expression(text), Err(number), "{text:?}");
        }
        assert_eq!(expression(&"[1]".repeat(257)), Err(12));
        assert_eq!(expression(&format!("[{}]", "a".repeat(2_049))), Err(12));
        assert_eq!(expression(&"(".repeat(257)), Err(13));
        assert_eq!(expression(&(")".repeat(300) + &"(".repeat(257))), Err(13));
        assert_eq!(status("muss [1]"), Err(9));
        assert_eq!(status(" K "), Ok((6, None)));
        assert_eq!(status("Muss\t[1  2]"), Ok((0, Some(Node::Cited("1 2".to_owned())))));
    }
}
