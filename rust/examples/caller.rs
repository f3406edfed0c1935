//! Calls the library from Rust as `callers/ahb.c` does from C, and prints the same lines.

use ahb::*;

const PATTERN: u8 = 0xA5;

/// What reading gave: the word, or an expression, and the length of the tree.
type Read = Result<(Option<StatusKind>, Option<usize>), Refusal>;

fn expression(name: &str, text: &[u8], room: usize) -> (Read, Vec<u8>) {
    read(name, room, |out| read_expression(text, out).map(|n| (None, Some(n))))
}

fn status(name: &str, text: &[u8], room: usize) -> (Read, Vec<u8>) {
    read(name, room, |out| read_status(text, out).map(|(kind, length)| (Some(kind), length)))
}

/// Reads into a buffer of `room` bytes, and prints and returns the answer with the tree.
fn read(name: &str, room: usize, call: impl Fn(&mut [u8]) -> Read) -> (Read, Vec<u8>) {
    let mut out = vec![PATTERN; TREE_SIZE + 16];
    let answer = call(&mut out[..room]);
    let length = answer.map_or(0, |(_, length)| length.unwrap_or(0));
    match answer {
        Ok((None, _)) => println!("{name}: expression, {length} bytes"),
        Ok((Some(kind), _)) => println!("{name}: {kind:?}, {length} bytes"),
        Err(why) => println!("{name}: refused {}", why.number()),
    }
    assert!(length <= room && out[length..].iter().all(|&b| b == PATTERN));
    out.truncate(length);
    (answer, out)
}

fn refused_expression(name: &str, text: &[u8], why: Refusal) {
    assert_eq!(expression(name, text, TREE_SIZE).0, Err(why));
}

fn said(name: &str, answer: Result<Truth, Refusal>) -> Result<Truth, Refusal> {
    match answer {
        Ok(truth) => println!("{name}: {truth:?}"),
        Err(why) => println!("{name}: refused {}", why.number()),
    }
    answer
}

fn judged(name: &str, tree: &[u8], value: &[u8], room: usize) -> Result<(Truth, usize), Refusal> {
    let mut list = [PATTERN; VIOLATIONS_SIZE + 16];
    let answer = verdicts(tree, value, &mut list[..room]);
    let written = answer.map_or(0, |(_, count)| 2 * count);
    assert!(written <= room && list[written..].iter().all(|&b| b == PATTERN));
    match answer {
        Ok((truth, count)) => {
            let numbers = list[..written].chunks(2).map(|b| format!(" {}", u16::from_le_bytes([b[0], b[1]])));
            println!("{name}: {truth:?}, {count}{}", numbers.collect::<String>());
        }
        Err(why) => println!("{name}: refused {}", why.number()),
    }
    answer
}

fn reading() {
    let one = [1, 0, 1, 0, 12, 0, 18, 0, 22, 0, 23, 0, 0, 0, 0, 0, 1, 0, 0, 0, 1, 0, b'1'];
    assert_eq!(expression("exact", b"[1]", 23), (Ok((None, Some(23))), one.to_vec()));
    assert_eq!(expression("one short", b"[1]", 22).0, Err(Refusal::NoRoom));
    assert_eq!(expression("no room", b"[1]", 0).0, Err(Refusal::NoRoom));
    assert_eq!(status("word alone", b"Kann", 0).0, Ok((Some(StatusKind::Kann), None)));
    assert_eq!(status("word and tree", b"K [1]", 23), (Ok((Some(StatusKind::K), Some(23))), one.to_vec()));
    assert_eq!(status("no status word", b"muss [1]", 23).0, Err(Refusal::NoStatusWord));
    assert_eq!(expression("NULL expression", b"", 0).0, Err(Refusal::Empty));
    assert_eq!(status("NULL status", b"", 0).0, Err(Refusal::NoStatusWord));

    refused_expression("stray", b"[1] + [2]", Refusal::Stray);
    refused_expression("unterminated", b"[1", Refusal::Unterminated);
    refused_expression("empty citation", b"[ ]", Refusal::EmptyCondition);
    refused_expression("missing operand", b"([1] [2]) (", Refusal::MissingOperand);
    refused_expression("parentheses", b"([1]", Refusal::Parentheses);
    refused_expression("blank", b"   ", Refusal::Empty);
    refused_expression("not UTF-8", b"\xFF", Refusal::NotUtf8);

    refused_expression("4,400 spaces", &[b' '; TEXT_LIMIT], Refusal::Empty);
    refused_expression("4,401 spaces", &[b' '; TEXT_LIMIT + 1], Refusal::TooLong);
    refused_expression("257 parentheses", &[b'('; 257], Refusal::TooDeep);
    assert_eq!(expression("256 citations", &b"[1]".repeat(256), TREE_SIZE).0, Ok((None, Some(2834))));
    refused_expression("257 citations", &b"[1]".repeat(257), Refusal::TooManyCitations);
}

fn judging() {
    let text = "Muss ([902] ∨ [903]) [1] ∧ [914]";
    let (answer, tree) = status("status", text.as_bytes(), TREE_SIZE);
    assert_eq!(answer, Ok((Some(StatusKind::Muss), Some(tree.len()))));

    assert_eq!(said("presence", presence(&tree, &[3, 3, 2, 3])), Ok(Truth::True));
    assert_eq!(said("failed answer", presence(&tree, &[3, 3, FAILED, 3])), Err(Refusal::FailedAnswer));
    assert_eq!(said("no answers", presence(&tree, &[])), Err(Refusal::WrongAnswers));
    assert_eq!(said("five answers", presence(&tree, &[3, 3, 2, 3, 3])), Err(Refusal::WrongAnswers));
    assert_eq!(said("answer over 4", presence(&tree, &[3, 3, 5, 3])), Err(Refusal::WrongAnswers));
    assert_eq!(
        said("tree one short", presence(&tree[..tree.len() - 1], &[3, 3, 2, 3])),
        Err(Refusal::NotATree)
    );
    assert_eq!(said("NULL tree", presence(&[], &[])), Err(Refusal::NotATree));

    let zeros = [b'0'; VALUE_LIMIT + 1];
    assert_eq!(judged("verdicts on 0", &tree, b"0", 2), Ok((Truth::False, 1)));
    assert_eq!(judged("verdicts on 0, one short", &tree, b"0", 1), Err(Refusal::NoRoom));
    assert_eq!(judged("verdicts on 0, no room", &tree, b"0", 0), Err(Refusal::NoRoom));
    assert_eq!(judged("verdicts on 1, no room", &tree, b"1", 0), Ok((Truth::True, 0)));
    assert_eq!(judged("verdicts on nothing", &tree, b"", VIOLATIONS_SIZE), Ok((Truth::False, 3)));
    assert_eq!(judged("verdicts on 1,024 zeros", &tree, &zeros[..VALUE_LIMIT], 3), Ok((Truth::False, 1)));
    assert_eq!(judged("verdicts on 1,025 zeros", &tree, &zeros, 4), Err(Refusal::TooLong));
    assert_eq!(judged("verdicts on no UTF-8", &tree, b"\xFF", 4), Err(Refusal::NotUtf8));
    assert_eq!(judged("verdicts without a tree", &[], &[], 0), Err(Refusal::NotATree));
}

fn choosing() {
    let (_, tree) = expression("choice", "[1] ∨ [931]".as_bytes(), TREE_SIZE);
    assert_eq!(said("mixed choice", presence(&tree, &[2, 3])), Err(Refusal::ChoiceOverNeutral));
    let (_, tree) = expression("unregistered", b"[922]", TREE_SIZE);
    assert_eq!(said("unknown", presence(&tree, &[1])), Ok(Truth::Unknown));
    assert_eq!(judged("verdicts unknown", &tree, b"", 0), Ok((Truth::Unknown, 0)));
    let (_, tree) = expression("hint", b"[500]", TREE_SIZE);
    assert_eq!(said("neutral", presence(&tree, &[3])), Ok(Truth::Neutral));
}

/// The largest results just fit the buffers that the crate names.
fn largest() {
    let mut text = "(".repeat(CITATION_LIMIT - 2);
    for i in 0..CITATION_LIMIT {
        let sign = ["∧", "∨"][i % 2];
        text.push_str(if i > 0 { sign } else { "" });
        text.push_str("[12345678]");
        text.push_str(if i > 0 && i + 1 < CITATION_LIMIT { ")" } else { "" });
    }
    assert_eq!(expression("largest tree", text.as_bytes(), TREE_SIZE).0, Ok((None, Some(TREE_SIZE))));
    assert_eq!(expression("largest tree, one short", text.as_bytes(), TREE_SIZE - 1).0, Err(Refusal::NoRoom));

    let (_, tree) = expression("256 times [902]", &b"[902]".repeat(CITATION_LIMIT), TREE_SIZE);
    assert_eq!(judged("all violated", &tree, b"", VIOLATIONS_SIZE), Ok((Truth::False, CITATION_LIMIT)));
    assert_eq!(judged("all violated, one short", &tree, b"", VIOLATIONS_SIZE - 1), Err(Refusal::NoRoom));
}

fn main() {
    reading();
    judging();
    choosing();
    largest();
}
