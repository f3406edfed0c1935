//! The functions of the crate: every refusal that they can give, the limits from both sides, empty slices, both modes of
//! reading, and lent bytes that stay.

use ahb::*;

const PATTERN: u8 = 0xA5;
const ONE: [u8; 23] = [1, 0, 1, 0, 12, 0, 18, 0, 22, 0, 23, 0, 0, 0, 0, 0, 1, 0, 0, 0, 1, 0, b'1'];
const LINE: &str = "([902] ∨ [903]) [1] ∧ [914]";

/// Calls with a buffer of `room` bytes. Behind what the answer says is written, nothing there or after it has changed.
fn lent<T: Copy>(
    room: usize,
    written: impl Fn(T) -> usize,
    call: impl Fn(&mut [u8]) -> Result<T, Refusal>,
) -> (Result<T, Refusal>, Vec<u8>) {
    let mut out = vec![PATTERN; room + 16];
    let answer = call(&mut out[..room]);
    let length = answer.map_or(0, &written);
    assert!(length <= room);
    assert!(out[length..].iter().all(|&b| b == PATTERN), "a byte that was to stay has changed");
    out.truncate(length);
    (answer, out)
}

fn expression(text: &[u8], room: usize) -> (Result<usize, Refusal>, Vec<u8>) {
    lent(room, |length| length, |out| read_expression(text, out))
}

type Status = (StatusKind, Option<usize>);

fn status(text: &[u8], room: usize) -> (Result<Status, Refusal>, Vec<u8>) {
    lent(room, |(_, length): Status| length.unwrap_or(0), |out| read_status(text, out))
}

type Verdicts = (Truth, usize);

/// The format truth, how many violations there are, and their numbers.
fn judged(tree: &[u8], value: &[u8], room: usize) -> (Result<Verdicts, Refusal>, Vec<u16>) {
    let (answer, list) = lent(room, |(_, count): Verdicts| 2 * count, |list| verdicts(tree, value, list));
    (answer, list.chunks(2).map(|b| u16::from_le_bytes([b[0], b[1]])).collect())
}

fn tree_of(text: &str) -> Vec<u8> {
    let (answer, tree) = expression(text.as_bytes(), TREE_SIZE);
    assert_eq!(answer, Ok(tree.len()), "{text}");
    tree
}

/// Inputs that reading turns back, as an expression and after a status word alike.
fn unreadable() -> Vec<(Vec<u8>, Refusal)> {
    let texts: [(&str, Refusal); 9] = [
        ("[1] + [2]", Refusal::Stray),
        ("x", Refusal::Stray),
        ("[1] ∧ [2", Refusal::Unterminated),
        ("[ ]", Refusal::EmptyCondition),
        ("[1] ∧", Refusal::MissingOperand),
        ("()", Refusal::MissingOperand),
        ("([1]", Refusal::Parentheses),
        ("[1])", Refusal::Parentheses),
        ("] [", Refusal::Stray),
    ];
    let mut inputs: Vec<(Vec<u8>, Refusal)> = texts.map(|(text, why)| (text.into(), why)).into();
    inputs.push((b"[1] \xFF".to_vec(), Refusal::NotUtf8));
    inputs.push((b"[1]".repeat(CITATION_LIMIT + 1), Refusal::TooManyCitations));
    inputs.push((cited(CITED_LIMIT + 1), Refusal::TooManyCitations));
    inputs.push((nested(257), Refusal::TooDeep));
    inputs.push((vec![b' '; TEXT_LIMIT + 1], Refusal::TooLong));
    inputs
}

/// One citation of so many bytes.
fn cited(length: usize) -> Vec<u8> {
    [b"[".as_slice(), &vec![b'a'; length], b"]"].concat()
}

/// A citation in so many parentheses.
fn nested(depth: usize) -> Vec<u8> {
    [vec![b'('; depth], b"[1]".to_vec(), vec![b')'; depth]].concat()
}

/// The text behind a status word.
fn after_word(text: &[u8]) -> Vec<u8> {
    [b"Muss ", text].concat()
}

#[test]
fn expressions_turned_back() {
    for (text, why) in unreadable() {
        assert_eq!(expression(&text, TREE_SIZE).0, Err(why), "{}", text.escape_ascii());
    }
    assert_eq!(expression(b"   ", TREE_SIZE).0, Err(Refusal::Empty));
    assert_eq!(expression(b"Muss [1]", TREE_SIZE).0, Err(Refusal::Stray));
}

#[test]
fn statuses_turned_back() {
    for (text, why) in unreadable() {
        assert_eq!(status(&after_word(&text), TREE_SIZE).0, Err(why), "{}", text.escape_ascii());
    }
    for text in ["", " ", "muss [1]", "X[1]", "[1]"] {
        assert_eq!(status(text.as_bytes(), TREE_SIZE).0, Err(Refusal::NoStatusWord), "{text}");
    }
}

#[test]
fn status_words_and_codes() {
    let words = ["Muss", "Soll", "Kann", "X", "M", "S", "K"];
    for (code, (word, kind)) in words.into_iter().zip(StatusKind::ALL).enumerate() {
        assert_eq!(usize::from(kind.code()), code);
        assert_eq!(status(word.as_bytes(), 0), (Ok((kind, None)), Vec::new()));
        let text = format!("{word} [1]");
        assert_eq!(status(text.as_bytes(), 23), (Ok((kind, Some(23))), ONE.to_vec()));
    }
}

#[test]
fn text_limit() {
    let spaces = vec![b' '; TEXT_LIMIT + 1];
    assert_eq!(expression(&spaces[..TEXT_LIMIT], 0).0, Err(Refusal::Empty));
    assert_eq!(expression(&spaces, 0).0, Err(Refusal::TooLong));
    let word = after_word(&spaces);
    assert_eq!(status(&word[..TEXT_LIMIT], 0).0, Ok((StatusKind::Muss, None)));
    assert_eq!(status(&word[..TEXT_LIMIT + 1], 0).0, Err(Refusal::TooLong));
}

#[test]
fn citation_limits() {
    assert_eq!(expression(&b"[1]".repeat(CITATION_LIMIT), TREE_SIZE).0, Ok(2834));
    assert_eq!(expression(&b"[1]".repeat(CITATION_LIMIT + 1), TREE_SIZE).0, Err(Refusal::TooManyCitations));
    assert_eq!(expression(&cited(CITED_LIMIT), TREE_SIZE).0, Ok(22 + CITED_LIMIT));
    assert_eq!(expression(&cited(CITED_LIMIT + 1), TREE_SIZE).0, Err(Refusal::TooManyCitations));
}

#[test]
fn parentheses_limit() {
    assert_eq!(expression(&nested(256), 23), (Ok(23), ONE.to_vec()));
    assert_eq!(expression(&nested(257), 23).0, Err(Refusal::TooDeep));
}

#[test]
fn room_for_a_tree() {
    assert_eq!(expression(b"[1]", 23), (Ok(23), ONE.to_vec()));
    assert_eq!(expression(b"[1]", 24), (Ok(23), ONE.to_vec()));
    for room in [0, 1, 22] {
        assert_eq!(expression(b"[1]", room).0, Err(Refusal::NoRoom));
        assert_eq!(status(b"M [1]", room).0, Err(Refusal::NoRoom));
    }
}

/// The largest results just fit the buffers that the crate names.
#[test]
fn largest_results() {
    let mut text = "(".repeat(CITATION_LIMIT - 2);
    for i in 0..CITATION_LIMIT {
        text.push_str(if i > 0 { ["∧", "∨"][i % 2] } else { "" });
        text.push_str("[12345678]");
        text.push_str(if i > 0 && i + 1 < CITATION_LIMIT { ")" } else { "" });
    }
    assert_eq!(expression(text.as_bytes(), TREE_SIZE).0, Ok(TREE_SIZE));
    assert_eq!(expression(text.as_bytes(), TREE_SIZE - 1).0, Err(Refusal::NoRoom));

    let tree = tree_of(&"[902]".repeat(CITATION_LIMIT));
    let all: Vec<u16> = (0..256).collect();
    assert_eq!(judged(&tree, b"", VIOLATIONS_SIZE), (Ok((Truth::False, CITATION_LIMIT)), all));
    assert_eq!(judged(&tree, b"", VIOLATIONS_SIZE - 1).0, Err(Refusal::NoRoom));
}

#[test]
fn presences() {
    let tree = tree_of("[1] ∧ [2]");
    for truth in Truth::ALL {
        let answers = [truth.number(); 2];
        assert_eq!(presence(&tree, &answers), Ok(truth));
    }
    assert_eq!(presence(&tree, &[Truth::True.number(), Truth::Unknown.number()]), Ok(Truth::Unknown));
}

#[test]
fn presence_turned_back() {
    let tree = tree_of("[1] ∧ [2]");
    for answers in [&[][..], &[2], &[2, 2, 2], &[2, 5], &[255, 2]] {
        assert_eq!(presence(&tree, answers), Err(Refusal::WrongAnswers), "{answers:?}");
    }
    assert_eq!(presence(&tree, &[2, FAILED]), Err(Refusal::FailedAnswer));
    assert_eq!(presence(&tree_of("[1] ∨ [931]"), &[2, 3]), Err(Refusal::ChoiceOverNeutral));
    // an answer that is not evaluated may have failed
    assert_eq!(presence(&tree_of("[500] ∨ [1]"), &[FAILED, 2]), Ok(Truth::True));
}

#[test]
fn bytes_that_are_no_tree() {
    let tree = tree_of(LINE);
    let (mut changed, longer) = (tree.clone(), [&tree[..], &[0]].concat());
    changed[12] = 5;
    for bytes in [&[][..], &tree[..tree.len() - 1], &longer, &changed] {
        assert_eq!(presence(bytes, &[]), Err(Refusal::NotATree));
        assert_eq!(judged(bytes, b"\xFF", 4).0, Err(Refusal::NotATree));
    }
}

#[test]
fn truths_without_violations() {
    assert_eq!(judged(&tree_of(LINE), b"1", 0), (Ok((Truth::True, 0)), Vec::new()));
    assert_eq!(judged(&tree_of("[922]"), b"", 0), (Ok((Truth::Unknown, 0)), Vec::new()));
    // 902 is violated, and 922 has no evaluator, so the choice may hold
    assert_eq!(judged(&tree_of("[902] ∨ [922]"), b"-1", 0), (Ok((Truth::Unknown, 0)), Vec::new()));
}

#[test]
fn a_violation_beside_a_condition_without_an_evaluator() {
    assert_eq!(judged(&tree_of("[902] ∧ [922]"), b"-1", 2), (Ok((Truth::False, 1)), vec![0]));
}

#[test]
fn values_turned_back() {
    let tree = tree_of(LINE);
    let zeros = [b'0'; VALUE_LIMIT + 1];
    assert_eq!(judged(&tree, &zeros[1..], 2).0, Ok((Truth::False, 1)));
    for (value, why) in [(&zeros[..], Refusal::TooLong), (b"\xFF", Refusal::NotUtf8)] {
        assert_eq!(judged(&tree, value, 4).0, Err(why));
        assert_eq!(judged(&tree, value, 0).0, Err(why));
    }
}

#[test]
fn room_for_violations() {
    let tree = tree_of(LINE);
    assert_eq!(judged(&tree, b"0", 2), (Ok((Truth::False, 1)), vec![3]));
    assert_eq!(judged(&tree, b"0", 3), (Ok((Truth::False, 1)), vec![3]));
    assert_eq!(judged(&tree, b"", 6), (Ok((Truth::False, 3)), vec![0, 1, 3]));
    for room in [0, 1] {
        assert_eq!(judged(&tree, b"0", room).0, Err(Refusal::NoRoom));
    }
    assert_eq!(judged(&tree, b"", 5).0, Err(Refusal::NoRoom));
}

#[test]
fn refusals_by_number() {
    for (number, why) in (1..).zip(Refusal::ALL) {
        assert_eq!(why.number(), number);
        assert_eq!(why.to_string(), why.message());
    }
    for (number, truth) in (0..).zip(Truth::ALL) {
        assert_eq!(truth.number(), number);
    }
}
