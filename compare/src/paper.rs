//! The worked examples and bounds of docs/FORMAT.md and docs/SEMANTICS.md as requests, with the answers written down from the text.

use crate::request::{Function, write_hex, write_request};
use crate::tree::encode_parts;

/// A request line and its answer.
pub type Example = (Vec<u8>, String);

/// A node row: kind, children or citation number, rows of the subtree.
type Row = (u8, u8, u8);

/// The examples of the functions that are known.
pub fn examples(known: &[Function]) -> Vec<Example> {
    let mut all = Vec::new();
    kinds(&mut all);
    pakets(&mut all);
    evaluations(&mut all);
    boundaries(&mut all);
    registered(&mut all);
    readings(&mut all);
    statuses(&mut all);
    judgements(&mut all);
    all.retain(|(function, _)| known.contains(function));
    all.into_iter().map(|(_, example)| example).collect()
}

type Examples = Vec<(Function, Example)>;

fn say(all: &mut Examples, function: Function, fields: &[&[u8]], answer: &str) {
    let mut line = Vec::new();
    write_request(function, fields, &mut line);
    all.push((function, (line, answer.to_owned())));
}

fn kinds(all: &mut Examples) {
    let due = [
        ("+5", "0"),
        (" 5", "6"),
        ("1", "0"),
        ("499", "0"),
        ("500", "1"),
        ("899", "1"),
        ("900", "6"),
        ("0900", "6"),
        ("+900", "6"),
        ("901", "2"),
        ("999", "2"),
        ("1000", "6"),
        ("1999", "6"),
        ("2000", "3"),
        ("2499", "3"),
        ("2500", "6"),
        ("0", "6"),
        ("007", "0"),
        ("UB1", "4"),
        ("UB4", "4"),
        ("UBP", "4"),
        ("1P0..1", "5"),
        ("P", "5"),
        ("4294967295", "6"),
        ("4294967296", "6"),
        ("4294967297", "6"),
    ];
    for (text, answer) in due {
        say(all, Function::Kind, &[text.as_bytes()], answer);
    }
    say(all, Function::Kind, &[b"\xff"], "refused 11");
    say(all, Function::Kind, &[&[b' '; 4_401]], "refused 10");
}

fn pakets(all: &mut Examples) {
    let due = [
        ("XP1..2", "refused 17"),
        ("5P5..2", "ok 5 1 2"),
        ("1P", "ok 0 0 0"),
        ("2P0..n", "ok 0 0 0"),
        ("1P+1..+2", "ok 1 1 2"),
        ("1P++1..2", "refused 17"),
        ("1P0..18446744073709551615", "ok 0 1 18446744073709551615"),
        ("1P0..18446744073709551616", "refused 17"),
        ("P0..1", "refused 17"),
    ];
    for (text, answer) in due {
        say(all, Function::Paket, &[text.as_bytes()], answer);
    }
    for (text, answer) in
        [("1P", "ok 3150"), ("10P1..1", "ok 313050"), ("1P2P", "refused 17"), ("XP1..2", "refused 17")]
    {
        say(all, Function::Name, &[text.as_bytes()], answer);
    }
}

fn evaluations(all: &mut Examples) {
    let due = [
        ("926", "-0.00", "H"),
        ("913", "99999", "H"),
        ("913", "1.5", "V"),
        ("913", "100000", "V"),
        ("937", "5.0", "H"),
        ("UB1", "202603282300+00", "H"),
        ("UB1", "202603292200+00", "H"),
        ("UB1", "202603292300+00", "V"),
        ("902", "0", "H"),
        ("903", "0", "V"),
        ("914", "0", "V"),
        ("964", "1299", "H"),
        ("965", "1299", "H"),
        ("910", ".", "V"),
        ("910", "", "V"),
        ("910", "5.", "H"),
        ("910", ".5", "H"),
        ("0902", "1", "U"),
        ("UB4", "1", "U"),
        ("922", "1", "U"),
        ("950", "1", "U"),
        ("951", "1", "U"),
        ("953", "1", "U"),
        ("960", "1", "U"),
        ("961", "1", "U"),
        ("918", "\u{a0}", "H"),
        ("918", "\u{9f}", "V"),
        ("918", "\u{b5}", "V"),
        ("942", "1-01-1-001", "H"),
        ("959", "9991000000044-01", "H"),
    ];
    for (text, value, answer) in due {
        say(all, Function::Evaluate, &[text.as_bytes(), value.as_bytes()], answer);
    }
    say(all, Function::Evaluate, &[b"902", &[b'1'; 1_025]], "refused 10");
    say(all, Function::Evaluate, &[b"902", b"\xff"], "refused 11");
    say(all, Function::Evaluate, &[b"\xff", &[b'1'; 1_025]], "refused 11");
}

/// UB1, UB2 and UB3 in turn: values in full form, and others, which are Violated.
fn boundaries(all: &mut Examples) {
    let due = [
        ("202607012200+00", "HVH"),
        ("202601012300+00", "HVH"),
        ("202607010400+00", "VHH"),
        ("202601010500+00", "VHH"),
        ("000002292300+00", "HVH"),
        ("202607011200+00", "VVV"),
        ("202602302300+00", "VVV"),
        ("202607012260+00", "VVV"),
    ];
    let others = [
        "202607012200draft+00", "202607010400draft+00", "2026070104000+00", "+02607010400+00",
        "2026+7010400+00", "202607+10400+00", "20260701220+00", "2026070122000+00", "+02607012200+00",
        "-02607012200+00", "-00002292300+00", "2026+7012200+00", "2026-7012200+00", "202607+12200+00",
        "202607-12200+00", "20260701+400+00", "20260701-400+00", "2026070122+0+00", "2026070122-0+00",
        "202607é2200+00", "2026070122é+00", "202607012200é0", "202607012200+01", "202607012200-00", "",
    ];
    for (value, answers) in due.into_iter().chain(others.map(|value| (value, "VVV"))) {
        for (text, answer) in ["UB1", "UB2", "UB3"].into_iter().zip(answers.chars()) {
            say(all, Function::Evaluate, &[text.as_bytes(), value.as_bytes()], &answer.to_string());
        }
    }
}

fn registered(all: &mut Examples) {
    for (text, answer) in [("902", "1"), ("0902", "0"), ("UB3", "1"), ("UB4", "0"), ("922", "0")] {
        say(all, Function::Registered, &[text.as_bytes()], answer);
    }
}

/// The bytes of a tree whose rows are given one by one.
fn tree(rows: &[Row], texts: &[&str]) -> Vec<u8> {
    let bytes: Vec<u8> = rows.iter().flat_map(|(k, n, size)| [*k, 0, *n, 0, *size, 0]).collect();
    encode_parts(rows.len(), &bytes, &texts.iter().map(|t| t.as_bytes()).collect::<Vec<_>>())
}

fn hex(bytes: &[u8]) -> String {
    let mut out = Vec::new();
    write_hex(bytes, &mut out);
    String::from_utf8(out).expect("hex")
}

/// The tree of so many juxtaposed `[1]`.
fn ones(count: usize) -> Vec<u8> {
    let mut rows = vec![1, 0];
    rows.extend((count as u16).to_le_bytes());
    rows.extend((count as u16 + 1).to_le_bytes());
    for number in 0..count as u16 {
        rows.extend([0, 0]);
        rows.extend(number.to_le_bytes());
        rows.extend([1, 0]);
    }
    encode_parts(count + 1, &rows, &vec![&b"1"[..]; count])
}

fn readings(all: &mut Examples) {
    let refused: [(&[u8], u8); 13] = [
        ("[1] + [2]".as_bytes(), 1),
        ("[1] ∧ [2".as_bytes(), 2),
        (b"[ ]", 3),
        ("[1] ∧".as_bytes(), 4),
        (b"([1]", 5),
        (b"   ", 6),
        (&[b' '; 4_401], 10),
        (b"\xff", 11),
        (&b"[1]".repeat(257), 12),
        (&[b'('; 257], 13),
        (b"", 6),
        (b"[1])", 5),
        (b"()", 4),
    ];
    for (text, number) in refused {
        say(all, Function::Expr, &[text, b"\xaa\xbb"], &format!("refused {number} aabb"));
    }
    let one = tree(&[(0, 0, 1)], &["1"]);
    say(all, Function::Expr, &[b"[1]", &[7; 22]], &format!("refused 14 {}", "07".repeat(22)));
    say(all, Function::Expr, &[b"[1]", &[7; 23]], &format!("ok 23 {}", hex(&one)));
    say(all, Function::Expr, &[b"[1]", &[7; 25]], &format!("ok 23 {}0707", hex(&one)));
    accepted(all);
}

/// Texts that are read, with their trees.
fn accepted(all: &mut Examples) {
    let pair = tree(&[(4, 2, 3), (0, 0, 1), (0, 1, 1)], &["1", "2"]);
    let accepted = [
        ("[1] ∧ [2] ∨ [3]".to_owned(), mixed()),
        ("([1] ⊻ [2]) ⊻ [3]".to_owned(), xor_of_xor()),
        ("[1] ⊻ [2] ⊻ [3]".to_owned(), xor_of_three()),
        ("(([1]))".to_owned(), tree(&[(0, 0, 1)], &["1"])),
        ("([1] ⊻ [2])".to_owned(), pair),
        ("([1] [2]) [3]".to_owned(), tree(&group_first(1, 1), &["1", "2", "3"])),
        ("[1] ([2] [3])".to_owned(), tree(&group_last(1, 1), &["1", "2", "3"])),
        ("[1 [2]".to_owned(), tree(&[(0, 0, 1)], &["1 [2"])),
        ("[1]".repeat(256), ones(256)),
    ];
    for (text, due) in accepted {
        let lent = vec![0xEE; due.len()];
        let answer = format!("ok {} {}", due.len(), hex(&due));
        say(all, Function::Expr, &[text.as_bytes(), &lent], &answer);
    }
}

fn mixed() -> Vec<u8> {
    let rows = [(3, 2, 5), (2, 2, 3), (0, 0, 1), (0, 1, 1), (0, 2, 1)];
    tree(&rows, &["1", "2", "3"])
}

fn xor_of_three() -> Vec<u8> {
    tree(&[(4, 3, 4), (0, 0, 1), (0, 1, 1), (0, 2, 1)], &["1", "2", "3"])
}

/// A Xor of a Xor and 3.
fn xor_of_xor() -> Vec<u8> {
    tree(&group_first(4, 4), &["1", "2", "3"])
}

/// The tree of the program's example.
fn of_the_program() -> Vec<u8> {
    let rows = [(2, 2, 7), (1, 2, 5), (3, 2, 3), (0, 0, 1), (0, 1, 1), (0, 2, 1), (0, 3, 1)];
    tree(&rows, &["902", "903", "1", "914"])
}

fn statuses(all: &mut Examples) {
    for (code, word) in ["Muss", "Soll", "Kann", "X", "M", "S", "K"].iter().enumerate() {
        say(all, Function::Status, &[word.as_bytes(), b""], &format!("ok {code} none -"));
    }
    for text in ["muss [1]", "X[1]", ""] {
        say(all, Function::Status, &[text.as_bytes(), b"\x01"], "refused 9 01");
    }
    for (code, text, due) in [
        (0, "Muss ([902] ∨ [903]) [1] ∧ [914]", of_the_program()),
        (3, "X ([1] ⊻ [2]) ⊻ [3]", xor_of_xor()),
        (3, "X [1] ⊻ [2] ⊻ [3]", xor_of_three()),
    ] {
        let answer = format!("ok {code} {} {}", due.len(), hex(&due));
        say(all, Function::Status, &[text.as_bytes(), &vec![0; due.len()]], &answer);
    }
}

fn judgements(all: &mut Examples) {
    let program = of_the_program();
    for (tree, print) in [
        (&program, "([902] ∨ [903]) [1] ∧ [914]"),
        (&xor_of_xor(), "([1] ⊻ [2]) ⊻ [3]"),
        (&xor_of_three(), "[1] ⊻ [2] ⊻ [3]"),
    ] {
        let answer = format!("ok {} {}", print.len(), hex(print.as_bytes()));
        say(all, Function::Print, &[tree, &vec![0; print.len()]], &answer);
    }
    let nested = tree(&[(1, 2, 5), (1, 2, 3), (0, 0, 1), (0, 1, 1), (0, 2, 1)], &["1", "2", "3"]);
    let answer = format!("ok 11 {}", hex(b"[1] [2] [3]"));
    say(all, Function::Print, &[&nested, &[0; 11]], &answer);
    say(all, Function::Tree, &[&nested], "ok");
    say(all, Function::Tree, &[b""], "refused 15");
    say(all, Function::Cited, &[&nested], "31,32,33");
    presences(all, &program);
    say(all, Function::Pakete, &[&program, b""], "ok 0 -");
    verdicts(all, &program);
    nine_hundred(all);
    not_in_full_form(all);
    listed_groups(all);
    listed_deeper(all);
    listed_with_others(all);
    listed_many(all);
}

/// The program's example in buffers of some lengths, and the refusals, of which the first due one is said.
fn verdicts(all: &mut Examples, program: &[u8]) {
    let due: [(&[u8], usize, &str); 11] = [
        (b"0", 0, "refused 14 -"),
        (b"0", 1, "refused 14 09"),
        (b"0", 2, "ok 0 1 0300"),
        (b"0", 4, "ok 0 1 03000909"),
        (b"0", 5, "ok 0 1 0300090909"),
        (b"5", 0, "ok 2 0 -"),
        (b"5", 3, "ok 2 0 090909"),
        (&[b'0'; 1_025], 0, "refused 10 -"),
        (&[0xFF; 1_025], 2, "refused 10 0909"),
        (b"\xff", 0, "refused 11 -"),
        (b"\xff", 3, "refused 11 090909"),
    ];
    for (value, room, answer) in due {
        say(all, Function::Verdicts, &[program, value, &vec![9; room]], answer);
    }
    say(all, Function::Verdicts, &[&program[1..], &[0xFF; 1_025], b"\x09"], "refused 15 09");
    let unknown = tree(&group_first(2, 3), &["903", "951", "902"]);
    say(all, Function::Verdicts, &[&unknown, b"0", &[9; 3]], "ok 1 0 090909");
}

/// Says a truth, and which citations are listed, into a buffer that holds just these.
fn say_listed(all: &mut Examples, rows: &[Row], texts: &[&str], value: &str, truth: u8, listed: &[u8]) {
    let numbers: Vec<u8> = listed.iter().flat_map(|number| [*number, 0]).collect();
    let answer = format!("ok {truth} {} {}", listed.len(), hex(&numbers));
    let lent = vec![9; numbers.len()];
    say(all, Function::Verdicts, &[&tree(rows, texts), value.as_bytes(), &lent], &answer);
}

/// A group of two citations, of a kind, and a third one beside it, as the operands of a node of another kind.
fn group_first(whole: u8, group: u8) -> [Row; 5] {
    [(whole, 2, 5), (group, 2, 3), (0, 0, 1), (0, 1, 1), (0, 2, 1)]
}

/// The same with the group at the end.
fn group_last(whole: u8, group: u8) -> [Row; 5] {
    [(whole, 2, 5), (0, 0, 1), (group, 2, 3), (0, 1, 1), (0, 2, 1)]
}

/// A group and a citation: 902 holds for `0` and not for `-1`, 903 and 914 are violated by both, 951 has no evaluator.
fn listed_groups(all: &mut Examples) {
    let due: [([Row; 5], [&str; 3], &str, u8, &[u8]); 15] = [
        (group_first(2, 3), ["902", "903", "914"], "0", 0, &[2]),
        (group_first(2, 3), ["902", "903", "914"], "-1", 0, &[0, 1, 2]),
        (group_first(2, 3), ["902", "903", "914"], "5", 2, &[]),
        (group_first(1, 3), ["902", "903", "914"], "0", 0, &[2]),
        (group_first(1, 4), ["902", "903", "914"], "0", 0, &[2]),
        (group_first(2, 1), ["902", "903", "914"], "0", 0, &[1, 2]),
        (group_first(2, 3), ["902", "951", "914"], "-1", 0, &[2]),
        (group_first(2, 3), ["951", "902", "914"], "-1", 0, &[2]),
        (group_first(2, 3), ["903", "951", "902"], "0", 1, &[]),
        (group_first(2, 3), ["903", "914", "902"], "0", 0, &[0, 1]),
        (group_first(2, 3), ["903", "902", "903"], "0", 0, &[2]),
        (group_last(2, 3), ["903", "903", "902"], "0", 0, &[0]),
        (group_last(3, 2), ["903", "902", "914"], "0", 0, &[0, 2]),
        (group_last(3, 1), ["903", "902", "902"], "0", 2, &[]),
        (group_last(4, 3), ["903", "914", "903"], "0", 0, &[0, 1, 2]),
    ];
    for (rows, texts, value, truth, listed) in due {
        say_listed(all, &rows, &texts, value, truth, listed);
    }
}

/// Groups in groups, and a Xor of which two operands hold, which is judged as an Or.
fn listed_deeper(all: &mut Examples) {
    let xor = [(2, 2, 6), (4, 3, 4), (0, 0, 1), (0, 1, 1), (0, 2, 1), (0, 3, 1)];
    say_listed(all, &xor, &["902", "909", "903", "914"], "0", 0, &[3]);
    say_listed(all, &xor, &["902", "909", "903", "914"], "-1", 0, &[0, 1, 2, 3]);
    // an And in an Or in an And
    let and = [(2, 2, 7), (3, 2, 5), (2, 2, 3), (0, 0, 1), (0, 1, 1), (0, 2, 1), (0, 3, 1)];
    say_listed(all, &and, &["902", "903", "910", "914"], "0", 0, &[3]);
    say_listed(all, &and, &["902", "903", "914", "910"], "0", 0, &[1, 2]);
    say_listed(all, &and, &["902", "903", "910", "914"], "A", 0, &[0, 1, 2, 3]);
    // an Or in an And in an Or
    let or = [(3, 2, 7), (2, 2, 5), (0, 0, 1), (3, 2, 3), (0, 1, 1), (0, 2, 1), (0, 3, 1)];
    say_listed(all, &or, &["903", "914", "902", "927"], "0", 0, &[0, 3]);
    say_listed(all, &or, &["903", "914", "927", "903"], "0", 0, &[0, 1, 2, 3]);
    say_listed(all, &or, &["903", "914", "927", "902"], "0", 2, &[]);
}

/// Groups with 900, which counts as True, and with UB1, which holds for the value in full form alone; 931 holds for both.
fn listed_with_others(all: &mut Examples) {
    let (full, other) = ("202607012200+00", "202607012200draft+00");
    let due: [([&str; 3], &str, u8, &[u8]); 7] = [
        (["900", "903", "914"], "0", 0, &[2]),
        (["902", "903", "+900"], "-1", 0, &[0, 1]),
        (["UB1", "903", "914"], full, 0, &[2]),
        (["UB1", "903", "914"], other, 0, &[0, 1, 2]),
        (["931", "903", "UB1"], other, 0, &[2]),
        (["931", "903", "UB1"], full, 2, &[]),
        (["UB1", "0900", "914"], other, 0, &[2]),
    ];
    for (texts, value, truth, listed) in due {
        say_listed(all, &group_first(2, 3), &texts, value, truth, listed);
    }
    let three = [(2, 3, 6), (3, 2, 3), (0, 0, 1), (0, 1, 1), (0, 2, 1), (0, 3, 1)];
    say_listed(all, &three, &["931", "903", "914", "UB1"], other, 0, &[2, 3]);
}

/// A choice of many 903 and one 902, and 914 beside it: on `0` 902 holds, and what the choice has listed is taken back; on `-1` all
/// are violated. Few citations are 16.
fn listed_many(all: &mut Examples) {
    for count in [3_u8, 14, 15, 16, 17] {
        let mut rows = vec![(2, 2, count + 3), (3, count, count + 1)];
        rows.extend((0..=count).map(|number| (0, number, 1)));
        let mut texts = vec!["903"; usize::from(count)];
        texts[usize::from(count) - 1] = "902";
        texts.push("914");
        let every: Vec<u8> = (0..=count).collect();
        say_listed(all, &rows, &texts, "-1", 0, &every);
        say_listed(all, &rows, &texts, "5", 2, &[]);
        let whole = tree(&rows, &texts);
        for (room, rest) in [(2, ""), (9, "09090909090909")] {
            let answer = format!("ok 0 1 {}00{rest}", hex(&[count]));
            say(all, Function::Verdicts, &[&whole, b"0", &vec![9; room]], &answer);
        }
    }
}

/// Values that end `+00` hold 931; they violate a day boundary's condition where they are not in full form, and may hold it else.
fn not_in_full_form(all: &mut Examples) {
    let joined = |kind, text| tree(&[(kind, 2, 3), (0, 0, 1), (0, 1, 1)], &["931", text]);
    let due = [("UB1", "202607012200draft+00"), ("UB2", "2026+7010400+00"), ("UB3", "202607012200é+00")];
    for (text, value) in due.map(|(text, value)| (text, value.as_bytes())) {
        say(all, Function::Verdicts, &[&joined(2, text), value, &[9; 3]], "ok 0 1 010009");
        say(all, Function::Verdicts, &[&joined(3, text), value, b""], "ok 2 0 -");
    }
    for (text, answer) in [("UB1", "ok 2 0 09"), ("UB2", "refused 14 09"), ("UB3", "ok 2 0 09")] {
        say(all, Function::Verdicts, &[&joined(2, text), b"202607012200+00", b"\x09"], answer);
    }
    say(all, Function::Verdicts, &[&joined(2, "UB2"), b"202607012200+00", &[9; 2]], "ok 0 1 0100");
}

/// 900 is of kind Other: it neither gates nor is judged.
fn nine_hundred(all: &mut Examples) {
    for spelt in ["900", "0900", "+900"] {
        let one = tree(&[(0, 0, 1)], &[spelt]);
        say(all, Function::Verdicts, &[&one, b"0", b""], "ok 2 0 -");
        say(all, Function::Eval, &[&one, &[1]], "1");
    }
    let joined = |kind, texts: [&str; 2]| tree(&[(kind, 2, 3), (0, 0, 1), (0, 1, 1)], &texts);
    say(all, Function::Verdicts, &[&joined(3, ["900", "902"]), b"-1", b""], "ok 2 0 -");
    say(all, Function::Verdicts, &[&joined(2, ["900", "951"]), b"0", b""], "ok 1 0 -");
    say(all, Function::Verdicts, &[&joined(2, ["900", "902"]), b"-1", &[9; 3]], "ok 0 1 010009");
    say(all, Function::Eval, &[&joined(3, ["1", "900"]), &[2, 3]], "refused 7");
}

fn presences(all: &mut Examples, program: &[u8]) {
    let or = |texts: [&str; 2]| tree(&[(3, 2, 3), (0, 0, 1), (0, 1, 1)], &texts);
    let one = tree(&[(0, 0, 1)], &["1"]);
    let due: [(&[u8], &[u8], &str); 10] = [
        (&xor_of_three(), &[2, 2, 1], "0"),
        (&xor_of_three(), &[2, 2, 2], "0"),
        (&xor_of_xor(), &[2, 2, 2], "2"),
        (&or(["500", "1"]), &[4, 2], "2"),
        (&or(["1", "1000"]), &[2, 2], "refused 7"),
        (&or(["1", "931"]), &[2, 3], "refused 7"),
        (&one, &[4], "refused 8"),
        (&one, &[], "refused 16"),
        (&[], &[], "refused 15"),
        (program, &[3, 3, 2, 3], "2"),
    ];
    for (tree, answers, answer) in due {
        say(all, Function::Eval, &[tree, answers], answer);
    }
}
