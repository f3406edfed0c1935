//! What is asked of trees: the test, print, citations, presence, packages, verdicts.

use std::collections::{HashMap, HashSet};

use super::Cases;
use crate::groups::group_leads;
use crate::model::reading::expression;
use crate::model::{self, tree::Node};
use crate::oracle::{LONGEST_TEXT, LONGEST_VALUE, judged_alike, read};
use crate::original::conditions::Expr;
use crate::random::hash;
use crate::request::Function::{self, *};
use crate::tree::{NODE_ROW, decode, encode, encode_parts, flat, node, operands};

pub const TREE_FUNCTIONS: [Function; 6] = [Tree, Print, Cited, Eval, Pakete, Verdicts];

pub const VALUES: [&str; 16] = [
    "0", "1", "5", "-1", "0.5", "99999", "1000", "", "A", "202603292200+00", "202612010500+00",
    "202607012200draft+00", "2026+7010400+00", "1-01-1", "+49", "x@y.z",
];
const CITED: [&str; 22] = [
    "1", "2", "3", "499", "500", "899", "900", "902", "903", "914", "937", "950", "999", "2000", "UB1",
    "UB2", "UB3", "UB4", "1P0..1", "2P", "xP0..n", "é 5",
];

/// The trees that were judged, so that none is judged twice.
#[derive(Default)]
pub struct Judged(HashSet<u64>);

impl Judged {
    /// Judges the trees of a text that is read.
    pub fn judge_text(&mut self, cases: &mut Cases, text: &str) {
        if text.len() <= LONGEST_TEXT {
            trees_of(text).iter().for_each(|expr| self.judge(cases, expr));
        }
    }

    /// Asks everything of a tree, of its print and of its flat tree.
    pub fn judge(&mut self, cases: &mut Cases, expr: &Expr) {
        let bytes = encode(expr);
        if !self.0.insert(hash(&bytes)) {
            return;
        }
        let print = expr.to_string();
        cases.ask_lent_near(Print, &[&bytes], print.len());
        let flat = flat(expr);
        let flat_bytes = encode(&flat);
        assert!(reads_back(&bytes, &print, &flat_bytes), "printed, then read by the model: {print}");
        cases.ask_lent_near(Expr, &[print.as_bytes()], flat_bytes.len());
        let answers = answers(cases, &expr.cited());
        let value = *cases.random.pick(&VALUES);
        assert!(judged_alike(expr, &flat, &answers, value), "a tree and its flat tree: {print}");
        cases.trees += 1;
        ask_tree(cases, &bytes, &answers, value.as_bytes(), expr.cited().len());
        if flat_bytes != bytes {
            assert!(
                model::judged_alike(&bytes, &flat_bytes, value),
                "the model's verdicts on a tree and its flat tree: {print}"
            );
            cases.ask_lent_near(Print, &[&flat_bytes], print.len());
            ask_tree(cases, &flat_bytes, &answers, value.as_bytes(), expr.cited().len());
        }
    }
}

/// The original's tree of a text that is read, whose print the original must read as its flat tree; and the model's, where a group
/// stands in front of its own operator.
pub fn trees_of(text: &str) -> Vec<Expr> {
    let Ok(expr) = read(text) else {
        return Vec::new();
    };
    assert_eq!(read(&expr.to_string()), Ok(flat(&expr)), "printed, then read: {text:?}");
    let mut trees = vec![expr];
    if group_leads(text) {
        let kept = expression(text).expect("reads, as by the original");
        trees.push(decode(&kept.bytes()).expect("a tree"));
    }
    trees
}

/// Whether the model reads a print as the tree with these bytes.
fn reads_as(print: &str, tree: &[u8]) -> bool {
    expression(print).is_ok_and(|node| node.bytes() == tree)
}

/// Whether the model reads the print of a tree as its flat tree. Of bytes that are no tree nothing is asked: should the original read a
/// text to such, the answers to that text differ.
pub fn reads_back(tree: &[u8], print: &str, flat: &[u8]) -> bool {
    Node::of_bytes(tree).is_none() || reads_as(print, flat)
}

/// The requests on a tree that need no other text.
fn ask_tree(cases: &mut Cases, tree: &[u8], answers: &[u8], value: &[u8], citations: usize) {
    cases.ask(Tree, &[tree]);
    cases.ask(Cited, &[tree]);
    cases.ask(Eval, &[tree, answers]);
    let rows = cases.random.below(citations.min(3) + 1);
    cases.ask_lent_near(Pakete, &[tree], 19 * rows);
    ask_verdicts(cases, tree, value, citations);
}

/// Asks verdicts with a buffer that holds every list, and now and then with one of few bytes too.
pub fn ask_verdicts(cases: &mut Cases, tree: &[u8], value: &[u8], citations: usize) {
    cases.ask_lent(Verdicts, &[tree, value], 2 * citations);
    if cases.random.one_in(4) {
        let few = cases.random.below(12);
        cases.ask_lent(Verdicts, &[tree, value], few);
    }
}

/// Random answers, equal for equal texts; 4 is rare.
pub fn answers(cases: &mut Cases, cited: &[&str]) -> Vec<u8> {
    let mut by_text = HashMap::new();
    let most = if cases.random.one_in(3) { 5 } else { 4 };
    let mut answer = |text| *by_text.entry(text).or_insert_with(|| cases.random.below(most) as u8);
    cited.iter().map(|text| answer(*text)).collect()
}

pub fn trees(cases: &mut Cases) {
    if !cases.knows_any(&TREE_FUNCTIONS) {
        return;
    }
    one_node(cases);
    small_presence(cases);
    small_verdicts(cases);
    wrong_answers(cases);
    buffers(cases);
    random_trees(cases);
    changed_bytes(cases);
    wrong_parts(cases);
    random_rows(cases);
    nine_hundred(cases);
    choices_below_the_root(cases);
}

/// Every tree shape of so many leaves, its citations blank.
fn shapes(leaves: usize) -> Vec<Expr> {
    if leaves == 1 {
        return vec![Expr::Cond(String::new())];
    }
    let operands = sequences(leaves, leaves - 1);
    operands.iter().flat_map(|v| (1..=4).filter_map(|kind| node(kind, v.clone()))).collect()
}

/// Every sequence of shapes with so many leaves together, the first with at most so many.
fn sequences(leaves: usize, most_in_first: usize) -> Vec<Vec<Expr>> {
    if leaves == 0 {
        return vec![Vec::new()];
    }
    let mut all = Vec::new();
    for first in 1..=most_in_first {
        for rest in sequences(leaves - first, leaves - first) {
            all.extend(shapes(first).into_iter().map(|shape| [vec![shape], rest.clone()].concat()));
        }
    }
    all
}

/// A shape with its citations filled in from left to right.
fn filled(shape: &Expr, texts: &mut dyn Iterator<Item = String>) -> Expr {
    match shape {
        Expr::Cond(_) => Expr::Cond(texts.next().expect("a text for each leaf")),
        Expr::Then(v) => Expr::Then(v.iter().map(|e| filled(e, texts)).collect()),
        Expr::And(v) => Expr::And(v.iter().map(|e| filled(e, texts)).collect()),
        Expr::Or(v) => Expr::Or(v.iter().map(|e| filled(e, texts)).collect()),
        Expr::Xor(v) => Expr::Xor(v.iter().map(|e| filled(e, texts)).collect()),
    }
}

/// The digits of a number to a base, as many as leaves.
fn digits(mut number: usize, base: usize, leaves: usize) -> Vec<usize> {
    let mut all = Vec::new();
    for _ in 0..leaves {
        all.push(number % base);
        number /= base;
    }
    all
}

/// A citation of 900, spelt in each way, alone and beside a condition of each kind, with every answer and some values.
fn nine_hundred(cases: &mut Cases) {
    let beside = ["1", "500", "901", "902", "951", "2000", "UB1", "1P", "1000", "900"];
    for spelt in ["900", "0900", "+900", "+0900"] {
        let cited = Expr::Cond(spelt.to_owned());
        ask_each(cases, &cited);
        for (other, kind) in beside.iter().flat_map(|other| (1..=4).map(move |kind| (other, kind))) {
            let other = Expr::Cond((*other).to_owned());
            for operands in [vec![cited.clone(), other.clone()], vec![other.clone(), cited.clone()]] {
                ask_each(cases, &node(kind, operands).expect("an inner node"));
            }
        }
    }
}

/// Asks with every answer, equal for equal texts, and with some values and buffers.
fn ask_each(cases: &mut Cases, expr: &Expr) {
    let (tree, cited) = (encode(expr), expr.cited());
    for number in 0..5_usize.pow(cited.len() as u32) {
        let answers: Vec<u8> = digits(number, 5, cited.len()).into_iter().map(|one| one as u8).collect();
        if cited.windows(2).all(|two| two[0] != two[1]) || answers.windows(2).all(|two| two[0] == two[1]) {
            cases.ask(Eval, &[&tree, &answers]);
        }
    }
    for value in ["0", "-1", "202603292200+00", "202607012200draft+00"] {
        for room in 0..=4 {
            cases.ask(Verdicts, &[&tree, value.as_bytes(), &[0xAA; 4][..room]]);
        }
    }
}

/// Verdicts on every tree of three citations with a choice below the root: the values hold some of the conditions and violate
/// others, and the buffers reach from too short to longer than needed.
fn choices_below_the_root(cases: &mut Cases) {
    const CITED: [&str; 6] = ["902", "903", "931", "951", "900", "UB1"];
    let is_choice = |operand: &Expr| matches!(operand, Expr::Or(_) | Expr::Xor(_));
    let shapes = shapes(3).into_iter().filter(|shape| operands(shape).iter().any(is_choice));
    for (shape, chosen) in shapes.flat_map(|shape| (0..6_usize.pow(3)).map(move |n| (shape.clone(), n))) {
        let mut texts = digits(chosen, 6, 3).into_iter().map(|one| CITED[one].to_owned());
        let tree = encode(&filled(&shape, &mut texts));
        for value in ["0", "202607012200+00", "202607010400+00", "202607012200draft+00"] {
            for room in 0..=7 {
                cases.ask(Verdicts, &[&tree, value.as_bytes(), &[0xAA; 7][..room]]);
            }
        }
    }
}

/// One node over four citations that gate, with every answer.
fn one_node(cases: &mut Cases) {
    let citations: Vec<Expr> = (1..=4).map(|number| Expr::Cond(number.to_string())).collect();
    for kind in 1..=4 {
        let expr = node(kind, citations.clone()).expect("a node of the kind");
        every_answer(cases, &encode(&expr), citations.len(), 1);
    }
}

/// Small trees over citations that gate, Hinweise and neither, with every answer.
fn small_presence(cases: &mut Cases) {
    if !cases.knows(Eval) {
        return;
    }
    for leaves in 1..=4usize {
        let parts = if leaves < 4 { 1 } else { cases.size(400, 10) };
        for shape in shapes(leaves) {
            for kinds in 0..3usize.pow(leaves as u32) {
                let kinds = digits(kinds, 3, leaves);
                let mut texts = (0..leaves).map(|i| (i + [1, 500, 902][kinds[i]]).to_string());
                let bytes = encode(&filled(&shape, &mut texts));
                every_answer(cases, &bytes, leaves, parts);
            }
        }
    }
}

/// Every answer string, or a part of them.
fn every_answer(cases: &mut Cases, tree: &[u8], leaves: usize, parts: usize) {
    for answers in 0..5usize.pow(leaves as u32) {
        if parts == 1 || cases.random.one_in(parts) {
            let answers: Vec<u8> = digits(answers, 5, leaves).into_iter().map(|d| d as u8).collect();
            cases.ask(Eval, &[tree, &answers]);
        }
    }
}

/// Small trees over citations that hold, are violated, unregistered or no format, each with a buffer that holds its list, and
/// with one that may be too short.
fn small_verdicts(cases: &mut Cases) {
    if !cases.knows(Verdicts) {
        return;
    }
    for leaves in 1..=4usize {
        let parts = if leaves < 4 { 1 } else { cases.size(20, 1) };
        for shape in shapes(leaves) {
            for chosen in 0..4usize.pow(leaves as u32) {
                if parts > 1 && !cases.random.one_in(parts) {
                    continue;
                }
                let chosen = digits(chosen, 4, leaves);
                let mut texts = chosen.iter().map(|c| ["902", "903", "950", "1"][*c].to_owned());
                let bytes = encode(&filled(&shape, &mut texts));
                let (more, less) = (cases.random.below(4), cases.random.below(2 * leaves));
                for length in [2 * leaves + more, less] {
                    cases.ask_lent(Verdicts, &[&bytes, b"5"], length);
                }
            }
        }
    }
}

/// Answer strings of wrong length or with a byte over 4.
fn wrong_answers(cases: &mut Cases) {
    for text in ["[1]", "[1] ∨ [931]", "[500] ∨ [1]", "[500] [501] ∧ ([1] ⊻ [2P])"] {
        let expr = read(text).expect("reads");
        let (tree, count) = (encode(&expr), expr.cited().len());
        for length in 0..count + 4 {
            for byte in 0..=255u8 {
                cases.ask(Eval, &[&tree, &vec![byte; length]]);
            }
        }
        for place in 0..count {
            for byte in 0..=255 {
                let mut answers = vec![2; count];
                answers[place] = byte;
                cases.ask(Eval, &[&tree, &answers]);
                cases.ask(Eval, &[&tree[1..], &answers]);
            }
        }
        cases.ask(Eval, &[&tree, &vec![2; 20_000]]);
    }
}

/// Lent buffers of every length around a result.
fn buffers(cases: &mut Cases) {
    for text in ["[1P0..1] [902] ∧ [2P] [903] [1P1..n]", "[903]", "[1P5..2]", "([903] ∨ [1]) [xP]"] {
        let expr = read(text).expect("reads");
        let tree = encode(&expr);
        for length in 0..60 {
            cases.ask_lent(Pakete, &[&tree], length);
            cases.ask_lent(Print, &[&tree], length);
            for value in [&b"7"[..], b"1", b"\xff"] {
                cases.ask_lent(Verdicts, &[&tree, value], length);
            }
            cases.ask_lent(Verdicts, &[&tree[..9], b"1"], length);
            cases.ask_lent(Print, &[&tree[..9]], length);
            cases.ask_lent(Pakete, &[&tree[..9]], length);
        }
        cases.ask_lent_around(Print, &[&tree], 4_343);
        cases.ask_lent_around(Verdicts, &[&tree, &[b'7'; LONGEST_VALUE]], 512);
    }
}

/// A tree of any shape, also one that no text reads to.
pub fn random_tree(cases: &mut Cases, leaves: usize) -> Expr {
    if leaves < 2 {
        return Expr::Cond(cases.random.pick(&CITED).to_string());
    }
    let mut left = leaves;
    let mut operands = Vec::new();
    let widest = *cases.random.pick(&[1, 2, leaves]);
    while left > 0 {
        let most = left.min(leaves - 1).min(if operands.is_empty() { leaves } else { widest });
        let taken = if most == 1 { 1 } else { 1 + cases.random.below(most) };
        operands.push(random_tree(cases, taken));
        left -= taken;
    }
    let kind = 1 + cases.random.below(4) as u8;
    node(kind, operands).expect("an inner node")
}

fn random_trees(cases: &mut Cases) {
    let mut judged = Judged::default();
    for round in 0..cases.size(20_000, 600_000) {
        let leaves = match round % 64 {
            0 => 1 + cases.random.below(256),
            1..=8 => 1 + cases.random.below(40),
            _ => 1 + cases.random.below(7),
        };
        let expr = random_tree(cases, leaves);
        if expr.cited().iter().map(|text| text.len()).sum::<usize>() <= 2_048 {
            judged.judge(cases, &expr);
        }
    }
    deepest(cases, &mut judged);
}

/// The deepest trees, to either side, of one operator and of two in turn.
fn deepest(cases: &mut Cases, judged: &mut Judged) {
    for (depth, left) in [1, 100, 254, 255].into_iter().flat_map(|depth| [(depth, false), (depth, true)]) {
        for kinds in [[2, 3], [1, 1], [2, 2], [3, 3], [4, 4]] {
            let mut expr = Expr::Cond("1".to_owned());
            for level in 0..depth {
                let leaf = Expr::Cond("902".to_owned());
                let pair = if left { vec![expr, leaf] } else { vec![leaf, expr] };
                expr = node(kinds[level % 2], pair).expect("an inner node");
            }
            judged.judge(cases, &expr);
        }
    }
}

/// Texts whose trees are damaged.
const DAMAGED: [&str; 4] =
    ["[1]", "[1] ∨ [931]", "([902] ∨ [903]) [1] ∧ [914]", "[é1] ([2P] [3] ∧ [4]) ⊻ [UB1]"];

/// Trees with one byte changed, cut at every length, with bytes added or left out.
fn changed_bytes(cases: &mut Cases) {
    for text in DAMAGED {
        let tree = encode(&read(text).expect("reads"));
        for place in 0..tree.len() {
            for byte in 0..=255 {
                let mut changed = tree.clone();
                changed[place] = byte;
                ask_damaged(cases, &changed);
            }
            ask_damaged(cases, &tree[..place]);
            ask_damaged(cases, &tree[place + 1..]);
            ask_damaged(cases, &[&tree[..place], &tree[place + 1..]].concat());
            ask_damaged(cases, &[&tree[..place], &[0], &tree[place..]].concat());
        }
        ask_damaged(cases, &[tree.as_slice(), &[0]].concat());
        changed_pairs(cases, &tree);
    }
    for length in [6_150, 6_151, 12_000, 20_000] {
        ask_damaged(cases, &vec![1; length]);
    }
}

/// Two fields changed by little.
fn changed_pairs(cases: &mut Cases, tree: &[u8]) {
    for _ in 0..cases.size(10_000, 300_000) {
        let mut changed = tree.to_vec();
        for _ in 0..2 {
            let place = cases.random.below(changed.len());
            let step = *cases.random.pick(&[1, 2, 4, 6, 255, 254, 252, 250]);
            changed[place] = changed[place].wrapping_add(step);
        }
        ask_damaged(cases, &changed);
    }
}

/// The test of a tree, and now and then the functions that begin with it.
fn ask_damaged(cases: &mut Cases, tree: &[u8]) {
    cases.ask(Tree, &[tree]);
    if cases.random.one_in(6) {
        cases.ask(Cited, &[tree]);
        cases.ask_lent_near(Print, &[tree], 30);
        cases.ask_lent_near(Pakete, &[tree], 19);
        ask_verdicts(cases, tree, b"5", 8);
    }
}

/// A node row.
fn row(kind: u8, zero: u8, second: u16, size: u16) -> [u8; NODE_ROW] {
    let ([a, b], [c, d]) = (second.to_le_bytes(), size.to_le_bytes());
    [kind, zero, a, b, c, d]
}

/// Rows and texts that are whole but break one condition.
fn wrong_parts(cases: &mut Cases) {
    let one = row(0, 0, 0, 1);
    let texts: [&[u8]; 16] = [
        b"", b" ", b"\t\n", b"]", b"1]", b"[", b"\xff", b"\xc3", b"\xed\xa0\x80", b"a\xff", b"\xc2\xa0",
        b"\xe3\x80\x80", b"\xe2\x80\x8b", b"\xc2\x85", b" 1 ", b"\0",
    ];
    for text in texts {
        ask_damaged(cases, &encode_parts(1, &one, &[text]));
        let pair = [row(2, 0, 2, 3), row(0, 0, 0, 1), row(0, 0, 1, 1)].concat();
        ask_damaged(cases, &encode_parts(3, &pair, &[b"1", text]));
        ask_damaged(cases, &encode_parts(3, &pair, &[text, b"1"]));
    }
    for kind in 0..=6 {
        for children in 0..=4 {
            for size in 0..=5 {
                for numbers in [[0, 1, 2], [0, 0, 1], [1, 0, 2], [0, 2, 1], [1, 2, 3], [0, 1, 1]] {
                    let leaves = numbers.map(|number| row(0, 0, number, 1)).concat();
                    let rows = [row(kind, 0, children, size).as_slice(), &leaves].concat();
                    for nodes in 1..=4usize {
                        let rows = &rows[..nodes * NODE_ROW];
                        ask_damaged(cases, &encode_parts(nodes, rows, &[b"1", b"2", b"3"]));
                        ask_damaged(cases, &encode_parts(nodes, rows, &[b"12", b"3"]));
                    }
                }
            }
        }
    }
}

/// Random rows, near enough to a tree to be one now and then.
fn random_rows(cases: &mut Cases) {
    for _ in 0..cases.size(60_000, 2_000_000) {
        let nodes = 1 + cases.random.below(6);
        let mut rows = Vec::new();
        let mut cited = 0;
        for place in 0..nodes {
            let leaf = place + 1 == nodes || cases.random.one_in(2);
            let size = if leaf { 1 } else { 2 + cases.random.below(nodes - place) as u16 };
            let children = 2 + cases.random.below(2) as u16;
            let kind = if leaf { 0 } else { 1 + cases.random.below(4) as u8 };
            rows.extend(row(kind, 0, if leaf { cited } else { children }, size));
            cited += u16::from(leaf);
        }
        let count = usize::from(cited) + usize::from(cases.random.one_in(9));
        ask_damaged(cases, &encode_parts(nodes, &rows, &vec![&b"7"[..]; count]));
    }
}

#[cfg(test)]
mod tests {
    use super::*;
    use crate::asked::ASKED;
    use crate::model::answer;
    use crate::oracle::{Answer, Origin, ask};
    use std::collections::{BTreeMap, BTreeSet};

    #[test]
    fn counts_of_shapes() {
        assert_eq!([1, 2, 3, 4].map(|n| shapes(n).len()), [1, 4, 36, 404]);
        assert!(shapes(4).iter().all(|shape| operands(shape).len() > 1));
    }

    #[test]
    fn a_text_has_two_trees_where_a_group_leads() {
        let prints = |text| trees_of(text).iter().map(Expr::to_string).collect::<Vec<_>>();
        let (kept, run) = ("([1] ⊻ [2]) ⊻ [3]", "[1] ⊻ [2] ⊻ [3]");
        assert_eq!(prints("(([1]⊻[2]))⊻[3]"), [run, kept]);
        assert_eq!(prints("[1]⊻([2]⊻[3])"), ["[1] ⊻ ([2] ⊻ [3])"]);
        assert_eq!(prints("([1]⊻[2])⊻"), [""; 0]);
        let [run, kept] = &trees_of(kept)[..] else { panic!("two trees") };
        assert!(reads_as(&run.to_string(), &encode(run)) && reads_as(&kept.to_string(), &encode(kept)));
        assert!(!reads_as(&run.to_string(), &encode(kept)) && !reads_as(&kept.to_string(), &encode(run)));
    }

    /// Every function is asked of both trees, and both are counted.
    #[test]
    fn both_trees_are_judged() {
        let mut asked = Vec::new();
        let mut take = |function, fields: &[&[u8]]| asked.push((function, fields[0].to_vec()));
        let mut cases = Cases::new(false, 1, &Function::ALL, &mut take);
        let text = "([1] ∨ [2]) ∨ [3]";
        let mut judged = Judged::default();
        for _ in 0..2 {
            judged.judge_text(&mut cases, text);
            assert_eq!(cases.trees, 2);
        }
        for expr in trees_of(text) {
            assert!(asked.contains(&(Function::Expr, expr.to_string().into_bytes())));
            for function in TREE_FUNCTIONS {
                assert!(asked.contains(&(function, encode(&expr))), "{function:?} of {expr}");
            }
        }
    }

    /// Of small trees the model's list differs from the original's in some that are taken out, and in no other.
    #[test]
    fn lists_differ_only_where_a_choice_is_below_the_root() {
        let mut differ = 0;
        for shape in (1..=4).flat_map(shapes) {
            for chosen in 0..81 {
                let mut texts =
                    digits(chosen, 3, 4).into_iter().map(|one| ["902", "903", "951"][one].to_owned());
                let tree = encode(&filled(&shape, &mut texts));
                let fields: [&[u8]; 3] = [&tree, b"0", &[0xAA; 8]];
                let (original, model) = (ask(Verdicts, &fields).0, answer(Verdicts, &fields));
                let (due, whose) = ASKED.ask(Verdicts, &fields).expect("an answer");
                assert_eq!(Some(&due), model.as_ref());
                let taken_out = matches!(whose, Origin::Model(_));
                assert_eq!(taken_out, operands(&shape).iter().any(has_choice), "{shape:?}");
                let ([ours, theirs], list) = beside(&due, &original);
                assert!(ours == theirs && (taken_out || !list), "{shape:?}, {chosen}");
                differ += usize::from(list);
            }
        }
        assert!(differ > 1_000, "{differ}");
    }

    /// The truths of two answers, and whether their lists differ.
    fn beside(model: &Answer, original: &Answer) -> ([u8; 2], bool) {
        let [model, original] = [model, original].map(|answer| answer.as_ref().expect("room"));
        ([model, original].map(|(words, _)| words.as_bytes()[3] - b'0'), model.1 != original.1)
    }

    /// Whether a tree cites UB1 beside a value that is not in full form, whether it cites 900, and whether a choice is below its root.
    fn marks(expr: &Expr, value: &str) -> [bool; 3] {
        let cites = |text| expr.cited().contains(&text);
        [cites("UB1") && value.contains("draft"), cites("900"), operands(expr).iter().any(has_choice)]
    }

    /// The truths that are met of the model and of the original, by what changes them.
    fn truths(boundary: bool, nine_hundred: bool) -> BTreeSet<[u8; 2]> {
        let lower = if boundary { &[[0, 1], [0, 2], [1, 2]][..] } else { &[] };
        let higher = if nine_hundred { &[[2, 1]][..] } else { &[] };
        [&[[0, 0], [1, 1], [2, 2]], lower, higher].concat().into_iter().collect()
    }

    /// In small trees 900 changes truths alone, a choice below the root lists alone, and UB1 both, but only beside a value that is
    /// not in full form. Each combination has a rule of its own.
    #[test]
    fn verdicts_differ_by_what_is_cited_and_chosen() {
        let mut found: BTreeMap<_, (BTreeSet<_>, BTreeSet<_>, bool)> = BTreeMap::new();
        for (shape, chosen) in
            (1..=4).flat_map(shapes).flat_map(|shape| (0..125).map(move |n| (shape.clone(), n)))
        {
            let cited = ["931", "903", "951", "900", "UB1"];
            let mut texts = digits(chosen, 5, 4).into_iter().map(|one| cited[one].to_owned());
            let expr = filled(&shape, &mut texts);
            let tree = encode(&expr);
            for value in ["202607012200+00", "202607012200draft+00"] {
                let fields: [&[u8]; 3] = [&tree, value.as_bytes(), &[0xAA; 8]];
                let (model, whose) = ASKED.ask(Verdicts, &fields).expect("an answer");
                let (both, differ) = beside(&model, &ask(Verdicts, &fields).0);
                let (rules, pairs, lists) = found.entry(marks(&expr, value)).or_default();
                rules.insert(if let Origin::Model(reason) = whose { reason } else { "the original" });
                pairs.insert(both);
                *lists |= differ;
            }
        }
        for ([boundary, nine_hundred, choice], (rules, pairs, lists)) in &found {
            assert_eq!(rules.len(), 1, "{rules:?}");
            assert_eq!(
                (pairs, *lists),
                (&truths(*boundary, *nine_hundred), *boundary || *choice),
                "{rules:?}"
            );
        }
        let rules: BTreeSet<_> = found.values().flat_map(|(rules, ..)| rules).collect();
        assert_eq!((found.len(), rules.len()), (8, 8));
    }

    fn has_choice(expr: &Expr) -> bool {
        matches!(expr, Expr::Or(_) | Expr::Xor(_)) || operands(expr).iter().any(has_choice)
    }
}
