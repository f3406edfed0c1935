//! Who is asked: the original, unless a rule takes the request out of the comparison by a test on its input; then the model.

use crate::groups::{group_leads, was_merged};
use crate::model::reading::{Token, after_word, tokens};
use crate::model::tree::Node;
use crate::model::{self, is_900, is_boundary, is_other_form};
use crate::oracle::refusal::NO_ROOM;
use crate::oracle::{self, Answer, Origin, text, value};
use crate::request::{self, BAD_REQUEST, Function};

/// Why requests are taken out, in the words of the summary.
pub type Reason = &'static str;

/// A rule that takes requests out of the comparison with the original.
#[derive(Clone, Copy)]
pub struct Rule {
    pub reason: Reason,
    /// Whether it takes out this request; a lent buffer is the last field.
    pub covers: fn(Function, &[&[u8]]) -> bool,
    /// What still holds between the model's answer and the original's, if anything does.
    pub still: Option<Still>,
}

/// What is held of the model's answer and the original's.
pub type Still = fn(&Answer, &Answer) -> bool;

/// From a request to the answer of a model that has one.
pub type Model = fn(Function, &[&[u8]]) -> Option<Answer>;

/// Those who are asked.
#[derive(Clone, Copy)]
pub struct Asked {
    pub rules: &'static [Rule],
    pub model: Model,
}

/// What the model answers in the original's place; the first rule that covers a request counts. The original asks less of UB1,
/// UB2 and UB3 on a value that is not in full form, which may raise a truth and shorten a list; it has 900 among the Format
/// numbers, which may make a True Unknown; in a choice below the root that is not False it lists what the other branches
/// violate; and it merges a group into the chain that it leads, if the operator is the same.
const RULES: [Rule; 11] = [
    Rule { reason: "UB1 to UB3 on a value not in full form", covers: boundary_alone, still: Some(was_held) },
    Rule {
        reason: "verdicts where UB1 to UB3 meet a value not in full form, with 900 and a choice below the root",
        covers: |function, fields| boundary_with_900(function, fields) && choice_below_root(fields[0]),
        still: Some(|model, original| both(model, original, stays_false, one_in_both)),
    },
    Rule {
        reason: "verdicts where UB1 to UB3 meet a value not in full form, with a choice below the root",
        covers: |function, fields| boundary_verdicts(function, fields) && choice_below_root(fields[0]),
        still: Some(|model, original| both(model, original, was_higher, one_in_both)),
    },
    Rule {
        reason: "verdicts where UB1 to UB3 meet a value not in full form, with 900",
        covers: boundary_with_900,
        still: Some(|model, original| both(model, original, stays_false, listed_more)),
    },
    Rule {
        reason: "verdicts where UB1 to UB3 meet a value not in full form",
        covers: boundary_verdicts,
        still: Some(|model, original| both(model, original, was_higher, listed_more)),
    },
    Rule {
        reason: "verdicts where a choice is below the root, with 900",
        covers: |function, fields| tree_cites_900(fields[0]) && choice_verdicts(function, fields),
        still: Some(|model, original| both(model, original, was_unknown, listed_less)),
    },
    Rule {
        reason: "verdicts where a choice is below the root",
        covers: choice_verdicts,
        still: Some(|model, original| both(model, original, same_truth, listed_less)),
    },
    Rule {
        reason: "verdicts where 900 is cited",
        covers: verdicts_with_900,
        still: Some(|model, original| both(model, original, was_unknown, same_list)),
    },
    Rule { reason: "the kind of a number equal to 900", covers: kind_of_900, still: Some(was_format) },
    Rule {
        reason: "texts with a group in front of its own operator",
        covers: led_by_group,
        still: Some(was_merged),
    },
    Rule {
        reason: "all else that cites 900",
        covers: else_with_900,
        still: Some(|model, original| model == original),
    },
];

pub const ASKED: Asked = Asked { rules: &RULES, model: model::answer };

fn boundary_alone(function: Function, fields: &[&[u8]]) -> bool {
    function == Function::Evaluate && is_boundary(fields[0]) && is_other_form(fields[1])
}

fn boundary_verdicts(function: Function, fields: &[&[u8]]) -> bool {
    function == Function::Verdicts && boundary_in_tree(fields[0], fields[1])
}

fn boundary_with_900(function: Function, fields: &[&[u8]]) -> bool {
    boundary_verdicts(function, fields) && tree_cites_900(fields[0])
}

fn boundary_in_tree(tree: &[u8], value: &[u8]) -> bool {
    is_other_form(value) && tree.windows(2).any(|two| two == b"UB") && tree_cites(tree, is_boundary)
}

fn choice_verdicts(function: Function, fields: &[&[u8]]) -> bool {
    function == Function::Verdicts && choice_below_root(fields[0]) && value(fields[1]).is_ok()
}

/// Whether the bytes are a tree in which a row after the first is that of an Or or a Xor.
fn choice_below_root(tree: &[u8]) -> bool {
    let rows = tree.first_chunk().map_or(0, |count| usize::from(u16::from_le_bytes(*count)));
    let below = tree.get(18..12 + 6 * rows).unwrap_or_default();
    below.chunks(6).any(|row| matches!(row[0], 3 | 4)) && Node::of_bytes(tree).is_some()
}

fn tree_cites(tree: &[u8], is: fn(&[u8]) -> bool) -> bool {
    Node::of_bytes(tree).is_some_and(|node| node.texts().into_iter().any(|text| is(text.as_bytes())))
}

fn kind_of_900(function: Function, fields: &[&[u8]]) -> bool {
    function == Function::Kind && is_900(fields[0])
}

fn verdicts_with_900(function: Function, fields: &[&[u8]]) -> bool {
    function == Function::Verdicts && tree_cites_900(fields[0])
}

/// What is read of a text by a function that reads one.
type Read = fn(&str) -> String;

fn read_by(function: Function) -> Option<Read> {
    match function {
        Function::Expr => Some(str::to_owned),
        Function::Status => Some(|text| after_word(text).1),
        _ => None,
    }
}

fn led_by_group(function: Function, fields: &[&[u8]]) -> bool {
    let leads = |read: Read| text(fields[0]).is_ok_and(|text| group_leads(&read(text)));
    read_by(function).is_some_and(leads)
}

fn else_with_900(function: Function, fields: &[&[u8]]) -> bool {
    if let Some(read) = read_by(function) {
        return text_cites_900(fields[0], read);
    }
    match function {
        Function::Tree | Function::Print | Function::Cited | Function::Eval | Function::Pakete => {
            tree_cites_900(fields[0])
        }
        Function::Paket | Function::Name | Function::Evaluate | Function::Registered => is_900(fields[0]),
        _ => false,
    }
}

/// Every such number ends in these digits.
fn may_cite_900(bytes: &[u8]) -> bool {
    bytes.windows(3).any(|three| three == b"900")
}

/// Whether a text cites one in front of the first place that is refused.
fn text_cites_900(text: &[u8], read: Read) -> bool {
    let cites = |text: &str| {
        tokens(&read(text))
            .0
            .iter()
            .any(|token| matches!(token, Token::Cited(cited) if is_900(cited.as_bytes())))
    };
    may_cite_900(text) && str::from_utf8(text).is_ok_and(cites)
}

fn tree_cites_900(tree: &[u8]) -> bool {
    may_cite_900(tree) && tree_cites(tree, is_900)
}

fn said(answer: &Answer, word: &str) -> bool {
    answer.as_ref().is_ok_and(|(words, _)| words == word)
}

/// Other, and Format for the original; or the same refusal.
fn was_format(model: &Answer, original: &Answer) -> bool {
    said(model, "6") && said(original, "2") || model.is_err() && model == original
}

/// Violated, where the original has Holds or Violated.
fn was_held(model: &Answer, original: &Answer) -> bool {
    said(model, "V") && (said(original, "H") || said(original, "V"))
}

/// What an answer to `verdicts` says.
struct Verdicts<'a> {
    /// 0 False, 1 Unknown, 2 True.
    truth: usize,
    /// None for one that is longer than the buffer.
    list: List<'a>,
}

type List<'a> = Option<&'a [u8]>;

/// The parts of an answer. A list is empty just where the truth is not False, so 14 says False; an answer of which that is
/// untrue has no parts, and no other refusal has any.
fn verdicts(answer: &Answer) -> Option<Verdicts<'_>> {
    match answer {
        Err(NO_ROOM) => Some(Verdicts { truth: 0, list: None }),
        Err(_) => None,
        Ok((words, list)) => {
            let (truth, count) = words.strip_prefix("ok ")?.split_once(' ')?;
            let fits = list.is_empty() == (truth != "0") && count == (list.len() / 2).to_string();
            let truth = ["0", "1", "2"].into_iter().position(|number| number == truth)?;
            fits.then_some(Verdicts { truth, list: Some(list) })
        }
    }
}

/// Whether something holds between the truths of two answers, and something between their lists; or both are the same refusal.
fn both(
    model: &Answer,
    original: &Answer,
    truths: fn(usize, usize) -> bool,
    lists: fn(List, List) -> bool,
) -> bool {
    match (verdicts(model), verdicts(original)) {
        (Some(model), Some(original)) => {
            truths(model.truth, original.truth) && lists(model.list, original.list)
        }
        _ => model.is_err() && model == original,
    }
}

fn same_truth(model: usize, original: usize) -> bool {
    model == original
}

/// As the original's, or True where that is Unknown.
fn was_unknown(model: usize, original: usize) -> bool {
    model == original || (model, original) == (2, 1)
}

/// As the original's, or lower.
fn was_higher(model: usize, original: usize) -> bool {
    model <= original
}

/// False where the original's is.
fn stays_false(model: usize, original: usize) -> bool {
    model == 0 || original != 0
}

fn same_list(model: List, original: List) -> bool {
    model == original
}

/// Whether a list has these numbers, in this order.
fn has(list: &[u8], numbers: &[u8]) -> bool {
    let mut listed = list.chunks(2);
    numbers.chunks(2).all(|number| listed.any(|one| one == number))
}

/// What the original lists, in its order, and maybe more; so it is longer than the buffer where the original's is.
fn listed_more(model: List, original: List) -> bool {
    match (model, original) {
        (Some(model), Some(original)) => has(model, original),
        (model, _) => model.is_none(),
    }
}

/// A part of what the original lists, in its order; so it is longer than the buffer only where the original's is.
fn listed_less(model: List, original: List) -> bool {
    listed_more(original, model)
}

/// A number that the original lists too, if it lists any. Of a list that is longer than the buffer nothing is known.
fn one_in_both(model: List, original: List) -> bool {
    match (model, original) {
        (Some(model), Some(original)) => {
            original.is_empty() || original.chunks(2).any(|number| has(model, number))
        }
        _ => true,
    }
}

impl Asked {
    /// The first rule that takes a request out; where there is none the original is asked.
    fn taken_out(&self, function: Function, fields: &[&[u8]]) -> Option<&'static Rule> {
        self.rules.iter().find(|rule| (rule.covers)(function, fields))
    }

    /// The answer that is due, and whose it is; else why there is none.
    pub fn ask(&self, function: Function, fields: &[&[u8]]) -> Result<(Answer, Origin), Reason> {
        let Some(rule) = self.taken_out(function, fields) else {
            return Ok(oracle::ask(function, fields));
        };
        let answer = (self.model)(function, fields).ok_or(rule.reason)?;
        if let Some(still) = rule.still {
            let (original, _) = oracle::ask(function, fields);
            assert!(
                still(&answer, &original),
                "{}: {answer:?}, and the original's {original:?}",
                rule.reason
            );
        }
        Ok((answer, Origin::Model(rule.reason)))
    }

    /// Answers a request line.
    pub fn answer(&self, line: &[u8], out: &mut Vec<u8>) -> Result<Origin, Reason> {
        let Some((function, fields)) = request::parse(line) else {
            out.extend_from_slice(BAD_REQUEST.as_bytes());
            return Ok(Origin::Protocol);
        };
        let fields: Vec<&[u8]> = fields.iter().map(Vec::as_slice).collect();
        let (answer, origin) = self.ask(function, &fields)?;
        let lent = if function.lends() { fields.last() } else { None };
        oracle::write_answer(answer, lent.map(|lent| lent.to_vec()), out);
        Ok(origin)
    }
}

#[cfg(test)]
pub mod made_up {
    use super::*;

    pub const REASON: Reason = "made up";

    /// Kinds of texts that begin with 9 are taken out; a model answers those that are no longer than three bytes.
    pub const ASKED: Asked = Asked { rules: &[Rule { reason: REASON, covers, still: None }], model };

    pub fn covers(function: Function, fields: &[&[u8]]) -> bool {
        function == Function::Kind && fields[0].starts_with(b"9")
    }

    pub fn model(_: Function, fields: &[&[u8]]) -> Option<Answer> {
        (fields[0].len() <= 3).then(|| Ok(("7".to_owned(), Vec::new())))
    }
}

#[cfg(test)]
mod tests {
    use super::*;
    use crate::model::reading::expression;

    fn said(asked: Asked, line: &str) -> (Result<Origin, Reason>, String) {
        let mut out = Vec::new();
        let origin = asked.answer(line.as_bytes(), &mut out);
        (origin, String::from_utf8(out).expect("text"))
    }

    #[test]
    fn the_original_is_asked() {
        assert_eq!(said(ASKED, "kind 393031"), (Ok(Origin::Rust), "2".to_owned()));
        assert_eq!(said(made_up::ASKED, "kind 383031"), (Ok(Origin::Rust), "1".to_owned()));
        assert_eq!(said(made_up::ASKED, "registered 393032"), (Ok(Origin::Rust), "1".to_owned()));
    }

    fn tree(text: &str) -> Vec<u8> {
        expression(text).expect("an expression").bytes()
    }

    /// An answer to `verdicts`.
    fn verdicts_of(truth: u8, numbers: &[u8]) -> Answer {
        let list = numbers.iter().flat_map(|number| [*number, 0]).collect();
        Ok((format!("ok {truth} {}", numbers.len()), list))
    }

    #[test]
    fn nine_hundred_is_taken_out() {
        let [.., with_choice, _, verdicts, kind, _, other] = RULES.map(|rule| rule.reason);
        for spelt in ["393030", "30393030", "2b393030"] {
            assert_eq!(said(ASKED, &format!("kind {spelt}")), (Ok(Origin::Model(kind)), "6".to_owned()));
        }
        let cited = tree("[0900] ∨ [902]");
        let due = |reason, word: &str| Ok((Ok((word.to_owned(), Vec::new())), Origin::Model(reason)));
        assert_eq!(ASKED.ask(Function::Verdicts, &[&cited, b"-1", b""]), due(verdicts, "ok 2 0"));
        let below = tree("([0900] ∨ [902]) ∧ [1]");
        assert_eq!(ASKED.ask(Function::Verdicts, &[&below, b"-1", b""]), due(with_choice, "ok 2 0"));
        assert_eq!(ASKED.ask(Function::Eval, &[&cited, &[3, 3]]), due(other, "3"));
        assert_eq!(ASKED.ask(Function::Cited, &[&cited]), due(other, "30393030,393032"));
        assert_eq!(ASKED.ask(Function::Expr, &[b"[900] [", b""]), Ok((Err(2), Origin::Model(other))));
        assert_eq!(ASKED.ask(Function::Status, &[b"M [900]", b""]), Ok((Err(14), Origin::Model(other))));
        for tree in [cited, below] {
            for (value, why) in [(&[b'0'; 1_025][..], 10), (b"\xff", 11)] {
                let said = ASKED.ask(Function::Verdicts, &[&tree, value, b""]);
                assert_eq!(said, Ok((Err(why), Origin::Model(verdicts))));
            }
        }
    }

    #[test]
    fn a_value_not_in_full_form_is_taken_out() {
        let [alone, three, choice, cited, boundary, ..] = RULES.map(|rule| rule.reason);
        for id in [b"UB1", b"UB2", b"UB3"] {
            for value in ["202607012200draft+00", "2026+7012200+00", "-00002292300+00", "", "é"] {
                let said = ASKED.ask(Function::Evaluate, &[id, value.as_bytes()]);
                let due = Ok(("V".to_owned(), Vec::new()));
                assert_eq!(said, Ok((due, Origin::Model(alone))), "{value}");
            }
        }
        for (text, reason, truth, numbers) in [
            ("[UB1] ∧ [900]", cited, 0, &[0][..]),
            ("[900] ∧ [902] ∧ [UB1]", cited, 0, &[1, 2]),
            ("[UB1] ∨ [900]", cited, 2, &[]),
            ("[UB3] ∨ [UB4]", boundary, 1, &[]),
            ("[931] ∧ [902] ∧ [UB1]", boundary, 0, &[1, 2]),
            ("([UB1] ∨ [903]) ∧ [914]", choice, 0, &[0, 1, 2]),
            ("([931] ∨ [903]) ∧ [UB1]", choice, 0, &[2]),
            ("([UB1] ∨ [UB4]) ∧ [931]", choice, 1, &[]),
            ("([931] ⊻ [903]) ∧ [900] ∧ [914] [UB1]", three, 0, &[3, 4]),
            ("([931] ∧ ([903] ∨ [900])) ∨ [UB1]", three, 2, &[]),
        ] {
            for room in 0..=6 {
                let fields: [&[u8]; 3] = [&tree(text), b"202607012200draft+00", &[9; 6][..room]];
                let short = room < 2 * numbers.len();
                let due = if short { Err(NO_ROOM) } else { verdicts_of(truth, numbers) };
                let said = ASKED.ask(Function::Verdicts, &fields);
                assert_eq!(said, Ok((due, Origin::Model(reason))), "{text}, {room}");
            }
        }
    }

    #[test]
    fn verdicts_where_a_choice_is_below_the_root_are_taken_out() {
        let [cited, below] = [RULES[5].reason, RULES[6].reason];
        for (text, value, reason, truth, numbers) in [
            ("([902] ∨ [903]) [1] ∧ [914]", "0", below, 0, &[3][..]),
            ("([902] ∨ [903]) [1] ∧ [914]", "5", below, 2, &[]),
            ("([902] ⊻ [903]) [914]", "-1", below, 0, &[0, 1, 2]),
            ("([902] ∧ ([903] ∨ [1])) ∨ [914]", "0", below, 2, &[]),
            ("([903] ∨ [951]) ∧ [902]", "0", below, 1, &[]),
            ("([900] ∨ [903]) ∧ [914]", "0", cited, 0, &[2]),
            ("([900] ∨ [903]) ∧ [951]", "0", cited, 1, &[]),
            ("([UB1] ∨ [903]) ∧ [914]", "202607012200+00", below, 0, &[2]),
            ("([UB1] ⊻ [0900] ⊻ [903]) ∧ [UB2]", "202607012200+00", cited, 0, &[3]),
        ] {
            let tree = tree(text);
            for room in 0..=7 {
                let said = ASKED.ask(Function::Verdicts, &[&tree, value.as_bytes(), &[9; 7][..room]]);
                let short = room < 2 * numbers.len();
                let due = if short { Err(NO_ROOM) } else { verdicts_of(truth, numbers) };
                assert_eq!(said, Ok((due, Origin::Model(reason))), "{text}, {room}");
            }
        }
    }

    #[test]
    fn other_verdicts_are_not() {
        for (text, truth, numbers) in [
            ("[902] ∨ [903]", 2, &[][..]),
            ("[903] ∨ [951]", 1, &[]),
            ("[903] ⊻ [914]", 0, &[0, 1]),
            ("([902] [903] ∧ [914]) ∨ ([927] [1])", 0, &[1, 2, 3]),
            ("[902] ∧ [903] [914]", 0, &[1, 2]),
            ("[903]", 0, &[0]),
        ] {
            let said = ASKED.ask(Function::Verdicts, &[&tree(text), b"0", &[9; 6]]);
            assert_eq!(said, Ok((verdicts_of(truth, numbers), Origin::Rust)), "{text}");
        }
        let below = tree("([902] ∨ [903]) ∧ [914]");
        for (tree, value, why) in
            [(&below[1..], &b"0"[..], 15), (&below, &[b'0'; 1_025], 10), (&below, b"\xff", 11)]
        {
            assert_eq!(ASKED.ask(Function::Verdicts, &[tree, value, b""]), Ok((Err(why), Origin::Paper)));
        }
    }

    /// Holds relations to what they are due to say of pairs of answers, the model's and the original's.
    fn say(relations: &[Still], due: bool, pairs: &[(Answer, Answer)]) {
        for (still, (model, original)) in
            relations.iter().flat_map(|one| pairs.iter().map(move |pair| (one, pair)))
        {
            assert_eq!(still(model, original), due, "{model:?} beside {original:?}");
        }
    }

    /// What still holds where verdicts are taken out: for a boundary, 900 and a choice; a boundary and a choice; a boundary and
    /// 900; a boundary; a choice and 900; a choice; 900.
    fn on_verdicts() -> [Still; 7] {
        [1, 2, 3, 4, 5, 6, 7].map(|rule| RULES[rule].still.expect("a relation"))
    }

    /// Two answers that say False, with these lists.
    fn lists(model: &[u8], original: &[u8]) -> (Answer, Answer) {
        (verdicts_of(0, model), verdicts_of(0, original))
    }

    #[test]
    fn lists_beside_the_originals() {
        let short = || Err(NO_ROOM);
        let same = [lists(&[1, 3], &[1, 3]), (verdicts_of(2, &[]), verdicts_of(2, &[])), (short(), short())];
        let (part, more) = (lists(&[3], &[1, 3]), lists(&[0, 1, 3], &[1, 3]));
        let others = [lists(&[3, 1], &[1, 3]), lists(&[3, 3], &[1, 3]), lists(&[2, 3], &[1, 2])];
        let (fits, longer) = ((verdicts_of(0, &[1]), short()), (short(), verdicts_of(0, &[1])));

        let all = on_verdicts();
        say(&all, true, &same);
        say(&all, false, &[lists(&[0, 2], &[1, 3])]);
        let [three, choice, cited, boundary, choice_cited, below, only_cited] = all;
        say(&[three, choice], true, &[part.clone(), more.clone(), fits.clone(), longer.clone()]);
        say(&[three, choice], true, &others);
        say(&[cited, boundary], true, &[more.clone(), longer.clone()]);
        say(&[cited, boundary], false, &[part.clone(), fits.clone()]);
        say(&[choice_cited, below], true, &[part.clone(), fits.clone()]);
        say(&[choice_cited, below], false, &[more.clone(), longer.clone()]);
        say(&[only_cited], false, &[part, more, fits, longer]);
        say(&[cited, boundary, choice_cited, below, only_cited], false, &others);
    }

    #[test]
    fn truths_beside_the_originals() {
        let said = |truth: u8| verdicts_of(truth, if truth == 0 { &[1] } else { &[] });
        let lower = |model, original| model <= original;
        let false_alike = |model, original| original > 0 || model == 0;
        let raised = |model, original| model == original || model == 2 && original == 1;
        let same = |model, original| model == original;
        let due: [fn(u8, u8) -> bool; 7] = [false_alike, lower, false_alike, lower, raised, same, raised];
        for (still, due) in on_verdicts().into_iter().zip(due) {
            for (model, original) in (0..9).map(|pair| (pair / 3, pair % 3)) {
                say(&[still], due(model, original), &[(said(model), said(original))]);
            }
        }
    }

    /// A list that is longer than the buffer is that of a False.
    #[test]
    fn truths_beside_fourteen() {
        let all = on_verdicts();
        let [three, choice, cited, boundary, choice_cited, below, only_cited] = all;
        for truth in [1, 2] {
            let of_model = (Err(NO_ROOM), verdicts_of(truth, &[]));
            say(&[three, choice, cited, boundary], true, &[of_model.clone()]);
            say(&[choice_cited, below, only_cited], false, &[of_model]);
            say(&all, false, &[(verdicts_of(truth, &[]), Err(NO_ROOM))]);
        }
    }

    #[test]
    fn other_refusals_and_answers_that_cannot_be() {
        let short = || Err(NO_ROOM);
        let words = |words: &str, list: &[u8]| Ok((words.to_owned(), list.to_vec()));
        let wrong = [
            (verdicts_of(0, &[1]), Err(15)),
            (Err(15), verdicts_of(0, &[1])),
            (Err(15), short()),
            (short(), Err(15)),
            (Err(10), Err(11)),
            lists(&[], &[]),
            (verdicts_of(0, &[]), short()),
            (short(), verdicts_of(0, &[])),
            (verdicts_of(1, &[1]), verdicts_of(1, &[1])),
            (verdicts_of(3, &[]), verdicts_of(3, &[])),
            (words("ok 0 2", &[1, 0]), verdicts_of(0, &[1])),
            (words("ok 2", &[]), words("ok 2", &[])),
        ];
        say(&on_verdicts(), false, &wrong);
        say(&on_verdicts(), true, &[(Err(11), Err(11))]);
    }

    const LED: Reason = "texts with a group in front of its own operator";

    /// The tree of the text, or 14 where it has more bytes than the buffer.
    fn due(words: &str, text: &str, room: usize) -> Answer {
        let bytes = tree(text);
        if bytes.len() > room { Err(NO_ROOM) } else { Ok((format!("{words} {}", bytes.len()), bytes)) }
    }

    #[test]
    fn texts_that_a_group_leads_are_taken_out() {
        for text in [
            "([1] ⊻ [2]) ⊻ [3]",
            "(([1]∧[2]))∧[3]",
            "[0900] ∧ (([1] ∨ [2]) ∨ [3])",
            "([1 x] [900] ∨ [2]) ∨ ([3] ∨ [4])",
            "(([1] ∧ [2] ∨ [3]) ∨ [4]) ∨ [5]",
        ] {
            for room in 0..=tree(text).len() + 3 {
                let lent = vec![9; room];
                let said = ASKED.ask(Function::Expr, &[text.as_bytes(), &lent]);
                assert_eq!(said, Ok((due("ok", text, room), Origin::Model(LED))), "{text}, {room}");
                let status = format!(" K\t{}", text.replace(' ', "\u{3000} \n"));
                let said = ASKED.ask(Function::Status, &[status.as_bytes(), &lent]);
                assert_eq!(said, Ok((due("ok 6", text, room), Origin::Model(LED))), "{text}, {room}");
            }
        }
    }

    #[test]
    fn refused_texts_that_a_group_leads() {
        let led = "([1] ∨ [2]) ∨ [3]";
        let most = "[1]".repeat(253);
        let deep = "(".repeat(256);
        for (text, why) in [
            (format!("{led} ∨"), 4),
            (format!("({led}"), 5),
            (format!("{led} [900])"), 5),
            (format!("{led}{most}[4]"), 12),
            (format!("{led}{deep}("), 13),
        ] {
            let said = ASKED.ask(Function::Expr, &[text.as_bytes(), b""]);
            assert_eq!(said, Ok((Err(why), Origin::Model(LED))), "{text}");
            let said = ASKED.ask(Function::Status, &[format!("Muss {text}").as_bytes(), b""]);
            assert_eq!(said, Ok((Err(why), Origin::Model(LED))), "{text}");
        }
        let said = ASKED.ask(Function::Status, &[format!("muss {led}").as_bytes(), b""]);
        assert_eq!(said, Ok((Err(9), Origin::Model(LED))));
        assert_eq!(
            ASKED.ask(Function::Expr, &[format!("{led}{most}").as_bytes(), b""]),
            Ok((Err(NO_ROOM), Origin::Model(LED)))
        );
    }

    #[test]
    fn other_texts_with_groups_are_not() {
        let led = "([1] ∨ [2]) ∨ [3]";
        for (text, why, whose) in [
            (format!("{led}+"), 1, Origin::Rust),
            (format!("{led}["), 2, Origin::Rust),
            (format!("{led}[ ]"), 3, Origin::Rust),
            (format!("{led}{}", " ".repeat(4_400)), 10, Origin::Paper),
            (format!("[900] ({led})["), 2, Origin::Model("all else that cites 900")),
        ] {
            let said = ASKED.ask(Function::Expr, &[text.as_bytes(), b""]);
            assert_eq!(said, Ok((Err(why), whose)), "{text}");
        }
        let torn = [led.as_bytes(), b"\xff"].concat();
        assert_eq!(ASKED.ask(Function::Expr, &[&torn, b""]), Ok((Err(11), Origin::Paper)));
        for text in ["([1] ∨ [2])", "[1] ∨ ([2] ∨ [3])", "([1] ∨ [2]) ∧ [3]", "([1] [2]) [3] ∨ [4]"]
        {
            let said = ASKED.ask(Function::Expr, &[text.as_bytes(), &[9; 99]]);
            assert_eq!(said, Ok((due("ok", text, 99), Origin::Rust)), "{text}");
        }
        let said = ASKED.ask(Function::Status, &[led.as_bytes(), b""]);
        assert_eq!(said, Ok((Err(9), Origin::Rust)));
    }

    #[test]
    fn one_in_full_form_is_not() {
        let (tree, value) = (tree("[UB1]"), &b"202607012200+00"[..]);
        let asked: [(Function, &[&[u8]]); 2] =
            [(Function::Evaluate, &[b"UB1", value]), (Function::Verdicts, &[&tree, value, b""])];
        for (function, fields) in asked {
            assert_eq!(ASKED.ask(function, fields).map(|(_, origin)| origin), Ok(Origin::Time));
        }
    }

    #[test]
    fn refused_values_and_other_conditions_are_not() {
        for value in [&[b'1'; 1_025][..], b"\xff"] {
            let said = ASKED.ask(Function::Evaluate, &[b"UB1", value]);
            assert_eq!(said.map(|(_, origin)| origin), Ok(Origin::Paper));
        }
        for other in [b"UB4", b"932"] {
            let said = ASKED.ask(Function::Evaluate, &[other, b"202607012200draft+00"]);
            assert_eq!(said.map(|(_, origin)| origin), Ok(Origin::Rust));
        }
    }

    #[test]
    fn others_are_not() {
        let tree = tree("[1900] ∨ [900 ]");
        let asked: [(Function, &[&[u8]]); 3] = [
            (Function::Verdicts, &[&tree, b"-1", b""]),
            (Function::Expr, &[b"[1900] ([900 ]", b""]),
            (Function::Status, &[b"900 [9001]", b""]),
        ];
        for (function, fields) in asked {
            assert_eq!(ASKED.ask(function, fields).map(|(_, origin)| origin), Ok(Origin::Rust));
        }
    }

    #[test]
    fn the_model_answers_what_is_taken_out() {
        assert_eq!(said(made_up::ASKED, "kind 393031"), (Ok(Origin::Model(made_up::REASON)), "7".to_owned()));
        assert_eq!(said(made_up::ASKED, "kind 39303132"), (Err(made_up::REASON), String::new()));
    }

    #[test]
    #[should_panic(expected = "made up")]
    fn what_still_holds_is_held_to_the_original() {
        const RULE: Rule =
            Rule { reason: made_up::REASON, covers: made_up::covers, still: Some(|a, b| a == b) };
        let _ = Asked { rules: &[RULE], model: made_up::model }.ask(Function::Kind, &[b"901"]);
    }
}
