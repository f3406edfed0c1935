//! Random expressions, statuses and trees without end, for the functions that are called in process.

use super::Cases;
use super::reading::{ask_near, damaged, write_chain};
use super::trees::{VALUES, answers, ask_verdicts, random_tree, reads_back, trees_of};
use crate::model;
use crate::oracle::judged_alike;
use crate::original::conditions::Expr;
use crate::request::Function::{Eval, Expr as ExprText};
use crate::tree::{encode, flat};

/// So many rounds; a round reads a text, or makes a tree, and judges it.
pub fn many(cases: &mut Cases, rounds: u64) {
    for round in 0..rounds {
        if round % 4 == 3 {
            let leaves = 1 + cases.random.below(if round % 64 == 3 { 60 } else { 7 });
            let expr = random_tree(cases, leaves);
            judge(cases, &expr);
            continue;
        }
        let mut left = 1 + cases.random.below(if round % 32 == 0 { 60 } else { 8 });
        let mut text = String::new();
        write_chain(cases, &mut left, 5, &mut text);
        if cases.random.one_in(4) {
            text = damaged(cases, &text);
        }
        ask_near(cases, &text);
        trees_of(&text).iter().for_each(|expr| judge(cases, expr));
    }
}

/// Reads a tree's print; presence and verdicts of it, of its flat tree and of a damaged copy.
fn judge(cases: &mut Cases, expr: &Expr) {
    let tree = encode(expr);
    let flat = flat(expr);
    let flat_tree = encode(&flat);
    let print = expr.to_string();
    assert!(reads_back(&tree, &print, &flat_tree), "printed, then read by the model: {print}");
    cases.ask_lent_near(ExprText, &[print.as_bytes()], flat_tree.len());
    let cited = expr.cited();
    for _ in 0..2 {
        let answers = answers(cases, &cited);
        let value = *cases.random.pick(&VALUES);
        assert!(judged_alike(expr, &flat, &answers, value), "a tree and its flat tree: {expr}");
        cases.trees += 1;
        ask_both(cases, &tree, &answers, value);
        if flat_tree != tree {
            assert!(
                model::judged_alike(&tree, &flat_tree, value),
                "the model's verdicts on a tree and its flat tree: {expr}"
            );
            ask_both(cases, &flat_tree, &answers, value);
        }
    }
    let mut damaged = tree;
    let place = cases.random.below(damaged.len());
    damaged[place] = damaged[place].wrapping_add(*cases.random.pick(&[1, 2, 6, 255, 128]));
    ask_verdicts(cases, &damaged, b"5", cited.len());
    cases.ask(Eval, &[&damaged, &[]]);
}

fn ask_both(cases: &mut Cases, tree: &[u8], answers: &[u8], value: &str) {
    cases.ask(Eval, &[tree, answers]);
    ask_verdicts(cases, tree, value.as_bytes(), answers.len());
}
