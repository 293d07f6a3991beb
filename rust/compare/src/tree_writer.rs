//! Write tree: every set of faults together, and all functions of few variables, beside all of their trees and in buffers of all
//! lengths near those that they need.

use crate::differ::{Call, compared};
use crate::replays::expect;
use crate::tree_lists::best_form;
use crate::vector_calls::{case, faults_together, functions, in_every_room, of_cost_0_and_1};
use model::cost::{cost, standing};
use model::cube::{Cube, RECORD, encoded_list, truth_vector};
use model::trees::{Expansion, Tree};
use std::cmp::Ordering;

const CALL: Call = Call::WriteTree;

pub fn all() -> Result<(), String> {
    faults_together(CALL)?;
    for n in 0..4 {
        beside_all_trees(n)?;
        in_every_room(CALL, n)?;
    }
    functions_of_four()
}

/// Every function of n variables beside all of its trees: none costs less, and of those that cost as much the first is written.
fn beside_all_trees(n: u64) -> Result<(), String> {
    let trees = 3usize.pow((1 << n) - 1);
    let mut by_cost = [0u64; 9];
    let mut several = 0;
    for input in functions(n) {
        let lists: Vec<Vec<Cube>> = all_trees(&input).iter().map(|tree| tree.list(&[])).collect();
        let case = case(CALL, n, input, RECORD * 8 + 3);
        let after = compared(&case)?;
        let good = lists.iter().all(|list| truth_vector(n as usize, list) == case.input);
        expect(good && lists.len() == trees, "not all of the trees", &case, &after)?;

        let first = lists.iter().min_by_key(|list| cost(list)).expect("there is one");
        let written = encoded_list(first);
        let same = after.answer[2..4] == [first.len() as u64, cost(first) as u64] && after.out.starts_with(&written);
        expect(same, "not the first of the trees that cost least", &case, &after)?;
        by_cost[cost(first)] += 1;
        several += u64::from(lists.iter().any(|list| cost(list) == cost(first) && list != first));
    }
    println!(
        "{} functions of {n} variables, {trees} trees each; by the least cost, from 0: {by_cost:?}",
        1u64 << (1 << n)
    );
    println!("of {several} the trees that cost least have several lists");
    let expected = of_cost_0_and_1(n);
    if by_cost[..2] == expected { Ok(()) } else { Err(format!("not {expected:?} of cost 0 and 1")) }
}

/// All trees of a function, by the expansion of the root, then by those of its first branch, then of its second: at each node the
/// first expansion comes first.
fn all_trees(function: &[u8]) -> Vec<Tree> {
    if let &[constant] = function {
        return vec![Tree::Constant(constant)];
    }
    let mut trees = Vec::new();
    for by in Expansion::ALL {
        let [first, second] = by.branches(function).map(|branch| all_trees(&branch));
        trees.extend(first.iter().flat_map(|a| second.iter().map(move |b| Tree::node(by, [a, b]))));
    }
    trees
}

/// Every function of 4 variables beside the form of its best polarity, as [`compared`] looks at it.
fn functions_of_four() -> Result<(), String> {
    let mut by_cost = [0u64; 17];
    // By cost, then by products.
    let (mut cheaper, mut fewer, mut more) = (0, 0, 0);
    for input in functions(4) {
        let (form_cost, form_products) = standing(&best_form(4, &input));
        let [_, _, products, cost, ..] = compared(&case(CALL, 4, input, RECORD * 16))?.answer;
        by_cost[cost as usize] += 1;
        match (products as usize).cmp(&form_products) {
            _ if cost < form_cost as u64 => cheaper += 1,
            Ordering::Less => fewer += 1,
            Ordering::Equal => {}
            Ordering::Greater => more += 1,
        }
    }
    println!("{} functions of 4 variables; by the tree's cost, from 0: {by_cost:?}", 1 << 16);
    println!(
        "{cheaper} have a tree that costs less than the form of every polarity; {fewer} one that costs as much as the best and \
         has fewer products, {more} one that has more"
    );
    let expected = of_cost_0_and_1(4);
    if by_cost[..2] != expected {
        return Err(format!("not {expected:?} of cost 0 and 1"));
    }
    if cheaper > 0 { Ok(()) } else { Err("no tree costs less than the form of every polarity".into()) }
}
