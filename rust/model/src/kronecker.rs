//! Document 02, Ten: "One choice for each variable."

use crate::cost::cost;
use crate::cube::Cube;
use crate::trees::{Expansion, Tree};

/// A choice and its list.
pub struct Kronecker {
    pub choice: usize,
    pub list: Vec<Cube>,
}

/// "Digit 0 Shannon, 1 positive Davio, 2 negative Davio, variable 0 the lowest digit": the expansion of each variable.
pub fn expansions(n: usize, choice: usize) -> Vec<Expansion> {
    (0..n as u32).map(|k| Expansion::ALL[choice / 3usize.pow(k) % 3]).collect()
}

/// "One expansion per variable": the tree that has it at every node of the variable.
pub fn tree(expansions: &[Expansion], function: &[u8]) -> Tree {
    let Some((&by, rest)) = expansions.split_first() else { return Tree::Constant(function[0]) };
    let [first, second] = by.branches(function).map(|branch| tree(rest, &branch));
    Tree::node(by, [&first, &second])
}

/// "All 3^n choices"; "answer the least cost and, among those, the smallest choice".
pub fn cheapest(n: usize, vector: &[u8]) -> Kronecker {
    let list = |choice| tree(&expansions(n, choice), vector).list(&[]);
    let forms = (0..3usize.pow(n as u32)).map(|choice| Kronecker { choice, list: list(choice) });
    // Of several such the first.
    forms.min_by_key(|form| cost(&form.list)).expect("there is a choice")
}
