//! The products of an expansion tree: how each is reached, the orders in which they can be written, and the list in its buffer.

use crate::differ::Case;
use model::cube::{Cube, RECORD, encoded_list};
use std::cmp::Reverse;

/// The codes of a product, and at each node the number of the branch, 0 or 1, that leads to it.
#[derive(Clone, Default)]
pub struct Product {
    pub cube: Cube,
    pub branches: Vec<usize>,
}

impl Product {
    /// The path that goes on by a branch, in which the variable has this code.
    pub fn by(&self, branch: usize, code: u8) -> Product {
        let mut product = self.clone();
        product.cube.push(code);
        product.branches.push(branch);
        product
    }
}

pub fn cubes(products: Vec<Product>) -> Vec<Cube> {
    products.into_iter().map(|product| product.cube).collect()
}

/// At a node by Shannon, and there alone, the first branch has a literal.
pub fn upper_first(products: &mut [Product]) {
    products.sort_by_key(|Product { cube, branches }| {
        let number = |(&code, &branch)| if (code, branch) == (0, 0) { 2 } else { branch };
        cube.iter().zip(branches).map(number).collect::<Vec<_>>()
    });
}

pub fn second_first(products: &mut [Product]) {
    products.sort_by_key(|product| Reverse(product.branches.clone()));
}

/// At each level the first branches of all nodes, then their second ones.
pub fn breadth_first(products: &mut [Product]) {
    products.sort_by_key(|product| product.branches.iter().rev().copied().collect::<Vec<_>>());
}

/// The call's output with a list at its front; nothing where there is no room for so many records.
pub fn left_in_out(case: &Case, list: &[Cube], room: usize, clears: bool) -> Option<Vec<u8>> {
    let capacity = (case.out.len() / RECORD).min(4096);
    (capacity >= room).then(|| {
        let records = encoded_list(list);
        let mut out = case.out.clone();
        let (written, rest) = out.split_at_mut(records.len().min(case.out.len()));
        written.copy_from_slice(&records[..written.len()]);
        if clears {
            rest.fill(0);
        }
        out
    })
}
