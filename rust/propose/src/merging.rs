//! Products with equal cubes and different outputs. The search lets them be, and counts them once: a script merges them at its end.

use crate::product::Product;
use crate::work::{Done, NO, Operation, WORTH};
use std::collections::HashMap;

fn cube(product: Product) -> u64 {
    Product { outputs: 1, ..product }.key()
}

/// How many present products have each cube.
#[derive(Default)]
pub struct Cubes(HashMap<u64, u32>);

impl Cubes {
    pub fn has(&self, product: Product) -> bool {
        self.0.contains_key(&cube(product))
    }

    /// Whether it is the first with its cube.
    pub fn add(&mut self, product: Product) -> bool {
        let count = self.0.entry(cube(product)).or_default();
        *count += 1;
        *count == 1
    }

    /// Whether it was the last with its cube.
    pub fn remove(&mut self, product: Product) -> bool {
        let count = self.0.get_mut(&cube(product)).expect("what is present is counted");
        *count -= 1;
        if *count == 0 {
            self.0.remove(&cube(product));
            return true;
        }
        false
    }
}

/// The steps that leave one product of each cube, or none, and the products that they make, numbered from `next` on.
pub fn merging(present: &[(u32, Product)], next: u32) -> (Vec<Done>, Vec<Product>) {
    let mut sorted = present.to_vec();
    sorted.sort_by_key(|&(number, product)| (cube(product), number));
    let (mut steps, mut made) = (Vec::new(), Vec::new());
    let mut last: Option<(u32, Product)> = None;
    for (number, product) in sorted {
        let Some((first, before)) = last.filter(|&(_, before)| cube(before) == cube(product)) else {
            last = Some((number, product));
            continue;
        };
        let took = [first, number];
        if before.outputs == product.outputs {
            steps.push(Done { operation: Operation::Drop, variable: 0, took, made: [NO; 2], price: -2 * WORTH });
            last = None;
        } else {
            let merged = Product { outputs: before.outputs ^ product.outputs, ..product };
            let number = next + made.len() as u32;
            steps.push(Done { operation: Operation::Merge, variable: 0, took, made: [number, NO], price: -WORTH });
            made.push(merged);
            last = Some((number, merged));
        }
    }
    (steps, made)
}
