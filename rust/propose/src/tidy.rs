//! Steps that undo what one before them did, and turns of what a turn made: the two are left out, or become one turn. Steps between them, on other products, don't matter, as they would
//! to the compactor, which looks at neighbours.

use crate::product::Product;
use crate::work::{Done, NO, Operation};

/// Where a product that is no step's comes from.
const NOBODY: usize = usize::MAX;

struct Tidy<'a> {
    products: &'a [Product],
    steps: Vec<Option<Done>>,
    /// For each number, the step that makes it, and the number that stands for it.
    makers: Vec<usize>,
    names: Vec<u32>,
}

/// The steps, fewer, in which numbers stand for the same products.
pub fn tidy(log: &[Done], products: &[Product]) -> Vec<Done> {
    let names = (0..products.len() as u32).collect();
    let mut tidy = Tidy { products, steps: Vec::new(), makers: vec![NOBODY; products.len()], names };
    for &done in log {
        tidy.add(done);
    }
    tidy.steps.into_iter().flatten().collect()
}

impl Tidy<'_> {
    fn name(&self, number: u32) -> u32 {
        if number == NO { NO } else { self.names[number as usize] }
    }

    fn product(&self, number: u32) -> Option<Product> {
        self.products.get(number as usize).copied()
    }

    fn set(&mut self, at: usize, done: Done) {
        for made in done.made.into_iter().filter(|&made| made != NO) {
            self.makers[made as usize] = at;
        }
        self.steps[at] = Some(done);
    }

    fn add(&mut self, mut done: Done) {
        done.took = done.took.map(|took| self.name(took));
        if self.before(&done).is_none_or(|(at, before)| !self.is_one(at, before, done)) {
            self.steps.push(None);
            self.set(self.steps.len() - 1, done);
        }
    }

    /// Whether the step before and this one are none, or one turn; then they are left out, or replaced.
    fn is_one(&mut self, at: usize, before: Done, done: Done) -> bool {
        if let Some(took) = self.in_order(before.took, done.made) {
            // what is made was there before
            self.steps[at] = None;
            for (made, took) in done.made.into_iter().zip(took).filter(|&(made, _)| made != NO) {
                self.names[made as usize] = took;
            }
            return true;
        }
        let turns = before.operation == Operation::Turn && done.operation == Operation::Turn;
        if turns {
            let turn = self.turn(before, done);
            self.set(at, turn);
        }
        turns
    }

    /// The step that made just what this one takes.
    fn before(&self, done: &Done) -> Option<(usize, Done)> {
        let at = self.makers[done.took[0] as usize];
        let before = self.steps.get(at).copied().flatten()?;
        let [first, second] = done.took;
        (before.made == [first, second] || before.made == [second, first]).then_some((at, before))
    }

    /// The numbers that were taken, if they are for the products that are made, in the order of these.
    fn in_order(&self, took: [u32; 2], made: [u32; 2]) -> Option<[u32; 2]> {
        let same = |took: [u32; 2]| took.map(|number| self.product(number)) == made.map(|number| self.product(number));
        [took, [took[1], took[0]]].into_iter().find(|&took| same(took))
    }

    /// One turn for two. The first product that is made differs from one of those that were taken in one variable, from the other in two.
    fn turn(&self, before: Done, done: Done) -> Done {
        let differing = |took: u32| self.products[took as usize].differing(self.products[done.made[0] as usize]);
        let mut took = before.took;
        if differing(took[0]).count_ones() != 1 {
            took.reverse();
        }
        Done { variable: differing(took[0]).trailing_zeros(), took, price: before.price + done.price, ..done }
    }
}
