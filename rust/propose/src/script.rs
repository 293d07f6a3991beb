//! A script as steps on places, and the list that it ends in.

use crate::merging::merging;
use crate::product::Product;
use crate::work::{Done, NO, Operation};
use std::collections::HashMap;
use std::fmt;

pub const MOST_STEPS: usize = 1024;
pub const MOST_PRODUCTS: usize = 4096;

#[derive(Clone, Copy, Debug, PartialEq, Eq)]
pub struct Step {
    pub operation: Operation,
    pub variable: u32,
    pub i: usize,
    pub j: usize,
}

impl fmt::Display for Step {
    fn fmt(&self, to: &mut fmt::Formatter) -> fmt::Result {
        let Step { operation, variable, i, j } = self;
        match operation {
            Operation::Drop => write!(to, "drop {i} {j}"),
            Operation::Join => write!(to, "join {i} {j}"),
            Operation::Split => write!(to, "split x{variable} {i}"),
            Operation::Turn => write!(to, "turn x{variable} {i} {j}"),
            Operation::Merge => write!(to, "merge {i} {j}"),
        }
    }
}

/// Why steps don't fit into a script.
#[derive(Clone, Copy, Debug, PartialEq, Eq)]
pub enum Unfit {
    Steps,
    Products,
}

#[derive(Clone)]
pub struct Script {
    pub list: Vec<Product>,
    pub steps: Vec<Step>,
}

/// The numbers of the products at the places of a list, while steps are done.
struct Places {
    numbers: Vec<u32>,
    stands: HashMap<u32, usize>,
}

impl Places {
    fn new(count: usize) -> Places {
        Places { numbers: (0..count as u32).collect(), stands: (0..count).map(|place| (place as u32, place)).collect() }
    }

    fn set(&mut self, place: usize, number: u32) {
        self.numbers[place] = number;
        self.stands.insert(number, place);
    }

    fn append(&mut self, number: u32) {
        self.stands.insert(number, self.numbers.len());
        self.numbers.push(number);
    }

    /// The last one goes to where a product is removed.
    fn remove(&mut self, place: usize) {
        self.numbers.swap_remove(place);
        if let Some(&moved) = self.numbers.get(place) {
            self.stands.insert(moved, place);
        }
    }

    fn step(&mut self, done: &Done) -> Step {
        let [first, second] = done.took;
        let i = self.stands[&first];
        let j = if second == NO { 0 } else { self.stands[&second] };
        match done.operation {
            Operation::Drop => {
                self.remove(i.max(j));
                self.remove(i.min(j));
            }
            Operation::Join | Operation::Merge => {
                self.set(i, done.made[0]);
                self.remove(j);
            }
            Operation::Split => {
                self.set(i, done.made[0]);
                self.append(done.made[1]);
            }
            Operation::Turn => {
                self.set(i, done.made[0]);
                self.set(j, done.made[1]);
            }
        }
        Step { operation: done.operation, variable: done.variable, i, j }
    }
}

impl Script {
    pub fn new(list: Vec<Product>) -> Script {
        Script { list, steps: Vec::new() }
    }

    /// How many steps more it may have.
    pub fn room(&self) -> usize {
        MOST_STEPS - self.steps.len()
    }

    /// With these steps after its own. `products` are what their numbers stand for.
    pub fn then<'a>(&self, steps: impl Iterator<Item = &'a Done>, products: &[Product]) -> Result<Script, Unfit> {
        let mut places = Places::new(self.list.len());
        let mut script = self.clone();
        for done in steps {
            script.steps.push(places.step(done));
            if script.steps.len() > MOST_STEPS {
                return Err(Unfit::Steps);
            }
            if places.numbers.len() > MOST_PRODUCTS {
                return Err(Unfit::Products);
            }
        }
        script.list = places.numbers.iter().map(|&number| products[number as usize]).collect();
        Ok(script)
    }

    /// With the merges that the list it ends in allows, at most so many, and as many as there is room for.
    pub fn merged(self, most: usize) -> Script {
        let numbered: Vec<(u32, Product)> = (0..).zip(self.list.iter().copied()).collect();
        let (steps, made) = merging(&numbered, self.list.len() as u32);
        let products = [self.list.clone(), made].concat();
        self.then(steps.iter().take(most.min(self.room())), &products).unwrap_or(self)
    }
}
