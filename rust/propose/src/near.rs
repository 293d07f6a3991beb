//! For each product, present or not, how many present ones with the same outputs differ from it in at most one variable; by hashing.

use crate::product::Product;

/// Where no product stands.
const NOWHERE: u32 = u32::MAX;
/// No product's key.
const EMPTY: u64 = 1;

#[derive(Clone, Copy)]
struct Entry {
    key: u64,
    /// How many present products are this one or differ from it in one variable.
    near: u32,
    /// Where the product itself is, if it is present.
    own: u32,
}

const NONE: Entry = Entry { key: EMPTY, near: 0, own: NOWHERE };

pub struct Near {
    variables: u32,
    entries: Vec<Entry>,
    used: usize,
}

impl Near {
    pub fn new(variables: u32, products: usize) -> Near {
        let room = (products.max(16) * (2 * variables as usize + 1) * 4).next_power_of_two();
        Near { variables, entries: vec![NONE; room], used: 0 }
    }

    /// Where the key's entry is, or would be.
    fn find(&self, key: u64) -> usize {
        let mask = self.entries.len() - 1;
        let mixed = key.wrapping_mul(0x9e37_79b9_7f4a_7c15);
        let mut place = (mixed ^ mixed >> 32) as usize & mask;
        while self.entries[place].key != key && self.entries[place].key != EMPTY {
            place = (place + 1) & mask;
        }
        place
    }

    /// How many are near, and where the product itself is.
    pub fn look(&self, product: Product) -> (u32, Option<u32>) {
        let entry = self.entries[self.find(product.key())];
        (entry.near, Some(entry.own).filter(|&own| own != NOWHERE))
    }

    fn entry(&mut self, key: u64) -> &mut Entry {
        let mut place = self.find(key);
        if self.entries[place].key == EMPTY {
            if self.used * 2 > self.entries.len() {
                self.clean();
                place = self.find(key);
            }
            self.used += 1;
            self.entries[place].key = key;
        }
        &mut self.entries[place]
    }

    /// Leaves out the entries that say nothing, and makes room where that isn't enough.
    fn clean(&mut self) {
        let kept: Vec<Entry> = self.entries.iter().copied().filter(|entry| entry.near > 0).collect();
        let room = self.entries.len().max((kept.len() * 4).next_power_of_two());
        self.entries = vec![NONE; room];
        self.used = kept.len();
        for entry in kept {
            let place = self.find(entry.key);
            self.entries[place] = entry;
        }
    }

    pub fn add(&mut self, product: Product, slot: u32) {
        let own = self.entry(product.key());
        own.near += 1;
        own.own = slot;
        for variable in 0..self.variables {
            for other in product.others(variable) {
                self.entry(other.key()).near += 1;
            }
        }
    }

    pub fn remove(&mut self, product: Product) {
        let own = self.entry(product.key());
        own.near -= 1;
        own.own = NOWHERE;
        for variable in 0..self.variables {
            for other in product.others(variable) {
                self.entry(other.key()).near -= 1;
            }
        }
    }
}
