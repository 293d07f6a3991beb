//! Pairs of products that differ in few variables, by hashing: the variables are dealt into one group more than may differ, so such a pair is equal in
//! at least one of the groups. Products that are equal in a group are in one bucket.

use crate::link;
use crate::product::Product;
use crate::random::{Random, mixed};
use std::collections::HashMap;
use std::hash::{BuildHasherDefault, Hasher};

/// The most groups.
const MOST: usize = link::MOST + 1;

/// For keys that are mixed already.
#[derive(Default)]
pub struct Mixed(u64);

impl Hasher for Mixed {
    fn finish(&self) -> u64 {
        self.0
    }
    fn write(&mut self, _: &[u8]) {
        unreachable!("keys are numbers")
    }
    fn write_u64(&mut self, key: u64) {
        self.0 = key;
    }
}

struct Group {
    variables: u32,
    buckets: HashMap<u64, Vec<u32>, BuildHasherDefault<Mixed>>,
}

impl Group {
    /// The same for products that are equal here and have the same outputs, and else hardly ever.
    fn key(&self, product: Product) -> u64 {
        let (seen, value) = (product.seen & self.variables, product.value & self.variables);
        mixed(u64::from(seen) << 32 | u64::from(value)) ^ u64::from(product.outputs)
    }
}

pub struct Pairs {
    groups: Vec<Group>,
    /// For each slot, where it stands in its bucket of each group.
    stands: Vec<[u32; MOST]>,
}

impl Pairs {
    /// Finds pairs that differ in at most so many of the variables.
    pub fn new(variables: u32, differing: usize, random: &mut Random) -> Pairs {
        let mut order: Vec<u32> = (0..variables).collect();
        random.shuffle(&mut order);
        let dealt =
            |group: usize| order.iter().skip(group).step_by(differing + 1).fold(0, |all, variable| all | 1 << variable);
        let groups = (0..=differing).map(|group| Group { variables: dealt(group), buckets: HashMap::default() });
        Pairs { groups: groups.collect(), stands: Vec::new() }
    }

    pub fn add(&mut self, product: Product, slot: u32) {
        if self.stands.len() <= slot as usize {
            self.stands.resize(slot as usize + 1, [0; MOST]);
        }
        for (group, stands) in self.groups.iter_mut().zip(&mut self.stands[slot as usize]) {
            let bucket = group.buckets.entry(group.key(product)).or_default();
            *stands = bucket.len() as u32;
            bucket.push(slot);
        }
    }

    pub fn remove(&mut self, product: Product, slot: u32) {
        for (number, group) in self.groups.iter_mut().enumerate() {
            let key = group.key(product);
            let bucket = group.buckets.get_mut(&key).expect("what is present is in a bucket");
            let stood = self.stands[slot as usize][number] as usize;
            bucket.swap_remove(stood);
            if let Some(&moved) = bucket.get(stood) {
                self.stands[moved as usize][number] = stood as u32;
            } else if bucket.is_empty() {
                group.buckets.remove(&key);
            }
        }
    }

    /// One that is equal to the product in a group, perhaps the product itself.
    pub fn mate(&self, product: Product, random: &mut Random) -> u32 {
        let group = &self.groups[random.below(self.groups.len())];
        random.pick(&group.buckets[&group.key(product)])
    }
}
