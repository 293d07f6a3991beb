//! The list that the search works on, and the steps that made it of the list it began with.
//!
//! Products are told apart by numbers that are given once: those of the first list are its places, and each product that a step makes gets the next one. So it is known
//! which steps a step needs, and those that nothing needs can be left out (`needed`).

use crate::Shape;
use crate::merging::Cubes;
use crate::near::Near;
use crate::pairs::Pairs;
use crate::product::Product;
use crate::random::Random;

#[derive(Clone, Copy, Debug, PartialEq, Eq)]
pub enum Operation {
    Drop,
    Join,
    Split,
    Turn,
    Merge,
}

/// No product.
pub const NO: u32 = u32::MAX;

/// A step on numbered products. It takes away those of `took` and puts those of `made` into the list; a split makes the product with the lower code first, and a turn makes of the
/// first product the first one.
#[derive(Clone, Copy, Debug)]
pub struct Done {
    pub operation: Operation,
    pub variable: u32,
    pub took: [u32; 2],
    pub made: [u32; 2],
    /// What it adds to the list's worth, in steps: less than 0 where the list gets cheaper.
    pub price: i64,
}

/// What a product is worth in steps: more than a script has.
pub const WORTH: i64 = 2000;
/// What a product is worth that is free: it decides where nothing else does.
const FREE: i64 = 100;

/// What was done to the list since the last mark, to undo it.
enum Event {
    Put(u32),
    Took(Product, u32),
}

pub struct Work {
    shape: Shape,
    /// Present products have a slot, which they keep; `live` are the slots in use, and `stands` says where each is there.
    slots: Vec<Product>,
    numbers: Vec<u32>,
    live: Vec<u32>,
    stands: Vec<u32>,
    free: Vec<u32>,
    near: Near,
    pairs: Pairs,
    /// Where there are several outputs, products with one cube count once: they can be merged.
    cubes: Option<Cubes>,
    /// By number.
    products: Vec<Product>,
    log: Vec<Done>,
    events: Vec<Event>,
    cost: i32,
}

/// Where to go back to.
#[derive(Clone, Copy)]
pub struct Mark {
    log: usize,
    products: usize,
    pub cost: i32,
}

impl Work {
    /// An empty list, for so many products, of which pairs are found that differ in at most so many variables.
    pub fn new(shape: Shape, products: usize, differing: usize, random: &mut Random) -> Work {
        Work {
            shape,
            slots: Vec::new(),
            numbers: Vec::new(),
            live: Vec::new(),
            stands: Vec::new(),
            free: Vec::new(),
            near: Near::new(shape.variables, products),
            pairs: Pairs::new(shape.variables, differing, random),
            cubes: (shape.outputs > 1).then(Cubes::default),
            products: Vec::new(),
            log: Vec::new(),
            events: Vec::new(),
            cost: 0,
        }
    }

    pub fn cost(&self) -> i32 {
        self.cost
    }

    pub fn len(&self) -> usize {
        self.live.len()
    }

    pub fn log(&self) -> &[Done] {
        &self.log
    }

    pub fn products(&self) -> &[Product] {
        &self.products
    }

    pub fn at(&self, slot: u32) -> Product {
        self.slots[slot as usize]
    }

    /// The present products with their numbers.
    pub fn present(&self) -> Vec<(u32, Product)> {
        self.live.iter().map(|&slot| (self.numbers[slot as usize], self.at(slot))).collect()
    }

    /// Any present product, and one that may be near it, as slots.
    pub fn pair(&self, random: &mut Random) -> (u32, u32) {
        let slot = random.pick(&self.live);
        (slot, self.pairs.mate(self.at(slot), random))
    }

    /// By how much the list gets dearer with one product more, if it is dropped, joined or merged where it can be. Of those that are near, `but` are about to go.
    pub fn dearer_with(&self, product: Product, but: u32) -> i32 {
        let (near, own) = self.near.look(product);
        if own.is_some() {
            return -1;
        }
        let shared = || self.cubes.as_ref().is_some_and(|cubes| cubes.has(product));
        i32::from(near <= but && !self.shape.is_free(product) && !shared())
    }

    fn put(&mut self, product: Product, number: u32) -> u32 {
        let slot = self.free.pop().unwrap_or(self.slots.len() as u32);
        if slot as usize == self.slots.len() {
            self.slots.push(product);
            self.numbers.push(number);
            self.stands.push(0);
        }
        self.slots[slot as usize] = product;
        self.numbers[slot as usize] = number;
        self.stands[slot as usize] = self.live.len() as u32;
        self.live.push(slot);
        self.near.add(product, slot);
        self.pairs.add(product, slot);
        let first = self.cubes.as_mut().is_none_or(|cubes| cubes.add(product));
        self.cost += i32::from(first && !self.shape.is_free(product));
        slot
    }

    fn take(&mut self, slot: u32) -> (Product, u32) {
        let product = self.slots[slot as usize];
        let stood = self.stands[slot as usize] as usize;
        self.live.swap_remove(stood);
        if let Some(&moved) = self.live.get(stood) {
            self.stands[moved as usize] = stood as u32;
        }
        self.free.push(slot);
        self.near.remove(product);
        self.pairs.remove(product, slot);
        let last = self.cubes.as_mut().is_none_or(|cubes| cubes.remove(product));
        self.cost -= i32::from(last && !self.shape.is_free(product));
        (product, self.numbers[slot as usize])
    }

    /// Takes a product away, for steps to come.
    pub fn take_noted(&mut self, slot: u32) -> (Product, u32) {
        let (product, number) = self.take(slot);
        self.events.push(Event::Took(product, number));
        (product, number)
    }

    pub fn mark(&mut self) -> Mark {
        self.events.clear();
        Mark { log: self.log.len(), products: self.products.len(), cost: self.cost }
    }

    /// Undoes all since the last mark.
    pub fn back(&mut self, mark: Mark) {
        while let Some(event) = self.events.pop() {
            match event {
                Event::Put(slot) => {
                    self.take(slot);
                }
                Event::Took(product, number) => {
                    self.put(product, number);
                }
            }
        }
        self.log.truncate(mark.log);
        self.products.truncate(mark.products);
    }

    fn worth(&self, product: Product) -> i64 {
        if self.shape.is_free(product) { FREE } else { WORTH }
    }

    /// Notes a step, and numbers what it makes.
    pub fn note(&mut self, operation: Operation, variable: u32, took: [u32; 2], made: &[Product]) -> [u32; 2] {
        let mut numbers = [NO; 2];
        let mut price = 0;
        for number in took.into_iter().filter(|&number| number != NO) {
            price -= self.worth(self.products[number as usize]);
        }
        for (number, &product) in numbers.iter_mut().zip(made) {
            *number = self.products.len() as u32;
            self.products.push(product);
            price += self.worth(product);
        }
        self.log.push(Done { operation, variable, took, made: numbers, price });
        numbers
    }

    /// Puts a product into the list, dropped or joined with others as long as that is possible.
    pub fn reduce(&mut self, mut product: Product, mut number: u32, random: &mut Random) {
        loop {
            let (near, own) = self.near.look(product);
            if let Some(slot) = own.filter(|&slot| self.at(slot) == product) {
                let (_, other) = self.take_noted(slot);
                self.note(Operation::Drop, 0, [number, other], &[]);
                return;
            }
            let Some(slot) = self.partner(product, near, random) else {
                let slot = self.put(product, number);
                self.events.push(Event::Put(slot));
                return;
            };
            let (partner, other) = self.take_noted(slot);
            let at = product.differing(partner);
            let joined = product.with(at, product.third(partner));
            [number, _] = self.note(Operation::Join, at.trailing_zeros(), [number, other], &[joined]);
            product = joined;
        }
    }

    /// One of those that the product can be joined with, if so many are near.
    fn partner(&self, product: Product, near: u32, random: &mut Random) -> Option<u32> {
        if near == 0 {
            return None;
        }
        let mut found = None;
        let mut count = 0;
        for variable in 0..self.shape.variables {
            for other in product.others(variable) {
                let Some(slot) = self.near.look(other).1.filter(|&slot| self.at(slot) == other) else { continue };
                count += 1;
                if random.one_in(count) {
                    found = Some(slot);
                }
            }
        }
        found
    }

    /// Begins again with this list, whose products are put in by this order of their places where they aren't present.
    pub fn begin(&mut self, list: &[Product], order: &[u32], random: &mut Random) {
        let mut kept = vec![false; self.slots.len()];
        let mut missing = vec![true; list.len()];
        for (place, &product) in list.iter().enumerate() {
            let own = self.near.look(product).1.filter(|&slot| self.at(slot) == product && !kept[slot as usize]);
            if let Some(slot) = own {
                kept[slot as usize] = true;
                missing[place] = false;
                self.numbers[slot as usize] = place as u32;
            }
        }
        for slot in self.live.clone() {
            if !kept[slot as usize] {
                self.take(slot);
            }
        }
        self.log.clear();
        self.products = list.to_vec();
        for &place in order.iter().filter(|&&place| missing[place as usize]) {
            self.reduce(list[place as usize], place, random);
        }
        self.events.clear();
    }
}
