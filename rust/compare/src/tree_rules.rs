//! A tree's list by document 02's rule, found by the costs of nodes, and what other rules would have written.

use crate::differ::Case;
use crate::products::{Product, breadth_first, cubes, left_in_out, second_first, upper_first};
use model::cost::cost;
use model::cube::Cube;
use std::collections::HashMap;

/// How a tree is found, how its list is written, and what is answered.
pub struct Rule {
    pub name: &'static str,
    /// Whether a branch has a literal that leads to what is below it, by its number, 0 or 1, and its code.
    leads: fn(usize, u8) -> bool,
    /// What the constant 1 costs, by whether a literal leads to it.
    constant: fn(bool) -> usize,
    /// What a node costs, by what its branches do.
    node: fn(usize, usize) -> usize,
    /// Which of the three expansions is taken, by their costs and products.
    taken: fn([(usize, usize); 3]) -> usize,
    /// Whether negative Davio has the lower function without a literal.
    negative_of_lower: bool,
    /// Whether the last variable is expanded first.
    from_the_last: bool,
    /// Puts the products, which come depth first, in another order.
    order: fn(&mut [Product]),
    /// What is answered as the list's cost.
    answered: fn(&[Cube]) -> usize,
    /// How many records there must be room for, by the list and the number of assignments.
    room: fn(&[Cube], usize) -> usize,
    /// Whether the rest of the output is cleared.
    clears: bool,
}

pub const DOCUMENT: Rule = Rule {
    name: "document 02's",
    leads: |_, code| code != 2,
    constant: |literal_leads| usize::from(literal_leads),
    node: |first, second| first + second,
    taken: |expansions| first_least(expansions.map(|(cost, _)| cost)),
    negative_of_lower: false,
    from_the_last: false,
    order: |_| {},
    answered: cost,
    room: |list, _| list.len(),
    clears: false,
};

pub const OTHERS: [Rule; 16] = [
    Rule { name: "ties to the last", taken: |[a, b, c]| 2 - first_least([c, b, a].map(|(cost, _)| cost)), ..DOCUMENT },
    Rule { name: "ties to the fewest products", taken: first_least, ..DOCUMENT },
    Rule { name: "the constant free below a literal too", leads: |_, _| false, ..DOCUMENT },
    Rule { name: "free in Shannon's first branch too", leads: |branch, _| branch == 1, ..DOCUMENT },
    Rule { name: "never free", constant: |_| 1, ..DOCUMENT },
    Rule { name: "the first branch's cost alone", node: |first, _| first, ..DOCUMENT },
    Rule { name: "the second branch's cost alone", node: |_, second| second, ..DOCUMENT },
    Rule { name: "negative Davio that keeps the lower function", negative_of_lower: true, ..DOCUMENT },
    Rule { name: "the last variable expanded first", from_the_last: true, ..DOCUMENT },
    Rule { name: "Shannon's upper function first", order: upper_first, ..DOCUMENT },
    Rule { name: "the second branch first", order: second_first, ..DOCUMENT },
    Rule { name: "breadth first", order: breadth_first, ..DOCUMENT },
    Rule { name: "products answered for the cost", answered: |list| list.len(), ..DOCUMENT },
    Rule { name: "room by the cost", room: |list, _| cost(list), ..DOCUMENT },
    Rule { name: "room for a record of every assignment", room: |_, assignments| assignments, ..DOCUMENT },
    Rule { name: "the rest of out cleared", clears: true, ..DOCUMENT },
];

/// The place of the least, and of several such the first.
fn first_least<T: Ord + Copy>(three: [T; 3]) -> usize {
    (0..3).min_by_key(|&k| three[k]).expect("there are three")
}

/// The bytes of the output, the number of products and their cost; nothing where there is no room.
pub type Outcome = Option<(Vec<u8>, usize, usize)>;

impl Rule {
    /// The list of a vector's tree.
    pub fn list(&self, vector: &[u8]) -> Vec<Cube> {
        let function = if self.from_the_last { turned_round(vector) } else { vector.to_vec() };
        let mut products = Vec::new();
        Search { rule: self, known: Default::default() }.write(&function, false, Product::default(), &mut products);
        (self.order)(&mut products);
        if self.from_the_last {
            products.iter_mut().for_each(|product| product.cube.reverse());
        }
        cubes(products)
    }

    /// What comes of a call that came as far as its buffer.
    pub fn outcome(&self, case: &Case) -> Outcome {
        let list = self.list(&case.input);
        let out = left_in_out(case, &list, (self.room)(&list, case.input.len()), self.clears)?;
        Some((out, list.len(), (self.answered)(&list)))
    }
}

/// The vector of the same function with its variables named the other way round.
fn turned_round(vector: &[u8]) -> Vec<u8> {
    let variables = vector.len().ilog2();
    let other = |a: usize| (0..variables).fold(0, |b, k| b << 1 | a >> k & 1);
    (0..vector.len()).map(|a| vector[other(a)]).collect()
}

/// What is found of a function.
#[derive(Clone, Copy)]
struct Found {
    cost: usize,
    products: usize,
    expansion: usize,
}

/// A search for a tree. What it has found of a function it knows, by whether a literal leads to it.
struct Search<'a> {
    rule: &'a Rule,
    known: [HashMap<Vec<u8>, Found>; 2],
}

impl Search<'_> {
    fn find(&mut self, function: &[u8], literal_leads: bool) -> Found {
        if let &[bit] = function {
            let products = usize::from(bit);
            return Found { cost: products * (self.rule.constant)(literal_leads), products, expansion: 0 };
        }
        if let Some(&found) = self.known[usize::from(literal_leads)].get(function) {
            return found;
        }
        let expansions = [0, 1, 2].map(|expansion| {
            let [a, b] = self.branches(expansion, function, literal_leads);
            let (a, b) = (self.find(&a.function, a.literal_leads), self.find(&b.function, b.literal_leads));
            ((self.rule.node)(a.cost, b.cost), a.products + b.products)
        });
        let expansion = (self.rule.taken)(expansions);
        let (cost, products) = expansions[expansion];
        let found = Found { cost, products, expansion };
        self.known[usize::from(literal_leads)].insert(function.to_vec(), found);
        found
    }

    /// Adds the products of the tree that a path leads to, the first branch's before the second's.
    fn write(&mut self, function: &[u8], literal_leads: bool, path: Product, products: &mut Vec<Product>) {
        if let &[bit] = function {
            return products.extend((bit == 1).then_some(path));
        }
        let expansion = self.find(function, literal_leads).expansion;
        for (number, branch) in self.branches(expansion, function, literal_leads).into_iter().enumerate() {
            self.write(&branch.function, branch.literal_leads, path.by(number, branch.code), products);
        }
    }

    fn branches(&self, expansion: usize, function: &[u8], literal_leads: bool) -> [Branch; 2] {
        let half = |odd: usize| function.iter().skip(odd).step_by(2).copied().collect::<Vec<u8>>();
        let sum = || function.chunks(2).map(|pair| pair[0] ^ pair[1]).collect::<Vec<u8>>();
        let branch = |number, code, function| {
            let literal_leads = literal_leads || (self.rule.leads)(number, code);
            Branch { code, function, literal_leads }
        };
        match expansion {
            0 => [branch(0, 0, half(0)), branch(1, 1, half(1))],
            1 => [branch(0, 2, half(0)), branch(1, 1, sum())],
            _ => [branch(0, 2, half(usize::from(!self.rule.negative_of_lower))), branch(1, 0, sum())],
        }
    }
}

struct Branch {
    code: u8,
    function: Vec<u8>,
    literal_leads: bool,
}
