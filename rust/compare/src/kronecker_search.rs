//! Kronecker forms by the extended truth vector, which has a value for each product of each choice: a way that is neither the
//! library's nor the model's.

use crate::products::Product;

/// A branch of an expansion: its function, 0 where the variable is 0, 1 where it is 1, 2 the EXOR of both, and the code of the
/// variable in its products.
type Branch = (usize, u8);

/// The first branch and the second.
pub type Expansion = [Branch; 2];

pub const SHANNON: Expansion = [(0, 0), (1, 1)];
pub const POSITIVE: Expansion = [(0, 2), (2, 1)];
pub const NEGATIVE: Expansion = [(1, 2), (2, 0)];

/// A value for each number of a digit a variable to the base 3, variable 0 the lowest: the EXOR of the vector's values at all
/// assignments that have the digit where it is 0 or 1.
pub struct Extended {
    variables: usize,
    values: Vec<u8>,
}

impl Extended {
    pub fn of(vector: &[u8]) -> Extended {
        let variables = vector.len().ilog2() as usize;
        let value = |number| {
            let digits = digits(variables, number);
            let has = |&a: &usize| (0..variables).all(|k| digits[k] == 2 || digits[k] == a >> k & 1);
            (0..vector.len()).filter(has).fold(0, |sum, a| sum ^ vector[a])
        };
        Extended { variables, values: (0..3usize.pow(variables as u32)).map(value).collect() }
    }

    /// The value at assignment 0.
    pub fn at_zero(&self) -> u8 {
        self.values[0]
    }

    /// The digits of all choices, variable 0 first, from choice 0 on.
    pub fn choices(&self) -> impl Iterator<Item = Vec<usize>> {
        (0..self.values.len()).map(|number| digits(self.variables, number))
    }

    /// The values of the products that the variables' expansions can write, in their order: at each node the first branch before the second.
    pub fn values(&self, expansions: &[Expansion]) -> Vec<u8> {
        let mut places = vec![0];
        for (k, branches) in expansions.iter().enumerate() {
            let weight = 3usize.pow(k as u32);
            places = places.iter().flat_map(|place| branches.map(|(function, _)| place + weight * function)).collect();
        }
        places.iter().map(|&place| self.values[place]).collect()
    }

    /// The products whose value is 1, in that order.
    pub fn products(&self, expansions: &[Expansion]) -> Vec<Product> {
        let mut products = vec![Product::default()];
        for branches in expansions {
            let both = |path: &Product| [0, 1].map(|number| path.by(number, branches[number].1));
            products = products.iter().flat_map(both).collect();
        }
        let values = self.values(expansions);
        products.into_iter().zip(values).filter(|(_, value)| *value == 1).map(|(product, _)| product).collect()
    }

    /// The least number of products of a choice, whatever it costs.
    pub fn fewest_products(&self) -> usize {
        let expansions = [SHANNON, POSITIVE, NEGATIVE];
        let products = |digits: Vec<usize>| {
            let by: Vec<Expansion> = digits.iter().map(|&digit| expansions[digit]).collect();
            ones(&self.values(&by))
        };
        self.choices().map(products).min().expect("there is a choice")
    }
}

pub fn ones(bits: &[u8]) -> usize {
    bits.iter().filter(|&&bit| bit == 1).count()
}

fn digits(variables: usize, number: usize) -> Vec<usize> {
    (0..variables as u32).map(|k| number / 3usize.pow(k) % 3).collect()
}
