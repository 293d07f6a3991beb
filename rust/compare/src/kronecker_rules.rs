//! The Kronecker form by document 02's rule, found in the extended truth vector, and what other rules would have written.

use crate::differ::Case;
use crate::kronecker_search::{Expansion, Extended, NEGATIVE, POSITIVE, SHANNON, ones};
use crate::products::{Product, breadth_first, cubes, left_in_out, second_first, upper_first};
use model::cube::Cube;

/// What is looked at of a choice.
pub struct Choice {
    /// Variable 0 first.
    pub digits: Vec<usize>,
    number: usize,
    products: usize,
    /// Whether one of them is reached by first branches alone.
    first: bool,
    /// Whether no literal stands in those.
    bare: bool,
    at_zero: bool,
}

/// How a choice is numbered and taken, how its list is written, and what is answered.
pub struct Rule {
    pub name: &'static str,
    /// The expansions of the digits 0, 1 and 2.
    expansions: [Expansion; 3],
    /// What a variable's digit counts for, of so many variables.
    weight: fn(usize, usize) -> usize,
    cost: fn(&Choice) -> usize,
    /// What is compared of choices, by their costs: the least is taken.
    key: fn(usize, &Choice) -> (usize, usize, usize),
    /// Puts the products, which come depth first, in another order.
    order: fn(&mut [Product]),
    /// What is answered of cost, choice and products.
    answered: fn([usize; 3]) -> [usize; 3],
    /// How many records there must be room for, by the products, the cost and the number of assignments.
    room: fn(usize, usize, usize) -> usize,
    /// Whether the rest of the output is cleared.
    clears: bool,
}

pub const DOCUMENT: Rule = Rule {
    name: "document 02's",
    expansions: [SHANNON, POSITIVE, NEGATIVE],
    weight: |k, _| 3usize.pow(k as u32),
    cost: |choice| choice.products - usize::from(choice.first && choice.bare),
    key: |cost, choice| (cost, choice.number, 0),
    order: |_| {},
    answered: |words| words,
    room: |products, _, _| products,
    clears: false,
};

const LAST: usize = usize::MAX;

pub const OTHERS: [Rule; 25] = [
    Rule { name: "variable 0 the highest digit", weight: |k, n| 3usize.pow((n - 1 - k) as u32), ..DOCUMENT },
    Rule { name: "two bits for a digit", weight: |k, _| 1 << (2 * k), ..DOCUMENT },
    Rule { name: "the two Davio digits exchanged", expansions: [SHANNON, NEGATIVE, POSITIVE], ..DOCUMENT },
    Rule { name: "Shannon the last digit", expansions: [POSITIVE, NEGATIVE, SHANNON], ..DOCUMENT },
    Rule {
        name: "negative Davio that keeps the lower function",
        expansions: [SHANNON, POSITIVE, [(0, 2), (2, 0)]],
        ..DOCUMENT
    },
    Rule { name: "ties to the larger choice", key: |cost, choice| (cost, LAST - choice.number, 0), ..DOCUMENT },
    Rule {
        name: "ties to the fewest products",
        key: |cost, choice| (cost, choice.products, choice.number),
        ..DOCUMENT
    },
    // With ties to the least cost it would be the rule before.
    Rule { name: "the fewest products", key: |_, choice| (choice.products, choice.number, 0), ..DOCUMENT },
    Rule { name: "the constant free below a literal too", cost: |_| 0, ..DOCUMENT },
    Rule {
        name: "free in Shannon's first branch too",
        cost: |choice| choice.products - usize::from(choice.first),
        ..DOCUMENT
    },
    Rule {
        name: "free by the value at assignment 0",
        cost: |choice| choice.products - usize::from(choice.at_zero && choice.bare),
        ..DOCUMENT
    },
    Rule { name: "never free", cost: |choice| choice.products, ..DOCUMENT },
    Rule { name: "no Shannon", key: |cost, choice| unless(choice.digits.contains(&0), cost, choice), ..DOCUMENT },
    Rule { name: "not the first choice", key: |cost, choice| unless(choice.is_all(0), cost, choice), ..DOCUMENT },
    Rule { name: "not the last choice", key: |cost, choice| unless(choice.is_all(2), cost, choice), ..DOCUMENT },
    Rule { name: "Shannon's upper function first", order: upper_first, ..DOCUMENT },
    Rule { name: "the second branch first", order: second_first, ..DOCUMENT },
    // The products of a choice are the same in any order of the variables.
    Rule { name: "breadth first, or the last variable expanded first", order: breadth_first, ..DOCUMENT },
    Rule {
        name: "products answered for the cost",
        answered: |[_, choice, products]| [products, choice, products],
        ..DOCUMENT
    },
    Rule { name: "the cost answered for products", answered: |[cost, choice, _]| [cost, choice, cost], ..DOCUMENT },
    Rule {
        name: "the choice answered first",
        answered: |[cost, choice, products]| [choice, cost, products],
        ..DOCUMENT
    },
    Rule {
        name: "products answered before the choice",
        answered: |[cost, choice, products]| [cost, products, choice],
        ..DOCUMENT
    },
    Rule { name: "room by the cost", room: |_, cost, _| cost, ..DOCUMENT },
    Rule { name: "room for a record of every assignment", room: |_, _, assignments| assignments, ..DOCUMENT },
    Rule { name: "the rest of out cleared", clears: true, ..DOCUMENT },
];

/// A key for which a choice is taken only where there is no other.
fn unless(left_out: bool, cost: usize, choice: &Choice) -> (usize, usize, usize) {
    (if left_out { LAST } else { cost }, choice.number, 0)
}

impl Choice {
    fn is_all(&self, digit: usize) -> bool {
        self.digits.iter().all(|&other| other == digit)
    }
}

/// The form that a rule finds.
pub struct Form {
    pub choice: Choice,
    pub cost: usize,
    pub list: Vec<Cube>,
}

impl Form {
    /// Cost, choice and products.
    pub fn words(&self) -> [usize; 3] {
        [self.cost, self.choice.number, self.list.len()]
    }
}

/// The bytes of the output, and what is answered; nothing where there is no room.
pub type Outcome = Option<(Vec<u8>, [usize; 3])>;

impl Rule {
    fn choice(&self, extended: &Extended, digits: Vec<usize>) -> Choice {
        let by = self.by(&digits);
        let values = extended.values(&by);
        let weighed = digits.iter().enumerate().map(|(k, digit)| digit * (self.weight)(k, digits.len()));
        Choice {
            number: weighed.sum(),
            products: ones(&values),
            first: values[0] == 1,
            bare: by.iter().all(|[(_, code), _]| *code == 2),
            at_zero: extended.at_zero() == 1,
            digits,
        }
    }

    fn by(&self, digits: &[usize]) -> Vec<Expansion> {
        digits.iter().map(|&digit| self.expansions[digit]).collect()
    }

    fn choices(&self, extended: &Extended) -> impl Iterator<Item = Choice> {
        extended.choices().map(|digits| self.choice(extended, digits))
    }

    pub fn form(&self, extended: &Extended) -> Form {
        let choice = self.choices(extended).min_by_key(|choice| (self.key)((self.cost)(choice), choice));
        let choice = choice.expect("there is a choice");
        let mut products = extended.products(&self.by(&choice.digits));
        (self.order)(&mut products);
        Form { cost: (self.cost)(&choice), choice, list: cubes(products) }
    }

    /// How many choices cost so much.
    pub fn choices_of_cost(&self, extended: &Extended, cost: usize) -> usize {
        self.choices(extended).filter(|choice| (self.cost)(choice) == cost).count()
    }

    /// The list of a vector's form.
    pub fn list(&self, vector: &[u8]) -> Vec<Cube> {
        self.form(&Extended::of(vector)).list
    }

    /// What comes of a call that came as far as its buffer.
    pub fn outcome(&self, case: &Case, extended: &Extended) -> Outcome {
        let form = self.form(extended);
        let room = (self.room)(form.list.len(), form.cost, case.input.len());
        let out = left_in_out(case, &form.list, room, self.clears)?;
        Some((out, (self.answered)(form.words())))
    }
}
