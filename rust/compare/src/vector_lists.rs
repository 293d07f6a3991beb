//! The lists that were written for truth vectors, the buffers that were lent for them, and the vectors that were refused.

use crate::counts::Counts;
use crate::differ::Case;
use crate::vector_calls::list;
use model::cube::RECORD;

const NUMBERS: [&str; 4] = ["none", "one", "two", "three or more"];

const CONSTANTS: [&str; 2] = ["without the constant", "with it"];

const ROOMS: [&str; 5] = ["longer", "just long enough", "a byte too short", "a record too short", "shorter"];

const BAD: [&str; 3] = ["its length", "a byte", "both"];

/// Lists by their products and by the constant, buffers by their length, bad vectors by what is wrong with them.
#[derive(Default)]
pub struct VectorLists {
    numbers: [u64; NUMBERS.len()],
    constants: [u64; CONSTANTS.len()],
    rooms: [u64; ROOMS.len()],
    bad: [u64; BAD.len()],
}

impl VectorLists {
    pub fn add_list(&mut self, products: u64, cost: u64) {
        self.numbers[products.min(3) as usize] += 1;
        self.constants[usize::from(cost < products)] += 1;
    }

    /// Adds the buffer of a call whose vector is good.
    pub fn add_room(&mut self, case: &Case) {
        let needed = RECORD * list(case.call, &case.input).len();
        self.rooms[match needed.checked_sub(case.out.len()) {
            None => 0,
            Some(0) => 1,
            Some(1) => 2,
            Some(RECORD) => 3,
            Some(_) => 4,
        }] += 1;
    }

    pub fn add_bad(&mut self, case: &Case) {
        let bad = (case.input.len() != 1 << case.n, case.input.iter().any(|&byte| byte > 1));
        self.bad[match bad {
            (true, false) => 0,
            (false, _) => 1,
            _ => 2,
        }] += 1;
    }

    /// Under these names.
    pub fn counts(&self, [products, constant, buffers, bad]: [&'static str; 4]) -> [Counts; 4] {
        [
            (products, NUMBERS.into_iter().zip(self.numbers).collect()),
            (constant, CONSTANTS.into_iter().zip(self.constants).collect()),
            (buffers, ROOMS.into_iter().zip(self.rooms).collect()),
            (bad, BAD.into_iter().zip(self.bad).collect()),
        ]
    }
}
