//! Document 02, Eight: "An index by number of literals."

use crate::cube::Cube;

/// "Asked for a number from 0 to 32."
pub const MOST_LITERALS: u64 = 32;

/// "The start of each group 0 to 32, counted in entries."
pub type Starts = [u64; MOST_LITERALS as usize + 1];

pub struct Index {
    pub places: Vec<usize>,
    pub starts: Starts,
}

/// The codes that stand for a literal.
pub fn literals(cube: &Cube) -> usize {
    cube.iter().filter(|&&code| code != 2).count()
}

/// "The list's places .. ordered by number of literals and then by place"; a group starts behind all cubes that have fewer literals.
pub fn index(list: &[Cube]) -> Index {
    let numbers: Vec<usize> = list.iter().map(literals).collect();
    let mut places: Vec<usize> = (0..list.len()).collect();
    places.sort_by_key(|&place| (numbers[place], place));
    let fewer = |most| numbers.iter().filter(|&&number| number < most).count() as u64;
    Index { places, starts: std::array::from_fn(fewer) }
}

impl Index {
    /// Where the group of a number begins, and how many entries it has: up to the next group's start, or to the end.
    pub fn group(&self, number: u64) -> (u64, u64) {
        let start = self.starts[number as usize];
        let next = self.starts.get(number as usize + 1).copied().unwrap_or(self.places.len() as u64);
        (start, next - start)
    }
}

/// The first of the right ones that is not there.
pub fn first_wrong<T: PartialEq>(lent: &[T], right: &[T]) -> Option<usize> {
    (0..right.len()).find(|&k| lent.get(k) != Some(&right[k]))
}
