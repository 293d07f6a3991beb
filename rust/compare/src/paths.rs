//! The way of an easy script through its lists, each looked at from the front.

use model::cube::Cube;
use model::script::{self, Step, differing};

/// The lists from the given one to one with no pair, each with the pair that is taken in it.
pub struct Path(Vec<(Vec<Cube>, Option<Pair>)>);

/// Two places, i and j above it.
pub type Pair = (usize, usize);

impl Path {
    /// Records of a list whose path is looked for: that of a longer one would take too long.
    pub const RECORDS: usize = 64;

    pub fn of(given: &[Cube]) -> Path {
        let mut lists = vec![(given.to_vec(), pairs(given, 1).next())];
        while let Some((list, Some(pair))) = lists.last() {
            let mut next = list.clone();
            script::step(&mut next, step(list, *pair), given.len(), 0).expect("a step that its cubes allow");
            let pair = pairs(&next, 1).next();
            lists.push((next, pair));
        }
        Path(lists)
    }

    pub fn steps(&self) -> Vec<Step> {
        self.0.iter().filter_map(|(list, pair)| pair.map(|pair| step(list, pair))).collect()
    }

    /// The list with no pair.
    pub fn end(&self) -> &[Cube] {
        &self.0.last().expect("there is the given list").0
    }

    /// Whether a rule takes another pair in one of the lists. It is given the list and the i of the step before.
    pub fn takes_another(&self, rule: impl Fn(&[Cube], usize) -> Option<Pair>) -> bool {
        let before = [0].into_iter().chain(self.0.iter().filter_map(|(_, pair)| pair.map(|(i, _)| i)));
        self.0.iter().zip(before).any(|((list, pair), before)| rule(list, before) != *pair)
    }
}

/// All pairs of cubes that differ in at most so many variables, by i and then by j.
pub fn pairs(list: &[Cube], most: usize) -> impl Iterator<Item = Pair> {
    let all = (0..list.len()).flat_map(|i| (i + 1..list.len()).map(move |j| (i, j)));
    all.filter(move |&(i, j)| differing(&list[i], &list[j]).len() <= most)
}

fn step(list: &[Cube], (i, j): Pair) -> Step {
    if list[i] == list[j] { Step::Drop { i, j } } else { Step::Join { i, j } }
}
