//! Document 02, Three: "Write the easy script for us."

use crate::cube::Cube;
use crate::script::{self, STEPS, Step};

/// The steps that are written, the list that they end in, and whether it has no pair.
pub struct Written {
    pub steps: Vec<Step>,
    pub list: Vec<Cube>,
    pub finished: bool,
}

/// "The lowest i, then the lowest j above it, whose cubes are equal or differ in one variable."
pub fn first_pair(list: &[Cube]) -> Option<(usize, usize)> {
    (0..list.len()).find_map(|i| partner(list, i).map(|j| (i, j)))
}

/// "Write a drop or a join; go on from the new list", until it has no pair or the script is as long as it can be.
pub fn written(given: &[Cube]) -> Written {
    let mut list = given.to_vec();
    let mut partners = Partners::of(given);
    let mut steps = Vec::new();
    while steps.len() < STEPS
        && let Some((i, j)) = partners.first_pair()
    {
        let step = if list[i] == list[j] { Step::Drop { i, j } } else { Step::Join { i, j } };
        script::step(&mut list, step, given.len(), steps.len()).expect("a step that its cubes allow");
        partners.go_on(&list);
        steps.push(step);
    }
    Written { finished: partners.first_pair().is_none(), steps, list }
}

/// The lowest place above i whose cube is near the one there.
fn partner(list: &[Cube], i: usize) -> Option<usize> {
    (i + 1..list.len()).find(|&j| are_near(&list[i], &list[j]))
}

/// "Equal or differ in one variable."
fn are_near(a: &Cube, b: &Cube) -> bool {
    let mut differing = (0..a.len()).filter(|&k| a[k] != b[k]);
    differing.nth(1).is_none()
}

/// A list and the partner of each place. The first pair is that of [`first_pair`]; only, from one list to the next, two cubes
/// that stay where they are aren't compared again. A search from the front for each step would take minutes on a long list.
struct Partners {
    list: Vec<Cube>,
    partners: Vec<Option<usize>>,
}

impl Partners {
    fn of(list: &[Cube]) -> Partners {
        let partners = (0..list.len()).map(|i| partner(list, i)).collect();
        Partners { list: list.to_vec(), partners }
    }

    fn first_pair(&self) -> Option<(usize, usize)> {
        (0..self.list.len()).find_map(|i| self.partners[i].map(|j| (i, j)))
    }

    /// Goes on to the next list, which is no longer.
    fn go_on(&mut self, next: &[Cube]) {
        let is_changed = |&place: &usize| next.get(place) != Some(&self.list[place]);
        let changed: Vec<usize> = (0..self.list.len()).filter(is_changed).collect();
        self.list.truncate(next.len());
        self.list.clone_from_slice(next);
        self.partners.truncate(next.len());
        for (i, known) in self.partners.iter_mut().enumerate() {
            let stays = !changed.contains(&i) && known.is_none_or(|j| !changed.contains(&j));
            *known = if stays {
                let new = changed.iter().copied().filter(|&j| i < j && j < next.len() && are_near(&next[i], &next[j]));
                new.chain(*known).min()
            } else {
                partner(next, i)
            };
        }
    }
}
