//! The straightforward way with trees: a function's halves as vectors of bytes, and a list for each of them.

use super::cube::{Cube, RECORD};
use super::trees::{ONE, Tree};

/// A function's list, and what it costs.
#[derive(Clone)]
pub struct ByLists {
    pub cost: usize,
    pub list: Vec<Cube>,
}

impl ByLists {
    pub fn of(vector: &[u8]) -> ByLists {
        cheapest(0, true, vector)
    }
}

impl Tree for ByLists {
    fn products(&self) -> usize {
        self.list.len()
    }

    fn cost(&self) -> usize {
        self.cost
    }

    fn put(&self, out: &mut [[u8; RECORD]]) {
        for (cube, record) in self.list.iter().zip(out) {
            cube.store(record);
        }
    }
}

/// The code of the variable in a branch, and the branch.
type Branch<'a> = (u32, &'a ByLists);

/// Of a function of the variables from v on.
fn cheapest(v: u32, free: bool, function: &[u8]) -> ByLists {
    if let &[bit] = function {
        return ByLists { cost: if free { 0 } else { bit.into() }, list: vec![ONE; bit.into()] };
    }
    let parts = parts(function);
    let [lower, upper, change] = parts.each_ref().map(|part| cheapest(v + 1, false, part));
    let bare = |part: &[u8], paid: &ByLists| if free { cheapest(v + 1, true, part) } else { paid.clone() };
    let (bare_lower, bare_upper) = (bare(&parts[0], &lower), bare(&parts[1], &upper));
    let expansions: [[Branch; 2]; 3] =
        [[(0, &lower), (1, &upper)], [(2, &bare_lower), (1, &change)], [(2, &bare_upper), (0, &change)]];
    let cost = |branches: &[Branch; 2]| branches[0].1.cost + branches[1].1.cost;
    let best = expansions.iter().min_by_key(|branches| cost(branches)).expect("there are three");
    let list = best.iter().flat_map(|(code, branch)| branch.list.iter().map(|cube| cube.put(v, *code))).collect();
    ByLists { cost: cost(best), list }
}

/// The function where the next variable is 0, where it is 1, and the EXOR of both.
fn parts(function: &[u8]) -> [Vec<u8>; 3] {
    let half = |odd: usize| function.iter().skip(odd).step_by(2).copied().collect();
    [half(0), half(1), function.chunks(2).map(|pair| pair[0] ^ pair[1]).collect()]
}
