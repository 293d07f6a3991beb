//! "Settling".

use crate::cost::standing;
use crate::cube::{Cube, truth_vector};
use crate::polarity::{self, Best};
use crate::refusal::Refusal;
use crate::script::{self, Step};
use crate::trees;

/// The counts that the program prints, and the list to burn.
pub struct Settled {
    pub given: usize,
    pub peak: usize,
    pub script: usize,
    pub fixed: Option<Best>,
    pub burned: Vec<Cube>,
}

/// "Candidates .. ties to the earlier"; document 02, Two: "Settling compares cost, then products, then the old order of candidates"; Six:
/// "settling takes it as a fourth and last candidate".
pub fn settle(n: usize, given: &[Cube], script: &[Step], capacity: usize) -> Result<Settled, Refusal> {
    let run = script::run(given, script, capacity)?;
    let mut candidates = vec![run.list.clone(), given.to_vec()];
    let mut fixed = None;
    if n <= 8 {
        let vector = truth_vector(n, given);
        let best = polarity::best(n, &vector);
        fixed = Some(best);
        candidates.push(polarity::form(n, &polarity::coefficients(&vector, best.polarity), best.polarity));
        candidates.push(trees::list(&vector));
    }
    let least = candidates.iter().map(|candidate| standing(candidate)).min().unwrap();
    let burned = candidates.into_iter().find(|candidate| standing(candidate) == least).unwrap();
    Ok(Settled { given: given.len(), peak: run.peak, script: run.list.len(), fixed, burned })
}
