//! A tree's list beside the vector that it was written for, and beside the form of the best polarity.

use crate::differ::{After, Case};
use crate::replays::expect;
use crate::tree_rules::DOCUMENT;
use model::cost::cost;
use model::cube::{Cube, RECORD, decoded, encoded_list, truth_vector};
use model::polarity;

/// Looks at what an accepted call of write tree has left: the list's value at every assignment is the vector's, its cost is the
/// one that is answered and not above that of any polarity's form, and a search by the costs of nodes alone writes it too.
pub fn beside_vector(case: &Case, after: &After) -> Result<(), String> {
    let [0, _, products, answered, ..] = after.answer else { return Ok(()) };
    let list = written(case, after, products, answered)?;
    let no_dearer = cost(&list) <= cost(&best_form(case.n as usize, &case.input));
    expect(no_dearer, "the tree costs more than the form of the best polarity", case, after)?;
    expect(DOCUMENT.list(&case.input) == list, "not the tree that a search finds", case, after)
}

/// The list of so many products that was written for a vector: its value at every assignment is the vector's, its cost is the one
/// that is answered, and its records are those of its cubes.
pub fn written(case: &Case, after: &After, products: u64, answered: u64) -> Result<Vec<Cube>, String> {
    let n = case.n as usize;
    let records = &after.out[..RECORD * products as usize];
    let list: Vec<Cube> = records.chunks(RECORD).filter_map(|record| decoded(n, record)).collect();
    let same = encoded_list(&list) == records && truth_vector(n, &list) == case.input;
    expect(same, "the list has not the vector's values", case, after)?;
    expect(cost(&list) == answered as usize, "the list does not cost what is answered", case, after)?;
    Ok(list)
}

/// The form of a vector's best polarity.
pub fn best_form(n: usize, vector: &[u8]) -> Vec<Cube> {
    let best = polarity::best(n, vector).polarity;
    polarity::form(n, &polarity::coefficients(vector, best), best)
}
