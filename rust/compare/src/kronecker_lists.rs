//! A Kronecker form's list beside the vector that it was written for, beside the forms of all polarities and beside the tree's list.

use crate::callers::by_words;
use crate::differ::{After, Call, Case};
use crate::kronecker_rules::DOCUMENT;
use crate::kronecker_search::Extended;
use crate::replays::expect;
use crate::tree_lists::written;
use model::cost::cost;
use model::cube::RECORD;
use model::polarity::{coefficients, form};

/// Looks at what an accepted call of write kronecker has left: the list's value at every assignment is the vector's, its cost is
/// the one that is answered, "not above the best polarity's", nor any other's, "and not below Six's", as the library writes it; and
/// a search in the extended truth vector finds the same cost, choice, products and list.
pub fn beside_choices(case: &Case, after: &After) -> Result<(), String> {
    let [0, _, answered, choice, products, ..] = after.answer else { return Ok(()) };
    let (n, vector) = (case.n as usize, &case.input);
    let list = written(case, after, products, answered)?;

    let mut forms = (0..vector.len()).map(|p| form(n, &coefficients(vector, p), p));
    expect(forms.all(|form| cost(&list) <= cost(&form)), "it costs more than the form of a polarity", case, after)?;
    let tree = Case { call: Call::WriteTree, out: vec![0xc3; RECORD * vector.len()], ..case.clone() };
    let [number, _, _, tree_cost, ..] = by_words(&tree)?.answer;
    expect(number == 0 && tree_cost <= answered, "it costs less than the tree's list", case, after)?;

    let form = DOCUMENT.form(&Extended::of(vector));
    let same = form.words().map(|word| word as u64) == [answered, choice, products] && form.list == list;
    expect(same, "not the choice that a search finds", case, after)
}
