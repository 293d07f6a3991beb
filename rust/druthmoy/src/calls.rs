//! The calls: each answers what it found, or the refusal that it met.

use crate::records::{PLACE, Starts};
use crate::refusal::{Fault, Refusal};
use crate::words::{self, Words};

/// A list's value at an assignment, and the number of products that are true there, whose parity it is.
#[derive(Clone, Copy, Debug, PartialEq, Eq)]
pub struct Value {
    pub bit: bool,
    pub trues: u64,
}

/// A best polarity and the number of products of its form.
#[derive(Clone, Copy, Debug, PartialEq, Eq)]
pub struct Fixed {
    pub polarity: u64,
    pub size: u64,
}

/// The products of an expansion tree's list, and what it costs: as many, less one if one of them has no literal.
#[derive(Clone, Copy, Debug, PartialEq, Eq)]
pub struct Tree {
    pub products: u64,
    pub cost: u64,
}

/// The Kronecker form of a truth vector that costs least: what it costs, as a tree's list does, the choice that it is of, and its products.
#[derive(Clone, Copy, Debug, PartialEq, Eq)]
pub struct Kronecker {
    pub cost: u64,
    /// A digit to the base 3 for each variable, variable 0 the lowest: 0 Shannon, 1 positive Davio, 2 negative Davio.
    pub choice: u64,
    pub products: u64,
}

/// The counts of a run: of its result, and the greatest that it met.
#[derive(Clone, Copy, Debug, PartialEq, Eq)]
pub struct Run {
    pub count: u64,
    pub peak: u64,
}

/// The counts of a settled map.
#[derive(Clone, Copy, Debug, PartialEq, Eq)]
pub struct Settled {
    pub given: u64,
    pub peak: u64,
    pub script: u64,
    /// Nothing above 8 variables.
    pub fixed: Option<Fixed>,
    pub burned: u64,
}

/// The counts of a settled shared list.
#[derive(Clone, Copy, Debug, PartialEq, Eq)]
pub struct SharedSettled {
    pub given: u64,
    pub peak: u64,
    pub script: u64,
    pub burned: u64,
}

/// An easy script: the number of its steps, and whether it has finished, so that no two cubes of the list that it ends in
/// are equal or differ in one variable.
#[derive(Clone, Copy, Debug, PartialEq, Eq)]
pub struct Written {
    pub steps: u64,
    pub finished: bool,
}

/// An index of a list: the number of its entries, and where each group starts among them.
#[derive(Clone, Copy, Debug, PartialEq, Eq)]
pub struct Index {
    pub count: u64,
    pub starts: Starts,
}

/// The counts of a run with an index, and where each group of the index starts at its end.
#[derive(Clone, Copy, Debug, PartialEq, Eq)]
pub struct Indexed {
    pub run: Run,
    pub starts: Starts,
}

/// Tests a list; answers the number of its records.
pub fn check(n: u64, list: &[u8]) -> Result<u64, Refusal> {
    accepted(words::check(n, list)).map(|[count, ..]| count)
}

/// The list's value at an assignment.
pub fn value(n: u64, list: &[u8], a: u64) -> Result<Value, Refusal> {
    accepted(words::value(n, list, a)).map(|[bit, trues, ..]| Value { bit: bit == 1, trues })
}

/// Writes the places of the products that are true at an assignment, ascending, 2 bytes each, to the front of `out`, which
/// has room for the places of all products; answers the list's value.
pub fn reasons(n: u64, list: &[u8], a: u64, out: &mut [u8]) -> Result<Value, Refusal> {
    accepted(words::reasons(n, list, a, out)).map(|[trues, bit, ..]| Value { bit: bit == 1, trues })
}

/// Writes the list's values at all assignments to the front of `out`; answers how many.
pub fn truth_vector(n: u64, list: &[u8], out: &mut [u8]) -> Result<u64, Refusal> {
    accepted(words::truth_vector(n, list, out)).map(|[length, ..]| length)
}

/// Writes a truth vector's coefficients under polarity `p` to the front of `out`; answers how many.
pub fn coefficients(n: u64, vector: &[u8], p: u64, out: &mut [u8]) -> Result<u64, Refusal> {
    accepted(words::coefficients(n, vector, p, out)).map(|[length, ..]| length)
}

/// Writes the truth vector of coefficients under polarity `p` to the front of `out`; answers its length.
pub fn vector(n: u64, coefficients: &[u8], p: u64, out: &mut [u8]) -> Result<u64, Refusal> {
    accepted(words::vector(n, coefficients, p, out)).map(|[length, ..]| length)
}

/// Writes the list of a form to the front of `out`; answers the number of its records.
pub fn write_form(n: u64, coefficients: &[u8], p: u64, out: &mut [u8]) -> Result<u64, Refusal> {
    accepted(words::write_form(n, coefficients, p, out)).map(|[count, ..]| count)
}

/// The polarity of a truth vector whose form costs least: its number of products, less one if one of them has no literal. Of several such the
/// one with the fewest products, and of those the smallest.
pub fn best_polarity(n: u64, vector: &[u8]) -> Result<Fixed, Refusal> {
    accepted(words::best_polarity(n, vector)).map(|[polarity, size, ..]| Fixed { polarity, size })
}

/// Writes the list of a truth vector's cheapest expansion tree to the front of `out`. A tree expands the function by variable 0, then 1 and so on, at
/// each node by Shannon, positive Davio or negative Davio; of several that cost least the first of these is taken, at each node.
pub fn write_tree(n: u64, vector: &[u8], out: &mut [u8]) -> Result<Tree, Refusal> {
    accepted(words::write_tree(n, vector, out)).map(|[products, cost, ..]| Tree { products, cost })
}

/// Writes the list of a truth vector's cheapest Kronecker form to the front of `out`, for at most 6 variables. Such a form has one expansion for each
/// variable, at every node of the tree; of several choices that cost least the smallest is taken.
pub fn write_kronecker(n: u64, vector: &[u8], out: &mut [u8]) -> Result<Kronecker, Refusal> {
    let [cost, choice, products, ..] = accepted(words::write_kronecker(n, vector, out))?;
    Ok(Kronecker { cost, choice, products })
}

/// Runs a script on a list; the result stands at the front of `work`, with zeros after it.
pub fn run(n: u64, list: &[u8], script: &[u8], work: &mut [u8]) -> Result<Run, Refusal> {
    accepted(words::run(n, list, script, work)).map(|[count, peak, ..]| Run { count, peak })
}

/// Settles a map: of the script's result, the given list and, for at most 8 variables, the form of the best polarity and the list of the cheapest
/// expansion tree, the one that costs least, then has the fewest products, then comes first. It stands at the front of `out`, with zeros after it, and
/// `work` ends all zero.
pub fn settle(n: u64, list: &[u8], script: &[u8], work: &mut [u8], out: &mut [u8]) -> Result<Settled, Refusal> {
    let [given, peak, script, polarity, size, burned] = accepted(words::settle(n, list, script, work, out))?;
    let fixed = (n <= 8).then_some(Fixed { polarity, size });
    Ok(Settled { given, peak, script, fixed, burned })
}

/// Writes the easy script of a list to the front of `script`, which has room for a step a record, or for 1,024. Each step
/// is the drop or the join of the lowest i, and the lowest j above it, whose cubes are equal or differ in one variable. The
/// list that the steps end in stands at the front of `work`, with zeros after it.
pub fn write_script(n: u64, list: &[u8], work: &mut [u8], script: &mut [u8]) -> Result<Written, Refusal> {
    let [steps, finished, ..] = accepted(words::write_script(n, list, work, script))?;
    Ok(Written { steps, finished: finished == 1 })
}

/// Writes a script without its pairs to the front of `out`, which is as long as the script; answers the number of steps left.
/// A pair is two equal L steps or two equal turns in a row, or a split followed at once by the join of its place with the
/// place just appended, by the count along the script from the given one. The first pair is removed, again and again.
pub fn compact(n: u64, count: u64, script: &[u8], out: &mut [u8]) -> Result<u64, Refusal> {
    accepted(words::compact(n, count, script, out)).map(|[steps, ..]| steps)
}

/// Writes the index of a list to the front of `index`, which has room for the places of all cubes: these places, 2 bytes each, ordered by number of literals
/// and then by place.
pub fn index(n: u64, list: &[u8], index: &mut [u8]) -> Result<Index, Refusal> {
    let mut starts = [0; 33];
    let [count, ..] = accepted(words::index(n, list, index, &mut starts))?;
    Ok(Index { count, starts })
}

/// The run of a list's index that holds the places of the cubes with so many literals, ascending. The index is tested: it must be this list's, in its entries
/// and its starts.
pub fn group<'a>(n: u64, list: &[u8], index: &'a [u8], starts: &Starts, number: u64) -> Result<&'a [u8], Refusal> {
    let [entries, start, ..] = accepted(words::group(n, list, index, starts, number))?;
    Ok(&index[PLACE * start as usize..][..PLACE * entries as usize])
}

/// Runs a script as [`run`] does and keeps an index of the list in `work`, in `index`, which has room for the places of as many cubes as `work` has for cubes.
/// At the end it is the result's, with zeros after it.
pub fn run_indexed(n: u64, list: &[u8], script: &[u8], work: &mut [u8], index: &mut [u8]) -> Result<Indexed, Refusal> {
    let mut starts = [0; 33];
    let [count, peak, ..] = accepted(words::run_indexed(n, list, script, work, index, &mut starts))?;
    Ok(Indexed { run: Run { count, peak }, starts })
}

/// Tests a shared list; answers the number of its records.
pub fn shared_check(n: u64, list: &[u8]) -> Result<u64, Refusal> {
    accepted(words::shared_check(n, list)).map(|[count, ..]| count)
}

/// The values of all 32 outputs at an assignment, bit k for output k: the parity of how many of the products that carry its bit are true there.
pub fn shared_value(n: u64, list: &[u8], a: u64) -> Result<u32, Refusal> {
    accepted(words::shared_value(n, list, a)).map(|[word, ..]| word as u32)
}

/// Runs a script on a shared list; the result stands at the front of `work`, with zeros after it. Every output keeps its value.
pub fn shared_run(n: u64, list: &[u8], script: &[u8], work: &mut [u8]) -> Result<Run, Refusal> {
    accepted(words::shared_run(n, list, script, work)).map(|[count, peak, ..]| Run { count, peak })
}

/// Settles a shared list: the script's result, or the given list where that has fewer products. It stands at the front of `out`, with zeros after it, and
/// `work` ends all zero.
pub fn shared_settle(
    n: u64,
    list: &[u8],
    script: &[u8],
    work: &mut [u8],
    out: &mut [u8],
) -> Result<SharedSettled, Refusal> {
    let [given, peak, script, burned, ..] = accepted(words::shared_settle(n, list, script, work, out))?;
    Ok(SharedSettled { given, peak, script, burned })
}

/// Writes an old list's cubes, at the same places, as a list to the front of `out`; answers how many.
pub fn wide_from_narrow(n: u64, list: &[u8], out: &mut [u8]) -> Result<u64, Refusal> {
    accepted(words::wide_from_narrow(n, list, out)).map(|[count, ..]| count)
}

/// Writes a list's cubes, at the same places, as an old list to the front of `out`; answers how many.
pub fn narrow_from_wide(n: u64, list: &[u8], out: &mut [u8]) -> Result<u64, Refusal> {
    accepted(words::narrow_from_wide(n, list, out)).map(|[count, ..]| count)
}

/// The values of an accepted call, or the refusal.
pub fn accepted([number, place, values @ ..]: Words) -> Result<[u64; 6], Refusal> {
    if number == 0 {
        return Ok(values);
    }
    let fault =
        Fault::from_number(number).expect("the library answers refusal numbers from 1 to 11, and from 13 to 26");
    let [differing, ..] = values;
    Err(Refusal { fault, place, differing })
}
