//! "Refusal numbers and places", and document 02, Four.

/// A refusal: its number, its place and the third answer.
#[derive(Clone, Copy, Debug, PartialEq, Eq)]
pub struct Refusal {
    pub number: u64,
    pub place: u64,
    /// Document 02, Four: "the number of differing variables"; "in every other refusal the third answer is 0".
    pub differing: u64,
}

/// Refuses with a number at place 0, where `broken` says so.
pub fn refuse_if(broken: bool, number: u64) -> Result<(), Refusal> {
    refuse_at_if(broken, number, 0)
}

/// Refuses with a number and a place, where `broken` says so.
pub fn refuse_at_if(broken: bool, number: u64, place: usize) -> Result<(), Refusal> {
    if broken { Err(Refusal { number, place: place as u64, differing: 0 }) } else { Ok(()) }
}

/// Refuses a step, where `broken` says so, for these differing variables of its two cubes.
pub fn refuse_cubes_if(broken: bool, number: u64, place: usize, differing: &[usize]) -> Result<(), Refusal> {
    if broken { Err(Refusal { number, place: place as u64, differing: differing.len() as u64 }) } else { Ok(()) }
}

/// The numbers that each call can answer, in the order in which it tests them.
pub const ORDERS: [(&str, &[u64]); 26] = [
    ("check", &[1, 2, 3, 4]),
    ("value", &[1, 2, 3, 4, 6]),
    ("reasons", &[1, 2, 3, 4, 6, 5]),
    ("truth_vector", &[1, 2, 3, 4, 5]),
    ("coefficients", &[1, 14, 15, 5]),
    ("vector", &[1, 14, 15, 5]),
    ("write_form", &[1, 14, 15, 5]),
    ("best_polarity", &[1, 14]),
    ("write_tree", &[1, 14, 5]),
    ("write_kronecker", &[1, 14, 5]),
    ("run", &[1, 2, 3, 4, 5, 7, 8, 9, 10, 11, 16, 17, 18, 19, 13]),
    ("settle", &[1, 2, 3, 4, 5, 7, 8, 9, 10, 11, 16, 17, 18, 19, 13]),
    // 5 of the work buffer, then of the script buffer.
    ("write_script", &[1, 2, 3, 4, 5, 5]),
    ("compact", &[1, 3, 7, 8, 9, 5]),
    ("index", &[1, 2, 3, 4, 5]),
    ("group", &[1, 2, 3, 4, 5, 25, 21]),
    // 5 of the work buffer, then of the index buffer.
    ("run_indexed", &[1, 2, 3, 4, 5, 5, 7, 8, 9, 10, 11, 16, 17, 18, 19, 13]),
    ("shared_check", &[1, 2, 3, 4]),
    ("shared_value", &[1, 2, 3, 4, 6]),
    ("shared_run", &[1, 2, 3, 4, 5, 7, 8, 9, 10, 11, 16, 17, 18, 19, 22, 23, 13]),
    ("shared_settle", &[1, 2, 3, 4, 5, 7, 8, 9, 10, 11, 16, 17, 18, 19, 22, 23, 13]),
    // Of the map, and then of its lists in turn.
    ("slot", &[24, 26, 1, 2, 3, 4, 6]),
    // 5 of the output, then of the work buffer.
    ("settle_map", &[24, 26, 5, 1, 2, 3, 4, 5, 7, 8, 9, 10, 11, 16, 17, 18, 19, 13]),
    ("map_reasons", &[24, 26, 5, 1, 2, 3, 4, 6]),
    ("wide_from_narrow", &[1, 2, 3, 4, 5]),
    ("narrow_from_wide", &[1, 20, 2, 3, 4, 5]),
];
