//! The calls in plain Rust, on the same buffers, as one would write them without proofs: the library's algorithms, and for the calls on vectors
//! and for write script, compact, index, group and run indexed the straightforward ones too.
//! Every call tests its input as the library does, answers the same eight words and, like the library's, is not inlined.

mod bytes;
mod compactor;
mod converters;
mod cube;
mod index;
mod indexed;
mod kronecker_choices;
mod kronecker_tables;
mod lists;
mod maps;
mod orders;
mod script;
mod settling;
mod shared_lists;
mod shared_script;
mod tree_costs;
mod tree_lists;
mod trees;
mod vectors;
mod words;
mod writer;

pub use compactor::{FromTheFrontAgain, OnePass, compact};
pub use converters::{narrow_from_wide, wide_from_narrow};
pub use index::{ByCounting, BySorting, Starts, group, index};
pub use indexed::run_indexed;
pub use lists::{check, reasons, truth_vector, value};
pub use maps::{Parts, PerList, map_reasons, settle_map, slot};
pub use script::run;
pub use settling::settle;
pub use shared_lists::{shared_check, shared_value};
pub use shared_script::{shared_run, shared_settle};
pub use trees::{write_kronecker, write_tree};
pub use vectors::{ByBytes, ByWords, best_polarity, coefficients, vector, write_form};
pub use writer::{ByMarks, FromTheFront, pass, write_script};

pub type Words = [u64; 8];

struct Refusal {
    number: u64,
    place: usize,
    /// The number of differing variables, where the cubes of a step are not as it needs.
    differing: u32,
}

fn refusal<T>(number: u64, place: usize) -> Result<T, Refusal> {
    Err(Refusal { number, place, differing: 0 })
}

/// Refuses at place 0, where `broken` says so.
fn refuse_if(broken: bool, number: u64) -> Result<(), Refusal> {
    if broken { refusal(number, 0) } else { Ok(()) }
}

fn words<const N: usize>(outcome: Result<[u64; N], Refusal>) -> Words {
    let mut words = [0; 8];
    match outcome {
        Ok(values) => words[2..2 + N].copy_from_slice(&values),
        Err(Refusal { number, place, differing }) => {
            words[..3].copy_from_slice(&[number, place as u64, differing.into()])
        }
    }
    words
}
