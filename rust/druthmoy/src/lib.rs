//! Safe calls of Druthmoy's verified library, `libdruthmoy.a`.
//!
//! Lists and scripts are slices of bytes; [`Cube`], [`Product`] and [`Step`] read and write their records. Each call answers what it
//! found or the [`Refusal`] that it met. How the bytes are laid out, and what a call leaves in its buffers, the header
//! `druthmoy.h` says. [`words`] has the same calls with the eight words of their answers as they are.
//!
//! ```
//! use druthmoy::{Cube, Step, settle};
//!
//! let list: Vec<u8> = ["1-", "-1", "11"].iter().flat_map(|text| text.parse::<Cube>().unwrap().record()).collect();
//! let script = [Step::Join { i: 1, j: 2 }, Step::Turn { v: 0, i: 0, j: 1 }].map(Step::record).concat();
//! let (mut work, mut out) = (vec![0; list.len()], vec![0; list.len()]);
//! let settled = settle(2, &list, &script, &mut work, &mut out).unwrap();
//! let burned = out.as_chunks().0.iter().map(|&record| Cube::from_record(record).written(2));
//! assert_eq!(burned.take(settled.burned as usize).collect::<Vec<_>>(), ["--", "00"]);
//! ```
//!
//! An easy script, of drops and joins alone, is written for a list, and the list settled with it:
//!
//! ```
//! use druthmoy::{Cube, STEP, Step, Written, settle, write_script};
//!
//! let list: Vec<u8> = ["10", "0-", "11"].iter().flat_map(|text| text.parse::<Cube>().unwrap().record()).collect();
//! let (mut work, mut script) = (vec![0; list.len()], vec![0; list.len()]);
//! let written = write_script(2, &list, &mut work, &mut script).unwrap();
//! assert_eq!(written, Written { steps: 2, finished: true });
//! script.truncate(STEP * written.steps as usize);
//! assert_eq!(script, [Step::Join { i: 0, j: 2 }, Step::Join { i: 0, j: 1 }].map(Step::record).concat());
//! let mut out = vec![0; list.len()];
//! assert_eq!(settle(2, &list, &script, &mut work, &mut out).unwrap().burned, 1);
//! assert_eq!(Cube::from_record(out.as_chunks().0[0]).written(2), "--");
//! ```
//!
//! A script that does and undoes is compacted for lists of a count, here 3:
//!
//! ```
//! use druthmoy::{STEP, Step, compact};
//!
//! let (l, join) = (Step::L { v: 1, literal: 0 }, Step::Join { i: 1, j: 2 });
//! let script = [l, Step::Split { v: 0, i: 1 }, Step::Join { i: 1, j: 3 }, l, join].map(Step::record).concat();
//! let mut out = vec![0; script.len()];
//! assert_eq!(compact(2, 3, &script, &mut out), Ok(1));
//! assert_eq!(out[..STEP], join.record());
//! ```
//!
//! A function that is poor under every polarity can have a cheaper expansion tree; its list is written from the truth vector:
//!
//! ```
//! use druthmoy::{Cube, Fixed, Tree, best_polarity, write_tree};
//!
//! let vector = [1, 0, 0, 0, 0, 0, 0, 1];
//! assert_eq!(best_polarity(3, &vector), Ok(Fixed { polarity: 1, size: 4 }));
//! let mut out = vec![0; 64];
//! let tree = write_tree(3, &vector, &mut out).unwrap();
//! assert_eq!(tree, Tree { products: 2, cost: 2 });
//! let cubes = out.as_chunks().0.iter().map(|&record| Cube::from_record(record).written(3));
//! assert_eq!(cubes.take(tree.products as usize).collect::<Vec<_>>(), ["000", "111"]);
//! ```
//!
//! Where there must be one expansion for each variable, the list of the cheapest such form is written, here of positive Davio for variable 0 and
//! Shannon for the others:
//!
//! ```
//! use druthmoy::{Cube, Kronecker, write_kronecker};
//!
//! let mut out = vec![0; 64];
//! let form = write_kronecker(3, &[1, 1, 0, 0, 0, 0, 0, 1], &mut out).unwrap();
//! assert_eq!(form, Kronecker { cost: 2, choice: 1, products: 2 });
//! let cubes = out.as_chunks().0.iter().map(|&record| Cube::from_record(record).written(3));
//! assert_eq!(cubes.take(form.products as usize).collect::<Vec<_>>(), ["-00", "111"]);
//! ```
//!
//! The products that are true at a label, by their places, say why it has its bit:
//!
//! ```
//! use druthmoy::{Cube, PLACE, RECORD, Value, reasons};
//!
//! let list: Vec<u8> = ["1-", "00", "-1"].iter().flat_map(|text| text.parse::<Cube>().unwrap().record()).collect();
//! let mut out = vec![0; PLACE * (list.len() / RECORD)];
//! assert_eq!(reasons(2, &list, 3, &mut out), Ok(Value { bit: false, trues: 2 }));
//! let places = out.as_chunks().0.iter().map(|&place| u16::from_le_bytes(place));
//! assert_eq!(places.take(2).collect::<Vec<_>>(), [0, 2]);
//! ```
//!
//! An index has the places of a list's cubes by number of literals, and then by place. The places of the cubes with so many are a run of it:
//!
//! ```
//! use druthmoy::{Cube, PLACE, RECORD, group, index};
//!
//! let list: Vec<u8> = ["11", "-1", "0-", "--"].iter().flat_map(|text| text.parse::<Cube>().unwrap().record()).collect();
//! let mut places = vec![0; PLACE * (list.len() / RECORD)];
//! let built = index(2, &list, &mut places).unwrap();
//! assert_eq!((built.count, &built.starts[..4]), (4, &[0, 1, 3, 4][..]));
//! assert_eq!(places, [3, 0, 1, 0, 2, 0, 0, 0]);
//! assert_eq!(group(2, &list, &places, &built.starts, 1), Ok(&[1, 0, 2, 0][..]));
//! ```
//!
//! A run can keep one for the list that it works on:
//!
//! ```
//! use druthmoy::{Cube, PLACE, RECORD, Run, Step, group, run_indexed};
//!
//! let list: Vec<u8> = ["1-", "-1", "11"].iter().flat_map(|text| text.parse::<Cube>().unwrap().record()).collect();
//! let script = Step::Join { i: 1, j: 2 }.record();
//! let (mut work, mut places) = (vec![0; list.len()], vec![0; PLACE * 3]);
//! let kept = run_indexed(2, &list, &script, &mut work, &mut places).unwrap();
//! assert_eq!(kept.run, Run { count: 2, peak: 3 });
//! assert_eq!(places, [0, 0, 1, 0, 0, 0]);
//! assert_eq!(group(2, &work[..2 * RECORD], &places, &kept.starts, 2), Ok(&[1, 0][..]));
//! ```
//!
//! A shared list has products for up to 32 outputs. The value at a label has a bit for each of them, and a merge puts two equal cubes together:
//!
//! ```
//! use druthmoy::{Product, SHARED_RECORD, Step, shared_settle, shared_value};
//!
//! let product = |text: &str, outputs| Product { cube: text.parse().unwrap(), outputs };
//! let list = [product("1-", 0b011), product("-1", 0b100), product("1-", 0b010)].map(Product::record).concat();
//! assert_eq!(shared_value(2, &list, 3), Ok(0b101));
//! let (mut work, mut out) = (vec![0; list.len()], vec![0; list.len()]);
//! let settled = shared_settle(2, &list, &Step::Merge { i: 0, j: 2 }.record(), &mut work, &mut out).unwrap();
//! assert_eq!(settled.burned, 2);
//! let burned = &out[..2 * SHARED_RECORD];
//! assert_eq!(burned, [product("1-", 0b001), product("-1", 0b100)].map(Product::record).concat());
//! assert_eq!(shared_value(2, burned, 3), Ok(0b101));
//! ```
//!
//! A map of several lists has one for each bit of a slot number, end to end, with their lengths in bytes. Each is settled with its own script, and
//! every label keeps its slot:
//!
//! ```
//! use druthmoy::{Cube, Parts, SettledMap, Step, map_reasons, settle_map, slot};
//!
//! let cubes = ["1-", "-1", "11", "11"];
//! let lists: Vec<u8> = cubes.iter().flat_map(|text| text.parse::<Cube>().unwrap().record()).collect();
//! let given = Parts { bytes: &lists, lengths: &[24, 8] };
//! assert_eq!([0, 1, 2, 3].map(|label| slot(2, given, label).unwrap()), [0, 1, 1, 3]);
//!
//! let steps = [Step::Join { i: 1, j: 2 }, Step::Turn { v: 0, i: 0, j: 1 }].map(Step::record).concat();
//! let scripts = Parts { bytes: &steps, lengths: &[16, 0] };
//! let (mut work, mut out) = (vec![0; 24], vec![0; lists.len()]);
//! let SettledMap { lengths, cost } = settle_map(2, given, scripts, &mut work, &mut out).unwrap();
//! assert_eq!((&lengths[..3], cost), (&[16, 8, 0][..], 2));
//! let burned = Parts { bytes: &out[..24], lengths: &lengths[..2] };
//! assert_eq!([0, 1, 2, 3].map(|label| slot(2, burned, label).unwrap()), [0, 1, 1, 3]);
//!
//! let mut places = [0; 6];
//! let reasons = map_reasons(2, burned, 3, &mut places).unwrap();
//! assert_eq!((reasons.slot, &reasons.trues[..2]), (3, &[1, 1][..]));
//! let refusal = slot(2, Parts { lengths: &[16, 9], ..burned }, 3).unwrap_err();
//! assert_eq!(refusal.to_string(), "refused 26 at 0");
//! ```
//!
//! A refusal at a step that has two cubes says in how many variables they differ:
//!
//! ```
//! use druthmoy::{Cube, Fault, Refusal, Step, run};
//!
//! let list: Vec<u8> = ["1-0", "-10"].iter().flat_map(|text| text.parse::<Cube>().unwrap().record()).collect();
//! let refusal = run(3, &list, &Step::Join { i: 0, j: 1 }.record(), &mut vec![0; list.len()]).unwrap_err();
//! assert_eq!(refusal, Refusal { fault: Fault::JoinNotOne, place: 0, differing: 2 });
//! assert_eq!(refusal.to_string(), "refused 17 at 0");
//! ```
//!
//! An old list, of 4-byte records, is converted before it is used:
//!
//! ```
//! use druthmoy::{Cube, NARROW_RECORD, RECORD, wide_from_narrow};
//!
//! let old = [0x01, 0x00, 0x01, 0x00, 0x02, 0x00, 0x02, 0x00];
//! let mut list = vec![0; RECORD * (old.len() / NARROW_RECORD)];
//! assert_eq!(wide_from_narrow(2, &old, &mut list), Ok(2));
//! let cubes = list.as_chunks().0.iter().map(|&record| Cube::from_record(record).written(2));
//! assert_eq!(cubes.collect::<Vec<_>>(), ["1-", "-1"]);
//! ```

mod calls;
mod maps;
mod raw;
mod records;
mod refusal;
pub mod words;

pub use calls::{
    Fixed, Index, Indexed, Kronecker, Run, Settled, SharedSettled, Tree, Value, Written, best_polarity, check,
    coefficients, compact, group, index, narrow_from_wide, reasons, run, run_indexed, settle, shared_check, shared_run,
    shared_settle, shared_value, truth_vector, value, vector, wide_from_narrow, write_form, write_kronecker,
    write_script, write_tree,
};
pub use maps::{MapReasons, SettledMap, map_reasons, settle_map, slot};
pub use records::{
    Cube, LISTS, NARROW_RECORD, NotACube, PLACE, Parts, PerList, Product, RECORD, SHARED_RECORD, STEP, Starts, Step,
};
pub use refusal::{Fault, MapRefusal, Refusal};

#[cfg(feature = "standin")]
use standin as _;
