//! Document 01's marked examples and limits, as document 02 amends them, with the answers that they give.

use crate::compact_examples;
use crate::differ::{Call, Case, compare, empty};
use crate::easy_examples;
use crate::index_examples;
use crate::kronecker_examples;
use crate::map_examples;
use crate::shared_examples;
use crate::tree_examples;
use model::cube::{RECORD, encoded_list, encoded_narrow_list, read};
use model::script::Step::{self, Drop, Join, L, Split, Turn};
use model::script::encoded_script;

/// Calls each example; the answer must begin with the words that are said here, and the model must agree with all of it.
pub fn all() -> Result<(), String> {
    let parts = [
        values_and_forms(),
        reasons(),
        single_runs(),
        refused_steps(),
        settled(),
        costs(),
        tree_examples::all(),
        kronecker_examples::all(),
        easy_examples::all(),
        compact_examples::all(),
        index_examples::all(),
        shared_examples::all(),
        map_examples::all(),
        limits(),
        too_many_variables(),
        long_labels(),
        old_lists(),
    ];
    let examples: Vec<Example> = parts.into_iter().flatten().collect();
    for (case, expected) in &examples {
        let answer = compare(case)?;
        if answer[..expected.len()] != expected[..] {
            return Err(format!("the documents say {expected:?}, the answer is {answer:?}\n{case}"));
        }
    }
    println!("{} examples and limits", examples.len());
    map_examples::buffers()
}

pub type Example = (Case, Vec<u64>);

fn values_and_forms() -> Vec<Example> {
    vec![
        (value(0, &[""]), vec![0, 0, 1, 1]),
        (value(0, &["", ""]), vec![0, 0, 0, 2]),
        (on_bits(Call::BestPolarity, 2, &[0, 1, 1, 0], 0), vec![0, 0, 0, 2]),
        (on_bits(Call::BestPolarity, 2, &[0, 1, 1, 1], 0), vec![0, 0, 3, 2]),
        (on_bits(Call::BestPolarity, 0, &[1], 0), vec![0, 0, 0, 1]),
        (on_bits(Call::WriteForm, 2, &[1, 0, 0, 1], 3), vec![0, 0, 2]),
        (on_bits(Call::BestPolarity, 8, &[1; 256], 0), vec![0, 0, 0, 1]),
    ]
}

/// Document 02, One. What is written is compared with the model's.
fn reasons() -> Vec<Example> {
    let list = ["1--", "000", "-1-", "11-", "0-1"];
    let on = |n, input: Vec<u8>, number, room| Case { input, number, out: vec![7; room], ..empty(Call::Reasons, n) };
    let shown = |n, list: &[&str], a, room| on(n, records(list), a, room);
    let zeros = |count| vec![0; RECORD * count];
    vec![
        (shown(3, &list, 0b011, 10), vec![0, 0, 3, 1]),
        (shown(3, &list, 0b110, 13), vec![0, 0, 2, 0]),
        (shown(3, &list, 0b000, 10), vec![0, 0, 1, 1]),
        (shown(2, &["1-", "01"], 0, 4), vec![0, 0, 0, 0]),
        (shown(0, &["", ""], 0, 4), vec![0, 0, 2, 0]),
        (shown(32, &[], 0, 0), vec![0, 0, 0, 0]),
        // Room for the true products, and not for all.
        (shown(3, &list, 0b011, 9), vec![5, 0]),
        (shown(2, &["1-", "01"], 0, 0), vec![5, 0]),
        (shown(3, &list, 0b1000, 9), vec![6, 0]),
        (shown(2, &list, 0b1000, 9), vec![4, 1]),
        (on(32, zeros(4096), 5, 2 * 4096), vec![0, 0, 4096, 0]),
        (on(32, zeros(4095), 5, 2 * 4096), vec![0, 0, 4095, 1]),
        (on(32, zeros(4096), 5, 2 * 4096 - 1), vec![5, 0]),
        (on(32, zeros(4097), 5, 2 * 4097), vec![3, 0]),
    ]
}

fn single_runs() -> Vec<Example> {
    let run = |n, list: &[&str], step| on_script(Call::Run, n, &records(list), &[step], 4096);
    vec![
        (run(2, &["-1", "11"], Join { i: 0, j: 1 }), vec![0, 0, 1, 2]),
        (run(2, &["1-", "01"], Turn { v: 0, i: 0, j: 1 }), vec![0, 0, 2, 2]),
        (run(2, &["1-", "01"], Turn { v: 1, i: 0, j: 1 }), vec![0, 0, 2, 2]),
        (run(2, &["1-", "-1", "11"], L { v: 0, literal: 1 }), vec![0, 0, 3, 3]),
        (run(2, &["11", "00", "-1"], Join { i: 2, j: 0 }), vec![0, 0, 2, 3]),
    ]
}

/// Refusals at a step, with the number of differing variables, run and settled; alone, and as the step after two that
/// undo each other.
fn refused_steps() -> Vec<Example> {
    let (zeros, nones) = ("0".repeat(32), "-".repeat(32));
    let same = L { v: 0, literal: 1 };
    let mut examples = Vec::new();
    let mut refused = |list: &[&str], step, number, differing| {
        let (n, count) = (list[0].len() as u64, list.len());
        for call in [Call::Run, Call::Settle] {
            let on = |script: &[Step]| on_script(call, n, &records(list), script, count);
            examples.push((on(&[step]), vec![number, 0, differing, 0, 0, 0, 0, 0]));
            if n > 0 {
                examples.push((on(&[same, same, step]), vec![number, 2, differing, 0, 0, 0, 0, 0]));
            }
        }
    };
    refused(&["0", "1"], Drop { i: 2, j: 2 }, 10, 0);
    refused(&["0-1", "110"], Drop { i: 0, j: 2 }, 10, 0);
    refused(&["0-1", "110"], Join { i: 2, j: 0 }, 10, 0);
    refused(&["0-1", "110"], Turn { v: 1, i: 0, j: 2 }, 10, 0);
    refused(&["0-1", "110"], Split { v: 1, i: 2 }, 10, 0);
    refused(&["0-1", "110"], Split { v: 1, i: 1 }, 13, 0);
    refused(&["0", "1"], Drop { i: 0, j: 0 }, 11, 0);
    refused(&["0", "1"], Join { i: 1, j: 1 }, 11, 0);
    refused(&["0", "1"], Turn { v: 0, i: 1, j: 1 }, 11, 0);

    // A literal against its complement is one variable, and so is a literal against none.
    refused(&["0", "1"], Drop { i: 0, j: 1 }, 16, 1);
    refused(&["0", "-"], Drop { i: 0, j: 1 }, 16, 1);
    refused(&["-", "1"], Drop { i: 1, j: 0 }, 16, 1);
    refused(&["0-10", "1110"], Drop { i: 0, j: 1 }, 16, 2);
    refused(&["0-10", "10-0"], Drop { i: 0, j: 1 }, 16, 3);
    refused(&[&zeros, &nones], Drop { i: 0, j: 1 }, 16, 32);

    refused(&["", ""], Join { i: 0, j: 1 }, 17, 0);
    refused(&["0-1", "0-1"], Join { i: 0, j: 1 }, 17, 0);
    refused(&["0-1", "-01"], Join { i: 1, j: 0 }, 17, 2);
    refused(&["0-1", "-10"], Join { i: 0, j: 1 }, 17, 3);
    refused(&[&zeros, &nones], Join { i: 0, j: 1 }, 17, 32);

    refused(&["0-1", "0-1"], Turn { v: 0, i: 0, j: 1 }, 18, 0);
    refused(&["0-1", "1-1"], Turn { v: 0, i: 0, j: 1 }, 18, 1);
    refused(&["0-1", "110"], Turn { v: 2, i: 0, j: 1 }, 18, 3);
    refused(&[&zeros, &nones], Turn { v: 31, i: 0, j: 1 }, 18, 32);
    refused(&["0-1", "1-0"], Turn { v: 1, i: 0, j: 1 }, 19, 2);
    refused(&["0-1", "--0"], Turn { v: 1, i: 1, j: 0 }, 19, 2);

    // 18 before 19: where the cubes agree, and the number is not two.
    refused(&["0-11", "0-11"], Turn { v: 1, i: 0, j: 1 }, 18, 0);
    refused(&["0-11", "1-11"], Turn { v: 1, i: 0, j: 1 }, 18, 1);
    refused(&["0-11", "1-00"], Turn { v: 1, i: 0, j: 1 }, 18, 3);
    examples
}

fn settled() -> Vec<Example> {
    let settle = |n, list: &[&str], script: &[Step]| on_script(Call::Settle, n, &records(list), script, 4096);
    vec![
        (
            settle(2, &["1-", "-1", "11"], &[Join { i: 1, j: 2 }, Turn { v: 0, i: 0, j: 1 }]),
            vec![0, 0, 3, 3, 2, 3, 2, 2],
        ),
        (
            settle(3, &["00-", "1-1", "-01"], &[Split { v: 2, i: 0 }, Join { i: 2, j: 3 }, Join { i: 1, j: 2 }]),
            vec![0, 0, 3, 4, 2, 1, 4, 2],
        ),
        (settle(1, &["0", "1", "-"], &[]), vec![0, 0, 3, 3, 3, 0, 0, 0]),
        (settle(3, &["000", "111"], &[]), vec![0, 0, 2, 2, 2, 1, 4, 2]),
        (settle(9, &["---------"], &[]), vec![0, 0, 1, 1, 1, u64::MAX, u64::MAX, 1]),
    ]
}

/// Document 02, Two. Each settled list is compared with the model's too.
fn costs() -> Vec<Example> {
    let best = |n, bits: &[u8]| on_bits(Call::BestPolarity, n, bits, 0);
    let settle = |n, list: &[&str], script: &[Step]| on_script(Call::Settle, n, &records(list), script, 4096);
    let turn = Turn { v: 0, i: 0, j: 1 };
    let (none, ends) = ("-".repeat(9), "1-------1");
    vec![
        // Polarity 0 has 4 products and cost 3, polarity 3 has 1 and cost 1.
        (best(2, &[1, 0, 0, 0]), vec![0, 0, 3, 1]),
        // Polarities 0 to 2, 5 and 7 have 4 products; that of 1 has the constant among them.
        (best(3, &[0, 1, 0, 1, 1, 0, 0, 0]), vec![0, 0, 1, 4]),
        (best(0, &[0]), vec![0, 0, 0, 0]),
        // As many products, and a constant among the script's: the script's is burned; the other way round the given one.
        (settle(2, &["1-", "01"], &[turn]), vec![0, 0, 2, 2, 2, 3, 2, 2]),
        (settle(2, &["--", "00"], &[turn]), vec![0, 0, 2, 2, 2, 3, 2, 2]),
        // Two constants, of which one is free: both lists cost 2, and the script's has fewer products.
        (
            settle(9, &[&none, &none, ends], &[Drop { i: 0, j: 1 }, Split { v: 0, i: 0 }]),
            vec![0, 0, 3, 3, 2, u64::MAX, u64::MAX, 2],
        ),
        // The form costs as much as the lists, and has a product more.
        (settle(3, &["000", "1--"], &[]), vec![0, 0, 2, 2, 2, 7, 3, 2]),
        // The script's list has a constant before the undoing, and none after it: the given one is burned.
        (settle(2, &["--", "00"], &[turn, L { v: 0, literal: 1 }]), vec![0, 0, 2, 2, 2, 3, 2, 2]),
        (settle(0, &[""], &[]), vec![0, 0, 1, 1, 1, 0, 1, 1]),
        (settle(0, &["", "", ""], &[]), vec![0, 0, 3, 3, 3, 0, 1, 1]),
        (settle(0, &["", ""], &[]), vec![0, 0, 2, 2, 2, 0, 0, 0]),
    ]
}

fn limits() -> Vec<Example> {
    let zeros = |count: usize| vec![0; RECORD * count];
    let check = |count| Case { input: zeros(count), ..empty(Call::Check, 32) };
    let split = Split { v: 0, i: 0 };
    let exchange = L { v: 31, literal: 1 };
    let mut limits = vec![(check(4096), vec![0, 0, 4096]), (check(4097), vec![3, 0])];
    for call in [Call::Run, Call::Settle] {
        limits.extend([
            // Capacity is at most 4,096, however long the buffer is.
            (on_script(call, 1, &zeros(4096), &[split], 4096), vec![13, 0]),
            (on_script(call, 1, &zeros(4096), &[split], 5000), vec![13, 0]),
            (on_script(call, 1, &zeros(4095), &[split, split], 5000), vec![13, 1]),
            (on_script(call, 32, &zeros(4096), &[exchange; 1024], 4096), vec![0, 0]),
            (on_script(call, 32, &zeros(4096), &[exchange; 1025], 4096), vec![8, 0]),
            (on_script(call, 32, &zeros(4096), &[], 4095), vec![5, 0]),
        ]);
    }
    limits
}

/// n = 9 gives 1 with a truth vector, a polarity, a tree or a choice, where 7 and 8 do too, and n = 33 everywhere.
fn too_many_variables() -> Vec<Example> {
    let of_vectors = [
        Call::TruthVector,
        Call::Coefficients,
        Call::Vector,
        Call::WriteForm,
        Call::BestPolarity,
        Call::WriteTree,
        Call::WriteKronecker,
    ];
    let refused = |call, n| (Case { input: vec![0; 1usize << n], ..empty(call, n) }, vec![1, 0]);
    let nine = of_vectors.map(|call| refused(call, 9));
    let seven_and_eight = [7, 8].map(|n| refused(Call::WriteKronecker, n));
    // A map of one list, and of one script.
    let of_map = |call: Call| if call.is_map() { vec![0] } else { vec![] };
    let thirty_three = Call::ALL.map(|call| {
        let (lengths, script_lengths) = (of_map(call), of_map(call));
        (Case { lengths, script_lengths, ..empty(call, 33) }, vec![1, 0])
    });
    nine.into_iter().chain(seven_and_eight).chain(thirty_three).collect()
}

/// The last of 32 variables: in a record, in an assignment, in a step.
fn long_labels() -> Vec<Example> {
    let last = format!("{}0", "-".repeat(31));
    let list = &records(&[&last]);
    let at = |number| Case { number, ..value(32, &[&last]) };
    let run = |v, literal| on_script(Call::Run, 32, list, &[L { v, literal }], 1);
    vec![
        (Case { input: list.clone(), ..empty(Call::Check, 32) }, vec![0, 0, 1]),
        (Case { input: list.clone(), ..empty(Call::Check, 31) }, vec![4, 0]),
        (at(0x7fff_ffff), vec![0, 0, 1, 1]),
        (at(0xffff_ffff), vec![0, 0, 0, 0]),
        (at(1 << 32), vec![6, 0]),
        (run(31, 0), vec![0, 0, 1, 1]),
        (run(32, 0), vec![9, 0]),
    ]
}

/// An old list has at most 16 variables: above, wide from narrow gives 1, and narrow from wide 20.
fn old_lists() -> Vec<Example> {
    let cubes = ["1-------0------1", "----------------", "0101010101010101"].map(read);
    let convert = |call, n, input: Vec<u8>, room| Case { input, out: vec![7; room], ..empty(call, n) };
    let widen = |n, room| convert(Call::WideFromNarrow, n, encoded_narrow_list(&cubes), room);
    let narrow = |n, room| convert(Call::NarrowFromWide, n, encoded_list(&cubes), room);
    vec![
        (widen(16, 27), vec![0, 0, 3]),
        (widen(16, 23), vec![5, 0]),
        (widen(15, 24), vec![4, 0]),
        (widen(17, 24), vec![1, 0]),
        (convert(Call::WideFromNarrow, 16, vec![0; 4 * 4096], 8 * 4096), vec![0, 0, 4096]),
        (convert(Call::WideFromNarrow, 16, vec![0; 4 * 4097], 8 * 4097), vec![3, 0]),
        (narrow(16, 15), vec![0, 0, 3]),
        (narrow(16, 11), vec![5, 0]),
        (narrow(15, 12), vec![4, 0]),
        (narrow(17, 12), vec![20, 0]),
        (narrow(32, 12), vec![20, 0]),
        (convert(Call::NarrowFromWide, 16, vec![0; 8 * 4096], 4 * 4096), vec![0, 0, 4096]),
        (convert(Call::NarrowFromWide, 16, vec![0; 8 * 4097], 4 * 4097), vec![3, 0]),
        // An old list that was not converted: of an odd count; of an even one, read as half as many records.
        (Case { input: encoded_narrow_list(&cubes), ..empty(Call::Check, 32) }, vec![2, 0]),
        (Case { input: encoded_narrow_list(&cubes[1..]), ..empty(Call::Check, 32) }, vec![4, 0]),
    ]
}

pub fn records(list: &[&str]) -> Vec<u8> {
    let cubes: Vec<_> = list.iter().map(|text| read(text)).collect();
    encoded_list(&cubes)
}

fn value(n: u64, list: &[&str]) -> Case {
    Case { input: records(list), ..empty(Call::Value, n) }
}

pub fn on_bits(call: Call, n: u64, bits: &[u8], p: u64) -> Case {
    Case { input: bits.to_vec(), number: p, out: vec![7; 1024], ..empty(call, n) }
}

/// A vector, and an output of so many bytes.
pub fn in_room(call: Call, n: u64, vector: &[u8], room: usize) -> Case {
    Case { input: vector.to_vec(), out: vec![7; room], ..empty(call, n) }
}

/// Whether an odd number of n variables is 1.
pub fn parity(n: u32) -> Vec<u8> {
    (0..1u32 << n).map(|a| (a.count_ones() % 2) as u8).collect()
}

/// A run or a settling in buffers for so many records, with three bytes more.
pub fn on_script(call: Call, n: u64, list: &[u8], script: &[Step], capacity: usize) -> Case {
    let buffer = vec![7; RECORD * capacity + 3];
    Case { input: list.to_vec(), script: encoded_script(script), work: buffer.clone(), out: buffer, ..empty(call, n) }
}
