//! The model against the examples that document 01 marks, as document 02 amends them, and against the program's printed
//! examples.

use model::calls::{self, Outcome, words};
use model::cost::standing;
use model::cube::{Cube, RECORD, encoded_list, encoded_narrow_list, read, reasons, truth_vector, value, written};
use model::polarity::{Best, best, coefficients, form, vector};
use model::program::printed;
use model::refusal::Refusal;
use model::script::Step::{self, Drop, Join, L, Split, Turn};
use model::script::{self, encoded_script};

#[path = "examples/compact.rs"]
mod compact;
#[path = "examples/index.rs"]
mod index;
#[path = "examples/selector.rs"]
mod selector;
#[path = "examples/shared.rs"]
mod shared;
#[path = "examples/write_kronecker.rs"]
mod write_kronecker;
#[path = "examples/write_script.rs"]
mod write_script;
#[path = "examples/write_tree.rs"]
mod write_tree;

fn list(cubes: &[&str]) -> Vec<Cube> {
    cubes.iter().map(|text| read(text)).collect()
}

fn records(cubes: &[&str]) -> Vec<u8> {
    encoded_list(&list(cubes))
}

/// The vectors of all functions of n variables.
fn all_functions(n: usize) -> impl Iterator<Item = Vec<u8>> {
    (0..1u32 << (1 << n)).map(move |function| (0..1 << n).map(|a| (function >> a & 1) as u8).collect())
}

/// Whether an odd number of n variables is 1.
fn parity(n: u32) -> Vec<u8> {
    (0..1u32 << n).map(|a| (a.count_ones() % 2) as u8).collect()
}

/// The list after one step, before any L step is undone.
fn after(cubes: &[&str], step: Step) -> Vec<String> {
    let mut list = list(cubes);
    script::step(&mut list, step, 4096, 0).unwrap();
    list.iter().map(written).collect()
}

fn refused(number: u64, place: u64) -> Outcome {
    refused_for(number, place, 0)
}

/// Refused with this number of differing variables.
fn refused_for(number: u64, place: u64, differing: u64) -> Outcome {
    Err(Refusal { number, place, differing })
}

/// A run of one step, in a buffer that the list fills.
fn run_of(cubes: &[&str], step: Step) -> Outcome {
    let list = records(cubes);
    calls::run(cubes[0].len() as u64, &list, &encoded_script(&[step]), &mut vec![7; list.len()])
}

#[test]
fn best_polarities() {
    assert_eq!(best(2, &[0, 1, 1, 0]), Best { polarity: 0, size: 2 });
    assert_eq!(form(2, &coefficients(&[0, 1, 1, 0], 3), 3).len(), 2);
    assert_eq!(best(2, &[0, 1, 1, 1]), Best { polarity: 3, size: 2 });
    assert_eq!(form(2, &coefficients(&[0, 1, 1, 1], 0), 0).len(), 3);
    assert_eq!(best(3, &truth_vector(3, &list(&["000", "111"]))), Best { polarity: 1, size: 4 });
    assert_eq!(best(0, &[1]), Best { polarity: 0, size: 1 });
}

/// Document 02, Two.
#[test]
fn costs() {
    let under = |n, bits: &[u8], p| form(n, &coefficients(bits, p), p);
    assert_eq!(standing(&under(2, &[1, 0, 0, 0], 0)), (3, 4));
    assert_eq!(standing(&under(2, &[1, 0, 0, 0], 3)), (1, 1));
    assert_eq!(best(2, &[1, 0, 0, 0]), Best { polarity: 3, size: 1 });
    // As much cost, and fewer products.
    assert_eq!([0, 1].map(|p| standing(&under(2, &[1, 0, 0, 1], p))), [(2, 3), (2, 2)]);
    assert_eq!(best(2, &[1, 0, 0, 1]), Best { polarity: 1, size: 2 });
    // As many products, and less cost.
    assert_eq!([0, 1].map(|p| standing(&under(3, &[0, 1, 0, 1, 1, 0, 0, 0], p))), [(4, 4), (3, 4)]);
    assert_eq!(best(3, &[0, 1, 0, 1, 1, 0, 0, 0]), Best { polarity: 1, size: 4 });
    // Free once.
    assert_eq!(standing(&list(&["--", "11", "--"])), (2, 3));
    assert_eq!([0, 1, 2].map(|count| standing(&list(&vec![""; count]))), [(0, 0), (0, 1), (1, 2)]);
}

/// Which list is burned where the constant decides.
#[test]
fn settled_by_cost() {
    let turn = encoded_script(&[Turn { v: 0, i: 0, j: 1 }]);
    let turn_and_l = encoded_script(&[Turn { v: 0, i: 0, j: 1 }, L { v: 0, literal: 1 }]);
    let with_constant = "in 2 peak 2 script 2 fixed 3 2 out 2\n--\n00\n";
    assert_eq!(printed(2, &records(&["1-", "01"]), &turn), with_constant);
    assert_eq!(printed(2, &records(&["--", "00"]), &turn), with_constant);
    assert_eq!(printed(2, &records(&["--", "00"]), &turn_and_l), with_constant);
    let script = encoded_script(&[Drop { i: 0, j: 1 }, Split { v: 0, i: 0 }]);
    let text = printed(9, &records(&["---------", "---------", "1-------1"]), &script);
    assert_eq!(text, "in 3 peak 3 script 2 fixed - - out 2\n0-------1\n--------1\n");
    assert_eq!(printed(3, &records(&["000", "1--"]), &[]), "in 2 peak 2 script 2 fixed 7 3 out 2\n000\n1--\n");
    assert_eq!(printed(0, &records(&["", "", ""]), &[]), "in 3 peak 3 script 3 fixed 0 1 out 1\n\n");
}

#[test]
fn form_of_the_best_polarity() {
    let form = form(2, &coefficients(&[0, 1, 1, 1], 3), 3);
    assert_eq!(form, list(&["--", "00"]));
    assert_eq!(encoded_list(&form), [0, 0, 0, 0, 0, 0, 0, 0, 3, 0, 0, 0, 0, 0, 0, 0]);
}

#[test]
fn single_steps() {
    assert_eq!(after(&["-1", "11"], Join { i: 0, j: 1 }), ["01"]);
    assert_eq!(after(&["1-", "01"], Turn { v: 0, i: 0, j: 1 }), ["--", "00"]);
    assert_eq!(after(&["1-", "01"], Turn { v: 1, i: 0, j: 1 }), ["10", "-1"]);
    assert_eq!(after(&["1-", "-1", "11"], L { v: 0, literal: 1 }), ["--", "11", "-1"]);
}

#[test]
fn a_join_whose_i_is_last_ends_at_j() {
    assert_eq!(after(&["11", "00", "-1"], Join { i: 2, j: 0 }), ["01", "00"]);
}

#[test]
fn a_drop_removes_the_greater_place_first() {
    assert_eq!(after(&["11", "00", "11", "--"], Drop { i: 0, j: 2 }), ["--", "00"]);
    assert_eq!(after(&["11", "00", "11", "--"], Drop { i: 2, j: 0 }), ["--", "00"]);
}

#[test]
fn l_steps_on_one_variable_are_undone_last_one_first() {
    let steps = [L { v: 0, literal: 0 }, L { v: 0, literal: 1 }];
    let given = list(&["0", "1", "-"]);
    assert_eq!(script::run(&given, &steps, 3).unwrap().list, given);
}

#[test]
fn values_without_variables() {
    assert_eq!(value(&list(&[""]), 0), 1);
    assert_eq!(value(&list(&["", ""]), 0), 0);
    assert_eq!(value(&[], 0), 0);
}

/// Document 02, One.
#[test]
fn places_of_the_true_products() {
    let cubes = list(&["1--", "000", "-1-", "11-", "0-1"]);
    assert_eq!(reasons(&cubes, 0b011), [0, 2, 3]);
    assert_eq!(reasons(&cubes, 0b110), [2, 4]);
    assert_eq!(reasons(&cubes, 0b000), [1]);
    assert_eq!(reasons(&list(&["1-", "01"]), 0), [0; 0]);
    assert_eq!(reasons(&list(&["", ""]), 0), [0, 1]);
    assert_eq!(reasons(&[], 0), [0; 0]);
}

#[test]
fn reasons_in_a_lent_buffer() {
    let list = records(&["1--", "000", "-1-", "11-", "0-1"]);
    let shown = |a, room: usize| {
        let mut out = vec![7; room];
        let outcome = calls::reasons(3, &list, a, &mut out);
        (outcome, out)
    };
    assert_eq!(shown(0b011, 10), (Ok(vec![3, 1]), vec![0, 0, 2, 0, 3, 0, 7, 7, 7, 7]));
    assert_eq!(shown(0b110, 11), (Ok(vec![2, 0]), vec![2, 0, 4, 0, 7, 7, 7, 7, 7, 7, 7]));
    // Room for the true products, and not for all.
    assert_eq!(shown(0b011, 9), (refused(5, 0), vec![7; 9]));
    assert_eq!(shown(0b1000, 9), (refused(6, 0), vec![7; 9]));
    assert_eq!(calls::value(3, &list, 0b011), Ok(vec![1, 3]));
    assert_eq!(calls::value(3, &list, 0b110), Ok(vec![0, 2]));

    let mut out = [7; 4];
    assert_eq!(calls::reasons(0, &records(&["", ""]), 0, &mut out), Ok(vec![2, 0]));
    assert_eq!(out, [0, 0, 1, 0]);
    assert_eq!(calls::reasons(2, &records(&["1-", "01"]), 0, &mut [7; 4]), Ok(vec![0, 0]));
    assert_eq!(calls::reasons(32, &[], 0, &mut []), Ok(vec![0, 0]));
}

#[test]
fn reasons_of_the_longest_list() {
    let mut out = vec![7; 2 * 4096];
    assert_eq!(calls::reasons(32, &[0; RECORD * 4096], 5, &mut out), Ok(vec![4096, 0]));
    assert_eq!((&out[2 * 255..][..4], &out[2 * 4095..]), (&[0xff, 0, 0, 1][..], &[0xff, 0x0f][..]));
    assert_eq!(calls::reasons(32, &[0; RECORD * 4096], 5, &mut out[1..]), refused(5, 0));
}

#[test]
fn what_the_program_prints() {
    let script = encoded_script(&[Join { i: 1, j: 2 }, Turn { v: 0, i: 0, j: 1 }]);
    let text = printed(2, &records(&["1-", "-1", "11"]), &script);
    assert_eq!(text, "in 3 peak 3 script 2 fixed 3 2 out 2\n--\n00\n");

    let script = encoded_script(&[Split { v: 2, i: 0 }, Join { i: 2, j: 3 }, Join { i: 1, j: 2 }]);
    let text = printed(3, &records(&["00-", "1-1", "-01"]), &script);
    assert_eq!(text, "in 3 peak 4 script 2 fixed 1 4 out 2\n000\n111\n");

    assert_eq!(printed(1, &records(&["0", "1", "-"]), &[]), "in 3 peak 3 script 3 fixed 0 0 out 0\n");
    assert_eq!(printed(3, &records(&["000", "111"]), &[]), "in 2 peak 2 script 2 fixed 1 4 out 2\n000\n111\n");
    assert_eq!(printed(0, &records(&[""]), &[]), "in 1 peak 1 script 1 fixed 0 1 out 1\n\n");
    assert_eq!(printed(9, &records(&["---------"]), &[]), "in 1 peak 1 script 1 fixed - - out 1\n---------\n");
    assert_eq!(printed(33, &[], &[]), "refused 1 at 0\n");

    let last = format!("{}1", "-".repeat(31));
    assert_eq!(printed(32, &records(&[&last]), &[]), format!("in 1 peak 1 script 1 fixed - - out 1\n{last}\n"));
}

#[test]
fn what_the_program_reads() {
    assert_eq!(printed(9, &[0; 32_769], &[]), "refused 2 at 0\n");
    assert_eq!(printed(9, &[0; 32_776], &[]), "refused 3 at 0\n");
    assert_eq!(printed(9, &[0; 32_777], &[]), "refused 3 at 0\n");
    assert_eq!(printed(9, &[], &[0; 8_193]), "refused 7 at 0\n");
    assert_eq!(printed(9, &[], &[0; 8_200]), "refused 8 at 0\n");
    assert_eq!(printed(9, &[], &[0; 8_201]), "refused 8 at 0\n");
}

#[test]
fn limits() {
    assert_eq!(calls::check(32, &[0; RECORD * 4096]), Ok(vec![4096]));
    assert_eq!(calls::check(32, &[0; RECORD * 4097]), refused(3, 0));
    assert_eq!(calls::best_polarity(8, &[0; 256]), Ok(vec![0, 0]));
    assert_eq!(calls::best_polarity(9, &[0; 512]), refused(1, 0));

    let (mut work, mut out) = ([0; RECORD], [0; RECORD]);
    assert_eq!(calls::check(33, &[]), refused(1, 0));
    assert_eq!(calls::value(33, &[], 0), refused(1, 0));
    assert_eq!(calls::reasons(33, &[], 0, &mut out), refused(1, 0));
    assert_eq!(calls::truth_vector(33, &[], &mut out), refused(1, 0));
    assert_eq!(calls::coefficients(33, &[], 0, &mut out), refused(1, 0));
    assert_eq!(calls::vector(33, &[], 0, &mut out), refused(1, 0));
    assert_eq!(calls::write_form(33, &[], 0, &mut out), refused(1, 0));
    assert_eq!(calls::best_polarity(33, &[]), refused(1, 0));
    assert_eq!(calls::write_tree(33, &[], &mut out), refused(1, 0));
    assert_eq!(calls::write_kronecker(33, &[], &mut out), refused(1, 0));
    assert_eq!(calls::run(33, &[], &[], &mut work), refused(1, 0));
    assert_eq!(calls::settle(33, &[], &[], &mut work, &mut out), refused(1, 0));
    assert_eq!(calls::write_script(33, &[], &mut work, &mut out), refused(1, 0));
    assert_eq!(calls::compact(33, 0, &[], &mut out), refused(1, 0));
    assert_eq!(calls::wide_from_narrow(33, &[], &mut out), refused(1, 0));
    assert_eq!(calls::narrow_from_wide(33, &[], &mut out), refused(1, 0));
}

#[test]
fn the_last_of_thirty_two_variables() {
    let last = records(&[&format!("{}0", "-".repeat(31))]);
    assert_eq!(last, [0, 0, 0, 0x80, 0, 0, 0, 0]);
    assert_eq!(calls::check(31, &last), refused(4, 0));
    assert_eq!(calls::value(32, &last, 0x7fff_ffff), Ok(vec![1, 1]));
    assert_eq!(calls::value(32, &last, 0xffff_ffff), Ok(vec![0, 0]));
    assert_eq!(calls::value(32, &last, 1 << 32), refused(6, 0));
    let mut work = [7; RECORD];
    let exchanges = encoded_script(&[L { v: 31, literal: 0 }, L { v: 31, literal: 1 }]);
    assert_eq!(calls::run(32, &last, &exchanges, &mut work), Ok(vec![1, 1]));
    assert_eq!(work[..], last);
    assert_eq!(calls::run(32, &last, &encoded_script(&[L { v: 32, literal: 0 }]), &mut work), refused(9, 0));
}

#[test]
fn an_old_list_there_and_back() {
    let cubes = list(&["1-------0------1", "----------------", "0101010101010101"]);
    let (narrow, wide) = (encoded_narrow_list(&cubes), encoded_list(&cubes));
    assert_eq!(narrow[..4], [0x01, 0x81, 0x01, 0x80]);
    assert_eq!(wide[..8], [0x01, 0x81, 0, 0, 0x01, 0x80, 0, 0]);

    let mut out = [7; 25];
    assert_eq!(calls::wide_from_narrow(16, &narrow, &mut out), Ok(vec![3]));
    assert_eq!((&out[..24], out[24]), (&wide[..], 7));
    let mut out = [7; 13];
    assert_eq!(calls::narrow_from_wide(16, &wide, &mut out), Ok(vec![3]));
    assert_eq!((&out[..12], out[12]), (&narrow[..], 7));
}

#[test]
fn refusals_of_the_converters() {
    let mut out = [7; 7];
    assert_eq!(calls::wide_from_narrow(17, &[0; 3], &mut out), refused(1, 0));
    assert_eq!(calls::wide_from_narrow(16, &[0; 3], &mut out), refused(2, 0));
    assert_eq!(calls::wide_from_narrow(16, &[255; 4 * 4097], &mut out), refused(3, 0));
    assert_eq!(calls::wide_from_narrow(1, &[0, 0, 0, 0, 2, 0, 0, 0], &mut out), refused(4, 1));
    assert_eq!(calls::wide_from_narrow(1, &[0; 4], &mut out), refused(5, 0));

    let mut out = [7; 3];
    assert_eq!(calls::narrow_from_wide(33, &[0; 7], &mut out), refused(1, 0));
    assert_eq!(calls::narrow_from_wide(32, &[0; 7], &mut out), refused(20, 0));
    assert_eq!(calls::narrow_from_wide(17, &[], &mut out), refused(20, 0));
    assert_eq!(calls::narrow_from_wide(16, &[0; 4], &mut out), refused(2, 0));
    assert_eq!(calls::narrow_from_wide(16, &[255; 8 * 4097], &mut out), refused(3, 0));
    assert_eq!(calls::narrow_from_wide(16, &[0, 0, 1, 0, 0, 0, 0, 0], &mut out), refused(4, 0));
    assert_eq!(calls::narrow_from_wide(16, &[0; 8], &mut out), refused(5, 0));
    assert_eq!(out, [7; 3]);
}

#[test]
fn refusals_at_a_step_leave_the_work_buffer_zero() {
    let mut work = vec![7; RECORD * 4096 + 3];
    let split = encoded_script(&[Split { v: 0, i: 0 }]);
    assert_eq!(calls::run(1, &[0; RECORD * 4096], &split, &mut work), refused(13, 0));
    assert!(work.iter().all(|&byte| byte == 0));

    let (mut work, mut out) = (vec![7; 19], vec![7; 17]);
    let join = encoded_script(&[L { v: 0, literal: 1 }, Join { i: 1, j: 1 }]);
    assert_eq!(calls::settle(1, &records(&["0", "1"]), &join, &mut work, &mut out), refused(11, 1));
    assert_eq!((work, out), (vec![0; 19], vec![7; 17]));

    let (mut work, mut out) = (vec![7; 19], vec![7; 17]);
    let drop = encoded_script(&[L { v: 0, literal: 1 }, Drop { i: 0, j: 1 }]);
    assert_eq!(calls::settle(1, &records(&["0", "1"]), &drop, &mut work, &mut out), refused_for(16, 1, 1));
    assert_eq!((work, out), (vec![0; 19], vec![7; 17]));
}

#[test]
fn a_drop_of_unequal_cubes() {
    assert_eq!(run_of(&["0", "1"], Drop { i: 0, j: 1 }), refused_for(16, 0, 1));
    assert_eq!(run_of(&["0", "-"], Drop { i: 1, j: 0 }), refused_for(16, 0, 1));
    assert_eq!(run_of(&["01", "0-"], Drop { i: 0, j: 1 }), refused_for(16, 0, 1));
    assert_eq!(run_of(&["0-10", "1110"], Drop { i: 0, j: 1 }), refused_for(16, 0, 2));
    assert_eq!(run_of(&["0-10", "10-0"], Drop { i: 0, j: 1 }), refused_for(16, 0, 3));
}

#[test]
fn a_join_whose_number_is_not_one() {
    assert_eq!(run_of(&["", ""], Join { i: 0, j: 1 }), refused_for(17, 0, 0));
    assert_eq!(run_of(&["0-1", "0-1"], Join { i: 0, j: 1 }), refused_for(17, 0, 0));
    assert_eq!(run_of(&["0-1", "1-0"], Join { i: 0, j: 1 }), refused_for(17, 0, 2));
    assert_eq!(run_of(&["0-1", "-01"], Join { i: 0, j: 1 }), refused_for(17, 0, 2));
    assert_eq!(run_of(&["0-1", "-10"], Join { i: 1, j: 0 }), refused_for(17, 0, 3));
}

#[test]
fn a_turn_whose_number_is_not_two() {
    assert_eq!(run_of(&["0-1", "0-1"], Turn { v: 0, i: 0, j: 1 }), refused_for(18, 0, 0));
    assert_eq!(run_of(&["0-1", "1-1"], Turn { v: 0, i: 0, j: 1 }), refused_for(18, 0, 1));
    assert_eq!(run_of(&["0-1", "--1"], Turn { v: 0, i: 0, j: 1 }), refused_for(18, 0, 1));
    assert_eq!(run_of(&["0-1", "110"], Turn { v: 2, i: 0, j: 1 }), refused_for(18, 0, 3));
}

#[test]
fn a_turn_at_a_variable_where_the_cubes_agree() {
    assert_eq!(run_of(&["0-1", "1-0"], Turn { v: 1, i: 0, j: 1 }), refused_for(19, 0, 2));
    assert_eq!(run_of(&["0-1", "--0"], Turn { v: 1, i: 1, j: 0 }), refused_for(19, 0, 2));
    assert_eq!(run_of(&["0-1", "1-0"], Turn { v: 0, i: 0, j: 1 }), Ok(vec![2, 2]));
}

#[test]
fn eighteen_is_before_nineteen() {
    assert_eq!(run_of(&["0-11", "1-11"], Turn { v: 1, i: 0, j: 1 }), refused_for(18, 0, 1));
    assert_eq!(run_of(&["0-11", "1-00"], Turn { v: 1, i: 0, j: 1 }), refused_for(18, 0, 3));
}

#[test]
fn other_refusals_at_a_step_have_no_differing_variables() {
    let cubes = ["0-1", "1-1", "110"];
    for step in [Drop { i: 0, j: 3 }, Join { i: 3, j: 1 }, Turn { v: 1, i: 3, j: 3 }, Split { v: 0, i: 3 }] {
        assert_eq!(run_of(&cubes, step), refused(10, 0));
    }
    for step in [Drop { i: 2, j: 2 }, Join { i: 2, j: 2 }, Turn { v: 1, i: 2, j: 2 }] {
        assert_eq!(run_of(&cubes, step), refused(11, 0));
    }
    assert_eq!(run_of(&cubes, Split { v: 0, i: 2 }), refused(13, 0));
}

#[test]
fn the_cubes_as_they_stood_before_the_step() {
    // The split leaves 00- at place 0, which agrees with 100 in one variable more than 0-- does.
    let given = records(&["0--", "100"]);
    let drop = Drop { i: 0, j: 1 };
    let mut work = [7; 3 * RECORD];
    assert_eq!(calls::run(3, &given, &encoded_script(&[drop]), &mut work), refused_for(16, 0, 3));
    let script = encoded_script(&[Split { v: 1, i: 0 }, drop]);
    assert_eq!(calls::run(3, &given, &script, &mut work), refused_for(16, 1, 2));
}

#[test]
fn all_of_thirty_two_variables_differ() {
    let (zeros, nones) = ("0".repeat(32), "-".repeat(32));
    assert_eq!(run_of(&[&zeros, &nones], Drop { i: 0, j: 1 }), refused_for(16, 0, 32));
    assert_eq!(run_of(&[&zeros, &nones], Join { i: 0, j: 1 }), refused_for(17, 0, 32));
    assert_eq!(run_of(&[&zeros, &nones], Turn { v: 31, i: 0, j: 1 }), refused_for(18, 0, 32));
}

#[test]
fn refusals_before_the_first_step_write_nothing() {
    let mut work = vec![7; 16];
    let mut late = encoded_script(&[L { v: 0, literal: 1 }, L { v: 0, literal: 1 }]);
    late[8 + 7] = 1;
    assert_eq!(calls::run(1, &records(&["0", "1"]), &late, &mut work), refused(9, 1));
    assert_eq!(work, [7; 16]);
}

#[test]
fn forms_have_the_function_that_they_come_from() {
    for function in 0..256u32 {
        let given: Vec<u8> = (0..8).map(|a| (function >> a & 1) as u8).collect();
        for p in 0..8 {
            let coefficients = coefficients(&given, p);
            assert_eq!(vector(&coefficients, p), given);
            assert_eq!(truth_vector(3, &form(3, &coefficients, p)), given);
        }
    }
}

#[test]
fn a_step_that_is_accepted_keeps_the_function() {
    let cubes = list(&["00", "10", "-0", "01", "11", "-1", "0-", "1-", "--"]);
    let mut accepted = 0;
    for (a, b) in cubes.iter().flat_map(|a| cubes.iter().map(move |b| (a, b))) {
        let steps = [Drop { i: 0, j: 1 }, Join { i: 0, j: 1 }];
        let turns = (0..2).map(|v| Turn { v, i: 0, j: 1 });
        let splits = (0..4).map(|k| Split { v: k / 2, i: k % 2 });
        for step in steps.into_iter().chain(turns).chain(splits) {
            let given = vec![a.clone(), b.clone()];
            if let Ok(run) = script::run(&given, &[step], 3) {
                assert_eq!(truth_vector(2, &run.list), truth_vector(2, &given), "{step:?} on {given:?}");
                accepted += 1;
            }
        }
    }
    // 9 drops, 36 joins, 36 pairs turned at either variable, 81 pairs split at 4 places.
    assert_eq!(accepted, 9 + 36 + 2 * 36 + 4 * 81);
}

#[test]
fn words_of_an_answer() {
    assert_eq!(words(&Ok(vec![5, 6])), [0, 0, 5, 6, 0, 0, 0, 0]);
    assert_eq!(words(&refused(9, 3)), [9, 3, 0, 0, 0, 0, 0, 0]);
    assert_eq!(words(&refused_for(18, 3, 5)), [18, 3, 5, 0, 0, 0, 0, 0]);
}
