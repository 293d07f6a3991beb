//! Document 02, Ten.

use super::{all_functions, list, parity, records, refused};
use model::calls::{self, Outcome};
use model::cost::{cost, standing};
use model::cube::{RECORD, truth_vector};
use model::kronecker::{cheapest, expansions, tree};
use model::polarity::{coefficients, form};
use model::program::printed;
use model::trees;
use model::trees::Expansion::{Negative, Positive, Shannon};

/// The choice for a vector, its list and its cost; the number of products is the list's.
fn writes(vector: &[u8], choice: usize, cubes: &[&str], cost: usize) {
    let form = cheapest(vector.len().ilog2() as usize, vector);
    assert_eq!((form.choice, form.list), (choice, list(cubes)), "{vector:?}");
    assert_eq!(standing(&list(cubes)), (cost, cubes.len()), "{vector:?}");
}

/// What a choice's list is of a vector.
fn of_choice(vector: &[u8], choice: usize, cubes: &[&str]) {
    let n = vector.len().ilog2() as usize;
    assert_eq!(tree(&expansions(n, choice), vector).list(&[]), list(cubes), "{vector:?} by {choice}");
}

#[test]
fn variable_0_is_the_lowest_digit() {
    assert_eq!(expansions(0, 0), []);
    assert_eq!(expansions(3, 0), [Shannon; 3]);
    assert_eq!(expansions(3, 1), [Positive, Shannon, Shannon]);
    assert_eq!(expansions(3, 2), [Negative, Shannon, Shannon]);
    assert_eq!(expansions(3, 9), [Shannon, Shannon, Positive]);
    assert_eq!(expansions(3, 21), [Shannon, Positive, Negative]);
    assert_eq!(expansions(6, 728), [Negative; 6]);
}

#[test]
fn without_variables() {
    writes(&[0], 0, &[], 0);
    writes(&[1], 0, &[""], 0);
}

#[test]
fn of_one_variable() {
    writes(&[0, 0], 0, &[], 0);
    // Both Davio expansions write the constant; Shannon writes both literals.
    writes(&[1, 1], 1, &["-"], 0);
    writes(&[0, 1], 0, &["1"], 1);
    writes(&[1, 0], 0, &["0"], 1);
}

/// All nine lists of a function.
#[test]
fn of_two_variables() {
    let or = [0, 1, 1, 1];
    of_choice(&or, 0, &["01", "10", "11"]);
    of_choice(&or, 1, &["-1", "10"]);
    of_choice(&or, 2, &["-0", "-1", "00"]);
    of_choice(&or, 3, &["01", "1-"]);
    of_choice(&or, 4, &["-1", "1-", "11"]);
    of_choice(&or, 5, &["--", "0-", "01"]);
    of_choice(&or, 6, &["0-", "00", "1-"]);
    of_choice(&or, 7, &["--", "-0", "10"]);
    of_choice(&or, 8, &["--", "00"]);
    writes(&or, 8, &["--", "00"], 1);
    writes(&[1, 1, 1, 0], 4, &["--", "11"], 1);
    writes(&[0, 1, 1, 0], 0, &["01", "10"], 2);
    writes(&[1, 0, 0, 1], 0, &["00", "11"], 2);
    writes(&[1, 1, 1, 1], 4, &["--"], 0);
}

#[test]
fn one_expansion_for_each_variable() {
    writes(&[1, 0, 0, 0, 0, 0, 0, 1], 0, &["000", "111"], 2);
    // One variable alone by a Davio expansion: the first, and the last.
    writes(&[1, 1, 0, 0, 0, 0, 0, 1], 1, &["-00", "111"], 2);
    writes(&[1, 1, 0, 0, 0, 0, 1, 0], 2, &["-00", "011"], 2);
    writes(&[1, 0, 0, 0, 1, 0, 0, 1], 9, &["00-", "111"], 2);
    // A tree has negative Davio for variables 1 and 2 in one branch of variable 0, and Shannon in the other.
    let vector = [0, 0, 1, 1, 1, 1, 1, 0];
    writes(&vector, 2, &["-01", "-10", "011"], 3);
    assert_eq!(trees::list(&vector), list(&["---", "-00", "111"]));
}

#[test]
fn parities() {
    writes(&parity(1), 0, &["1"], 1);
    writes(&parity(2), 0, &["01", "10"], 2);
    writes(&parity(3), 13, &["--1", "-1-", "1--"], 3);
    writes(&parity(4), 40, &["---1", "--1-", "-1--", "1---"], 4);
}

/// With positive Davio for each variable the constant is one of four products; with negative Davio for one of them there are
/// three, which cost as much.
#[test]
fn ties_go_to_the_smallest_choice_and_not_by_products() {
    let vector = parity(3).iter().map(|bit| 1 - bit).collect::<Vec<u8>>();
    for (choice, cubes) in [(14, ["--1", "-1-", "0--"]), (16, ["--1", "-0-", "1--"]), (22, ["--0", "-1-", "1--"])] {
        of_choice(&vector, choice, &cubes);
    }
    writes(&vector, 13, &["---", "--1", "-1-", "1--"], 3);
}

#[test]
fn a_polarity_is_a_choice_of_davio_expansions() {
    for vector in all_functions(3) {
        for p in 0..8 {
            let choice = (0..3).map(|k| 3usize.pow(k) * (1 + (p >> k & 1))).sum();
            let mut products = tree(&expansions(3, choice), &vector).list(&[]);
            let mut form = form(3, &coefficients(&vector, p), p);
            products.sort();
            form.sort();
            assert_eq!(products, form, "{vector:?}, polarity {p}");
        }
    }
}

#[test]
fn between_a_tree_and_every_polarity() {
    let (mut below, mut above) = (0, 0);
    for vector in all_functions(3) {
        let written = cheapest(3, &vector).list;
        assert_eq!(truth_vector(3, &written), vector);
        let polarities = (0..8).map(|p| cost(&form(3, &coefficients(&vector, p), p)));
        let (least, tree) = (polarities.min().unwrap(), cost(&trees::list(&vector)));
        assert!(tree <= cost(&written) && cost(&written) <= least);
        below += u32::from(cost(&written) < least);
        above += u32::from(tree < cost(&written));
    }
    assert_eq!((below, above), (60, 20));
}

/// Its list would cost as much as the form and the tree's list, and has a product less than both.
#[test]
fn settling_ignores_it() {
    let vector = [1, 1, 1, 1, 1, 0, 0, 0];
    writes(&vector, 8, &["--0", "001"], 2);
    assert_eq!(trees::list(&vector), list(&["---", "-11", "101"]));
    let given = records(&["-00", "-10", "001"]);
    assert_eq!(printed(3, &given, &[]), "in 3 peak 3 script 3 fixed 3 3 out 3\n---\n--1\n001\n");
}

#[test]
fn in_lent_buffers() {
    let mut out = [7; 3 * RECORD];
    assert_eq!(calls::write_kronecker(2, &[0, 1, 1, 1], &mut out), Ok(vec![1, 8, 2]));
    assert_eq!((&out[..16], &out[16..]), (&records(&["--", "00"])[..], &[7; 8][..]));
    assert_eq!(calls::write_kronecker(0, &[0], &mut []), Ok(vec![0, 0, 0]));
    assert_eq!(calls::write_kronecker(6, &[0; 64], &mut []), Ok(vec![0, 0, 0]));
    let mut out = [7; RECORD];
    assert_eq!(calls::write_kronecker(6, &[1; 64], &mut out), Ok(vec![0, 364, 1]));
    assert_eq!(out, [0; RECORD]);
}

/// Each refusal, and each before every one that comes after it.
#[test]
fn refusals_write_nothing() {
    let kronecker = |n, vector: &[u8], room: usize| -> Outcome {
        let mut out = vec![7; room];
        let outcome = calls::write_kronecker(n, vector, &mut out);
        assert!(out.iter().all(|&byte| byte == 7));
        outcome
    };
    assert_eq!(kronecker(7, &[1; 128], 99), refused(1, 0));
    assert_eq!(kronecker(8, &[1; 256], 99), refused(1, 0));
    assert_eq!(kronecker(7, &[2; 127], 0), refused(1, 0));
    assert_eq!(kronecker(u64::MAX, &[], 0), refused(1, 0));
    for vector in [&[0, 1, 2][..], &[0, 1, 1, 1, 2], &[], &[0, 1]] {
        assert_eq!(kronecker(2, vector, 0), refused(14, 4));
        assert_eq!(kronecker(2, vector, 99), refused(14, 4));
    }
    assert_eq!(kronecker(2, &[0, 1, 2, 255], 0), refused(14, 2));
    assert_eq!(kronecker(0, &[2], 0), refused(14, 0));
    assert_eq!(kronecker(2, &[0, 1, 1, 1], 15), refused(5, 0));
    assert_eq!(kronecker(2, &[0, 1, 1, 1], 8), refused(5, 0));
    // The constant is free, and there must be room for it all the same.
    assert_eq!(kronecker(0, &[1], 0), refused(5, 0));
    assert_eq!(kronecker(6, &[1; 64], 7), refused(5, 0));
}
