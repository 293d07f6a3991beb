//! Document 02, Six.

use super::{all_functions, list, parity, records, refused};
use model::calls::{self, Outcome};
use model::cost::{cost, standing};
use model::cube::{RECORD, truth_vector};
use model::polarity::{best, coefficients, form};
use model::program::printed;
use model::trees::Expansion::{self, Negative, Positive, Shannon};
use model::trees::{self, Tree, cheapest};

/// The list of a vector's tree and its cost; the number of products is the list's.
fn writes(vector: &[u8], cubes: &[&str], cost: usize) {
    let written = trees::list(vector);
    assert_eq!((written, standing(&list(cubes))), (list(cubes), (cost, cubes.len())), "{vector:?}");
}

#[test]
fn without_variables() {
    writes(&[0], &[], 0);
    writes(&[1], &[""], 0);
}

#[test]
fn of_one_variable() {
    writes(&[0, 0], &[], 0);
    writes(&[1, 1], &["-"], 0);
    writes(&[0, 1], &["1"], 1);
    writes(&[1, 0], &["0"], 1);
}

#[test]
fn of_two_variables() {
    // Negative Davio: the upper function is the constant, which is free.
    writes(&[0, 1, 1, 1], &["--", "00"], 1);
    // Positive Davio.
    writes(&[1, 1, 1, 0], &["--", "11"], 1);
    writes(&[0, 1, 1, 0], &["01", "10"], 2);
    writes(&[1, 0, 0, 1], &["00", "11"], 2);
    writes(&[1, 1, 1, 1], &["--"], 0);
}

#[test]
fn poor_under_every_polarity() {
    let vector = [1, 0, 0, 0, 0, 0, 0, 1];
    writes(&vector, &["000", "111"], 2);
    assert_eq!(best(3, &vector).size, 4);
    let vector = [1, 1, 0, 0, 0, 0, 0, 1];
    writes(&vector, &["-00", "111"], 2);
    assert_eq!(standing(&form(3, &coefficients(&vector, 1), 1)), (3, 4));
}

#[test]
fn parities() {
    writes(&parity(1), &["1"], 1);
    writes(&parity(2), &["01", "10"], 2);
    // Shannon costs 4 at the first node, both others 3.
    writes(&parity(3), &["-01", "-10", "1--"], 3);
    writes(&parity(4), &["--01", "--10", "-1--", "1---"], 4);
    assert_eq!(trees::list(&parity(8)).len(), 8);
}

#[test]
fn free_only_where_no_literal_leads() {
    let one = cheapest(&[1, 1], false);
    assert_eq!(one, Tree::node(Positive, [&Tree::Constant(1), &Tree::Constant(0)]));
    assert_eq!((one.cost(false), one.cost(true)), (0, 1));
    // With the constant free, negative Davio costs 1; below a literal all three cost 2.
    assert_eq!(expansion(&cheapest(&[0, 1, 1, 1], false)), Negative);
    assert_eq!(expansion(&cheapest(&[0, 1, 1, 1], true)), Shannon);
    writes(&[0, 0, 0, 1, 0, 1, 0, 1], &["101", "11-"], 2);
}

/// Positive Davio comes first, and has the constant; negative Davio would cost as much with a product less.
#[test]
fn ties_go_by_order_and_not_by_products() {
    let vector = [0, 1, 1, 0, 1, 0, 1, 0];
    writes(&vector, &["---", "-00", "1--"], 2);
    let form = form(3, &coefficients(&vector, 7), 7);
    assert_eq!((form, best(3, &vector).polarity), (list(&["0--", "-00"]), 7));
    let given = records(&["0--", "-01", "-1-", "---"]);
    assert_eq!(printed(3, &given, &[]), "in 4 peak 4 script 4 fixed 7 2 out 2\n0--\n-00\n");
}

fn expansion(tree: &Tree) -> Expansion {
    match tree {
        Tree::Node(by, _) => *by,
        Tree::Constant(_) => panic!("no variable is left"),
    }
}

/// All trees of a function, by the expansions of the root, then of its first branch, then of its second.
fn all_trees(function: &[u8]) -> Vec<Tree> {
    if let &[constant] = function {
        return vec![Tree::Constant(constant)];
    }
    let mut trees = Vec::new();
    for by in Expansion::ALL {
        let [first, second] = by.branches(function).map(|branch| all_trees(&branch));
        for a in &first {
            trees.extend(second.iter().map(|b| Tree::node(by, [a, b])));
        }
    }
    trees
}

#[test]
fn the_first_of_all_trees_that_cost_least() {
    for (n, count) in [(0, 1), (1, 3), (2, 27)] {
        for vector in all_functions(n) {
            let trees = all_trees(&vector);
            assert_eq!(trees.len(), count);
            assert!(trees.iter().all(|tree| truth_vector(n, &tree.list(&[])) == vector));
            assert!(trees.iter().all(|tree| cost(&tree.list(&[])) == tree.cost(false)));
            let first = trees.iter().min_by_key(|tree| cost(&tree.list(&[])));
            assert_eq!(Some(&cheapest(&vector, false)), first, "{vector:?}");
        }
    }
}

#[test]
fn no_dearer_than_a_polarity() {
    let mut cheaper = 0;
    for vector in all_functions(3) {
        let (tree, best) = (trees::list(&vector), best(3, &vector));
        assert_eq!(truth_vector(3, &tree), vector);
        let form = form(3, &coefficients(&vector, best.polarity), best.polarity);
        assert!(cost(&tree) <= cost(&form));
        cheaper += u32::from(cost(&tree) < cost(&form));
    }
    assert_eq!(cheaper, 80);
}

#[test]
fn as_a_candidate_of_settling() {
    let minterms = records(&["000", "100", "111"]);
    assert_eq!(printed(3, &minterms, &[]), "in 3 peak 3 script 3 fixed 1 4 out 2\n-00\n111\n");
    // The form costs as much as the tree, has as many products, and comes first.
    let given = records(&["1-", "01", "11"]);
    assert_eq!(printed(2, &given, &[]), "in 3 peak 3 script 3 fixed 0 2 out 2\n1-\n-1\n");
    // And so does the given list.
    assert_eq!(printed(2, &records(&["-0", "0-"]), &[]), "in 2 peak 2 script 2 fixed 0 2 out 2\n-0\n0-\n");
    // Above 8 variables there is no tree.
    let cubes = ["00-------", "1-1------", "-01------"];
    let text = "in 3 peak 3 script 3 fixed - - out 3\n00-------\n1-1------\n-01------\n";
    assert_eq!(printed(9, &records(&cubes), &[]), text);
    let text = "in 3 peak 3 script 3 fixed 1 4 out 2\n000-----\n111-----\n";
    assert_eq!(printed(8, &records(&cubes.map(|cube| &cube[..8])), &[]), text);
}

#[test]
fn in_lent_buffers() {
    let mut out = [7; 3 * RECORD];
    assert_eq!(calls::write_tree(2, &[0, 1, 1, 1], &mut out), Ok(vec![2, 1]));
    assert_eq!((&out[..16], &out[16..]), (&records(&["--", "00"])[..], &[7; 8][..]));
    assert_eq!(calls::write_tree(0, &[0], &mut []), Ok(vec![0, 0]));
    assert_eq!(calls::write_tree(8, &[0; 256], &mut []), Ok(vec![0, 0]));
    let mut out = [7; RECORD];
    assert_eq!(calls::write_tree(8, &[1; 256], &mut out), Ok(vec![1, 0]));
    assert_eq!(out, [0; RECORD]);
}

/// Each refusal, and each before every one that comes after it.
#[test]
fn refusals_write_nothing() {
    let tree = |n, vector: &[u8], room: usize| -> Outcome {
        let mut out = vec![7; room];
        let outcome = calls::write_tree(n, vector, &mut out);
        assert!(out.iter().all(|&byte| byte == 7));
        outcome
    };
    assert_eq!(tree(9, &[1; 512], 99), refused(1, 0));
    assert_eq!(tree(9, &[2; 511], 0), refused(1, 0));
    assert_eq!(tree(u64::MAX, &[], 0), refused(1, 0));
    for vector in [&[0, 1, 2][..], &[0, 1, 1, 1, 2], &[], &[0, 1]] {
        assert_eq!(tree(2, vector, 0), refused(14, 4));
        assert_eq!(tree(2, vector, 99), refused(14, 4));
    }
    assert_eq!(tree(2, &[0, 1, 2, 255], 0), refused(14, 2));
    assert_eq!(tree(2, &[0, 1, 2, 255], 99), refused(14, 2));
    assert_eq!(tree(0, &[2], 0), refused(14, 0));
    assert_eq!(tree(2, &[0, 1, 1, 1], 15), refused(5, 0));
    assert_eq!(tree(2, &[0, 1, 1, 1], 8), refused(5, 0));
    // The constant is free, and there must be room for it all the same.
    assert_eq!(tree(0, &[1], 0), refused(5, 0));
    assert_eq!(tree(8, &[1; 256], 7), refused(5, 0));
}
