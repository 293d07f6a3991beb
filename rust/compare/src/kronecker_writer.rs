//! Write kronecker: every set of faults together, and all functions of few variables, beside all choices and in buffers of all
//! lengths near those that they need.

use crate::callers::by_words;
use crate::differ::{Call, compared};
use crate::kronecker_rules::DOCUMENT;
use crate::kronecker_search::Extended;
use crate::replays::expect;
use crate::tree_lists::best_form;
use crate::vector_calls::{case, faults_together, functions, in_every_room, of_cost_0_and_1};
use model::cost::{cost, standing};
use model::cube::{Cube, RECORD, encoded_list, truth_vector};
use model::trees;

const CALL: Call = Call::WriteKronecker;

pub fn all() -> Result<(), String> {
    faults_together(CALL)?;
    for n in 0..4 {
        beside_all_choices(n)?;
        in_every_room(CALL, n)?;
    }
    functions_of_four()
}

/// Every function of n variables beside all choices: none costs less, and of those that cost as much the smallest is answered and
/// its list written.
fn beside_all_choices(n: u64) -> Result<(), String> {
    let forms = (0..3usize.pow(n as u32)).map(|choice| lists(n, choice)).collect::<Result<Vec<_>, _>>()?;
    let mut by_cost = [0u64; 9];
    let mut several = 0;
    for (number, input) in functions(n).enumerate() {
        let case = case(CALL, n, input, RECORD * 8 + 3);
        let after = compared(&case)?;
        let costs: Vec<usize> = forms.iter().map(|lists| cost(&lists[number])).collect();
        let choice = (0..costs.len()).min_by_key(|&choice| costs[choice]).expect("there is a choice");
        let list = &forms[choice][number];
        let words = [costs[choice], choice, list.len()].map(|word| word as u64);
        let same = after.answer[2..5] == words && after.out.starts_with(&encoded_list(list));
        expect(same, "not the smallest of the choices that cost least", &case, &after)?;
        by_cost[costs[choice]] += 1;
        several += u64::from(costs.iter().filter(|&&cost| cost == costs[choice]).count() > 1);
    }
    let (functions, choices) = (1u64 << (1 << n), forms.len());
    println!("{functions} functions of {n} variables, {choices} choices each; by the least cost, from 0: {by_cost:?}");
    println!("of {several} several choices cost least");
    let expected = of_cost_0_and_1(n);
    if by_cost[..2] == expected { Ok(()) } else { Err(format!("not {expected:?} of cost 0 and 1")) }
}

/// A choice's lists of all functions of n variables, with no expansion: in a product each variable has one of two codes, and of
/// all sets of these products just one is a function's list.
fn lists(n: u64, choice: usize) -> Result<Vec<Vec<Cube>>, String> {
    let mut products: Vec<Cube> = vec![vec![]];
    for k in 0..n as u32 {
        // Shannon, positive Davio, negative Davio: the branch that comes first has the first code.
        let codes = [[0, 1], [2, 1], [2, 0]][choice / 3usize.pow(k) % 3];
        products = products.iter().flat_map(|cube| codes.map(|code| [&cube[..], &[code]].concat())).collect();
    }
    let mut lists = vec![None; 1 << (1 << n)];
    for set in 0..lists.len() {
        let list: Vec<Cube> = (0..products.len()).filter(|&k| set >> k & 1 == 1).map(|k| products[k].clone()).collect();
        let number = truth_vector(n as usize, &list).iter().rev().fold(0, |number, &bit| 2 * number + usize::from(bit));
        if lists[number].replace(list).is_some() {
            return Err(format!("choice {choice} has two lists of function {number} of {n} variables"));
        }
    }
    Ok(lists.into_iter().flatten().collect())
}

/// How the functions of 4 variables stand.
#[derive(Default)]
struct Four {
    by_cost: [u64; 17],
    by_products: [u64; 17],
    below_every_polarity: u64,
    above_the_tree: u64,
    as_the_tree_with_fewer_products: u64,
}

impl Four {
    fn add(&mut self, vector: &[u8], list: &[Cube], fewest_products: usize) {
        let tree = trees::list(vector);
        self.by_cost[cost(list)] += 1;
        self.by_products[fewest_products] += 1;
        self.below_every_polarity += u64::from(cost(list) < cost(&best_form(4, vector)));
        self.above_the_tree += u64::from(cost(list) > cost(&tree));
        self.as_the_tree_with_fewer_products += u64::from(standing(list) < standing(&tree));
    }
}

/// Every function of 4 variables as a search in the extended truth vector finds it, beside the forms of all polarities and the
/// tree's list.
fn functions_of_four() -> Result<(), String> {
    let mut four = Four::default();
    for input in functions(4) {
        let extended = Extended::of(&input);
        let form = DOCUMENT.form(&extended);
        four.add(&input, &form.list, extended.fewest_products());
        let case = case(CALL, 4, input, RECORD * form.list.len());
        let after = by_words(&case)?;
        let same = after.answer[..2] == [0, 0]
            && after.answer[2..5] == form.words().map(|word| word as u64)
            && after.out == encoded_list(&form.list);
        expect(same, "not the choice that a search finds", &case, &after)?;
    }
    println!("{} functions of 4 variables; by the least cost, from 0: {:?}", 1 << 16, four.by_cost);
    println!("by the fewest products of a choice, from 0: {:?}", four.by_products);
    println!(
        "{} have a choice that costs less than the form of every polarity, {} a tree that costs less than every choice; of {} \
         the form costs as much as the tree's list and has fewer products",
        four.below_every_polarity, four.above_the_tree, four.as_the_tree_with_fewer_products
    );
    let expected = of_cost_0_and_1(4);
    // A list of one product is a cube.
    if four.by_cost[..2] != expected || four.by_products[..2] != [1, 81] {
        return Err(format!("not {expected:?} of cost 0 and 1, and [1, 81] of no product and one"));
    }
    let met = [four.below_every_polarity, four.above_the_tree, four.as_the_tree_with_fewer_products];
    if met.contains(&0) { Err("the functions do not tell the forms apart".into()) } else { Ok(()) }
}
