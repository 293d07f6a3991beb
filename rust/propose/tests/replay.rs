//! What is proposed, done by the model's steps: it is never refused, leaves the list that the search says, and keeps every value.

use model::cube::Cube;
use model::script::Step as Plain;
use model::shared::{self, Outputs, Shared, Step as Whole};
use propose::Shape;
use propose::clock::Clock;
use propose::pla;
use propose::product::Product;
use propose::random::Random;
use propose::script::{MOST_PRODUCTS, MOST_STEPS, Script, Step};
use propose::search::{Search, standing};
use std::time::Duration;

fn product(random: &mut Random, shape: Shape) -> Product {
    let mut product =
        Product { outputs: 1 + random.below((1_usize << shape.outputs) - 1) as u32, ..Product::default() };
    for variable in 0..shape.variables {
        let code = random.below(3);
        product.seen |= u32::from(code < 2) << variable;
        product.value |= u32::from(code == 1) << variable;
    }
    product
}

fn cube(shape: Shape, product: &Product) -> Cube {
    (0..shape.variables).map(|k| if product.seen >> k & 1 == 0 { 2 } else { (product.value >> k & 1) as u8 }).collect()
}

fn outputs(product: &Product) -> Outputs {
    (0..32).filter(|k| product.outputs >> k & 1 == 1).collect()
}

fn as_shared(shape: Shape, list: &[Product]) -> Shared {
    list.iter().map(|product| (cube(shape, product), outputs(product))).collect()
}

/// A step as its text says it.
fn step(step: &Step) -> Whole {
    let text = step.to_string();
    let words: Vec<&str> = text.split(' ').collect();
    let number = |word: &str| word.trim_start_matches('x').parse::<usize>().unwrap();
    match words[..] {
        ["drop", i, j] => Whole::Plain(Plain::Drop { i: number(i), j: number(j) }),
        ["join", i, j] => Whole::Plain(Plain::Join { i: number(i), j: number(j) }),
        ["split", v, i] => Whole::Plain(Plain::Split { v: number(v), i: number(i) }),
        ["turn", v, i, j] => Whole::Plain(Plain::Turn { v: number(v), i: number(i), j: number(j) }),
        ["merge", i, j] => Whole::Merge { i: number(i), j: number(j) },
        _ => panic!("no step: {text}"),
    }
}

fn replay(shape: Shape, given: &[Product], script: &Script) -> Shared {
    assert!(script.steps.len() <= MOST_STEPS);
    let steps: Vec<Whole> = script.steps.iter().map(step).collect();
    assert!(shape.outputs > 1 || steps.iter().all(|step| matches!(step, Whole::Plain(_))));
    let left = shared::run(&as_shared(shape, given), &steps, MOST_PRODUCTS).unwrap().list;
    assert_eq!(left, as_shared(shape, &script.list));
    assert!(standing(shape, &script.list) <= standing(shape, given));
    left
}

fn proposed(shape: Shape, given: &[Product], milliseconds: u64) -> Script {
    Search::new(shape, given, 1, Clock::quiet(Duration::from_millis(milliseconds))).run()
}

#[test]
fn random_lists() {
    let mut random = Random::new(1);
    for _ in 0..200 {
        let shape = Shape { variables: random.below(7) as u32, outputs: random.pick(&[1, 1, 2, 3]) };
        let count = random.below(40);
        let given: Vec<Product> = (0..count).map(|_| product(&mut random, shape)).collect();
        let left = replay(shape, &given, &proposed(shape, &given, 10));
        for label in 0..1 << shape.variables {
            assert_eq!(shared::value(&left, label), shared::value(&as_shared(shape, &given), label));
        }
    }
}

/// Where a list is as long as can be, no split has room before a join.
#[test]
fn as_long_as_can_be() {
    let mut random = Random::new(2);
    for (variables, outputs) in [(9, 1), (32, 1), (4, 32), (32, 32)] {
        let shape = Shape { variables, outputs };
        let given: Vec<Product> = (0..MOST_PRODUCTS).map(|_| product(&mut random, shape)).collect();
        replay(shape, &given, &proposed(shape, &given, 500));
    }
}

#[test]
fn minterms() {
    let text = ".i 3\n.o 2\n000 1~\n111 11 # in both\n\n110 01\n.e\n";
    let map = pla::read(text).unwrap();
    let printed = ".i 3\n.o 2\n.type esop\n.p 4\n000 10\n111 10\n111 01\n110 01\n.e\n";
    assert_eq!(pla::printed(&map), printed);
    assert_eq!(pla::printed(&pla::read(printed).unwrap()), printed);
    let script = proposed(map.shape, &map.list, 10);
    assert_eq!(script.list.len(), 3);
    replay(map.shape, &map.list, &script);
}

#[test]
fn texts_that_are_not_read() {
    let why = |text: &str| pla::read(text).unwrap_err();
    assert_eq!(why("# nothing\n"), ".i is missing");
    assert_eq!(why(".i 2\n.o 1\n1- 1\n-1 1\n.e\n"), "line 4: overlaps line 3; by OR that is another map than by EXOR");
    assert_eq!(why(".i 2\n.o 1\n11 -\n.e\n"), "line 3: a label that may have either value isn't read");
    assert_eq!(why(".i 2\n.o 1\n.type fr\n"), "line 3: the types esop, f and fd are read");
    assert_eq!(why(".i 33\n"), "line 1: a number from 0 to 32 is needed");
    assert_eq!(
        why(".i 2\n.o 1\n111\n1112\n"),
        "line 4: a product has 2 characters for the inputs and 1 for the outputs"
    );
    assert_eq!(why("11 1\n"), "line 1: .i is missing");
}
