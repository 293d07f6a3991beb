//! Document 02, Thirteen: maps of several lists asked for a slot, settled and asked for reasons. What is left in every buffer is said here too.

use crate::differ::{After, Call, Case, compared, empty};
use crate::examples::{Example, records};
use crate::map_lists::NO_LIST;
use crate::map_parts::end_to_end;
use model::cube::RECORD;
use model::script::Step::{self, Drop, Join, L, Split, Turn};
use model::script::encoded_script;
use model::selector::{MOST_LISTS, PerList};

pub fn all() -> Vec<Example> {
    [slots(), numbers_of_lists(), lengths(), refused_lists(), limits()].concat()
}

/// Three lists over two variables: OR, AND, and OR once more, with the constant.
const LISTS: [&[&str]; 3] = [&["1-", "-1", "11"], &["11"], &["--", "00"]];

/// A map with these lists, and with no steps for them; in an output that just holds them, and a work buffer for three records.
fn map(call: Call, n: u64, lists: &[&[&str]]) -> Case {
    let lists: Vec<Vec<u8>> = lists.iter().map(|cubes| records(cubes)).collect();
    let (input, lengths) = end_to_end(&lists);
    let (work, out) = match call {
        Call::Slot => (vec![], vec![]),
        Call::SettleMap => (vec![7; 3 * RECORD], vec![7; input.len()]),
        _ => (vec![], vec![7; input.len() / 4]),
    };
    let script_lengths = if call == Call::SettleMap { vec![0; lists.len()] } else { vec![] };
    let numbers = if call == Call::Slot { [0; MOST_LISTS] } else { [7; MOST_LISTS] };
    Case { input, lengths, script_lengths, work, out, numbers, ..empty(call, n) }
}

fn with_scripts(case: Case, scripts: &[&[Step]]) -> Case {
    let scripts: Vec<Vec<u8>> = scripts.iter().map(|steps| encoded_script(steps)).collect();
    let (script, script_lengths) = end_to_end(&scripts);
    Case { script, script_lengths, ..case }
}

const CALLS: [Call; 3] = [Call::Slot, Call::SettleMap, Call::MapReasons];

/// The same of each of the three calls.
fn of_each(examples: &mut Vec<Example>, case: impl Fn(Call) -> Case, answer: &[u64]) {
    examples.extend(CALLS.map(|call| (case(call), answer.to_vec())));
}

fn slots() -> Vec<Example> {
    let at = |lists: &[&[&str]], number| Case { number, ..map(Call::Slot, 2, lists) };
    let last = format!("{}1", "-".repeat(31));
    let mut twelfth: [&[&str]; 12] = [&[]; 12];
    let cubes = [last.as_str()];
    twelfth[11] = &cubes;
    let at_the_last = |number| Case { number, ..map(Call::Slot, 32, &twelfth) };
    vec![
        (at(&LISTS, 0), vec![0, 0, 0b000, 0, 0, 0, 0, 0]),
        (at(&LISTS, 1), vec![0, 0, 0b101]),
        (at(&LISTS, 2), vec![0, 0, 0b101]),
        (at(&LISTS, 3), vec![0, 0, 0b111, 0, 0, 0, 0, 0]),
        (at(&LISTS[..1], 3), vec![0, 0, 0b1]),
        (at(&LISTS[1..], 3), vec![0, 0, 0b11]),
        (at(&LISTS[1..], 1), vec![0, 0, 0b10]),
        // Lists of no records are 0 everywhere.
        (at(&[&[], LISTS[0], &[], LISTS[1], &[]], 3), vec![0, 0, 0b01010]),
        (at(&[&[]], 3), vec![0, 0, 0]),
        (at_the_last(0x8000_0000), vec![0, 0, 0x800]),
        (at_the_last(0x7fff_ffff), vec![0, 0, 0]),
        (at_the_last(1 << 32), vec![6, 0, 0, 0]),
        (at(&LISTS, 4), vec![6, 0, 0, 0]),
    ]
}

/// 1 to 12.
fn numbers_of_lists() -> Vec<Example> {
    let ones = |call, lists: usize| map(call, 0, &vec![&[""][..]; lists]);
    let mut examples = vec![
        (ones(Call::Slot, 1), vec![0, 0, 1]),
        (ones(Call::Slot, 12), vec![0, 0, 0xfff]),
        (ones(Call::MapReasons, 12), vec![0, 0, 0xfff]),
        // Twelve constants, each of them free.
        (ones(Call::SettleMap, 12), vec![0, 0, 0]),
    ];
    for lists in [0, 13, 100] {
        of_each(&mut examples, |call| ones(call, lists), &[24, 0, 0, NO_LIST, 0, 0, 0, 0]);
        // Before 26 and 5, and before what a list is refused for.
        let worse = |call| Case { n: 33, script_lengths: vec![1], out: vec![], ..ones(call, lists) };
        of_each(&mut examples, |call| Case { input: vec![0; 9], ..worse(call) }, &[24, 0, 0, NO_LIST]);
    }
    examples
}

/// The lists have 24, 8 and 16 bytes.
fn lengths() -> Vec<Example> {
    let mut examples = Vec::new();
    let refused = [26, 0, 0, NO_LIST, 0, 0, 0, 0];
    let wrong: [&[u64]; 13] = [
        &[24, 8, 15],
        &[24, 8, 17],
        &[23, 8, 16],
        &[24, 8],
        &[24, 8, 16, 1],
        &[0],
        &[49],
        // These add up to 48 modulo 2^64.
        &[u64::MAX, 49],
        &[1 << 63, 48, 1 << 63],
        &[24, 8, 16, u64::MAX - 7, 8],
        &[24, u64::MAX, 25],
        &[0, u64::MAX, 0, u64::MAX, 50],
        &[u64::MAX; 12],
    ];
    for lengths in wrong {
        // Also where the output is too short, and where every list would be refused.
        let of = |call| {
            let script_lengths = if call == Call::SettleMap { vec![0; lengths.len()] } else { vec![] };
            Case { lengths: lengths.to_vec(), script_lengths, ..map(call, 2, &LISTS) }
        };
        of_each(&mut examples, of, &refused);
        of_each(&mut examples, |call| Case { n: 33, out: vec![], ..of(call) }, &refused);
    }
    let two_steps = with_scripts(map(Call::SettleMap, 2, &LISTS), &[&[L { v: 0, literal: 1 }; 2], &[], &[]]);
    let wrong: [&[u64]; 9] = [
        &[16, 0, 8],
        &[8, 0, 0],
        &[16, u64::MAX, 1],
        &[1 << 63, 1 << 63, 16],
        // Not one script a list.
        &[16, 0],
        &[16],
        &[],
        &[16, 0, 0, 0],
        &[0; 12],
    ];
    for lengths in wrong {
        let case = Case { script_lengths: lengths.to_vec(), ..two_steps.clone() };
        examples.push((Case { n: 33, out: vec![], ..case.clone() }, refused.to_vec()));
        examples.push((case, refused.to_vec()));
    }
    examples.extend(
        [&[0, 16, 0], &[8, 0, 8], &[0, 0, 16]]
            .map(|lengths: &[u64; 3]| (Case { script_lengths: lengths.to_vec(), ..two_steps.clone() }, vec![0, 0, 3])),
    );
    examples
}

/// The first list that is refused; its place is counted in it.
fn refused_lists() -> Vec<Example> {
    let mut examples = Vec::new();
    let good = |call| map(call, 2, &LISTS);
    // A value bit outside seen: at the second record of list 0, or at the second of list 2.
    let bad = |call, first: bool| {
        let mut case = good(call);
        case.input[8] = if first { 0 } else { 2 };
        case.input[44] = 4;
        case
    };
    of_each(&mut examples, |call| bad(call, true), &[4, 1, 0, 0, 0, 0, 0, 0]);
    of_each(&mut examples, |call| bad(call, false), &[4, 1, 0, 2, 0, 0, 0, 0]);
    of_each(&mut examples, |call| Case { n: 1, ..good(call) }, &[4, 1, 0, 0]);
    of_each(&mut examples, |call| Case { n: 33, ..bad(call, true) }, &[1, 0, 0, 0]);
    let cut = |call, lengths: [u64; 3]| Case { lengths: lengths.to_vec(), ..good(call) };
    of_each(&mut examples, |call| cut(call, [24, 7, 17]), &[2, 0, 0, 1]);
    of_each(&mut examples, |call| cut(call, [24, 9, 15]), &[2, 0, 0, 1]);
    of_each(&mut examples, |call| cut(call, [4, 28, 16]), &[2, 0, 0, 0]);
    for call in [Call::Slot, Call::MapReasons] {
        // The label is tested with list 0, before list 1.
        examples.push((Case { number: 4, ..bad(call, false) }, vec![6, 0, 0, 0]));
        examples.push((Case { number: 4, ..bad(call, true) }, vec![4, 1, 0, 0]));
        examples.push((Case { number: 4, ..cut(call, [24, 7, 17]) }, vec![6, 0, 0, 0]));
    }
    // The script of list 0 is tested before list 1.
    let odd =
        |lengths: [u64; 3]| Case { script: vec![5; 7], script_lengths: lengths.to_vec(), ..good(Call::SettleMap) };
    examples.push((odd([7, 0, 0]), vec![7, 0, 0, 0]));
    examples.push((odd([0, 7, 0]), vec![7, 0, 0, 1]));
    examples.push((Case { lengths: vec![24, 7, 17], ..odd([7, 0, 0]) }, vec![7, 0, 0, 0]));
    examples.push((Case { lengths: vec![24, 7, 17], ..odd([0, 7, 0]) }, vec![2, 0, 0, 1]));
    examples
}

fn limits() -> Vec<Example> {
    let zeros = |lists: &[usize]| end_to_end(&lists.iter().map(|count| vec![0; RECORD * count]).collect::<Vec<_>>());
    let of = |call, lists: &[usize], work: usize, more: usize| {
        let (input, lengths) = zeros(lists);
        let out = match call {
            Call::Slot => vec![],
            Call::SettleMap => vec![7; input.len() + more],
            _ => vec![7; input.len() / 4 + more],
        };
        let script_lengths = if call == Call::SettleMap { vec![0; lists.len()] } else { vec![] };
        Case { input, lengths, script_lengths, work: vec![7; work], out, ..empty(call, 32) }
    };
    let mut examples = Vec::new();
    let full = [4096; 12];
    examples.push((of(Call::Slot, &full, 0, 0), vec![0, 0, 0]));
    examples.push((of(Call::MapReasons, &full, 0, 0), vec![0, 0, 0]));
    examples.push((of(Call::MapReasons, &full, 0, 9), vec![0, 0, 0]));
    // One constant of each list is free.
    examples.push((of(Call::SettleMap, &full, 8 * 4096, 0), vec![0, 0, 12 * 4095]));
    examples.push((of(Call::SettleMap, &full, 8 * 5000, 9), vec![0, 0, 12 * 4095]));
    examples.push((of(Call::SettleMap, &full, 8 * 4096 - 1, 0), vec![5, 0, 0, 0]));
    for lists in [&[4096, 1, 4097][..], &[1, 4096, 4097, 4097]] {
        examples.push((of(Call::Slot, lists, 0, 0), vec![3, 0, 0, 2]));
        examples.push((of(Call::MapReasons, lists, 0, 0), vec![3, 0, 0, 2]));
        examples.push((of(Call::SettleMap, lists, 8 * 4096, 0), vec![3, 0, 0, 2]));
    }
    let steps = |lengths: [u64; 2]| {
        let script = encoded_script(&[L { v: 31, literal: 1 }; 1025]);
        Case { script, script_lengths: lengths.to_vec(), ..of(Call::SettleMap, &[1, 4096], 8 * 4096, 0) }
    };
    examples.push((steps([8, 8 * 1024]), vec![0, 0, 4095]));
    examples.push((steps([0, 8 * 1025]), vec![8, 0, 0, 1]));
    examples
}

/// A case, and all that it leaves.
type Left = (Case, [u64; 8], Vec<u8>, Vec<u8>, PerList);

/// The examples whose buffers are said here; both the library and the model leave them so.
pub fn buffers() -> Result<(), String> {
    let all = [settled(), refused_settlings(), refused_reasons(), reasons()].concat();
    for (case, answer, work, out, numbers) in &all {
        let After { answer: got, work: work_left, out: out_left, numbers: numbers_left, .. } = &compared(case)?;
        if (got, work_left, out_left, numbers_left) != (answer, work, out, numbers) {
            let left = format!("{got:?} {work_left:?} {out_left:?} {numbers_left:?}");
            return Err(format!("not {answer:?} {work:?} {out:?} {numbers:?}, but {left}\n{case}"));
        }
    }
    println!("{} examples of maps with all that they leave", all.len());
    Ok(())
}

/// Numbers for the first lists, and zeros after them.
fn per_list(numbers: &[u64]) -> PerList {
    std::array::from_fn(|k| numbers.get(k).copied().unwrap_or(0))
}

const JOIN_AND_TURN: [Step; 2] = [Join { i: 1, j: 2 }, Turn { v: 0, i: 0, j: 1 }];

fn settled() -> Vec<Left> {
    let settle = |n, lists: &[&[&str]], scripts: &[&[Step]]| with_scripts(map(Call::SettleMap, n, lists), scripts);
    let accepted = |case: Case, cost, burned: &[&[&str]]| {
        let burned: Vec<Vec<u8>> = burned.iter().map(|cubes| records(cubes)).collect();
        let (mut out, lengths) = end_to_end(&burned);
        out.resize(case.out.len(), 0);
        let work = vec![0; case.work.len()];
        (case, [0, 0, cost, 0, 0, 0, 0, 0], work, out, per_list(&lengths))
    };
    let longer = |case: Case| Case { work: vec![9; 37], out: vec![9; case.out.len() + 11], ..case };
    let with_constant: &[&str] = &["--", "00"];
    let given = settle(2, &LISTS, &[&JOIN_AND_TURN, &[], &[]]);
    let nine = ["---------", "---------"];
    vec![
        // Each list costs 1: the constant is free in list 0, and again in list 2.
        accepted(given.clone(), 3, &[with_constant, &["11"], with_constant]),
        accepted(longer(given), 3, &[with_constant, &["11"], with_constant]),
        // The script of list 0 given to list 2 would be refused.
        accepted(settle(2, &[&[], &["1-"], &[]], &[&[], &[], &[]]), 1, &[&[], &["1-"], &[]]),
        // A function that is 0 has no product; the constant alone costs nothing.
        accepted(settle(1, &[&["0", "1", "-"], &["-"]], &[&[], &[]]), 0, &[&[], &["-"]]),
        // Above 8 variables the script's result, or the given list: of two constants one is free.
        accepted(settle(9, &[&nine, &nine[1..]], &[&[], &[]]), 1, &[&nine, &nine[1..]]),
        accepted(settle(9, &[&nine, &nine[1..]], &[&[Drop { i: 1, j: 0 }], &[]]), 0, &[&[], &nine[1..]]),
        accepted(settle(9, &[&nine[1..], &nine], &[&[], &[Drop { i: 1, j: 0 }]]), 0, &[&nine[1..], &[]]),
    ]
}

/// Only 24, 26 and the output's 5 leave everything as it was; what a list is refused for leaves nothing but zeros.
fn refused_settlings() -> Vec<Left> {
    let settle = |scripts: &[&[Step]]| with_scripts(map(Call::SettleMap, 2, &LISTS), scripts);
    let l = L { v: 0, literal: 1 };
    let good = settle(&[&JOIN_AND_TURN, &[l], &[]]);
    let short = Case { out: vec![7; 47], ..good.clone() };
    let mut left = Vec::new();
    for (case, number) in [
        (Case { lengths: vec![], ..good.clone() }, 24),
        (Case { lengths: vec![0; 13], ..short.clone() }, 24),
        (Case { lengths: vec![24, 8, 8], ..short.clone() }, 26),
        (Case { script_lengths: vec![16, 8], ..short.clone() }, 26),
        (Case { n: 33, ..short.clone() }, 5),
        (short, 5),
    ] {
        let (work, out, numbers) = (case.work.clone(), case.out.clone(), case.numbers);
        left.push((case, [number, 0, 0, NO_LIST, 0, 0, 0, 0], work, out, numbers));
    }
    let first = Case { work: vec![7; 23], ..good.clone() };
    let fourth = [LISTS[1], LISTS[2], LISTS[1], LISTS[0]];
    let too_long = Case { work: vec![7; 23], ..map(Call::SettleMap, 2, &fourth) };
    let splits = Case { work: vec![7; 31], ..settle(&[&[], &[Split { v: 0, i: 0 }; 3], &[]]) };
    for (case, [number, place, differing, list]) in [
        (Case { n: 33, ..good.clone() }, [1, 0, 0, 0]),
        (Case { n: 1, ..good.clone() }, [4, 1, 0, 0]),
        (Case { lengths: vec![24, 15, 9], ..good }, [2, 0, 0, 1]),
        (first, [5, 0, 0, 0]),
        // Room for all lists but the last.
        (too_long, [5, 0, 0, 3]),
        (splits, [13, 2, 0, 1]),
        (settle(&[&JOIN_AND_TURN, &[Split { v: 2, i: 0 }], &[]]), [9, 0, 0, 1]),
        // At the second step of list 1, after list 0 was settled; list 2 is not looked at.
        (settle(&[&JOIN_AND_TURN, &[l, Drop { i: 0, j: 1 }], &[Split { v: 2, i: 0 }]]), [10, 1, 0, 1]),
        (settle(&[&JOIN_AND_TURN, &[], &[l, l, Join { i: 0, j: 1 }]]), [17, 2, 2, 2]),
        (settle(&[&[Drop { i: 0, j: 1 }], &[], &[]]), [16, 0, 2, 0]),
        // The script of another list.
        (settle(&[&[], &[], &JOIN_AND_TURN]), [10, 0, 0, 2]),
    ] {
        let (work, out) = (vec![0; case.work.len()], vec![0; case.out.len()]);
        left.push((case, [number, place, differing, list, 0, 0, 0, 0], work, out, [0; MOST_LISTS]));
    }
    left
}

fn reasons() -> Vec<Left> {
    let shown = |number, room, slot, places: &[u8], numbers: &[u64]| {
        let case = Case { number, out: vec![7; room], ..map(Call::MapReasons, 2, &LISTS) };
        let out = [places, &vec![7; room - places.len()]].concat();
        (case, [0, 0, slot, 0, 0, 0, 0, 0], vec![], out, per_list(numbers))
    };
    vec![
        shown(3, 12, 0b111, &[0, 0, 1, 0, 2, 0, 0, 0, 0, 0], &[3, 1, 1]),
        shown(3, 19, 0b111, &[0, 0, 1, 0, 2, 0, 0, 0, 0, 0], &[3, 1, 1]),
        shown(2, 13, 0b101, &[1, 0, 0, 0], &[1, 0, 1]),
        shown(1, 12, 0b101, &[0, 0, 0, 0], &[1, 0, 1]),
        shown(0, 12, 0b000, &[0, 0, 1, 0], &[0, 0, 2]),
    ]
}

fn refused_reasons() -> Vec<Left> {
    let on = |room| Case { out: vec![7; room], ..map(Call::MapReasons, 2, &LISTS) };
    let mut left = Vec::new();
    for (case, number) in [
        (Case { lengths: vec![], ..on(12) }, 24),
        (Case { lengths: vec![24, 8, 17], ..on(11) }, 26),
        // Room for the true products, and not for all.
        (Case { number: 2, ..on(11) }, 5),
        (Case { n: 33, ..on(11) }, 5),
        // Five records list by list, and six in all bytes.
        (Case { lengths: vec![28, 4, 16], ..on(9) }, 5),
    ] {
        let (out, numbers) = (case.out.clone(), case.numbers);
        left.push((case, [number, 0, 0, NO_LIST, 0, 0, 0, 0], vec![], out, numbers));
    }
    let mut bad = on(13);
    bad.input[44] = 4;
    for (case, [number, place, list]) in [
        (Case { n: 33, ..on(12) }, [1, 0, 0]),
        (Case { lengths: vec![28, 4, 16], ..on(10) }, [2, 0, 0]),
        (Case { lengths: vec![24, 4, 20], ..on(12) }, [2, 0, 1]),
        (bad, [4, 1, 2]),
        (Case { number: 4, ..on(15) }, [6, 0, 0]),
    ] {
        let out = vec![0; case.out.len()];
        left.push((case, [number, place, 0, list, 0, 0, 0, 0], vec![], out, [0; MOST_LISTS]));
    }
    left
}
