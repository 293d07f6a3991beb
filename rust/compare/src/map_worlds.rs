//! Maps of several lists: small worlds, whole.

use crate::callers::by_model;
use crate::differ::{Call, Case, compare, compared, empty};
use crate::exhaustive::cubes_over;
use crate::map_lists::NO_LIST;
use crate::map_parts::end_to_end;
use model::cube::{PLACE, RECORD, encoded_list};
use model::script::Step::{Drop, Join, L, Split, Turn};
use model::script::{encoded, encoded_script};
use std::collections::BTreeMap;

pub fn all() -> Result<(), String> {
    for n in 0..3 {
        short_maps(n)?;
    }
    good_and_bad_maps()?;
    all_lengths()?;
    all_script_lengths()?;
    short_scripts()
}

/// Number and list of an answer.
type Met = BTreeMap<(u64, Option<u64>), u64>;

fn add(met: &mut Met, answer: &[u64; 8]) {
    let list = (answer[0] != 0 && answer[3] != NO_LIST).then_some(answer[3]);
    *met.entry((answer[0], list)).or_default() += 1;
}

fn printed(met: &Met) -> String {
    let each = met.iter().map(|((number, list), count)| match (number, list) {
        (0, _) => format!("accepted {count}"),
        (_, Some(list)) => format!("{number} of list {list}: {count}"),
        (_, None) => format!("{number}: {count}"),
    });
    each.collect::<Vec<_>>().join(", ")
}

fn expect(met: &Met, expected: &[((u64, Option<u64>), u64)]) -> Result<(), String> {
    let expected: Met = expected.iter().copied().collect();
    if *met == expected { Ok(()) } else { Err(format!("{met:?}, and not {expected:?}")) }
}

/// All maps of one list and of two, of these lists.
fn maps_of(lists: &[Vec<u8>]) -> Vec<Vec<Vec<u8>>> {
    let pairs = lists.iter().flat_map(|a| lists.iter().map(move |b| vec![a.clone(), b.clone()]));
    lists.iter().map(|list| vec![list.clone()]).chain(pairs).collect()
}

/// All lists of up to 2 cubes over n variables.
fn lists_over(n: usize) -> Vec<Vec<u8>> {
    let cubes = cubes_over(n, &(0..n).collect::<Vec<_>>());
    let records: Vec<Vec<u8>> = cubes.into_iter().map(|cube| encoded_list(&[cube])).collect();
    let pairs = records.iter().flat_map(|a| records.iter().map(move |b| [&a[..], b].concat()));
    [vec![]].into_iter().chain(records.iter().cloned()).chain(pairs).collect()
}

/// Every map of up to two lists of up to 2 cubes, at every label and at the first that is too high: its slot, and its reasons in buffers that are a byte too
/// short, just long enough and longer.
fn short_maps(n: usize) -> Result<(), String> {
    let maps = maps_of(&lists_over(n));
    let (mut slots, mut reasons) = (Met::new(), Met::new());
    let (mut ones, mut places) = ([0u64; 2], 0);
    for (lists, number) in maps.iter().flat_map(|lists| (0..=1 << n).map(move |a| (lists, a))) {
        let (input, lengths) = end_to_end(lists);
        let slot = Case { input, lengths, number, ..empty(Call::Slot, n as u64) };
        let answer = compare(&slot)?;
        add(&mut slots, &answer);
        for (k, count) in ones.iter_mut().enumerate().filter(|_| answer[0] == 0) {
            *count += answer[2] >> k & 1;
        }
        let needed = PLACE * (slot.input.len() / RECORD);
        for room in [needed.checked_sub(1), Some(needed), Some(needed + 3)].into_iter().flatten() {
            let out = vec![0xc3; room];
            let after = compared(&Case { call: Call::MapReasons, out, numbers: [9; 12], ..slot.clone() })?;
            add(&mut reasons, &after.answer);
            places += if after.answer[0] == 0 { after.numbers.iter().sum() } else { 0 };
        }
    }
    println!(
        "over {n} variables {} maps; slots: {}; bits that are 1: {ones:?}; reasons: {}; {places} places",
        maps.len(),
        printed(&slots),
        printed(&reasons)
    );
    // Of 3^n cubes 2^n are true at a label: so many lists have an odd number of true products, and so many true ones they have all together.
    let (labels, cubes) = (1u64 << n, 3u64.pow(n as u32));
    let (lists, trues) = (1 + cubes + cubes.pow(2), labels);
    let (odd, records) = (trues + 2 * trues * (cubes - trues), trues + 2 * trues * cubes);
    let maps = lists + lists.pow(2);
    expect(&slots, &[((0, None), labels * maps), ((6, Some(0)), maps)])?;
    // Only maps without a product have no buffer that is too short; where there is room, it is there twice.
    let too_short = maps - 2;
    expect(
        &reasons,
        &[((0, None), 2 * labels * maps), ((5, None), (labels + 1) * too_short), ((6, Some(0)), 2 * maps)],
    )?;
    let bits = [labels * odd * (1 + lists), labels * odd * lists];
    // A list alone, and beside each list in either place.
    let shown = 2 * labels * records * (1 + 2 * lists);
    match (ones, places) == (bits, shown) {
        true => Ok(()),
        false => Err(format!("not {bits:?} and {shown}")),
    }
}

/// Every map of up to two lists of up to one record, good and bad, over one variable: masks of the first two variables.
fn good_and_bad_maps() -> Result<(), String> {
    let records = (0..16u32).map(|k| [k % 4, k / 4].map(u32::to_le_bytes).concat());
    let lists: Vec<Vec<u8>> = [vec![]].into_iter().chain(records).collect();
    let maps = maps_of(&lists);
    let mut met = Met::new();
    for lists in &maps {
        let (input, lengths) = end_to_end(lists);
        let (work, out) = (vec![0x5a; RECORD], vec![0xc3; input.len()]);
        let script_lengths = vec![0; lists.len()];
        let slot = Case { input, lengths, ..empty(Call::Slot, 1) };
        let reasons = Case { call: Call::MapReasons, out: out.clone(), numbers: [9; 12], ..slot.clone() };
        let settle = Case { call: Call::SettleMap, work, out, script_lengths, ..reasons.clone() };
        for case in [slot, reasons, settle] {
            add(&mut met, &compare(&case)?);
        }
    }
    println!("{} maps, good and bad, by three calls: {}", maps.len(), printed(&met));
    // Of 16 records 3 are good.
    let (good, bad) = (4, 13);
    let (all, accepted) = (good + bad, good + good * good);
    expect(&met, &[((0, None), 3 * accepted), ((4, Some(0)), 3 * bad * (1 + all)), ((4, Some(1)), 3 * good * bad)])
}

/// Lengths up to one more than the bytes, and long ones, with which a sum goes around.
const LENGTHS: [u64; 22] = {
    let mut lengths = [0; 22];
    let mut k = 0;
    while k < 18 {
        lengths[k] = k as u64;
        k += 1;
    }
    [lengths[18], lengths[19], lengths[20], lengths[21]] = [1 << 63, u64::MAX - 15, u64::MAX - 7, u64::MAX];
    lengths
};

/// All arrays of up to three of them.
fn arrays() -> Vec<Vec<u64>> {
    let mut arrays = vec![vec![]];
    let mut last = arrays.clone();
    for _ in 0..3 {
        last = last.iter().flat_map(|front| LENGTHS.iter().map(move |&one| [&front[..], &[one]].concat())).collect();
        arrays.extend(last.clone());
    }
    arrays
}

/// Two records cut into up to three lists in every way, right and wrong.
fn all_lengths() -> Result<(), String> {
    let mut met = Met::new();
    let arrays = arrays();
    for lengths in &arrays {
        let script_lengths = vec![0; lengths.len()];
        let slot = Case { input: vec![0; 2 * RECORD], lengths: lengths.clone(), ..empty(Call::Slot, 0) };
        let out = vec![0xc3; 2 * RECORD];
        let reasons = Case { call: Call::MapReasons, out, numbers: [9; 12], ..slot.clone() };
        let work = vec![0x5a; 2 * RECORD];
        let settle = Case { call: Call::SettleMap, work, script_lengths, ..reasons.clone() };
        for case in [slot, reasons, settle] {
            add(&mut met, &compare(&case)?);
        }
    }
    println!("{} arrays of lengths for 16 bytes, by three calls: {}", arrays.len(), printed(&met));
    // Of one length 1 adds up, of two 17, of three 153; 1, 3 and 6 of these are of whole records. Of the others the first that is not has list 1 where the
    // first of three is 0 or 8: 17 - 3, and 9 - 2.
    let (added_up, whole, second) = (1 + 17 + 153, 1 + 3 + 6, 14 + 7);
    let wrong = arrays.len() as u64 - 1 - added_up;
    let counts = [
        ((0, None), whole),
        ((2, Some(0)), added_up - whole - second),
        ((2, Some(1)), second),
        ((24, None), 1),
        ((26, None), wrong),
    ];
    expect(&met, &counts.map(|(answer, count)| (answer, 3 * count)))
}

/// Two steps cut into up to three scripts in every way, for two lists.
fn all_script_lengths() -> Result<(), String> {
    let mut met = Met::new();
    let arrays = arrays();
    for lengths in &arrays {
        let case = Case {
            input: vec![0; 2 * RECORD],
            lengths: vec![8, 8],
            script: encoded_script(&[L { v: 0, literal: 1 }; 2]),
            script_lengths: lengths.clone(),
            work: vec![0x5a; RECORD],
            out: vec![0xc3; 2 * RECORD],
            numbers: [9; 12],
            ..empty(Call::SettleMap, 1)
        };
        add(&mut met, &compare(&case)?);
    }
    println!("{} arrays of lengths for two steps of two scripts: {}", arrays.len(), printed(&met));
    // Of two lengths 17 add up, and 3 of these are of whole steps.
    expect(&met, &[((0, None), 3), ((7, Some(0)), 14), ((26, None), arrays.len() as u64 - 17)])
}

/// Every map of two lists of up to 2 cubes over one variable, each with every script of up to one step.
fn short_scripts() -> Result<(), String> {
    let (lists, scripts) = (lists_over(1), scripts());
    let pairs: Vec<(&Vec<u8>, &Vec<u8>)> =
        lists.iter().flat_map(|list| scripts.iter().map(move |script| (list, script))).collect();
    // Whether each list with each script is refused, alone and in the same work buffer.
    let refused: Vec<bool> = pairs.iter().map(|(list, script)| is_refused(list, script)).collect();
    let mut met = Met::new();
    for (a, b) in pairs.iter().flat_map(|a| pairs.iter().map(move |b| (a, b))) {
        let (input, lengths) = end_to_end(&[a.0.clone(), b.0.clone()]);
        let (script, script_lengths) = end_to_end(&[a.1.clone(), b.1.clone()]);
        let out = vec![0xc3; input.len() + 3];
        let work = vec![0x5a; 2 * RECORD + 1];
        let case =
            Case { input, lengths, script, script_lengths, work, out, numbers: [9; 12], ..empty(Call::SettleMap, 1) };
        let answer = compare(&case)?;
        let list = (answer[0] != 0).then_some(answer[3]);
        *met.entry((u64::from(answer[0] != 0), list)).or_default() += 1;
    }
    let (all, bad) = (pairs.len() as u64, refused.iter().filter(|refused| **refused).count() as u64);
    let good = all - bad;
    println!(
        "{} lists with {} scripts, {bad} of these {all} refused; maps of two: accepted {}, refused for list 0 {}, for list 1 {}",
        lists.len(),
        scripts.len(),
        met[&(0, None)],
        met[&(1, Some(0))],
        met[&(1, Some(1))]
    );
    expect(&met, &[((0, None), good * good), ((1, Some(0)), bad * all), ((1, Some(1)), good * bad)])
}

fn is_refused(list: &[u8], script: &[u8]) -> bool {
    let (work, out) = (vec![0x5a; 2 * RECORD + 1], vec![0xc3; list.len()]);
    let alone = Case { input: list.to_vec(), script: script.to_vec(), work, out, ..empty(Call::Settle, 1) };
    by_model(&alone).answer[0] != 0
}

/// No step, or one: at places 0 and 1, at one place, past the end; a bad one; and half of one.
fn scripts() -> Vec<Vec<u8>> {
    let steps = [
        Drop { i: 0, j: 1 },
        Drop { i: 0, j: 0 },
        Join { i: 0, j: 1 },
        Join { i: 1, j: 0 },
        Join { i: 0, j: 2 },
        Split { v: 0, i: 0 },
        Split { v: 0, i: 1 },
        Turn { v: 0, i: 0, j: 1 },
        L { v: 0, literal: 0 },
        L { v: 0, literal: 1 },
    ];
    let one = steps.iter().map(|&step| encoded(step).to_vec());
    [vec![]].into_iter().chain(one).chain([vec![6, 0, 0, 0, 1, 0, 0, 0], vec![5, 0, 0, 0]]).collect()
}
