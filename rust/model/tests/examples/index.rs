//! Document 02, Eight.

use super::{list, records, refused, refused_for};
use model::calls::{self, Outcome};
use model::cube::{PLACE, RECORD, decoded_places, encoded_places};
use model::index::{Starts, first_wrong, index, literals};
use model::script::Step::{self, Drop, Join, L, Split};
use model::script::{differing, encoded_script};

const CUBES: [&str; 5] = ["11", "-1", "0-", "--", "00"];

/// The starts that begin so, and go on with the count.
fn starts(first: &[u64], count: u64) -> Starts {
    std::array::from_fn(|m| first.get(m).copied().unwrap_or(count))
}

#[test]
fn by_number_of_literals_and_then_by_place() {
    let built = index(&list(&CUBES));
    assert_eq!((built.places, built.starts), (vec![3, 1, 2, 0, 4], starts(&[0, 1, 3], 5)));
    assert_eq!((index(&[]).places, index(&[]).starts), (vec![], [0; 33]));
    // A complemented literal is a literal.
    assert_eq!(list(&["000", "0-0", "---", "111"]).iter().map(literals).collect::<Vec<_>>(), [3, 2, 0, 3]);
}

#[test]
fn groups_end_where_the_next_begins() {
    let built = index(&list(&CUBES));
    assert_eq!([0, 1, 2, 3, 32].map(|m| built.group(m)), [(0, 1), (1, 2), (3, 2), (5, 0), (5, 0)]);
    let full = index(&list(&["0".repeat(32).as_str(), "-".repeat(32).as_str(), "1".repeat(32).as_str()]));
    assert_eq!((&full.places[..], full.starts), (&[1, 0, 2][..], starts(&[0], 1)));
    assert_eq!([0, 1, 31, 32].map(|m| full.group(m)), [(0, 1), (1, 0), (1, 0), (1, 2)]);
}

#[test]
fn built_in_a_lent_buffer() {
    let (mut bytes, mut begun) = ([7; 13], [9; 33]);
    assert_eq!(calls::index(2, &records(&CUBES), &mut bytes, &mut begun), Ok(vec![5]));
    assert_eq!((bytes, begun), ([3, 0, 1, 0, 2, 0, 0, 0, 4, 0, 7, 7, 7], starts(&[0, 1, 3], 5)));
    assert_eq!(calls::index(32, &[], &mut [], &mut begun), Ok(vec![0]));
    assert_eq!(begun, [0; 33]);

    let (mut bytes, mut begun) = ([7; 9], [9; 33]);
    assert_eq!(calls::index(2, &records(&CUBES), &mut bytes, &mut begun), refused(5, 0));
    assert_eq!(calls::index(33, &records(&CUBES), &mut bytes, &mut begun), refused(1, 0));
    assert_eq!(calls::index(1, &records(&CUBES), &mut bytes, &mut begun), refused(4, 0));
    assert_eq!((bytes, begun), ([7; 9], [9; 33]));
}

#[test]
fn the_longest_list() {
    let (mut bytes, mut begun) = (vec![7; 2 * 4096], [9; 33]);
    let list = [vec![0; RECORD * 4095], vec![1, 0, 0, 0, 0, 0, 0, 0]].concat();
    assert_eq!(calls::index(32, &list, &mut bytes, &mut begun), Ok(vec![4096]));
    assert_eq!((decoded_places(&bytes), begun), ((0..4096).collect(), starts(&[0, 4095], 4096)));
    assert_eq!(calls::group(32, &list, &bytes, &begun, 1), Ok(vec![1, 4095]));
    assert_eq!(calls::index(32, &list, &mut bytes[1..], &mut begun), refused(5, 0));
    assert_eq!(calls::index(32, &[0; RECORD * 4097], &mut [], &mut begun), refused(3, 0));
}

/// Asks for a group of the examples' cubes, by these places and starts, with bytes behind them.
fn asked(places: &[usize], starts: &Starts, number: u64) -> Outcome {
    calls::group(2, &records(&CUBES), &[encoded_places(places), vec![7; 3]].concat(), starts, number)
}

#[test]
fn a_group_of_the_list_s_own_index() {
    let right = starts(&[0, 1, 3], 5);
    let groups = [0, 1, 2, 3, 32].map(|m| asked(&[3, 1, 2, 0, 4], &right, m));
    assert_eq!(groups, [[1, 0], [2, 1], [2, 3], [0, 5], [0, 5]].map(|group| Ok(group.to_vec())));
    for number in [33, 34, 1 << 32, u64::MAX] {
        assert_eq!(asked(&[3, 1, 2, 0, 4], &right, number), refused(21, 0));
    }
}

/// The first wrong entry; then the first wrong start; then the number.
#[test]
fn an_index_that_is_not_this_list_s() {
    let right = starts(&[0, 1, 3], 5);
    for (places, place) in [
        ([3, 2, 1, 0, 4], 1),
        ([3, 1, 2, 4, 0], 3),
        ([3, 1, 1, 0, 4], 2),
        ([3, 1, 2, 0, 5], 4),
        ([0, 1, 2, 3, 4], 0),
        ([3, 1, 2, 0, 260], 4),
        ([4, 3, 2, 1, 0], 0),
    ] {
        for number in [0, 33] {
            assert_eq!(asked(&places, &right, number), refused(25, place));
            assert_eq!(asked(&places, &[0; 33], number), refused(25, place));
        }
    }
    let doubled = right.map(|start| 2 * start);
    let mut last = right;
    last[32] = 4;
    for (wrong, place) in [(doubled, 1), (last, 32), ([5; 33], 0), (starts(&[0, 1, 4], 5), 2)] {
        assert_eq!(asked(&[3, 1, 2, 0, 4], &wrong, 0), refused(25, place));
        assert_eq!(asked(&[3, 1, 2, 0, 4], &wrong, 33), refused(25, place));
    }
    assert_eq!(first_wrong(&[1, 2], &[1, 2, 3]), Some(2));
    // 5 before 25, and 4 before 5.
    assert_eq!(calls::group(2, &records(&CUBES), &[7; 9], &[9; 33], 33), refused(5, 0));
    assert_eq!(calls::group(1, &records(&CUBES), &[7; 9], &[9; 33], 33), refused(4, 0));
}

#[test]
fn built_and_asked() {
    let list = records(&CUBES);
    let (mut bytes, mut begun) = ([7; 13], [9; 33]);
    calls::index(2, &list, &mut bytes, &mut begun).unwrap();
    for number in 0..=32 {
        let entries = CUBES.iter().filter(|cube| cube.replace('-', "").len() == number).count() as u64;
        assert_eq!(calls::group(2, &list, &bytes, &begun, number as u64).unwrap()[0], entries);
    }
}

/// Runs a script with an index, in buffers for five records and some bytes more.
fn kept(cubes: &[&str], script: &[Step]) -> (Outcome, Vec<u8>, Vec<u8>, Starts) {
    let (mut work, mut bytes, mut begun) = (vec![7; 5 * RECORD + 3], vec![7; 5 * PLACE + 1], [9; 33]);
    let script = encoded_script(script);
    let outcome = calls::run_indexed(2, &records(cubes), &script, &mut work, &mut bytes, &mut begun);
    (outcome, work, bytes, begun)
}

#[test]
fn a_run_with_an_index() {
    // 00 01 0- --: the join has freed the last entry.
    let (outcome, work, bytes, begun) = kept(&CUBES, &[Join { i: 1, j: 0 }]);
    assert_eq!(outcome, Ok(vec![4, 5]));
    assert_eq!(&work[..4 * RECORD], records(&["00", "01", "0-", "--"]));
    assert_eq!((bytes, begun), (vec![3, 0, 2, 0, 0, 0, 1, 0, 0, 0, 0], starts(&[0, 1, 2], 4)));

    // The index of the list after the undoing.
    let (outcome, _, bytes, begun) = kept(&CUBES, &[L { v: 0, literal: 1 }]);
    assert_eq!(outcome, Ok(vec![5, 5]));
    assert_eq!((bytes, begun), (vec![3, 0, 1, 0, 2, 0, 0, 0, 4, 0, 0], starts(&[0, 1, 3], 5)));

    let (outcome, _, bytes, begun) = kept(&["11", "11"], &[Drop { i: 0, j: 1 }]);
    assert_eq!((outcome, bytes, begun), (Ok(vec![0, 2]), vec![0; 11], [0; 33]));
}

#[test]
fn a_run_that_is_refused() {
    // At a step: everything is zero.
    let (outcome, work, bytes, begun) = kept(&CUBES, &[L { v: 0, literal: 1 }, Drop { i: 0, j: 1 }]);
    assert_eq!((outcome, work, bytes, begun), (refused_for(16, 1, 1), vec![0; 43], vec![0; 11], [0; 33]));
    let (outcome, work, bytes, begun) = kept(&CUBES, &[Split { v: 0, i: 0 }]);
    assert_eq!((outcome, work, bytes, begun), (refused(13, 0), vec![0; 43], vec![0; 11], [0; 33]));
    // Before the first step: nothing is written.
    let (outcome, work, bytes, begun) = kept(&CUBES, &[Split { v: 2, i: 0 }]);
    assert_eq!((outcome, work, bytes, begun), (refused(9, 0), vec![7; 43], vec![7; 11], [9; 33]));
}

/// 5 of the work buffer, then of the index by the work buffer's capacity, at most 4,096, then the script.
#[test]
fn the_room_of_an_index() {
    let run = |list: &[u8], script: &[u8], work: usize, room: usize| {
        let (mut work, mut bytes, mut begun) = (vec![7; work], vec![7; room], [9; 33]);
        calls::run_indexed(2, list, script, &mut work, &mut bytes, &mut begun)
    };
    let list = &records(&CUBES);
    assert_eq!(run(list, &[], 40, 10), Ok(vec![5, 5]));
    assert_eq!(run(list, &[], 47, 10), Ok(vec![5, 5]));
    assert_eq!(run(list, &[], 48, 10), refused(5, 0));
    assert_eq!(run(list, &[], 48, 12), Ok(vec![5, 5]));
    assert_eq!(run(list, &[0], 40, 9), refused(5, 0));
    assert_eq!(run(list, &[0], 40, 10), refused(7, 0));
    assert_eq!(run(list, &[0], 39, 10), refused(5, 0));
    assert_eq!(run(list, &[], RECORD * 5000, PLACE * 4096), Ok(vec![5, 5]));
    assert_eq!(run(list, &[], RECORD * 5000, PLACE * 4096 - 1), refused(5, 0));
    assert_eq!(run(&[], &[], 0, 0), Ok(vec![0, 0]));
}

/// "Partners for a join differ by at most one in their number of literals."
#[test]
fn partners_for_a_join() {
    let cubes = list(&["00", "10", "-0", "01", "11", "-1", "0-", "1-", "--"]);
    let pairs = cubes.iter().flat_map(|a| cubes.iter().map(move |b| (a, b)));
    let partners: Vec<_> = pairs.filter(|(a, b)| differing(a, b).len() == 1).collect();
    assert_eq!(partners.len(), 36);
    assert!(partners.iter().all(|(a, b)| literals(a).abs_diff(literals(b)) <= 1));
}
