//! Document 02, Three.

use super::{list, records, refused};
use model::calls;
use model::cube::{Cube, RECORD, encoded_list, written};
use model::script::Step::{self, Drop, Join};
use model::script::{self, STEP, encoded_script};
use model::writer::{self, first_pair};

/// The steps of an easy script, the list that it ends in, written out, and whether it has finished.
fn easy(cubes: &[&str]) -> (Vec<Step>, Vec<String>, bool) {
    let done = writer::written(&list(cubes));
    (done.steps, done.list.iter().map(written).collect(), done.finished)
}

/// So many cubes over 13 variables, of which no two are near: minterms with an even number of ones.
fn apart(count: u32) -> Vec<Cube> {
    let even = |m: u32| m << 1 | m.count_ones() & 1;
    (0..count).map(|m| (0..13).map(|k| (even(m) >> k & 1) as u8).collect()).collect()
}

#[test]
fn a_drop_and_a_join() {
    assert_eq!(easy(&["0", "1"]), (vec![Join { i: 0, j: 1 }], vec!["-".into()], true));
    assert_eq!(easy(&["0", "0", "0"]), (vec![Drop { i: 0, j: 1 }], vec!["0".into()], true));
    assert_eq!(easy(&["", ""]), (vec![Drop { i: 0, j: 1 }], vec![], true));
    assert_eq!(easy(&["1-", "-1", "11"]), (vec![Join { i: 0, j: 2 }], vec!["10".into(), "-1".into()], true));
}

#[test]
fn lists_without_a_pair() {
    assert_eq!(easy(&[]), (vec![], vec![], true));
    assert_eq!(easy(&["01"]), (vec![], vec!["01".into()], true));
    assert_eq!(easy(&["00", "11"]), (vec![], vec!["00".into(), "11".into()], true));
    assert_eq!(first_pair(&list(&["00", "11", "1-"])), Some((1, 2)));
    assert_eq!(first_pair(&apart(4096)), None);
}

#[test]
fn the_lowest_i_then_the_lowest_j() {
    // 1 and 2 are a pair too, with a lower j.
    assert_eq!(first_pair(&list(&["00", "11", "11", "0-"])), Some((0, 3)));
    assert_eq!(first_pair(&list(&["00", "11", "01", "0-"])), Some((0, 2)));
}

#[test]
fn a_record_that_was_moved() {
    // The last record goes to place 1, which the first join frees, in front of its partner.
    let (steps, end, finished) = easy(&["0000", "0001", "1111", "0-1-", "1110"]);
    assert_eq!(steps, [Join { i: 0, j: 1 }, Join { i: 1, j: 2 }]);
    assert_eq!((end, finished), (["000-", "111-", "0-1-"].map(String::from).to_vec(), true));
}

#[test]
fn a_new_cube_that_is_near_one_in_front() {
    let (steps, end, finished) = easy(&["0-", "11", "10"]);
    assert_eq!((steps, end, finished), (vec![Join { i: 1, j: 2 }, Join { i: 0, j: 1 }], vec!["--".into()], true));
}

#[test]
fn after_1024_steps() {
    let twice = |count| apart(count).into_iter().flat_map(|cube| [cube.clone(), cube]).collect::<Vec<Cube>>();
    let done = writer::written(&twice(2048));
    assert_eq!((done.steps, done.list.len(), done.finished), (vec![Drop { i: 0, j: 1 }; 1024], 2048, false));
    let done = writer::written(&twice(1024));
    assert_eq!((done.steps, done.list.len(), done.finished), (vec![Drop { i: 0, j: 1 }; 1024], 0, true));
    let done = writer::written(&[twice(1024), vec![vec![2; 13]]].concat());
    assert_eq!((done.steps.len(), done.list, done.finished), (1024, vec![vec![2; 13]], true));
}

#[test]
fn every_step_is_at_the_first_pair() {
    let cubes = list(&["00", "10", "-0", "01", "11", "-1", "0-", "1-", "--"]);
    for k in 0..9usize.pow(4) {
        let given: Vec<Cube> = (0..4).map(|place| cubes[k / 9usize.pow(place) % 9].clone()).collect();
        let done = writer::written(&given);
        let mut list = given.clone();
        for &step in &done.steps {
            let (Drop { i, j } | Join { i, j }) = step else { panic!("{step:?}") };
            assert_eq!(first_pair(&list), Some((i, j)), "{given:?}");
            script::step(&mut list, step, 4, 0).unwrap();
        }
        assert_eq!((first_pair(&list), done.finished), (None, true), "{given:?}");
        assert_eq!(script::run(&given, &done.steps, 4).unwrap().list, done.list);
    }
}

#[test]
fn in_lent_buffers() {
    let given = records(&["0000", "0001", "1111", "0-1-", "1110"]);
    let end = records(&["000-", "111-", "0-1-"]);
    let steps = encoded_script(&[Join { i: 0, j: 1 }, Join { i: 1, j: 2 }]);
    let (mut work, mut script) = ([7; 5 * RECORD + 3], [7; 5 * STEP + 3]);
    assert_eq!(calls::write_script(4, &given, &mut work, &mut script), Ok(vec![2, 1]));
    assert_eq!((&work[..24], &work[24..]), (&end[..], &[0; 19][..]));
    assert_eq!((&script[..16], &script[16..]), (&steps[..], &[7; 27][..]));
    let mut again = [7; 5 * RECORD];
    assert_eq!(calls::run(4, &given, &script[..16], &mut again), Ok(vec![3, 5]));
    assert_eq!(again[..], work[..40]);

    let mut work = [7; 3];
    assert_eq!(calls::write_script(32, &[], &mut work, &mut []), Ok(vec![0, 1]));
    assert_eq!(work, [0; 3]);
}

#[test]
fn refusals_write_nothing() {
    let given = records(&["00", "11"]);
    let refused_in = |n, list: &[u8], work: usize, script: usize| {
        let (mut work, mut script) = (vec![7; work], vec![7; script]);
        let outcome = calls::write_script(n, list, &mut work, &mut script);
        assert!(work.iter().chain(&script).all(|&byte| byte == 7));
        outcome
    };
    assert_eq!(refused_in(33, &given[1..], 15, 15), refused(1, 0));
    assert_eq!(refused_in(2, &given[1..], 0, 0), refused(2, 0));
    assert_eq!(refused_in(0, &[255; RECORD * 4097], 0, 0), refused(3, 0));
    assert_eq!(refused_in(1, &given, 15, 15), refused(4, 0));
    assert_eq!(refused_in(2, &given, 15, 16), refused(5, 0));
    // There is nothing to write, and there must be room all the same.
    assert_eq!(refused_in(2, &given, 16, 15), refused(5, 0));
}

#[test]
fn room_for_the_longest_script() {
    let given = encoded_list(&apart(4096));
    let (mut work, mut script) = (vec![7; RECORD * 4096], vec![7; STEP * 1024]);
    assert_eq!(calls::write_script(13, &given, &mut work, &mut script), Ok(vec![0, 1]));
    assert_eq!((work, script), (given.clone(), vec![7; STEP * 1024]));
    let (mut work, mut script) = (vec![7; RECORD * 4096], vec![7; STEP * 1024 - 1]);
    assert_eq!(calls::write_script(13, &given, &mut work, &mut script), refused(5, 0));
    assert_eq!(calls::write_script(13, &given[RECORD..], &mut work[RECORD + 1..], &mut script), refused(5, 0));
    let few = &given[..RECORD * 1023];
    assert_eq!(calls::write_script(13, few, &mut work, &mut script), Ok(vec![0, 1]));
    assert_eq!(calls::write_script(13, few, &mut work, &mut script[8..]), refused(5, 0));
}
