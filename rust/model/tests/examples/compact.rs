//! Document 02, Eleven.

use super::{list, records, refused};
use model::calls::{self, Outcome};
use model::compactor::{compacted, counted, first_pair};
use model::cube::RECORD;
use model::script::Step::{self, Drop, Join, L, Split, Turn};
use model::script::{self, STEP, STEPS, encoded_script};

const SAME: Step = L { v: 0, literal: 1 };
const TURN: Step = Turn { v: 0, i: 0, j: 1 };

/// Nothing is left of these steps.
fn vanish(count: usize, script: &[Step]) {
    assert_eq!(compacted(count, script), [], "{script:?} at {count}");
}

/// All of these steps are left.
fn stay(count: usize, script: &[Step]) {
    assert_eq!(compacted(count, script), script, "at {count}");
}

#[test]
fn two_equal_l_steps() {
    vanish(0, &[SAME, SAME]);
    vanish(3, &[SAME, SAME, SAME, SAME]);
    assert_eq!(compacted(0, &[SAME; 3]), [SAME]);
    stay(3, &[SAME, L { v: 0, literal: 0 }]);
    stay(3, &[SAME, L { v: 1, literal: 1 }]);
    // Equal ones on both sides of another.
    stay(3, &[SAME, L { v: 1, literal: 1 }, SAME]);
    stay(3, &[SAME, L { v: 0, literal: 0 }, SAME, L { v: 0, literal: 0 }]);
}

#[test]
fn two_equal_turns() {
    vanish(2, &[TURN, TURN]);
    // The list doesn't matter, and has no such places.
    vanish(0, &[TURN, TURN]);
    assert_eq!(compacted(2, &[TURN; 3]), [TURN]);
    stay(3, &[TURN, Turn { v: 1, i: 0, j: 1 }]);
    stay(3, &[TURN, Turn { v: 0, i: 2, j: 1 }]);
    stay(3, &[TURN, Turn { v: 0, i: 0, j: 2 }]);
    stay(3, &[TURN, Turn { v: 0, i: 1, j: 0 }]);
    stay(3, &[TURN, SAME, TURN]);
}

#[test]
fn a_split_and_its_join() {
    let split = Split { v: 1, i: 0 };
    vanish(3, &[split, Join { i: 0, j: 3 }]);
    // The places are named the other way.
    stay(3, &[split, Join { i: 3, j: 0 }]);
    stay(3, &[split, Join { i: 0, j: 2 }]);
    stay(3, &[split, Join { i: 0, j: 4 }]);
    stay(3, &[split, Join { i: 1, j: 3 }]);
    stay(2, &[split, Join { i: 0, j: 3 }]);
    // A join before its split, and steps between them.
    stay(3, &[Join { i: 0, j: 3 }, split]);
    stay(3, &[split, SAME, Join { i: 0, j: 3 }]);
    vanish(3, &[split, SAME, SAME, Join { i: 0, j: 3 }]);
    vanish(0, &[Split { v: 1, i: 0 }, Join { i: 0, j: 0 }]);
    vanish(4096, &[Split { v: 1, i: 7 }, Join { i: 7, j: 4096 }]);
}

#[test]
fn two_equal_steps_of_another_kind_are_no_pair() {
    stay(3, &[Split { v: 0, i: 0 }; 2]);
    stay(3, &[Join { i: 0, j: 1 }; 2]);
    stay(3, &[Drop { i: 0, j: 1 }; 2]);
    stay(0, &[Join { i: 0, j: 0 }; 2]);
}

#[test]
fn pairs_that_a_removal_brings_together() {
    vanish(3, &[SAME, Split { v: 1, i: 0 }, Join { i: 0, j: 3 }, SAME]);
    vanish(3, &[Split { v: 0, i: 2 }, Split { v: 1, i: 3 }, TURN, TURN, Join { i: 3, j: 4 }, Join { i: 2, j: 3 }]);
    let (first, second) = (Split { v: 0, i: 0 }, Split { v: 0, i: 1 });
    assert_eq!(compacted(3, &[first, second, Join { i: 1, j: 4 }, Join { i: 3, j: 0 }]), [first, Join { i: 3, j: 0 }]);
}

#[test]
fn the_count_along_the_script() {
    let split = Split { v: 0, i: 0 };
    // After a split, a join and a drop.
    assert_eq!(compacted(3, &[split, split, Join { i: 0, j: 4 }]), [split]);
    stay(3, &[split, split, Join { i: 0, j: 3 }]);
    assert_eq!(compacted(3, &[Join { i: 1, j: 2 }, split, Join { i: 0, j: 2 }]), [Join { i: 1, j: 2 }]);
    assert_eq!(compacted(3, &[Drop { i: 1, j: 2 }, split, Join { i: 0, j: 1 }]), [Drop { i: 1, j: 2 }]);
    // Never below zero.
    let drop = Drop { i: 0, j: 1 };
    assert_eq!(compacted(1, &[drop, split, Join { i: 0, j: 0 }]), [drop]);
    stay(1, &[drop, split, Join { i: 0, j: 1 }]);
    assert_eq!(compacted(0, &[drop, drop, split, split, Join { i: 0, j: 1 }]), [drop, drop, split]);
    assert_eq!(compacted(0, &[Join { i: 0, j: 1 }, split, Join { i: 0, j: 0 }]), [Join { i: 0, j: 1 }]);
    assert_eq!([0, 1, 2, 3].map(|count| counted(count, drop)), [0, 0, 0, 1]);
    assert_eq!([0, 1, 2].map(|count| counted(count, Join { i: 0, j: 1 })), [0, 0, 1]);
    assert_eq!([SAME, TURN, split].map(|step| counted(4096, step)), [4096, 4096, 4097]);
}

#[test]
fn the_first_pair_from_the_front() {
    assert_eq!(first_pair(3, &[]), None);
    assert_eq!(first_pair(3, &[SAME]), None);
    assert_eq!(first_pair(3, &[TURN, SAME, SAME, SAME]), Some(1));
    assert_eq!(first_pair(3, &[Split { v: 0, i: 0 }, TURN, TURN, Join { i: 0, j: 3 }]), Some(1));
}

#[test]
fn long_scripts() {
    vanish(3, &[SAME; STEPS]);
    vanish(3, &[TURN; STEPS]);
    vanish(4096, &[Split { v: 0, i: 0 }, Join { i: 0, j: 4096 }].repeat(STEPS / 2));
    assert_eq!(compacted(3, &[SAME; STEPS - 1]), [SAME]);
    let splits = (0..STEPS / 2).map(|k| Split { v: 0, i: k });
    let joins = (0..STEPS / 2).rev().map(|k| Join { i: k, j: 4096 + k });
    let nest: Vec<Step> = splits.chain(joins).collect();
    vanish(4096, &nest);
    stay(4095, &nest);
}

/// Every script of up to 4 steps of these: once is as good as twice, and what is run is run the same.
#[test]
fn every_short_script() {
    let given = list(&["1-", "0-", "11"]);
    let steps = [
        SAME,
        L { v: 1, literal: 0 },
        TURN,
        Turn { v: 1, i: 1, j: 2 },
        Split { v: 1, i: 0 },
        Join { i: 0, j: 3 },
        Join { i: 3, j: 0 },
        Join { i: 0, j: 1 },
        Drop { i: 0, j: 1 },
    ];
    let (mut done, mut lower) = (0, 0);
    for (length, k) in (0..5).flat_map(|length| (0..9usize.pow(length)).map(move |k| (length, k))) {
        let script: Vec<Step> = (0..length).map(|place| steps[k / 9usize.pow(place) % 9]).collect();
        let short = compacted(3, &script);
        assert_eq!((first_pair(3, &short), compacted(3, &short)), (None, short.clone()));
        if short != script
            && let Ok(run) = script::run(&given, &script, 5)
        {
            let again = script::run(&given, &short, 5).unwrap();
            assert_eq!(again.list, run.list, "{script:?}");
            assert!(again.peak <= run.peak);
            done += 1;
            lower += u32::from(again.peak < run.peak);
        }
    }
    assert!(done > 0 && lower > 0);
}

#[test]
fn in_lent_buffers() {
    let join = Join { i: 1, j: 2 };
    let script = encoded_script(&[SAME, Split { v: 1, i: 0 }, Join { i: 0, j: 3 }, SAME, join]);
    let mut out = [7; 5 * STEP + 3];
    assert_eq!(calls::compact(2, 3, &script, &mut out), Ok(vec![1]));
    assert_eq!((&out[..8], &out[8..]), (&encoded_script(&[join])[..], &[7; 35][..]));
    assert_eq!(calls::compact(32, 4096, &[], &mut []), Ok(vec![0]));

    // Run and settled: the same list, and a lower peak.
    let given = records(&["1-", "-1", "11"]);
    let (mut work, mut again) = ([7; 4 * RECORD], [8; 4 * RECORD]);
    assert_eq!(calls::run(2, &given, &script, &mut work), Ok(vec![2, 4]));
    assert_eq!(calls::run(2, &given, &out[..8], &mut again), Ok(vec![2, 3]));
    assert_eq!(work, again);
    // Where there is no room for the split, the given script is refused and the short one is not.
    assert_eq!(calls::run(2, &given, &script, &mut work[..24]), refused(13, 1));
    assert_eq!(calls::run(2, &given, &out[..8], &mut work[..24]), Ok(vec![2, 3]));
}

/// Each refusal, and each before every one that comes after it.
#[test]
fn refusals_write_nothing() {
    let compact = |n, count, script: &[u8], room: usize| -> Outcome {
        let mut out = vec![7; room];
        let outcome = calls::compact(n, count, script, &mut out);
        assert!(out.iter().all(|&byte| byte == 7));
        outcome
    };
    let good = encoded_script(&[SAME; 3]);
    let bad = [good.clone(), vec![6, 0, 0, 0, 0, 0, 0, 0], vec![0; 8]].concat();
    let (odd, long) = (&good[..23], &good.repeat(342)[..8 * 1025]);
    let (odd_long, odd_bad, long_bad) = ([long, &[0]].concat(), &bad[..39], bad.repeat(205));
    assert_eq!(compact(33, 4097, &good, 24), refused(1, 0));
    for script in [&good[..], odd, long, &bad, &odd_long] {
        assert_eq!(compact(33, 3, script, 0), refused(1, 0));
        assert_eq!(compact(u64::MAX, 4097, script, 9000), refused(1, 0));
        assert_eq!(compact(32, 4097, script, 0), refused(3, 0));
        assert_eq!(compact(32, 1 << 32, script, 9000), refused(3, 0));
    }
    for script in [odd, &odd_long, odd_bad] {
        assert_eq!(compact(32, 4096, script, 0), refused(7, 0));
        assert_eq!(compact(32, 4096, script, 9000), refused(7, 0));
    }
    for script in [long, &long_bad] {
        assert_eq!(compact(32, 4096, script, 0), refused(8, 0));
        assert_eq!(compact(32, 4096, script, 9000), refused(8, 0));
    }
    assert_eq!(compact(32, 3, &bad, 40), refused(9, 3));
    assert_eq!(compact(32, 3, &bad, 0), refused(9, 3));
    assert_eq!(compact(0, 3, &bad, 0), refused(9, 0));
    assert_eq!(compact(32, 3, &good, 23), refused(5, 0));
    // There is nothing to write, and there must be room all the same.
    assert_eq!(compact(32, 3, &good[..16], 0), refused(5, 0));
    assert_eq!(compact(32, 3, &good[..16], 15), refused(5, 0));
}
