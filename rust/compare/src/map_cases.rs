//! Calls on maps of several lists, by chance.

use crate::broken::AT_A_STEP;
use crate::cases::{RECORDS, VARIABLES, assignment, cubes, lent, many_variables, script_bytes_of, variables};
use crate::damage::{Faults, damaged_script, list_bytes};
use crate::differ::{Call, Case, empty};
use crate::map_damage::{damaged_lengths, damaged_script_lengths};
use crate::map_parts::end_to_end;
use crate::random::Random;
use crate::scripts::script;
use model::cube::{Cube, PLACE, RECORD, encoded_list};
use model::refusal::ORDERS;
use model::script::{STEPS, encoded_script};
use model::selector::MOST_LISTS;

/// The refusals that a map would like to meet, and the list that each is to be of, where it is of one.
struct MapFaults(Vec<(u64, usize)>);

impl MapFaults {
    /// None in half of the cases; else up to three, of one list, often the first, or of several.
    fn draw(random: &mut Random, call: Call) -> MapFaults {
        let numbers = ORDERS[call as usize].1;
        let some = if random.one_in(2) { 0 } else { random.pick(&[1, 1, 2, 2, 3]) };
        let list = if random.one_in(5) { 0 } else { random.below(MOST_LISTS) };
        let mut drawn = || {
            let of = if random.one_in(2) { list } else { random.below(MOST_LISTS) };
            (random.pick(numbers), of)
        };
        MapFaults((0..some).map(|_| drawn()).collect())
    }

    fn all(&self) -> Faults {
        Faults(self.0.iter().map(|(number, _)| *number).collect())
    }

    /// Those of list k.
    fn of(&self, k: usize) -> Faults {
        Faults(self.0.iter().filter(|(_, list)| *list == k).map(|(number, _)| *number).collect())
    }

    /// How many lists the map has: at least those that are to be refused.
    fn lists(&self, random: &mut Random) -> usize {
        let of_a_list = self.0.iter().filter(|(number, _)| !matches!(number, 1 | 6 | 24 | 26));
        let least = of_a_list.map(|(_, list)| list + 1).max().unwrap_or(1);
        let any = random.between(least, MOST_LISTS);
        if self.all().has(24) && random.one_in(2) {
            return MOST_LISTS + random.pick(&[1, 1, 2, any]);
        }
        random.pick(&[least, least.max(2), any, any, MOST_LISTS])
    }
}

pub fn map_case(random: &mut Random, call: Call) -> Case {
    let faults = &MapFaults::draw(random, call);
    let all = &faults.all();
    let width = width(random, call, all);
    let n = variables(random, all, width, VARIABLES);
    let (out_too_short, work_too_small) = match (all.has(5), call) {
        (false, _) => (false, false),
        (true, Call::SettleMap) => random.pick(&[(true, false), (false, true), (false, true), (true, true)]),
        (true, _) => (true, false),
    };
    let too_long = faults.0.iter().find(|(number, _)| *number == 5 && work_too_small).map(|(_, list)| *list);
    let count = faults.lists(random);
    let counts = counts(random, faults, count, too_long);
    let lists: Vec<Vec<Cube>> = counts.iter().map(|&count| cubes(random, width, count)).collect();
    let mut bytes = |k: usize| list_bytes(random, &faults.of(k), width, RECORD, encoded_list(&lists[k]));
    let (input, lengths) = end_to_end(&(0..lists.len()).map(&mut bytes).collect::<Vec<_>>());
    let number = if call == Call::SettleMap { 0 } else { assignment(random, all, width, &lists.concat()) };
    let records = lengths.iter().map(|&length| length as usize / RECORD).sum::<usize>();
    let out = match call {
        Call::Slot => vec![],
        Call::SettleMap => output(random, input.len(), out_too_short),
        _ => output(random, PLACE * records, out_too_short),
    };
    let mut case = Case { input, lengths, number, out, ..empty(call, n) };
    if call != Call::Slot {
        case.numbers.fill_with(|| random.next());
    }
    if call == Call::SettleMap {
        case.work = work(random, &counts, too_long);
        let capacity = (case.work.len() / RECORD).min(RECORDS);
        let mut script = |k: usize| script_of(random, &faults.of(k), width, &lists[k], capacity);
        (case.script, case.script_lengths) = end_to_end(&(0..lists.len()).map(&mut script).collect::<Vec<_>>());
    }
    if all.has(24) && case.lengths.len() <= MOST_LISTS {
        without_lists(random, &mut case);
    }
    if all.has(26) {
        damage(random, &mut case);
    }
    case
}

/// An output with garbage in it: as long as it must be, longer by bytes or records, or too short. It has no capacity.
fn output(random: &mut Random, needed: usize, too_short: bool) -> Vec<u8> {
    let more = random.pick(&[1, RECORD, 10 * RECORD, 10 * RECORD]);
    if too_short {
        return lent(random, needed, true);
    }
    let length = needed + random.below(more);
    random.bytes(length)
}

/// Where lists are settled, above 8 variables or few: there the model is fast.
fn width(random: &mut Random, call: Call, faults: &Faults) -> usize {
    match faults.at_a_step() {
        _ if call != Call::SettleMap => many_variables(random, VARIABLES),
        Some(19) if random.one_in(2) => random.between(2, 4),
        _ if random.one_in(2) => many_variables(random, VARIABLES).max(9),
        _ => match random.below(4000) {
            0 => 8,
            1..=4 => 7,
            5..=24 => 6,
            25..=100 => 5,
            _ => random.below(5),
        },
    }
}

/// The records of each list: mostly few, and now and then a list of as many as there can be with others beside it. The one that is to be too long for the
/// work buffer has more than any other; one that is to fill it up has as many.
fn counts(random: &mut Random, faults: &MapFaults, lists: usize, too_long: Option<usize>) -> Vec<usize> {
    let longest = random.one_in(200).then(|| random.below(lists));
    let each = |k: usize| {
        let of_it = faults.of(k);
        let least = match of_it.at_a_step() {
            Some(16..=19) => 2,
            Some(_) => 1,
            None => usize::from(of_it.has(4)),
        };
        match random.below(200) {
            _ if longest == Some(k) => RECORDS - random.below(3),
            0 => random.between(65, 300),
            1..=16 => random.between(9, 64),
            _ => random.between(least, 5),
        }
    };
    let mut counts: Vec<usize> = (0..lists).map(each).collect();
    for k in (0..lists).filter(|&k| faults.of(k).has(13)) {
        counts[k] = *counts.iter().max().expect("there is a list");
    }
    if let Some(k) = too_long.filter(|&k| k < lists) {
        counts[k] = 0;
        counts[k] = counts.iter().max().expect("there is a list") + random.between(1, 4);
    }
    counts
}

/// A work buffer for every list, or for every one but that which is too long.
fn work(random: &mut Random, counts: &[usize], too_long: Option<usize>) -> Vec<u8> {
    let others = (0..counts.len()).filter(|&k| Some(k) != too_long);
    let needed = RECORD * others.map(|k| counts[k]).max().unwrap_or(0);
    match too_long.and_then(|k| counts.get(k)) {
        Some(count) => {
            let length = random.between(needed, RECORD * count - 1);
            random.bytes(length)
        }
        None => lent(random, needed, false),
    }
}

fn script_of(random: &mut Random, faults: &Faults, width: usize, list: &[Cube], capacity: usize) -> Vec<u8> {
    let length = match random.below(1000) {
        0 => STEPS,
        1..=60 => random.between(9, 40),
        61..=300 => 0,
        _ => random.between(1, 5),
    };
    let capacity = capacity.max(list.len());
    let room = (length, capacity - list.len());
    let script = script_bytes_of(random, faults, room, &AT_A_STEP, |random, length, mistake| {
        encoded_script(&script(random, width, list, capacity, length, mistake))
    });
    damaged_script(random, faults, Call::Settle, width, script)
}

/// Takes all lists away, or their lengths alone; and the scripts or not.
fn without_lists(random: &mut Random, case: &mut Case) {
    case.lengths.clear();
    if random.one_in(2) {
        case.input.clear();
    }
    if random.one_in(2) {
        case.script.clear();
        case.script_lengths.clear();
    }
}

/// Damages the lengths of the lists, of the scripts, or of both.
fn damage(random: &mut Random, case: &mut Case) {
    let (of_lists, of_scripts) = match case.call {
        Call::SettleMap => random.pick(&[(true, false), (false, true), (true, true)]),
        _ => (true, false),
    };
    if of_lists {
        damaged_lengths(random, &mut case.lengths);
    }
    if of_scripts {
        damaged_script_lengths(random, &mut case.script_lengths);
    }
}
