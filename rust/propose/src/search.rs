//! The search. An attempt joins what can be joined, in some order; then it links products that it draws, if that makes the list no dearer, or now and then dearer by one.
//! Each time the list is shorter than the script's, the script gets the steps that this needs, and all others are forgotten. Of several attempts the best is taken.

use crate::Shape;
use crate::clock::Clock;
use crate::link;
use crate::merging::merging;
use crate::needed::needed;
use crate::product::Product;
use crate::random::Random;
use crate::script::{MOST_STEPS, Script, Unfit};
use crate::tidy::tidy;
use crate::work::{Done, NO, Work};

/// One of so many links may make the list dearer than the script's, by one product.
const UPHILL: usize = 50;
/// After so many steps with nothing shorter, and two more for each product, it goes back to the script's list: what is found far from there needs more steps than a script has.
const WANDER: usize = 1_000;
/// After so many tries with nothing shorter, another attempt is made.
const STALL: usize = 1_000_000;
/// A script with more steps than this is full where what is found next doesn't fit.
const LONG: usize = MOST_STEPS / 2;

/// What costs no more than this can't be made cheaper, once it is joined: a list that costs nothing is 0 or 1 everywhere.
const LEAST: i32 = 1;

/// Why an attempt ended.
#[derive(Clone, Copy, PartialEq, Eq)]
enum End {
    /// What it found next needs more steps than the script has room for.
    Full,
    /// It found nothing more, in its tries or in its time.
    Stalled,
}

/// What a list is judged by: its cost, and then its products. Of several outputs, products with one cube cost one, since they can be merged.
pub fn standing(shape: Shape, list: &[Product]) -> (i32, usize) {
    let cost = if shape.outputs == 1 {
        list.len() - usize::from(list.iter().any(|product| product.is_constant()))
    } else {
        let mut cubes: Vec<(u32, u32)> = list.iter().map(|product| (product.seen, product.value)).collect();
        cubes.sort_unstable();
        cubes.dedup();
        cubes.len()
    };
    (cost as i32, list.len())
}

pub struct Search<'a> {
    shape: Shape,
    given: &'a [Product],
    work: Work,
    random: Random,
    clock: Clock,
    attempt: usize,
    best: Script,
}

impl Search<'_> {
    pub fn new(shape: Shape, given: &[Product], seed: u64, clock: Clock) -> Search<'_> {
        let mut random = Random::new(seed);
        let work = Work::new(shape, given.len(), link::MOST, &mut random);
        Search { shape, given, work, random, clock, attempt: 0, best: Script::new(given.to_vec()) }
    }

    /// The best script of several attempts. One that is full is the last: the list it ends in is the next one's to go on with.
    pub fn run(mut self) -> Script {
        loop {
            self.attempt += 1;
            let (script, end) = self.attempted();
            let better = self.is_better(&script);
            if better {
                self.best = script;
            }
            let full = better && end == End::Full;
            if full || self.clock.is_over() || standing(self.shape, &self.best.list).0 <= LEAST {
                return self.ended(full);
            }
        }
    }

    fn is_better(&self, script: &Script) -> bool {
        let judged = |script: &Script| (standing(self.shape, &script.list), script.steps.len());
        judged(script) < judged(&self.best)
    }

    /// The best script with its merges; where others are to come before them, with so many that the list is shorter than the given one.
    fn ended(self, full: bool) -> Script {
        let merges = if full { (self.best.list.len() + 1).saturating_sub(self.given.len()) } else { usize::MAX };
        if self.shape.outputs == 1 { self.best } else { self.best.merged(merges) }
    }

    fn attempted(&mut self) -> (Script, End) {
        let mut script = Script::new(self.given.to_vec());
        let mut order: Vec<u32> = (0..self.given.len() as u32).collect();
        if self.attempt > 1 {
            self.random.shuffle(&mut order);
        }
        self.work.begin(&script.list, &order, &mut self.random);
        loop {
            if !self.is_shorter_within(&script) {
                return (script, End::Stalled);
            }
            match self.extended(&script) {
                Ok(next) if standing(self.shape, &next.list) < standing(self.shape, &script.list) => script = next,
                Err(Unfit::Steps) if script.steps.len() > LONG => return (script, End::Full),
                _ if self.clock.is_over() => return (script, End::Stalled),
                _ => {}
            }
            if standing(self.shape, &script.list) < standing(self.shape, &self.best.list) {
                self.clock.gained();
            }
            self.again(&script);
        }
    }

    /// Goes on until the list is shorter than the script's; whether it is before the tries or the time are over.
    fn is_shorter_within(&mut self, script: &Script) -> bool {
        let base = standing(self.shape, &script.list);
        for tries in 0..STALL {
            if (self.work.cost(), self.work.len()) < base {
                return true;
            }
            if base.0 <= LEAST || tries % 1024 == 0 && self.is_time_over(script) {
                return false;
            }
            if self.work.log().len() > WANDER + 2 * script.list.len() {
                self.again(script);
            }
            self.try_link(base.0);
        }
        false
    }

    fn is_time_over(&mut self, script: &Script) -> bool {
        let best = if self.is_better(script) { script } else { &self.best };
        self.clock.tell(self.attempt, self.given.len(), best.list.len(), best.steps.len());
        self.clock.is_over()
    }

    /// Goes back to the list that the script ends in.
    fn again(&mut self, script: &Script) {
        let order: Vec<u32> = (0..script.list.len() as u32).collect();
        self.work.begin(&script.list, &order, &mut self.random);
    }

    /// Draws two products, and links them if that makes the list no dearer than it may be; `base` is what the script's list costs.
    fn try_link(&mut self, base: i32) {
        let (from, to) = self.work.pair(&mut self.random);
        let (first, second) = (self.work.at(from), self.work.at(to));
        let differing = first.differing(second).count_ones() as usize;
        if !(2..=link::MOST).contains(&differing) || first.outputs != second.outputs {
            return;
        }
        let allowed = i32::from(self.work.cost() <= base && self.random.one_in(UPHILL));
        let way = link::best(&self.work, first, second, &mut self.random);
        if way.dearer > allowed {
            return;
        }
        let mark = self.work.mark();
        link::go(&mut self.work, from, to, &way, &mut self.random);
        if self.work.cost() > mark.cost + allowed {
            self.work.back(mark);
        }
    }

    /// The script with the steps that the present list's gain needs; where there isn't room for all of them and each is a gain, with those that there is room for.
    fn extended(&self, script: &Script) -> Result<Script, Unfit> {
        let mut log = self.work.log().to_vec();
        let mut products = self.work.products().to_vec();
        let own = products.len() as u32;
        if self.shape.outputs > 1 {
            let (merges, merged) = merging(&self.work.present(), own);
            log.extend(merges);
            products.extend(merged);
        }
        let log = tidy(&log, &products);
        // merges count, so that sharing does; but they are done at the end
        let is_own = |done: &Done| done.took.into_iter().chain(done.made).all(|number| number == NO || number < own);
        let kept = log.iter().zip(needed(&log)).filter(|&(done, needed)| needed && is_own(done));
        let mut chosen: Vec<&Done> = kept.map(|(done, _)| done).collect();
        if script.room() > 0 && chosen.iter().all(|done| done.price < 0) {
            chosen.truncate(script.room());
        }
        script.then(chosen.into_iter(), &products)
    }
}
