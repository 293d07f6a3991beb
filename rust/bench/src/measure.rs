//! Functions by turns, and the medians of their times.

use std::time::{Duration, Instant};

/// Samples of each function at each placement of the buffers. With the stand-in, which has no times to tell, one.
const SAMPLES: usize = if cfg!(feature = "standin") { 1 } else { 11 };

/// A sample repeats a function for about this long.
const SAMPLE: Duration = Duration::from_micros(200);

/// Medians in nanoseconds a call, over all samples at all placements. The functions are sampled by turns, so that all meet the same machine;
/// where buffers stand in memory can cost more than what is measured, so they are moved.
pub fn medians<P>(
    placements: impl Iterator<Item = P>,
    first: impl Fn(&mut P),
    second: impl Fn(&mut P),
    third: Option<impl Fn(&mut P)>,
) -> (f64, f64, Option<f64>) {
    let mut samples = (Vec::new(), Vec::new(), Vec::new());
    for mut on in placements {
        let often = (repeats(&mut on, &first), repeats(&mut on, &second));
        let often_third = third.as_ref().map(|third| (third, repeats(&mut on, third)));
        for _ in 0..SAMPLES {
            samples.0.push(sample(&mut on, &first, often.0));
            samples.1.push(sample(&mut on, &second, often.1));
            if let Some((third, often)) = often_third {
                samples.2.push(sample(&mut on, third, often));
            }
        }
    }
    (median(samples.0), median(samples.1), third.map(|_| median(samples.2)))
}

/// How often a function fits into a sample.
fn repeats<P>(on: &mut P, function: &impl Fn(&mut P)) -> u32 {
    let fills = |&repeats: &u32| sample(on, function, repeats) * f64::from(repeats) >= SAMPLE.as_nanos() as f64;
    (0..31).map(|k| 1 << k).find(fills).expect("a call takes time")
}

/// Nanoseconds a call.
fn sample<P>(on: &mut P, function: &impl Fn(&mut P), repeats: u32) -> f64 {
    let start = Instant::now();
    for _ in 0..repeats {
        function(on);
    }
    start.elapsed().as_nanos() as f64 / f64::from(repeats)
}

fn median(mut samples: Vec<f64>) -> f64 {
    samples.sort_by(f64::total_cmp);
    samples[samples.len() / 2]
}
