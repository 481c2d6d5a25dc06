//! The third table: the slowest rounds, by merging steps and by time.

use super::load::Load;
use super::race::timed;
use super::watch::Watched;
use super::{head, percent, row, short, size, whole, UNKNOWN};
use crate::decoding::{Decoded, DECODED};
use crate::streams::Shape;
use crate::tightest::{recorded, tightest, Rounds};
use crate::{proved, sparse};
use std::time::{Duration, Instant};

pub const NAME: &str = "tail";

/// Heights, which are also distances.
const SIZES: [u32; 2] = [7, 15];
const CHANCES: [usize; 2] = [1_000, 10_000];
const ROUNDS: usize = 100_000;
/// In front of the streams' numbers, which are not those of the other tables.
const CASES: u64 = 2_000;

/// A round's time is the median of those seen; there are at least so many, or it is left out.
const TIMES: usize = 5;
/// Runs of a stream without a watcher.
const UNWATCHED: usize = 2;
/// And of a short one.
const REPETITIONS: usize = 100;
/// A stream is watched so long at most: on an idle machine a few runs do.
const PATIENCE: Duration = Duration::from_secs(80);

/// Parts in a thousand.
const PERCENTILES: [usize; 4] = [500, 990, 999, 1_000];

pub fn print() {
    println!(
        "Of {} rounds, steps and microseconds a round that so many percent do not exceed:\n",
        whole(ROUNDS as f64)
    );
    let percentiles = "50 % | 99 % | 99.9 % | most";
    head(&format!(
        "shape | model | noise | steps, {percentiles} | proved bound | µs, mean | mean, watched | {percentiles} | rounds seen"
    ));
    for size in SIZES {
        for chance in CHANCES {
            Load::pair(CASES + u64::from(size), size, chance, ROUNDS).iter().for_each(line);
        }
    }
    println!("\nThe longest merging stages known, and the round that has each:\n");
    head("shape | model | steps | proved bound | µs");
    let square = |shape: Shape| shape.height == shape.distance;
    tightest().iter().filter(|(_, rounds)| square(rounds.shape)).for_each(|(steps, rounds)| longest(*steps, rounds));
}

fn line(load: &Load) {
    let decoded = sparse::decode(&load.input);
    let mut steps = recorded(&decoded.result);
    let mut times: Vec<f64> = rounds(load, &decoded).into_iter().map(|time| time.as_secs_f64() * 1e6).collect();
    let watched = times.iter().sum::<f64>() / times.len() as f64;
    steps.sort();
    times.sort_by(f64::total_cmp);
    let bound = proved::step_bound(load.shape.name());
    let cells = [size(load.shape), load.shape.model.to_string(), percent(load.chance)];
    let by_steps = percentiles(&steps, |steps| steps.to_string());
    let means = [load.a_round(best(UNWATCHED, &load.input, &decoded)), watched].map(short);
    let by_time = percentiles(&times, short);
    let cells = cells.into_iter().chain(by_steps).chain([whole(bound as f64)]).chain(means).chain(by_time);
    row(cells.chain([whole(times.len() as f64)]));
}

/// The last round's time: that of the stream without it does not count.
fn longest(steps: u32, rounds: &Rounds) {
    let shape = rounds.shape;
    let before = rounds.defects.len() - shape.detectors();
    let [whole_stream, before] = [rounds.defects.len(), before].map(|len| {
        let input = Rounds { shape, defects: rounds.defects[..len].to_vec() }.stream();
        best(REPETITIONS, &input, &sparse::decode(&input))
    });
    let bound = proved::step_bound(shape.name());
    let cells = [size(shape), shape.model.to_string(), whole(steps.into()), whole(bound as f64)];
    row(cells.into_iter().chain([short(whole_stream - before)]));
}

/// The least that so many of the sorted numbers do not exceed, if there are any.
fn percentiles<T: Copy>(sorted: &[T], cell: fn(T) -> String) -> [String; 4] {
    PERCENTILES.map(|parts| {
        let place = (parts * sorted.len()).div_ceil(1_000).checked_sub(1);
        place.map_or(UNKNOWN.into(), |place| cell(sorted[place]))
    })
}

/// Microseconds of a whole stream without a watcher, the best of some runs.
fn best(runs: usize, input: &[u8], decoded: &Decoded) -> f64 {
    let mut out = vec![0; decoded.result.len()];
    let times = (0..runs).map(|_| timed(|| proved::decode(input, &mut out)).0);
    times.min().map_or(f64::NAN, |best| best.as_secs_f64() * 1e6)
}

/// The times of the rounds that were seen often enough.
fn rounds(load: &Load, decoded: &Decoded) -> Vec<Duration> {
    assert_eq!(decoded.status, DECODED);
    let mut watched = Watched::new(&decoded.ends);
    let start = Instant::now();
    while start.elapsed() < PATIENCE && watched.seen.iter().any(|times| times.len() < TIMES) {
        watched.decode(&load.input, &decoded.ends);
        assert!(watched.result() == decoded.result, "the proved decoder wrote another result");
    }
    let seen = watched.seen.iter_mut().filter(|times| times.len() >= TIMES);
    seen.map(|times| median(times)).collect()
}

fn median(times: &mut [Duration]) -> Duration {
    let middle = times.len() / 2;
    *times.select_nth_unstable(middle).1
}
