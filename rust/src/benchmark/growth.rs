//! The second table: how a round's cost grows with distance at fixed noise and with noise at fixed distance, and the powers
//! that fit.

use super::load::Load;
use super::race::{self, Peer};
use super::{head, percent, row, short, size, NO_VALGRIND};
use crate::decoding::Decoded;
use crate::{dense, sparse};

pub const NAME: &str = "growth";

const PEERS: [Peer; 2] = [dense::decode, sparse::decode];
/// Heights, which are also distances.
const SIZES: [u32; 7] = [3, 5, 7, 9, 11, 13, 15];
const AT_CHANCES: [usize; 2] = [1_000, 10_000];
const CHANCES: [usize; 6] = [500, 1_000, 2_000, 5_000, 10_000, 20_000];
const AT_SIZES: [u32; 2] = [7, 15];
/// A stream's rounds times its distance.
const ALL_ROUNDS: usize = 6_000;
/// In front of the streams' numbers, which are not those of the first table.
const CASES: u64 = 1_000;

/// What grows.
#[derive(Clone, Copy)]
enum Axis {
    Distance,
    Noise,
}

impl Axis {
    fn value(self, load: &Load) -> f64 {
        match self {
            Axis::Distance => load.shape.distance as f64,
            Axis::Noise => load.chance as f64,
        }
    }
}

/// Streams along an axis, all else the same.
fn series(axis: Axis) -> Vec<Vec<Load>> {
    let lines: Vec<Vec<(u32, usize)>> = match axis {
        Axis::Distance => AT_CHANCES.map(|chance| SIZES.map(|size| (size, chance)).into()).into(),
        Axis::Noise => AT_SIZES.map(|size| CHANCES.map(|chance| (size, chance)).into()).into(),
    };
    let of_model = |line: &[(u32, usize)], model: usize| line.iter().map(|&point| load(point, model)).collect();
    lines.iter().flat_map(|line| [0, 1].map(|model| of_model(line, model))).collect()
}

fn load((size, chance): (u32, usize), model: usize) -> Load {
    let both = Load::pair(CASES + u64::from(size), size, chance, ALL_ROUNDS / size as usize);
    both.into_iter().nth(model).expect("there are two models")
}

fn all() -> Vec<(Axis, Vec<Vec<Load>>)> {
    [Axis::Distance, Axis::Noise].map(|axis| (axis, series(axis))).into()
}

pub fn count() {
    for (_, series) in all() {
        series.iter().for_each(|loads| race::decode_counted(loads, &[]));
    }
}

pub fn print() {
    let all = all();
    let loads: Vec<&Load> = all.iter().flat_map(|(_, series)| series.iter().flatten()).collect();
    let counts = race::instructions(NAME, &loads, &[]);
    let mut counts = counts.iter().flatten().flatten().copied();
    for (axis, series) in &all {
        headed(*axis);
        for loads in series {
            line(*axis, loads, counts.by_ref().take(loads.len()).collect());
        }
    }
}

/// Times along the axis, and the powers of it that fit them best.
fn headed(axis: Axis) {
    let (title, fixed, points) = match axis {
        Axis::Distance => ("With distance", "noise", SIZES.map(|size| format!("{size} by {size}")).to_vec()),
        Axis::Noise => ("With noise", "shape", CHANCES.map(percent).to_vec()),
    };
    println!("\n{title}, the proved decoder's microseconds a round, and the powers that fit best:\n");
    let powers = "time | off by | instructions | off by | steps | time of dense | of sparse";
    head(&format!("{fixed} | model | {} | {powers}", points.join(" | ")));
}

fn line(axis: Axis, loads: &[Load], counts: Vec<f64>) {
    let first = &loads[0];
    let fixed = match axis {
        Axis::Distance => percent(first.chance),
        Axis::Noise => size(first.shape),
    };
    let decoded: Vec<Decoded> = loads.iter().map(|load| sparse::decode(&load.input)).collect();
    let times: Vec<Vec<f64>> =
        loads.iter().zip(&decoded).map(|(load, decoded)| race::times(load, decoded, &PEERS)).collect();
    let by = |decoder: usize| times.iter().map(|times| times[decoder]).collect::<Vec<f64>>();
    let steps = loads.iter().zip(&decoded).map(|(load, decoded)| load.a_round(decoded.steps as f64)).collect();
    let fitted = |taken: Vec<f64>| fit(loads.iter().map(|load| axis.value(load)).zip(taken));
    let both = |taken| {
        let Fit { power, off } = fitted(taken);
        [power, off].map(|number| format!("{number:.2}"))
    };
    let power = |taken| both(taken)[0].clone();
    let cells = [fixed, first.shape.model.to_string()].into_iter().chain(by(0).into_iter().map(short));
    let counted = if counts.is_empty() { [NO_VALGRIND.into(), String::new()] } else { both(counts) };
    row(cells.chain(both(by(0))).chain(counted).chain([power(steps), power(by(1)), power(by(2))]));
}

/// A power of what grows, times a constant.
pub struct Fit {
    pub power: f64,
    /// The largest factor between what was measured and what it gives.
    pub off: f64,
}

/// Least squares of the logarithms.
pub fn fit(points: impl Iterator<Item = (f64, f64)>) -> Fit {
    let logs: Vec<(f64, f64)> = points.map(|(x, y)| (x.ln(), y.ln())).collect();
    let mean = |of: fn(&(f64, f64)) -> f64| logs.iter().map(of).sum::<f64>() / logs.len() as f64;
    let (x, y) = (mean(|log| log.0), mean(|log| log.1));
    let along: f64 = logs.iter().map(|log| (log.0 - x) * (log.1 - y)).sum();
    let power = along / logs.iter().map(|log| (log.0 - x).powi(2)).sum::<f64>();
    let off = logs.iter().map(|log| (log.1 - y - power * (log.0 - x)).abs()).fold(0.0, f64::max);
    Fit { power, off: off.exp() }
}
