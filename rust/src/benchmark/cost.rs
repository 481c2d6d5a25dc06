//! The first table: the mean of a round, by the proved decoder and by three in Rust.

use super::load::Load;
use super::race::{self, Peer, REPETITIONS};
use super::{head, percent, row, short, size, whole, NO_VALGRIND};
use crate::{decoder, dense, sparse};

pub const NAME: &str = "cost";

const PEERS: [Peer; 3] = [dense::decode, sparse::decode, decoder::decode];
/// Heights, which are also distances, and rounds.
const STREAMS: [(u32, usize); 5] = [(3, 4_000), (5, 2_000), (7, 1_000), (11, 400), (15, 200)];
const CHANCES: [usize; 2] = [1_000, 10_000];

fn loads() -> Vec<Load> {
    let cases = (0..).zip(STREAMS).flat_map(|stream| CHANCES.map(|chance| (stream, chance)));
    cases.flat_map(|((case, (size, rounds)), chance)| Load::pair(case, size, chance, rounds)).collect()
}

pub fn count() {
    race::decode_counted(&loads(), &PEERS);
}

pub fn print() {
    let loads = loads();
    println!("Microseconds a round, best of {REPETITIONS}:\n");
    head(&format!("shape | model | noise | rounds | steps a round | {COMPARED} | model 1 / model 0"));
    times(&loads);
    println!("\nInstructions a round:\n");
    head(&format!("shape | model | noise | {COMPARED}"));
    instructions(&loads);
}

/// Of what is compared.
const COMPARED: &str = "proved | dense | sparse | second | proved / dense | proved / sparse | proved / second";

fn times(loads: &[Load]) {
    let mut before = f64::NAN;
    for load in loads {
        let decoded = decoder::decode(&load.input);
        let times = race::times(load, &decoded, &PEERS);
        let diagonals = if load.shape.model == 1 { short(times[0] / before) } else { String::new() };
        before = times[0];
        let steps = format!("{:.2}", load.a_round(decoded.steps as f64));
        let cells = named(load).into_iter().chain([whole(load.rounds as f64), steps]);
        row(cells.chain(compared(&times, short)).chain([diagonals]));
    }
}

fn instructions(loads: &[Load]) {
    let counts = race::instructions(NAME, &loads.iter().collect::<Vec<_>>(), &PEERS);
    let Some(counts) = counts else { return row([NO_VALGRIND.into()]) };
    for (load, counts) in loads.iter().zip(counts) {
        row(named(load).into_iter().chain(compared(&counts, whole)));
    }
}

fn named(load: &Load) -> [String; 3] {
    [size(load.shape), load.shape.model.to_string(), percent(load.chance)]
}

/// What each decoder takes, the proved one first, and what it takes by what each other does.
fn compared(taken: &[f64], cell: fn(f64) -> String) -> Vec<String> {
    let ratios = taken[1..].iter().map(|other| short(taken[0] / other));
    taken.iter().map(|&number| cell(number)).chain(ratios).collect()
}
