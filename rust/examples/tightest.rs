//! The longest merging stages that we know, as a table. With a height, a distance and a model it goes through all lists of
//! calls, which takes a small shape. With a number of tries behind them it looks for a longer stage, from the stored rounds
//! of the shape on, or else from random ones; one more number is the seed.

use baizeridge_tests::random::Random;
use baizeridge_tests::sparse;
use baizeridge_tests::stages::exhausted;
use baizeridge_tests::streams::Shape;
use baizeridge_tests::tightest::{table, tightest, Rounds};

/// Climbs, and writes what is found as it is stored.
fn search(shape: Shape, tries: usize, seed: u64) {
    let mut random = Random::new(seed, 0);
    let stored = tightest().into_iter().find(|(_, rounds)| rounds.shape == shape);
    let start = stored.map_or_else(
        || Rounds { shape, defects: random.bits((shape.sheets() + 1) * shape.detectors()) },
        |(_, rounds)| rounds,
    );
    let (steps, rounds) = start.climb(tries, sparse::decode, &mut random);
    println!("{} {} {} {steps}", shape.height, shape.distance, shape.model);
    for round in rounds.defects.chunks(shape.detectors()) {
        let digits = |row: &[u8]| row.iter().map(u8::to_string).collect::<String>();
        println!("{}", round.chunks(shape.distance - 1).map(digits).collect::<Vec<_>>().join(" "));
    }
}

fn main() {
    let words: Vec<String> = std::env::args().skip(1).collect();
    let number = |word: &String| word.parse::<u32>().expect("a number");
    let Some(name) = words.first_chunk::<3>() else { return println!("{}", table()) };
    let shape = Shape::new(name.each_ref().map(number)).expect("a shape in range");
    let Some(tries) = words.get(3).map(number) else {
        let (steps, windows) = exhausted(shape);
        return println!("at most {steps} steps, {windows} windows at rest");
    };
    search(shape, tries as usize, words.get(4).map_or(0, number).into());
}
