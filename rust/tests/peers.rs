//! The benchmark's decoders in Rust against the second one.

use baizeridge_tests::cases::{each_case, each_start, shapes, CHANCES};
use baizeridge_tests::decoding::{Decoded, DECODED};
use baizeridge_tests::noise::{stream, Noise};
use baizeridge_tests::streams::Shape;
use baizeridge_tests::{decoder, dense, sparse};
use std::collections::BTreeSet;

type Decode = fn(&[u8]) -> Decoded;

const PEERS: [(&str, Decode); 2] = [("dense", dense::decode), ("sparse", sparse::decode)];

/// What the second decoder makes of a stream, and so does each peer.
fn agreed(input: &[u8]) -> Decoded {
    let expected = decoder::decode(input);
    for (name, decode) in PEERS {
        assert_eq!(decode(input), expected, "{name}");
    }
    expected
}

#[test]
fn peers_agree_with_the_second_decoder() {
    let shapes = shapes();
    let (mut rounds, mut committed) = (0, 0);
    each_case(0x59a45e, shapes.len(), |case, random| {
        let shape = shapes[case % shapes.len()];
        let noise = Noise::any(random.pick(&CHANCES), random);
        let decoded = agreed(&stream(shape, 1 + shape.sheets() + random.below(shape.sheets()), noise, random));
        rounds += decoded.rounds();
        committed += decoded.committed;
    });
    assert!(rounds >= 5_000 && committed >= 20_000, "{rounds} rounds, {committed} edges");
}

#[test]
fn the_first_rounds_of_every_shape() {
    let mut committing = BTreeSet::new();
    each_start(0x59a5e, |shape, input, _| {
        if agreed(input).committed > 0 {
            committing.insert(shape);
        }
    });
    assert_eq!(committing.len(), shapes().len());
}

/// Sparse raises its sheets' numbers after 112 rounds.
#[test]
fn long_streams() {
    let shapes = [(1, 2), (3, 3), (7, 7), (15, 15), (15, 2), (1, 15)];
    let chances = [1_000, 10_000, 30_000, 100_000];
    each_case(0x59a4, 2 * shapes.len() * chances.len(), |case, random| {
        let (height, distance) = shapes[case / 2 % shapes.len()];
        let shape = Shape { height, distance, model: case % 2 };
        let noise = Noise::any(chances[case / 2 / shapes.len()], random);
        agreed(&stream(shape, 250, noise, random));
    });
}

#[test]
fn damaged_streams_are_refused_alike() {
    let shapes = shapes();
    let (mut whole, mut refused) = (0, 0);
    each_case(0x59a4da, 5 * shapes.len(), |case, random| {
        let shape = shapes[case % shapes.len()];
        let noise = Noise::any(random.pick(&CHANCES), random);
        let sound = stream(shape, random.below(8), noise, random);
        let decoded = agreed(&random.damaged(&sound));
        *(if decoded.status == DECODED { &mut whole } else { &mut refused }) += 1;
    });
    assert!(whole >= 100 && refused >= 500, "{whole} decoded, {refused} refused");
}
