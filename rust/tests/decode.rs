//! The exported decoding of whole streams against the second decoder, which is held to the law on the way. No stream
//! spends the budget of a round, and none that we know has a defect escape; the script of `replay` has both, with small
//! budgets and on edited windows.

use baizeridge_tests::account::Accounted;
use baizeridge_tests::cases::{each_case, each_start, shapes, CHANCES};
use baizeridge_tests::compare;
use baizeridge_tests::covered::Covered;
use baizeridge_tests::decoding::{self, Decoded, DECODED};
use baizeridge_tests::noise::{stream, Noise};
use baizeridge_tests::random::Random;
use baizeridge_tests::streams::{header_bytes, number_bytes, read_number, Done, Shape, HEADER};
use baizeridge_tests::tally::Tally;
use baizeridge_tests::{decoder, dense};
use std::collections::BTreeSet;

/// All rounds of a stream.
fn note(covered: &mut Covered, shape: Shape, decoded: &Decoded) {
    let edges = decoded.ends[..decoded.rounds()].iter().map(|&at| match read_number(&decoded.result, at) {
        Ok(Done(edges, _)) => edges as usize,
        Err(_) => panic!("a record starts with its edges"),
    });
    covered.note(shape, &edges.collect::<Vec<_>>(), |_| true);
}

/// Decodes on both sides, with a few bytes to spare.
fn decoded(input: &[u8], spare: usize) -> Decoded {
    let decoded = decoding::decode::<Accounted>(input);
    compare::decode(input, &decoded, decoded.result.len() + spare);
    decoded
}

/// Decodes a random stream to its end.
fn decode_random(shape: Shape, rounds: usize, chance: usize, random: &mut Random, covered: &mut Covered) {
    let input = stream(shape, rounds, Noise::any(chance, random), random);
    let decoded = decoded(&input, random.below(9));
    assert_eq!((decoded.status, decoded.rounds()), (DECODED, rounds));
    note(covered, shape, &decoded);
}

/// Streams of more than 2s rounds, at every second noise level of a shape: several of a small one, one of a larger one, and
/// of those with 500 nodes and more only at every third level, then fourth, and so on up to `rarest`.
fn through_the_window(seed: u64, chances: &[usize], rarest: usize) -> Vec<Covered> {
    let shapes = shapes();
    let mut levels: Vec<Covered> = chances.iter().map(|_| Covered::default()).collect();
    each_case(seed, chances.len() * shapes.len(), |case, random| {
        let (level, shape) = (case / shapes.len(), shapes[case % shapes.len()]);
        let (h, d, s) = (shape.height, shape.distance, shape.sheets());
        let every = (2 + h * (d + 1) * s / 500).min(rarest);
        if !(h + d + level + rarest / 2 * shape.model).is_multiple_of(every) {
            return;
        }
        for _ in 0..1 + 40 / (h * d) {
            let rounds = 2 * s + 1 + random.below(5);
            decode_random(shape, rounds, chances[level], random, &mut levels[level]);
        }
    });
    levels
}

/// A received round of each height and distance left the window, and at each level this much or more.
fn expect_all_sizes(levels: &[Covered]) {
    let all = levels.iter().flat_map(|covered| covered.0.keys().map(|shape| (shape.height, shape.distance)));
    assert_eq!(2 * all.collect::<BTreeSet<_>>().len(), shapes().len());
    for covered in levels {
        let ([shapes, _], [rounds, edges]) = (covered.shapes(), covered.sums());
        assert_eq!(shapes, covered.0.len());
        assert!(shapes >= 150 && rounds >= 3_500 && edges >= 500, "{shapes} shapes, {rounds} rounds, {edges} edges");
    }
}

/// From 0.1 % to 10 %: every shape of both models.
#[test]
fn little_noise() {
    let levels = through_the_window(0x6c69_7474, &CHANCES[..6], 6);
    expect_all_sizes(&levels);
    let all: BTreeSet<_> = levels.iter().flat_map(|covered| covered.0.keys()).collect();
    assert_eq!(all.len(), shapes().len());
}

/// From 20 % to 90 %, large shapes of one model or the other: edges are committed in every shape, at every level that it is
/// decoded at.
#[test]
fn dense_noise() {
    let levels = through_the_window(0x6465_6e73, &CHANCES[6..], 8);
    expect_all_sizes(&levels);
    for covered in &levels {
        let [shapes, committing] = covered.shapes();
        assert_eq!(committing, shapes);
    }
}

/// Behind s empty rounds every sheet is there, and clusters grow down into them. That takes other steps than at the start:
/// after a lone defect at the last detector always, but for distances 2 and 3.
#[test]
fn the_first_rounds_of_every_shape() {
    let mut covered = Covered::default();
    each_start(0x6669_7273, |shape, input, lone| {
        let (sheets, first) = (shape.sheets(), decoded(input, 9));
        assert_eq!((first.status, first.rounds()), (DECODED, 3 * sheets));
        if lone && shape.distance > 3 {
            let later = dense::decode(&[&input[..HEADER], &vec![0; sheets], &input[HEADER..]].concat());
            assert!(first.result[HEADER..] != later.result[later.ends[sheets]..], "{shape:?}: the steps at the start");
        }
        note(&mut covered, shape, &first);
    });
    assert_eq!(covered.shapes(), [shapes().len(); 2]);
}

#[test]
fn long_runs() {
    const LEVELS: [usize; 5] = [1_000, 10_000, 50_000, 200_000, 900_000];
    let runs = [(1, 2, 3_000), (1, 3, 2_000), (2, 2, 2_000), (3, 3, 1_500), (5, 5, 150), (15, 2, 150), (1, 15, 150)];
    let mut covered = Covered::default();
    each_case(0x6c6f_6e67, 2 * runs.len() * LEVELS.len(), |case, random| {
        let (height, distance, rounds) = runs[case / 2 / LEVELS.len()];
        let shape = Shape { height, distance, model: case % 2 };
        decode_random(shape, rounds, LEVELS[case / 2 % LEVELS.len()], random, &mut covered);
    });
    let ([rounds, edges], shapes) = (covered.sums(), covered.shapes());
    assert_eq!(shapes, [2 * runs.len(); 2]);
    assert!(rounds >= 80_000 && edges >= 40_000, "{rounds} rounds, {edges} edges");
}

/// Bytes that end a stream with a refusal, after the rounds before it.
fn faulty_ends(shape: Shape) -> Vec<(Vec<u8>, u8)> {
    let detectors = shape.detectors() as u32;
    vec![
        (vec![1], 7),
        (vec![0x80], 7),
        (vec![0xff, 0xff, 0xff, 0xff], 7),
        (vec![0x80, 0x00], 8),
        (vec![1, 0x80, 0x00], 8),
        (vec![0xff, 0xff, 0xff, 0xff, 0x10], 8),
        (vec![0x80, 0x80, 0x80, 0x80, 0x80], 8),
        (number_bytes(detectors + 1), 9),
        (number_bytes(u32::MAX), 9),
        ([vec![1], number_bytes(detectors)].concat(), 9),
        ([vec![1], number_bytes(u32::MAX)].concat(), 9),
    ]
}

/// Third numbers that are no model, and what they are refused for.
fn faulty_models() -> [(&'static [u8], u8); 9] {
    [
        (&[2], 31),
        (&[0x7f], 31),
        (&[0x80, 0x01], 31),
        (&[0xff, 0xff, 0xff, 0xff, 0x0f], 31),
        (&[0x80], 7),
        (&[0xff, 0xff, 0xff, 0xff], 7),
        (&[0x80, 0x00], 8),
        (&[0xff, 0xff, 0xff, 0xff, 0x10], 8),
        (&[0x80, 0x80, 0x80, 0x80, 0x80], 8),
    ]
}

/// Empty input, headers alone and wrong ones, and streams cut off, damaged, and with bytes behind them.
#[test]
fn damaged_streams() {
    let mut statuses = Tally::default();
    let mut status = |input: &[u8], spare: usize| {
        let status = decoded(input, spare).status;
        statuses.status(status);
        status
    };
    assert_eq!(status(&[], 9), 7);
    for first in 0..=255 {
        status(&[first], 9);
        for second in 0..=255 {
            status(&[first, second], 9);
            status(&[first, second, 0], 9);
        }
    }
    for (model, refusal) in faulty_models() {
        for shape in [[1, 3], [15, 15]] {
            assert_eq!(status(&[&shape[..], model].concat(), 9), refusal);
            // A number that is cut off goes on with what follows.
            let longer = status(&[&shape[..], model, &[0, 0]].concat(), 9);
            assert_eq!(longer, if refusal == 7 { 8 } else { refusal });
        }
    }
    let shapes = shapes();
    each_case(0x6461_6d61, shapes.len(), |case, random| {
        let shape = shapes[case % shapes.len()];
        let rounds = random.below(2 + 60 / (shape.height * shape.distance));
        let input = stream(shape, rounds, Noise::any(random.pick(&CHANCES[..8]), random), random);
        assert_eq!(status(&input[..HEADER], 3), DECODED);
        assert_eq!(status(&input[..2], 3), 7);
        for (end, refusal) in faulty_ends(shape) {
            assert_eq!(status(&[&input[..], &end].concat(), random.below(9)), refusal);
        }
        for _ in 0..6 {
            status(&input[..random.below(input.len() + 1)], random.below(9));
            let more = random.below(6);
            status(&[input.clone(), random.bytes(more)].concat(), random.below(9));
            status(&random.damaged(&input), random.below(9));
        }
    });
    statuses.expect(20 * shapes.len(), &[DECODED, 1, 2, 7, 8, 9, 31]);
}

/// Buffers that end inside or before a record, also of a stream that ends with a refusal.
#[test]
fn small_buffers() {
    let mut statuses = Tally::default();
    let shapes = shapes();
    each_case(0x736d_616c, shapes.len(), |case, random| {
        let shape = shapes[case % shapes.len()];
        let rounds = 1 + random.below(2 + 100 / (shape.height * shape.distance));
        let mut input = stream(shape, rounds, Noise::any(random.pick(&CHANCES[..8]), random), random);
        if random.one_in(2) {
            input.extend(random.pick(&[[0x80, 0x00], [1, 0x80]]));
        }
        let decoded = decoder::decode(&input);
        let whole = decoded.result.len();
        for room in [0, 1, 2, 3, 4, 5, whole - 1, whole, whole + 1, random.below(whole), random.below(whole)] {
            statuses.status(compare::decode(&input, &decoded, room));
        }
        let end = random.pick(&decoded.ends);
        for room in [end - 1, end, end + 1] {
            statuses.status(compare::decode(&input, &decoded, room));
        }
    });
    statuses.expect(14 * shapes.len(), &[DECODED, 7, 8, 11]);
}

#[test]
fn printed_sessions() {
    let sessions: [(&[u8], &[u8]); 6] = [
        (&[1, 3, 0, 1, 0, 0, 0, 0], &[1, 3, 0, 0, 0, 2, 0, 0, 1, 0, 0, 4, 1, 0, 0, 2]),
        (&[1, 3, 0, 2, 0, 0, 0, 0, 0], &[1, 3, 0, 0, 0, 2, 0, 0, 5, 0, 0, 1, 1, 1, 0, 1]),
        // A tie: west, edge 0, is committed.
        (&[1, 2, 0, 1, 0, 0, 0, 0], &[1, 2, 0, 0, 0, 2, 0, 0, 1, 0, 0, 3, 1, 0, 0, 2]),
        // It has no diagonals.
        (&[1, 2, 1, 1, 0, 0, 0, 0], &[1, 2, 1, 0, 0, 2, 0, 0, 1, 0, 0, 3, 1, 0, 0, 2]),
        // Nothing comes before the first round: the third takes 3 steps, and 4 behind empty rounds.
        (&[1, 4, 0, 1, 2, 0, 0, 0, 0, 0], &[1, 4, 0, 0, 0, 2, 0, 0, 1, 0, 0, 3, 0, 0, 1, 0, 0, 1, 1, 3, 0, 2]),
        // A diagonal is committed.
        (&[2, 3, 1, 1, 0, 1, 3, 0, 0], &[2, 3, 1, 0, 0, 2, 0, 0, 2, 0, 0, 5, 1, 16, 0, 2]),
    ];
    for (input, result) in sessions {
        assert_eq!(decoded(input, 9).result, result);
    }
}

/// The same defects under both models. 1 by 2 has no diagonals, and its records are the same; those of 3 by 3 are mostly
/// not.
#[test]
fn the_model_is_the_stream_s() {
    let mut differing = 0;
    each_case(0x6d6f_6465, 40, |case, random| {
        let (height, distance) = [(1, 2), (3, 3)][case % 2];
        let [without, with] = [0, 1].map(|model| Shape { height, distance, model });
        let input = stream(without, 50, Noise::Edges(50_000), random);
        let first = decoded(&input, 9);
        let second = decoded(&[&header_bytes(with.name()), &input[HEADER..]].concat(), 9);
        if height == 1 {
            assert_eq!(first.result[HEADER..], second.result[HEADER..]);
        } else {
            differing += usize::from(first.result[HEADER..] != second.result[HEADER..]);
        }
    });
    assert!(differing >= 18, "{differing} of 20");
}
