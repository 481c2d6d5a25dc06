//! Raw rounds, which take measurements: by hand, and by lists of calls that answer as the same lists with plain rounds,
//! on the second decoder and on the proved program `replay`. `tests/decoder.rs` has them under the law.

use baizeridge_tests::cases::{each_case, opened, shapes, Faults};
use baizeridge_tests::covered::Covered;
use baizeridge_tests::decoder::{Stage, Window};
use baizeridge_tests::decoding::Ran;
use baizeridge_tests::image::{Image, DETECTORS};
use baizeridge_tests::random::Random;
use baizeridge_tests::replay::{self, by_the_program, same_lines, Player, LONGEST};
use baizeridge_tests::script::{plain_list, raw_list};
use baizeridge_tests::streams::{Shape, LARGEST_LIMITS};

/// A byte a detector: the defects of the top sheet, and the last measured sheet.
fn top_and_measured(window: &Window) -> [Vec<u8>; 2] {
    let defects = window.sheet.detectors().map(|node| window.layers[0].nodes[node].defect.into());
    [defects.collect(), window.measured.iter().map(|&bit| bit.into()).collect()]
}

/// The same measurements four times are the first session's defects: detector 0, then none.
#[test]
fn the_first_session_measured() {
    let (mut window, mut edges, mut escapes) = opened([1, 3, 0]);
    for (steps, committed) in [(2, [0, 0, 0, 0, 0]), (1, [0, 0, 0, 0, 0]), (4, [0, 0, 0, 0, 0]), (2, [1, 0, 0, 0, 0])] {
        assert_eq!(window.raw_round(&[1, 0], &mut edges, &mut escapes), Ok(()));
        assert_eq!((&edges[..], &escapes[..]), (&committed[..], &[0, 0][..]));
        assert_eq!(window.run(100), Ok(Ran::Rest(steps)));
        assert_eq!(top_and_measured(&window)[1], [1, 0]);
    }
}

#[test]
fn defects_are_the_changes() {
    let (mut window, mut edges, mut escapes) = opened([1, 3, 0]);
    assert_eq!(top_and_measured(&window), [[0, 0], [0, 0]]);
    for (bytes, defects) in [([0, 0], [0, 0]), ([1, 0], [1, 0]), ([1, 1], [0, 1]), ([0, 1], [1, 0]), ([1, 0], [1, 1])] {
        assert_eq!(window.raw_round(&bytes, &mut edges, &mut escapes), Ok(()));
        assert_eq!(top_and_measured(&window), [defects, bytes]);
        window.run(100).expect("a run");
    }
    // Row by row: row 0 column 2 and row 1 column 1, in sheets of 4 columns.
    let (mut window, mut edges, mut escapes) = opened([2, 3, 1]);
    assert_eq!(window.raw_round(&[0, 1, 1, 0], &mut edges, &mut escapes), Ok(()));
    let defects = window.layers[0].nodes.iter().enumerate().filter(|(_, node)| node.defect);
    assert_eq!(defects.map(|(node, _)| node).collect::<Vec<_>>(), [2, 5]);
}

#[test]
fn other_calls_leave_the_sheet() {
    let (mut window, mut edges, mut escapes) = opened([1, 3, 0]);
    window.raw_round(&[1, 1], &mut edges, &mut escapes).expect("a raw round");
    window.grow().expect("a growth");
    assert_eq!(window.merging(), Ok(true));
    assert_eq!(top_and_measured(&window)[1], [1, 1]);
    window.run(100).expect("a run");
    assert_eq!(top_and_measured(&window)[1], [1, 1]);
    window.round(&[0, 1], &mut edges, &mut escapes).expect("a round");
    assert_eq!(top_and_measured(&window), [[0, 1], [1, 1]]);
    window.run(100).expect("a run");
    window.raw_round(&[1, 0], &mut edges, &mut escapes).expect("a raw round");
    assert_eq!(top_and_measured(&window), [[0, 1], [1, 0]]);
}

type RoundCall = fn(&mut Image, &[u8], &mut [u8], &mut [u8]) -> Result<(), u8>;

/// At rest, all measurements 1.
fn measured(shape: Shape) -> Image {
    let mut image = Image::fresh(shape.name(), LARGEST_LIMITS).expect("a shape in range");
    let (mut edges, mut escapes) = (vec![7; shape.edges()], vec![7; shape.detectors()]);
    image.raw_round(&vec![1; shape.detectors()], &mut edges, &mut escapes).expect("a raw round");
    assert!(matches!(image.run(1_000), Ok(Ran::Rest(_))));
    image
}

/// Both round calls, with every set of faults, too long and too short: the first in the document's order is refused, and
/// nothing changes.
#[test]
fn every_refusal_in_order() {
    let shapes = [(1, 2, 1), (1, 3, 0), (3, 3, 1), (3, 3, 0), (4, 5, 1), (15, 15, 0), (15, 15, 1)];
    for (height, distance, model) in shapes {
        let shape = Shape { height, distance, model };
        let rest = measured(shape);
        for faults in Faults::all(&[21, 22, 23, 3, 5, 6, 4]) {
            [true, false].into_iter().for_each(|longer| refused(rest.clone(), shape, &faults, longer));
        }
    }
}

fn refused(mut image: Image, shape: Shape, faults: &Faults, longer: bool) {
    let length = |right: usize, fault| match (faults.has(fault), longer) {
        (false, _) => right,
        (true, true) => right + 1,
        (true, false) => right - 1,
    };
    // South of the first node, a boundary: no edge is there. Slots stand by kind.
    let south = shape.height * (shape.distance + 1) * shape.sheets();
    image.growth[south] = faults.has(21).into();
    if faults.has(22) {
        image.stage = if longer { Stage::ToGrow } else { Stage::Merging };
    }
    if faults.has(23) {
        image.next = u32::MAX;
    }
    let mut bytes = vec![0; length(shape.detectors(), 3)];
    bytes.iter_mut().rev().take(faults.has(4).into()).for_each(|last| *last = 2);
    for call in [Image::round as RoundCall, Image::raw_round] {
        let mut after = image.clone();
        let (mut edges, mut escapes) = (vec![7; length(shape.edges(), 5)], vec![7; length(shape.detectors(), 6)]);
        let answer = call(&mut after, &bytes, &mut edges, &mut escapes);
        assert_eq!(answer.err(), faults.first());
        assert_eq!(answer.is_err(), after == image && [edges, escapes].concat().iter().all(|&byte| byte == 7));
    }
}

/// A set bit behind the detectors, in every stage: every call is refused 21, and nothing changes.
#[test]
fn unused_bits() {
    let stages = [Stage::Rest, Stage::ToGrow, Stage::Merging];
    for (case, shape) in shapes().into_iter().enumerate() {
        let unused = shape.detectors()..DETECTORS;
        let mut image = measured(shape);
        for (turn, bit) in [unused.start, unused.start.midpoint(DETECTORS), DETECTORS - 1].into_iter().enumerate() {
            image.stage = stages[(case + turn) % 3];
            assert_ne!(image.clone().grow(), Err(21));
            // 15 by 15 has none.
            if unused.contains(&bit) {
                image.measured[bit] = true;
                ill_formed(&image, shape);
                image.measured[bit] = false;
            }
        }
    }
}

fn ill_formed(image: &Image, shape: Shape) {
    let (bytes, mut edges, mut escapes) =
        (vec![0; shape.detectors()], vec![7; shape.edges()], vec![7; shape.detectors()]);
    let mut after = image.clone();
    assert_eq!(after.round(&bytes, &mut edges, &mut escapes), Err(21));
    assert_eq!(after.raw_round(&bytes, &mut edges, &mut escapes), Err(21));
    assert_eq!(after.grow(), Err(21));
    assert_eq!(after.merging(), Err(21));
    assert_eq!(after.run(1), Err(21));
    assert!(after == *image && [edges, escapes].concat().iter().all(|&byte| byte == 7));
}

/// A list with plain rounds, more than 2s of them received.
fn random_list(shape: Shape, random: &mut Random) -> String {
    plain_list(shape, random.pick(&[3, 10, 40]), 40, 2 * shape.sheets() + 1, random)
}

/// What lists with raw rounds met.
#[derive(Default)]
struct Met {
    /// The lines of raw rounds, by words.
    raw: Vec<Vec<String>>,
    /// The raw rounds that left the window.
    left: Covered,
}

impl Met {
    /// What one list wrote.
    fn note(&mut self, shape: Shape, written: &[&str]) {
        let lines = written.iter().map(|line| line.split(' ').map(String::from).collect::<Vec<_>>());
        let rounds: Vec<_> = lines.filter(|words| words[0] == "round" || words[0] == "raw").collect();
        let received: Vec<_> = rounds.iter().filter(|words| words[1] == "done").collect();
        let edges: Vec<usize> = received.iter().map(|words| words[2].matches('1').count()).collect();
        self.left.note(shape, &edges, |round| received[round][0] == "raw");
        self.raw.extend(rounds.into_iter().filter(|words| words[0] == "raw"));
    }

    /// Many raw rounds were refused for each reason, and many left ones in each buffer. In lists of so many shapes, so
    /// many of them of distance 9 or more, a raw round left the window with an edge committed in its own layer.
    fn expect(&self, shapes: usize, large: usize) {
        for refusal in ["21", "22", "23", "3", "5", "6", "4"] {
            let count = self.raw.iter().filter(|words| words[1..3] == ["refused", refusal]).count();
            assert!(count >= 10, "{count} refused {refusal}");
        }
        for buffer in [2, 3] {
            let count = self.raw.iter().filter(|words| words[1] == "done" && words[buffer].contains('1')).count();
            assert!(count >= 20, "{count} times ones in a buffer");
        }
        for (distance, least) in [(2, shapes), (9, large)] {
            let [_, committing] = self.left.at_least(distance).shapes();
            assert!(committing >= least, "{committing} shapes of distance {distance} and more");
        }
    }
}

/// On the second decoder: also the windows are the same but for the last measured sheet, which is that of the last raw
/// round. Several lists of a small shape, one of a larger one, and fewer of the shapes with more nodes.
#[test]
fn raw_lists_answer_as_plain_ones() {
    let mut met = Met::default();
    let shapes = shapes();
    each_case(0x6c69_7374, shapes.len(), |case, random| {
        let shape = shapes[case];
        let (h, d) = (shape.height, shape.distance);
        // The last shape is always played, and of both models.
        if (30 - h - d) % (1 + h * (d + 1) * shape.sheets() / 50) > 0 {
            return;
        }
        for _ in 0..1 + 10 / (h * d) {
            let (plain, all) = (random_list(shape, random), random.one_in(2));
            let raw = raw_list(&plain, || all || random.one_in(2));
            let written = play_both(&plain, &raw);
            met.note(shape, &written.lines().collect::<Vec<_>>());
        }
    });
    met.expect(70, 15);
}

/// Plays a list with plain rounds, and the same with raw ones; what the second wrote.
fn play_both(plain: &str, raw: &str) -> String {
    assert_eq!(plain.lines().count(), raw.lines().count());
    let [mut first, mut second] = [Player::default(), Player::default()];
    let (mut measured, mut all) = (vec![false; DETECTORS], String::new());
    for (plain, raw) in plain.lines().zip(raw.lines()) {
        let (expected, written) = (first.play(plain), second.play(raw));
        assert_eq!(written.replace("raw ", "round "), expected, "{raw}");
        if written.starts_with("raw done ") {
            let bytes = raw.rsplit(' ').next().expect("a round has bytes");
            measured = bytes.bytes().map(|byte| byte == b'1').collect();
            measured.resize(DETECTORS, false);
        }
        let [first, second] = [&first, &second].map(|player| player.image.clone());
        let differing = first.measured.iter().zip(&second.measured).map(|(plain, raw)| plain != raw);
        assert!(differing.eq(measured.iter().copied()), "{raw}");
        assert!(first == Image { measured: first.measured.clone(), ..second }, "{raw}");
        all += &written;
    }
    all
}

/// On the proved program, which writes what the second decoder does. One script for each of these shapes.
#[test]
fn the_program_plays_raw_lists() {
    let mut met = Met::default();
    let large = [(15, 15, 1), (9, 10, 0), (4, 13, 1)];
    each_case(0x7072_6f68, large.len(), |case, random| {
        let (height, distance, model) = large[case];
        let (shapes, script) = random_script(Shape { height, distance, model }, random);
        let written = by_the_program(&script);
        same_lines(&written, &replay::replay(&script));
        let lists: Vec<Vec<&str>> = written.split("# ").skip(1).map(|part| part.lines().skip(1).collect()).collect();
        assert_eq!(lists.len(), 3 * shapes.len());
        for (shape, lists) in shapes.into_iter().zip(lists.chunks(3)) {
            let [plain, raw, mixed] = [0, 1, 2].map(|list| lists[list].iter().map(|line| replay::bare(line)));
            assert!(raw.eq(plain.clone()) && mixed.eq(plain));
            lists[1..].iter().for_each(|list| met.note(shape, list));
        }
    });
    met.expect(10, large.len());
}

/// Lists in threes, with plain rounds, with raw ones, and with some of each: of a large shape, of any if there is room,
/// and of small ones. The shape of each three, and the script.
fn random_script(large: Shape, random: &mut Random) -> (Vec<Shape>, String) {
    let (mut played, mut script) = (vec![], String::new());
    let any = random.pick(&shapes());
    let small = [0, 1, 1].map(|model| Shape { height: 1 + random.below(3), distance: 2 + random.below(3), model });
    for shape in [large, any].into_iter().chain(small) {
        let plain = random_list(shape, random);
        let (raw, mixed) = (raw_list(&plain, || true), raw_list(&plain, || random.one_in(2)));
        let lists = format!("# plain\n{plain}# raw\n{raw}# mixed\n{mixed}");
        if script.len() + lists.len() <= LONGEST {
            played.push(shape);
            script += &lists;
        }
    }
    (played, script)
}
