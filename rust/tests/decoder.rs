//! The second decoder on the sessions of document 01 and one with a diagonal, on the first rounds, its edges and
//! pointers, and the law after every call.

use baizeridge_tests::account::Accounted;
use baizeridge_tests::cases::{self, each_case, opened, CHANCES, WILD_MODELS};
use baizeridge_tests::covered::Covered;
use baizeridge_tests::decoder::{self, Sheet, Stage, Window};
use baizeridge_tests::decoding::{Ran, DECODED};
use baizeridge_tests::image::{Image, SLOTS};
use baizeridge_tests::random::Random;
use baizeridge_tests::steps::{BACK, KINDS, STEPS, WAYS};
use baizeridge_tests::streams::{Shape, LARGEST_LIMITS};
use baizeridge_tests::tally::{Tally, DONE};

const STAGES: [Stage; 3] = [Stage::Rest, Stage::ToGrow, Stage::Merging];

/// Status and result.
fn decode(input: &[u8]) -> (u8, Vec<u8>) {
    let decoded = decoder::decode(input);
    (decoded.status, decoded.result)
}

#[test]
fn first_session() {
    let result = [[1, 3, 0].as_slice(), &[0, 0, 2], &[0, 0, 1], &[0, 0, 4], &[1, 0, 0, 2]].concat();
    assert_eq!(decode(&[1, 3, 0, 1, 0, 0, 0, 0]), (DECODED, result));
}

#[test]
fn second_session() {
    let result = [[1, 3, 0].as_slice(), &[0, 0, 2], &[0, 0, 5], &[0, 0, 1], &[1, 1, 0, 1]].concat();
    assert_eq!(decode(&[1, 3, 0, 2, 0, 0, 0, 0, 0]), (DECODED, result));
}

/// Edge 16 joins row 0, column 1 of the first round and row 1, column 2 of the second: SEU.
#[test]
fn a_session_with_diagonals() {
    let result = [[2, 3, 1].as_slice(), &[0, 0, 2], &[0, 0, 2], &[0, 0, 5], &[1, 16, 0, 2]].concat();
    assert_eq!(decode(&[2, 3, 1, 1, 0, 1, 3, 0, 0]), (DECODED, result));
}

/// A cluster at detector 2 that grew down would take 4 steps in the third round, as it does behind empty rounds.
#[test]
fn nothing_before_the_first_round() {
    let commits = [[0, 0, 1].as_slice(), &[0, 0, 1], &[1, 3, 0, 2]].concat();
    let first = [[1, 4, 0, 0, 0, 2, 0, 0, 1, 0, 0, 3].as_slice(), &commits].concat();
    assert_eq!(decode(&[1, 4, 0, 1, 2, 0, 0, 0, 0, 0]), (DECODED, first));
    let later = [[1, 4, 0].as_slice(), &[0, 0, 1].repeat(5), &[0, 0, 2, 0, 0, 1, 0, 0, 4], &commits].concat();
    assert_eq!(decode(&[1, 4, 0, 0, 0, 0, 0, 0, 1, 2, 0, 0, 0, 0, 0]), (DECODED, later));
}

/// The steps of the directions, as S-4 lists them: rows, columns and sheets down.
#[test]
fn the_scan_order() {
    let straight = [[-1, 0, 0], [0, -1, 0], [0, 1, 0], [1, 0, 0], [0, 0, 1], [0, 0, -1]];
    let diagonal = [[-1, 0, -1], [0, -1, 1], [0, 1, -1], [1, 0, 1], [-1, -1, 1], [1, 1, -1]];
    assert_eq!(STEPS[..6], straight);
    assert_eq!(STEPS[6..], diagonal);
    for (way, step) in STEPS.into_iter().enumerate() {
        assert_eq!(STEPS[usize::from(BACK[way])], step.map(|part| -part));
    }
}

/// The numbers of a layer's edges by their formulas, with the ends: the lower one, and the one that it leads to. All numbers
/// are taken once.
#[test]
fn edges_by_their_numbers() {
    for shape in cases::shapes() {
        let (h, d, sheet) = (shape.height, shape.distance, Sheet::new(shape));
        let mut edges = vec![];
        let time = h * d + (h - 1) * (d - 1);
        let [nu, eu] = [time + h * (d - 1), time + h * (d - 1) + (h - 1) * (d - 1)];
        let seu = eu + h * (d - 2);
        for row in 0..h {
            edges.extend((0..d).map(|c| (row * d + c, [row, c], [row, c + 1], false)));
            for c in 1..d {
                let place = row * (d - 1) + c - 1;
                edges.push((time + place, [row, c], [row, c], true));
                if row + 1 < h {
                    edges.push((h * d + place, [row, c], [row + 1, c], false));
                }
                if shape.model == 1 && row > 0 {
                    edges.push((nu + (row - 1) * (d - 1) + c - 1, [row, c], [row - 1, c], true));
                }
                if shape.model == 1 && c + 1 < d {
                    edges.push((eu + row * (d - 2) + c - 1, [row, c], [row, c + 1], true));
                }
                if shape.model == 1 && c + 1 < d && row + 1 < h {
                    edges.push((seu + row * (d - 2) + c - 1, [row, c], [row + 1, c + 1], true));
                }
            }
        }
        edges.sort();
        let node = |[row, column]: [usize; 2]| row * (d + 1) + column;
        let expected: Vec<_> =
            edges.iter().map(|&(number, near, far, up)| (number, node(near), node(far), up)).collect();
        let spans: Vec<_> =
            sheet.spans.iter().enumerate().map(|(i, span)| (i, span.near, span.far, span.above)).collect();
        assert_eq!(spans, expected, "{shape:?}");
    }
}

/// With each round one sheet more is there, until all are: its own edges, and those up to the sheet above.
#[test]
fn edges_are_there_with_their_rounds() {
    for shape in cases::shapes() {
        let (mut window, mut edges, mut escapes) = opened(shape.name());
        let upward = window.sheet.spans.iter().filter(|span| span.above).count();
        for round in 0..=2 * shape.sheets() {
            let present = round.min(shape.sheets());
            assert_eq!(window.present(), present);
            let places = (0..shape.sheets()).flat_map(|depth| (0..window.sheet.nodes()).map(move |node| (depth, node)));
            let links: usize = places.map(|(depth, node)| window.links(depth, node).count()).sum();
            assert_eq!(links, 2 * (present * shape.edges() - upward.min(present * upward)));
            window.round(&vec![0; shape.detectors()], &mut edges, &mut escapes).expect("a round");
            assert_eq!(window.run(1), Ok(Ran::Rest(1)));
        }
    }
}

#[test]
fn a_tie_goes_west() {
    let (mut window, mut edges, mut escapes) = opened([1, 2, 0]);
    let mut committed = vec![];
    for bytes in [[1], [0], [0], [0], [0], [0]] {
        window.round(&bytes, &mut edges, &mut escapes).expect("a round");
        window.run(100).expect("a run");
        assert_eq!(escapes, [0]);
        committed.push(edges.clone());
    }
    assert_eq!(committed.iter().filter(|edges| **edges == [1, 0, 0]).count(), 1);
    assert_eq!(committed.iter().filter(|edges| **edges == [0, 0, 0]).count(), 5);
}

#[test]
fn budgets() {
    let (mut window, mut edges, mut escapes) = opened([1, 3, 0]);
    for bytes in [[1, 0], [0, 0]] {
        window.round(&bytes, &mut edges, &mut escapes).expect("a round");
        window.run(100).expect("a run");
    }
    window.round(&[0, 0], &mut edges, &mut escapes).expect("the third round");
    assert_eq!(window.clone().run(4), Ok(Ran::Rest(4)));
    assert_eq!(window.clone().run(0), Ok(Ran::Spent(0)));
    assert_eq!(window.run(3), Ok(Ran::Spent(3)));
    assert_eq!(window.stage, Stage::Merging);
    assert_eq!(window.run(1), Ok(Ran::Rest(1)));
    assert_eq!(window.run(1), Err(22));
}

#[test]
fn lengths_and_bytes() {
    let (window, mut edges, mut escapes) = opened([1, 3, 0]);
    for (bytes, answer) in
        [([0, 1].as_slice(), Ok(())), (&[1], Err(3)), (&[0, 1, 0], Err(3)), (&[0, 2], Err(4)), (&[2], Err(3))]
    {
        assert_eq!(window.clone().round(bytes, &mut edges, &mut escapes), answer);
    }
    for (edges, escapes, answer) in [(4, 2, 5), (6, 2, 5), (5, 1, 6), (5, 3, 6), (4, 1, 5)] {
        assert_eq!(window.clone().round(&[0, 2], &mut vec![7; edges], &mut vec![7; escapes]), Err(answer));
    }
}

#[test]
fn stages_and_the_last_round() {
    let (mut window, mut edges, mut escapes) = opened([1, 3, 0]);
    assert_eq!(window.grow(), Err(22));
    assert_eq!(window.merging(), Err(22));
    window.next = 4_294_967_295;
    assert_eq!(window.clone().round(&[2], &mut edges, &mut escapes), Err(23));
    window.next = 4_294_967_294;
    assert_eq!(window.round(&[0, 1], &mut edges, &mut escapes), Ok(()));
    assert_eq!(window.round(&[0, 1], &mut edges, &mut escapes), Err(22));
    window.run(100).expect("a run");
    assert_eq!(window.round(&[0, 1], &mut edges, &mut escapes), Err(23));
}

#[test]
fn shapes() {
    for (height, distance, number) in [(0, 3, 1), (16, 3, 1), (1, 1, 2), (1, 16, 2), (0, 0, 1)] {
        for model in [0, 1, 2, 256] {
            assert_eq!(Window::fresh([height, distance, model], LARGEST_LIMITS).err(), Some(number));
        }
    }
    for model in WILD_MODELS {
        assert_eq!(Window::fresh([1, 3, model], LARGEST_LIMITS).err(), Some(31));
    }
    for (height, distance, nodes, edges) in [(1, 2, 9, [3, 3]), (3, 3, 36, [19, 28]), (15, 15, 3_600, [631, 1_204])] {
        for model in [0, 1] {
            let sheet = Sheet::new(Shape { height, distance, model });
            assert_eq!((sheet.nodes() * sheet.sheets(), sheet.spans.len()), (nodes, edges[model]));
        }
    }
}

#[test]
fn streams_that_end_early() {
    assert_eq!(decode(&[]), (7, vec![]));
    assert_eq!(decode(&[0]), (1, vec![]));
    assert_eq!(decode(&[1]), (7, vec![]));
    assert_eq!(decode(&[1, 16]), (2, vec![]));
    assert_eq!(decode(&[1, 3]), (7, vec![]));
    assert_eq!(decode(&[1, 3, 2]), (31, vec![]));
    assert_eq!(decode(&[1, 3, 0]), (DECODED, vec![1, 3, 0]));
    assert_eq!(decode(&[1, 3, 1]), (DECODED, vec![1, 3, 1]));
    assert_eq!(decode(&[1, 3, 0, 1, 0, 3]), (9, vec![1, 3, 0, 0, 0, 2]));
    assert_eq!(decode(&[1, 3, 0, 1, 0, 1]), (7, vec![1, 3, 0, 0, 0, 2]));
    assert_eq!(decode(&[1, 3, 0, 0x80, 0]), (8, vec![1, 3, 0]));
}

#[test]
fn buffers_that_are_too_small() {
    let decoded = decoder::decode(&[1, 3, 0, 1, 0, 0, 0, 0]);
    assert_eq!(decoded.ends, [3, 6, 9, 12, 16]);
    for (room, written) in [(0, 0), (2, 0), (3, 3), (5, 3), (6, 6), (14, 12), (15, 12)] {
        assert_eq!(decoded.within(room), (11, &decoded.result[..written]));
    }
    assert_eq!(decoded.within(16), (DECODED, &decoded.result[..]));
}

/// Every pointer of every node, in every stage, with one sheet there, two, all, and all with the one that left: refused 21
/// where there is no edge along it, except for those of bottom nodes down, in stage to grow, along an edge to a round that
/// was there.
#[test]
fn pointers_along_edges() {
    let (mut fitting, mut refused) = (0, 0);
    for name in [[1, 2, 0], [1, 2, 1], [1, 3, 1], [2, 2, 1], [2, 3, 0], [2, 3, 1], [3, 3, 0], [3, 3, 1], [3, 4, 1]] {
        let fresh = Image::fresh(name, LARGEST_LIMITS).expect("a shape in range");
        let shape = Shape::new(name).expect("a shape in range");
        let (h, d, s) = (shape.height, shape.distance, shape.sheets());
        for (stage, there) in STAGES.into_iter().flat_map(|stage| [1, 2, s, s + 1].map(|there| (stage, there))) {
            let image = Image { stage, next: (s + there) as u32, ..fresh.clone() };
            for (entry, pointer) in (0..h * (d + 1) * s).flat_map(|entry| (1..=13).map(move |pointer| (entry, pointer)))
            {
                let [depth, row, column] =
                    [entry / (d + 1) / h, entry / (d + 1) % h, entry % (d + 1)].map(|n| n as isize);
                let edge = STEPS[..[6, 12][shape.model]].get(pointer - 1).is_some_and(|[rows, columns, sheets]| {
                    let [depths, columns_of] = [[depth, depth + sheets], [column, column + columns]];
                    let detectors = columns_of.iter().all(|column| (1..d as isize).contains(column));
                    let lowest = if stage == Stage::ToGrow && there > s { s } else { s.min(there) - 1 };
                    (0..h as isize).contains(&(row + rows))
                        && (0..=d as isize).contains(&columns_of[1])
                        && depths.iter().all(|depth| (0..=lowest as isize).contains(depth))
                        && (detectors || rows | sheets == 0)
                });
                let mut image = image.clone();
                image.nodes[entry].pointer = pointer as u8;
                assert_eq!(image.grow() != Err(21), edge, "{name:?}, {stage:?}, {there} sheets: {entry}, {pointer}");
                *(if edge { &mut fitting } else { &mut refused }) += 1;
            }
        }
    }
    assert!(fitting >= 2_000 && refused >= 10_000, "{fitting} fit, {refused} are refused");
}

/// Growth and correction at every slot, with one sheet there, two and all: refused 21 but for the slots of edges, and there
/// are as many of these as edges.
#[test]
fn slots_of_edges() {
    for name in [[1, 2, 1], [1, 3, 1], [2, 2, 1], [2, 3, 0], [2, 3, 1], [3, 3, 0], [3, 3, 1]] {
        let fresh = Image::fresh(name, LARGEST_LIMITS).expect("a shape in range");
        let shape = Shape::new(name).expect("a shape in range");
        let upward = Sheet::new(shape).spans.iter().filter(|span| span.above).count();
        let used = 6 * shape.height * (shape.distance + 1) * shape.sheets();
        for there in [1, 2, shape.sheets()] {
            let rest = Image { next: (shape.sheets() + there) as u32, ..fresh.clone() };
            let mut edges = 0;
            for slot in (0..used + 1).chain([SLOTS - 1]) {
                let [mut grown, mut corrected] = [rest.clone(), rest.clone()];
                (grown.growth[slot], corrected.correction[slot]) = (1, true);
                let answers = [grown.grow(), corrected.grow()];
                assert!(answers == [Err(21); 2] || answers == [Err(22); 2], "{name:?}: slot {slot}");
                edges += usize::from(answers[0] == Err(22));
            }
            assert_eq!(edges, there * shape.edges() - upward, "{name:?}, {there} sheets");
        }
    }
}

/// A model that there is not, in every stage.
#[test]
fn windows_of_no_model() {
    for (stage, model) in STAGES.into_iter().flat_map(|stage| (2..=255).map(move |model| (stage, model))) {
        let fresh = Image::fresh([2, 3, 1], LARGEST_LIMITS).expect("a shape in range");
        let mut image = Image { stage, model, ..fresh };
        let before = image.clone();
        assert_eq!((image.grow(), image.merging(), image.run(1)), (Err(21), Err(21), Err(21)));
        assert!(image == before);
    }
}

/// In stage to grow each pointer down of a bottom detector begins unrooting, of every shape; no other does.
#[test]
fn pointers_down_are_cut() {
    let mut cut = 0;
    for shape in cases::shapes() {
        let window = Window { stage: Stage::ToGrow, next: 100, ..opened(shape.name()).0 };
        let bottom = shape.sheets() - 1;
        for (way, [_, _, sheets]) in (0..).zip(STEPS) {
            let nodes: Vec<usize> =
                (0..window.sheet.nodes()).filter(|&node| window.allows(bottom, node, way)).collect();
            let mut grown = window.clone();
            nodes.iter().for_each(|&node| grown.layers[bottom].nodes[node].pointer = Some(way));
            grown.grow().expect("a growth");
            for node in nodes {
                let now = &grown.layers[bottom].nodes[node];
                let down = sheets > 0;
                assert_eq!((now.pointer.is_none(), now.mark.is_none()), (down, down), "{shape:?}, {way}, {node}");
                cut += usize::from(down);
            }
        }
    }
    assert!(cut >= 30_000, "{cut} cut");
}

/// Rounds of model 1 commit edges of every kind, and leave bottom detectors with every pointer down.
#[test]
fn every_kind_of_edge_is_used() {
    let (mut committed, mut lost) = ([0; KINDS], [0; WAYS]);
    each_case(0x6b69_6e64, 24, |case, random| {
        let shape = Shape { height: 2 + case % 4, distance: 3 + case % 3, model: 1 };
        let (mut window, mut edges, mut escapes) = opened(shape.name());
        for _ in 0..60 {
            let bytes: Vec<u8> = (0..shape.detectors()).map(|_| random.hit(60_000).into()).collect();
            window.round(&bytes, &mut edges, &mut escapes).expect("a round");
            let set = window.sheet.spans.iter().zip(&edges).filter(|(_, &byte)| byte == 1);
            set.for_each(|(span, _)| committed[span.kind] += 1);
            let bottom = window.layers.back().expect("a window has sheets");
            bottom.nodes.iter().filter_map(|node| node.pointer).for_each(|way| lost[usize::from(way)] += 1);
            window.run(1_000).expect("a run");
        }
    });
    assert!(committed.iter().all(|&edges| edges >= 30), "{committed:?}");
    let down: Vec<usize> = (0..WAYS).filter(|&way| STEPS[way][2] > 0).map(|way| lost[way]).collect();
    assert!(down.len() == 4 && down.iter().all(|&pointers| pointers >= 10), "{down:?}");
}

/// A list of calls on a window with its account.
struct List {
    accounted: Accounted,
    /// The chance of a set byte; without one, each round is empty, sparse, dense or full.
    chance: Option<usize>,
    /// Of each round received: whether it was raw, and the edges that its call committed.
    raw: Vec<bool>,
    edges: Vec<usize>,
}

/// The answers to plain and to raw rounds, and to the other calls.
#[derive(Default)]
struct Answers {
    rounds: [Tally; 2],
    others: Tally,
}

impl List {
    /// A call that is due, mostly; with single steps none is a run.
    fn call(&mut self, single: bool, random: &mut Random, answers: &mut Answers) {
        let before = self.accounted.window.clone();
        let due = before.stage;
        let stage = random.pick(&[due, due, due, due, Stage::Rest, Stage::ToGrow, Stage::Merging]);
        let kind = if single { 2 } else { random.below(3) };
        let few = random.below(6) as u32;
        let window = &mut self.accounted.window;
        let (tally, answer) = match (stage, kind) {
            (Stage::Rest, _) => {
                let raw = random.one_in(2);
                (&mut answers.rounds[usize::from(raw)], self.round(raw, random))
            }
            (_, 0) => (&mut answers.others, run(window, few)),
            (_, 1) => (&mut answers.others, run(window, 1_000)),
            (Stage::ToGrow, _) => (&mut answers.others, window.grow()),
            (Stage::Merging, _) => (&mut answers.others, merging(window)),
        };
        tally.status(answer.err().unwrap_or(DONE));
        self.accounted.check();
        assert!(answer.is_ok() || before.same(&self.accounted.window), "{:?}: refused", before.sheet.shape);
    }

    /// A round whose lengths, bytes and number may be wrong.
    fn round(&mut self, raw: bool, random: &mut Random) -> Result<(), u8> {
        let shape = self.accounted.window.sheet.shape;
        let (mut edges, mut escapes) = (vec![7; random.near(shape.edges())], vec![7; random.near(shape.detectors())]);
        let length = random.near(shape.detectors());
        let mut bytes = match self.chance {
            Some(chance) => (0..length).map(|_| random.hit(chance).into()).collect(),
            None => random.bits(length),
        };
        bytes.iter_mut().take(random.one_in(20).into()).for_each(|first| *first = 2);
        let (next, last) = (self.accounted.window.next, random.one_in(20));
        if last {
            self.accounted.window.next = u32::MAX;
        }
        let call = if raw { Accounted::raw_round } else { Accounted::round };
        let answer = call(&mut self.accounted, &bytes, &mut edges, &mut escapes);
        if last {
            self.accounted.window.next = next;
        }
        if answer.is_ok() {
            self.raw.push(raw);
            self.edges.push(edges.iter().filter(|&&byte| byte == 1).count());
        } else {
            assert!([edges, escapes].concat().iter().all(|&byte| byte == 7));
        }
        answer
    }
}

/// A run, whose answer has to say whether the window is at rest.
fn run(window: &mut Window, budget: u32) -> Result<(), u8> {
    let rest = matches!(window.run(budget)?, Ran::Rest(_));
    assert_eq!(rest, window.stage == Stage::Rest);
    Ok(())
}

/// A merging step, likewise.
fn merging(window: &mut Window) -> Result<(), u8> {
    let busy = window.merging()?;
    assert_eq!(!busy, window.stage == Stage::Rest);
    Ok(())
}

/// The law after every call of a list on every shape: with rounds of both kinds, more than 2s of them received, and
/// refused calls. Every second round, fewer of a large shape, comes to rest by single steps.
#[test]
fn every_defect_is_accounted_for() {
    let shapes = cases::shapes();
    let (mut answers, mut plain, mut raw) = (Answers::default(), Covered::default(), Covered::default());
    each_case(0xde0d, shapes.len(), |case, random| {
        let shape = shapes[case];
        let size = shape.height * shape.distance;
        let chance = Some(random.pick(&CHANCES)).filter(|_| random.one_in(2));
        let mut list = List { accounted: Accounted::new(shape), chance, raw: vec![], edges: vec![] };
        while list.raw.len() <= 2 * shape.sheets() + 400 / size {
            let single = list.raw.len().is_multiple_of(2 + size / 20);
            list.call(single, random, &mut answers);
        }
        plain.note(shape, &list.edges, |round| !list.raw[round]);
        raw.note(shape, &list.edges, |round| list.raw[round]);
    });
    for covered in [plain, raw] {
        let ([left, committing], [_, large]) = (covered.shapes(), covered.at_least(9).shapes());
        assert_eq!(left, shapes.len());
        assert!(committing >= 380 && large >= 195, "{committing} shapes, {large} of them large");
    }
    for rounds in &answers.rounds {
        rounds.expect(15 * shapes.len(), &[DONE, 3, 4, 5, 6, 22, 23]);
    }
    answers.others.expect(40 * shapes.len(), &[DONE, 22]);
}
