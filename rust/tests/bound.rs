//! S-5: from a fresh window, whatever the calls, each merging stage comes to rest within 4 N + 4 steps. Random lists of
//! calls, all lists on small shapes, and the longest stages that we know.

use baizeridge_tests::cases::each_case;
use baizeridge_tests::decoder::{self, Stage, Window};
use baizeridge_tests::decoding::{Decoder, Ran, BUDGET, DECODED};
use baizeridge_tests::proved;
use baizeridge_tests::random::Random;
use baizeridge_tests::repository::text;
use baizeridge_tests::stages::{bound, exhausted, Call, Counted};
use baizeridge_tests::streams::Shape;
use baizeridge_tests::tightest::{recorded, table, tightest, Rounds};
use std::collections::BTreeSet;

/// What came of the calls of many lists.
#[derive(Debug, Default)]
struct Seen {
    /// Stages that came to rest, those that took more than one step, and those of more than one call that made steps.
    stages: usize,
    longer: usize,
    parted: usize,
    spent: usize,
    /// By plain and raw.
    rounds: [usize; 2],
    models: [usize; 2],
    /// Refusals by call and number, and how many.
    refusals: BTreeSet<(&'static str, u8)>,
    refused: usize,
    /// Windows from which a run with the bound was tried, to grow and merging.
    tried: [usize; 2],
}

fn kind(call: &Call) -> &'static str {
    match call {
        Call::Round { raw: false, .. } => "round",
        Call::Round { raw: true, .. } => "raw",
        Call::Grow => "grow",
        Call::Merging => "merging",
        Call::Run(_) => "run",
    }
}

/// A call that is due, mostly. Lengths, bytes and stage may be wrong; a run may have any budget.
fn any_call(window: &Window, chance: Option<usize>, random: &mut Random) -> Call {
    let due = window.stage;
    let stage = random.pick(&[due, due, due, due, due, Stage::Rest, Stage::ToGrow, Stage::Merging]);
    let few = random.below(6) as u32;
    match (stage, random.below(4)) {
        (Stage::Rest, _) => any_round(window.sheet.shape, chance, random),
        (_, 0) => Call::Run(few),
        (_, 1) => Call::Run(random.pick(&[few, 10 * few, bound(window.sheet.shape), u32::MAX])),
        (Stage::ToGrow, _) => Call::Grow,
        (Stage::Merging, _) => Call::Merging,
    }
}

/// Without a chance, it is empty, sparse, dense or full.
fn any_round(shape: Shape, chance: Option<usize>, random: &mut Random) -> Call {
    let length = random.near(shape.detectors());
    let mut bytes: Vec<u8> = match chance {
        Some(chance) => (0..length).map(|_| random.hit(chance).into()).collect(),
        None => random.bits(length),
    };
    bytes.iter_mut().take(random.one_in(20).into()).for_each(|first| *first = 2);
    let (edges, escapes) = (random.near(shape.edges()), random.near(shape.detectors()));
    Call::Round { raw: random.one_in(2), bytes, edges, escapes }
}

impl Seen {
    /// A call on a window, whose stage has to stay within the bound.
    fn play(&mut self, counted: &mut Counted, call: &Call) {
        let shape = counted.window.sheet.shape;
        let (before, begun) = (counted.window.clone(), counted.begun);
        let answer = counted.play(call);
        if let Err(number) = answer {
            assert!(before.same(&counted.window) && begun == counted.begun, "{shape:?}: {call:?} is refused");
            self.refusals.insert((kind(call), number));
            self.refused += 1;
            return;
        }
        let rest = counted.window.stage == Stage::Rest;
        match call {
            Call::Round { raw, .. } => self.rounds[usize::from(*raw)] += 1,
            Call::Run(budget) if !rest => {
                assert_eq!(answer, Ok(*budget));
                self.spent += 1;
            }
            _ => {}
        }
        let steps = counted.begun.or(counted.ended.last().copied().filter(|_| rest)).unwrap_or(0);
        assert!(steps <= bound(shape), "{shape:?}: {steps} steps");
        // A stage that has made all the steps of the bound would have to be at rest.
        assert!(rest || steps < bound(shape), "{shape:?}: no rest after {steps} steps");
        if rest {
            self.stages += 1;
            self.longer += usize::from(steps > 1);
            self.parted += usize::from(Ok(steps) != answer);
            self.models[shape.model] += 1;
        }
    }

    /// From a window that is not at rest the bound is budget enough, and more of it changes nothing.
    fn try_bound(&mut self, window: &Window) {
        let shape = window.sheet.shape;
        let [mut within, mut beyond] = [window.clone(), window.clone()];
        let ran = within.run(bound(shape));
        assert!(matches!(ran, Ok(Ran::Rest(_))), "{shape:?}: {ran:?}");
        assert_eq!(beyond.run(BUDGET), ran);
        assert!(within.same(&beyond));
        self.tried[usize::from(window.stage == Stage::Merging)] += 1;
    }
}

/// The stages of rounds with these defects, each followed by one run.
fn by_runs(shape: Shape, rounds: &[Vec<bool>]) -> Vec<u32> {
    let mut window = Window::open(shape);
    let (mut edges, mut escapes) = (vec![0; shape.edges()], vec![0; shape.detectors()]);
    let stage = |defects: &Vec<bool>| {
        let bytes: Vec<u8> = defects.iter().map(|&defect| defect.into()).collect();
        match window.receive(&bytes, &mut edges, &mut escapes) {
            Ok(Ran::Rest(steps)) => steps,
            other => panic!("{shape:?}: {other:?}"),
        }
    };
    rounds.iter().map(stage).collect()
}

/// The defects of the top sheet.
fn received(window: &Window) -> Vec<bool> {
    window.sheet.detectors().map(|node| window.layers[0].nodes[node].defect).collect()
}

/// Random lists of calls. Whichever calls make a stage's steps, it takes as many as one run after the same rounds.
#[test]
fn no_stage_takes_more() {
    let shapes = [(1, 2), (1, 3), (2, 2), (1, 6), (3, 3), (4, 3), (2, 5), (5, 5), (15, 2), (1, 15), (7, 8), (15, 15)];
    let mut seen = Seen::default();
    each_case(0x626f_756e, 8 * shapes.len(), |case, random| {
        let (height, distance) = shapes[case / 2 % shapes.len()];
        let shape = Shape { height, distance, model: case % 2 };
        let chance = [None, Some(10_000), Some(100_000), Some(500_000)][case / 2 / shapes.len()];
        let mut counted = Counted::new(shape);
        let mut rounds = vec![];
        // Until supplied rounds have left the window, and longer in a small one.
        while counted.ended.len() < shape.sheets() + 4 + 1_000 / shape.nodes() {
            let due = counted.window.stage;
            let call = any_call(&counted.window, chance, random);
            seen.play(&mut counted, &call);
            if due == Stage::Rest && counted.window.stage == Stage::ToGrow {
                rounds.push(received(&counted.window));
            }
            if counted.window.stage != Stage::Rest && random.one_in(1 + shape.nodes() / 50) {
                seen.try_bound(&counted.window);
            }
        }
        assert_eq!(by_runs(shape, &rounds[..counted.ended.len()]), counted.ended);
    });
    println!("{seen:?}");
    assert!(seen.stages >= 3_000 && seen.longer >= 2_000 && seen.parted >= 1_000, "{seen:?}");
    assert!(seen.spent >= 1_500 && seen.refused >= 4_000, "{seen:?}");
    assert!(seen.rounds.iter().chain(&seen.models).chain(&seen.tried).all(|&times| times >= 1_500), "{seen:?}");
    let of_rounds = ["round", "raw"].into_iter().flat_map(|kind| [3, 4, 5, 6, 22].map(|number| (kind, number)));
    let of_others = ["grow", "merging", "run"].map(|kind| (kind, 22));
    assert_eq!(seen.refusals, of_rounds.chain(of_others).collect(), "{seen:?}");
}

/// By hand: the third round of the first session takes 4 steps, whichever calls make them.
#[test]
fn stages_by_any_calls() {
    let round = |byte| Call::Round { raw: false, bytes: vec![byte, 0], edges: 5, escapes: 2 };
    let wrong = Call::Round { raw: true, bytes: vec![0], edges: 5, escapes: 2 };
    let mixes: [&[Call]; 4] = [
        &[Call::Run(4)],
        &[Call::Run(0), Call::Run(3), Call::Grow, wrong.clone(), Call::Merging],
        &[Call::Grow, Call::Merging, Call::Run(1), Call::Run(0), Call::Merging, Call::Run(9), Call::Run(9)],
        &[Call::Merging, Call::Grow, Call::Run(2), round(1), Call::Run(2), Call::Merging],
    ];
    for mix in mixes {
        let mut counted = Counted::new(Shape { height: 1, distance: 3, model: 0 });
        let start = [round(1), Call::Run(9), round(0), Call::Run(9), Call::Merging, round(0)];
        start.iter().chain(mix).for_each(|call| _ = counted.play(call));
        assert_eq!((&counted.ended[..], counted.begun), (&[2, 1, 4][..], None), "{mix:?}");
    }
}

/// The most steps that any stage takes in small shapes, and the windows at rest that were gone through.
#[test]
fn all_lists_on_small_shapes() {
    let most = [
        ([1, 2, 0], (5, 19)),
        ([1, 2, 1], (5, 19)),
        ([1, 3, 0], (11, 117)),
        ([1, 3, 1], (9, 117)),
        ([2, 2, 0], (11, 117)),
        ([2, 2, 1], (11, 117)),
        ([3, 2, 0], (18, 1_033)),
        ([3, 2, 1], (15, 1_033)),
        ([2, 3, 1], (15, 7_937)),
    ];
    for (name, expected) in most {
        let shape = Shape::new(name).expect("a shape in range");
        assert_eq!(exhausted(shape), expected, "{name:?}");
        assert!(expected.0 <= bound(shape));
    }
}

/// The stored examples: the last round's stage takes the steps that are stored, no stage takes more, and the proved decoding
/// of the stream has the same in its records.
#[test]
fn the_longest_stages_known() {
    let mut models = BTreeSet::new();
    for (steps, rounds) in tightest() {
        let (shape, stream) = (rounds.shape, rounds.stream());
        let decoded = decoder::decode(&stream);
        let all = recorded(&decoded.result);
        assert_eq!((all.last(), all.iter().max()), (Some(&steps), Some(&steps)), "{shape:?}");
        assert!(steps <= bound(shape), "{shape:?}");
        let mut out = vec![0; decoded.result.len()];
        assert_eq!(proved::decode(&stream, &mut out), (DECODED, None, out.len()));
        assert_eq!(recorded(&out), all, "{shape:?}");
        assert_eq!(out, decoded.result);
        models.insert(shape.model);
    }
    assert!(models.iter().eq(&[0, 1]));
    assert!(text("docs/PERFORMANCE.md").contains(&table()), "the document has another table");
}

/// A short search from random rounds on.
#[test]
fn a_short_search() {
    let mut largest = [(0, 1, None); 2];
    each_case(0x7365_6172, 16, |case, random| {
        let (height, distance, tries) = [(1, 4, 500), (2, 3, 500), (1, 6, 300), (3, 3, 300)][case / 2 % 4];
        let shape = Shape { height, distance, model: case % 2 };
        let defects = random.bits((shape.sheets() + 1) * shape.detectors());
        let (steps, _) = Rounds { shape, defects }.climb(tries, decoder::decode, random);
        assert!(steps <= bound(shape), "{shape:?}: {steps} steps");
        let (most, nodes, _) = largest[shape.model];
        if steps as usize * nodes > most as usize * shape.nodes() {
            largest[shape.model] = (steps, shape.nodes(), Some(shape));
        }
    });
    for (steps, nodes, shape) in largest {
        println!("{steps} steps, {nodes} nodes: {shape:?}");
        assert!(steps as usize * 2 > nodes, "the search finds nothing long: {steps} steps, {nodes} nodes");
    }
}
