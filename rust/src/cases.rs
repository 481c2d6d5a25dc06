//! The cases that the tests go through.

use crate::decoder::Window;
use crate::noise::{stream, Noise};
use crate::random::Random;
use crate::streams::{number_bytes, Name, Shape, DISTANCES, HEADER, HEIGHTS, LARGEST_LIMITS, MODELS};

// Random inputs of each kind; the tests count them. Each is compared in many calls: cut short, damaged, at
// every offset.
pub const NUMBERS: usize = 100_000;
pub const LISTS: usize = 42_000;
pub const HEADERS: usize = 42_000;
pub const ROUNDS: usize = 42_000;
pub const RESULTS: usize = 8_400;
pub const STREAMS: usize = 21_000;

/// Noise levels: chances in millionths, from 0.1 % to 90 %.
pub const CHANCES: [usize; 10] = [1_000, 3_000, 10_000, 30_000, 60_000, 100_000, 200_000, 400_000, 700_000, 900_000];

/// Heights and distances that no shape has.
pub const WILD: [u32; 8] = [0, 16, 17, 127, 128, 0x100 + 3, 1 << 31, u32::MAX];
/// Models that no shape has.
pub const WILD_MODELS: [u32; 8] = [2, 3, 127, 128, 0x100, 0x100 + 1, 1 << 31, u32::MAX];

/// Names the case in which a test failed.
struct Named {
    seed: u64,
    case: usize,
}

impl Drop for Named {
    fn drop(&mut self) {
        if std::thread::panicking() {
            eprintln!("seed {:#x}, case {}", self.seed, self.case);
        }
    }
}

/// Runs a test on `count` random inputs.
pub fn each_case(seed: u64, count: usize, mut run: impl FnMut(usize, &mut Random)) {
    for case in 0..count {
        let _named = Named { seed, case };
        run(case, &mut Random::new(seed, case as u64));
    }
}

/// All shapes of both models, by height and distance.
pub fn shapes() -> Vec<Shape> {
    let names = HEIGHTS.flat_map(|h| DISTANCES.flat_map(move |d| MODELS.map(move |model| [h, d, model])));
    names.map(|name| Shape::new(name).expect("each is in range")).collect()
}

/// Runs a test on streams of 3s rounds of each shape, more of a small one. Those with little noise begin with a lone
/// defect, at the last detector, and two empty rounds; those with more are of one model each.
pub fn each_start(seed: u64, mut run: impl FnMut(Shape, &[u8], bool)) {
    let shapes = shapes();
    each_case(seed, 2 * shapes.len(), |case, random| {
        let shape = shapes[case % shapes.len()];
        let lone = case < shapes.len();
        if !lone && (shape.height + shape.distance + shape.model) % 2 == 1 {
            return;
        }
        let chance = if lone { 1_000 } else { random.pick(&[10_000, 50_000]) };
        let (rounds, start) = if lone {
            (3, [vec![1], number_bytes(shape.detectors() as u32 - 1), vec![0, 0]].concat())
        } else {
            (0, vec![])
        };
        for _ in 0..1 + 10 / (shape.height * shape.distance) {
            let noise = Noise::any(chance, random);
            let mut input = stream(shape, 3 * shape.sheets() - rounds, noise, random);
            input.splice(HEADER..HEADER, start.clone());
            run(shape, &input, lone);
        }
    });
}

/// A fresh window, and an edge and an escape buffer that fit it.
pub fn opened(name: Name) -> (Window, Vec<u8>, Vec<u8>) {
    let window = Window::fresh(name, LARGEST_LIMITS).expect("a shape in range");
    let shape = window.sheet.shape;
    (window, vec![7; shape.edges()], vec![7; shape.detectors()])
}

/// Some of the refusals that a call tests for, in their order.
pub struct Faults {
    order: &'static [u8],
    set: usize,
}

impl Faults {
    /// Every set of them.
    pub fn all(order: &'static [u8]) -> impl Iterator<Item = Faults> {
        (0..1 << order.len()).map(move |set| Faults { order, set })
    }

    pub fn has(&self, refusal: u8) -> bool {
        self.order.iter().position(|&other| other == refusal).is_some_and(|place| self.set >> place & 1 == 1)
    }

    /// The refusal to give.
    pub fn first(&self) -> Option<u8> {
        self.order.iter().copied().find(|&refusal| self.has(refusal))
    }
}
