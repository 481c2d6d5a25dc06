//! Fixed streams of phenomenological noise.

use crate::noise::{stream, Noise};
use crate::random::Random;
use crate::streams::{header_bytes, Shape, HEADER};

const SEED: u64 = 0xbe4c;

const MODELS: [u32; 2] = [0, 1];

/// A stream and what it was made of.
pub struct Load {
    pub shape: Shape,
    /// Of an error at an edge in a round, in millionths.
    pub chance: usize,
    pub rounds: usize,
    pub input: Vec<u8>,
}

impl Load {
    /// For both models: the defects are the same, and the streams differ in their header alone.
    pub fn pair(case: u64, size: u32, chance: usize, rounds: usize) -> [Load; 2] {
        let shapes = MODELS.map(|model| Shape::new([size, size, model]).expect("a shape in range"));
        let defects = stream(shapes[0], rounds, Noise::Edges(chance), &mut Random::new(SEED, case)).split_off(HEADER);
        shapes.map(|shape| {
            let input = [&header_bytes(shape.name()), &defects[..]].concat();
            Load { shape, chance, rounds, input }
        })
    }

    pub fn a_round(&self, whole: f64) -> f64 {
        whole / self.rounds as f64
    }
}
