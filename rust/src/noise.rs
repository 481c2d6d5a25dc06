//! Random input streams.

use crate::decoder::Sheet;
use crate::random::Random;
use crate::streams::{header_bytes, list_bytes, Shape};

/// How defects come about; chances are in millionths.
#[derive(Debug, Clone, Copy)]
pub enum Noise {
    /// Each detector by itself.
    Defects(usize),
    /// Each edge of a layer may be in error, and a defect is at a detector where an odd number of these end. In model 0
    /// that is phenomenological noise: a wrong measurement makes two defects, one above the other.
    Edges(usize),
}

impl Noise {
    /// Of either kind.
    pub fn any(chance: usize, random: &mut Random) -> Noise {
        random.pick(&[Noise::Defects(chance), Noise::Edges(chance)])
    }
}

/// An input stream of so many rounds.
pub fn stream(shape: Shape, rounds: usize, noise: Noise, random: &mut Random) -> Vec<u8> {
    let mut bytes = header_bytes(shape.name());
    let sheet = Sheet::new(shape);
    let mut above = vec![0; sheet.nodes()];
    for _ in 0..rounds {
        let mut here = std::mem::replace(&mut above, vec![0; sheet.nodes()]);
        match noise {
            Noise::Defects(chance) => here.iter_mut().for_each(|bit| *bit = random.hit(chance).into()),
            Noise::Edges(chance) => {
                for span in sheet.spans.iter().filter(|_| random.hit(chance)) {
                    here[span.near] ^= 1;
                    let far = if span.above { &mut above } else { &mut here };
                    far[span.far] ^= 1;
                }
            }
        }
        let defects: Vec<u8> = sheet.detectors().map(|node| here[node]).collect();
        bytes.extend(list_bytes(&defects));
    }
    bytes
}
