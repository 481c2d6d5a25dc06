//! How long merging takes: the steps of each merging stage of any list of calls, and of all lists on a small shape.

use crate::decoder::{Stage, Window};
use crate::decoding::{Decoder, Ran};
use crate::streams::Shape;
use std::collections::HashSet;

/// The most steps that S-5 allows a merging stage.
pub fn bound(shape: Shape) -> u32 {
    4 * shape.nodes() as u32 + 4
}

/// A call with what its caller brings.
#[derive(Debug, Clone)]
pub enum Call {
    /// Plain or raw, with its bytes and the lengths of its buffers.
    Round {
        raw: bool,
        bytes: Vec<u8>,
        edges: usize,
        escapes: usize,
    },
    Grow,
    Merging,
    Run(u32),
}

/// A window and the steps of its merging stages. A stage begins with grow, by a call of its own or by a run, and ends at
/// rest.
pub struct Counted {
    pub window: Window,
    /// The steps of each stage that came to rest.
    pub ended: Vec<u32>,
    /// The steps so far of the stage that goes on.
    pub begun: Option<u32>,
}

impl Counted {
    pub fn new(shape: Shape) -> Counted {
        Counted { window: Window::open(shape), ended: vec![], begun: None }
    }

    /// The steps that the call made. Of a refused one nothing counts.
    pub fn play(&mut self, call: &Call) -> Result<u32, u8> {
        let due = self.window.stage;
        let steps = made(&mut self.window, call)?;
        if due == Stage::ToGrow {
            self.begun = Some(0);
        }
        self.begun = self.begun.map(|before| before + steps);
        if self.window.stage == Stage::Rest {
            self.ended.extend(self.begun.take());
        }
        Ok(steps)
    }
}

/// Makes a call; how many merging steps it made.
fn made(window: &mut Window, call: &Call) -> Result<u32, u8> {
    match call {
        Call::Round { raw, bytes, edges, escapes } => {
            let receive = if *raw { Window::raw_round } else { Window::round };
            receive(window, bytes, &mut vec![0; *edges], &mut vec![0; *escapes])?;
            Ok(0)
        }
        Call::Grow => window.grow().map(|()| 0),
        Call::Merging => window.merging().map(|_busy| 1),
        Call::Run(budget) => window.run(*budget).map(|(Ran::Rest(steps) | Ran::Spent(steps))| steps),
    }
}

/// What the steps of later rounds depend on: all but the round number, the correction bits, the measured sheet and the
/// unrooted bits, which a round clears.
fn outlook(window: &Window) -> Vec<u16> {
    let mut outlook = vec![window.present() as u16];
    for layer in &window.layers {
        for node in &layer.nodes {
            let pointer = node.pointer.map_or(0, |way| u16::from(way) + 1);
            outlook.push(pointer << 2 | u16::from(node.active) << 1 | u16::from(node.defect));
            outlook.extend(node.mark.map(|root| window.number(root) as u16));
        }
        outlook.extend(layer.edges.iter().map(|edge| u16::from(edge.halves)));
    }
    outlook
}

/// The most steps that a merging stage takes, whatever the calls from a fresh window on, and how many windows at rest these
/// lead to that go on differently. A list's stages are those of its rounds' defects with a run behind each, so all windows
/// at rest and all rounds on them are gone through. Only for small shapes.
pub fn exhausted(shape: Shape) -> (u32, usize) {
    let (mut edges, mut escapes) = (vec![0; shape.edges()], vec![0; shape.detectors()]);
    let mut left = vec![Window::open(shape)];
    let mut seen = HashSet::from([outlook(&left[0])]);
    let mut most = 0;
    while let Some(window) = left.pop() {
        for set in 0..1 << shape.detectors() {
            let bytes: Vec<u8> = (0..shape.detectors()).map(|detector| (set >> detector & 1) as u8).collect();
            let mut next = window.clone();
            let ran = next.receive(&bytes, &mut edges, &mut escapes);
            let Ok(Ran::Rest(steps)) = ran else { panic!("{shape:?}: {ran:?}") };
            most = most.max(steps);
            if seen.insert(outlook(&next)) {
                left.push(next);
            }
        }
    }
    (most, seen.len())
}
