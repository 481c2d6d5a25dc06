//! The law, run: the second decoder with an account of every defect that it received.

use crate::decoder::{Sheet, Stage, Window};
use crate::decoding::{Decoder, Ran, BUDGET};
use crate::streams::Shape;
use std::collections::VecDeque;

/// Modulo 2, a bit a node.
type Parity = Vec<bool>;

pub struct Accounted {
    pub window: Window,
    /// By depth: the defects received in a round, and the ends of committed edges there.
    open: VecDeque<Parity>,
    /// The bytes of the last raw call that was not refused.
    measured: Vec<u8>,
}

impl Accounted {
    pub fn new(shape: Shape) -> Accounted {
        let window = Window::open(shape);
        let open = vec![vec![false; window.sheet.nodes()]; window.layers.len()].into();
        Accounted { window, open, measured: vec![0; shape.detectors()] }
    }

    pub fn round(&mut self, bytes: &[u8], edges: &mut [u8], escapes: &mut [u8]) -> Result<(), u8> {
        self.window.round(bytes, edges, escapes)?;
        self.received(bytes, edges, escapes);
        Ok(())
    }

    /// The defects received are by the calls alone, and not by what the window holds.
    pub fn raw_round(&mut self, bytes: &[u8], edges: &mut [u8], escapes: &mut [u8]) -> Result<(), u8> {
        self.window.raw_round(bytes, edges, escapes)?;
        let before = std::mem::replace(&mut self.measured, bytes.to_vec());
        let defects: Vec<u8> = bytes.iter().zip(before).map(|(new, old)| new ^ old).collect();
        self.received(&defects, edges, escapes);
        Ok(())
    }

    /// A round was received with these defects. The one that leaves the window has to be accounted for by what is in the
    /// buffers; with an absent one nothing leaves.
    fn received(&mut self, defects: &[u8], edges: &[u8], escapes: &[u8]) {
        let sheet = self.window.sheet.clone();
        if self.window.absent(sheet.sheets()) {
            let zero = edges.iter().chain(escapes).all(|&byte| byte == 0);
            assert!(zero, "{:?}: an absent round leaves something", sheet.shape);
        }
        let mut left = self.open.pop_back().expect("a window has sheets");
        self.open.push_front(vec![false; sheet.nodes()]);
        add(&sheet, &mut self.open[0], defects);
        add(&sheet, &mut left, escapes);
        let next = self.open.back_mut().expect("a window has sheets");
        for (span, _) in sheet.spans.iter().zip(edges).filter(|(_, byte)| **byte == 1) {
            left[span.near] ^= true;
            let far = if span.above { &mut *next } else { &mut left };
            far[span.far] ^= true;
        }
        settled(&sheet, &left);
    }

    /// No defect of a supplied round is lost, and absent rounds have nothing; at rest, every cluster has its root; and the
    /// last measured sheet is that of the calls. After any call.
    pub fn check(&self) {
        let sheet = &self.window.sheet;
        assert!(self.window.absent_are_fresh(), "{:?}: an absent round", sheet.shape);
        let measured = self.window.measured.iter().map(|&bit| u8::from(bit));
        assert!(measured.eq(self.measured.iter().copied()), "{:?}: the last measured sheet", sheet.shape);
        let mut open = self.open.clone();
        for (depth, layer) in self.window.layers.iter().enumerate() {
            for (span, _) in sheet.spans.iter().zip(&layer.edges).filter(|(_, edge)| edge.correction) {
                open[depth][span.near] ^= true;
                open[depth - usize::from(span.above)][span.far] ^= true;
            }
            open[depth].iter_mut().zip(&layer.nodes).for_each(|(bit, node)| *bit ^= node.defect);
        }
        open.iter().for_each(|parity| settled(sheet, parity));
        if self.window.stage == Stage::Rest {
            self.rooted();
        }
    }

    /// Every cluster has one root, its lowest-numbered node, that all its pointers lead to.
    fn rooted(&self) {
        let sheet = &self.window.sheet;
        let (grown, leads) = (self.window.grown(), self.leads());
        let mut seen = vec![false; grown.len()];
        for first in 0..grown.len() {
            let mut cluster = vec![];
            let mut found = vec![first];
            while let Some(node) = found.pop() {
                if !std::mem::replace(&mut seen[node], true) {
                    cluster.push(node);
                    found.extend(grown[node].iter().map(|&(_, [depth, place])| depth * sheet.nodes() + place));
                }
            }
            let lowest = cluster.iter().min_by_key(|&node| sheet.number(node / sheet.nodes(), node % sheet.nodes()));
            assert!(cluster.iter().all(|&node| Some(&leads[node]) == lowest), "{:?}: a cluster's root", sheet.shape);
        }
    }

    /// Where the pointers lead from each node.
    fn leads(&self) -> Vec<usize> {
        let nodes = self.window.sheet.nodes();
        let mut leads: Vec<Option<usize>> = vec![None; nodes * self.window.layers.len()];
        for start in 0..leads.len() {
            let (mut way, mut at) = (vec![], start);
            while leads[at].is_none() {
                let (depth, place) = (at / nodes, at % nodes);
                let Some(pointer) = self.window.layers[depth].nodes[place].pointer else {
                    leads[at] = Some(at);
                    break;
                };
                way.push(at);
                assert!(way.len() <= leads.len(), "{:?}: pointers lead round", self.window.sheet.shape);
                let ([depth, place], _) = self.window.link(depth, place, pointer);
                at = depth * nodes + place;
            }
            way.into_iter().for_each(|node| leads[node] = leads[at]);
        }
        leads.into_iter().flatten().collect()
    }
}

/// Adds a byte for each detector.
fn add(sheet: &Sheet, parity: &mut Parity, bytes: &[u8]) {
    sheet.detectors().zip(bytes).for_each(|(node, byte)| parity[node] ^= *byte == 1);
}

/// Nothing is left at any detector.
fn settled(sheet: &Sheet, parity: &Parity) {
    assert!(sheet.detectors().all(|node| !parity[node]), "{:?}: a defect is lost", sheet.shape);
}

impl Decoder for Accounted {
    fn open(shape: Shape) -> Accounted {
        Accounted::new(shape)
    }

    fn receive(&mut self, bytes: &[u8], edges: &mut [u8], escapes: &mut [u8]) -> Result<Ran, u8> {
        self.round(bytes, edges, escapes)?;
        let ran = self.window.run(BUDGET);
        self.check();
        ran
    }
}
