//! A window as the proved crates hold it, well-formed or not: all its entries, in their internal order.

use crate::decoder::{Edge, Layer, Node, Sheet, Stage, Window};
use crate::decoding::{Decoder, Ran};
use crate::steps::KINDS;
use crate::streams::{Limits, Name, Shape, LARGEST};

/// An entry for a node. Pointers are 0 for C and 1 to 12 in the scan order; no mark is reset.
#[derive(Debug, Clone, Copy, PartialEq, Eq)]
pub struct Entry {
    pub active: bool,
    pub defect: bool,
    pub unrooted: bool,
    pub pointer: u8,
    pub mark: Option<u16>,
}

const UNUSED: Entry = Entry { active: false, defect: false, unrooted: false, pointer: 0, mark: Some(0) };
pub const NODES: usize = LARGEST.height * (LARGEST.distance + 1) * LARGEST.sheets();
/// Entries of growth, and of correction.
pub const SLOTS: usize = KINDS * NODES;
/// Bits of the last measured sheet.
pub const DETECTORS: usize = LARGEST.detectors();

#[derive(Debug, Clone, PartialEq, Eq)]
pub struct Image {
    pub height: u8,
    pub distance: u8,
    pub model: u8,
    pub stage: Stage,
    pub next: u32,
    pub nodes: Vec<Entry>,
    pub growth: Vec<u8>,
    pub correction: Vec<bool>,
    pub measured: Vec<bool>,
}

/// The entry of a node.
pub fn entry(sheet: &Sheet, depth: usize, node: usize) -> usize {
    depth * sheet.nodes() + node
}

/// The slot of an edge: by kind, at the entry of its west, north or lower end.
pub fn slot(sheet: &Sheet, depth: usize, edge: usize) -> usize {
    sheet.spans[edge].kind * entry(sheet, sheet.sheets(), 0) + entry(sheet, depth, sheet.spans[edge].near)
}

impl Image {
    /// What a refused creation gives.
    pub fn nothing() -> Image {
        Image {
            height: 0,
            distance: 0,
            model: 0,
            stage: Stage::Rest,
            next: 0,
            nodes: vec![UNUSED; NODES],
            growth: vec![0; SLOTS],
            correction: vec![false; SLOTS],
            measured: vec![false; DETECTORS],
        }
    }

    /// Height, distance and model.
    pub fn name(&self) -> Name {
        [self.height, self.distance, self.model].map(u32::from)
    }

    pub fn of(window: &Window) -> Image {
        let sheet = &window.sheet;
        let mut image = Image::nothing();
        image.height = sheet.shape.height as u8;
        image.distance = sheet.shape.distance as u8;
        image.model = sheet.shape.model as u8;
        image.stage = window.stage;
        image.next = window.next;
        image.measured[..window.measured.len()].copy_from_slice(&window.measured);
        for (depth, layer) in window.layers.iter().enumerate() {
            for (place, node) in layer.nodes.iter().enumerate() {
                image.nodes[entry(sheet, depth, place)] = Entry {
                    active: node.active,
                    defect: node.defect,
                    unrooted: node.unrooted,
                    pointer: node.pointer.map_or(0, |way| way + 1),
                    mark: node.mark.map(|root| window.number(root) as u16),
                };
            }
            for (number, edge) in layer.edges.iter().enumerate() {
                // The top layer's edges to the sheet above lead nowhere, and their slots are never set.
                image.growth[slot(sheet, depth, number)] = edge.halves;
                image.correction[slot(sheet, depth, number)] = edge.correction;
            }
        }
        image
    }

    /// The window, or nothing where it is not well-formed. Every entry that belongs to a window is taken out, and the
    /// others have to be zero.
    fn read(&self) -> Option<Window> {
        let mut left = self.clone();
        let mut window = Window::open(Shape::new(self.name()).ok()?);
        let sheet = window.sheet.clone();
        (window.stage, window.next) = (self.stage, self.next);
        if (self.next as usize) < sheet.sheets() {
            return None;
        }
        // Roots by their numbers, those of the ghost sheet too.
        let mut roots = vec![window.root(0, 0); (sheet.sheets() + 1) * sheet.nodes()];
        for depth in 0..=sheet.sheets() {
            (0..sheet.nodes()).for_each(|node| roots[sheet.number(depth, node)] = window.root(depth, node));
        }

        let mut layers = vec![];
        for depth in 0..sheet.sheets() {
            let mut layer = Layer { nodes: vec![], edges: vec![] };
            for place in 0..sheet.nodes() {
                let entry = std::mem::replace(&mut left.nodes[entry(&sheet, depth, place)], UNUSED);
                let mark = match entry.mark {
                    Some(number) => Some(*roots.get(usize::from(number))?),
                    None if self.stage == Stage::Merging => None,
                    None => return None,
                };
                let pointer = entry.pointer.checked_sub(1);
                if !pointer.is_none_or(|way| window.allows(depth, place, way)) || entry.defect && !sheet.detector(place)
                {
                    return None;
                }
                let Entry { active, defect, unrooted, .. } = entry;
                layer.nodes.push(Node { active, defect, unrooted, pointer, mark });
            }
            for (number, span) in sheet.spans.iter().enumerate() {
                if depth == 0 && span.above {
                    layer.edges.push(Edge::default());
                    continue;
                }
                let slot = slot(&sheet, depth, number);
                let halves = std::mem::take(&mut left.growth[slot]);
                let correction = std::mem::take(&mut left.correction[slot]);
                if halves > 2 {
                    return None;
                }
                layer.edges.push(Edge { halves, correction });
            }
            layers.push(layer);
        }
        window.layers = layers.into();
        window.measured = left.measured.drain(..sheet.shape.detectors()).collect();

        let zero = left.nodes.iter().all(|&node| node == UNUSED)
            && left.growth.iter().all(|&halves| halves == 0)
            && left.correction.iter().chain(&left.measured).all(|&bit| !bit);
        (zero && window.absent_are_fresh()).then_some(window)
    }

    /// Makes a call on the window, and takes what it leaves, refused or not.
    fn call<T>(&mut self, call: impl FnOnce(&mut Window) -> Result<T, u8>) -> Result<T, u8> {
        let mut window = self.read().ok_or(21)?;
        let answer = call(&mut window);
        *self = Image::of(&window);
        answer
    }

    pub fn fresh(name: Name, limits: Limits) -> Result<Image, u8> {
        Ok(Image::of(&Window::fresh(name, limits)?))
    }

    pub fn round(&mut self, bytes: &[u8], edges: &mut [u8], escapes: &mut [u8]) -> Result<(), u8> {
        self.call(|window| window.round(bytes, edges, escapes))
    }

    pub fn raw_round(&mut self, bytes: &[u8], edges: &mut [u8], escapes: &mut [u8]) -> Result<(), u8> {
        self.call(|window| window.raw_round(bytes, edges, escapes))
    }

    pub fn grow(&mut self) -> Result<(), u8> {
        self.call(Window::grow)
    }

    pub fn merging(&mut self) -> Result<bool, u8> {
        self.call(Window::merging)
    }

    pub fn run(&mut self, budget: u32) -> Result<Ran, u8> {
        self.call(|window| window.run(budget))
    }
}
