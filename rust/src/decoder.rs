//! A second decoder, written from documents 01 and 02 alone. The window is a queue of layers, the top one first: a round
//! takes the last one out and puts a new one in front. A mark is a root by its round, so falling leaves it as it is.

use crate::decoding::{self, number_of, Decoded, Decoder, Ran, BUDGET};
use crate::steps::{joined, own_ways, Way, BACK, KIND, STEPS, WAYS};
use crate::streams::{Limits, Name, Shape};
use std::cmp::Reverse;
use std::collections::VecDeque;
use std::sync::Arc;

#[derive(Debug, Clone, Copy, PartialEq, Eq)]
pub enum Stage {
    Rest,
    ToGrow,
    Merging,
}

/// A root. Its order is that of the document's numbers: boundary nodes precede detectors, and higher precedes lower.
#[derive(Debug, Clone, Copy, PartialEq, Eq, PartialOrd, Ord)]
pub struct Root {
    detector: bool,
    round: Reverse<i64>,
    node: u16,
}

/// No pointer is C, no mark is reset.
#[derive(Debug, Clone, Copy, PartialEq, Eq)]
pub struct Node {
    pub active: bool,
    pub defect: bool,
    pub unrooted: bool,
    pub pointer: Option<Way>,
    pub mark: Option<Root>,
}

#[derive(Debug, Clone, Copy, Default, PartialEq, Eq)]
pub struct Edge {
    pub halves: u8,
    pub correction: bool,
}

/// A sheet's nodes, row by row, and its layer's edges by their numbers.
#[derive(Debug, Clone, PartialEq, Eq)]
pub struct Layer {
    pub nodes: Vec<Node>,
    pub edges: Vec<Edge>,
}

/// An edge of a layer: its west, north or lower end, and its other end, which may stand one sheet above.
#[derive(Debug, Clone, Copy)]
pub struct Span {
    pub kind: usize,
    pub near: usize,
    pub far: usize,
    pub above: bool,
}

/// A node's edge in one direction: the sheets down to its other end and to the layer that has it.
#[derive(Debug, Clone, Copy)]
struct Link {
    node: usize,
    sheets: isize,
    edge: usize,
    layers: isize,
}

/// What all sheets of a shape have in common.
#[derive(Debug)]
pub struct Sheet {
    pub shape: Shape,
    pub spans: Vec<Span>,
    /// Of each node, by direction.
    links: Vec<[Option<Link>; WAYS]>,
}

impl Sheet {
    pub fn new(shape: Shape) -> Sheet {
        let width = shape.distance + 1;
        let mut spans = vec![];
        let mut links = vec![[None; WAYS]; shape.height * width];
        for way in own_ways(shape.model) {
            let there = usize::from(way);
            let (kind, [_, _, sheets]) = (KIND[there], STEPS[there]);
            for near in 0..links.len() {
                let Some([row, column]) = joined(shape, [near / width, near % width], way) else { continue };
                let (far, edge) = (row * width + column, spans.len());
                spans.push(Span { kind, near, far, above: sheets < 0 });
                links[near][there] = Some(Link { node: far, sheets, edge, layers: 0 });
                let back = Link { node: near, sheets: -sheets, edge, layers: -sheets };
                links[far][usize::from(BACK[there])] = Some(back);
            }
        }
        assert_eq!(spans.len(), shape.edges());
        Sheet { shape, spans, links }
    }

    /// The sheets of a window.
    pub fn sheets(&self) -> usize {
        self.shape.sheets()
    }

    pub fn nodes(&self) -> usize {
        self.links.len()
    }

    pub fn detector(&self, node: usize) -> bool {
        let column = node % (self.shape.distance + 1);
        0 < column && column < self.shape.distance
    }

    /// The detectors, row by row.
    pub fn detectors(&self) -> impl Iterator<Item = usize> + '_ {
        (0..self.nodes()).filter(|&node| self.detector(node))
    }

    /// The document's number of a node.
    pub fn number(&self, depth: usize, node: usize) -> usize {
        let (h, d, s) = (self.shape.height, self.shape.distance, self.sheets());
        let (row, column) = (node / (d + 1), node % (d + 1));
        if self.detector(node) {
            2 * h * (s + 1) + h * (d - 1) * depth + (d - 1) * row + column - 1
        } else {
            2 * h * depth + 2 * row + usize::from(column == d)
        }
    }

    fn root(&self, round: i64, node: usize) -> Root {
        Root { detector: self.detector(node), round: Reverse(round), node: node as u16 }
    }

    fn fresh(&self, round: i64) -> Layer {
        let alone = |node| Node {
            active: false,
            defect: false,
            unrooted: false,
            pointer: None,
            mark: Some(self.root(round, node)),
        };
        Layer { nodes: (0..self.nodes()).map(alone).collect(), edges: vec![Edge::default(); self.spans.len()] }
    }
}

/// A node's edges of growth 2, in the scan order: the direction and the node there, by depth and place.
type Grown = Vec<(Way, [usize; 2])>;

#[derive(Debug, Clone)]
pub struct Window {
    pub sheet: Arc<Sheet>,
    pub stage: Stage,
    pub next: u32,
    pub layers: VecDeque<Layer>,
    /// The last measured sheet, a bit a detector.
    pub measured: Vec<bool>,
}

fn refuse(bad: bool, number: u8) -> Result<(), u8> {
    if bad {
        Err(number)
    } else {
        Ok(())
    }
}

// Every window here is well-formed: 21 is for whoever reads one from elsewhere.
impl Window {
    pub fn fresh(name: Name, limits: Limits) -> Result<Window, u8> {
        Ok(Window::new(Shape::allowed(name, limits).map_err(number_of)?))
    }

    fn new(shape: Shape) -> Window {
        let sheet = Arc::new(Sheet::new(shape));
        let next = sheet.sheets() as u32;
        let layers = (0..i64::from(next)).rev().map(|round| sheet.fresh(round)).collect();
        Window { sheet, stage: Stage::Rest, next, layers, measured: vec![false; shape.detectors()] }
    }

    /// Whether two windows of a shape hold the same.
    pub fn same(&self, other: &Window) -> bool {
        (self.stage, self.next, &self.layers, &self.measured)
            == (other.stage, other.next, &other.layers, &other.measured)
    }

    /// The round that a depth holds; the ghost sheet's depth is one more than the bottom's.
    fn round_at(&self, depth: usize) -> i64 {
        i64::from(self.next) - 1 - depth as i64
    }

    pub fn root(&self, depth: usize, node: usize) -> Root {
        self.sheet.root(self.round_at(depth), node)
    }

    /// The document's number of a root.
    pub fn number(&self, root: Root) -> usize {
        let depth = self.round_at(0) - root.round.0;
        self.sheet.number(depth as usize, root.node.into())
    }

    fn bottom(&self) -> usize {
        self.layers.len() - 1
    }

    /// Whether a depth's round is absent, also the ghost sheet's: none was supplied before round s.
    pub fn absent(&self, depth: usize) -> bool {
        self.round_at(depth) < self.sheet.sheets() as i64
    }

    /// How many sheets are there, from the top.
    pub fn present(&self) -> usize {
        (0..self.layers.len()).filter(|&depth| !self.absent(depth)).count()
    }

    /// Whether absent rounds have fresh layers.
    pub fn absent_are_fresh(&self) -> bool {
        let mut absent = self.layers.iter().enumerate().skip(self.present());
        absent.all(|(depth, layer)| *layer == self.sheet.fresh(self.round_at(depth)))
    }

    /// The nodes, sheet by sheet from the top, by depth and place.
    fn places(&self) -> impl Iterator<Item = (usize, usize)> + '_ {
        (0..self.layers.len()).flat_map(|depth| (0..self.sheet.nodes()).map(move |place| (depth, place)))
    }

    /// The node at the other end of an edge, and the edge. None leads to an absent round, or from one.
    fn follow(&self, depth: usize, link: &Link) -> Option<([usize; 2], [usize; 2])> {
        let there = depth.checked_add_signed(link.sheets).filter(|&there| there <= self.bottom())?;
        let layer = depth.checked_add_signed(link.layers)?;
        (!self.absent(depth.max(there))).then_some(([there, link.node], [layer, link.edge]))
    }

    /// A node's edges, in the scan order: the direction, the node there, and the edge.
    pub fn links(&self, depth: usize, node: usize) -> impl Iterator<Item = (Way, [usize; 2], [usize; 2])> + '_ {
        (0..).zip(&self.sheet.links[node]).filter_map(move |(way, link)| {
            let (there, edge) = self.follow(depth, link.as_ref()?)?;
            Some((way, there, edge))
        })
    }

    /// The node and the edge in the direction of a pointer.
    pub fn link(&self, depth: usize, place: usize, pointer: Way) -> ([usize; 2], [usize; 2]) {
        let link = self.sheet.links[place][usize::from(pointer)].as_ref();
        link.and_then(|link| self.follow(depth, link)).expect("pointers go along edges")
    }

    /// Whether a node's pointer may be this direction: along an edge; or, in stage to grow, from the bottom along one to the
    /// sheet that left, unless its round was absent.
    pub fn allows(&self, depth: usize, place: usize, pointer: Way) -> bool {
        let link = self.sheet.links[place].get(usize::from(pointer)).and_then(Option::as_ref);
        let lost = self.stage == Stage::ToGrow && depth == self.bottom() && !self.absent(depth + 1);
        link.is_some_and(|link| self.follow(depth, link).is_some() || lost && link.sheets > 0)
    }

    /// A round of defects.
    pub fn round(&mut self, bytes: &[u8], edges: &mut [u8], escapes: &mut [u8]) -> Result<(), u8> {
        let defects = self.test_round(bytes, edges, escapes)?;
        self.receiving(&defects, edges, escapes);
        Ok(())
    }

    /// A round of measurements: the defects are where they differ from the last measured sheet, and then they are the
    /// sheet.
    pub fn raw_round(&mut self, bytes: &[u8], edges: &mut [u8], escapes: &mut [u8]) -> Result<(), u8> {
        let measured = self.test_round(bytes, edges, escapes)?;
        let defects: Vec<bool> = measured.iter().zip(&self.measured).map(|(new, old)| new != old).collect();
        self.receiving(&defects, edges, escapes);
        self.measured = measured;
        Ok(())
    }

    /// What both round calls refuse; the bytes as bits.
    fn test_round(&self, bytes: &[u8], edges: &[u8], escapes: &[u8]) -> Result<Vec<bool>, u8> {
        let shape = self.sheet.shape;
        refuse(self.stage != Stage::Rest, 22)?;
        refuse(self.next == u32::MAX, 23)?;
        refuse(bytes.len() != shape.detectors(), 3)?;
        refuse(edges.len() != shape.edges(), 5)?;
        refuse(escapes.len() != shape.detectors(), 6)?;
        refuse(bytes.iter().any(|&byte| byte > 1), 4)?;
        Ok(bytes.iter().map(|&byte| byte == 1).collect())
    }

    /// Receives a round by its defects, and hands out the bottom layer.
    fn receiving(&mut self, defects: &[bool], edges: &mut [u8], escapes: &mut [u8]) {
        let sheet = self.sheet.clone();
        let gone = self.layers.pop_back().expect("a window has sheets");
        edges.iter_mut().zip(&gone.edges).for_each(|(byte, edge)| *byte = edge.correction.into());
        escapes.iter_mut().zip(sheet.detectors()).for_each(|(byte, node)| *byte = gone.nodes[node].defect.into());

        let mut top = sheet.fresh(self.next.into());
        defects.iter().zip(sheet.detectors()).for_each(|(&defect, node)| top.nodes[node].defect = defect);
        self.layers.push_front(top);
        self.next += 1;
        let ghost = self.round_at(sheet.sheets());
        for node in self.layers.iter_mut().flat_map(|layer| &mut layer.nodes) {
            node.unrooted = false;
            if let Some(root) = &mut node.mark {
                root.round.0 = root.round.0.max(ghost);
            }
        }
        self.stage = Stage::ToGrow;
    }

    pub fn grow(&mut self) -> Result<(), u8> {
        refuse(self.stage != Stage::ToGrow, 22)?;
        // An edge with two active ends comes twice.
        let active = self.places().filter(|&(depth, place)| self.layers[depth].nodes[place].active);
        let gaining: Vec<_> =
            active.flat_map(|(depth, place)| self.links(depth, place).map(|(_, _, edge)| edge)).collect();
        for [layer, edge] in gaining {
            let halves = &mut self.layers[layer].edges[edge].halves;
            *halves = (*halves + 1).min(2);
        }
        let bottom = self.bottom();
        for node in &mut self.layers[bottom].nodes {
            if node.pointer.is_some_and(|way| STEPS[usize::from(way)][2] > 0) {
                node.pointer = None;
                node.mark = None;
            }
        }
        self.stage = Stage::Merging;
        Ok(())
    }

    /// Of each node, sheet by sheet from the top. No merging step changes it.
    pub fn grown(&self) -> Vec<Grown> {
        let grown = |&(_, _, [layer, edge]): &(Way, [usize; 2], [usize; 2])| self.layers[layer].edges[edge].halves == 2;
        self.places()
            .map(|(depth, place)| self.links(depth, place).filter(grown).map(|(way, there, _)| (way, there)).collect())
            .collect()
    }

    /// One step; whether some node was busy.
    pub fn merging(&mut self) -> Result<bool, u8> {
        refuse(self.stage != Stage::Merging, 22)?;
        Ok(self.step(&self.grown()))
    }

    fn step(&mut self, grown: &[Grown]) -> bool {
        let old: Vec<Vec<Node>> = self.layers.iter().map(|layer| layer.nodes.clone()).collect();
        let mut busy = false;
        for (depth, nodes) in grown.chunks(self.sheet.nodes()).enumerate() {
            for (place, grown) in nodes.iter().enumerate() {
                busy |= self.sync(&old, depth, place);
                busy |= self.flood(&old, depth, place, grown);
            }
        }
        if !busy {
            self.stage = Stage::Rest;
        }
        busy
    }

    /// Only detectors have defects, so hot is a defect.
    fn sync(&mut self, old: &[Vec<Node>], depth: usize, place: usize) -> bool {
        let node = &old[depth][place];
        let link = node.pointer.map(|way| self.link(depth, place, way));
        let active = link.map_or(node.defect, |([there, other], _)| old[there][other].active);
        if active != node.active {
            self.layers[depth].nodes[place].active = active;
        }
        let Some(([there, other], [layer, edge])) = link.filter(|_| node.defect) else { return active != node.active };
        self.layers[layer].edges[edge].correction ^= true;
        self.layers[depth].nodes[place].defect ^= true;
        self.layers[there].nodes[other].defect ^= self.sheet.detector(other);
        true
    }

    fn flood(&mut self, old: &[Vec<Node>], depth: usize, place: usize, grown: &Grown) -> bool {
        let before = &old[depth][place];
        let Some(mut lowest) = before.mark else {
            let own = self.root(depth, place);
            let now = &mut self.layers[depth].nodes[place];
            now.mark = Some(own);
            now.unrooted = true;
            return true;
        };
        let mut busy = false;
        for &(way, [there, other]) in grown {
            match old[there][other].mark {
                Some(mark) if mark < lowest => {
                    lowest = mark;
                    let now = &mut self.layers[depth].nodes[place];
                    now.mark = Some(mark);
                    now.pointer = Some(way);
                    busy = true;
                }
                None if !before.unrooted => {
                    let now = &mut self.layers[depth].nodes[place];
                    now.mark = None;
                    now.pointer = None;
                    return true;
                }
                _ => {}
            }
        }
        busy
    }

    pub fn run(&mut self, budget: u32) -> Result<Ran, u8> {
        refuse(self.stage == Stage::Rest, 22)?;
        if self.stage == Stage::ToGrow {
            self.grow()?;
        }
        let grown = self.grown();
        let rest = (1..=budget).find(|_| !self.step(&grown));
        Ok(rest.map_or(Ran::Spent(budget), Ran::Rest))
    }
}

impl Decoder for Window {
    fn open(shape: Shape) -> Window {
        Window::new(shape)
    }

    fn receive(&mut self, bytes: &[u8], edges: &mut [u8], escapes: &mut [u8]) -> Result<Ran, u8> {
        self.round(bytes, edges, escapes)?;
        self.run(BUDGET)
    }
}

pub fn decode(input: &[u8]) -> Decoded {
    decoding::decode::<Window>(input)
}
