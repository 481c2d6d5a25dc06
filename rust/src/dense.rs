//! A plain dense decoder, for the benchmark: flat arrays over all nodes of the window, node
//! (depth × h + row) × (d + 1) + column, and every step goes through all of them. It is for streams of fewer than 2^32
//! rounds, and counts them only until they fill its window.

use crate::decoding::{self, Decoded, Decoder, Ran, BUDGET};
use crate::steps::{
    each_way, is_own, kinds, own_ways, ways_from, Way, Ways, BACK, DOWNWARD, KIND, STEPS, UPWARD, WAYS,
};
use crate::streams::Shape;

/// No direction is C.
const NONE: Way = WAYS as Way;

/// The mark reset, above every number.
const RESET: u16 = u16::MAX;

#[derive(Clone, Copy)]
struct Node {
    mark: u16,
    pointer: Way,
    active: bool,
    defect: bool,
    unrooted: bool,
}

/// Edge entries stand at kinds × node + kind of the west, north or lower end.
pub struct Dense {
    /// How many kinds of edges the model has.
    kinds: usize,
    /// Nodes of a sheet, and of all sheets that are there: those of supplied rounds.
    sheet: usize,
    present: usize,
    /// From a node to its neighbour in each direction, and from kinds × node to the edge.
    to_node: [isize; WAYS],
    to_edge: [isize; WAYS],
    /// The document's numbers, and what falling by a sheet makes of each.
    numbers: Vec<u16>,
    fallen: Vec<u16>,
    /// Directions in which there is an edge once all sheets are there, by place in the sheet.
    outline: Vec<Ways>,
    /// Those in which there is one: down only when the sheet below is there, so nothing reaches an absent one. `open` are
    /// those where it has growth 2.
    ways: Vec<Ways>,
    open: Vec<Ways>,
    nodes: Vec<Node>,
    /// The nodes at a step's start.
    before: Vec<Node>,
    growth: Vec<u8>,
    correction: Vec<bool>,
    /// A sheet's detectors, and a layer's edge entries in the order of their numbers.
    detectors: Vec<usize>,
    edges: Vec<usize>,
}

impl Dense {
    fn new(shape: Shape) -> Dense {
        let (h, d) = (shape.height, shape.distance);
        let (width, sheets, kinds) = (d + 1, 2 * (d / 2) + 1, kinds(shape.model));
        let sheet = h * width;
        let places = || (0..h).flat_map(|row| (0..=d).map(move |column| [row, column]));

        // Numbers by the depth, the ghost sheet's too.
        let boundaries = 2 * h * (sheets + 1);
        let number = |depth: usize, [row, column]: [usize; 2]| match column {
            0 => 2 * h * depth + 2 * row,
            _ if column == d => 2 * h * depth + 2 * row + 1,
            _ => boundaries + h * (d - 1) * depth + (d - 1) * row + column - 1,
        };
        let mut fallen = vec![0; sheet * (sheets + 1)];
        for depth in 0..=sheets {
            for place in places() {
                fallen[number(depth, place)] = number((depth + 1).min(sheets), place) as u16;
            }
        }
        let numbers: Vec<u16> =
            (0..sheets).flat_map(|depth| places().map(move |place| number(depth, place) as u16)).collect();

        let outline: Vec<Ways> = places().map(|place| ways_from(shape, place)).collect();
        let top = outline.iter().map(|ways| ways & !(UPWARD | DOWNWARD));
        let below = outline.iter().map(|ways| ways & !DOWNWARD).cycle();
        let ways = top.chain(below).take(numbers.len()).collect();

        let (mut to_node, mut to_edge) = ([0; WAYS], [0; WAYS]);
        for (way, [rows, columns, sheets]) in STEPS.into_iter().enumerate() {
            to_node[way] = rows * width as isize + columns + sheets * sheet as isize;
            to_edge[way] = KIND[way] as isize;
            if !is_own(way as Way) {
                to_edge[way] += kinds as isize * to_node[way];
            }
        }
        let detectors = (0..h).flat_map(|row| (1..d).map(move |column| row * width + column)).collect();
        let of_kind = |way: Way| {
            let outline = outline.iter().enumerate().filter(move |(_, ways)| *ways >> way & 1 == 1);
            outline.map(move |(node, _)| kinds * node + KIND[usize::from(way)])
        };
        let edges = own_ways(shape.model).flat_map(of_kind).collect();

        let nodes: Vec<Node> = numbers.iter().map(|&number| fresh(number)).collect();
        Dense {
            kinds,
            sheet,
            present: 0,
            to_node,
            to_edge,
            numbers,
            fallen,
            outline,
            ways,
            open: vec![0; nodes.len()],
            before: nodes.clone(),
            growth: vec![0; kinds * nodes.len()],
            correction: vec![false; kinds * nodes.len()],
            nodes,
            detectors,
            edges,
        }
    }

    fn neighbour(&self, node: usize, way: Way) -> usize {
        node.wrapping_add_signed(self.to_node[usize::from(way)])
    }

    fn edge(&self, node: usize, way: Way) -> usize {
        (self.kinds * node).wrapping_add_signed(self.to_edge[usize::from(way)])
    }

    /// One sheet more is there, until all are. Its nodes are never active before that.
    fn supply(&mut self) {
        if self.present == self.nodes.len() {
            return;
        }
        if let Some(above) = self.present.checked_sub(self.sheet) {
            for (ways, outline) in self.ways[above..].iter_mut().zip(&self.outline) {
                *ways |= outline & DOWNWARD;
            }
        }
        self.present += self.sheet;
    }

    fn round(&mut self, bytes: &[u8], edges: &mut [u8], escapes: &mut [u8]) {
        self.supply();
        let kept = self.nodes.len() - self.sheet;
        let (kept_edges, sheet_edges) = (self.kinds * kept, self.kinds * self.sheet);
        for (byte, entry) in edges.iter_mut().zip(&self.edges) {
            *byte = self.correction[kept_edges + entry].into();
        }
        for (byte, node) in escapes.iter_mut().zip(&self.detectors) {
            *byte = self.nodes[kept + node].defect.into();
        }

        self.nodes.copy_within(..kept, self.sheet);
        self.open.copy_within(..kept, self.sheet);
        self.growth.copy_within(..kept_edges, sheet_edges);
        self.correction.copy_within(..kept_edges, sheet_edges);
        for node in &mut self.nodes[self.sheet..] {
            node.mark = self.fallen[usize::from(node.mark)];
            node.unrooted = false;
        }
        // The layer that went out had the bottom's down edges.
        for open in &mut self.open[kept..] {
            *open &= !DOWNWARD;
        }

        for (node, &number) in self.nodes[..self.sheet].iter_mut().zip(&self.numbers) {
            *node = fresh(number);
        }
        for (&byte, &node) in bytes.iter().zip(&self.detectors) {
            self.nodes[node].defect = byte == 1;
        }
        self.open[..self.sheet].fill(0);
        self.growth[..sheet_edges].fill(0);
        self.correction[..sheet_edges].fill(false);
    }

    fn grow(&mut self) {
        for node in 0..self.nodes.len() {
            if !self.nodes[node].active {
                continue;
            }
            for way in each_way(self.ways[node]) {
                let (there, edge) = (self.neighbour(node, way), self.edge(node, way));
                self.growth[edge] = (self.growth[edge] + 1).min(2);
                if self.growth[edge] == 2 {
                    self.open[node] |= 1 << way;
                    self.open[there] |= 1 << BACK[usize::from(way)];
                }
            }
        }
        let bottom = self.nodes.len() - self.sheet;
        for node in &mut self.nodes[bottom..] {
            if DOWNWARD >> node.pointer & 1 == 1 {
                node.pointer = NONE;
                node.mark = RESET;
            }
        }
    }

    /// One step; whether some node was busy.
    fn merge(&mut self) -> bool {
        self.before.copy_from_slice(&self.nodes);
        let mut busy = false;
        for node in 0..self.before.len() {
            busy |= self.sync(node);
            busy |= self.flood(node);
        }
        busy
    }

    fn sync(&mut self, node: usize) -> bool {
        let Node { pointer, active, defect: hot, .. } = self.before[node];
        if pointer == NONE {
            self.nodes[node].active = hot;
            return active != hot;
        }
        let there = self.neighbour(node, pointer);
        if hot {
            let edge = self.edge(node, pointer);
            self.correction[edge] ^= true;
            self.nodes[node].defect ^= true;
            self.nodes[there].defect ^= self.detector(there);
        }
        self.nodes[node].active = self.before[there].active;
        hot || active != self.before[there].active
    }

    fn flood(&mut self, node: usize) -> bool {
        let Node { mark, unrooted, .. } = self.before[node];
        if mark == RESET {
            self.nodes[node].mark = self.numbers[node];
            self.nodes[node].unrooted = true;
            return true;
        }
        let mut lowest = mark;
        for way in each_way(self.open[node]) {
            let other = self.before[self.neighbour(node, way)].mark;
            if other < lowest {
                lowest = other;
                self.nodes[node].mark = other;
                self.nodes[node].pointer = way;
            } else if other == RESET && !unrooted {
                self.nodes[node].mark = RESET;
                self.nodes[node].pointer = NONE;
                return true;
            }
        }
        lowest < mark
    }

    /// A boundary has one edge.
    fn detector(&self, node: usize) -> bool {
        !self.ways[node].is_power_of_two()
    }
}

fn fresh(number: u16) -> Node {
    Node { mark: number, pointer: NONE, active: false, defect: false, unrooted: false }
}

impl Decoder for Dense {
    fn open(shape: Shape) -> Dense {
        Dense::new(shape)
    }

    fn receive(&mut self, bytes: &[u8], edges: &mut [u8], escapes: &mut [u8]) -> Result<Ran, u8> {
        self.round(bytes, edges, escapes);
        self.grow();
        let rest = (1..=BUDGET).find(|_| !self.merge());
        Ok(rest.map_or(Ran::Spent(BUDGET), Ran::Rest))
    }
}

pub fn decode(input: &[u8]) -> Decoded {
    decoding::decode::<Dense>(input)
}
