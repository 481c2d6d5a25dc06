//! Names of nodes and sheets, directions, and what all sheets of a shape have in common.

use crate::steps::{is_own, own_ways, ways_from, Way, Ways, BACK, KIND, KINDS, STEPS, WAYS};
use crate::streams::{Shape, LARGEST};

/// Entries of a sheet, and sheets that have entries: a window's and the one that just left it.
pub const SHEET: usize = 256;
pub const SHEETS: usize = LARGEST.sheets() + 1;
pub const ENTRIES: usize = SHEET * SHEETS;
const _: () = assert!(LARGEST.height * (LARGEST.distance + 1) <= SHEET && SHEETS.is_power_of_two());

/// Added to all sheets' numbers before one would be 0. It leaves their slots, and names below 2^15.
pub const RAISE: u16 = 112;
const _: () = assert!((RAISE as usize).is_multiple_of(SHEETS) && (RAISE as usize + SHEETS) * SHEET <= 1 << 15);

/// The bit of detectors in a mark: boundary nodes precede them.
pub const DETECTOR: u16 = 1 << 15;
/// The mark reset, above every other.
pub const RESET: u16 = u16::MAX;

/// A pointer is a direction or this.
pub const CENTRE: Way = WAYS as Way;
// Tables by direction have a power of two of entries, which needs no test of bounds.
const TABLE: usize = WAYS.next_power_of_two();
const OPPOSITE: [Way; TABLE] = {
    let mut opposite = [0; TABLE];
    let mut way = 0;
    while way < WAYS {
        opposite[way] = BACK[way];
        way += 1;
    }
    opposite
};
/// The kind of the edge, and whether it is held by the node itself: the west, north or lower end.
const EDGES: [(usize, bool); TABLE] = {
    let mut edges = [(0, true); TABLE];
    let mut way = 0;
    while way < WAYS {
        edges[way] = (KIND[way], is_own(way as Way));
        way += 1;
    }
    edges
};

pub fn opposite(way: Way) -> Way {
    OPPOSITE[usize::from(way) % TABLE]
}

pub fn named(sheet: u16, place: u16) -> u16 {
    sheet * SHEET as u16 + place
}

pub fn sheet_of(name: u16) -> u16 {
    name / SHEET as u16
}

pub fn place_of(name: u16) -> usize {
    usize::from(name) % SHEET
}

/// Where a node's state stands in the arrays.
pub fn entry(name: u16) -> usize {
    usize::from(name) % ENTRIES
}

/// Where a sheet's state stands.
pub fn slot(sheet: u16) -> usize {
    usize::from(sheet) % SHEETS
}

/// By place in a sheet, except for the first and the last.
pub struct Tables {
    /// From a node's name to its neighbour's, by direction.
    to: [u16; TABLE],
    /// The directions in which there is an edge if there is a sheet.
    pub ways: [Ways; SHEET],
    /// Whether it is a detector.
    pub inner: [bool; SHEET],
    /// The mark of a root in sheet 0.
    pub marks: [u16; SHEET],
    /// The numbers of the edges, by kind.
    edges: [[u16; SHEET]; KINDS],
    /// The detectors' places.
    pub detectors: Vec<u16>,
}

impl Tables {
    pub fn new(shape: Shape) -> Tables {
        let (h, d) = (shape.height, shape.distance);
        let width = d + 1;
        let mut tables = Tables {
            to: [0; TABLE],
            ways: [0; SHEET],
            inner: [false; SHEET],
            marks: [0; SHEET],
            edges: [[0; SHEET]; KINDS],
            detectors: vec![],
        };
        for (to, [row, column, sheet]) in tables.to.iter_mut().zip(STEPS) {
            *to = (row * width as isize + column + sheet * SHEET as isize) as u16;
        }
        for place in 0..h * width {
            let at = [place / width, place % width];
            tables.ways[place] = ways_from(shape, at);
            tables.marks[place] = place as u16;
            if (1..d).contains(&at[1]) {
                tables.inner[place] = true;
                tables.marks[place] |= DETECTOR;
                tables.detectors.push(place as u16);
            }
        }
        let mut free = 0;
        for (numbers, way) in tables.edges.iter_mut().zip(own_ways(shape.model)) {
            for (number, _) in numbers.iter_mut().zip(tables.ways).filter(|(_, ways)| ways >> way & 1 == 1) {
                *number = free;
                free += 1;
            }
        }
        tables
    }

    pub fn neighbour(&self, name: u16, way: Way) -> u16 {
        name.wrapping_add(self.to[usize::from(way) % TABLE])
    }

    /// The mark of a root.
    pub fn mark(&self, name: u16) -> u16 {
        named(sheet_of(name), 0) + self.marks[place_of(name)]
    }

    /// The edge in a direction: its layer's sheet, and its number.
    pub fn edge(&self, name: u16, way: Way) -> (u16, usize) {
        let (kind, own) = EDGES[usize::from(way) % TABLE];
        let holder = if own { name } else { self.neighbour(name, way) };
        (sheet_of(holder), self.edges[kind][place_of(holder)].into())
    }
}
