//! Numbers, sheet lists, headers and records of both streams, written from documents 01 and 02 alone.

use std::ops::RangeInclusive;
use Stop::{End, Refused, RefusedAt};

/// What was read, and the offset behind it.
#[derive(Debug, Clone, Copy, PartialEq, Eq)]
pub struct Done<T>(pub T, pub usize);

/// Why nothing was read or written.
#[derive(Debug, Clone, Copy, PartialEq, Eq)]
pub enum Stop {
    /// No bytes are left where a record would start.
    End,
    /// A refusal by its number.
    Refused(u8),
    /// A refusal by its number, with the offset of the number's first byte.
    RefusedAt(u8, usize),
}

pub type Answer<T> = Result<Done<T>, Stop>;

pub const HEIGHTS: RangeInclusive<u32> = 1..=15;
pub const DISTANCES: RangeInclusive<u32> = 2..=15;
/// Without the diagonals, and with them.
pub const MODELS: RangeInclusive<u32> = 0..=1;

/// The ranges and their refusals, in the order of a name.
const RANGES: [(RangeInclusive<u32>, u8); 3] = [(HEIGHTS, 1), (DISTANCES, 2), (MODELS, 31)];

/// The shape that every array of a window is made for.
pub const LARGEST: Shape =
    Shape { height: *HEIGHTS.end() as usize, distance: *DISTANCES.end() as usize, model: *MODELS.end() as usize };

/// The largest height and distance that a caller allows.
pub type Limits = [u32; 2];

/// Of a caller that allows every shape.
pub const LARGEST_LIMITS: Limits = [*HEIGHTS.end(), *DISTANCES.end()];

/// Bytes of a header: each of its numbers has one.
pub const HEADER: usize = 3;

/// Height, distance and model as a caller or a stream names them, in range or not.
pub type Name = [u32; 3];

/// A height, a distance and a model in range.
#[derive(Debug, Clone, Copy, PartialEq, Eq, PartialOrd, Ord)]
pub struct Shape {
    pub height: usize,
    pub distance: usize,
    pub model: usize,
}

impl Shape {
    pub fn new(name: Name) -> Result<Shape, Stop> {
        RANGES.into_iter().zip(name).try_for_each(|((range, refusal), n)| within(n, range, refusal))?;
        let [height, distance, model] = name.map(|n| n as usize);
        Ok(Shape { height, distance, model })
    }

    /// A shape that a caller's limits allow: each limit lies between the shape's own number and the largest one.
    pub fn allowed(name: Name, limits: Limits) -> Result<Shape, Stop> {
        let shape = Shape::new(name)?;
        let ranges = name.into_iter().zip(LARGEST_LIMITS).map(|(own, largest)| own..=largest);
        limits.into_iter().zip(ranges).try_for_each(|(limit, range)| within(limit, range, 32))?;
        Ok(shape)
    }

    pub fn name(self) -> Name {
        [self.height, self.distance, self.model].map(|n| n as u32)
    }

    /// Sheets of a window.
    pub const fn sheets(self) -> usize {
        2 * (self.distance / 2) + 1
    }

    /// Nodes of a window.
    pub const fn nodes(self) -> usize {
        self.height * (self.distance + 1) * self.sheets()
    }

    /// Detectors of a sheet.
    pub const fn detectors(self) -> usize {
        self.height * (self.distance - 1)
    }

    /// Edges of a layer: along the rows, along the columns, to the sheet above; of model 1 also NU, EU and SEU.
    pub const fn edges(self) -> usize {
        let (h, d) = (self.height, self.distance);
        let straight = h * d + (h - 1) * (d - 1) + h * (d - 1);
        let diagonal = (h - 1) * (d - 1) + h * (d - 2) + (h - 1) * (d - 2);
        straight + self.model * diagonal
    }
}

fn within(n: u32, range: RangeInclusive<u32>, refusal: u8) -> Result<(), Stop> {
    turned_back(!range.contains(&n), refusal)
}

fn turned_back(bad: bool, refusal: u8) -> Result<(), Stop> {
    if bad {
        Err(Refused(refusal))
    } else {
        Ok(())
    }
}

// Readers

pub fn read_number(src: &[u8], at: usize) -> Answer<u32> {
    let rest = src.get(at..).ok_or(Refused(10))?;
    let groups = &rest[..rest.len().min(5)];
    let Some(last) = groups.iter().position(|group| group & 0x80 == 0) else {
        return Err(RefusedAt(if groups.len() < 5 { 7 } else { 8 }, at));
    };
    let overlong = last > 0 && groups[last] == 0;
    let value = groups[..=last].iter().rev().fold(0u64, |high, group| high << 7 | u64::from(group & 0x7f));
    match u32::try_from(value) {
        Ok(value) if !overlong => Ok(Done(value, at + last + 1)),
        _ => Err(RefusedAt(8, at)),
    }
}

/// A whole sheet list of `size` entries, or nothing.
fn list(src: &[u8], at: usize, size: usize) -> Answer<Vec<u8>> {
    let Done(count, mut next) = read_number(src, at)?;
    if count as usize > size {
        return Err(RefusedAt(9, at));
    }
    let mut entries = vec![0; size];
    let mut ahead = entries.iter_mut();
    for _ in 0..count {
        let Done(skip, behind) = read_number(src, next)?;
        *ahead.nth(skip as usize).ok_or(RefusedAt(9, next))? = 1;
        next = behind;
    }
    Ok(Done(entries, next))
}

pub fn read_list(src: &[u8], at: usize, out: &mut [u8]) -> Answer<()> {
    let Done(entries, next) = list(src, at, out.len())?;
    out.copy_from_slice(&entries);
    Ok(Done((), next))
}

/// Each number is tested as soon as it is read.
pub fn read_header(src: &[u8], at: usize) -> Answer<Name> {
    let (mut name, mut next) = ([0; 3], at);
    for (number, (range, refusal)) in name.iter_mut().zip(RANGES) {
        Done(*number, next) = read_number(src, next)?;
        within(*number, range, refusal)?;
    }
    Ok(Done(name, next))
}

pub fn read_round(name: Name, src: &[u8], at: usize, defects: &mut [u8]) -> Answer<()> {
    let shape = Shape::new(name)?;
    turned_back(at > src.len(), 10)?;
    turned_back(defects.len() != shape.detectors(), 3)?;
    if at == src.len() {
        return Err(End);
    }
    read_list(src, at, defects)
}

/// The value is the count of merging steps.
pub fn read_result(name: Name, src: &[u8], at: usize, [edges, escapes]: [&mut [u8]; 2]) -> Answer<u32> {
    let shape = Shape::new(name)?;
    turned_back(at > src.len(), 10)?;
    turned_back(edges.len() != shape.edges(), 5)?;
    turned_back(escapes.len() != shape.detectors(), 6)?;
    if at == src.len() {
        return Err(End);
    }
    let Done(committed, next) = list(src, at, edges.len())?;
    let Done(escaped, next) = list(src, next, escapes.len())?;
    let Done(steps, next) = read_number(src, next)?;
    edges.copy_from_slice(&committed);
    escapes.copy_from_slice(&escaped);
    Ok(Done(steps, next))
}

/// A whole stream: its shape's name and how many rounds it has. `pass` gives the offset behind a round.
fn scan(src: &[u8], pass: impl Fn(Name, usize) -> Result<usize, Stop>) -> Answer<(Name, usize)> {
    let Done(name, mut at) = read_header(src, 0)?;
    let mut rounds = 0;
    loop {
        match pass(name, at) {
            Ok(next) => (rounds, at) = (rounds + 1, next),
            Err(End) => return Ok(Done((name, rounds), at)),
            Err(refused) => return Err(refused),
        }
    }
}

pub fn scan_input(src: &[u8]) -> Answer<(Name, usize)> {
    scan(src, |name, at| {
        let mut defects = vec![0; Shape::new(name)?.detectors()];
        read_round(name, src, at, &mut defects).map(|Done(_, next)| next)
    })
}

pub fn scan_results(src: &[u8]) -> Answer<(Name, usize)> {
    scan(src, |name, at| {
        let shape = Shape::new(name)?;
        let (mut edges, mut escapes) = (vec![0; shape.edges()], vec![0; shape.detectors()]);
        read_result(name, src, at, [&mut edges, &mut escapes]).map(|Done(_, next)| next)
    })
}

// Writers

/// A number's bytes.
pub fn number_bytes(n: u32) -> Vec<u8> {
    let groups = std::iter::successors(Some(n), |n| Some(n >> 7).filter(|&high| high > 0));
    let mut bytes: Vec<u8> = groups.map(|n| n as u8 | 0x80).collect();
    if let Some(last) = bytes.last_mut() {
        *last &= 0x7f;
    }
    bytes
}

/// A sheet list's bytes.
pub fn list_bytes(bits: &[u8]) -> Vec<u8> {
    let set: Vec<usize> = bits.iter().enumerate().filter(|(_, &bit)| bit == 1).map(|(place, _)| place).collect();
    let before = std::iter::once(0).chain(set.iter().map(|place| place + 1));
    let skips = set.iter().zip(before).map(|(place, free)| place - free);
    std::iter::once(set.len()).chain(skips).flat_map(|n| number_bytes(n as u32)).collect()
}

/// A header's bytes.
pub fn header_bytes(name: Name) -> Vec<u8> {
    name.into_iter().flat_map(number_bytes).collect()
}

/// Puts a record at its offset, if the rest of the buffer holds it.
fn put(record: &[u8], out: &mut [u8], at: usize) -> Answer<()> {
    let rest = out.get_mut(at..).ok_or(Refused(10))?;
    let room = rest.get_mut(..record.len()).ok_or(Refused(11))?;
    room.copy_from_slice(record);
    Ok(Done((), at + record.len()))
}

fn zeros_and_ones(bits: &[u8]) -> Result<(), Stop> {
    turned_back(bits.iter().any(|&bit| bit > 1), 4)
}

pub fn write_number(n: u32, out: &mut [u8], at: usize) -> Answer<()> {
    put(&number_bytes(n), out, at)
}

pub fn write_list(bits: &[u8], out: &mut [u8], at: usize) -> Answer<()> {
    turned_back(at > out.len(), 10)?;
    zeros_and_ones(bits)?;
    put(&list_bytes(bits), out, at)
}

pub fn write_header(name: Name, out: &mut [u8], at: usize) -> Answer<()> {
    Shape::new(name)?;
    put(&header_bytes(name), out, at)
}

pub fn write_round(name: Name, defects: &[u8], out: &mut [u8], at: usize) -> Answer<()> {
    let shape = Shape::new(name)?;
    turned_back(at > out.len(), 10)?;
    turned_back(defects.len() != shape.detectors(), 3)?;
    write_list(defects, out, at)
}

/// The lists are the committed edges and the escaped defects.
pub fn write_result(name: Name, [edges, escapes]: [&[u8]; 2], steps: u32, out: &mut [u8], at: usize) -> Answer<()> {
    let shape = Shape::new(name)?;
    turned_back(at > out.len(), 10)?;
    turned_back(edges.len() != shape.edges(), 5)?;
    turned_back(escapes.len() != shape.detectors(), 6)?;
    zeros_and_ones(edges)?;
    zeros_and_ones(escapes)?;
    put(&[list_bytes(edges), list_bytes(escapes), number_bytes(steps)].concat(), out, at)
}
