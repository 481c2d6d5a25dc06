//! The fastest decoder in Rust here, for the benchmark: it works only where something changes.
//!
//! Nothing moves when a round is received: sheets have numbers, one less for each new sheet, and a node's name is 256
//! times its sheet's number plus its place in the sheet, row by row. A neighbour's name differs by a constant. Names
//! are in the order of the document's numbers, boundary nodes and detectors each among themselves, so they serve as
//! marks. A node's state stands at its name modulo 4096, which is 16 sheets. It is made when the sheet is first
//! touched, by a defect or by growth, so that a round in an empty window is a few tests.
//!
//! No step looks for its work. A node whose mark changes offers it to its neighbours over grown edges, and the lowest
//! offer is what the neighbour takes in the next step. Only nodes are synced whose pointer or defect changed, or that
//! point to one that turned active or inactive. Growth goes out from a list of active nodes.

mod tables;
mod window;

use crate::decoding::{self, Decoded, BUDGET, SPENT};
use crate::streams::{self, Answer, Done, Shape, Stop};
use window::Window;

pub fn decode(input: &[u8]) -> Decoded {
    decoding::decoded_by(|decoded| rounds(input, decoded))
}

/// A spent round stops as a refusal does.
fn rounds(input: &[u8], decoded: &mut Decoded) -> Result<(), Stop> {
    let Done(name, mut at) = streams::read_header(input, 0)?;
    let mut window = Window::new(Shape::new(name)?);
    let mut result = streams::header_bytes(name);
    decoded.add(&result);
    while at < input.len() {
        window.advance();
        at = read_round(&mut window, input, at)?;
        result.clear();
        let committed = write_leaving(&mut window, &mut result);
        window.grow();
        let steps = (1..=BUDGET).find(|_| !window.merge()).ok_or(Stop::Refused(SPENT))?;
        write_number(steps, &mut result);
        decoded.add(&result);
        decoded.steps += u64::from(steps);
        decoded.committed += committed;
    }
    Ok(())
}

/// Reads the defects of the top sheet. If the list is refused, the window is of no more use.
fn read_round(window: &mut Window, input: &[u8], at: usize) -> Result<usize, Stop> {
    let Done(count, mut next) = read_number(input, at)?;
    if count as usize > window.detectors() {
        return Err(Stop::RefusedAt(9, at));
    }
    let mut free = 0;
    for _ in 0..count {
        let Done(skip, behind) = read_number(input, next)?;
        let detector = free + skip as usize;
        if detector >= window.detectors() {
            return Err(Stop::RefusedAt(9, next));
        }
        window.receive(detector);
        (free, next) = (detector + 1, behind);
    }
    Ok(next)
}

/// Nearly all numbers have one byte.
fn read_number(input: &[u8], at: usize) -> Answer<u32> {
    match input.get(at) {
        Some(&byte) if byte < 0x80 => Ok(Done(byte.into(), at + 1)),
        _ => streams::read_number(input, at),
    }
}

fn write_number(mut n: u32, out: &mut Vec<u8>) {
    while n >= 0x80 {
        out.push(n as u8 | 0x80);
        n >>= 7;
    }
    out.push(n as u8);
}

/// Writes the lists of the sheet that left; how many edges it commits.
fn write_leaving(window: &mut Window, out: &mut Vec<u8>) -> usize {
    let Some((edges, escapes)) = window.leaving() else {
        out.extend([0, 0]);
        return 0;
    };
    let count: u32 = edges.iter().map(|word| word.count_ones()).sum();
    write_number(count, out);
    let mut free = 0;
    for (start, &word) in (0..).step_by(64).zip(edges) {
        let mut bits = word;
        while bits != 0 {
            let edge = start + bits.trailing_zeros();
            write_number(edge - free, out);
            free = edge + 1;
            bits &= bits - 1;
        }
    }
    match escapes {
        Some(defects) => out.extend(streams::list_bytes(&defects)),
        None => out.push(0),
    }
    count as usize
}
