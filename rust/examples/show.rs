//! Reads a result stream from standard input and says what stands in it, a line a round.

use baizeridge_tests::decoder::{Sheet, Span};
use baizeridge_tests::streams::{read_header, read_result, Done, Shape, Stop};
use std::io::Read;

/// The ends of an edge, by row and column.
fn place(span: &Span, width: usize) -> String {
    let [near, far] = [span.near, span.far].map(|node| format!("row {}, column {}", node / width, node % width));
    match (span.above, span.near == span.far) {
        (false, _) => format!("{near}, to {far}"),
        (true, true) => format!("{near}, to the round after"),
        (true, false) => format!("{near}, to {far} of the round after"),
    }
}

fn set(bytes: &[u8]) -> impl Iterator<Item = usize> + '_ {
    bytes.iter().enumerate().filter(|(_, &byte)| byte == 1).map(|(i, _)| i)
}

fn main() -> Result<(), Stop> {
    let mut stream = vec![];
    std::io::stdin().read_to_end(&mut stream).expect("standard input can be read");
    let Done(name, mut at) = read_header(&stream, 0)?;
    let shape = Shape::new(name)?;
    let sheet = Sheet::new(shape);
    println!("{} by {}, model {}, a window of {} rounds", shape.height, shape.distance, shape.model, sheet.sheets());
    let (mut edges, mut escapes) = (vec![0; shape.edges()], vec![0; shape.detectors()]);
    for left in 0.. {
        match read_result(name, &stream, at, [&mut edges, &mut escapes]) {
            Ok(Done(steps, next)) => {
                println!("round {} received, {steps} steps", left + sheet.sheets());
                for edge in set(&edges) {
                    println!("    round {left}: flip {}", place(&sheet.spans[edge], shape.distance + 1));
                }
                for detector in set(&escapes) {
                    println!("    round {left}: the defect of detector {detector} escaped");
                }
                at = next;
            }
            Err(Stop::End) => break,
            Err(stop) => return Err(stop),
        }
    }
    Ok(())
}
