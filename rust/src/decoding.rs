//! A whole input stream through a decoder, and what the exported function and the program make of it.

use crate::streams::{self, Done, Shape, Stop};

/// Merging steps that a round may take.
pub const BUDGET: u32 = 65_536;
/// The longest input that the program decodes.
pub const LONGEST: usize = 65_536;

/// Statuses of the exported function; the others are refusals by their numbers.
pub const DECODED: u8 = 0;
pub const SPENT: u8 = 254;

/// How a run ended, with the count of steps.
#[derive(Debug, Clone, Copy, PartialEq, Eq)]
pub enum Ran {
    Rest(u32),
    Spent(u32),
}

/// A window that takes a stream's rounds.
pub trait Decoder {
    fn open(shape: Shape) -> Self;

    /// A round, and a run with the whole budget.
    fn receive(&mut self, bytes: &[u8], edges: &mut [u8], escapes: &mut [u8]) -> Result<Ran, u8>;
}

/// What a decoding gave.
#[derive(Debug, Clone, PartialEq, Eq)]
pub struct Decoded {
    pub status: u8,
    /// The offset that the refusal carries.
    pub place: Option<usize>,
    pub result: Vec<u8>,
    /// The offsets behind the header and behind each record of the result.
    pub ends: Vec<usize>,
    /// All merging steps and committed edges.
    pub steps: u64,
    pub committed: usize,
}

impl Decoded {
    pub fn rounds(&self) -> usize {
        self.ends.len().saturating_sub(1)
    }

    /// Status and result for a buffer of `room` bytes: it stops in front of the first record that does not fit.
    pub fn within(&self, room: usize) -> (u8, &[u8]) {
        if self.result.len() <= room {
            return (self.status, &self.result);
        }
        let fitting = self.ends.partition_point(|&end| end <= room);
        let written = fitting.checked_sub(1).map_or(0, |last| self.ends[last]);
        (11, &self.result[..written])
    }

    pub fn add(&mut self, record: &[u8]) {
        self.result.extend(record);
        self.ends.push(self.result.len());
    }
}

/// The number of a refusal.
pub fn number_of(stop: Stop) -> u8 {
    match stop {
        Stop::Refused(number) | Stop::RefusedAt(number, _) => number,
        Stop::End => unreachable!("the end is no refusal"),
    }
}

pub fn decode<D: Decoder>(input: &[u8]) -> Decoded {
    decoded_by(|decoded| rounds::<D>(input, decoded))
}

/// What was decoded until the rounds came to their end or were stopped.
pub fn decoded_by(rounds: impl FnOnce(&mut Decoded) -> Result<(), Stop>) -> Decoded {
    let mut decoded = Decoded { status: DECODED, place: None, result: vec![], ends: vec![], steps: 0, committed: 0 };
    if let Err(stop) = rounds(&mut decoded) {
        decoded.status = number_of(stop);
        decoded.place = place_of(stop);
    }
    decoded
}

/// The offset of a refusal that carries one.
fn place_of(stop: Stop) -> Option<usize> {
    match stop {
        Stop::RefusedAt(_, place) => Some(place),
        Stop::Refused(_) | Stop::End => None,
    }
}

/// A spent round stops as a refusal does.
fn rounds<D: Decoder>(input: &[u8], decoded: &mut Decoded) -> Result<(), Stop> {
    let Done(name, mut at) = streams::read_header(input, 0)?;
    let shape = Shape::new(name)?;
    decoded.add(&streams::header_bytes(name));
    let mut decoder = D::open(shape);
    let (mut bytes, mut escapes, mut edges) =
        (vec![0; shape.detectors()], vec![0; shape.detectors()], vec![0; shape.edges()]);
    loop {
        match streams::read_round(name, input, at, &mut bytes) {
            Ok(Done((), next)) => at = next,
            Err(Stop::End) => return Ok(()),
            Err(stop) => return Err(stop),
        }
        let ran = decoder.receive(&bytes, &mut edges, &mut escapes).map_err(Stop::Refused)?;
        let Ran::Rest(steps) = ran else { return Err(Stop::Refused(SPENT)) };
        decoded
            .add(&[streams::list_bytes(&edges), streams::list_bytes(&escapes), streams::number_bytes(steps)].concat());
        decoded.steps += u64::from(steps);
        decoded.committed += edges.iter().filter(|&&bit| bit == 1).count();
    }
}

/// What the program writes.
#[derive(Debug, PartialEq, Eq)]
pub struct Output {
    pub stdout: Vec<u8>,
    pub stderr: String,
}

/// The program on an input.
pub fn program<D: Decoder>(input: &[u8]) -> Output {
    if input.len() > LONGEST {
        return Output { stdout: vec![], stderr: "long\n".into() };
    }
    let decoded = decode::<D>(input);
    let stderr = match decoded.status {
        DECODED => String::new(),
        SPENT => "spent\n".into(),
        refusal => format!("refused {refusal}\n"),
    };
    Output { stdout: decoded.result, stderr }
}
