//! Whole streams, from bytes to bytes, by the proved decoder and by those in Rust: their times, and their instructions.

use super::callgrind;
use super::load::Load;
use crate::decoding::{Decoded, DECODED};
use crate::proved;
use crate::streams::HEADER;
use std::hint::black_box;
use std::time::{Duration, Instant};

pub const REPETITIONS: usize = 10;

/// A decoder in Rust.
pub type Peer = fn(&[u8]) -> Decoded;

/// Microseconds a round of the proved decoder and of each peer, the best of those that take turns; all have to agree.
pub fn times(load: &Load, decoded: &Decoded, peers: &[Peer]) -> Vec<f64> {
    assert_eq!((decoded.status, decoded.rounds()), (DECODED, load.rounds));
    let input = black_box(&load.input[..]);
    let mut out = vec![0; decoded.result.len()];
    let mut best = vec![Duration::MAX; 1 + peers.len()];
    for _ in 0..REPETITIONS {
        let (time, answer) = timed(|| proved::decode(input, &mut out));
        assert_eq!((answer, &out), ((DECODED, None, out.len()), &decoded.result));
        best[0] = best[0].min(time);
        for (best, peer) in best[1..].iter_mut().zip(peers) {
            let (time, other) = timed(|| peer(input));
            assert_eq!(&other, decoded);
            *best = time.min(*best);
        }
    }
    best.into_iter().map(|time| load.a_round(time.as_secs_f64() * 1e6)).collect()
}

pub fn timed<R>(run: impl FnOnce() -> R) -> (Duration, R) {
    let start = Instant::now();
    let result = run();
    (start.elapsed(), result)
}

/// What a process does whose instructions are counted: each stream's header alone and then the stream, by each decoder.
pub fn decode_counted(loads: &[Load], peers: &[Peer]) {
    for load in loads {
        let mut out = vec![0; 64 * load.input.len()];
        for input in [&load.input[..HEADER], &load.input] {
            callgrind::counted(&mut || assert_eq!(proved::decode(input, &mut out).0, DECODED));
        }
        for peer in peers {
            for input in [&load.input[..HEADER], &load.input] {
                callgrind::counted(&mut || assert_eq!(peer(input).status, DECODED));
            }
        }
    }
}

/// Instructions a round of each stream, by the proved decoder and by each peer, in a process of this program that decodes
/// the same streams for a table. Those for a stream's header alone do not count. None without valgrind.
pub fn instructions(table: &str, loads: &[&Load], peers: &[Peer]) -> Option<Vec<Vec<f64>>> {
    let counts = callgrind::counts(&[super::COUNTED, table])?;
    assert_eq!(counts.len(), 2 * loads.len() * (1 + peers.len()));
    let decodings: Vec<f64> = counts.chunks(2).map(|pair| (pair[1] - pair[0]) as f64).collect();
    let by_load = loads.iter().zip(decodings.chunks(1 + peers.len()));
    Some(by_load.map(|(load, counts)| counts.iter().map(|&count| load.a_round(count)).collect()).collect())
}
