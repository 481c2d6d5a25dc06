//! Every call made twice, on the second implementation and on the archive, with buffers filled alike.
//! The answers must be equal, and so must every byte of the buffers and of the guards around them.

use crate::decoding::Decoded;
use crate::streams::{Answer, Done, Name};
use crate::{proved, streams};
use std::fmt::Debug;

const GUARD: usize = 24;

/// A buffer to lend, between guard bytes.
struct Lent {
    whole: Vec<u8>,
}

impl Lent {
    /// Neither 0 nor 1 stands in a new buffer, so that each entry stored is seen.
    fn new(room: usize) -> Lent {
        Lent { whole: (0..room + 2 * GUARD).map(|place| (place * 37 % 251 + 3) as u8).collect() }
    }

    fn room(&mut self) -> &mut [u8] {
        let behind = self.whole.len() - GUARD;
        &mut self.whole[GUARD..behind]
    }
}

/// The answer and the buffers, if both sides agree.
fn both<A: PartialEq + Debug, const N: usize>(
    rooms: [usize; N],
    call: impl Fn() -> String,
    expected: impl FnOnce([&mut [u8]; N]) -> A,
    proved: impl FnOnce([&mut [u8]; N]) -> A,
) -> (A, [Vec<u8>; N]) {
    let mut ours = rooms.map(Lent::new);
    let mut theirs = rooms.map(Lent::new);
    let answer = expected(ours.each_mut().map(Lent::room));
    let given = proved(theirs.each_mut().map(Lent::room));
    assert!(given == answer, "{}: the archive answers {given:?}, not {answer:?}", call());
    for (ours, theirs) in ours.iter().zip(&theirs) {
        if let Some(place) = (0..ours.whole.len()).find(|&place| ours.whole[place] != theirs.whole[place]) {
            let (given, wanted) = (theirs.whole[place], ours.whole[place]);
            let place = place as isize - GUARD as isize;
            panic!("{}: byte {place} of the buffer is {given:02x}, not {wanted:02x}", call());
        }
    }
    (answer, ours.map(|mut lent| lent.room().to_vec()))
}

/// A reading at an offset, made by the call that answers the next offset and by the one that moves the offset it is
/// lent: behind what was read, or nowhere.
fn reading<V: PartialEq + Debug, const N: usize>(
    at: usize,
    rooms: [usize; N],
    call: impl Fn() -> String,
    expected: impl Fn([&mut [u8]; N]) -> Answer<V>,
    read: impl FnOnce([&mut [u8]; N]) -> Answer<V>,
    take: impl FnOnce(&mut usize, [&mut [u8]; N]) -> Answer<V>,
) -> (Answer<V>, [Vec<u8>; N]) {
    let moving = |out: [&mut [u8]; N]| {
        let answer = expected(out);
        let next = answer.as_ref().map_or(at, |&Done(_, next)| next);
        (answer, next)
    };
    let taking = |out: [&mut [u8]; N]| {
        let mut next = at;
        (take(&mut next, out), next)
    };
    let _ = both(rooms, || format!("{}, moving the offset", call()), moving, taking);
    both(rooms, &call, &expected, read)
}

pub fn read_number(src: &[u8], at: usize) -> Answer<u32> {
    let call = || format!("read_number {src:02x?} at {at}");
    both([], call, |[]| streams::read_number(src, at), |[]| proved::read_number(src, at)).0
}

pub fn write_number(n: u32, room: usize, at: usize) -> (Answer<()>, Vec<u8>) {
    let (answer, [out]) = both(
        [room],
        || format!("write_number {n} into {room} at {at}"),
        |[out]| streams::write_number(n, out, at),
        |[out]| proved::write_number(n, out, at),
    );
    (answer, out)
}

pub fn read_list(src: &[u8], at: usize, size: usize) -> (Answer<()>, Vec<u8>) {
    let (answer, [list]) = both(
        [size],
        || format!("read_list {src:02x?} at {at} into {size}"),
        |[out]| streams::read_list(src, at, out),
        |[out]| proved::read_list(src, at, out),
    );
    (answer, list)
}

pub fn write_list(bits: &[u8], room: usize, at: usize) -> (Answer<()>, Vec<u8>) {
    let (answer, [out]) = both(
        [room],
        || format!("write_list {bits:?} into {room} at {at}"),
        |[out]| streams::write_list(bits, out, at),
        |[out]| proved::write_list(bits, out, at),
    );
    (answer, out)
}

pub fn read_header(src: &[u8], at: usize) -> Answer<Name> {
    reading(
        at,
        [],
        || format!("read_header {src:02x?} at {at}"),
        |[]| streams::read_header(src, at),
        |[]| proved::read_header(src, at),
        |at, []| proved::take_header(src, at),
    )
    .0
}

pub fn write_header(name: Name, room: usize, at: usize) -> (Answer<()>, Vec<u8>) {
    let (answer, [out]) = both(
        [room],
        || format!("write_header {name:?} into {room} at {at}"),
        |[out]| streams::write_header(name, out, at),
        |[out]| proved::write_header(name, out, at),
    );
    (answer, out)
}

pub fn read_round(name: Name, src: &[u8], at: usize, size: usize) -> (Answer<()>, Vec<u8>) {
    let (answer, [defects]) = reading(
        at,
        [size],
        || format!("read_round {name:?} {src:02x?} at {at} into {size}"),
        |[out]| streams::read_round(name, src, at, out),
        |[out]| proved::read_round(name, src, at, out),
        |at, [out]| proved::take_round(name, src, at, out),
    );
    (answer, defects)
}

pub fn write_round(name: Name, defects: &[u8], room: usize, at: usize) -> (Answer<()>, Vec<u8>) {
    let (answer, [out]) = both(
        [room],
        || format!("write_round {name:?} {defects:?} into {room} at {at}"),
        |[out]| streams::write_round(name, defects, out, at),
        |[out]| proved::write_round(name, defects, out, at),
    );
    (answer, out)
}

/// `sizes` are those of the edge buffer and of the escape buffer, which come back in that order.
pub fn read_result(name: Name, src: &[u8], at: usize, sizes: [usize; 2]) -> (Answer<u32>, [Vec<u8>; 2]) {
    reading(
        at,
        sizes,
        || format!("read_result {name:?} {src:02x?} at {at} into {sizes:?}"),
        |lists| streams::read_result(name, src, at, lists),
        |lists| proved::read_result(name, src, at, lists),
        |at, lists| proved::take_result(name, src, at, lists),
    )
}

/// `lists` are the committed edges and the escaped defects.
pub fn write_result(name: Name, lists: [&[u8]; 2], steps: u32, room: usize, at: usize) -> (Answer<()>, Vec<u8>) {
    let (answer, [out]) = both(
        [room],
        || format!("write_result {name:?} {lists:?} {steps} into {room} at {at}"),
        |[out]| streams::write_result(name, lists, steps, out, at),
        |[out]| proved::write_result(name, lists, steps, out, at),
    );
    (answer, out)
}

pub fn scan_input(src: &[u8]) -> Answer<(Name, usize)> {
    both([], || format!("scan_input {src:02x?}"), |[]| streams::scan_input(src), |[]| proved::scan_input(src)).0
}

pub fn scan_results(src: &[u8]) -> Answer<(Name, usize)> {
    both([], || format!("scan_results {src:02x?}"), |[]| streams::scan_results(src), |[]| proved::scan_results(src)).0
}

/// A whole stream into a buffer of `room` bytes, against what the second decoder made of it; the status.
pub fn decode(input: &[u8], decoded: &Decoded, room: usize) -> u8 {
    let expected = |out: &mut [u8]| {
        let (status, result) = decoded.within(room);
        out[..result.len()].copy_from_slice(result);
        let place = decoded.place.filter(|_| status == decoded.status);
        (status, place, result.len())
    };
    let call = || format!("decode {input:02x?} into {room}");
    both([room], call, |[out]| expected(out), |[out]| proved::decode(input, out)).0 .0
}
