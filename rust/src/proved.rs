//! The proved archive. Nothing checks these declarations against the Rattle source, so each wrapper also
//! holds the archive to the calling convention: out-parameters lie between guards, and stay as they were
//! where the convention says so.

use crate::streams::{Answer, Done, Limits, Name, Stop};

extern "C" {
    fn baizeridge_read_number(src: *const u8, src_len: usize, at: usize, value: *mut u32, place: *mut usize) -> u8;
    fn baizeridge_write_number(n: u32, out: *mut u8, out_len: usize, at: usize, place: *mut usize) -> u8;
    fn baizeridge_read_list(
        src: *const u8,
        src_len: usize,
        at: usize,
        out: *mut u8,
        out_len: usize,
        place: *mut usize,
    ) -> u8;
    fn baizeridge_write_list(
        bits: *const u8,
        bits_len: usize,
        out: *mut u8,
        out_len: usize,
        at: usize,
        place: *mut usize,
    ) -> u8;
    fn baizeridge_read_header(
        src: *const u8,
        src_len: usize,
        at: usize,
        height: *mut u32,
        distance: *mut u32,
        model: *mut u32,
        place: *mut usize,
    ) -> u8;
    fn baizeridge_write_header(
        height: u32,
        distance: u32,
        model: u32,
        out: *mut u8,
        out_len: usize,
        at: usize,
        place: *mut usize,
    ) -> u8;
    fn baizeridge_read_round(
        height: u32,
        distance: u32,
        model: u32,
        src: *const u8,
        src_len: usize,
        at: usize,
        defects: *mut u8,
        defects_len: usize,
        place: *mut usize,
    ) -> u8;
    fn baizeridge_write_round(
        height: u32,
        distance: u32,
        model: u32,
        defects: *const u8,
        defects_len: usize,
        out: *mut u8,
        out_len: usize,
        at: usize,
        place: *mut usize,
    ) -> u8;
    fn baizeridge_read_result(
        height: u32,
        distance: u32,
        model: u32,
        src: *const u8,
        src_len: usize,
        at: usize,
        edges: *mut u8,
        edges_len: usize,
        escapes: *mut u8,
        escapes_len: usize,
        steps: *mut u32,
        place: *mut usize,
    ) -> u8;
    fn baizeridge_write_result(
        height: u32,
        distance: u32,
        model: u32,
        edges: *const u8,
        edges_len: usize,
        escapes: *const u8,
        escapes_len: usize,
        steps: u32,
        out: *mut u8,
        out_len: usize,
        at: usize,
        place: *mut usize,
    ) -> u8;
    fn baizeridge_take_header(
        src: *const u8,
        src_len: usize,
        at: *mut usize,
        height: *mut u32,
        distance: *mut u32,
        model: *mut u32,
        place: *mut usize,
    ) -> u8;
    fn baizeridge_take_round(
        height: u32,
        distance: u32,
        model: u32,
        src: *const u8,
        src_len: usize,
        at: *mut usize,
        defects: *mut u8,
        defects_len: usize,
        place: *mut usize,
    ) -> u8;
    fn baizeridge_take_result(
        height: u32,
        distance: u32,
        model: u32,
        src: *const u8,
        src_len: usize,
        at: *mut usize,
        edges: *mut u8,
        edges_len: usize,
        escapes: *mut u8,
        escapes_len: usize,
        steps: *mut u32,
        place: *mut usize,
    ) -> u8;
    fn baizeridge_scan_input(
        src: *const u8,
        src_len: usize,
        height: *mut u32,
        distance: *mut u32,
        model: *mut u32,
        rounds: *mut usize,
        place: *mut usize,
    ) -> u8;
    fn baizeridge_scan_results(
        src: *const u8,
        src_len: usize,
        height: *mut u32,
        distance: *mut u32,
        model: *mut u32,
        rounds: *mut usize,
        place: *mut usize,
    ) -> u8;
    fn baizeridge_decode(
        src: *const u8,
        src_len: usize,
        out: *mut u8,
        out_len: usize,
        count: *mut usize,
        place: *mut usize,
    ) -> u8;
    fn baizeridge_nodes(height: u32, distance: u32, model: u32) -> usize;
    fn baizeridge_detectors(height: u32, distance: u32, model: u32) -> usize;
    fn baizeridge_layer_edges(height: u32, distance: u32, model: u32) -> usize;
    fn baizeridge_step_bound(height: u32, distance: u32, model: u32) -> usize;
    fn baizeridge_allowed(height: u32, distance: u32, model: u32, largest_height: u32, largest_distance: u32) -> u8;
}

/// A shape's sizes: the nodes of its window, the detectors of a sheet, the edges of a layer.
pub fn sizes([height, distance, model]: Name) -> [usize; 3] {
    // SAFETY: numbers in, numbers out.
    unsafe {
        [
            baizeridge_nodes(height, distance, model),
            baizeridge_detectors(height, distance, model),
            baizeridge_layer_edges(height, distance, model),
        ]
    }
}

/// The most merging steps of a stage.
pub fn step_bound([height, distance, model]: Name) -> usize {
    // SAFETY: numbers in, a number out.
    unsafe { baizeridge_step_bound(height, distance, model) }
}

/// Whether a caller's limits allow a shape, or the refusal's number.
pub fn allowed([height, distance, model]: Name, [largest_height, largest_distance]: Limits) -> Result<(), u8> {
    // SAFETY: numbers in, a number out.
    match unsafe { baizeridge_allowed(height, distance, model, largest_height, largest_distance) } {
        0 => Ok(()),
        number => Err(number),
    }
}

const PLACE: usize = 0x5a5a_5a5a_5a5a_5a5a;
const VALUE: u32 = 0xa5a5_a5a5;

/// Makes a call with its out-parameters, and reads its status and them as an answer.
fn answer<const N: usize>(call: impl FnOnce([*mut u32; N], *mut usize) -> u8) -> Answer<[u32; N]> {
    let mut place = [PLACE; 3];
    let mut values = [[VALUE; 3]; N];
    let status =
        call(values.each_mut().map(|value| value.as_mut_ptr().wrapping_add(1)), place.as_mut_ptr().wrapping_add(1));
    let guards = values.iter().all(|value| (value[0], value[2]) == (VALUE, VALUE));
    assert!(guards && (place[0], place[2]) == (PLACE, PLACE), "status {status}: stored beside an out-parameter");
    let (values, place) = (values.map(|value| value[1]), place[1]);
    assert!(status == 0 || values == [VALUE; N], "status {status}: a value was stored");
    assert!(matches!(status, 0 | 7..=9) || place == PLACE, "status {status}: an offset was stored");
    match status {
        0 => Ok(Done(values, place)),
        255 => Err(Stop::End),
        7..=9 => Err(Stop::RefusedAt(status, place)),
        _ => Err(Stop::Refused(status)),
    }
}

/// Lends a number between guards.
fn lend<R>(number: &mut usize, call: impl FnOnce(*mut usize) -> R) -> R {
    let mut lent = [PLACE, *number, PLACE];
    let result = call(lent.as_mut_ptr().wrapping_add(1));
    assert_eq!((lent[0], lent[2]), (PLACE, PLACE), "stored beside a lent number");
    *number = lent[1];
    result
}

fn alone(answer: Answer<[u32; 0]>) -> Answer<()> {
    answer.map(|Done(_, next)| Done((), next))
}

fn with_value(answer: Answer<[u32; 1]>) -> Answer<u32> {
    answer.map(|Done([value], next)| Done(value, next))
}

// SAFETY, for every call below: each pointer comes with the length of the slice that it was taken from, or
// points to an out-parameter that outlives the call.

pub fn read_number(src: &[u8], at: usize) -> Answer<u32> {
    with_value(answer(|[value], place| unsafe { baizeridge_read_number(src.as_ptr(), src.len(), at, value, place) }))
}

pub fn write_number(n: u32, out: &mut [u8], at: usize) -> Answer<()> {
    alone(answer(|[], place| unsafe { baizeridge_write_number(n, out.as_mut_ptr(), out.len(), at, place) }))
}

pub fn read_list(src: &[u8], at: usize, out: &mut [u8]) -> Answer<()> {
    alone(answer(|[], place| unsafe {
        baizeridge_read_list(src.as_ptr(), src.len(), at, out.as_mut_ptr(), out.len(), place)
    }))
}

pub fn write_list(bits: &[u8], out: &mut [u8], at: usize) -> Answer<()> {
    alone(answer(|[], place| unsafe {
        baizeridge_write_list(bits.as_ptr(), bits.len(), out.as_mut_ptr(), out.len(), at, place)
    }))
}

pub fn read_header(src: &[u8], at: usize) -> Answer<Name> {
    answer(|[height, distance, model], place| unsafe {
        baizeridge_read_header(src.as_ptr(), src.len(), at, height, distance, model, place)
    })
}

pub fn write_header([height, distance, model]: Name, out: &mut [u8], at: usize) -> Answer<()> {
    alone(answer(|[], place| unsafe {
        baizeridge_write_header(height, distance, model, out.as_mut_ptr(), out.len(), at, place)
    }))
}

pub fn read_round([height, distance, model]: Name, src: &[u8], at: usize, defects: &mut [u8]) -> Answer<()> {
    let (to, to_len) = (defects.as_mut_ptr(), defects.len());
    alone(answer(|[], place| unsafe {
        baizeridge_read_round(height, distance, model, src.as_ptr(), src.len(), at, to, to_len, place)
    }))
}

pub fn write_round([height, distance, model]: Name, defects: &[u8], out: &mut [u8], at: usize) -> Answer<()> {
    let (from, from_len) = (defects.as_ptr(), defects.len());
    alone(answer(|[], place| unsafe {
        baizeridge_write_round(height, distance, model, from, from_len, out.as_mut_ptr(), out.len(), at, place)
    }))
}

/// A reader of results: by an offset, or by a lent one.
type ResultReader<At> = unsafe extern "C" fn(
    u32,
    u32,
    u32,
    *const u8,
    usize,
    At,
    *mut u8,
    usize,
    *mut u8,
    usize,
    *mut u32,
    *mut usize,
) -> u8;

fn result_by<At>(
    read: ResultReader<At>,
    [height, distance, model]: Name,
    src: &[u8],
    at: At,
    [edges, escapes]: [&mut [u8]; 2],
) -> Answer<u32> {
    let (edges, edges_len) = (edges.as_mut_ptr(), edges.len());
    let (escapes, escapes_len) = (escapes.as_mut_ptr(), escapes.len());
    let (from, from_len) = (src.as_ptr(), src.len());
    with_value(answer(|[steps], place| unsafe {
        read(height, distance, model, from, from_len, at, edges, edges_len, escapes, escapes_len, steps, place)
    }))
}

pub fn read_result(name: Name, src: &[u8], at: usize, lists: [&mut [u8]; 2]) -> Answer<u32> {
    result_by(baizeridge_read_result, name, src, at, lists)
}

/// The lists are the committed edges and the escaped defects.
pub fn write_result(
    [height, distance, model]: Name,
    [edges, escapes]: [&[u8]; 2],
    steps: u32,
    out: &mut [u8],
    at: usize,
) -> Answer<()> {
    alone(answer(|[], place| unsafe {
        baizeridge_write_result(
            height,
            distance,
            model,
            edges.as_ptr(),
            edges.len(),
            escapes.as_ptr(),
            escapes.len(),
            steps,
            out.as_mut_ptr(),
            out.len(),
            at,
            place,
        )
    }))
}

pub fn take_header(src: &[u8], at: &mut usize) -> Answer<Name> {
    lend(at, |at| {
        answer(|[height, distance, model], place| unsafe {
            baizeridge_take_header(src.as_ptr(), src.len(), at, height, distance, model, place)
        })
    })
}

pub fn take_round([height, distance, model]: Name, src: &[u8], at: &mut usize, defects: &mut [u8]) -> Answer<()> {
    let (to, to_len) = (defects.as_mut_ptr(), defects.len());
    alone(lend(at, |at| {
        answer(|[], place| unsafe {
            baizeridge_take_round(height, distance, model, src.as_ptr(), src.len(), at, to, to_len, place)
        })
    }))
}

pub fn take_result(name: Name, src: &[u8], at: &mut usize, lists: [&mut [u8]; 2]) -> Answer<u32> {
    lend(at, |at| result_by(baizeridge_take_result, name, src, at, lists))
}

/// A reader of a whole stream.
type Scanner = unsafe extern "C" fn(*const u8, usize, *mut u32, *mut u32, *mut u32, *mut usize, *mut usize) -> u8;

/// The shape's name and the count of rounds.
fn scan_by(scan: Scanner, src: &[u8]) -> Answer<(Name, usize)> {
    let mut rounds = PLACE;
    let read = lend(&mut rounds, |rounds| {
        answer(|[height, distance, model], place| unsafe {
            scan(src.as_ptr(), src.len(), height, distance, model, rounds, place)
        })
    });
    assert!(read.is_ok() || rounds == PLACE, "{read:?}: a count was stored");
    read.map(|Done(name, next)| Done((name, rounds), next))
}

pub fn scan_input(src: &[u8]) -> Answer<(Name, usize)> {
    scan_by(baizeridge_scan_input, src)
}

pub fn scan_results(src: &[u8]) -> Answer<(Name, usize)> {
    scan_by(baizeridge_scan_results, src)
}

/// The status, the offset that a refusal carries, and the length of the result stream, which is stored in every case.
pub fn decode(src: &[u8], out: &mut [u8]) -> (u8, Option<usize>, usize) {
    let (mut count, mut place) = (PLACE, PLACE);
    let status = lend(&mut count, |count| {
        lend(&mut place, |place| unsafe {
            baizeridge_decode(src.as_ptr(), src.len(), out.as_mut_ptr(), out.len(), count, place)
        })
    });
    (status, Some(place).filter(|&place| place != PLACE), count)
}
