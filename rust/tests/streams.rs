//! Whole streams, from the header to the end.

use baizeridge_tests::cases::{each_case, shapes, STREAMS};
use baizeridge_tests::compare::{scan_input, scan_results};
use baizeridge_tests::proved;
use baizeridge_tests::random::Random;
use baizeridge_tests::streams::{header_bytes, Answer, Done, Name, Shape, Stop};

/// A kind of stream: what a record holds, and how the archive reads and writes one.
trait Record: Sized + Clone + PartialEq + std::fmt::Debug {
    fn random(shape: Shape, random: &mut Random) -> Self;
    fn take(name: Name, src: &[u8], at: &mut usize) -> Result<Self, Stop>;
    fn write(&self, name: Name, out: &mut [u8], at: usize) -> Result<Done<()>, Stop>;
    fn scan(src: &[u8]) -> Answer<(Name, usize)>;
}

/// A whole stream's shape and records, or why it is refused.
type Read<R> = Result<(Name, Vec<R>), Stop>;

#[derive(Clone, PartialEq, Debug)]
struct Input {
    defects: Vec<u8>,
}

impl Record for Input {
    fn random(shape: Shape, random: &mut Random) -> Input {
        Input { defects: random.bits(shape.detectors()) }
    }

    fn take(name: Name, src: &[u8], at: &mut usize) -> Result<Input, Stop> {
        let mut defects = vec![9; Shape::new(name)?.detectors()];
        proved::take_round(name, src, at, &mut defects)?;
        Ok(Input { defects })
    }

    fn write(&self, name: Name, out: &mut [u8], at: usize) -> Result<Done<()>, Stop> {
        proved::write_round(name, &self.defects, out, at)
    }

    fn scan(src: &[u8]) -> Answer<(Name, usize)> {
        scan_input(src)
    }
}

#[derive(Clone, PartialEq, Debug)]
struct Output {
    edges: Vec<u8>,
    escapes: Vec<u8>,
    steps: u32,
}

impl Record for Output {
    fn random(shape: Shape, random: &mut Random) -> Output {
        let (edges, escapes) = (random.bits(shape.edges()), random.bits(shape.detectors()));
        Output { edges, escapes, steps: random.number() }
    }

    fn take(name: Name, src: &[u8], at: &mut usize) -> Result<Output, Stop> {
        let shape = Shape::new(name)?;
        let (mut edges, mut escapes) = (vec![9; shape.edges()], vec![9; shape.detectors()]);
        let Done(steps, _) = proved::take_result(name, src, at, [&mut edges, &mut escapes])?;
        Ok(Output { edges, escapes, steps })
    }

    fn write(&self, name: Name, out: &mut [u8], at: usize) -> Result<Done<()>, Stop> {
        proved::write_result(name, [&self.edges, &self.escapes], self.steps, out, at)
    }

    fn scan(src: &[u8]) -> Answer<(Name, usize)> {
        scan_results(src)
    }
}

/// A stream read to its end, or why not; the offset moves from record to record, and stays where reading stops.
fn read_all<R: Record>(src: &[u8]) -> Read<R> {
    let mut at = 0;
    let Done(name, _) = proved::take_header(src, &mut at)?;
    let mut records = vec![];
    loop {
        let from = at;
        match R::take(name, src, &mut at) {
            Ok(record) => {
                assert!(from < at && at <= src.len());
                records.push(record);
            }
            Err(stop) => {
                assert_eq!(at, from);
                assert!((stop == Stop::End) == (at == src.len()));
                return if stop == Stop::End { Ok((name, records)) } else { Err(stop) };
            }
        }
    }
}

/// A stream written into a buffer of `room` bytes.
fn write_all<R: Record>(name: Name, records: &[R], room: usize) -> Result<Vec<u8>, Stop> {
    let mut out = vec![0xee; room];
    let Done((), mut at) = proved::write_header(name, &mut out, 0)?;
    for record in records {
        let Done((), next) = record.write(name, &mut out, at)?;
        at = next;
    }
    assert!(out[at..].iter().all(|&byte| byte == 0xee), "bytes behind the stream were touched");
    out.truncate(at);
    Ok(out)
}

fn a_list_of_rounds_reads_back<R: Record>(seed: u64) {
    let shapes = shapes();
    each_case(seed, STREAMS, |case, random| {
        let shape = shapes[case % shapes.len()];
        let name = shape.name();
        let rounds: Vec<R> = (0..random.below(8)).map(|_| R::random(shape, random)).collect();
        let stream = write_all(name, &rounds, 12_000).expect("the room is enough");
        assert_eq!(read_all(&stream), Ok((name, rounds.clone())));
        assert_eq!(R::scan(&stream), Ok(Done((name, rounds.len()), stream.len())));
        assert_eq!(write_all(name, &rounds, stream.len()).as_ref(), Ok(&stream));
        assert_eq!(write_all(name, &rounds, stream.len() - 1), Err(Stop::Refused(11)));
    });
}

fn an_accepted_stream_is_written_alike<R: Record>(seed: u64) {
    let (mut accepted, mut refused) = (0, 0);
    let shapes = shapes();
    each_case(seed, STREAMS, |case, random| {
        let shape = shapes[case % shapes.len()];
        // Small shapes and few bytes, which are often accepted; else a damaged stream.
        let src = if case % 2 == 0 {
            let name = [1, 2, 0].map(|least| least + random.below(2) as u32);
            let len = random.below(9);
            let small = (0..len).map(|_| random.pick(&[0, 0, 0, 1, 1, 2, 0x80]));
            [header_bytes(name), small.collect()].concat()
        } else {
            let rounds: Vec<R> = (0..random.below(5)).map(|_| R::random(shape, random)).collect();
            random.damaged(&write_all(shape.name(), &rounds, 12_000).expect("the room is enough"))
        };
        let read = read_all::<R>(&src);
        let counted = read.as_ref().map(|(name, rounds)| Done((*name, rounds.len()), src.len()));
        assert_eq!(R::scan(&src), counted.map_err(|&stop| stop));
        let Ok((name, records)) = read else {
            refused += 1;
            return;
        };
        accepted += 1;
        assert_eq!(write_all(name, &records, src.len()), Ok(src));
    });
    assert!(accepted >= 1_000 && refused >= 1_000, "{accepted} accepted, {refused} refused");
}

#[test]
fn input_rounds_read_back() {
    a_list_of_rounds_reads_back::<Input>(0x696e_7075);
}

#[test]
fn result_rounds_read_back() {
    a_list_of_rounds_reads_back::<Output>(0x6f75_7470);
}

#[test]
fn accepted_input_is_written_alike() {
    an_accepted_stream_is_written_alike::<Input>(0x6163_6365);
}

#[test]
fn accepted_results_are_written_alike() {
    an_accepted_stream_is_written_alike::<Output>(0x7074_6564);
}

#[test]
fn whole_inputs_are_counted() {
    let session = [1, 3, 0, 1, 0, 0, 0, 0];
    assert_eq!(scan_input(&session), Ok(Done(([1, 3, 0], 4), 8)));
    assert_eq!(scan_input(&session[..3]), Ok(Done(([1, 3, 0], 0), 3)));
    assert_eq!(scan_input(&session[..4]), Err(Stop::RefusedAt(7, 4)));
    assert_eq!(scan_input(&session[..2]), Err(Stop::RefusedAt(7, 2)));
    assert_eq!(scan_input(&session[..1]), Err(Stop::RefusedAt(7, 1)));
    assert_eq!(scan_input(&[]), Err(Stop::RefusedAt(7, 0)));
    assert_eq!(scan_input(&[16, 3]), Err(Stop::Refused(1)));
    assert_eq!(scan_input(&[1, 3, 2]), Err(Stop::Refused(31)));
    assert_eq!(scan_input(&[1, 3, 1, 0, 0]), Ok(Done(([1, 3, 1], 2), 5)));
    assert_eq!(scan_input(&[1, 3, 0, 0, 3]), Err(Stop::RefusedAt(9, 4)));
}

#[test]
fn whole_results_are_counted() {
    let session = [1, 3, 0, 0, 0, 2, 0, 0, 1, 0, 0, 4, 1, 0, 0, 2];
    assert_eq!(scan_results(&session), Ok(Done(([1, 3, 0], 4), 16)));
    assert_eq!(scan_results(&session[..3]), Ok(Done(([1, 3, 0], 0), 3)));
    assert_eq!(scan_results(&session[..5]), Err(Stop::RefusedAt(7, 5)));
    assert_eq!(scan_results(&[]), Err(Stop::RefusedAt(7, 0)));
    assert_eq!(scan_results(&[1, 16]), Err(Stop::Refused(2)));
    assert_eq!(scan_results(&[1, 3, 0x80, 1]), Err(Stop::Refused(31)));
    // 1 by 3 has five edges a layer, six with diagonals, and two detectors a sheet.
    assert_eq!(scan_results(&[1, 3, 0, 1, 5]), Err(Stop::RefusedAt(9, 4)));
    assert_eq!(scan_results(&[1, 3, 1, 1, 5, 0, 0]), Ok(Done(([1, 3, 1], 1), 7)));
    assert_eq!(scan_results(&[1, 3, 1, 1, 6]), Err(Stop::RefusedAt(9, 4)));
    assert_eq!(scan_results(&[1, 3, 0, 0, 3]), Err(Stop::RefusedAt(9, 4)));
}
