use baizeridge_tests::cases::{each_case, shapes, Faults, HEADERS, WILD, WILD_MODELS};
use baizeridge_tests::compare::{read_header, write_header};
use baizeridge_tests::streams::{header_bytes, Done, Stop::*, DISTANCES, HEADER, HEIGHTS, MODELS};
use baizeridge_tests::tally::{Tally, DONE};

#[test]
fn every_shape_written_and_read_back() {
    for shape in shapes() {
        let name = shape.name();
        for at in [0, 5] {
            let (answer, out) = write_header(name, at + HEADER, at);
            assert_eq!(answer, Ok(Done((), at + HEADER)));
            assert_eq!(read_header(&out, at), Ok(Done(name, at + HEADER)));
            assert_eq!(write_header(name, at + HEADER + 1, at).0, Ok(Done((), at + HEADER)));
            for room in [at + 2, at + 1, at] {
                assert_eq!(write_header(name, room, at).0, Err(Refused(11)));
            }
        }
    }
}

/// With every model of one byte, and none.
#[test]
fn every_pair_of_bytes() {
    for first in 0..=255 {
        for second in 0..=255 {
            assert!(read_header(&[first, second], 0).is_err());
            for third in [0, 1, 2, 127, 128, 255] {
                for at in 0..=4 {
                    let answer = read_header(&[first, second, third], at);
                    let numbers = [first, second, third].map(u32::from);
                    let in_range =
                        [HEIGHTS, DISTANCES, MODELS].iter().zip(&numbers).all(|(range, n)| range.contains(n));
                    assert_eq!(answer.is_ok(), at == 0 && in_range);
                }
            }
        }
    }
}

#[test]
fn every_third_byte() {
    for third in 0..=255 {
        let expected = match third {
            0 | 1 => Ok(Done([3, 4, third.into()], 3)),
            2..=127 => Err(Refused(31)),
            _ => Err(RefusedAt(7, 2)),
        };
        assert_eq!(read_header(&[3, 4, third], 0), expected);
        let expected = match third {
            0 | 1 => Ok(Done([3, 4, third.into()], 3)),
            2..=127 => Err(Refused(31)),
            _ => Err(RefusedAt(8, 2)),
        };
        assert_eq!(read_header(&[3, 4, third, 0], 0), expected);
    }
}

#[test]
fn refusals_in_their_order() {
    for faults in Faults::all(&[1, 2, 31, 10, 11]) {
        for (wild, wild_model) in WILD.into_iter().zip(WILD_MODELS) {
            let h = if faults.has(1) { wild } else { 3 };
            let d = if faults.has(2) { wild } else { 4 };
            let model = if faults.has(31) { wild_model } else { wild % 2 };
            let room = if faults.has(11) { 6 } else { 9 };
            let at = if faults.has(10) { room + 1 } else { 4 };
            let expected = faults.first().map_or(Ok(Done((), 7)), |refusal| Err(Refused(refusal)));
            assert_eq!(write_header([h, d, model], room, at).0, expected);
        }
    }
}

#[test]
fn random_headers() {
    let (mut read, mut written) = (Tally::default(), Tally::default());
    each_case(0x6865_6164, HEADERS, |_, random| {
        let mut pick = || if random.one_in(4) { random.pick(&WILD) } else { random.below(18) as u32 };
        let (h, d) = (pick(), pick());
        let model = if random.one_in(4) { random.pick(&WILD_MODELS) } else { random.below(2) as u32 };
        let before = random.below(4);
        let mut src = random.bytes(before);
        src.extend(header_bytes([h, d, model]));
        src.extend(random.bytes(2));
        for at in (0..=src.len() + 2).chain([usize::MAX]) {
            read.note(&read_header(&src, at));
        }
        for cut in 0..src.len() {
            read.note(&read_header(&src[..cut], before));
        }
        for _ in 0..4 {
            let damaged = random.damaged(&src);
            read.note(&read_header(&damaged, before));
        }
        let (room, at) = (random.below(9), random.below(10));
        written.note(&write_header([h, d, model], room, at).0);
    });
    read.expect(HEADERS, &[DONE, 1, 2, 7, 8, 10, 31]);
    written.expect(HEADERS, &[DONE, 1, 2, 10, 11, 31]);
}
