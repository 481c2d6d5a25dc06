use baizeridge_tests::cases::{each_case, NUMBERS};
use baizeridge_tests::compare::{read_number, write_number};
use baizeridge_tests::streams::{Done, Stop::*};
use baizeridge_tests::tally::{Tally, DONE};

/// All small ones, and those around each change of length.
fn numbers() -> impl Iterator<Item = u32> {
    let changes = [1u32 << 14, 1 << 16, 1 << 21, 1 << 28, 1 << 31];
    (0..=70_000).chain(changes.into_iter().flat_map(|n| n - 1..=n + 1)).chain(u32::MAX - 2..=u32::MAX)
}

/// A number in as many groups as asked for.
fn in_groups(n: u32, groups: u32) -> Vec<u8> {
    let group = |k| u64::from(n).checked_shr(7 * k).unwrap_or(0) as u8 & 0x7f;
    (0..groups).map(|k| if k + 1 < groups { group(k) | 0x80 } else { group(k) }).collect()
}

#[test]
fn written_and_read_back() {
    for n in numbers() {
        let groups = (1..=5).find(|&k| u64::from(n) >> (7 * k) == 0).expect("32 bits are five groups");
        let bytes = in_groups(n, groups);
        let len = bytes.len();
        for at in [0, 3] {
            let (answer, out) = write_number(n, at + len, at);
            assert_eq!((answer, &out[at..]), (Ok(Done((), at + len)), &bytes[..]));
            assert_eq!(read_number(&out, at), Ok(Done(n, at + len)));
            assert_eq!(write_number(n, at + len + 2, at).0, Ok(Done((), at + len)));
            assert_eq!(write_number(n, at + len - 1, at).0, Err(Refused(11)));
            assert_eq!(write_number(n, at, at).0, Err(Refused(11)));
            assert_eq!(write_number(n, at, at + 1).0, Err(Refused(10)));
        }
    }
}

#[test]
fn cut_short_and_overlong() {
    for n in numbers() {
        for groups in 1..=7 {
            let bytes = in_groups(n, groups);
            let shortest = groups == 1 || bytes.last() != Some(&0);
            let whole = groups >= 5 || u64::from(n) >> (7 * groups) == 0;
            if whole {
                let expected = if shortest && groups <= 5 { Ok(Done(n, bytes.len())) } else { Err(RefusedAt(8, 0)) };
                assert_eq!(read_number(&bytes, 0), expected);
            }
            for cut in 0..bytes.len() {
                let expected = if cut < 5 { 7 } else { 8 };
                assert_eq!(read_number(&bytes[..cut], 0), Err(RefusedAt(expected, 0)));
            }
        }
    }
}

#[test]
fn fifth_groups() {
    for fifth in 0..=255 {
        for low in [0x80, 0x81, 0xff] {
            let answer = read_number(&[low, low, low, low, fifth, 0], 0);
            match fifth {
                1..=15 => assert!(matches!(answer, Ok(Done(_, 5)))),
                _ => assert_eq!(answer, Err(RefusedAt(8, 0))),
            }
        }
    }
}

#[test]
fn random_bytes_at_every_offset() {
    let mut tally = Tally::default();
    each_case(0x6e75_6d62, NUMBERS, |_, random| {
        let len = random.below(14);
        let bytes = random.bytes(len);
        for at in (0..=len + 2).chain([usize::MAX]) {
            tally.note(&read_number(&bytes, at));
        }
    });
    tally.expect(NUMBERS, &[DONE, 7, 8, 10]);
}

#[test]
fn random_rooms() {
    let mut tally = Tally::default();
    each_case(0x726f_6f6d, NUMBERS, |_, random| {
        let (n, room, at) = (random.number(), random.below(12), random.below(14));
        tally.note(&write_number(n, room, at).0);
        tally.note(&write_number(n, room, usize::MAX - at).0);
    });
    tally.expect(NUMBERS, &[DONE, 10, 11]);
}
