use baizeridge_tests::cases::{each_case, LISTS};
use baizeridge_tests::compare::{read_list, write_list};
use baizeridge_tests::streams::{list_bytes, Done, Stop::*};
use baizeridge_tests::tally::{Tally, DONE};

#[test]
fn short_lists_of_every_kind() {
    const BYTES: [u8; 8] = [0x00, 0x01, 0x02, 0x03, 0x7f, 0x80, 0x81, 0xff];
    let mut tally = Tally::default();
    for len in 0..=4 {
        for code in 0..BYTES.len().pow(len) {
            let src: Vec<u8> = (0..len).map(|k| BYTES[code >> (3 * k) & 7]).collect();
            for size in 0..=4 {
                tally.note(&read_list(&src, 0, size).0);
            }
        }
    }
    // 4,681 strings of bytes, five sizes.
    tally.expect(4_681 * 5, &[DONE, 7, 8, 9]);
}

#[test]
fn every_list_of_eight_entries() {
    for set in 0..256 {
        let bits: Vec<u8> = (0..8).map(|place| (set >> place & 1) as u8).collect();
        let len = 1 + bits.iter().filter(|&&bit| bit == 1).count();
        let (answer, out) = write_list(&bits, len, 0);
        assert_eq!(answer, Ok(Done((), len)));
        assert_eq!(read_list(&out, 0, 8), (Ok(Done((), len)), bits));
    }
}

#[test]
fn random_lists_read() {
    let mut tally = Tally::default();
    each_case(0x6c69_7374, LISTS, |_, random| {
        let bits = random.list();
        let (size, before) = (bits.len(), random.below(4));
        let mut src = random.bytes(before);
        src.extend(list_bytes(&bits));
        let behind = src.len();
        src.extend(random.bytes(3));
        assert_eq!(read_list(&src, before, size), (Ok(Done((), behind)), bits));
        for cut in before..behind {
            assert!(matches!(read_list(&src[..cut], before, size).0, Err(RefusedAt(7, _))));
        }
        if size < 100 {
            for at in (0..=src.len() + 2).chain([usize::MAX]) {
                tally.note(&read_list(&src, at, size).0);
            }
        }
        for other in [0, size / 2, size.saturating_sub(1), size + 1] {
            tally.note(&read_list(&src, before, other).0);
        }
        for _ in 0..6 {
            let damaged = random.damaged(&src);
            tally.note(&read_list(&damaged, before, size).0);
        }
    });
    tally.expect(LISTS, &[DONE, 7, 8, 9, 10]);
}

#[test]
fn random_lists_written() {
    let mut tally = Tally::default();
    each_case(0x7772_6974, LISTS, |_, random| {
        let mut bits = random.list();
        let (size, len, at) = (bits.len(), list_bytes(&bits).len(), random.below(4));
        assert_eq!(write_list(&bits, at + len, at).0, Ok(Done((), at + len)));
        let more = random.below(9);
        assert_eq!(write_list(&bits, at + len + more, at).0, Ok(Done((), at + len)));
        for room in [at + len - 1, at + random.below(len), at] {
            assert_eq!(write_list(&bits, room, at).0, Err(Refused(11)));
        }
        if size > 0 {
            bits[random.below(size)] = random.pick(&[2, 3, 0x80, 0x81, 0xff]);
        }
        for room in [at + len + more, at, at.saturating_sub(1)] {
            tally.note(&write_list(&bits, room, at).0);
            tally.note(&write_list(&bits, room, usize::MAX).0);
        }
    });
    tally.expect(LISTS, &[DONE, 4, 10, 11]);
}
