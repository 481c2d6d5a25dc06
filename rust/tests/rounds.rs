use baizeridge_tests::cases::{each_case, shapes, Faults, ROUNDS, WILD, WILD_MODELS};
use baizeridge_tests::compare::{read_round, write_round};
use baizeridge_tests::streams::{list_bytes, Done, Stop::*};
use baizeridge_tests::tally::{Tally, DONE, END};

#[test]
fn reader_refusals_in_their_order() {
    for faults in Faults::all(&[1, 2, 31, 10, 3, 8]) {
        for (k, wild) in WILD.into_iter().enumerate() {
            let h = if faults.has(1) { wild } else { 3 };
            let d = if faults.has(2) { wild } else { 4 };
            let model = if faults.has(31) { WILD_MODELS[k] } else { k as u32 % 2 };
            let size = if faults.has(3) { [0, 8, 10, 700][k % 4] } else { 9 };
            let src = if faults.has(8) { [0, 0, 0x80, 0x00] } else { [0, 0, 1, 8] };
            let at = if faults.has(10) { [5, 6, usize::MAX][k % 3] } else { 2 };
            let expected = match faults.first() {
                None => Ok(Done((), 4)),
                Some(8) => Err(RefusedAt(8, 2)),
                Some(refusal) => Err(Refused(refusal)),
            };
            assert_eq!(read_round([h, d, model], &src, at, size).0, expected);
            // No bytes left: the arguments are tested first.
            let end = faults.first().filter(|refusal| [1, 2, 31, 3].contains(refusal)).map_or(End, Refused);
            if !faults.has(10) {
                assert_eq!(read_round([h, d, model], &src, 4, size).0, Err(end));
            }
        }
    }
}

#[test]
fn writer_refusals_in_their_order() {
    for faults in Faults::all(&[1, 2, 31, 10, 3, 4, 11]) {
        for (k, wild) in WILD.into_iter().enumerate() {
            let h = if faults.has(1) { wild } else { 3 };
            let d = if faults.has(2) { wild } else { 4 };
            let model = if faults.has(31) { WILD_MODELS[k] } else { k as u32 % 2 };
            let mut defects = vec![0; if faults.has(3) { [1, 8, 10, 700][k % 4] } else { 9 }];
            defects[0] = if faults.has(4) { [2, 0xff][k % 2] } else { 1 };
            let room = if faults.has(11) { 6 } else { 7 };
            let at = if faults.has(10) { [room + 1, room + 2, usize::MAX][k % 3] } else { 5 };
            let expected = faults.first().map_or(Ok(Done((), 7)), |refusal| Err(Refused(refusal)));
            assert_eq!(write_round([h, d, model], &defects, room, at).0, expected);
        }
    }
}

#[test]
fn random_rounds() {
    let (mut read, mut written) = (Tally::default(), Tally::default());
    let shapes = shapes();
    each_case(0x726f_756e, ROUNDS, |case, random| {
        let shape = shapes[case % shapes.len()];
        let (name, size) = (shape.name(), shape.detectors());
        let mut defects = random.bits(size);
        let record = list_bytes(&defects);
        let (before, behind) = (random.below(4), random.below(4));

        let room = before + record.len() + behind;
        let (answer, src) = write_round(name, &defects, room, before);
        let next = before + record.len();
        assert_eq!((answer, &src[before..next]), (Ok(Done((), next)), &record[..]));
        assert_eq!(write_round(name, &defects, next, before).0, Ok(Done((), next)));
        for room in [next - 1, before + random.below(record.len())] {
            assert_eq!(write_round(name, &defects, room, before).0, Err(Refused(11)));
        }

        assert_eq!(read_round(name, &src, before, size), (Ok(Done((), next)), defects.clone()));
        assert_eq!(read_round(name, &src[..before], before, size).0, Err(End));
        for cut in before + 1..next {
            assert!(matches!(read_round(name, &src[..cut], before, size).0, Err(RefusedAt(7, _))));
        }
        for at in (0..=src.len() + 2).chain([usize::MAX]) {
            read.note(&read_round(name, &src, at, size).0);
        }
        for _ in 0..6 {
            let damaged = random.damaged(&src);
            read.note(&read_round(name, &damaged, before, size).0);
        }

        let wild = random.wild(name, [WILD[case % 8], WILD[case % 8], WILD_MODELS[case % 8]]);
        for other in [size - 1, size, size + 1] {
            read.note(&read_round(wild, &src, before, other).0);
            defects.resize(other, random.pick(&[0, 1, 2]));
            if other > 0 && random.one_in(3) {
                defects[random.below(other)] = random.pick(&[2, 3, 0x80, 0xff]);
            }
            let (room, at) = (random.below(room + 3), random.below(5));
            written.note(&write_round(wild, &defects, room, at).0);
        }
    });
    read.expect(ROUNDS, &[DONE, 1, 2, 3, 7, 8, 9, 10, 31, END]);
    written.expect(ROUNDS, &[DONE, 1, 2, 3, 4, 10, 11, 31]);
}
