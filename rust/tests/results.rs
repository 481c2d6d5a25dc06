use baizeridge_tests::cases::{each_case, shapes, Faults, RESULTS, WILD, WILD_MODELS};
use baizeridge_tests::compare::{read_result, write_result};
use baizeridge_tests::streams::{list_bytes, number_bytes, Done, Stop::*};
use baizeridge_tests::tally::{Tally, DONE, END};

// 3 by 4: twelve row edges, six column edges, nine time edges; of model 1 also six NU, six EU and four SEU. Nine detectors.
const SIZES: [[usize; 2]; 2] = [[27, 9], [43, 9]];

#[test]
fn reader_refusals_in_their_order() {
    for faults in Faults::all(&[1, 2, 31, 10, 5, 6, 9, 7, 8]) {
        for (k, wild) in WILD.into_iter().enumerate() {
            let h = if faults.has(1) { wild } else { 3 };
            let d = if faults.has(2) { wild } else { 4 };
            let right = SIZES[k % 2];
            let model = if faults.has(31) { WILD_MODELS[k] } else { k as u32 % 2 };
            // One less, one more, none or one, and the other model's.
            let wrong = [right[0] - 1, right[0] + 1, 0, SIZES[1 - k % 2][0]];
            let edges = if faults.has(5) { wrong[k / 2] } else { right[0] };
            let escapes = if faults.has(6) { [0, 8, 10, 27][k % 4] } else { right[1] };
            // One edge, one escape, the steps; each may be bad, and the first bad one counts.
            let mut src = vec![0, 1, right[0] as u8 - u8::from(!faults.has(9))];
            src.extend(if faults.has(7) { [1, 0x80] } else { [1, 8] });
            if !faults.has(7) {
                src.extend(if faults.has(8) { [0x80, 0x00] } else { [0x80, 0x01] });
            }
            let at = if faults.has(10) { [src.len() + 1, src.len() + 2, usize::MAX][k % 3] } else { 1 };
            let expected = match faults.first() {
                None => Ok(Done(128, 7)),
                Some(9) => Err(RefusedAt(9, 2)),
                Some(7) => Err(RefusedAt(7, 4)),
                Some(8) => Err(RefusedAt(8, 5)),
                Some(refusal) => Err(Refused(refusal)),
            };
            assert_eq!(read_result([h, d, model], &src, at, [edges, escapes]).0, expected);
            // No bytes left: the arguments are tested first.
            let end = faults.first().filter(|refusal| [1, 2, 31, 5, 6].contains(refusal)).map_or(End, Refused);
            if !faults.has(10) {
                assert_eq!(read_result([h, d, model], &src, src.len(), [edges, escapes]).0, Err(end));
            }
        }
    }
}

#[test]
fn writer_refusals_in_their_order() {
    for faults in Faults::all(&[1, 2, 31, 10, 5, 6, 4, 11]) {
        for (k, wild) in WILD.into_iter().enumerate() {
            let h = if faults.has(1) { wild } else { 3 };
            let d = if faults.has(2) { wild } else { 4 };
            let right = SIZES[k % 2];
            let model = if faults.has(31) { WILD_MODELS[k] } else { k as u32 % 2 };
            // One less, one more, none or one, and the other model's.
            let wrong = [right[0] - 1, right[0] + 1, 0, SIZES[1 - k % 2][0]];
            let mut edges = vec![0; if faults.has(5) { wrong[k / 2].max(1) } else { right[0] }];
            let mut escapes = vec![0; if faults.has(6) { [1, 8, 10, 27][k % 4] } else { right[1] }];
            if faults.has(4) {
                [&mut edges, &mut escapes][k % 2][0] = [2, 0xff][k / 2 % 2];
            }
            // Without set entries the record is two counts and the steps.
            let room = 5 + if faults.has(11) { k % 3 } else { 3 };
            let at = if faults.has(10) { [room + 1, room + 2, usize::MAX][k % 3] } else { 5 };
            let expected = faults.first().map_or(Ok(Done((), 8)), |refusal| Err(Refused(refusal)));
            assert_eq!(write_result([h, d, model], [&edges, &escapes], 127, room, at).0, expected);
        }
    }
}

#[test]
fn random_results() {
    let (mut read, mut written) = (Tally::default(), Tally::default());
    let shapes = shapes();
    each_case(0x7265_7375, RESULTS, |case, random| {
        let shape = shapes[case % shapes.len()];
        let name = shape.name();
        let sizes = [shape.edges(), shape.detectors()];
        let lists = sizes.map(|size| random.bits(size));
        let steps = random.number();
        let record = [list_bytes(&lists[0]), list_bytes(&lists[1]), number_bytes(steps)].concat();
        let (before, behind) = (random.below(4), random.below(4));

        let room = before + record.len() + behind;
        let given = [&lists[0][..], &lists[1]];
        let (answer, src) = write_result(name, given, steps, room, before);
        let next = before + record.len();
        assert_eq!((answer, &src[before..next]), (Ok(Done((), next)), &record[..]));
        assert_eq!(write_result(name, given, steps, next, before).0, Ok(Done((), next)));
        for room in [next - 1, before + random.below(record.len())] {
            assert_eq!(write_result(name, given, steps, room, before).0, Err(Refused(11)));
        }

        assert_eq!(read_result(name, &src, before, sizes), (Ok(Done(steps, next)), lists.clone()));
        assert_eq!(read_result(name, &src[..before], before, sizes).0, Err(End));
        for cut in before + 1..next {
            assert!(matches!(read_result(name, &src[..cut], before, sizes).0, Err(RefusedAt(7, _))));
        }
        for at in (0..=src.len() + 2).chain([usize::MAX]) {
            read.note(&read_result(name, &src, at, sizes).0);
        }
        for _ in 0..8 {
            let damaged = random.damaged(&src);
            read.note(&read_result(name, &damaged, before, sizes).0);
        }

        let wild = random.wild(name, [WILD[case % 8], WILD[case % 8], WILD_MODELS[case % 8]]);
        for _ in 0..4 {
            let other = sizes.map(|size| random.pick(&[size, size, size - 1, size + 1]));
            read.note(&read_result(wild, &src, before, other).0);
            let mut lists = lists.clone();
            for (list, size) in lists.iter_mut().zip(other) {
                list.resize(size, random.pick(&[0, 1]));
                if size > 0 && random.one_in(4) {
                    list[random.below(size)] = random.pick(&[2, 3, 0x80, 0xff]);
                }
            }
            let (room, at) = (random.below(room + 3), random.below(5));
            written.note(&write_result(wild, [&lists[0], &lists[1]], steps, room, at).0);
        }
    });
    read.expect(RESULTS, &[DONE, 1, 2, 5, 6, 7, 8, 9, 10, 31, END]);
    written.expect(RESULTS, &[DONE, 1, 2, 4, 5, 6, 10, 11, 31]);
}
