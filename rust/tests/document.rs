//! The bytes that document 01 prints, with S-4's model behind the distance, and the answers that it prints; and headers
//! and a session of S-4.

use baizeridge_tests::compare::*;
use baizeridge_tests::streams::{Done, Shape, Stop::*};

#[test]
fn numbers() {
    assert_eq!(write_number(127, 1, 0).1, [0x7f]);
    assert_eq!(write_number(128, 2, 0).1, [0x80, 0x01]);
    assert_eq!(read_number(&[0x7f], 0), Ok(Done(127, 1)));
    assert_eq!(read_number(&[0x80, 0x01], 0), Ok(Done(128, 2)));
    assert_eq!(read_number(&[0x80, 0x00], 0), Err(RefusedAt(8, 0)));
    assert_eq!(read_number(&[0xff, 0xff, 0xff, 0xff, 0x0f], 0), Ok(Done(4_294_967_295, 5)));
    assert_eq!(read_number(&[0x80, 0x80, 0x80, 0x80, 0x80], 0), Err(RefusedAt(8, 0)));
    assert_eq!(read_number(&[0x80, 0x80, 0x80, 0x80], 0), Err(RefusedAt(7, 0)));
    assert_eq!(read_number(&[0x05], 1), Err(RefusedAt(7, 1)));
    assert_eq!(read_number(&[0x05], 2), Err(Refused(10)));
}

#[test]
fn headers() {
    assert_eq!(read_header(&[0x00], 0), Err(Refused(1)));
    assert_eq!(read_header(&[0x01], 0), Err(RefusedAt(7, 1)));
    assert_eq!(read_header(&[], 0), Err(RefusedAt(7, 0)));
    for (height, distance, refusal) in [(0, 3, 1), (16, 3, 1), (1, 1, 2), (1, 16, 2)] {
        for model in [0, 1, 2] {
            assert_eq!(read_header(&[height, distance, model], 0), Err(Refused(refusal)));
            assert_eq!(write_header([height, distance, model].map(u32::from), 9, 0).0, Err(Refused(refusal)));
        }
    }
}

/// A third number, and none but 0 and 1.
#[test]
fn models() {
    assert_eq!(read_header(&[1, 3], 0), Err(RefusedAt(7, 2)));
    assert_eq!(read_header(&[1, 3, 0], 0), Ok(Done([1, 3, 0], 3)));
    assert_eq!(read_header(&[1, 3, 1], 0), Ok(Done([1, 3, 1], 3)));
    assert_eq!(read_header(&[1, 3, 2], 0), Err(Refused(31)));
    assert_eq!(read_header(&[1, 3, 0x80, 0x01], 0), Err(Refused(31)));
    assert_eq!(read_header(&[1, 3, 0xff, 0xff, 0xff, 0xff, 0x0f], 0), Err(Refused(31)));
    assert_eq!(read_header(&[1, 3, 0x80], 0), Err(RefusedAt(7, 2)));
    assert_eq!(read_header(&[1, 3, 0x80, 0x00], 0), Err(RefusedAt(8, 2)));
    assert_eq!(read_header(&[1, 3, 0xff, 0xff, 0xff, 0xff, 0x10], 0), Err(RefusedAt(8, 2)));
    assert_eq!(read_header(&[1, 3, 0x80, 0x80, 0x80, 0x80, 0x80], 0), Err(RefusedAt(8, 2)));
    for model in [2, 128, 256, 257, u32::MAX] {
        assert_eq!(write_header([1, 3, model], 9, 0).0, Err(Refused(31)));
    }
}

#[test]
fn round_lengths() {
    for model in [0, 1] {
        assert_eq!(write_round([1, 3, model], &[0, 1], 9, 0).0, Ok(Done((), 2)));
        assert_eq!(write_round([1, 3, model], &[0], 9, 0).0, Err(Refused(3)));
        assert_eq!(write_round([1, 3, model], &[0, 1, 0], 9, 0).0, Err(Refused(3)));
    }
}

#[test]
fn a_layer_of_three_by_three_has_19_edges_and_28_with_diagonals() {
    for (model, right) in [(0, 19), (1, 28)] {
        for edges in 0..40 {
            let answer = read_result([3, 3, model], &[0, 0, 0], 0, [edges, 6]).0;
            assert_eq!(answer, if edges == right { Ok(Done(0, 3)) } else { Err(Refused(5)) });
        }
    }
}

/// The rounds of an input stream.
fn input(src: &[u8]) -> Vec<Vec<u8>> {
    let Ok(Done(name, mut at)) = read_header(src, 0) else { panic!("a header") };
    let shape = Shape::new(name).expect("a shape in range");
    let mut rounds = vec![];
    loop {
        match read_round(name, src, at, shape.detectors()) {
            (Ok(Done((), next)), defects) => {
                rounds.push(defects);
                at = next;
            }
            (stop, _) => {
                assert_eq!((stop, at), (Err(End), src.len()));
                return rounds;
            }
        }
    }
}

/// The set edges, the set escapes and the steps of each round of a result stream.
fn result(src: &[u8]) -> Vec<(Vec<usize>, Vec<usize>, u32)> {
    let set = |list: &[u8]| list.iter().enumerate().filter(|(_, &bit)| bit == 1).map(|(place, _)| place).collect();
    let Ok(Done(name, mut at)) = read_header(src, 0) else { panic!("a header") };
    let shape = Shape::new(name).expect("a shape in range");
    let mut rounds = vec![];
    loop {
        match read_result(name, src, at, [shape.edges(), shape.detectors()]) {
            (Ok(Done(steps, next)), [edges, escapes]) => {
                rounds.push((set(&edges), set(&escapes), steps));
                at = next;
            }
            (stop, _) => {
                assert_eq!((stop, at), (Err(End), src.len()));
                return rounds;
            }
        }
    }
}

#[test]
fn first_session() {
    assert_eq!(input(&[1, 3, 0, 1, 0, 0, 0, 0]), [[1, 0], [0, 0], [0, 0], [0, 0]]);
    assert_eq!(
        result(&[1, 3, 0, 0, 0, 2, 0, 0, 1, 0, 0, 4, 1, 0, 0, 2]),
        [(vec![], vec![], 2), (vec![], vec![], 1), (vec![], vec![], 4), (vec![0], vec![], 2)]
    );
}

#[test]
fn second_session() {
    assert_eq!(input(&[1, 3, 0, 2, 0, 0, 0, 0, 0]), [[1, 1], [0, 0], [0, 0], [0, 0]]);
    assert_eq!(
        result(&[1, 3, 0, 0, 0, 2, 0, 0, 5, 0, 0, 1, 1, 1, 0, 1]),
        [(vec![], vec![], 2), (vec![], vec![], 5), (vec![], vec![], 1), (vec![1], vec![], 1)]
    );
}

/// Edge 16 joins row 0, column 1 of the first round and row 1, column 2 of the second: SEU. Model 0 has no such number.
#[test]
fn a_session_with_diagonals() {
    assert_eq!(input(&[2, 3, 1, 1, 0, 1, 3, 0, 0]), [[1, 0, 0, 0], [0, 0, 0, 1], [0; 4], [0; 4]]);
    let src = [2, 3, 1, 0, 0, 2, 0, 0, 2, 0, 0, 5, 1, 16, 0, 2];
    let records = [(vec![], vec![], 2), (vec![], vec![], 2), (vec![], vec![], 5), (vec![16], vec![], 2)];
    assert_eq!(result(&src), records);
    // Of model 0 a layer has 12 edges.
    assert_eq!(scan_results(&[&[2, 3, 0], &src[3..]].concat()), Err(RefusedAt(9, 13)));
}
