//! S-6: creations for a caller's largest height and distance.

use baizeridge_tests::cases::shapes;
use baizeridge_tests::decoding::number_of;
use baizeridge_tests::proved;
use baizeridge_tests::replay::{self, by_the_program, same_lines, LONGEST};
use baizeridge_tests::script::open_line;
use baizeridge_tests::streams::{Limits, Shape, LARGEST_LIMITS};
use std::collections::{BTreeMap, BTreeSet};

/// Creations of each height and distance among these numbers, of each of these models, for each pair of limits among the
/// numbers, held to the second implementation's answer; how often each answer came, 0 for a shape that is allowed.
fn answered(numbers: &[u32], models: &[u32]) -> BTreeMap<u8, usize> {
    let mut times = BTreeMap::new();
    let pairs: Vec<[u32; 2]> =
        numbers.iter().flat_map(|&first| numbers.iter().map(move |&second| [first, second])).collect();
    for &[height, distance] in &pairs {
        for &model in models {
            for &limits in &pairs {
                let name = [height, distance, model];
                let answer = proved::allowed(name, limits);
                let expected = Shape::allowed(name, limits);
                assert_eq!(answer, expected.map(|_| ()).map_err(number_of), "{name:?} for {limits:?}");
                *times.entry(answer.err().unwrap_or(0)).or_default() += 1;
            }
        }
    }
    times
}

/// Each answer comes as often as the documents' ranges say.
#[test]
fn every_pair_of_limits() {
    let numbers: Vec<u32> = (0..=17).collect();
    // Heights 1 to 15 with limits from them to 15, distances 2 to 15 with theirs.
    let (pairs, allowed) = (18 * 18, (15 * 16 / 2) * (14 * 15 / 2));
    let expected = [
        (0, 2 * allowed),
        (1, 3 * 18 * 3 * pairs),
        (2, 15 * 4 * 3 * pairs),
        (31, 15 * 14 * pairs),
        (32, 2 * (15 * 14 * pairs - allowed)),
    ];
    assert_eq!(answered(&numbers, &[0, 1, 2]), BTreeMap::from(expected));
}

/// Numbers of 32 bits, of which the lowest bits may be a height, a distance or a limit.
#[test]
fn wild_limits() {
    let numbers = [0, 1, 2, 7, 15, 16, 0x100 + 7, 0x1_0000 + 7, 1 << 31, u32::MAX];
    let times = answered(&numbers, &[0, 1, 2, 0x100, 0x1_0000 + 1, u32::MAX]);
    assert!(times.keys().eq(&[0, 1, 2, 31, 32]));
    // Heights 1, 2, 7 and 15 and distances 2, 7 and 15, with the limits among them that are not smaller.
    assert_eq!(times[&0], 2 * (4 + 3 + 2 + 1) * (3 + 2 + 1));
}

/// Four pairs of limits that allow a shape, and four that do not.
fn limits_of(shape: Shape) -> [[Limits; 4]; 2] {
    let [height, distance, _] = shape.name();
    let [most_high, most_wide] = LARGEST_LIMITS;
    [
        [[height, distance], [height, most_wide], [most_high, distance], LARGEST_LIMITS],
        [[height - 1, most_wide], [most_high, distance - 1], [most_high + 1, most_wide], [most_high, most_wide + 1]],
    ]
}

/// On the proved program: limits that allow a shape all create one window, the second decoder's, and the others none.
#[test]
fn the_program_creates_the_same_window() {
    let creations =
        |shape: Shape| limits_of(shape).into_iter().flatten().map(move |limits| open_line(shape.name(), limits));
    let script: String = shapes().into_iter().flat_map(creations).map(|line| line + "\n").collect();
    assert!(script.len() < LONGEST, "{} bytes", script.len());
    let written = by_the_program(&script);
    same_lines(&written, &replay::replay(&script));

    let lines: Vec<&str> = written.lines().collect();
    let mut windows = BTreeSet::new();
    for lines in lines.chunks(8) {
        let (created, refused) = lines.split_at(4);
        assert!(created[0].starts_with("open done ") && created.iter().all(|line| line == &created[0]), "{created:?}");
        assert!(
            refused[0].starts_with("open refused 32 ") && refused.iter().all(|line| line == &refused[0]),
            "{refused:?}"
        );
        windows.insert(created[0]);
    }
    assert_eq!(windows.len(), shapes().len(), "each shape has a window of its own");
}
