use baizeridge_tests::cases::{shapes, WILD, WILD_MODELS};
use baizeridge_tests::decoder::Sheet;
use baizeridge_tests::proved::{sizes, step_bound};
use baizeridge_tests::streams::{Name, Shape, MODELS};

/// By the sheet that the second decoder builds; none where the shape is refused.
fn counted(name: Name) -> [usize; 3] {
    let Ok(shape) = Shape::new(name) else { return [0; 3] };
    let sheet = Sheet::new(shape);
    let detectors = (0..sheet.nodes()).filter(|&node| sheet.detector(node)).count();
    [sheet.nodes() * sheet.sheets(), detectors, sheet.spans.len()]
}

/// Every number below 1,024, so all that a byte holds and some that a byte wraps to each of them, and larger ones.
fn numbers() -> impl Iterator<Item = u32> {
    (0..1_024).chain(WILD.into_iter().filter(|&wild| wild >= 1_024))
}

#[test]
fn sizes_of_every_shape() {
    for height in numbers() {
        for distance in numbers() {
            for model in MODELS.chain([WILD_MODELS[distance as usize % 8]]) {
                let name = [height, distance, model];
                assert_eq!(sizes(name), counted(name), "{name:?}");
            }
        }
    }
}

#[test]
fn sizes_of_every_model() {
    for (height, distance) in [(1, 2), (3, 3), (15, 15), (0, 3), (1, 1)] {
        for model in numbers().chain(WILD_MODELS) {
            let name = [height, distance, model];
            assert_eq!(sizes(name), counted(name), "{name:?}");
        }
    }
}

/// The nodes of the 210 shapes: a line for each height from 1, distances 2 to 15.
#[rustfmt::skip]
const NODES: [[usize; 14]; 15] = [
    [9, 12, 25, 30, 49, 56, 81, 90, 121, 132, 169, 182, 225, 240],
    [18, 24, 50, 60, 98, 112, 162, 180, 242, 264, 338, 364, 450, 480],
    [27, 36, 75, 90, 147, 168, 243, 270, 363, 396, 507, 546, 675, 720],
    [36, 48, 100, 120, 196, 224, 324, 360, 484, 528, 676, 728, 900, 960],
    [45, 60, 125, 150, 245, 280, 405, 450, 605, 660, 845, 910, 1125, 1200],
    [54, 72, 150, 180, 294, 336, 486, 540, 726, 792, 1014, 1092, 1350, 1440],
    [63, 84, 175, 210, 343, 392, 567, 630, 847, 924, 1183, 1274, 1575, 1680],
    [72, 96, 200, 240, 392, 448, 648, 720, 968, 1056, 1352, 1456, 1800, 1920],
    [81, 108, 225, 270, 441, 504, 729, 810, 1089, 1188, 1521, 1638, 2025, 2160],
    [90, 120, 250, 300, 490, 560, 810, 900, 1210, 1320, 1690, 1820, 2250, 2400],
    [99, 132, 275, 330, 539, 616, 891, 990, 1331, 1452, 1859, 2002, 2475, 2640],
    [108, 144, 300, 360, 588, 672, 972, 1080, 1452, 1584, 2028, 2184, 2700, 2880],
    [117, 156, 325, 390, 637, 728, 1053, 1170, 1573, 1716, 2197, 2366, 2925, 3120],
    [126, 168, 350, 420, 686, 784, 1134, 1260, 1694, 1848, 2366, 2548, 3150, 3360],
    [135, 180, 375, 450, 735, 840, 1215, 1350, 1815, 1980, 2535, 2730, 3375, 3600],
];

fn listed(height: u32, distance: u32) -> Option<usize> {
    let line = NODES.get((height as usize).checked_sub(1)?)?;
    line.get((distance as usize).checked_sub(2)?).copied()
}

/// What a caller sees is the number in the table, and 0 for a refused shape.
#[test]
fn nodes_by_the_table() {
    let mut accepted = 0;
    for height in numbers() {
        for distance in numbers() {
            let nodes = listed(height, distance);
            for model in MODELS {
                assert_eq!(sizes([height, distance, model])[0], nodes.unwrap_or(0), "{height} by {distance}");
            }
            accepted += usize::from(nodes.is_some());
        }
    }
    assert_eq!([2 * accepted, shapes().len()], [420; 2]);
}

/// 4 N + 4 by the table, and 0 for a refused shape.
#[test]
fn step_bounds() {
    let numbers = || (0..=17).chain([256, 256 + 3, 65_536, 65_536 + 3, 1 << 31, u32::MAX]);
    for height in numbers() {
        for distance in numbers() {
            for model in (0..=2).chain([256, 65_536, u32::MAX]) {
                let nodes = listed(height, distance).filter(|_| MODELS.contains(&model));
                let bound = nodes.map_or(0, |nodes| 4 * nodes + 4);
                assert_eq!(step_bound([height, distance, model]), bound, "{height} by {distance}, model {model}");
            }
        }
    }
    assert_eq!([(1, 2), (3, 3), (15, 15)].map(|(h, d)| step_bound([h, d, 1])), [40, 148, 14_404]);
}

#[test]
fn printed_sizes() {
    for model in MODELS {
        assert_eq!([(1, 2), (3, 3), (15, 15)].map(|(h, d)| sizes([h, d, model])[0]), [9, 36, 3600]);
    }
    assert_eq!([0, 1, 2].map(|model| sizes([3, 3, model])[2]), [19, 28, 0]);
    assert_eq!([0, 1, 2].map(|model| sizes([15, 15, model])[2]), [631, 1_204, 0]);
}
