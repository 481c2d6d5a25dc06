//! Creations, refused ones among them.

use super::Script;
use crate::streams::{Limits, Name, LARGEST_LIMITS};

/// Heights and distances: 0 by 3, 16 by 3, 1 by 1, 1 by 16, both out of range, numbers of 32 bits, the smallest and the
/// largest.
const SHAPES: [[u32; 2]; 11] =
    [[0, 3], [16, 3], [1, 1], [1, 16], [0, 0], [16, 16], [257, 3], [3, 258], [u32::MAX, u32::MAX], [1, 2], [15, 15]];

/// With models that there are not; some are refused 1 or 2.
const OTHER_MODELS: [Name; 9] =
    [[1, 3, 2], [1, 3, 255], [1, 3, 256], [1, 3, 257], [1, 3, u32::MAX], [15, 15, 2], [0, 3, 2], [1, 1, 2], [0, 1, 2]];

/// For a console's limits, and for the smallest that allow the shape; over one limit or both; limits that forbid every
/// shape; above 15, to numbers of 32 bits; and 1, 2 and 31 before them.
const LIMITED: [(Name, Limits); 17] = [
    ([7, 7, 0], [7, 7]),
    ([1, 2, 1], [1, 2]),
    ([8, 7, 1], [7, 7]),
    ([7, 8, 0], [7, 7]),
    ([15, 15, 1], [7, 7]),
    ([1, 2, 0], [0, 15]),
    ([1, 2, 0], [15, 0]),
    ([1, 2, 1], [15, 1]),
    ([3, 3, 0], [16, 15]),
    ([3, 3, 1], [15, 16]),
    ([3, 3, 0], [256 + 7, 7]),
    ([3, 3, 0], [7, u32::MAX]),
    ([16, 3, 2], [16, 0]),
    ([0, 3, 0], [0, 0]),
    ([3, 16, 2], [0, 16]),
    ([8, 7, 2], [7, 7]),
    ([3, 3, 2], [16, 16]),
];

pub fn open_line([height, distance, model]: Name, [largest_height, largest_distance]: Limits) -> String {
    format!("open {height} {distance} {model} {largest_height} {largest_distance}")
}

impl Script {
    /// In model 0 with the largest limits, in model 1 with the smallest that allow the shape.
    pub(super) fn open(&mut self, height: usize, distance: usize) -> String {
        let (height, distance, model) = (height as u32, distance as u32, self.model as u32);
        self.create([height, distance, model], if model == 0 { LARGEST_LIMITS } else { [height, distance] })
    }

    fn create(&mut self, name: Name, limits: Limits) -> String {
        self.add(open_line(name, limits))
    }

    pub(super) fn creations(&mut self) {
        self.add("# fresh windows: 0 by 3, 16 by 3, 1 by 1, 1 by 16, both out of range, numbers of 32 bits, the smallest and the largest");
        for ([height, distance], model) in SHAPES.into_iter().zip([0, 1].into_iter().cycle()) {
            self.create([height, distance, model], LARGEST_LIMITS);
        }
        self.add("# models that there are not: 1 and 2 come first");
        OTHER_MODELS.into_iter().for_each(|name| _ = self.create(name, LARGEST_LIMITS));
        self.add("# limits: 1, 2 and 31 come first");
        LIMITED.into_iter().for_each(|(name, limits)| _ = self.create(name, limits));
        self.add("# what a refused creation gives is no window");
        for (name, limits) in [([0, 3, 1], LARGEST_LIMITS), ([3, 3, 2], LARGEST_LIMITS), ([3, 3, 0], [3, 2])] {
            self.create(name, limits);
            for call in ["round 0 0", "raw 0 0", "grow", "merging 1", "run 1"] {
                self.add(call);
            }
        }
    }
}
