//! The diagonals of model 1: where they are left out, where they lead to an absent round, and from the bottom down.

use super::{entry_line, Script};
use crate::decoder::Stage;
use crate::image::Entry;
use crate::steps::{Way, WAYS};

// 2 by 3: a sheet has 8 nodes, columns 1 and 2 are detectors; 3 sheets, so that each kind of edge has 24 slots.
const SHEET: usize = 8;
const SLOTS: usize = 24;
/// Places of a sheet with all their pointers down: D, SD; D, WD, SD; D; D, WD, NWD.
const DOWN: [(usize, &[u8]); 4] = [(1, &[5, 10]), (2, &[5, 8, 10]), (5, &[5]), (6, &[5, 8, 11])];
/// An edge of each diagonal kind, by its slot from that of the sheet's first node: NU, EU, SEU.
const DIAGONALS: [usize; 3] = [3 * SLOTS + 5, 4 * SLOTS + 1, 5 * SLOTS + 1];

impl Script {
    pub(super) fn diagonals(&mut self) {
        if self.model == 0 {
            return self.no_diagonals();
        }
        self.add("# 2 by 3 of model 1: the fourth round commits edge 16");
        self.session(2, 3, &["1000", "0001", "0000", "0000", "0000"]);
        self.left_out();
        self.down_to_absent();
        self.narrow();
    }

    /// Pointers that only model 1 has.
    fn no_diagonals(&mut self) {
        self.add("# 3 by 3 of model 0: no pointer is a diagonal");
        self.open(3, 3);
        self.add("next 7");
        for stage in [Stage::Rest, Stage::ToGrow, Stage::Merging] {
            self.add(super::stage_line(stage));
            for (pointer, i) in self.share((7..=12).zip([17, 18, 17, 30, 30, 17])) {
                self.try_pointer(i, pointer);
            }
        }
    }

    /// 3 by 3: a sheet has 12 nodes, and each kind of edge 36 slots.
    fn left_out(&mut self) {
        self.open(3, 3);
        self.add("next 7");
        for stage in [Stage::Rest, Stage::ToGrow, Stage::Merging] {
            self.add("# diagonals that are left out: from a boundary, into one, out of the sheet, above the top, below the bottom");
            self.add(super::stage_line(stage));
            let nodes: [&[usize]; 6] =
                [&[16, 13, 5], &[7, 5, 29], &[16, 18, 5], &[4, 9, 33], &[7, 5, 2, 29, 26], &[16, 18, 21, 5]];
            let along = (7..).zip(nodes).flat_map(|(pointer, nodes)| nodes.iter().map(move |&i| (i, pointer)));
            self.share(along).into_iter().for_each(|(i, pointer)| self.try_pointer(i, pointer));
            if stage != Stage::ToGrow {
                let down = self.share([(30, 8), (29, 10), (30, 11)]);
                down.into_iter().for_each(|(i, pointer)| self.try_pointer(i, pointer));
            }
            self.add("# their slots: above the top, of a boundary, at the rim, and into a boundary");
            let slots = [[5, 16, 13].map(|i| 108 + i), [5, 16, 18].map(|i| 144 + i), [5, 16, 21].map(|i| 180 + i)];
            let slots = slots.into_iter().flatten().chain([180 + 18]);
            self.share(slots).into_iter().for_each(|slot| self.try_slot(slot));
        }
    }

    fn down_to_absent(&mut self) {
        self.add("# 2 by 3, one sheet is there, to grow: diagonals down to an absent sheet");
        self.open(2, 3);
        self.round("1111");
        self.each_way_down(0);
        self.add("# and merging");
        self.add("grow");
        self.add("merging 1");
        assert!(self.image().stage == Stage::Merging);
        self.each_way_down(0);
        self.settle();
        self.add("# two sheets are there, at rest");
        self.round("0100");
        self.settle();
        self.each_way_down(1);
        self.add("# to grow, the first round at the bottom");
        self.round("0010");
        self.pointers_down(2);
        self.settle();
        self.add("# the second round at the bottom: every pointer down is cut");
        for turn in 0..3 {
            self.round(["0000", "1000", "0001"][turn]);
            let bottom = DOWN.map(|(place, pointers)| (2 * SHEET + place, pointers[turn % pointers.len()]));
            for (i, pointer) in bottom {
                let old = self.image().nodes[i];
                self.add(entry_line(i, Entry { pointer, ..old }));
            }
            self.add("grow");
            for (i, _) in bottom {
                let Entry { pointer, mark, .. } = self.image().nodes[i];
                assert_eq!((pointer, mark), (0, None));
            }
            self.settle();
        }
    }

    /// Pointers down from a sheet, and the slots of the absent one's diagonals.
    fn each_way_down(&mut self, depth: usize) {
        self.pointers_down(depth);
        for slot in self.share(DIAGONALS.map(|slot| slot + (depth + 1) * SHEET)) {
            self.try_slot(slot);
        }
    }

    fn pointers_down(&mut self, depth: usize) {
        let down = DOWN.into_iter().flat_map(|(place, pointers)| pointers.iter().map(move |&pointer| (place, pointer)));
        for (place, pointer) in self.share(down) {
            self.try_pointer(depth * SHEET + place, pointer);
        }
    }

    /// The bottom detectors of shapes that lack some diagonals or all.
    fn narrow(&mut self) {
        for (height, distance) in [(1, 2), (1, 3), (2, 2)] {
            self.add(format!(
                "# {height} by {distance}, to grow: diagonals of the bottom that are left out, and those that are there"
            ));
            self.open(height, distance);
            let sheets = self.shape().sheets();
            self.add(format!("next {}", 2 * sheets + 1));
            self.add("stage 1");
            let window = self.outline();
            let bottom = (sheets - 1) * window.sheet.nodes();
            let all = window.sheet.detectors().flat_map(|place| (6..WAYS as Way).map(move |way| (place, way)));
            let (there, left_out): (Vec<_>, Vec<_>) =
                all.partition(|&(place, way)| window.allows(sheets - 1, place, way));
            for (place, way) in self.share(left_out) {
                self.try_pointer(bottom + place, way + 1);
            }
            for (place, way) in there {
                let old = self.image().nodes[bottom + place];
                self.add(entry_line(bottom + place, Entry { pointer: way + 1, ..old }));
            }
            self.add("grow");
            self.settle();
        }
    }
}
