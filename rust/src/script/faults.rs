//! Windows that are not well-formed.

use super::{entry_line, Extent, Script, ROUNDS};
use crate::decoder::Stage;
use crate::image::{Entry, Image, SLOTS};
use crate::random::Random;
use crate::streams::Shape;

/// What an edit makes of a node.
pub(super) type Change = fn(&mut Entry);

impl Script {
    /// Tries an edit with one of the round calls, which take turns.
    pub(super) fn try_edit(&mut self, edit: &str, back: &str) {
        self.tried_raw = !self.tried_raw;
        self.try_rounds(edit, back, &[ROUNDS[usize::from(self.tried_raw)]]);
    }

    /// Makes an edit, tries these round calls and every other call, and takes the edit back. Each call is refused 21, also
    /// where the stage is wrong.
    fn try_rounds(&mut self, edit: &str, back: &str, rounds: &[&str]) {
        let before = self.image().clone();
        self.add(edit);
        let edited = self.image().clone();
        let shape = Shape::new(edited.name()).or_else(|_| Shape::new([1, 2, 0])).expect("a shape");
        let zeros = "0".repeat(shape.detectors());
        let rounds = rounds.iter().map(|round| format!("{round} {} {} {zeros}", shape.edges(), shape.detectors()));
        for call in rounds.chain(["grow", "merging 1", "run 1"].map(String::from)) {
            assert!(self.add(&call).contains(" refused 21"), "{edit}, {call}");
            assert!(*self.image() == edited);
        }
        self.add(back);
        assert!(*self.image() == before, "{back} takes {edit} back");
    }

    pub(super) fn try_node(&mut self, i: usize, change: impl FnOnce(&mut Entry)) {
        let old = self.image().nodes[i];
        let mut new = old;
        change(&mut new);
        self.try_edit(&entry_line(i, new), &entry_line(i, old));
    }

    pub(super) fn try_pointer(&mut self, i: usize, pointer: u8) {
        self.try_node(i, |node| node.pointer = pointer);
    }

    pub(super) fn try_halves(&mut self, i: usize, halves: u8) {
        let old = self.image().growth[i];
        self.try_edit(&format!("halves {i} {halves}"), &format!("halves {i} {old}"));
    }

    pub(super) fn try_flip(&mut self, i: usize) {
        self.try_edit(&format!("flip {i} 1"), &format!("flip {i} 0"));
    }

    /// Growth, and a correction bit.
    pub(super) fn try_slot(&mut self, i: usize) {
        self.try_halves(i, 1);
        self.try_flip(i);
    }

    fn try_last(&mut self, i: usize) {
        self.try_rounds(&format!("last {i} 1"), &format!("last {i} 0"), &ROUNDS);
    }

    /// The faults of a list to try in this stage: all, or a third, so that each is tried in one of the stages.
    pub(super) fn share<T>(&self, list: impl IntoIterator<Item = T>) -> Vec<T> {
        let turn = self.image().stage as usize + self.model;
        let all = list.into_iter().enumerate();
        let shared = all.filter(|(place, _)| self.extent == Extent::All || (place + turn).is_multiple_of(3));
        shared.map(|(_, fault)| fault).collect()
    }

    pub(super) fn ill_formed(&mut self) {
        let mut random = self.random(0x21, 0);
        self.add(format!(
            "# windows that are not well-formed, 3 by 3 of model {} in each stage: every call is refused 21 and leaves the window as it is",
            self.model
        ));
        self.open(3, 3);
        for call in ["round", "raw", "round", "raw"] {
            self.noise(call, &mut random, 30);
            self.settle();
        }
        assert!(self.image().measured.contains(&true));
        self.add("# at rest; the highest mark is fine");
        self.each_fault();
        let old = self.image().nodes[13];
        self.add(entry_line(13, Entry { mark: Some(47), ..old }));
        self.noise("round", &mut random, 30);
        self.add("# to grow: a bottom detector's pointer may lead down");
        self.each_fault();
        // D, and of model 1 WD, SD and NWD.
        let down = [(25, 5), (26, 8), (29, 10), (30, 11)];
        for &(i, pointer) in &down[..[1, 4][self.model]] {
            let old = self.image().nodes[i];
            self.add(entry_line(i, Entry { pointer, ..old }));
        }
        self.add("grow");
        for &(i, _) in &down[..[1, 4][self.model]] {
            let Entry { pointer, mark, .. } = self.image().nodes[i];
            assert_eq!((pointer, mark), (0, None));
        }
        self.add("# merging: marks may be reset");
        self.add("merging 1");
        assert!(self.image().stage == Stage::Merging);
        self.each_fault();
        let old = self.image().nodes[5];
        self.add(entry_line(5, Entry { mark: None, ..old }));
        self.settle();
        if self.extent == Extent::All || self.model == 1 {
            self.largest();
        }
        self.add("# 1 by 2: one entry of the last measured sheet is used");
        self.open(1, 2);
        self.add("last 0 1");
        self.add("grow");
        self.try_last(1);
        self.receive("raw", "1");
    }

    fn largest(&mut self) {
        self.add("# 15 by 15 with all sheets there has no unused node, but slots without an edge");
        self.open(15, 15);
        self.add("next 30");
        // Growth or correction of each, for the script's length; 3 by 3 has both.
        let slots = self.share([3_600, 7_200, 15, 3_599, 10_800 + 241, 14_400 + 254, 18_000 + 3_360, SLOTS - 1]);
        for (place, slot) in slots.into_iter().enumerate() {
            if place % 2 == 0 {
                self.try_halves(slot, 1);
            } else {
                self.try_flip(slot);
            }
        }
        self.try_node(3_599, |node| node.defect = true);
        self.share([5, 8, 10, 11]).into_iter().for_each(|pointer| self.try_pointer(3_598, pointer));
        self.try_node(3_598, |node| node.mark = Some(3_840));
        self.add("# nor has it an unused entry of the last measured sheet");
        for line in ["last 209 1", "last 210 1", "grow"] {
            self.add(line);
        }
    }

    // 3 by 3: a sheet has 12 nodes, 3 sheets, 48 numbers; each kind of edge has 36 slots.
    fn each_fault(&mut self) {
        let (&Image { next, stage, .. }, model) = (self.image(), self.model);
        // What one round call is tried with in one stage, the other is tried with in another.
        self.tried_raw = stage == Stage::ToGrow;
        self.add("# the shape out of range, or another than the entries are for");
        for shape in self.share(["0 3", "16 3", "3 0", "3 1", "3 16", "255 255", "2 3", "3 2"]) {
            self.try_edit(&format!("dims {shape} {model}"), &format!("dims 3 3 {model}"));
        }
        self.add("# no model");
        for other in self.share([2, 128, 255]) {
            self.try_edit(&format!("dims 3 3 {other}"), &format!("dims 3 3 {model}"));
        }
        self.add("# next below s");
        for low in self.share([0, 1, 2]) {
            self.try_edit(&format!("next {low}"), &format!("next {next}"));
        }
        self.add("# marks too high, and reset");
        for (i, mark) in self.share([(0, 48), (13, 48), (35, 49), (12, 65_535)]) {
            self.try_node(i, |node| node.mark = Some(mark));
        }
        if stage != Stage::Merging {
            self.share([0, 7, 34]).into_iter().for_each(|i| self.try_node(i, |node| node.mark = None));
        }
        self.pointers();
        self.add("# defects on boundaries");
        for i in self.share([0, 3, 16, 35]) {
            self.try_node(i, |node| node.defect = true);
        }
        self.add("# growth above 2");
        let diagonal = [(108 + 17, 3), (144 + 17, 255), (180 + 17, 3)];
        let straight = [(0, 3), (1, 3), (14, 255), (106, 3)];
        for (slot, halves) in self.share(straight.iter().chain(&diagonal[..3 * model]).copied()) {
            self.try_halves(slot, halves);
        }
        self.add("# unused nodes: each field");
        for i in [36, 3_599] {
            let changes: [Change; 6] = [
                |node| node.active = true,
                |node| node.defect = true,
                |node| node.unrooted = true,
                |node| node.pointer = 1,
                |node| node.mark = Some(1),
                |node| node.mark = None,
            ];
            self.share(changes).into_iter().for_each(|change| self.try_node(i, change));
        }
        self.add("# slots without an edge: behind the window, east of the sheet, south of a boundary and of the sheet, above the top and a boundary");
        // Model 0 has none of the diagonals: the first of these are used by model 1.
        let behind = [108 + 17, 144 + 17, 180 + 17, 108, 3_600, 10_800, SLOTS - 1];
        let used = [216, 10_800, SLOTS - 1];
        for slot in self.share([[3, 36, 45, 73, 84].as_slice(), if model == 0 { &behind } else { &used }].concat()) {
            self.try_slot(slot);
        }
        self.add("# the last measured sheet behind the detectors");
        self.share([6, 100, 209]).into_iter().for_each(|i| self.try_last(i));
    }

    fn pointers(&mut self) {
        self.add("# pointers along no edge: N, S, D, U of a boundary, W and E out of the sheet, N and S, U at the top, D at the bottom");
        let nodes = [[4, 7, 1, 13], [0, 4, 12, 24], [3, 7, 15, 35], [4, 7, 9, 34], [4, 7, 24, 27], [16, 19, 1, 10]];
        let along = (1..).zip(nodes).flat_map(|(pointer, nodes)| nodes.map(|i| (i, pointer)));
        let others = [(5, 13), (5, 255)];
        for (i, pointer) in self.share(along.chain(others)) {
            self.try_pointer(i, pointer);
        }
        if self.image().stage != Stage::ToGrow {
            self.share([25, 34]).into_iter().for_each(|i| self.try_pointer(i, 5));
        }
    }

    /// Random pointers along no edge, of random shapes in every stage and with any number of sheets there.
    pub(super) fn strays(&mut self) {
        self.add("# random pointers along no edge");
        for case in 0..16 {
            let mut random = self.random(0x57a7, case);
            let (height, distance) = random.pick(&[(1, 2), (1, 3), (2, 2), (2, 3), (3, 3), (3, 4), (2, 5)]);
            self.open(height, distance);
            let sheets = self.shape().sheets();
            self.add(format!("next {}", sheets + 1 + random.below(sheets + 1)));
            self.add(super::stage_line([Stage::Rest, Stage::ToGrow, Stage::Merging][case % 3]));
            let mut tried = 0;
            while tried < 6 {
                let pointer = 1 + random.below(12) as u8;
                tried += usize::from(self.try_stray(pointer, &mut random));
            }
        }
    }

    /// Tries a pointer at a random node, mostly of the lowest sheet that is there; whether it is along no edge.
    fn try_stray(&mut self, pointer: u8, random: &mut Random) -> bool {
        let window = self.outline();
        let lowest = window.present() - 1;
        let any = random.below(lowest + 1);
        let (depth, place) = (random.pick(&[lowest, any]), random.below(window.sheet.nodes()));
        let stray = !window.allows(depth, place, pointer - 1);
        if stray {
            self.try_pointer(crate::image::entry(&window.sheet, depth, place), pointer);
        }
        stray
    }
}
