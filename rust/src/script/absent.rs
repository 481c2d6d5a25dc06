//! Windows in which the rounds before the first are absent.

use super::faults::Change;
use super::{entry_line, Script};
use crate::decoder::Stage;
use crate::image::Entry;

// 2 by 2: a sheet has 6 nodes, 3 sheets, 18 nodes in all; columns 1 are detectors.
const SHEET: usize = 6;
const LAST: usize = 17;
const BOTTOM: [usize; 2] = [13, 16];
/// Pointers.
const EAST: u8 = 3;
const DOWN: u8 = 5;
const UP: u8 = 6;

impl Script {
    /// Each kind of fault in each stage, and pointers from the bottom down: to an absent round, and to a supplied one.
    pub(super) fn absent(&mut self) {
        self.add(format!("# windows that are not well-formed, 2 by 2 of model {}: no sheet is there", self.model));
        self.open(2, 2);
        self.absent_nodes();
        self.add("# one sheet is there, to grow");
        self.round("11");
        assert!(self.image().stage == Stage::ToGrow);
        self.each_absent_fault();
        self.add("# and merging");
        self.add("grow");
        self.add("merging 1");
        assert!(self.image().stage == Stage::Merging);
        self.each_absent_fault();
        self.settle();
        self.add("# two sheets are there, at rest");
        self.round("01");
        self.settle();
        assert!(self.image().stage == Stage::Rest);
        self.each_absent_fault();
        self.add("# to grow, the first round at the bottom: nothing is below it");
        self.round("10");
        BOTTOM.into_iter().for_each(|i| self.try_pointer(i, DOWN));
        self.settle();
        self.add("# the second round at the bottom: the pointer is cut");
        self.round("00");
        let old = self.image().nodes[BOTTOM[0]];
        self.add(entry_line(BOTTOM[0], Entry { pointer: DOWN, ..old }));
        self.add("grow");
        assert_eq!(self.image().nodes[BOTTOM[0]], Entry { pointer: 0, mark: None, ..old });
        self.settle();
        self.add("# used sheets made absent");
        let next = self.image().next;
        self.share([3, 4, 5])
            .into_iter()
            .for_each(|low| self.try_edit(&format!("next {low}"), &format!("next {next}")));
    }

    /// The first node of the absent sheets.
    fn first_absent(&self) -> usize {
        SHEET * self.outline().present()
    }

    fn each_absent_fault(&mut self) {
        let first = self.first_absent();
        self.add("# absent nodes");
        self.absent_nodes();
        self.try_pointer(first + 1, UP);
        self.add("# absent edges: of the highest absent sheet, up to the lowest that is there, and above the bottom");
        // East, south and up, by kind.
        let [south, up] = [LAST + 1, 2 * (LAST + 1)];
        for slot in self.share([first, south + first + 1, up + first + 1, up + BOTTOM[1]]) {
            self.try_slot(slot);
        }
        self.add("# down to an absent sheet");
        [first - 5, first - 2].into_iter().for_each(|i| self.try_pointer(i, DOWN));
    }

    /// Each field.
    fn absent_nodes(&mut self) {
        let first = self.first_absent();
        let changes: [(usize, Change); 6] = [
            (LAST, |node| node.active = true),
            (first + 1, |node| node.defect = true),
            (first + 2, |node| node.unrooted = true),
            (first + 3, |node| node.pointer = EAST),
            (first + 4, |node| node.mark = node.mark.map(|own| own - 1)),
            (first + 5, |node| node.mark = None),
        ];
        self.share(changes).into_iter().for_each(|(i, change)| self.try_node(i, change));
    }
}
