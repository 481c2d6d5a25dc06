//! Runs with budgets of every kind.

use super::Script;
use crate::decoder::Stage;
use crate::decoding::Ran;
use crate::random::Random;

/// More steps than any window here takes to rest.
const AMPLE: u32 = 1_000;

impl Script {
    /// What document 01 prints and does not have proved.
    pub(super) fn printed(&mut self) {
        self.add("# sessions and edges of document 01: the first session by run, its third round with 4 steps, and with 3 and one more");
        for last in [["run 4"].as_slice(), &["run 3", "merging 1"]] {
            self.open(1, 3);
            for bytes in ["10", "00"] {
                self.round(bytes);
                self.add("run 65536");
            }
            self.round("00");
            last.iter().for_each(|call| _ = self.add(call));
        }
        self.add("# 1 by 3: 1, 3 and 2 bytes; grow at rest; the last round but one");
        self.open(1, 3);
        for call in ["round 5 2 1", "round 5 2 101", "grow", "next 4294967294", "round 5 2 10"] {
            self.add(call);
        }
        self.add("# the end");
    }

    /// The steps that a run would take, if it comes to rest.
    fn steps(&self) -> Option<u32> {
        match self.image().clone().run(AMPLE) {
            Ok(Ran::Rest(count)) => Some(count),
            _ => None,
        }
    }

    pub(super) fn runs(&mut self) {
        self.add("# a round, then runs: of 0 and 1 steps, of exactly those to rest, of one less, of many; at rest 22");
        let cases = [
            (1, 2, 50, 10),
            (1, 3, 40, 10),
            (3, 3, 20, 20),
            (2, 2, 40, 10),
            (5, 4, 10, 10),
            (2, 5, 20, 10),
            (15, 15, 2, 5),
            (7, 7, 5, 10),
        ];
        for (case, (height, distance, percent, rounds)) in self.cases(cases) {
            let mut random = self.random(0x72756e, case);
            self.open(height, distance);
            for round in 0..rounds {
                self.add(format!("run {}", random.number()));
                self.noise("round", &mut random, percent);
                self.run_to_rest(round % 10);
            }
        }
    }

    fn run_to_rest(&mut self, kind: usize) {
        let steps = self.steps().expect("a session comes to rest");
        match kind {
            0 => _ = self.add(format!("run {steps}")),
            1 => _ = self.add(format!("run {}", steps - 1)),
            2 => _ = self.add("run 0"),
            3 => (0..steps / 2).for_each(|_| _ = self.add("run 1")),
            4 => _ = self.add("run 4294967295"),
            5 => _ = self.add(format!("run {}", steps + 1)),
            6 => {
                self.add("grow");
                self.add("run 0");
                self.add(format!("run {steps}"));
            }
            7 => {
                self.add("grow");
                self.add(format!("merging {}", (steps / 2).max(1)));
            }
            8 => _ = self.add(format!("run {}", steps / 2)),
            _ => _ = self.add("run 65536"),
        }
        if self.image().stage != Stage::Rest {
            let left = self.steps().expect("a session comes to rest");
            let answer = self.add(format!("run {left}"));
            assert_eq!(answer, format!("run rest {left}\n"));
        }
    }

    /// A run of a window that may never come to rest.
    pub(super) fn try_run(&mut self, random: &mut Random) {
        let steps = self.steps().unwrap_or(40);
        let budget = random.pick(&[0, 1, steps - 1, steps, steps, steps + 1]);
        self.add(format!("run {budget}"));
    }
}
