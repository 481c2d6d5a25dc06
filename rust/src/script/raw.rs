//! Raw rounds among plain ones, and lists of calls with the one kind and with the other.

use super::{entry_line, Extent, Script, ROUNDS};
use crate::decoder::Stage;
use crate::image::{self, Entry, DETECTORS};
use crate::random::Random;
use crate::replay::Player;
use crate::streams::Shape;

/// Random calls from a fresh window on, with plain rounds, so many bytes in a hundred set: refused calls among them,
/// and edits. There are so many calls, and more until so many rounds are received.
pub fn plain_list(shape: Shape, percent: usize, calls: usize, rounds: usize, random: &mut Random) -> String {
    let mut list = Script::new(shape.model, Extent::All, 0);
    list.open(shape.height, shape.distance);
    (0..calls).for_each(|_| list.random_call(percent, random));
    while (list.image().next as usize) < shape.sheets() + rounds {
        list.random_call(percent, random);
    }
    list.text
}

/// The same list with raw rounds where they are chosen. Such a round's bytes are the plain one's, added modulo 2 to those
/// of the last raw round that was not refused: it receives the same defects.
pub fn raw_list(plain: &str, mut chosen: impl FnMut() -> bool) -> String {
    let mut player = Player::default();
    let (mut list, mut measured) = (String::new(), String::new());
    for line in plain.lines() {
        let answer = player.play(line);
        let Some(arguments) = line.strip_prefix("round ").filter(|_| chosen()) else {
            if line.starts_with("open ") {
                measured.clear();
            }
            list += &format!("{line}\n");
            continue;
        };
        let words: Vec<&str> = arguments.split(' ').collect();
        let bytes = sum(words[2], &measured);
        list += &format!("raw {} {} {bytes}\n", words[0], words[1]);
        if answer.starts_with("round done ") {
            measured = bytes;
        }
    }
    list
}

/// Digits modulo 2; where the second ends, it is 0. A byte that a round refuses stays.
fn sum(bytes: &str, measured: &str) -> String {
    let bits = measured.chars().chain(std::iter::repeat('0'));
    let add = |(byte, bit)| match byte {
        '0' | '1' => char::from(b'0' + u8::from(byte != bit)),
        other => other,
    };
    bytes.chars().zip(bits).map(add).collect()
}

/// By this seed every refusal comes with ones in the last measured sheet, for both models; `tests/replay.rs` asserts it.
const LISTS: u64 = 2_804;

impl Script {
    /// A call that is due, mostly; or one that may not be, an edit, or calls on a window that refuses them.
    fn random_call(&mut self, percent: usize, random: &mut Random) {
        match random.below(12) {
            0 => self.random_defect(random),
            1 => self.random_fault(percent, random),
            2 => self.call_in(random.pick(&[Stage::Rest, Stage::ToGrow, Stage::Merging]), percent, random),
            _ => self.call_in(self.image().stage, percent, random),
        }
    }

    /// A call for a stage.
    fn call_in(&mut self, stage: Stage, percent: usize, random: &mut Random) {
        let few = random.below(5);
        let call = match (stage, random.below(4)) {
            (Stage::Rest, _) => self.random_round(percent, random),
            (_, 0) => format!("run {few}"),
            (_, 1) => "run 1000".into(),
            (Stage::ToGrow, _) => "grow".into(),
            (Stage::Merging, _) => format!("merging {}", few + 1),
        };
        self.add(call);
    }

    /// A round whose lengths and bytes may be wrong.
    fn random_round(&self, percent: usize, random: &mut Random) -> String {
        let shape = self.shape();
        let [edges, escapes, length] =
            [shape.edges(), shape.detectors(), shape.detectors()].map(|right| random.near(right));
        let mut bytes: Vec<u8> = (0..length).map(|_| u8::from(random.below(100) < percent)).collect();
        if length > 0 && random.one_in(15) {
            bytes[random.below(length)] = 2;
        }
        let digits: String = bytes.iter().map(u8::to_string).collect();
        format!("round {edges} {escapes} {digits}")
    }

    /// A detector's entry at a depth, with its defect changed; and as it is.
    fn defect_changed(&self, depth: usize, random: &mut Random) -> [String; 2] {
        let shape = self.shape();
        let row = depth * shape.height + random.below(shape.height);
        let i = row * (shape.distance + 1) + 1 + random.below(shape.distance - 1);
        let old = self.image().nodes[i];
        [!old.defect, old.defect].map(|defect| entry_line(i, Entry { defect, ..old }))
    }

    /// A defect, an edge's growth or its correction bit at the depth of an absent round; and back.
    fn absent_changed(&self, depth: usize, random: &mut Random) -> [String; 2] {
        let sheet = &self.outline().sheet;
        let slot = image::slot(sheet, depth, random.below(sheet.spans.len()));
        match random.below(3) {
            0 => self.defect_changed(depth, random),
            1 => [1, 0].map(|halves| format!("halves {slot} {halves}")),
            _ => [1, 0].map(|bit| format!("flip {slot} {bit}")),
        }
    }

    /// A defect changed, mostly in the lowest sheet that is there: if it is the bottom, the next round hands it out.
    fn random_defect(&mut self, random: &mut Random) {
        let Some(lowest) = self.outline().present().checked_sub(1) else { return };
        let any = random.below(lowest + 1);
        let depth = random.pick(&[lowest, lowest, any]);
        let [changed, _] = self.defect_changed(depth, random);
        self.add(changed);
    }

    /// A round and another call on a window that is not well-formed or has the last round number.
    fn random_fault(&mut self, percent: usize, random: &mut Random) {
        let (shape, next) = (self.shape(), self.image().next);
        // An unused bit of the last measured sheet, half the time the first. 15 by 15 has none, and is left as it is.
        let most = (DETECTORS - shape.detectors()).max(1);
        let unused = shape.detectors() + random.below(2 * most).saturating_sub(most);
        let round = self.random_round(percent, random);
        let present = self.outline().present();
        let absent = shape.sheets() - present;
        let [edit, back] = match random.below(7) {
            0 => {
                let [h, d, model] = shape.name();
                [random.pick(&[[0, 3, model], [h, d, 2]]), shape.name()]
                    .map(|[h, d, model]| format!("dims {h} {d} {model}"))
            }
            1 => ["next 1".into(), format!("next {next}")],
            2 => ["halves 1 1", "halves 1 0"].map(String::from),
            3 => [1, 0].map(|bit| format!("last {unused} {bit}")),
            // With the last round number every sheet is there: a call that is done would leave something in sheets that the
            // way back makes absent.
            kind @ 4.. if absent > 0 && (kind == 4 || self.image().stage != Stage::Rest) => {
                self.absent_changed(present + random.below(absent), random)
            }
            _ => ["next 4294967295".into(), format!("next {next}")],
        };
        for line in [edit.as_str(), &round, random.pick(&["grow", "merging 1", "run 1"]), &back] {
            self.add(line);
        }
    }

    /// All that a round call can be refused for, and one after another of these taken away.
    pub(super) fn in_order(&mut self) {
        self.add("# both round calls with every fault at once, then without the first of them, and so on");
        self.open(1, 3);
        self.receive("raw", "11");
        self.settle();
        let next = format!("next {}", self.image().next);
        let edges = self.shape().edges();
        let [both, escapes, none] =
            [(edges - 1, 1), (edges, 1), (edges, 2)].map(|(edges, escapes)| format!("{edges} {escapes}"));
        let steps: [(&[&str], String, u8); 7] = [
            (&["stage 1", "next 4294967295", "last 2 1"], format!("{both} 2"), 21),
            (&["last 2 0"], format!("{both} 2"), 22),
            (&["stage 0"], format!("{both} 2"), 23),
            (&[&next], format!("{both} 2"), 3),
            (&[], format!("{both} 21"), 5),
            (&[], format!("{escapes} 21"), 6),
            (&[], format!("{none} 21"), 4),
        ];
        for (edits, arguments, refusal) in steps {
            edits.iter().for_each(|edit| _ = self.add(edit));
            for call in ROUNDS {
                let answer = self.add(format!("{call} {arguments}"));
                assert!(answer.starts_with(&format!("{call} refused {refusal} ")), "{answer}");
            }
        }
        self.receive("raw", "01");
        self.settle();
    }

    /// Random sessions in which either kind of round comes at random.
    pub(super) fn mixed(&mut self) {
        self.add("# random sessions with rounds of both kinds");
        let cases = [(1, 3, 40, 12), (2, 2, 30, 12), (3, 3, 50, 12), (5, 5, 10, 12), (15, 15, 10, 4)];
        for (case, (height, distance, percent, rounds)) in self.cases(cases) {
            let mut random = self.random(7, case);
            self.open(height, distance);
            for _ in 0..rounds {
                let call = random.pick(&ROUNDS);
                self.noise(call, &mut random, percent);
                self.settle();
            }
        }
        // The last detector of 15 by 15 is measured 1: no shape has a later one.
        if self.shape().detectors() == DETECTORS {
            self.receive("raw", &format!("{:0>DETECTORS$}", 1));
            assert!(self.image().measured[DETECTORS - 1]);
            self.settle();
        }
    }

    /// Lists of calls, each followed by the same with raw rounds.
    pub(super) fn lists(&mut self) {
        for (case, (height, distance)) in self.cases([(1, 2), (1, 3), (3, 3)]) {
            let shape = Shape { height, distance, model: self.model };
            let plain = plain_list(shape, 40, 30, 0, &mut self.random(LISTS, case));
            self.add(format!("# defects, {height} by {distance} of model {}", self.model));
            plain.lines().for_each(|line| _ = self.add(line));
            self.add(format!("# measurements, {height} by {distance} of model {}", self.model));
            raw_list(&plain, || true).lines().for_each(|line| _ = self.add(line));
        }
        self.add("# the lists' end");
    }
}
