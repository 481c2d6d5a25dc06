//! Scripts for `crates/replay`: the one that is stored with it, and others for one model.

mod absent;
mod creation;
mod diagonals;
mod faults;
mod raw;
mod runs;

pub use creation::open_line;
pub use raw::{plain_list, raw_list};

use crate::decoder::{Stage, Window};
use crate::decoding::Decoder;
use crate::image::{self, Entry, Image};
use crate::random::Random;
use crate::replay::{Player, LONGEST};
use crate::steps::{Way, WAYS};
use crate::streams::Shape;

/// The names of the round calls.
const ROUNDS: [&str; 2] = ["round", "raw"];

/// Which part of the cases a script has.
#[derive(Clone, Copy, PartialEq, Eq)]
enum Extent {
    All,
    /// Of each list a share, another one for each model and each stage.
    Share,
}

/// A script, played as it is written.
struct Script {
    player: Player,
    text: String,
    model: usize,
    extent: Extent,
    seed: u64,
    /// Whether the last edit was tried with a raw round.
    tried_raw: bool,
}

fn entry_line(i: usize, node: Entry) -> String {
    let bits = [node.active, node.defect, node.unrooted].map(u8::from);
    let mark = node.mark.map_or(65_536, u32::from);
    format!("entry {i} {} {} {} {} {mark}", bits[0], bits[1], bits[2], node.pointer)
}

fn stage_line(stage: Stage) -> String {
    format!("stage {}", stage as u8)
}

/// The stored script: both models, with a share of what the others have.
pub fn script() -> String {
    let mut script = Script::new(0, Extent::Share, 0);
    script.printed();
    script.creations();
    for model in [0, 1] {
        script.model = model;
        script.sessions();
        script.calls(&ROUNDS[model..=model]);
        script.in_order();
        script.ill_formed();
        script.absent();
        script.diagonals();
        script.by_chance();
    }
    script.finished()
}

/// Sessions, refusals and windows that are not well-formed, all of a model.
pub fn cases_of(model: usize) -> String {
    let mut script = Script::new(model, Extent::All, 0);
    script.sessions();
    script.calls(&ROUNDS);
    script.in_order();
    script.ill_formed();
    script.absent();
    script.diagonals();
    script.finished()
}

/// Random windows, sessions and lists of calls of a model.
pub fn random_of(model: usize, seed: u64) -> String {
    let mut script = Script::new(model, Extent::All, seed);
    script.strays();
    script.by_chance();
    script.finished()
}

impl Script {
    fn new(model: usize, extent: Extent, seed: u64) -> Script {
        Script { player: Player::default(), text: String::new(), model, extent, seed, tried_raw: false }
    }

    fn finished(self) -> String {
        assert!(self.text.len() < LONGEST, "{} bytes", self.text.len());
        self.text
    }

    /// Random parts.
    fn by_chance(&mut self) {
        self.edited();
        self.noisy();
        self.mixed();
        self.runs();
        self.lists();
    }

    /// The cases of a list, with their places in it: all, or those of a model.
    fn cases<T>(&self, list: impl IntoIterator<Item = T>) -> Vec<(usize, T)> {
        let all = list.into_iter().enumerate();
        all.filter(|(case, _)| self.extent == Extent::All || case % 2 == self.model).collect()
    }

    fn random(&self, part: u64, case: usize) -> Random {
        Random::new(part ^ self.seed << 32, (2 * case + self.model) as u64)
    }

    fn add(&mut self, line: impl AsRef<str>) -> String {
        let line = line.as_ref();
        self.text += line;
        self.text += "\n";
        self.player.play(line)
    }

    fn image(&self) -> &Image {
        &self.player.image
    }

    fn shape(&self) -> Shape {
        Shape::new(self.image().name()).expect("a shape in range")
    }

    /// A fresh window of the image's shape with its round number and stage: it has the same edges, and allows the same
    /// pointers.
    fn outline(&self) -> Window {
        let Image { next, stage, .. } = *self.image();
        Window { next, stage, ..Window::open(self.shape()) }
    }

    /// A round call with buffers of the right lengths.
    fn receive(&mut self, call: &str, bytes: &str) -> String {
        let shape = self.shape();
        self.add(format!("{call} {} {} {bytes}", shape.edges(), shape.detectors()))
    }

    fn round(&mut self, bytes: &str) -> String {
        self.receive("round", bytes)
    }

    /// A round call with random bytes, so many in a hundred set.
    fn noise(&mut self, call: &str, random: &mut Random, percent: usize) {
        let bytes: String =
            (0..self.shape().detectors()).map(|_| if random.below(100) < percent { '1' } else { '0' }).collect();
        self.receive(call, &bytes);
    }

    /// The window to rest.
    fn settle(&mut self) {
        if self.image().stage == Stage::ToGrow {
            self.add("grow");
        }
        if self.image().stage == Stage::Merging {
            self.add("merging 999");
        }
    }

    /// A round each, with single calls up to rest.
    fn session(&mut self, height: usize, distance: usize, rounds: &[&str]) {
        self.open(height, distance);
        for bytes in rounds {
            self.round(bytes);
            self.settle();
        }
    }

    fn sessions(&mut self) {
        self.add(format!("# the first session of document 01, model {}", self.model));
        self.session(1, 3, &["10", "00", "00", "00"]);
        self.add("# the second");
        self.session(1, 3, &["11", "00", "00", "00"]);
        self.add("# 1 by 2, one defect: a tie");
        self.session(1, 2, &["1", "0", "0", "0", "0"]);
        self.add(format!(
            "# 1 by 4, a defect at detector 2, model {}: nothing comes before the first round",
            self.model
        ));
        self.open(1, 4);
        for bytes in ["001", "000", "000", "000", "000", "000"] {
            self.round(bytes);
            self.add("run 99");
        }
    }

    /// The refusals of round calls, and the order of calls.
    fn calls(&mut self, rounds: &[&str]) {
        for call in rounds {
            self.lengths(call);
            self.last_round(call);
            self.stages(call);
        }
    }

    fn lengths(&mut self, call: &str) {
        self.add("# 1 by 3: slices of 0 to 4 bytes, buffers too short and too long, bytes other than 0 and 1, and several of these");
        self.open(1, 3);
        self.receive(call, "11");
        self.settle();
        // Model 0 has five edges, model 1 six: one less or one more is the other's.
        let edges = self.shape().edges();
        let (less, more) = (edges - 1, edges + 1);
        let short = ["", "1", "101", "1010"].map(|bytes| (edges, 2, bytes));
        let edge_buffers = [less, more, 0, 631, 1_204].map(|edges| (edges, 2, "10"));
        let escape_buffers = [1, 3, 0, 210].map(|escapes| (edges, escapes, "10"));
        let others = ["20", "02", "90"].map(|bytes| (edges, 2, bytes));
        let several =
            [(less, 1, "2"), (less, 1, "22"), (edges, 1, "22"), (less, 2, "22"), (edges, 3, "1"), (more, 2, "1")];
        let faulty =
            [&short[..], &edge_buffers, &escape_buffers, &others, &several, &[(0, 0, ""), (1_280, 256, "222222")]];
        for (edges, escapes, bytes) in faulty.concat() {
            self.add(format!("{call} {edges} {escapes} {bytes}").trim_end());
        }
        self.receive(call, "01");
        self.add("# in a wrong stage 22 precedes them");
        self.add(format!("{call} {less} 1 2"));
        self.add("grow");
        self.add(format!("{call} {less} 1 2"));
        self.settle();
    }

    fn last_round(&mut self, call: &str) {
        self.add("# the last round number");
        self.open(1, 3);
        self.add("next 4294967294");
        self.receive(call, "10");
        self.receive(call, "10");
        self.settle();
        self.receive(call, "10");
        self.add(format!("{call} 4 1 2"));
        self.add("# the last but one, twice");
        self.add("next 4294967293");
        for _ in 0..3 {
            self.receive(call, "01");
            self.settle();
        }
    }

    fn stages(&mut self, call: &str) {
        self.add("# every call in every stage");
        self.open(2, 2);
        for _ in 0..3 {
            self.add("merging 1");
            self.add("grow");
            self.receive(call, "10");
            self.add("merging 1");
            self.receive(call, "01");
            self.add("grow");
            self.add("grow");
            self.receive(call, "11");
            self.settle();
        }
    }

    /// Well-formed windows that no session reaches, and a few others.
    fn edited(&mut self) {
        self.add("# windows with random entries, played on");
        let shapes = [(1, 2), (1, 3), (2, 2), (3, 3), (2, 4), (4, 3)];
        for (case, (height, distance)) in self.cases(shapes.into_iter().cycle().take(12)) {
            let mut random = self.random(0xed1a, case);
            let call = ROUNDS[case / 6 % 2];
            self.open(height, distance);
            self.noise(call, &mut random, 40);
            self.settle();
            // Two sheets there, or all, with the one below them absent or not.
            let sheets = self.shape().sheets();
            self.add(format!("next {}", sheets + random.pick(&[2, sheets, sheets, sheets + 1])));
            for turn in 0..3 {
                if turn == 0 {
                    self.add(stage_line(random.pick(&[Stage::Rest, Stage::ToGrow, Stage::Merging, Stage::Merging])));
                }
                (0..8).for_each(|_| self.random_edit(&mut random));
                if call == "raw" {
                    let i = random.below(self.shape().detectors());
                    self.add(format!("last {i} {}", random.below(2)));
                }
                if turn == case % 3 {
                    self.try_run(&mut random);
                }
                if self.image().stage == Stage::ToGrow {
                    self.add("grow");
                }
                self.add("merging 40");
                self.noise(call, &mut random, 40);
            }
        }
    }

    /// An edit that mostly keeps the window well-formed.
    fn random_edit(&mut self, random: &mut Random) {
        let window = self.outline();
        let sheet = &window.sheet;
        let (depth, place) = (random.below(window.present()), random.below(sheet.nodes()));
        let wild = random.one_in(50);
        let slots: Vec<usize> =
            window.links(depth, place).map(|(_, _, [layer, edge])| image::slot(sheet, layer, edge)).collect();
        let pointers: Vec<u8> =
            (0..WAYS as Way).filter(|&way| window.allows(depth, place, way)).map(|way| way + 1).collect();
        match random.below(9) {
            0..=2 => {
                let slot = if wild { random.below(image::SLOTS) } else { random.pick(&slots) };
                self.add(format!("halves {slot} {}", random.pick(&[0, 1, 2, 2, 2])));
            }
            3 => {
                let slot = random.pick(&slots);
                self.add(format!("flip {slot} {}", random.below(2)));
            }
            _ => {
                let reset = self.image().stage == Stage::Merging && random.one_in(4);
                let still = wild || random.one_in(pointers.len() + 1);
                let numbers = (sheet.sheets() + 1) * sheet.nodes();
                let node = Entry {
                    active: random.one_in(2),
                    defect: sheet.detector(place) && random.one_in(2),
                    unrooted: random.one_in(3),
                    pointer: if still { random.below(14) as u8 * u8::from(wild) } else { random.pick(&pointers) },
                    mark: if reset { None } else { Some(random.below(numbers) as u16) },
                };
                self.add(entry_line(image::entry(sheet, depth, place), node));
            }
        }
    }

    fn noisy(&mut self) {
        self.add("# random sessions");
        let cases = [
            (1, 2, 50, 12),
            (1, 3, 10, 12),
            (3, 3, 20, 12),
            (3, 3, 5, 12),
            (15, 2, 10, 12),
            (1, 15, 10, 12),
            (7, 6, 25, 12),
            (4, 7, 3, 12),
            (9, 9, 1, 12),
            (11, 10, 5, 8),
            (15, 15, 50, 4),
            (15, 15, 1, 6),
            (15, 14, 2, 3),
        ];
        for (case, (height, distance, percent, rounds)) in self.cases(cases) {
            let mut random = self.random(0x5e55, case);
            self.add(format!("# {height} by {distance}, noise {percent} in 100"));
            self.open(height, distance);
            for _ in 0..rounds {
                self.noise("round", &mut random, percent);
                self.settle();
            }
        }
    }
}
