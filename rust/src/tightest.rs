//! Rounds whose last merging stage is long: a search for them, and the longest that we know.

use crate::decoding::{Decoded, DECODED};
use crate::random::Random;
use crate::stages::bound;
use crate::streams::{header_bytes, list_bytes, read_header, read_result, Done, Shape};

/// Rounds of defects, one behind another, each followed by a run.
#[derive(Debug, Clone)]
pub struct Rounds {
    pub shape: Shape,
    pub defects: Vec<u8>,
}

impl Rounds {
    /// As an input stream.
    pub fn stream(&self) -> Vec<u8> {
        let rounds = self.defects.chunks(self.shape.detectors());
        rounds.fold(header_bytes(self.shape.name()), |stream, round| [stream, list_bytes(round)].concat())
    }

    /// The steps of the longest stage, by a decoder. Each has to come to rest.
    pub fn longest(&self, decode: fn(&[u8]) -> Decoded) -> u32 {
        let decoded = decode(&self.stream());
        assert_eq!(decoded.status, DECODED, "{:?}", self.shape);
        recorded(&decoded.result).into_iter().max().unwrap_or(0)
    }

    /// Changes a few defects at a time, mostly near each other, and keeps what makes the longest stage no shorter, or not by
    /// much, and by less and less; the best of all.
    pub fn climb(mut self, tries: usize, decode: fn(&[u8]) -> Decoded, random: &mut Random) -> (u32, Rounds) {
        let mut now = self.longest(decode);
        let mut best = (now, self.clone());
        for left in (0..tries).rev() {
            let before = self.defects.clone();
            self.change(random);
            let then = self.longest(decode);
            let slack = random.below(2 + best.0 as usize * left / tries / 50) as u32;
            if then + slack < now {
                self.defects = before;
                continue;
            }
            now = then;
            if now > best.0 {
                best = (now, self.clone());
            }
        }
        best
    }

    fn change(&mut self, random: &mut Random) {
        let (columns, detectors) = (self.shape.distance - 1, self.shape.detectors());
        let mut place = random.below(self.defects.len());
        for _ in 0..=random.below(3) {
            self.defects[place] ^= 1;
            // To the next column, row or round.
            place = (place + random.pick(&[1, columns, detectors, detectors + 1])) % self.defects.len();
        }
    }
}

/// The steps in each record of a result stream.
pub fn recorded(result: &[u8]) -> Vec<u32> {
    let Ok(Done(name, mut at)) = read_header(result, 0) else { panic!("a header") };
    let shape = Shape::new(name).expect("a shape in range");
    let (mut edges, mut escapes) = (vec![0; shape.edges()], vec![0; shape.detectors()]);
    std::iter::from_fn(|| {
        let Done(steps, next) = read_result(name, result, at, [&mut edges, &mut escapes]).ok()?;
        at = next;
        Some(steps)
    })
    .collect()
}

/// The longest stages that we know of some shapes, with their steps: each is that of its last round. A shape of model 0
/// comes before the same of model 1.
pub fn tightest() -> Vec<(u32, Rounds)> {
    include_str!("tightest.txt").split("\n\n").map(example).collect()
}

/// These as the table in docs/PERFORMANCE.md.
pub fn table() -> String {
    let line = |both: &[(u32, Rounds)]| {
        let Shape { height, distance, .. } = both[0].1.shape;
        assert_eq!(both[1].1.shape, Shape { height, distance, model: 1 });
        let (nodes, bound) = (both[0].1.shape.nodes(), bound(both[0].1.shape));
        let [first, second] =
            [0, 1].map(|model| format!("{} | {:.2}", both[model].0, f64::from(both[model].0) / nodes as f64));
        format!("| {height} by {distance} | {nodes} | {bound} | {first} | {second} |")
    };
    let head = [
        "| shape | N | bound | model 0, steps | steps / N | model 1, steps | steps / N |",
        "|---|---|---|---|---|---|---|",
    ];
    head.map(String::from).into_iter().chain(tightest().chunks(2).map(line)).collect::<Vec<_>>().join("\n")
}

/// A line with height, distance, model and steps; then a line a round, with a digit a detector and a space between rows.
fn example(text: &str) -> (u32, Rounds) {
    let (head, rounds) = text.split_once('\n').expect("rounds");
    let numbers: Vec<u32> = head.split(' ').map(|word| word.parse().expect("a number")).collect();
    let [height, distance, model, steps] = numbers[..] else { panic!("four numbers") };
    let defects = rounds.bytes().filter(u8::is_ascii_digit).map(|digit| digit - b'0').collect();
    (steps, Rounds { shape: Shape::new([height, distance, model]).expect("a shape in range"), defects })
}
