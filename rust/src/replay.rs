//! The second decoder under the script of `crates/replay`, whose comment has the commands and what is written.

use crate::decoder::Stage;
use crate::decoding::Ran;
use crate::image::{Entry, Image, NODES, SLOTS};
use crate::repository;
use std::sync::OnceLock;

/// The longest script, in bytes.
pub const LONGEST: usize = 65_536;

/// A player with its window.
pub struct Player {
    pub image: Image,
    /// Whether its lines end with the digest and the last measured sheet. The digest takes most of the time.
    full: bool,
}

fn digits(buffer: &[u8]) -> String {
    buffer.iter().map(|&byte| char::from_digit(byte.into(), 10).unwrap_or('?')).collect()
}

fn told(answer: Result<(), u8>) -> String {
    match answer {
        Ok(()) => "done".into(),
        Err(number) => format!("refused {number}"),
    }
}

fn stage_code(stage: Stage) -> u64 {
    match stage {
        Stage::Rest => 0,
        Stage::ToGrow => 1,
        Stage::Merging => 2,
    }
}

/// Below 2^55.
const PRIME: u64 = (1 << 55) - 55;
const FACTOR: u64 = 259;

fn mix(sum: u64, entry: u64) -> u64 {
    (sum * FACTOR + entry + 1) % PRIME
}

/// By how many entries of 0 there are: the power of the factor, and what they make of the sum 0.
fn zeros() -> &'static [[u64; 2]] {
    static ZEROS: OnceLock<Vec<[u64; 2]>> = OnceLock::new();
    let next = |&[power, sum]: &[u64; 2]| Some([power * FACTOR % PRIME, mix(sum, 0)]);
    ZEROS.get_or_init(|| std::iter::successors(Some([1, 0]), next).take(ENTRIES + 1).collect())
}

/// All that a digest is over.
const ENTRIES: usize = 5 + 5 * NODES + 2 * SLOTS;

/// A polynomial modulo a prime, over every entry of the window but for the last measured sheet. Most entries are 0, and
/// those in a row are taken together.
pub fn digest(image: &Image) -> u64 {
    let [height, distance, model] = image.name().map(u64::from);
    let head = [height, distance, model, stage_code(image.stage), image.next.into()];
    let nodes = image.nodes.iter().flat_map(|node| {
        let mark = node.mark.map_or(65_536, u64::from);
        [node.active.into(), node.defect.into(), node.unrooted.into(), node.pointer.into(), mark]
    });
    let growth = image.growth.iter().map(|&halves| u64::from(halves));
    let correction = image.correction.iter().map(|&bit| u64::from(bit));
    let pass = |sum: u64, run: usize| {
        let [power, of_zeros] = zeros()[run];
        ((u128::from(sum) * u128::from(power) + u128::from(of_zeros)) % u128::from(PRIME)) as u64
    };
    let (mut sum, mut run) = (0, 0);
    head.into_iter().chain(nodes).chain(growth).chain(correction).for_each(|entry| {
        if entry == 0 {
            run += 1;
        } else {
            sum = mix(pass(sum, run), entry);
            run = 0;
        }
    });
    pass(sum, run)
}

/// The last measured sheet: 0 where it is empty.
fn folded(measured: &[bool]) -> u64 {
    measured.iter().fold(0, |sum, &bit| (2 * sum + u64::from(bit)) % PRIME)
}

impl Default for Player {
    fn default() -> Player {
        Player { image: Image::fresh([1, 2, 0], [1, 2]).expect("1 by 2 is a shape"), full: false }
    }
}

impl Player {
    fn line(&self, text: String) -> String {
        if !self.full {
            return text + "\n";
        }
        format!("{text} {:014x} {}\n", digest(&self.image), folded(&self.image.measured))
    }

    /// What a line of the script has written.
    pub fn play(&mut self, line: &str) -> String {
        let words: Vec<&str> = line.split(' ').collect();
        let number = |place: usize| words[place].parse::<u32>().expect("a number of 32 bits");
        match words[0] {
            "open" => {
                let opened = Image::fresh([1, 2, 3].map(number), [4, 5].map(number));
                let answer = opened.as_ref().map(|_| ()).map_err(|&number| number);
                self.image = opened.unwrap_or_else(|_| Image::nothing());
                self.line(format!("open {}", told(answer)))
            }
            name @ ("round" | "raw") => {
                let (mut edges, mut escapes) = (vec![7; number(1) as usize], vec![7; number(2) as usize]);
                let bytes: Vec<u8> = words.get(3).unwrap_or(&"").bytes().map(|digit| digit - b'0').collect();
                let call = if name == "raw" { Image::raw_round } else { Image::round };
                let answer = call(&mut self.image, &bytes, &mut edges, &mut escapes);
                self.line(format!("{name} {} {} {}", told(answer), digits(&edges), digits(&escapes)))
            }
            "grow" => {
                let answer = self.image.grow();
                self.line(format!("grow {}", told(answer)))
            }
            "merging" => {
                let mut written = String::new();
                for _ in 0..number(1) {
                    let answer = self.image.merging();
                    written += &self.line(match answer {
                        Ok(true) => "merging busy".into(),
                        Ok(false) => "merging rest".into(),
                        Err(number) => format!("merging refused {number}"),
                    });
                    if answer != Ok(true) {
                        break;
                    }
                }
                written
            }
            "run" => {
                let answer = self.image.run(number(1));
                self.line(match answer {
                    Ok(Ran::Rest(count)) => format!("run rest {count}"),
                    Ok(Ran::Spent(count)) => format!("run spent {count}"),
                    Err(number) => format!("run refused {number}"),
                })
            }
            "#" => format!("{line}\n"),
            edit => {
                let i = number(1) as usize;
                match edit {
                    "dims" => {
                        let [height, distance, model] = [1, 2, 3].map(|place| number(place) as u8);
                        self.image = Image { height, distance, model, ..self.image.clone() };
                    }
                    "stage" => self.image.stage = [Stage::Rest, Stage::ToGrow, Stage::Merging][i],
                    "next" => self.image.next = number(1),
                    "entry" => {
                        self.image.nodes[i] = Entry {
                            active: number(2) == 1,
                            defect: number(3) == 1,
                            unrooted: number(4) == 1,
                            pointer: number(5) as u8,
                            mark: u16::try_from(number(6)).ok(),
                        }
                    }
                    "halves" => self.image.growth[i] = number(2) as u8,
                    "flip" => self.image.correction[i] = number(2) == 1,
                    "last" => {
                        if let Some(bit) = self.image.measured.get_mut(i) {
                            *bit = number(2) == 1;
                        }
                    }
                    _ => panic!("no command: {line}"),
                }
                self.line("edit".into())
            }
        }
    }
}

/// A written line but for the name of a round call and the last measured sheet.
pub fn bare(line: &str) -> &str {
    let line = line.strip_prefix("round").or_else(|| line.strip_prefix("raw")).unwrap_or(line);
    line.rsplit_once(' ').map_or(line, |(rest, _)| rest)
}

/// Holds what was written to what is expected, line by line.
pub fn same_lines(written: &str, expected: &str) {
    for (line, (written, expected)) in written.lines().zip(expected.lines()).enumerate() {
        assert_eq!(written, expected, "line {}", line + 1);
    }
    assert!(written == expected, "one has more lines");
}

/// What the proved program writes for a script.
pub fn by_the_program(script: &str) -> String {
    String::from_utf8(repository::run("replay", script.as_bytes())).expect("its lines are text")
}

/// What a whole script has written.
pub fn replay(script: &str) -> String {
    let mut player = Player { full: true, ..Player::default() };
    script.lines().map(|line| player.play(line)).collect()
}
