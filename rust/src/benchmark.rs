//! The benchmark's tables, as they stand in docs/PERFORMANCE.md: `cost` has the mean of a round by each decoder, `growth`
//! how it grows with distance and with noise, `tail` the slowest rounds, `calls` the public calls. `load` has the streams,
//! `race` takes the times of whole ones and `watch` those of single rounds, and `callgrind` counts instructions.

pub mod callgrind;
pub mod calls;
pub mod cost;
pub mod growth;
pub mod load;
pub mod race;
pub mod tail;
pub mod watch;

use crate::streams::Shape;

/// What the program is asked to do whose instructions are counted; the table's name follows.
pub const COUNTED: &str = "counted";

/// Where valgrind is missing.
const NO_VALGRIND: &str = "no valgrind";

/// A table's head, in Markdown, by its cells' names.
fn head(cells: &str) {
    println!("| {cells} |\n|{}", "---|".repeat(cells.split(" | ").count()));
}

fn row(cells: impl IntoIterator<Item = String>) {
    println!("| {} |", cells.into_iter().collect::<Vec<_>>().join(" | "));
}

/// In the place of what was not measured.
const UNKNOWN: &str = "?";

/// A time in microseconds, or a ratio: three digits that count.
fn short(number: f64) -> String {
    let digits = match number {
        _ if number.is_nan() => return UNKNOWN.into(),
        0.0..1.0 => 3,
        1.0..10.0 => 2,
        _ => 1,
    };
    format!("{number:.digits$}")
}

/// A whole number, its digits in threes.
fn whole(number: f64) -> String {
    if number.is_nan() {
        return UNKNOWN.into();
    }
    let digits = format!("{number:.0}");
    let places = digits.char_indices().map(|(place, digit)| (digits.len() - place, digit));
    places.fold(String::new(), |mut text, (left, digit)| {
        if left % 3 == 0 && !text.is_empty() {
            text.push(',');
        }
        text.push(digit);
        text
    })
}

fn size(shape: Shape) -> String {
    format!("{} by {}", shape.height, shape.distance)
}

fn percent(chance: usize) -> String {
    format!("{} %", chance as f64 / 1e4)
}
