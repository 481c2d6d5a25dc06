//! What left the window. A test whose rounds never leave says nothing of the edges committed in their layers.

use crate::streams::Shape;
use std::collections::BTreeMap;

/// By shape: received rounds that left the window, and committed edges of their layers.
#[derive(Debug, Default)]
pub struct Covered(pub BTreeMap<Shape, [usize; 2]>);

impl Covered {
    /// The rounds that a list of calls received, each by the edges that its call committed. Only those of a kind count.
    pub fn note(&mut self, shape: Shape, edges: &[usize], kind: impl Fn(usize) -> bool) {
        let [left, committed] = self.0.entry(shape).or_default();
        // The first s calls commit the layers of the rounds before the first.
        for (_, edges) in edges.iter().skip(shape.sheets()).enumerate().filter(|&(round, _)| kind(round)) {
            *left += 1;
            *committed += edges;
        }
    }

    /// The shapes of this distance or a larger one.
    pub fn at_least(&self, distance: usize) -> Covered {
        Covered(
            self.0
                .iter()
                .filter(|(shape, _)| shape.distance >= distance)
                .map(|(&shape, &counts)| (shape, counts))
                .collect(),
        )
    }

    /// The shapes of which a received round left the window, and those of which edges were committed too.
    pub fn shapes(&self) -> [usize; 2] {
        [0, 1].map(|part| self.0.values().filter(|counts| counts[part] > 0).count())
    }

    /// All rounds that left, and all edges.
    pub fn sums(&self) -> [usize; 2] {
        [0, 1].map(|part| self.0.values().map(|counts| counts[part]).sum())
    }
}
