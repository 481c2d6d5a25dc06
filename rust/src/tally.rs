//! How often each answer came. A test that never meets a refusal says nothing of it.

use crate::streams::{Answer, Stop};
use std::collections::BTreeMap;

pub const DONE: u8 = 0;
pub const END: u8 = 255;

const ENOUGH: usize = 100;

#[derive(Default)]
pub struct Tally(BTreeMap<u8, usize>);

impl Tally {
    pub fn note<T>(&mut self, answer: &Answer<T>) {
        let status = match answer {
            Ok(_) => DONE,
            Err(Stop::End) => END,
            Err(Stop::Refused(refusal) | Stop::RefusedAt(refusal, _)) => *refusal,
        };
        self.status(status);
    }

    pub fn status(&mut self, status: u8) {
        *self.0.entry(status).or_default() += 1;
    }

    /// At least as many answers came as there are inputs; exactly of these kinds, and each kind often.
    pub fn expect(&self, inputs: usize, statuses: &[u8]) {
        assert!(self.0.values().sum::<usize>() >= inputs, "{:?} for {inputs} inputs", self.0);
        assert!(self.0.keys().eq(statuses), "{:?} and not {statuses:?}", self.0);
        assert!(self.0.values().all(|&times| times >= ENOUGH), "{:?}", self.0);
    }
}
