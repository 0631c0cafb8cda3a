//! A stack that is really pushed and merged, to hold against the formula in prover.rs.

use crate::field::{add, mul};
use crate::prover::Stack;

pub struct StackMachine {
    top: usize,
    challenges: Vec<u64>,
    pub stack: Stack,
}

impl StackMachine {
    pub fn new(top: usize, challenges: &[u64]) -> StackMachine {
        StackMachine { top, challenges: challenges.to_vec(), stack: Stack::new() }
    }

    /// One item from the end of the vector; a pair of the top level leaves as (even, odd).
    pub fn take(&mut self, item: u64) -> Option<(u64, u64)> {
        let (mut level, mut value) = (0, item);
        while let Some(&(held, later)) = self.stack.last().filter(|entry| entry.0 == level) {
            self.stack.pop();
            if held == self.top {
                return Some((value, later));
            }
            value = add(value, mul(self.challenges[level], later));
            level += 1;
        }
        self.stack.push((level, value));
        None
    }
}
