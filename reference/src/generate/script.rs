//! Records as they are written, with the reference's answer to each.

use super::blocks::Counts;
use super::claims::Claims;
use super::marks::Marks;
use super::reached::Reached;
use super::returns::Returns;
use crate::random::Random;
use crate::replay::{Program, Record, Tool, PLACES};

pub struct Script {
    pub tool: Tool,
    pub random: Random,
    pub records: Vec<Record>,
    pub answers: Vec<String>,
    /// Where each list begins.
    pub lists: Vec<usize>,
    pub blocks: Counts,
    pub reached: Reached,
    pub returns: Returns,
    pub marks: Marks,
    pub claims: Claims,
    /// The slot that is filled next.
    slot: usize,
}

impl Script {
    pub fn new(program: Program, seed: u64) -> Script {
        Script {
            tool: Tool::new(program),
            random: Random::new(seed),
            records: Vec::new(),
            answers: Vec::new(),
            lists: Vec::new(),
            blocks: Counts::default(),
            reached: Reached::default(),
            returns: Returns::default(),
            marks: Marks::default(),
            claims: Claims::default(),
            slot: 0,
        }
    }

    pub fn begin_list(&mut self) {
        self.lists.push(self.records.len());
    }

    pub fn call3(&mut self, op: u32, a: u64, b: u64, c: u64) -> &str {
        // What the calls before it left of the claim.
        if matches!(op, 10..=24 | 26..=27 | 38 | 62) && self.random.chance(250) {
            self.make([25, 0, 0, 0]);
        }
        self.make([op, a as u32, b as u32, c as u32])
    }

    fn make(&mut self, record: Record) -> &str {
        let answer = self.tool.step(record);
        self.reached.note(&self.tool, record, &answer);
        self.returns.note(&self.tool, record, &answer);
        self.marks.note(&self.tool, record, &answer);
        self.claims.note(&self.tool, record, &answer);
        self.records.push(record);
        self.answers.push(answer);
        self.answers.last().unwrap().trim_end()
    }

    pub fn call(&mut self, op: u32, a: u64, b: u64) -> &str {
        self.call3(op, a, b, 0)
    }

    pub fn fill_scratch(&mut self, numbers: &[u64]) {
        self.call(1, 0, 0);
        for &number in numbers {
            self.call(2, number, 0);
        }
    }

    /// Makes the scratch list begin with these numbers, if it does not already.
    pub fn scratch_with(&mut self, numbers: &[u64]) {
        if !self.tool.scratch.starts_with(numbers) {
            self.fill_scratch(numbers);
        }
    }

    /// A slot that holds these bytes, filled if none does.
    pub fn slot_with(&mut self, bytes: &[u8]) -> u64 {
        if let Some(slot) = self.tool.slots.iter().position(|held| held == bytes) {
            return slot as u64;
        }
        self.slot = (self.slot + 1) % self.tool.slots.len();
        let slot = self.slot as u64;
        self.call(60, slot, 0);
        for &byte in bytes {
            self.call(61, slot, byte as u64);
        }
        slot
    }

    pub fn fill_file(&mut self, bytes: &[u8]) {
        self.call(50, 0, 0);
        for &byte in bytes {
            self.call(51, byte as u64, 0);
        }
    }

    /// Lends at least `size` places of both buffers where it can; now and then it forgets.
    pub fn lend(&mut self, size: usize) {
        let short = self.tool.lent.0 < size || self.tool.lent.1 < size;
        if short && !self.random.chance(60) {
            let spare = self.random.below(3);
            let places = (size as u64 + spare).min(PLACES as u64);
            self.call(3, places, places);
        }
    }

    pub fn dump(&mut self) {
        let places = match &self.tool.run {
            Some(run) => run.size().min(40) as u64 + 2,
            None => 2,
        };
        let places = match self.random.below(4) {
            0 => self.random.below(places),
            _ => places,
        };
        self.call(5, places, 0);
    }
}
