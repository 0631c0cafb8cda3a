//! The prover's abstract state: what follows from its start and the answered calls alone.

use crate::refusal::Refusal;
use crate::table;
use crate::vector::{rounds_of, rule_twists};

#[derive(Clone, Copy, Debug, PartialEq)]
pub enum Mode {
    Small,
    Full,
}

#[derive(Clone, Copy, Debug, PartialEq)]
pub enum Next {
    Total,
    Message(usize),
    Challenge(usize),
    Ends,
    Openings,
}

/// What an open pass works towards.
#[derive(Clone, Copy, Debug, PartialEq)]
pub enum Aim {
    Total,
    Message(usize),
    Ends,
    Opening(u64),
    /// A change of mode that writes the fold of this level.
    Change(usize),
}

/// The vectors of the items answered in this pass; places not yet taken are zero.
#[derive(Clone, Debug, PartialEq)]
pub struct Pass {
    pub aim: Aim,
    pub taken: usize,
    pub f: Vec<u64>,
    pub g: Vec<u64>,
    pub plain_total: i64,
}

#[derive(Clone, Debug, PartialEq)]
pub struct Run {
    pub plain: bool,
    /// 1 or 2; a run that is not plain is told none and has 0.
    pub version: u64,
    pub items: usize,
    pub rounds: usize,
    pub twists: Vec<u64>,
    pub mode: Mode,
    pub next: Next,
    pub pass: Option<Pass>,
    pub challenges: Vec<u64>,
    pub total: i64,
    pub messages: Vec<[u64; 3]>,
    pub ends: Option<(u64, u64)>,
}

impl Run {
    pub fn start_plain(items: u64, version: u64) -> Result<Run, Refusal> {
        table::start_plain(items, version)?;
        let items = items as usize;
        let fresh = Run::fresh(items, vec![1; rounds_of(items)]);
        Ok(Run { plain: true, version, ..fresh })
    }

    pub fn start_twisted(items: u64, twists: &[u64]) -> Result<Run, Refusal> {
        table::start_twisted(items, twists)?;
        Ok(Run::fresh(items as usize, twists.to_vec()))
    }

    pub fn start_rule(rounds: u64, v: u64) -> Result<Run, Refusal> {
        table::start_rule(rounds, v)?;
        Ok(Run::fresh(1 << rounds, rule_twists(rounds as usize, v)))
    }

    /// Of a batch: its challenges are known, and its openings are next.
    pub fn at_openings(items: usize, challenges: &[u64]) -> Run {
        let fresh = Run::fresh(items, vec![1; rounds_of(items)]);
        Run { next: Next::Openings, challenges: challenges.to_vec(), ..fresh }
    }

    fn fresh(items: usize, twists: Vec<u64>) -> Run {
        Run {
            plain: false,
            version: 0,
            items,
            rounds: rounds_of(items),
            twists,
            mode: Mode::Small,
            next: Next::Total,
            pass: None,
            challenges: Vec::new(),
            total: 0,
            messages: Vec::new(),
            ends: None,
        }
    }

    pub fn size(&self) -> usize {
        1 << self.rounds
    }
}
