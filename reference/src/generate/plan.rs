//! What one run is meant to be: its trip, its challenges, the modes of its steps, how unruly it is.

use super::blocks::longest;
use crate::files::{mark, readings, Item};
use crate::random::{usual_weight, Random};
use crate::vector::{rounds_of, rule_twists};

#[derive(Clone, Copy, Debug, PartialEq)]
pub enum Kind {
    /// With its version.
    Plain(u64),
    Twisted,
    /// With v.
    Rule(u64),
}

pub struct Plan {
    pub kind: Kind,
    /// As a record gives them: a reading in 32 bits and a weight, or two field numbers.
    pub items: Vec<(u64, u64)>,
    pub twists: Vec<u64>,
    pub challenges: Vec<u64>,
    /// Whether a step is made in full mode: 0 to n - 1 a round, n the ends, then each opening.
    pub full: Vec<bool>,
    pub openings: usize,
    /// What a rule check claims in place of the total.
    pub claim: Option<u64>,
    /// Permille of random calls, of dumps and of items from another trip.
    pub noise: u64,
    pub dumps: u64,
    pub strays: u64,
    /// Permille of blocks, and of faulty blocks before a proper call.
    pub blocks: u64,
    pub faults: u64,
    /// Blocks are cut at multiples of the longest.
    pub aligned: bool,
}

impl Plan {
    pub fn random(random: &mut Random) -> Plan {
        let items = match random.below(20) {
            0..=6 => random.between(1, 4),
            7..=13 => random.between(5, 20),
            14..=16 => (1 << random.between(1, 6)) + random.below(3) - 1,
            _ => random.between(21, 70),
        };
        let items = items as usize;
        match random.below(3) {
            0 => {
                let trip = field_items(random, items);
                Plan::of(random, Kind::Twisted, trip)
            }
            _ => {
                let version = random.version();
                let trip = plain_items(random, version, items);
                Plan::of(random, Kind::Plain(version), trip)
            }
        }
    }

    /// A run of many items, with nothing random inserted: it changes mode at the first round whose
    /// fold fits the tool's buffers.
    pub fn large(random: &mut Random, items: usize, version: u64) -> Plan {
        let trip = light_items(random, version, items);
        let mut plan = Plan::of(random, Kind::Plain(version), trip);
        plan.full = full_from(rounds_of(items).saturating_sub(12));
        plan.openings = 0;
        plan.calmed()
    }

    /// A run of many items whose blocks come again, so that they stay in the slots or the scratch
    /// list. A plain one changes mode as the one above and returns before its ends, a twisted one
    /// never changes.
    pub fn large_in_blocks(random: &mut Random, items: usize, kind: Kind) -> Plan {
        let repeated = match kind {
            Kind::Plain(version) => light_items(random, version, 7 * longest(version)),
            _ => field_items(random, longest(0)),
        };
        let trip = (0..items).map(|i| repeated[i % repeated.len()]).collect();
        let mut plan = Plan::of(random, kind, trip);
        let rounds = rounds_of(items);
        let full_rounds = rounds.saturating_sub(12)..rounds;
        (plan.full, plan.openings) = match kind {
            Kind::Plain(_) => ((0..=rounds).map(|step| full_rounds.contains(&step)).collect(), 0),
            _ => (vec![false], 1),
        };
        let mut plan = plan.calmed();
        (plan.blocks, plan.faults, plan.aligned) = (1_000, 2, true);
        plan
    }

    fn calmed(mut self) -> Plan {
        (self.noise, self.dumps, self.strays, self.blocks, self.faults) = (0, 1, 0, 0, 0);
        self
    }

    pub fn of(random: &mut Random, kind: Kind, items: Vec<(u64, u64)>) -> Plan {
        let rounds = rounds_of(items.len());
        let twists = match kind {
            Kind::Plain(_) => vec![1; rounds],
            Kind::Twisted => (0..rounds).map(|_| random.usable()).collect(),
            Kind::Rule(v) => rule_twists(rounds, v),
        };
        Plan {
            kind,
            items,
            twists,
            challenges: (0..rounds).map(|_| random.usable()).collect(),
            full: modes(random, rounds + 1),
            openings: random.below(3) as usize,
            claim: None,
            noise: random.pick(&[0, 0, 20, 80, 250]),
            dumps: random.pick(&[0, 50, 300, 1_000]),
            strays: random.pick(&[0, 0, 0, 100]),
            blocks: random.pick(&[0, 0, 200, 600, 1_000]),
            faults: random.pick(&[0, 50, 150]),
            aligned: false,
        }
    }

    /// Steps past the last one named stay in its mode.
    pub fn is_full(&self, step: usize) -> bool {
        self.full[step.min(self.full.len() - 1)]
    }

    pub fn plain(&self) -> bool {
        self.version() != 0
    }

    /// 0 for a run that is told none.
    pub fn version(&self) -> u64 {
        match self.kind {
            Kind::Plain(version) => version,
            _ => 0,
        }
    }

    /// A trip whose total is out of its limits is made small enough.
    pub fn calm(&mut self) {
        for item in &mut self.items {
            item.1 = item.1.min(5);
        }
        self.strays = 0;
    }
}

/// In one mode throughout, with one change, or there and back at random.
pub fn modes(random: &mut Random, most: usize) -> Vec<bool> {
    match random.below(6) {
        0 => vec![true],
        1 => vec![false],
        2 => full_from(random.below(most as u64 + 1) as usize),
        _ => (0..most + 2).map(|_| random.chance(500)).collect(),
    }
}

fn full_from(step: usize) -> Vec<bool> {
    (0..=step).map(|k| k == step).collect()
}

/// Now and then of nothing but marks.
pub fn plain_items(random: &mut Random, version: u64, count: usize) -> Vec<(u64, u64)> {
    let marked = random.chance(110);
    let extreme = !marked && count > 16 && random.chance(500);
    let reading = random.pick(&[*readings(version).start(), *readings(version).end()]);
    let item = |random: &mut Random| match extreme && !random.chance(20) {
        true => (in_record(reading), usual_weight(version) as u64),
        false if marked => (in_record(mark(version)), random.weight(version) as u64),
        false => (in_record(random.reading(version)), random.weight(version) as u64),
    };
    (0..count).map(|_| item(random)).collect()
}

/// So light that thousands of them, or hundreds many times, stay within the total's limits.
pub fn light_items(random: &mut Random, version: u64, count: usize) -> Vec<(u64, u64)> {
    let most = if version == 2 { 1 } else { 9 };
    let item = |random: &mut Random| (in_record(random.reading(version)), random.between(0, most));
    (0..count).map(|_| item(random)).collect()
}

/// A reading as two's complement in 32 bits.
pub fn in_record(reading: i32) -> u64 {
    reading as u32 as u64
}

/// A record's reading and weight.
pub fn from_record(&(reading, weight): &(u64, u64)) -> Item {
    (reading as u32 as i32, weight as u16)
}

pub fn field_items(random: &mut Random, count: usize) -> Vec<(u64, u64)> {
    (0..count).map(|_| (random.field(), random.field())).collect()
}
