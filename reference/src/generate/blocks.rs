//! Blocks of items: those of the trip, in cuts of any length, and those with something wrong in them.

use super::file_list::spoil_items;
use super::plan::{field_items, from_record, plain_items, Plan};
use super::script::Script;
use crate::field::P;
use crate::files::{item_size, write_items};
use crate::replay::{PLACES, SCRATCH, SLOT};
use crate::state::{Aim, Mode, Next};
use crate::table::fold_size;

/// As many items of a version as a slot holds; of version 0, as many pairs as the scratch list.
pub fn longest(version: u64) -> usize {
    match version {
        0 => SCRATCH / 2,
        _ => SLOT / item_size(version),
    }
}

/// Where a block can be handed in; in the last three it is always refused.
pub const WHERE: [&str; 11] = [
    "total",
    "message",
    "ends",
    "opening",
    "change before a message",
    "change before the ends",
    "change after the ends",
    "verifier",
    "no pass, small",
    "no pass, full",
    "verifier closed",
];
pub const ALWAYS_REFUSED: usize = 8;

/// Plain and twisted, by place, taken with at least one item and refused.
pub type Counts = [[[u64; 2]; WHERE.len()]; 2];

#[derive(Clone, Copy, PartialEq)]
pub enum Taker {
    Run,
    Verifier,
}

enum Block {
    Bytes(Vec<u8>),
    Slices(Vec<u64>, Vec<u64>),
}

#[derive(Clone, Copy, PartialEq)]
enum Fault {
    /// More items than are wanted.
    Many,
    Empty,
    /// Of the other kind of run.
    Kind,
    /// No whole number of items, or slices of unequal length.
    Torn,
    /// In the other version's layout.
    Layout,
    /// A few weights or readings past their limits, or numbers P or more.
    Numbers,
    /// A lent buffer shorter than the fold: of use in a change pass.
    Short,
}

const FAULTS: [Fault; 7] = [
    Fault::Many,
    Fault::Empty,
    Fault::Kind,
    Fault::Torn,
    Fault::Layout,
    Fault::Numbers,
    Fault::Short,
];

/// The next items of the trip: all that are wanted, or some of them.
pub fn give(script: &mut Script, plan: &Plan, taker: Taker) {
    let (taken, wanted) = turn(script, plan, taker);
    let longest = longest(plan.version());
    let most = wanted.min(longest) as u64;
    let count = match (plan.aligned, taker) {
        (true, Taker::Run) => (wanted - 1) % longest + 1,
        (true, Taker::Verifier) => wanted.min(longest - taken % longest),
        _ => match script.random.below(4) {
            0 => most as usize,
            1 => script.random.between(1, most.min(4)) as usize,
            _ => script.random.between(1, most) as usize,
        },
    };
    let items = match taker == Taker::Run && script.random.chance(plan.strays) {
        true => random_items(script, plan.version(), count),
        false => next_items(plan, taker, (taken, wanted), count).to_vec(),
    };
    if taker == Taker::Run {
        lend_for_change(script);
    }
    hand_over(script, taker, block_of(plan.version(), &items));
}

/// The next items with one or more faults. Where none of these counts, they are taken.
pub fn faulty(script: &mut Script, plan: &Plan, taker: Taker) {
    let mut faults = FAULTS.to_vec();
    faults.retain(|_| script.random.chance(200));
    // Numbers go wrong in the most ways.
    faults.push(match script.random.chance(200) {
        true => Fault::Numbers,
        false => script.random.pick(&FAULTS),
    });
    let has = |fault| faults.contains(&fault);
    let (taken, wanted) = turn(script, plan, taker);
    let random = &mut script.random;
    let count = match wanted as u64 {
        _ if has(Fault::Empty) => 0,
        wanted if has(Fault::Many) => wanted + random.between(1, 3),
        wanted if random.chance(300) => wanted,
        wanted => random.between(wanted.min(1), wanted),
    };
    let version = match plan.version() {
        0 if has(Fault::Kind) => random.version(),
        _ if has(Fault::Kind) => 0,
        version if version != 0 && has(Fault::Layout) => 3 - version,
        version => version,
    };
    let count = (count as usize).min(longest(version));
    let items = match has(Fault::Kind) {
        true => random_items(script, version, count),
        false => {
            let proper = next_items(plan, taker, (taken, wanted), count.min(wanted));
            let beyond = random_items(script, version, count - proper.len());
            match taker {
                Taker::Run => [&beyond, proper].concat(),
                Taker::Verifier => [proper, &beyond].concat(),
            }
        }
    };
    let mut block = block_of(version, &items);
    if has(Fault::Numbers) {
        spoil_numbers(script, version, &mut block);
    }
    if has(Fault::Many) && wanted >= longest(0) {
        lengthen(script, &mut block, wanted);
    }
    if has(Fault::Torn) {
        tear(script, &mut block, item_size(version));
    }
    let short = has(Fault::Short) || has(Fault::Numbers) && script.random.chance(300);
    match taker {
        Taker::Run if short => lend_short(script),
        Taker::Run => lend_for_change(script),
        Taker::Verifier => {}
    }
    hand_over(script, taker, block);
    if script.random.chance(300) {
        script.dump();
    }
}

/// Lends what an item of an open change pass wants.
pub fn lend_for_change(script: &mut Script) {
    let run = script.tool.run.as_ref().unwrap();
    if let Some(Aim::Change(level)) = run.pass.as_ref().map(|pass| pass.aim) {
        let size = run.size() >> level;
        script.lend(size);
    }
}

/// How many items are taken and how many are wanted; with no pass open, as in a new one.
fn turn(script: &Script, plan: &Plan, taker: Taker) -> (usize, usize) {
    let taken = match taker {
        Taker::Run => script.tool.run.as_ref().unwrap().pass.as_ref().map(|pass| pass.taken),
        Taker::Verifier => {
            let verifier = script.tool.verifier.as_ref().unwrap();
            verifier.claim.is_none().then_some(verifier.taken)
        }
    };
    let taken = taken.unwrap_or(0);
    (taken, plan.items.len() - taken)
}

/// From the last item down to a run, from the first on to a verifier.
fn next_items(
    plan: &Plan,
    taker: Taker,
    (taken, wanted): (usize, usize),
    count: usize,
) -> &[(u64, u64)] {
    match taker {
        Taker::Run => &plan.items[wanted - count..wanted],
        Taker::Verifier => &plan.items[taken..taken + count],
    }
}

fn random_items(script: &mut Script, version: u64, count: usize) -> Vec<(u64, u64)> {
    match version {
        0 => field_items(&mut script.random, count),
        _ => plain_items(&mut script.random, version, count),
    }
}

fn block_of(version: u64, items: &[(u64, u64)]) -> Block {
    if version == 0 {
        let (first, second) = items.iter().copied().unzip();
        return Block::Slices(first, second);
    }
    Block::Bytes(write_items(version, &items.iter().map(from_record).collect::<Vec<_>>()))
}

fn spoil_numbers(script: &mut Script, version: u64, block: &mut Block) {
    let random = &mut script.random;
    match block {
        Block::Bytes(bytes) => spoil_items(random, version, bytes),
        Block::Slices(first, second) => {
            for _ in 0..random.between(1, 2) {
                let slice = if random.chance(500) { &mut *first } else { &mut *second };
                if !slice.is_empty() {
                    let place = random.below(slice.len() as u64) as usize;
                    slice[place] = random.pick(&[P, P + 1, u32::MAX as u64]);
                }
            }
        }
    }
}

/// The first slice alone can be longer than a slot's items, with what is left for the second.
fn lengthen(script: &mut Script, block: &mut Block, wanted: usize) {
    if let Block::Slices(first, second) = block {
        let length = (wanted + 1).min(SCRATCH);
        first.resize_with(length, || script.random.field());
        second.truncate(SCRATCH - length);
    }
}

fn tear(script: &mut Script, block: &mut Block, size: usize) {
    let random = &mut script.random;
    let (way, part) = (random.below(4), random.between(1, size as u64 - 1) as usize);
    match block {
        Block::Bytes(bytes) if bytes.is_empty() || way < 2 && bytes.len() < SLOT => {
            let part = part.min(SLOT - bytes.len());
            bytes.extend((0..part).map(|_| random.below(256) as u8));
        }
        Block::Bytes(bytes) if way == 2 => drop(bytes.drain(..part)),
        Block::Bytes(bytes) => bytes.truncate(bytes.len() - part),
        Block::Slices(first, second) => {
            let slice = if way % 2 == 0 { first } else { second };
            if slice.is_empty() || way < 2 && slice.len() < SCRATCH / 2 {
                slice.push(random.field());
            } else {
                slice.truncate(slice.len().saturating_sub(part));
            }
        }
    }
}

fn lend_short(script: &mut Script) {
    let run = script.tool.run.as_ref().unwrap();
    let size = match run.pass.as_ref().map(|pass| pass.aim) {
        Some(Aim::Change(level)) => run.size() >> level,
        _ => fold_size(run),
    };
    let size = size.min(PLACES) as u64;
    let short = script.random.below(size);
    let (f, g) = script.random.pick(&[(short, size), (size, short), (size - 1, size - 1)]);
    script.call(3, f, g);
}

fn hand_over(script: &mut Script, taker: Taker, block: Block) {
    let (twisted, place) = place(script, taker);
    let (empty, to_run) = (block.is_empty(), taker == Taker::Run);
    let answer = match block {
        Block::Bytes(bytes) => {
            let slot = script.slot_with(&bytes);
            script.call(if to_run { 26 } else { 43 }, slot, 0)
        }
        Block::Slices(first, second) => {
            script.scratch_with(&[&first[..], &second].concat());
            let op = if to_run { 27 } else { 44 };
            script.call(op, first.len() as u64, second.len() as u64)
        }
    };
    let refused = answer != "taken";
    script.blocks[twisted as usize][place][refused as usize] += (refused || !empty) as u64;
}

impl Block {
    fn is_empty(&self) -> bool {
        match self {
            Block::Bytes(bytes) => bytes.is_empty(),
            Block::Slices(first, _) => first.is_empty(),
        }
    }
}

/// Whether the taker is twisted, and where in `WHERE` it stands.
fn place(script: &Script, taker: Taker) -> (bool, usize) {
    if taker == Taker::Verifier {
        let verifier = script.tool.verifier.as_ref().unwrap();
        return (!verifier.plain, if verifier.claim.is_none() { 7 } else { 10 });
    }
    let run = script.tool.run.as_ref().unwrap();
    let place = match (&run.pass, run.mode) {
        (Some(pass), _) => match (pass.aim, run.next) {
            (Aim::Total, _) => 0,
            (Aim::Message(_), _) => 1,
            (Aim::Ends, _) => 2,
            (Aim::Opening(_), _) => 3,
            (Aim::Change(_), Next::Message(_)) => 4,
            (Aim::Change(_), Next::Ends) => 5,
            (Aim::Change(_), _) => 6,
        },
        (None, Mode::Small) => 8,
        (None, Mode::Full) => 9,
    };
    (!run.plain, place)
}
