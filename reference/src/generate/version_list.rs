//! Lists at the limits of both versions: starts, items, blocks and logs, mostly with two things wrong
//! of which one is named first.

use super::blocks::Taker;
use super::file_list::{read_log, rename, spoil_items, spoil_log};
use super::plan::{from_record, in_record, light_items};
use super::script::Script;
use crate::files::{mark, write_items, write_log, Item};
use crate::random::EDGE_READINGS;
use crate::vector::rounds_of;

/// A plain run and a verifier of one version, told of it beforehand.
struct Trip {
    version: u64,
    items: u64,
    challenges: Vec<u64>,
}

pub fn runs(script: &mut Script) {
    script.begin_list();
    let random = &mut script.random;
    let (version, items) = (random.version(), random.between(3, 12));
    let challenges = (0..rounds_of(items as usize)).map(|_| random.usable()).collect();
    let trip = Trip { version, items, challenges };
    (0..3).for_each(|_| refused_start(script, &trip));
    start(script, &trip);
    for _ in 0..script.random.between(3, 8) {
        for taker in [Taker::Run, Taker::Verifier] {
            item_at_limits(script, taker);
            spoiled_block(script, &trip, taker);
        }
        if script.random.chance(400) {
            start(script, &trip);
        }
    }
    change(script, &trip);
}

/// Another version, with L or a challenge wrong too, or neither.
fn refused_start(script: &mut Script, trip: &Trip) {
    let random = &mut script.random;
    let mut challenges = trip.challenges.clone();
    if random.chance(400) {
        challenges[0] = 0;
    }
    let items = match random.chance(400) {
        true => random.pick(&[0, 32_769, u32::MAX as u64]),
        false => trip.items,
    };
    let version = match random.chance(700) {
        true => random.other_version(),
        false => random.version(),
    };
    script.fill_scratch(&challenges);
    script.call(10, items, version);
    script.call(30, items, version);
}

fn start(script: &mut Script, trip: &Trip) {
    script.fill_scratch(&trip.challenges);
    script.call(10, trip.items, trip.version);
    script.call(30, trip.items, trip.version);
    script.call(13, 0, 0);
}

/// More often than by chance with a mark, of its own version or of the other.
fn item_at_limits(script: &mut Script, taker: Taker) {
    let reading = match script.random.chance(150) {
        true => script.random.pick(&[mark(1), mark(2)]),
        false => script.random.pick(&EDGE_READINGS),
    };
    let weight = script.random.pick(&[0, 1, 1_440, 1_441, 65_535]);
    let op = if taker == Taker::Run { 15 } else { 33 };
    script.call(op, in_record(reading), weight);
}

/// Of either layout.
fn spoiled_block(script: &mut Script, trip: &Trip, taker: Taker) {
    let layout = match script.random.chance(200) {
        true => 3 - trip.version,
        false => trip.version,
    };
    let count = script.random.between(1, trip.items);
    let mut bytes = write_items(layout, &some_items(script, layout, count));
    spoil_items(&mut script.random, layout, &mut bytes);
    let slot = script.slot_with(&bytes);
    script.call(if taker == Taker::Run { 26 } else { 43 }, slot, 0);
}

fn some_items(script: &mut Script, version: u64, count: u64) -> Vec<Item> {
    light_items(&mut script.random, version, count as usize).iter().map(from_record).collect()
}

/// A pass that changes the mode, with a buffer that is too short for it.
fn change(script: &mut Script, trip: &Trip) {
    let size = 1 << trip.challenges.len();
    let whole = write_items(trip.version, &some_items(script, trip.version, trip.items));
    let whole = script.slot_with(&whole);
    script.call(13, 0, 0);
    script.call(26, whole, 0);
    script.call(17, 0, 0);
    script.call(3, size, size);
    script.call(22, 0, 0);
    let (f, g) = script.random.pick(&[(size - 1, size), (size, size - 1)]);
    script.call(3, f, g);
    for _ in 0..3 {
        item_at_limits(script, Taker::Run);
        spoiled_block(script, trip, Taker::Run);
    }
}

pub fn logs(script: &mut Script) {
    script.begin_list();
    for _ in 0..4 {
        let (version, count) = (script.random.pick(&[1, 2, 2, 2]), script.random.between(1, 12));
        let mut log = write_log(version, &some_items(script, version, count));
        for _ in 0..script.random.below(3) {
            spoil_log(&mut script.random, &mut log);
        }
        if script.random.chance(200) {
            rename(&mut script.random, &mut log);
        }
        script.fill_file(&log);
        read_log(script);
    }
}
