//! Random calls: out of turn, with numbers at and over their limits, with short buffers.

use super::plan::in_record;
use super::script::Script;
use crate::field::TOTAL_LIMIT;
use crate::random::Random;
use crate::replay::PLACES;

pub fn only(script: &mut Script, calls: usize) {
    for _ in 0..calls {
        any_call(script);
    }
}

pub fn any_call(script: &mut Script) {
    match script.random.below(12) {
        0..=4 => prover_call(script),
        5..=6 => verifier_call(script),
        7..=8 => buffers(script),
        9 => script.dump(),
        10 => refused_start(script),
        _ => own_call(script),
    }
}

pub fn prover_call(script: &mut Script) {
    let op = script.random.pick(&[13, 14, 15, 16, 17, 18, 19, 20, 21, 22, 23, 24, 25, 26, 27]);
    let (a, b) = match op {
        26 => (slot(script), script.random.any()),
        27 => slices(script),
        15 => plain_item(&mut script.random),
        16 => (script.random.any(), script.random.any()),
        24 => (proof_room(script), 0),
        _ => (script.random.any(), 0),
    };
    script.call(op, a, b);
}

/// Of either version, whatever the run's is.
fn plain_item(random: &mut Random) -> (u64, u64) {
    let version = random.version();
    let (reading, weight) = match random.below(8) {
        0..=1 => near_item(random, version),
        2 => (random.reading(version), random.pick(&[65_536, u32::MAX as u64])),
        3 => (random.reading(version), random.below(1 << 16)),
        _ => (random.reading(version), random.weight(version) as u64),
    };
    (in_record(reading), weight)
}

/// At its limits or past them: the reading, the weight or both.
pub fn near_item(random: &mut Random, version: u64) -> (i32, u64) {
    let reading = match random.chance(600) {
        true => random.reading_outside(version),
        false => random.reading(version),
    };
    let weight = match random.chance(400) {
        true => random.weight_over(),
        false => random.pick(&[1, 1_440]),
    };
    (reading, weight as u64)
}

/// Whatever the slot holds; the one after the last is bad.
fn slot(script: &mut Script) -> u64 {
    match script.random.below(10) {
        0 => script.random.pick(&[8, 9, 256, u32::MAX as u64]),
        _ => script.random.below(8),
    }
}

/// Two slices of the scratch list as it is; now and then it has too few numbers.
fn slices(script: &mut Script) -> (u64, u64) {
    let (length, random) = (script.tool.scratch.len() as u64, &mut script.random);
    let half = length / 2;
    let first = random.below(length + 1);
    match random.below(8) {
        0 => (first, length - first + 1),
        1 => (length + 1, 0),
        2 => (u32::MAX as u64, random.pick(&[0, 1, u32::MAX as u64])),
        3 => (1, u32::MAX as u64),
        4 => (first, length - first),
        5 => (first.min(half), first.min(half)),
        _ => (half, half),
    }
}

/// About as many bytes as the run's proof has.
fn proof_room(script: &mut Script) -> u64 {
    let length = script.tool.run.as_ref().map_or(18, |run| 18 + 12 * run.rounds) as u64;
    script.random.pick(&[0, length - 1, length, length + 1, 256, 257])
}

pub fn verifier_call(script: &mut Script) {
    let op = script.random.pick(&[33, 34, 35, 36, 37, 38, 39, 40, 42, 43, 44]);
    let any = [script.random.any(), script.random.any(), script.random.any()];
    let [a, b, c] = match op {
        33 => {
            let (reading, weight) = plain_item(&mut script.random);
            [reading, weight, 0]
        }
        35 => {
            let total = some_total(script) as u64;
            [total & 0xFFFF_FFFF, total >> 32, 0]
        }
        40 => {
            opening_list(script);
            any
        }
        42 => {
            opening_list(script);
            let opened = script.random.below(20);
            script.call(41, opened, 0);
            [script.random.below(10), any[1], any[2]]
        }
        43 => [slot(script), any[1], any[2]],
        44 => {
            let (first, second) = slices(script);
            [first, second, 0]
        }
        _ => any,
    };
    script.call3(op, a, b, c);
}

pub fn some_total(script: &mut Script) -> i64 {
    let random = &mut script.random;
    let sign = random.pick(&[-1, 1]);
    sign * match random.below(4) {
        0 => TOTAL_LIMIT + random.below(3) as i64 - 1,
        1 => random.pick(&[2_147_483_647, 4_294_967_296, i64::MAX]),
        _ => random.below(1 << 30) as i64,
    }
}

fn opening_list(script: &mut Script) {
    let rounds = script.tool.verifier.as_ref().map_or(1, |verifier| verifier.rounds) as u64;
    let length = match script.random.below(3) {
        0 => script.random.below(20),
        _ => 6 * rounds,
    };
    let numbers: Vec<u64> = match script.random.below(3) {
        0 => (0..length).map(|_| script.random.any()).collect(),
        _ => (0..length).map(|_| script.random.field()).collect(),
    };
    script.fill_scratch(&numbers);
}

/// Lends another number of places, or writes to one: both are the host's to do.
fn buffers(script: &mut Script) {
    let size = script.tool.run.as_ref().map_or(4, |run| run.size()) as u64;
    if script.random.chance(400) {
        let places = [(); 2].map(|()| match script.random.below(3) {
            0 => script.random.below(size + 2),
            1 => size,
            _ => PLACES as u64,
        });
        script.call(3, places[0].min(PLACES as u64), places[1].min(PLACES as u64));
    } else {
        let (vector, place) = (script.random.below(2), script.random.below(size.min(8) + 1));
        let value = script.random.any();
        script.call3(4, vector, place, value);
    }
}

/// Starts that are refused, but for a few.
pub fn refused_start(script: &mut Script) {
    let random = &mut script.random;
    let length = random.pick(&[0, 1, 1, 2, 2, 3, 15, 16]);
    let list: Vec<u64> = match random.below(2) {
        0 => (0..length).map(|_| random.any()).collect(),
        _ => (0..length).map(|_| random.usable()).collect(),
    };
    let op = random.pick(&[10, 11, 12, 30, 31, 32]);
    let items = random.pick(&[0, 2, 3, 4, 5, 40, 32_768, 32_769, u32::MAX as u64]);
    let rounds = random.pick(&[1, 2, 15, 16, u32::MAX as u64]);
    let number = random.pick(&[0, 1, 2, 3, 2_147_483_646, 2_147_483_647, u32::MAX as u64]);
    let version = match random.chance(400) {
        true => random.other_version(),
        false => random.version(),
    };
    script.fill_scratch(&list);
    match op {
        // Whatever the list, a plain start is refused for its version or its count alone.
        10 if version == 1 || version == 2 => {
            script.call(op, if items < 32_769 { 0 } else { items }, version)
        }
        10 | 30 => script.call(op, items, version),
        11 => script.call(op, items, 0),
        31 => script.call(op, items, length / 2),
        _ => script.call(op, rounds, number),
    };
}

/// What `replay` alone does, and what `replay_files` alone does.
pub const RUN_OPS: [u32; 41] = [
    6, 7, 8, 10, 11, 12, 13, 14, 15, 16, 17, 18, 19, 20, 21, 22, 23, 24, 25, 26, 27, 30, 31, 32,
    33, 34, 35, 36, 37, 38, 39, 40, 41, 42, 43, 44, 60, 61, 62, 63, 64,
];
const FILE_OPS: [u32; 10] = [50, 51, 52, 53, 54, 55, 56, 57, 58, 59];

/// What neither does.
const UNKNOWN: [u32; 10] = [0, 9, 28, 29, 45, 46, 49, 70, 81, u32::MAX];

/// What the tool itself turns away, and how much it holds.
pub fn run_limits(script: &mut Script) {
    script.begin_list();
    let length = script.random.between(126, 131);
    script.fill_scratch(&vec![1; length as usize]);
    script.call(11, 3, 0);
    script.call(31, 3, script.tool.scratch.len() as u64 + 1);
    script.call(31, 3, u32::MAX as u64);
    for op in [5, 7, 24] {
        for a in [256, 257, 4_097, u32::MAX as u64] {
            script.call(op, if op == 5 { a.max(4_097) } else { a }, 0);
        }
    }
    for op in [15, 33] {
        script.call(op, 0, 65_536);
        script.call(op, u32::MAX as u64, u32::MAX as u64);
    }
    let slot = script.random.below(8);
    let length = script.random.between(254, 258);
    script.call(60, slot, 0);
    for k in 0..length {
        script.call(61, slot, if k % 4 == 3 { 0 } else { k % 256 });
    }
    script.call(61, slot, 256);
    for op in [26, 43, 60, 61] {
        for slot in [slot, 8, 9, 256, u32::MAX as u64] {
            script.call(op, slot, 0);
        }
    }
    foreign(script, &FILE_OPS);
    only(script, 10);
}

/// Ops of the other tool, and of neither, with numbers that they could take.
pub fn foreign(script: &mut Script, others: &[u32]) {
    for &op in others.iter().chain(&UNKNOWN) {
        let [a, b, c] = [(); 3].map(|()| script.random.below(4));
        script.call3(op, a, b, c);
    }
}

/// The tool's own records, with what it calls bad.
fn own_call(script: &mut Script) {
    let random = &mut script.random;
    let edge = random.pick(&[4_095, 4_096, 4_097, u32::MAX as u64]);
    let byte = random.pick(&[0, 1, 255, 256, u32::MAX as u64]);
    let place = random.pick(&[0, 3, 5, 6, 10, 30, 255, 256, u32::MAX as u64]);
    let any = random.any();
    let unknown = random.pick(&[&FILE_OPS[..], &UNKNOWN].concat());
    let slot = random.below(9);
    match random.below(14) {
        0 => script.call(1, any, any),
        1 => script.call(2, any, any),
        2 => script.call(3, edge, 0),
        3 => script.call(3, 1, edge),
        4 => script.call3(4, any % 4, edge, any),
        5 => script.call(6, place, byte),
        6 => script.call(7, place, 0),
        7 => script.call(8, any, any),
        8 => script.call(60, slot, byte % 256),
        9 => script.call(61, slot, byte),
        10 => script.call(41, place, 0),
        11 => script.call3(63, slot, any, place),
        12 => script.call(64, slot, any),
        _ => script.call3(unknown, any, any, any),
    };
}
