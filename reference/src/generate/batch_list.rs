//! Batches: logs of equal n and of their own lengths, whole and damaged, their run in either mode, and
//! the check of what it opened; true, or with one thing wrong.

use super::file_list::{damage, spoil_log};
use super::noise;
use super::plan::{modes, Kind, Plan};
use super::prover_list::{go_on, numbers, Openings};
use super::script::Script;
use crate::field::P;
use crate::files::{item_size, write_log};
use crate::random::Random;
use crate::replay::SLOT;
use crate::state::Next;
use crate::vector::rounds_of;

/// As many items as a log in a slot can have.
fn most(version: u64) -> u64 {
    (SLOT - 7) as u64 / item_size(version) as u64
}

fn log(random: &mut Random, version: u64, items: u64) -> Vec<u8> {
    let item = |random: &mut Random| (random.reading(version), random.weight(version));
    write_log(version, &(0..items).map(|_| item(random)).collect::<Vec<_>>())
}

struct Logs {
    /// The eight slots.
    bytes: Vec<Vec<u8>>,
    count: u64,
    z: u64,
    challenges: Vec<u64>,
}

pub fn batches(script: &mut Script) {
    script.begin_list();
    let logs = Logs::random(&mut script.random);
    for _ in 0..script.random.between(1, 4) {
        refused(script, &logs);
    }
    let answer = start(script, &logs);
    let openings = match answer.as_str() {
        "started" => open(script, &logs),
        _ => Openings::new(),
    };
    fill(script, &logs);
    for k in 0..logs.count {
        let point = script.random.any();
        script.call(64, k, point);
    }
    check(script, &logs, &openings);
    if script.random.chance(500) {
        of_neither_version(script, &logs);
    }
}

impl Logs {
    fn random(random: &mut Random) -> Logs {
        let rounds = random.pick(&[0, 1, 1, 2, 2, 3, 3, 4, 5, 6]);
        let count = random.between(1, 8);
        // Each of its own version and length.
        let log = |random: &mut Random| {
            let version = random.version();
            let least = if rounds == 0 { 1 } else { (1 << (rounds - 1)) + 1 };
            let items = random.between(least, most(version).min(1 << rounds));
            log(random, version, items)
        };
        // Slots past the number told hold anything.
        let bytes = (0..8).map(|k| match k < count || random.chance(300) {
            true => log(random),
            false => (0..random.below(20)).map(|_| random.below(256) as u8).collect(),
        });
        let bytes = bytes.collect();
        let challenges = (0..rounds).map(|_| random.usable()).collect();
        Logs { bytes, count, z: random.usable(), challenges }
    }
}

fn fill(script: &mut Script, logs: &Logs) {
    for (slot, bytes) in logs.bytes.iter().enumerate() {
        if script.tool.slots[slot] != *bytes {
            write(script, slot as u64, bytes);
        }
    }
}

fn write(script: &mut Script, slot: u64, bytes: &[u8]) {
    script.call(60, slot, 0);
    for &byte in bytes {
        script.call(61, slot, byte as u64);
    }
}

fn start(script: &mut Script, logs: &Logs) -> String {
    fill(script, logs);
    script.fill_scratch(&logs.challenges);
    script.call(62, logs.count, logs.z).to_string()
}

/// With one or two things wrong: the number of logs, a file, a log of another n, z, a challenge.
fn refused(script: &mut Script, logs: &Logs) {
    let random = &mut script.random;
    let mut wrong = Logs {
        bytes: logs.bytes.clone(),
        count: logs.count,
        z: logs.z,
        challenges: logs.challenges.clone(),
    };
    for _ in 0..random.between(1, 2) {
        let slot = random.below(logs.count) as usize;
        match random.below(8) {
            0 => wrong.count = random.pick(&[0, 9, 10, 256, u32::MAX as u64]),
            1..=2 => {
                damage(random, &mut wrong.bytes[slot]);
                wrong.bytes[slot].truncate(SLOT);
            }
            3 => spoil_log(random, &mut wrong.bytes[slot]),
            4 => {
                let version = random.version();
                let items = random.between(1, most(version));
                wrong.bytes[slot] = log(random, version, items);
            }
            5 => wrong.z = random.pick(&[0, P, P + 1, u32::MAX as u64]),
            6 => match wrong.challenges.pop() {
                Some(_) if random.chance(500) => wrong.challenges.push(random.pick(&[0, P])),
                _ => {}
            },
            _ => wrong.challenges.push(1),
        }
    }
    start(script, &wrong);
    for k in 0..logs.count {
        let point = script.random.any();
        script.call(64, k, point);
    }
}

/// The run from its start to a few openings, on the items that `combined_item` gives.
fn open(script: &mut Script, logs: &Logs) -> Openings {
    let run = script.tool.run.as_ref().unwrap();
    let (items, rounds) = (run.items as u64, run.rounds);
    assert!(run.next == Next::Openings && rounds == logs.challenges.len());
    let mut combined = Vec::new();
    for i in 0..items {
        let answer = script.call3(63, logs.count, logs.z, i).to_string();
        combined.push((numbers(&answer)[0], 0));
    }
    // Beyond the end, more logs than there are, and z as it comes.
    for _ in 0..2 {
        let (count, z) = (script.random.below(10), script.random.any());
        let index = script.random.pick(&[0, items - 1, items, 1 << 30, u32::MAX as u64]);
        script.call3(63, count, z, index);
    }
    let mut plan = Plan::of(&mut script.random, Kind::Twisted, combined);
    plan.twists = vec![1; rounds];
    plan.challenges = logs.challenges.clone();
    // The first opening is step n + 1.
    let modes = modes(&mut script.random, 3);
    plan.full = [vec![false; rounds + 1], modes].concat();
    plan.openings = script.random.between(1, 3) as usize;
    go_on(script, &mut plan)
}

/// A log that names neither version has the items of version 1, marks too.
fn of_neither_version(script: &mut Script, logs: &Logs) {
    let random = &mut script.random;
    let (slot, items) = (random.below(logs.count), random.between(1, 8));
    let mut bytes = log(random, 1, items);
    bytes[3..5].copy_from_slice(&random.pick(&[0u16, 3, 257, 258]).to_le_bytes());
    write(script, slot, &bytes);
    for i in 0..items {
        script.call3(63, logs.count, logs.z, i);
    }
}

/// By a verifier of the same n: plain, or one whose twists are ones.
fn check(script: &mut Script, logs: &Logs, openings: &Openings) {
    let rounds = logs.challenges.len();
    let items =
        script.random.between(if rounds == 0 { 1 } else { (1 << (rounds - 1)) + 1 }, 1 << rounds);
    assert!(rounds_of(items as usize) == rounds);
    if script.random.chance(500) {
        script.fill_scratch(&logs.challenges);
        let version = script.random.version();
        script.call(30, items, version);
    } else {
        script.fill_scratch(&[vec![1; rounds], logs.challenges.clone()].concat());
        script.call(31, items, rounds as u64);
    }
    for (point, values) in openings {
        let mut own = Vec::new();
        for k in 0..logs.count {
            let answer = script.call(64, k, *point).to_string();
            own.extend(numbers(&answer));
        }
        for _ in 0..3 {
            falsified(script, logs, *point, &values[..3 * rounds], &own);
        }
        ask(script, logs.count, logs.z, *point, &values[..3 * rounds], &own);
        if script.random.chance(300) {
            noise::verifier_call(script);
        }
    }
    if openings.is_empty() {
        ask(script, logs.count, logs.z, 2, &vec![0; 3 * rounds], &vec![0; logs.count as usize]);
    }
}

/// One thing wrong: a value, a log's value, both so that the sum still holds, a number handed in.
fn falsified(script: &mut Script, logs: &Logs, point: u64, values: &[u64], own: &[u64]) {
    let (mut values, mut own) = (values.to_vec(), own.to_vec());
    let (mut count, mut z, mut point) = (logs.count, logs.z, point);
    let random = &mut script.random;
    let (place, log) = (random.below(values.len() as u64) as usize, random.below(count) as usize);
    match random.below(14) {
        0..=2 => values[place] = random.field(),
        3 => own[log] = random.field(),
        // The sum holds: log 0 has the power z^0.
        4..=5 => {
            values[0] = (values[0] + 1) % P;
            own[0] = (own[0] + 1) % P;
        }
        6 => values[place] = random.pick(&[P, P + 1, u32::MAX as u64]),
        7 => own[log] = random.pick(&[P, P + 1, u32::MAX as u64]),
        8 => count = random.pick(&[0, 9, 10, u32::MAX as u64]),
        9 => z = random.any(),
        10 => point = random.any(),
        11 => drop(values.pop()),
        12 => own.push(0),
        _ => drop(own.pop()),
    }
    ask(script, count, z, point, &values, &own);
}

fn ask(script: &mut Script, count: u64, z: u64, point: u64, values: &[u64], own: &[u64]) {
    script.fill_scratch(&[values, own].concat());
    script.call(41, values.len() as u64, 0);
    script.call3(42, count, z, point);
}
