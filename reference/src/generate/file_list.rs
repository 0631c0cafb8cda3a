//! Files of the three kinds, whole and damaged, read by every call that takes one.

use super::noise::{foreign, RUN_OPS};
use super::rule_list::random_matrix;
use super::script::Script;
use crate::field::P;
use crate::files::{item_size, items_as_given, layout_named, mark, Proof};
use crate::files::{write_items, write_log, write_matrix, write_proof};
use crate::random::Random;

pub fn files(script: &mut Script) {
    script.begin_list();
    for _ in 0..script.random.between(2, 5) {
        let kind = script.random.pick(&[0, 0, 1, 2]);
        let random = &mut script.random;
        let mut bytes = match kind {
            0 => log(random),
            1 => proof(random),
            _ => matrix(random),
        };
        if random.chance(350) {
            damage(random, &mut bytes);
        }
        if random.chance(200) {
            rename(random, &mut bytes);
        }
        if random.chance(50) {
            damage(random, &mut bytes);
        }
        script.fill_file(&bytes);
        // Mostly the calls of its own kind, sometimes those of another.
        let read_as = if script.random.chance(50) { script.random.below(3) } else { kind };
        match read_as {
            0 => read_log(script),
            1 => read_proof(script),
            _ => read_matrix(script),
        }
    }
    claims(script);
}

fn log(random: &mut Random) -> Vec<u8> {
    let (count, version) = (random.below(13), random.version());
    let item = |random: &mut Random| (random.reading(version), random.weight(version));
    let items: Vec<_> = (0..count).map(|_| item(random)).collect();
    let mut bytes = write_log(version, &items);
    if count > 0 && random.chance(350) {
        (0..random.between(1, 2)).for_each(|_| spoil_log(random, &mut bytes));
    }
    bytes
}

pub fn spoil_log(random: &mut Random, log: &mut [u8]) {
    let version = layout_named(log);
    spoil_items(random, version, log.get_mut(7..).unwrap_or_default());
}

/// One item, or two next to each other.
pub fn spoil_items(random: &mut Random, version: u64, bytes: &mut [u8]) {
    let items = bytes.chunks_exact_mut(item_size(version));
    let first = random.below(items.len().max(1) as u64) as usize;
    for item in items.skip(first).take(random.between(1, 2) as usize) {
        spoil_item(random, version, item);
    }
}

/// Its reading or its weight past the limits, both, or its weight at a mark. Two bytes of version 1
/// hold its readings and its mark alone, so that there the weight always is.
fn spoil_item(random: &mut Random, version: u64, item: &mut [u8]) {
    let (mut reading, mut weight) = items_as_given(version, item)[0];
    let way = random.below(8);
    if way > 2 || version == 1 {
        weight = random.weight_over();
    }
    match way {
        0..=4 if version == 2 => reading = random.reading_outside(2),
        5 => reading = mark(version),
        _ => {}
    }
    item.copy_from_slice(&write_items(version, &[(reading, weight)]));
}

/// Another version in the header, known or not: a log of versions 1 and 2 then has the length of the
/// other.
pub fn rename(random: &mut Random, bytes: &mut [u8]) {
    let version: u16 = random.pick(&[0, 1, 1, 2, 2, 3, 257, 258, 512, 65_535]);
    if let Some(named) = bytes.get_mut(3..5) {
        named.copy_from_slice(&version.to_le_bytes());
    }
}

fn proof(random: &mut Random) -> Vec<u8> {
    let rounds = random.pick(&[0, 1, 2, 3, 4, 14, 15, 16, 255 / 12]);
    let mut numbers: Vec<u64> = (0..3 * rounds + 2).map(|_| random.field()).collect();
    if random.chance(200) {
        numbers[random.below(3 * rounds + 2) as usize] = random.pick(&[P, P + 1, u32::MAX as u64]);
    }
    let limit = crate::field::TOTAL_LIMIT;
    let total = match random.below(4) {
        0 => random.pick(&[limit, limit + 1, -limit, -limit - 1, i32::MAX as i64, i32::MIN as i64]),
        _ => random.below(2 * limit as u64) as i64 - limit,
    };
    let messages = numbers[2..].chunks(3).map(|three| [three[0], three[1], three[2]]).collect();
    write_proof(&Proof { total, messages, ends: (numbers[0], numbers[1]) })
}

fn matrix(random: &mut Random) -> Vec<u8> {
    let rounds = random.pick(&[0, 1, 2, 3, 4, 15, 16, 200]);
    let mut matrix = random_matrix(random, rounds, 20);
    let count = matrix.entries.len() as u64;
    if count > 0 && random.chance(600) {
        for _ in 0..random.between(1, 3) {
            let place = random.below(count) as usize;
            let entry = &mut matrix.entries[place];
            let over = (1u32 << rounds.min(15)) as u16;
            match random.below(8) {
                0 => entry.row = random.pick(&[over, 65_535]),
                1 => entry.column = random.pick(&[over, 65_535]),
                2 => entry.value = random.pick(&[0, P as u32, P as u32 + 1, u32::MAX]),
                3 => entry.row = 0,
                4 => entry.column = 0,
                // Two faults in one entry.
                5 => (entry.row, entry.column) = (0, over),
                6 => (entry.row, entry.value) = (0, random.pick(&[0, P as u32])),
                _ => matrix.entries.swap(place, random.below(count) as usize),
            }
        }
    }
    write_matrix(&matrix)
}

/// One change of a file's header, length or any byte.
pub fn damage(random: &mut Random, bytes: &mut Vec<u8>) {
    let length = bytes.len() as u64;
    if random.chance(100) {
        return rename(random, bytes);
    }
    let mut set = |place: u64, value: u64| {
        if let Some(byte) = bytes.get_mut(place as usize) {
            *byte = value as u8;
        }
    };
    match random.below(9) {
        0 => set(random.below(3), random.below(256)),
        1 => set(random.between(3, 4), random.below(4)),
        2 => set(5, random.below(256)),
        3 => set(6, random.below(256)),
        4 => set(7, random.below(256)),
        5 => bytes.truncate(random.below(12) as usize),
        6 => bytes.truncate(random.below(length + 1) as usize),
        7 => bytes.extend((0..random.between(1, 12)).map(|_| random.below(256) as u8)),
        _ => set(random.below(length.max(1)), random.below(256)),
    }
}

/// An index of an item that is there, or just is not, or cannot be.
fn index(script: &mut Script, size: u64) -> u64 {
    let held = script.tool.file.len() as u64 / size;
    match script.random.below(10) {
        0 => script.random.pick(&[u32::MAX as u64, 1 << 30, 1 << 29, 65_536]),
        _ => script.random.below(held + 2),
    }
}

pub fn read_log(script: &mut Script) {
    script.call(52, 0, 0);
    for _ in 0..4 {
        let size = item_size(layout_named(&script.tool.file)) as u64;
        let item = index(script, size);
        script.call(53, item, 0);
    }
}

fn read_proof(script: &mut Script) {
    script.call(54, 0, 0);
    for _ in 0..4 {
        let round = index(script, 12);
        script.call(55, round, 0);
    }
}

fn read_matrix(script: &mut Script) {
    script.call(56, 0, 0);
    for _ in 0..4 {
        let entry = index(script, 8);
        script.call(57, entry, 0);
    }
    let size = 1u64 << script.tool.file.get(5).map_or(0, |&rounds| rounds.min(7));
    let random = &mut script.random;
    let length = match random.below(5) {
        0 => random.pick(&[0, size - 1, size + 1]).min(128),
        _ => size,
    };
    let mut z: Vec<u64> = (0..length).map(|_| random.field()).collect();
    if length > 0 && random.chance(200) {
        z[random.below(length) as usize] = random.pick(&[P, u32::MAX as u64]);
    }
    let places = random.pick(&[0, size - 1, size, size, size + 1, 4_096]);
    let spare = random.below(3);
    script.fill_scratch(&z);
    script.call(3, places, spare);
    script.call(58, 0, 0);
    script.call(5, size + 1, 0);
}

fn claims(script: &mut Script) {
    for _ in 0..3 {
        let random = &mut script.random;
        let rounds = random.below(4);
        let length = match random.below(5) {
            0 => random.below(10),
            _ => 1 << rounds,
        };
        let mut cz: Vec<u64> = (0..length).map(|_| random.field()).collect();
        if length > 0 && random.chance(200) {
            cz[random.below(length) as usize] = random.any();
        }
        let rounds =
            if random.chance(150) { random.pick(&[15, 16, u32::MAX as u64]) } else { rounds };
        let v = if random.chance(300) { random.any() } else { random.usable() };
        script.fill_scratch(&cz);
        script.call(59, rounds, v);
    }
}

/// What the tool itself turns away, and how much it holds.
pub fn file_limits(script: &mut Script) {
    script.begin_list();
    let length = script.random.between(126, 131);
    script.fill_scratch(&vec![1; length as usize]);
    script.call(59, 7, 1);
    if script.random.chance(200) {
        let mut bytes: Vec<u8> = (0..1_026).map(|k| k as u8).collect();
        if script.random.chance(500) {
            bytes[3..5].copy_from_slice(&[2, 0]);
        }
        script.fill_file(&bytes);
        for item in [168, 169, 253, 254] {
            script.call(53, item, 0);
        }
        script.call(57, 126, 0);
        script.call(57, 127, 0);
    }
    script.call(51, 256, 0);
    for _ in 0..10 {
        let random = &mut script.random;
        let edge = random.pick(&[4_095, 4_096, 4_097, u32::MAX as u64]);
        let any = random.any();
        match random.below(4) {
            0 => script.call(3, edge, 0),
            1 => script.call(3, 1, edge),
            2 => script.call3(4, any % 4, edge, any),
            _ => script.call(5, edge.max(4_097), 0),
        };
    }
    foreign(script, &RUN_OPS);
    script.call(5, 2, 0);
    script.call(52, 0, 0);
}
