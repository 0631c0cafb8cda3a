//! The two files of `trip`, whole and damaged.

use super::file_list::{damage, spoil_log};
use super::plan::{from_record, light_items, plain_items};
use crate::field::{within_limits, P};
use crate::files::{mark, write_log, Item};
use crate::random::Random;
use crate::vector::{plain_vectors, rounds_of};

/// None for a file that is not there.
pub struct TripFiles {
    pub log: Option<Vec<u8>>,
    pub numbers: Option<Vec<u8>>,
    pub rounds: usize,
}

pub fn trip_files(random: &mut Random) -> TripFiles {
    let items = match random.below(40) {
        0..=14 => random.between(1, 5),
        15..=30 => random.between(6, 40),
        31..=36 => (1 << random.between(3, 10)) + random.below(3) - 1,
        37 => random.between(41, 2_000),
        _ => random.pick(&[4_095, 4_096, 4_097, 5_000, 32_768, 32_769]),
    };
    let damaged = random.chance(450);
    let version = random.version();
    let trip = match items > 100 {
        // Long trips would leave the total's limits with large products.
        true => light_items(random, version, items as usize),
        false => plain_items(random, version, items as usize),
    };
    let mut trip: Vec<Item> = trip.iter().map(from_record).collect();
    // Of nothing but marks, long ones too.
    if random.chance(80) {
        trip.iter_mut().for_each(|item| item.0 = mark(version));
    }
    let rounds = rounds_of(trip.len());
    let mut numbers: Vec<u32> = (0..=rounds).map(|_| random.usable() as u32).collect();
    let large = !within_limits(plain_vectors(version, &trip).2);
    if damaged && random.chance(300) || large && random.chance(300) {
        let place = random.below(rounds as u64 + 1) as usize;
        numbers[place] = random.pick(&[0, P as u32, P as u32 + 1, u32::MAX]);
    }
    if damaged && random.chance(30) {
        trip.clear();
    }
    let mut log = write_log(version, &trip);
    if damaged && random.chance(if version == 2 { 450 } else { 200 }) {
        spoil_log(random, &mut log);
    }
    let mut numbers: Vec<u8> = numbers.iter().flat_map(|number| number.to_le_bytes()).collect();
    if damaged && random.chance(400) {
        damage(random, &mut log);
    }
    if damaged && random.chance(250) {
        match random.below(3) {
            0 => numbers.truncate(random.below(4 * rounds as u64 + 4) as usize),
            1 => numbers.extend([1, 0, 0, 0]),
            _ => numbers.push(0),
        }
    }
    let log = (!damaged || !random.chance(40)).then_some(log);
    let numbers = (!damaged || !random.chance(60)).then_some(numbers);
    TripFiles { log, numbers, rounds }
}
