//! Drives a verifier through the run that the tool holds: its items, its total and messages or its
//! proof file, its openings; true, or with one number changed.

use super::blocks::{self, Taker};
use super::noise;
use super::plan::{in_record, Kind, Plan};
use super::prover_list::Openings;
use super::script::Script;
use crate::field::{from_signed, inverse, mul, P};
use crate::state::Run;
use crate::vector::next_claim;

struct Given {
    total: i64,
    messages: Vec<[u64; 3]>,
    challenges: Vec<u64>,
    twists: Vec<u64>,
    has_file: bool,
}

pub fn drive(script: &mut Script, plan: &Plan, openings: &Openings) {
    let run: &Run = script.tool.run.as_ref().unwrap();
    if run.version != plan.version() || run.items != plan.items.len() {
        return;
    }
    let complete = run.challenges.len() == run.rounds;
    let mut given = Given {
        total: plan.claim.map_or(run.total, |claim| claim as i64),
        messages: run.messages.clone(),
        challenges: if complete { &run.challenges } else { &plan.challenges }.clone(),
        twists: run.twists.clone(),
        has_file: run.plain && run.ends.is_some(),
    };
    if script.random.chance(250) {
        falsify(script, &mut given);
    }
    start(script, plan, &given);
    for _ in 0..2 * plan.items.len() + 40 {
        if script.random.chance(plan.noise / 2) {
            noise::verifier_call(script);
        }
        if script.random.chance(20) {
            check_opening(script, openings);
        }
        if step(script, plan, &given) {
            break;
        }
    }
    script.call(38, 0, 0);
    if script.random.chance(300) {
        (0..4).for_each(|_| noise::verifier_call(script));
        script.call(38, 0, 0);
    }
    for _ in 0..openings.len() + 1 {
        check_opening(script, openings);
    }
}

fn falsify(script: &mut Script, given: &mut Given) {
    let random = &mut script.random;
    let number = match random.below(2) {
        0 => random.field(),
        _ => random.any(),
    };
    match given.messages.len() as u64 {
        0 => given.total += random.pick(&[-1, 1, 1 << 31]),
        _ if random.chance(200) => given.total += random.pick(&[-1, 1, 1 << 31, (1 << 31) - 1]),
        count => given.messages[random.below(count) as usize][random.below(3) as usize] = number,
    }
}

fn start(script: &mut Script, plan: &Plan, given: &Given) {
    let items = plan.items.len() as u64;
    let rounds = given.twists.len() as u64;
    if script.random.chance(100) {
        noise::refused_start(script);
    }
    match plan.kind {
        Kind::Plain(version) => {
            script.fill_scratch(&given.challenges);
            script.call(30, items, version);
        }
        Kind::Twisted => {
            script.fill_scratch(&[&given.twists[..], &given.challenges[..]].concat());
            script.call(31, items, rounds);
        }
        Kind::Rule(v) => {
            script.fill_scratch(&given.challenges);
            script.call(32, rounds, v);
        }
    }
}

/// True once the verdict was asked for in its turn, or nothing more can come of the list.
fn step(script: &mut Script, plan: &Plan, given: &Given) -> bool {
    let Some(verifier) = &script.tool.verifier else {
        return true;
    };
    let (taken, passed) = (verifier.taken, verifier.passed);
    if verifier.version != plan.version() || verifier.items != plan.items.len() {
        return true;
    }
    let closed = verifier.claim.is_some();
    if script.random.chance(if closed { plan.faults / 2 } else { plan.faults }) {
        blocks::faulty(script, plan, Taker::Verifier);
        return false;
    }
    let verifier = script.tool.verifier.as_ref().unwrap();
    if verifier.claim.is_some() {
        let over = verifier.verdict.is_some() || passed == verifier.rounds;
        let Some(&[even, cross, odd]) = given.messages.get(passed).filter(|_| !over) else {
            script.call(38, 0, 0);
            return true;
        };
        // A number that a verifier refuses stays refused: go on with the next one below it.
        if script.call3(37, even, cross, odd) == "refused 11" {
            script.call3(37, even.min(1), cross.min(1), odd.min(1));
        }
    } else if taken < plan.items.len() && script.random.chance(plan.blocks) {
        blocks::give(script, plan, Taker::Verifier);
    } else if taken < plan.items.len() {
        let (a, b) = plan.items[taken];
        if script.random.chance(if plan.plain() { 60 } else { 15 }) {
            let over = script.random.pick(&[P, P + 1, u32::MAX as u64]);
            let weight = script.random.weight_over() as u64;
            let reading = in_record(script.random.reading_outside(plan.version()));
            match script.random.below(6) {
                0 => script.call(33, a, b % 1_441),
                1 => script.call(33, a, weight),
                2 => script.call(33, reading, b % 1_441),
                3 => script.call(33, reading, weight),
                4 => script.call(34, over, b),
                _ => script.call(34, a, over),
            };
            return false;
        }
        script.call(if plan.plain() { 33 } else { 34 }, a, b);
    } else if script.random.chance(60) {
        // One item more than it wants.
        let (reading, weight) = noise::near_item(&mut script.random, plan.version());
        script.call(33, in_record(reading), weight);
    } else if given.has_file && script.random.chance(500) {
        proof_file(script);
    } else {
        close(script, plan, given);
    }
    false
}

fn close(script: &mut Script, plan: &Plan, given: &Given) {
    let total = given.total as u64;
    if plan.plain() {
        if script.random.chance(150) {
            // Equal modulo P or in 32 bits, and out of limits.
            let shift = script.random.pick(&[-(P as i64), P as i64, 1 << 32]);
            claim_total(script, given.total + shift);
        }
        if claim_total(script, given.total) == "refused 7" {
            claim_total(script, 1);
        }
    } else if script.call(36, total, 0) == "refused 11" {
        script.call(36, 1, 0);
    }
}

fn claim_total(script: &mut Script, total: i64) -> &str {
    let bits = total as u64;
    script.call(35, bits & 0xFFFF_FFFF, bits >> 32)
}

/// The run's file, now and then with a byte or its length changed.
fn proof_file(script: &mut Script) {
    let written = script.call(24, 256, 0).starts_with("written");
    match script.random.below(10) {
        0..=4 if written => {
            for _ in 0..script.random.between(1, 2) {
                damage_proof(script);
            }
        }
        5 if written => forge_proof(script),
        _ => {}
    }
    script.call(8, 0, 0);
    script.call(39, 0, 0);
}

fn damage_proof(script: &mut Script) {
    let random = &mut script.random;
    let length = 18 + 12 * script.tool.run.as_ref().unwrap().rounds as u64;
    let (op, a, b) = match random.below(12) {
        0 => (7, random.below(length), 0),
        1 => (7, length + 1, 0),
        2 => (7, random.below(12), 0),
        3 => (6, random.below(3), random.below(256)),
        4 => (6, random.between(3, 4), random.below(3)),
        5 => (6, 5, random.pick(&[0, 1, 2, 3, 15, 16, 255])),
        6 => (6, 9, random.pick(&[63, 64, 192, 191])),
        // The highest byte of a message's number or of an end value.
        7..=9 => (6, 13 + 4 * random.below((length - 10) / 4), random.below(256)),
        _ => (6, random.between(10, length - 1), random.below(256)),
    };
    script.call(op, a, b);
}

/// Another cross in the last message passes every round; end values made to fit the claim that it
/// leads to differ from the verifier's own.
fn forge_proof(script: &mut Script) {
    let run = script.tool.run.as_ref().unwrap();
    let (rounds, end) = (run.rounds, run.ends.unwrap().0);
    let claim = match run.messages.last() {
        Some(&[even, _, odd]) => {
            let cross = script.random.field();
            write_number(script, 10 + 12 * (rounds - 1) + 4, cross);
            let run = script.tool.run.as_ref().unwrap();
            next_claim([even, cross, odd], run.challenges[rounds - 1])
        }
        None => from_signed(run.total),
    };
    let ends = match end != 0 && script.random.chance(500) {
        true => (end, mul(claim, inverse(end))),
        false => (claim, 1),
    };
    write_number(script, 10 + 12 * rounds, ends.0);
    write_number(script, 14 + 12 * rounds, ends.1);
}

fn write_number(script: &mut Script, place: usize, number: u64) {
    for (k, byte) in (number as u32).to_le_bytes().into_iter().enumerate() {
        script.call(6, (place + k) as u64, byte as u64);
    }
}

fn check_opening(script: &mut Script, openings: &Openings) {
    if openings.is_empty() {
        script.call(40, 2, 0);
        return;
    }
    let random = &mut script.random;
    let (mut point, mut values) = openings[random.below(openings.len() as u64) as usize].clone();
    let place = random.below(values.len() as u64) as usize;
    match random.below(8) {
        0 => values[place] = random.any(),
        1 => values.truncate(place),
        2 => values.push(1),
        3 => point = random.any(),
        _ => {}
    }
    script.fill_scratch(&values);
    script.call(40, point, 0);
}
