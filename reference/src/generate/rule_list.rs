//! A rule check: three matrix files, their products by the tool and the claim, for a twisted run.

use super::plan::{Kind, Plan};
use super::script::Script;
use crate::field::{inverse, mul};
use crate::files::{write_matrix, Entry, Matrix};
use crate::random::Random;

/// The products as a run, planned by `planned`.
pub fn rule_check(script: &mut Script, planned: &mut Random) -> Plan {
    script.begin_list();
    let random = &mut script.random;
    let rounds = random.below(5) as usize;
    let size = 1 << rounds;
    let v = random.usable();
    let z: Vec<u64> = (0..size).map(|_| random.usable()).collect();
    let [a, b] = [(); 2].map(|()| random_matrix(random, rounds, 40));
    let az = product(script, &a, &z);
    let bz = product(script, &b, &z);
    let c = match script.random.chance(700) {
        true => matching(&az, &bz, &z, rounds),
        false => random_matrix(&mut script.random, rounds, 40),
    };
    let cz = product(script, &c, &z);
    script.fill_scratch(&cz);
    let claim = script.call(59, rounds as u64, v).strip_prefix("claim ").unwrap().parse().unwrap();
    let items = az.into_iter().zip(bz).collect();
    let mut plan = Plan::of(planned, Kind::Rule(v), items);
    plan.claim = Some(claim);
    plan
}

/// Entries in order, with places met twice.
pub fn random_matrix(random: &mut Random, rounds: usize, most: u64) -> Matrix {
    let size = 1 << rounds.min(15);
    let index = |random: &mut Random| random.below(size) as u16;
    let count = random.below(most + 1);
    let mut places: Vec<_> = (0..count).map(|_| (index(random), index(random))).collect();
    places.sort();
    let entry = |(row, column)| Entry { row, column, value: random.usable() as u32 };
    Matrix { rounds, entries: places.into_iter().map(entry).collect() }
}

/// A diagonal C with Cz = Az times Bz in every row.
fn matching(az: &[u64], bz: &[u64], z: &[u64], rounds: usize) -> Matrix {
    let value = |i: usize| mul(mul(az[i], bz[i]), inverse(z[i])) as u32;
    let entry = |i: usize| Entry { row: i as u16, column: i as u16, value: value(i) };
    let entries = (0..z.len()).map(entry).filter(|entry| entry.value != 0);
    Matrix { rounds, entries: entries.collect() }
}

fn product(script: &mut Script, matrix: &Matrix, z: &[u64]) -> Vec<u64> {
    script.fill_file(&write_matrix(matrix));
    script.call(56, 0, 0);
    script.fill_scratch(z);
    if script.random.chance(200) {
        script.call(3, z.len() as u64 - 1, 0);
        script.call(58, 0, 0);
    }
    script.call(3, z.len() as u64 + 1, 0);
    script.call(58, 0, 0);
    script.call(5, z.len() as u64 + 1, 0);
    script.tool.f[..z.len()].to_vec()
}
