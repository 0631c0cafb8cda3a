//! The reference against document 01's example, and against itself where two ways lead to a value.

use crate::edges::{self, CHALLENGES, POINT, TRIP};
use crate::field::from_signed;
use crate::files::write_log;
use crate::random::Random;
use crate::replay::{Program, Tool};
use crate::text::listed;
use crate::{
    batch, block_checks, claim_checks, mark_checks, random_runs, rules, trip, version_checks,
};

const PAPER_TRIP: &str = "total -5100
round 0 2147482047 2147478297 2147480147
round 1 2147457147 2147482997 200
ends 2147483237 65
open f 1 2147483277 330 2147483277
open f 2 2147483197 2147483037 2147483237
open g 1 70 2147483637 70
open g 2 60 40 65
accepted
";

/// Claims -5100, -26300, -26650 as field numbers; the rest as document 01 has it.
const PAPER_EDGES: &str = "* claim 0 2147478547
* claim 1 2147457347
* claim 2 2147456997
* reading -1 2147483646
* half 1 1073741824
* rounds 1 0
* messages 1 0
* rounds 2 1
* rounds 3 2
- rounds 32768 15
- weight 1440 taken
- weight 1441 refused 5 0
- total-computed 1073741823 taken
- total-computed 1073741824 refused 7
- total-computed -1073741823 taken
- total-computed -1073741824 refused 7
- total-claimed 1073741823 taken
- total-claimed 1073741824 refused 7
- total-claimed -1073741823 taken
- total-claimed -1073741824 refused 7
- rounds-all 1 1 0
- rounds-all 2 2 1
- rounds-all 3 4 2
- rounds-all 16385 32768 15";

/// -180 + 3 · 5 + 9 · 150 and so on; -370, 11 and 1090 at 2, and -370 + 3 · 11 + 9 · 1090.
const PAPER_BATCH: &str = "combined 1185 1286 1435 2147483644
values 2147483277 11 1090
small 9473 4377 9473 6615 899 8044
true values: yes
another value of the second log: no 0
another value at j 2: no 2";

pub fn run() -> Result<String, String> {
    let numbers: Vec<u8> =
        CHALLENGES.iter().chain(&[POINT]).flat_map(|&c| (c as u32).to_le_bytes()).collect();
    alike("the paper's trip", PAPER_TRIP, &trip::output(&write_log(1, &TRIP), &numbers))?;
    version_checks::run(&numbers)?;
    mark_checks::run(&numbers)?;
    claim_checks::run()?;
    let paper = PAPER_TRIP
        .replace("round", "* message")
        .replace("ends", "* ends")
        .replace("open", "* open");
    let named = paper.lines().filter(|line| line.starts_with('*'));
    for line in named.chain(PAPER_EDGES.lines()) {
        match edges::output().lines().any(|edge| edge == line) {
            true => {}
            false => return Err(format!("edge wanting: {line}")),
        }
    }
    alike("one rule set holds, one fails", "yes no 0", &rule_verdicts())?;
    for line in PAPER_BATCH.lines() {
        match batch::example().lines().any(|given| given == line) {
            true => {}
            false => return Err(format!("compartments wanting: {line}")),
        }
    }
    for modes in 0..16 {
        let full = [0, 1, 2, 3].map(|step| modes >> step & 1 == 1);
        alike(&format!("full mode in steps {full:?}"), PAPER_TRIP, &replayed(full))?;
    }
    for program in [Program::Runs, Program::Files] {
        alike(program.name(), &known_by_paper(program), &known(program))?;
    }
    block_checks::run()?;
    let mut random = Random::new(1);
    for k in 0..400 {
        random_runs::random_run(&mut random).map_err(|what| format!("random run {k}: {what}"))?;
    }
    Ok("selftest passed\n".to_string())
}

pub fn alike(name: &str, wanted: &str, got: &str) -> Result<(), String> {
    match wanted == got {
        true => Ok(()),
        false => Err(format!("{name}: wanted\n{wanted}\ngot\n{got}")),
    }
}

/// The ops that a program has, as REPLAY.md divides them.
fn known_by_paper(program: Program) -> String {
    let ops = match program {
        Program::Runs => vec![1..=8, 10..=27, 30..=44, 60..=64],
        Program::Files => vec![1..=5, 50..=59],
    };
    ops.into_iter().flatten().map(|op: u32| format!("{op} ")).collect()
}

/// Those for which a record of zeros is not bad.
fn known(program: Program) -> String {
    let bad = |&op: &u32| Tool::new(program).step([op, 0, 0, 0]) == "tool bad\n";
    let ops = (0..=100).chain([u32::MAX]).filter(|op| !bad(op));
    ops.map(|op| format!("{op} ")).collect()
}

fn rule_verdicts() -> String {
    let example = rules::example();
    let verdicts: Vec<&str> =
        example.lines().filter_map(|line| line.strip_prefix("verdict ")).collect();
    verdicts.join(" ")
}

/// The paper's trip by calls of the tool, round 0, round 1, the ends and the opening each in its mode,
/// with the answers worded as `trip` words them.
fn replayed(full: [bool; 4]) -> String {
    let tool = &mut Tool::new(Program::Runs);
    tool.lent = (4, 4);
    call(tool, 10, [3, 1, 0]);
    let mut text = pass(tool, 13, 0) + "\n";
    let (mut messages, mut opening) = (Vec::new(), Vec::new());
    for step in 0..=3 {
        match (step > 0 && full[step - 1], full[step]) {
            (false, true) => assert_eq!(pass(tool, 22, 0), "changed"),
            (true, false) => {
                assert_eq!(call(tool, 23, [0; 3]), "changed");
                // The buffers are lent elsewhere.
                (tool.f[0], tool.g[1]) = (u32::MAX as u64, 7);
            }
            _ => {}
        }
        let answer = match (full[step], step) {
            (false, 3) => pass(tool, 14, POINT),
            (false, _) => pass(tool, 13, 0),
            (true, 3) => {
                // A change before the opening has left fold 0 in the buffers.
                if full[2] {
                    lend_fold_0(tool);
                }
                call(tool, 21, [POINT, 0, 0])
            }
            (true, 2) => call(tool, 20, [0; 3]),
            (true, _) => call(tool, 18, [0; 3]),
        };
        let numbers: Vec<u64> =
            answer.split(' ').skip(1).map(|word| word.parse().unwrap()).collect();
        match step {
            0 | 1 => {
                text += &format!("round {step}{}\n", listed(&numbers));
                assert_eq!(call(tool, 19, [CHALLENGES[step], 0, 0]), "challenged");
                messages.push([numbers[0], numbers[1], numbers[2]]);
            }
            2 => text += &format!("ends{}\n", listed(&numbers)),
            _ => {
                for (k, three) in numbers.chunks(3).enumerate() {
                    let name = ["f", "g"][k / 2];
                    text += &format!("open {name} {}{}\n", k % 2 + 1, listed(three));
                }
                opening = numbers;
            }
        }
    }
    text + &verified(tool, &messages, &opening)
}

fn call(tool: &mut Tool, op: u32, numbers: [u64; 3]) -> String {
    let [a, b, c] = numbers.map(|number| number as u32);
    tool.step([op, a, b, c]).trim_end().to_string()
}

/// Opened by `op`, given the trip, closed.
fn pass(tool: &mut Tool, op: u32, point: u64) -> String {
    call(tool, op, [point, 0, 0]);
    for (reading, weight) in TRIP.iter().rev() {
        call(tool, 15, [*reading as u32 as u64, *weight as u64, 0]);
    }
    call(tool, 17, [0; 3])
}

fn lend_fold_0(tool: &mut Tool) {
    for (i, &(reading, weight)) in TRIP.iter().chain(&[(0, 0)]).enumerate() {
        call(tool, 4, [0, i as u64, from_signed(reading as i64)]);
        call(tool, 4, [1, i as u64, weight as u64]);
    }
}

/// By messages and by the proof file, both with the opening.
fn verified(tool: &mut Tool, messages: &[[u64; 3]], opening: &[u64]) -> String {
    let mut answers = Vec::new();
    for by_file in [false, true] {
        tool.scratch = CHALLENGES.to_vec();
        call(tool, 30, [3, 1, 0]);
        for (reading, weight) in TRIP {
            call(tool, 33, [reading as u32 as u64, weight as u64, 0]);
        }
        if by_file {
            call(tool, 24, [256, 0, 0]);
            answers.push(call(tool, 39, [0; 3]));
        } else {
            let total = -5100i64 as u64;
            call(tool, 35, [total & 0xFFFF_FFFF, total >> 32, 0]);
            messages.iter().for_each(|&message| drop(call(tool, 37, message)));
            answers.push(call(tool, 38, [0; 3]));
        }
        tool.scratch = opening.to_vec();
        answers.push(call(tool, 40, [POINT, 0, 0]));
    }
    match answers.iter().all(|answer| answer == "yes") {
        true => "accepted\n".to_string(),
        false => answers.join(" "),
    }
}
