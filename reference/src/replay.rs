//! The call-list tools of REPLAY.md: `replay` for runs and verifiers, `replay_files` for files and
//! rules. What one of them does is unknown to the other, but for the first five ops. Where a record
//! is both `tool bad` and a call without a run or verifier, it is `tool bad`: the record is read
//! before the call is made.

mod file_calls;

use crate::batch;
use crate::files::Item;
use crate::prover::{Answer, Buffers, Call, Stack};
use crate::refusal::Refusal;
use crate::state::Run;
use crate::text::{hex, listed};
use crate::verifier::Verifier;
use std::fmt::Display;

pub const PLACES: usize = 4_096;
pub const SCRATCH: usize = 128;
const PROOF: usize = 256;
const SLOTS: usize = 8;
pub const SLOT: usize = 256;
const BAD: &str = "tool bad";
const FULL: &str = "tool full";

pub type Record = [u32; 4];

#[derive(Clone, Copy, Debug, PartialEq)]
pub enum Program {
    Runs,
    Files,
}

impl Program {
    pub fn name(self) -> &'static str {
        match self {
            Program::Runs => "replay",
            Program::Files => "replay_files",
        }
    }
}

#[derive(Clone, PartialEq)]
pub struct Tool {
    pub program: Program,
    pub f: Vec<u64>,
    pub g: Vec<u64>,
    pub lent: (usize, usize),
    pub scratch: Vec<u64>,
    /// How many of its first numbers are opening values.
    pub opened: usize,
    pub proof: [u8; PROOF],
    pub proof_length: usize,
    pub file: Vec<u8>,
    pub slots: [Vec<u8>; SLOTS],
    pub run: Option<Run>,
    pub verifier: Option<Verifier>,
}

/// All that a stream of records prints.
pub fn output(program: Program, input: &[u8]) -> String {
    let mut tool = Tool::new(program);
    input.chunks_exact(16).map(|record| tool.step(decode(record))).collect()
}

pub fn encode(record: &Record) -> Vec<u8> {
    record.iter().flat_map(|number| number.to_le_bytes()).collect()
}

fn decode(bytes: &[u8]) -> Record {
    [0, 4, 8, 12].map(|k| u32::from_le_bytes(bytes[k..k + 4].try_into().unwrap()))
}

fn answered<T: Display>(answer: Result<T, Refusal>) -> String {
    answer.map_or_else(|refusal| refusal.to_string(), |value| value.to_string())
}

fn plain_item(reading: u32, weight: u32) -> Option<Item> {
    Some((reading as i32, u16::try_from(weight).ok()?))
}

/// The first a numbers of a list and the next b of it.
fn two_slices(numbers: &[u64], a: u32, b: u32) -> Option<(&[u64], &[u64])> {
    let (a, b) = (a as usize, b as usize);
    Some((numbers.get(..a)?, numbers.get(a..a + b)?))
}

impl Tool {
    pub fn new(program: Program) -> Tool {
        Tool {
            program,
            f: vec![0; PLACES],
            g: vec![0; PLACES],
            lent: (0, 0),
            scratch: Vec::new(),
            opened: 0,
            proof: [0; PROOF],
            proof_length: 0,
            file: Vec::new(),
            slots: Default::default(),
            run: None,
            verifier: None,
        }
    }

    /// The lines that one record prints, each with its end.
    pub fn step(&mut self, [op, a, b, c]: Record) -> String {
        let (wide_a, wide_b) = (a as u64, b as u64);
        let lines = match (self.program, op) {
            (_, 1..=5) | (Program::Runs, 6..=8 | 41) => self.own(op, a as usize, b as usize, c),
            (Program::Runs, 10..=12 | 62) => self.start_prover(op, wide_a, wide_b),
            (Program::Runs, 13..=24 | 26..=27) => self.prover(op, a, b),
            (Program::Runs, 25) => self.claim(),
            (Program::Runs, 30..=32) => self.start_verifier(op, wide_a, wide_b),
            (Program::Runs, 33..=40 | 42..=44) => self.verifier(op, a, b, c),
            (Program::Runs, 60..=61) => self.write_slot(op, a as usize, b),
            (Program::Runs, 63..=64) => self.of_logs(op, a, wide_b, c as usize),
            (Program::Files, 50..=51) => self.write_file(op, a),
            (Program::Files, 52..=59) => self.read_file(op, a, wide_b),
            _ => BAD.to_string(),
        };
        match lines.is_empty() {
            true => lines,
            false => lines + "\n",
        }
    }

    fn own(&mut self, op: u32, a: usize, b: usize, c: u32) -> String {
        match op {
            1 => self.scratch.clear(),
            2 if self.scratch.len() == SCRATCH => return FULL.to_string(),
            2 => self.scratch.push(a as u64),
            3 if a <= PLACES && b <= PLACES => self.lent = (a, b),
            4 if a == 0 && b < PLACES => self.f[b] = c as u64,
            4 if a == 1 && b < PLACES => self.g[b] = c as u64,
            5 if a <= PLACES => return self.dump(a),
            6 if a < PROOF && b <= 255 => self.proof[a] = b as u8,
            7 if a <= PROOF => self.proof_length = a,
            41 if a <= SCRATCH => self.opened = a,
            8 => {
                let bytes = &self.proof[..self.proof_length];
                return format!("proof {} {}", self.proof_length, hex(bytes));
            }
            _ => return BAD.to_string(),
        }
        String::new()
    }

    fn write_slot(&mut self, op: u32, slot: usize, byte: u32) -> String {
        match op {
            _ if slot >= SLOTS => return BAD.to_string(),
            60 => self.slots[slot].clear(),
            _ if byte > 255 => return BAD.to_string(),
            _ if self.slots[slot].len() == SLOT => return FULL.to_string(),
            _ => self.slots[slot].push(byte as u8),
        }
        String::new()
    }

    fn of_logs(&self, op: u32, a: u32, b: u64, index: usize) -> String {
        if op == 63 {
            return format!("number {}", batch::combined_item(a as u64, &self.slots, b, index));
        }
        match self.slots.get(a as usize) {
            Some(log) => answered(batch::log_value(log, b).map(|value| format!("value {value}"))),
            None => BAD.to_string(),
        }
    }

    fn dump(&self, places: usize) -> String {
        let stack_line = |name: &str, stack: &Stack| {
            let entries = stack.iter().map(|(level, value)| format!(" {level}:{value}"));
            format!("{name}-stack {}{}\n", stack.len(), entries.collect::<String>())
        };
        let stacks = match self.run.as_ref().and_then(Run::stacks) {
            Some((f, g)) => stack_line("f", &f) + &stack_line("g", &g),
            None => String::new(),
        };
        let (f, g) = (listed(&self.f[..places]), listed(&self.g[..places]));
        format!("{stacks}f-buffer{f}\ng-buffer{g}")
    }

    fn start_prover(&mut self, op: u32, a: u64, b: u64) -> String {
        let run = match op {
            10 => Run::start_plain(a, b),
            11 => Run::start_twisted(a, &self.scratch),
            12 => Run::start_rule(a, b),
            _ => batch::start(a, &self.slots, b, &self.scratch),
        };
        answered(run.map(|run| {
            self.run = Some(run);
            "started"
        }))
    }

    fn prover(&mut self, op: u32, a: u32, b: u32) -> String {
        let (number, second) = (a as u64, b as u64);
        let call = match op {
            13 => Call::Open,
            14 => Call::OpenAt(number),
            15 => match plain_item(a, b) {
                Some((reading, weight)) => Call::Item(reading, weight),
                None => return BAD.to_string(),
            },
            16 => Call::FieldItem(number, second),
            17 => Call::Close,
            18 => Call::Message,
            19 => Call::Challenge(number),
            20 => Call::Ends,
            21 => Call::Opening(number),
            22 => Call::ToFull,
            23 => Call::ToSmall,
            26 => match self.slots.get(a as usize) {
                Some(block) => Call::Items(block),
                None => return BAD.to_string(),
            },
            27 => match two_slices(&self.scratch, a, b) {
                Some((first, second)) => Call::FieldItems(first, second),
                None => return BAD.to_string(),
            },
            _ if a as usize > PROOF => return BAD.to_string(),
            _ => Call::WriteProof(a as usize),
        };
        let Some(run) = &mut self.run else {
            return "no run".to_string();
        };
        let (f, g) = (&mut self.f[..self.lent.0], &mut self.g[..self.lent.1]);
        let answer = run.call(call, &mut Buffers { f, g });
        if let Ok(Answer::Written(bytes)) = &answer {
            self.proof[..bytes.len()].copy_from_slice(bytes);
            self.proof_length = bytes.len();
        }
        answered(answer)
    }

    fn claim(&self) -> String {
        match &self.run {
            Some(run) => format!("claim {}", run.claim()),
            None => "no run".to_string(),
        }
    }

    fn start_verifier(&mut self, op: u32, a: u64, b: u64) -> String {
        let verifier = match op {
            30 => Verifier::start_plain(a, b, &self.scratch),
            31 if b > self.scratch.len() as u64 => return BAD.to_string(),
            31 => {
                let (twists, challenges) = self.scratch.split_at(b as usize);
                Verifier::start_twisted(a, twists, challenges)
            }
            _ => Verifier::start_rule(a, b, &self.scratch),
        };
        answered(verifier.map(|verifier| {
            self.verifier = Some(verifier);
            "started"
        }))
    }

    fn verifier(&mut self, op: u32, a: u32, b: u32, c: u32) -> String {
        let item = plain_item(a, b);
        let block = self.slots.get(a as usize);
        let slices = two_slices(&self.scratch, a, b);
        let bad = match op {
            33 => item.is_none(),
            43 => block.is_none(),
            44 => slices.is_none(),
            _ => false,
        };
        if bad {
            return BAD.to_string();
        }
        let Some(verifier) = &mut self.verifier else {
            return "no verifier".to_string();
        };
        let numbers = [a, b, c].map(u64::from);
        match op {
            33 => answered(item.map(|(r, w)| verifier.item(r, w).map(|_| "taken")).unwrap()),
            34 => answered(verifier.field_item(numbers[0], numbers[1]).map(|_| "taken")),
            35 => {
                let total = (numbers[1] << 32 | numbers[0]) as i64;
                answered(verifier.close(total).map(|_| "closed"))
            }
            36 => answered(verifier.close_claim(numbers[0]).map(|_| "closed")),
            37 => answered(verifier.message(numbers).map(|verdict| match verdict {
                None => "passed".to_string(),
                Some(no) => no.to_string(),
            })),
            38 => answered(verifier.verdict()),
            39 => answered(verifier.proof(&self.proof[..self.proof_length])),
            42 => {
                let (values, logs) = self.scratch.split_at(self.opened.min(self.scratch.len()));
                let batch =
                    verifier.check_batch(numbers[0], [numbers[1], numbers[2]], values, logs);
                answered(batch)
            }
            43 => answered(verifier.items(block.unwrap()).map(|_| "taken")),
            44 => {
                let (first, second) = slices.unwrap();
                answered(verifier.field_items(first, second).map(|_| "taken"))
            }
            _ => answered(verifier.check_opening(numbers[0], &self.scratch).map(
                |fault| match fault {
                    None => "yes".to_string(),
                    Some((vector, j)) => format!("no {vector} {j}"),
                },
            )),
        }
    }
}
