//! What a comparison of logs and runs of two versions has to meet, counted as the calls are made.

use super::met::Met;
use crate::files::{is_taken, item_size, items_as_given, layout_named, log_item, Item};
use crate::random::EDGE_READINGS;
use crate::replay::{Record, Tool};
use crate::state::{Aim, Run};

/// On the prover's side and on the verifier's.
const ON_BOTH_SIDES: [&str; 16] = [
    "start of version 2",
    "start refused with 2",
    "start refused with 2, L bad too",
    "item of version 1 refused with 18",
    "item of version 2 refused with 18",
    "item refused with 5 before its 18",
    "item refused with 8 before its 18",
    "item refused with 10 before its 18",
    "block of version 2 taken",
    "block refused with 18",
    "block refused with 4 before an 18",
    "block refused with 5 before its 18",
    "block refused with 18 before a later 5",
    "block refused with 5 before a later 18",
    "block of version 2's length refused with 4 in version 1",
    "block of version 1's length refused with 4 in version 2",
];

const ANYWHERE: [&str; 32] = [
    "verifier's start refused with 2, challenges bad too",
    "prover's item refused with 18 before its 9",
    "prover's block refused with 18 before its 9",
    "verdict yes in version 2",
    "trip of version 1 accepted",
    "trip of version 2 accepted",
    "trip of version 2 refused with 3",
    "trip of version 2 refused with 7",
    "trip refused with 18",
    "log of version 1 read",
    "log of version 2 read",
    "log refused with 18",
    "log refused with 5 before its 18",
    "log refused with 18 before a later 5",
    "log refused with 5 before a later 18",
    "log of version 1 with the length of 2 refused with 4",
    "log of version 2 with the length of 1 refused with 4",
    "log of version 0 refused with 2",
    "log of version 3 refused with 2",
    "log of version 257 refused with 2",
    "log of version 65535 refused with 2",
    "proof of version 2 refused with 2",
    "matrix of version 2 refused with 2",
    "log_item of version 2",
    "log_item of version 2, out of range",
    "log_item of version 2, nothing",
    "log_item of another version",
    "batch of mixed versions started",
    "batch refused with 18",
    "combined_item of version 2",
    "log_value of version 2",
    "log_value refused with 18",
];

#[derive(Default)]
pub struct Reached(Met);

impl Reached {
    /// The call is made; it leaves what it was handed as it was.
    pub fn note(&mut self, tool: &Tool, record: Record, answer: &str) {
        let [op, a, b, c] = record;
        let answer = answer.trim_end();
        let version = version_of(tool, op);
        let side = if op < 30 { "prover's" } else { "verifier's" };
        let slot = tool.slots.get(a as usize).map_or(&[][..], |bytes| bytes);
        if matches!(op, 15 | 26) && answer.starts_with("refused 18") && is_lent_short(tool) {
            let what = if op == 15 { "item" } else { "block" };
            self.count(&format!("prover's {what} refused with 18 before its 9"));
        }
        match op {
            10 | 30 => self.start(side, tool, record, answer),
            15 | 33 if version != 0 => self.item(side, version, (a as i32, b as u16), answer),
            26 | 43 if version != 0 => self.block(side, version, slot, answer),
            38 | 39 if answer == "yes" && version == 2 => self.count("verdict yes in version 2"),
            52 if !answer.starts_with("tool") => self.log(&tool.file, answer),
            53 => self.log_item(&tool.file, a as usize, answer),
            54 if answer == "refused 2" => self.named("proof", &tool.file, answer),
            56 if answer == "refused 2" => self.named("matrix", &tool.file, answer),
            62 => self.batch(&tool.slots, a as usize, answer),
            63 if (1..=8).contains(&a) => {
                let counted = &tool.slots[..a as usize];
                let has_item = |log: &[u8]| log_item(log, c as usize).is_some();
                if counted.iter().any(|log| layout_named(log) == 2 && has_item(log)) {
                    self.count("combined_item of version 2");
                }
            }
            64 if answer.starts_with("refused 18") => self.count("log_value refused with 18"),
            64 if answer.starts_with("value") && layout_named(slot) == 2 => {
                self.count("log_value of version 2");
            }
            _ => {}
        }
    }

    pub fn note_trip(&mut self, log: &[u8], output: &str) {
        let version = layout_named(log);
        match output.trim_end() {
            "refused 18" => self.count("trip refused with 18"),
            "refused 3" => self.count(&format!("trip of version {version} refused with 3")),
            "refused 7" => self.count(&format!("trip of version {version} refused with 7")),
            output if output.ends_with("accepted") => {
                self.count(&format!("trip of version {version} accepted"));
            }
            _ => {}
        }
    }

    fn count(&mut self, what: &str) {
        self.0.count(what);
    }

    fn start(&mut self, side: &str, tool: &Tool, [_, items, version, _]: Record, answer: &str) {
        let l_is_good = 1 <= items && items <= 32_768;
        let unusable = tool.scratch.iter().any(|&number| number == 0 || number >= 2_147_483_647);
        match answer {
            "started" if version == 2 => self.count(&format!("{side} start of version 2")),
            "refused 2" => {
                self.count(&format!("{side} start refused with 2"));
                if !l_is_good {
                    self.count(&format!("{side} start refused with 2, L bad too"));
                } else if unusable {
                    self.count(&format!("{side} start refused with 2, challenges bad too"));
                }
            }
            _ => {}
        }
    }

    fn item(&mut self, side: &str, version: u64, item: Item, answer: &str) {
        let number = number_of(answer);
        if EDGE_READINGS.contains(&item.0) && (answer == "taken" || number == 18) {
            self.count(&edge(side, version, item.0));
        }
        match number {
            18 => self.count(&format!("{side} item of version {version} refused with 18")),
            number @ (5 | 8 | 10) if outside(version, item) => {
                self.count(&format!("{side} item refused with {number} before its 18"));
            }
            _ => {}
        }
    }

    fn block(&mut self, side: &str, version: u64, bytes: &[u8], answer: &str) {
        let other = 3 - version;
        let mut items = items_as_given(version, bytes).into_iter();
        if number_of(answer) == 4 && items.any(|item| outside(version, item)) {
            self.count(&format!("{side} block refused with 4 before an 18"));
        }
        match number_of(answer) {
            0 if answer == "taken" && !bytes.is_empty() && version == 2 => {
                self.count(&format!("{side} block of version 2 taken"));
            }
            4 if bytes.len() % item_size(other) == 0 => {
                let of = format!("block of version {other}'s length refused with 4");
                self.count(&format!("{side} {of} in version {version}"));
            }
            5 | 18 => self.faults(&format!("{side} block"), version, bytes, answer),
            _ => {}
        }
    }

    /// By the first faulty item, and those after it.
    fn faults(&mut self, name: &str, version: u64, bytes: &[u8], answer: &str) {
        let items = items_as_given(version, bytes);
        let faulty = |&item: &Item| heavy(item) || outside(version, item);
        let first = items.iter().position(faulty).unwrap();
        let (item, later) = (items[first], &items[first + 1..]);
        if number_of(answer) == 18 {
            self.count(&format!("{name} refused with 18"));
            if later.iter().any(|&item| heavy(item)) {
                self.count(&format!("{name} refused with 18 before a later 5"));
            }
        } else if outside(version, item) {
            self.count(&format!("{name} refused with 5 before its 18"));
        } else if later.iter().any(|&item| outside(version, item)) {
            self.count(&format!("{name} refused with 5 before a later 18"));
        }
    }

    fn log(&mut self, file: &[u8], answer: &str) {
        let version = layout_named(file);
        match number_of(answer) {
            0 => self.count(&format!("log of version {version} read")),
            2 => self.named("log", file, answer),
            4 => {
                let (count, other) = (file[5] as usize + 256 * file[6] as usize, 3 - version);
                if file.len() == 7 + item_size(other) * count {
                    let length = format!("with the length of {other} refused with 4");
                    self.count(&format!("log of version {version} {length}"));
                }
            }
            5 | 18 => self.faults("log", version, &file[7..], answer),
            _ => {}
        }
    }

    /// A file refused for the version that it names.
    fn named(&mut self, kind: &str, file: &[u8], answer: &str) {
        let version = file[3] as usize + 256 * file[4] as usize;
        self.count(&format!("{kind} of version {version} refused with {}", number_of(answer)));
    }

    fn log_item(&mut self, file: &[u8], index: usize, answer: &str) {
        let other_version = file.len() > 4 && file[3..5] != [1, 0];
        match (layout_named(file), log_item(file, index)) {
            (2, Some(item)) => {
                self.count("log_item of version 2");
                if outside(2, item) {
                    self.count("log_item of version 2, out of range");
                }
            }
            (2, None) if answer == "nothing" => self.count("log_item of version 2, nothing"),
            (_, Some(_)) if other_version => self.count("log_item of another version"),
            _ => {}
        }
    }

    fn batch(&mut self, slots: &[Vec<u8>], count: usize, answer: &str) {
        let logs = &slots[..count.min(slots.len())];
        let has = |version| logs.iter().any(|log| layout_named(log) == version);
        match number_of(answer) {
            0 if has(1) && has(2) => self.count("batch of mixed versions started"),
            18 => self.count("batch refused with 18"),
            _ => {}
        }
    }

    pub fn add(&mut self, other: &Reached) {
        self.0.add(&other.0);
    }

    pub fn missing(&self) -> String {
        self.0.missing(&[wanted(), wanted_edges()].concat())
    }

    pub fn table(&self) -> String {
        let rarest = wanted_edges().iter().map(|what| self.0.times(what)).min().unwrap();
        let edges = "times or more each reading at a limit, by either side in either version";
        self.0.table(&wanted()) + &format!("{rarest:>8}  {edges}\n")
    }
}

pub const SIDES: [&str; 2] = ["prover's", "verifier's"];

fn wanted() -> Vec<String> {
    let of_side = |side: &str| ON_BOTH_SIDES.map(|what| format!("{side} {what}"));
    let sided = SIDES.iter().flat_map(|side| of_side(side));
    sided.chain(ANYWHERE.map(String::from)).collect()
}

fn wanted_edges() -> Vec<String> {
    let mut wanted = Vec::new();
    for side in SIDES {
        for version in [1, 2] {
            wanted.extend(EDGE_READINGS.map(|reading| edge(side, version, reading)));
        }
    }
    wanted
}

fn edge(side: &str, version: u64, reading: i32) -> String {
    format!("{side} reading {reading} in version {version}")
}

/// Of the run or the verifier that a call is made on; 0 for one that is told none.
pub fn version_of(tool: &Tool, op: u32) -> u64 {
    match op < 30 {
        true => tool.run.as_ref().map_or(0, |run| run.version),
        false => tool.verifier.as_ref().map_or(0, |verifier| verifier.version),
    }
}

/// 0 for an answer that is no refusal.
pub fn number_of(answer: &str) -> u32 {
    let number = answer.strip_prefix("refused ").and_then(|rest| rest.split(' ').next());
    number.map_or(0, |number| number.parse().unwrap())
}

pub fn heavy((_, weight): Item) -> bool {
    weight > 1_440
}

fn outside(version: u64, (reading, _): Item) -> bool {
    !is_taken(version, reading)
}

/// In a pass that changes the mode, with a buffer shorter than the fold.
fn is_lent_short(tool: &Tool) -> bool {
    let aim_of = |run: &Run| Some((run.pass.as_ref()?.aim, run.size()));
    match tool.run.as_ref().and_then(aim_of) {
        Some((Aim::Change(level), size)) => tool.lent.0.min(tool.lent.1) < size >> level,
        _ => false,
    }
}
