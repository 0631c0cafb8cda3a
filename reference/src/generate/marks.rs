//! What a comparison of logs with marks has to meet, counted as the calls are made.

use super::met::Met;
use super::prover_list::numbers;
use super::reached::{heavy, number_of, version_of, SIDES};
use crate::files::{items_as_given, layout_named, log_item, mark, read_log, Item, MOST_ITEMS};
use crate::replay::{Record, Tool};
use crate::state::Run;

/// On the prover's side and on the verifier's, in either version.
const BY_SIDE_AND_VERSION: [&str; 4] = [
    "mark taken",
    "block with a mark taken",
    "mark refused with 5",
    "block refused with 5 at a mark",
];

/// The mark of one version is none in the other.
const BY_SIDE: [&str; 2] =
    ["item of -2147483648 refused with 18 in version 1", "item of -32768 taken in version 2"];

const BY_VERSION: [&str; 8] = [
    "log with a mark read",
    "log refused with 5 at a mark",
    "log_item that hands out a mark",
    "combined_item with a mark",
    "log_value with a mark",
    "trip with a mark accepted",
    "trip of nothing but marks accepted",
    "total 0 of nothing but marks",
];

const WHATEVER_THE_VERSION: [&str; 9] = [
    "combined_item with a mark of a log of neither version",
    "message of nothing but marks in small mode",
    "message of nothing but marks in full mode",
    "ends of nothing but marks in small mode",
    "ends of nothing but marks in full mode",
    "opening of nothing but marks in small mode",
    "opening of nothing but marks in full mode",
    "proof of nothing but marks written",
    "verdict yes of nothing but marks",
];

#[derive(Default)]
pub struct Marks {
    met: Met,
    /// How many were taken in the run's last pass, and how many by the verifier.
    taken: [usize; 2],
    /// Whether the run's total is of nothing but marks.
    of_marks: bool,
}

impl Marks {
    /// The call is made; it leaves what it was handed as it was.
    pub fn note(&mut self, tool: &Tool, record: Record, answer: &str) {
        let [op, a, _, c] = record;
        let answer = answer.trim_end();
        match op {
            10..=12 | 62 if answer == "started" => self.of_marks = false,
            30..=32 if answer == "started" => self.taken[1] = 0,
            13 | 14 | 22 if answer == "opened" => self.taken[0] = 0,
            15 | 26 | 33 | 43 => self.handed_in(tool, record, answer),
            17 | 18 | 20 | 21 | 24 => {
                if let Some(run) = &tool.run {
                    self.given(run, op == 17, answer);
                }
            }
            38 | 39 if answer == "yes" => {
                let items = tool.verifier.as_ref().map(|verifier| verifier.items);
                self.count_if(items == Some(self.taken[1]), "verdict yes of nothing but marks");
            }
            52 => self.log(&tool.file, answer),
            53 => {
                let version = layout_named(&tool.file);
                let marked = answer.starts_with(&format!("item {} ", mark(version)));
                self.count_if(marked, &of(version, "log_item that hands out a mark"));
            }
            63 if (1..=8).contains(&a) => self.combined(&tool.slots[..a as usize], c as usize),
            64 if answer.starts_with("value") => {
                let log = &tool.slots[a as usize];
                let (version, items) = (layout_named(log), items_of(log));
                self.count_if(marks_in(version, &items) > 0, &of(version, "log_value with a mark"));
            }
            _ => {}
        }
    }

    pub fn note_trip(&mut self, log: &[u8], output: &str) {
        if output.trim_end().ends_with("accepted") {
            let (version, items) = (layout_named(log), items_of(log));
            let marks = marks_in(version, &items);
            let all = marks == items.len();
            self.count_if(marks > 0, &of(version, "trip with a mark accepted"));
            self.count_if(all, &of(version, "trip of nothing but marks accepted"));
        }
    }

    /// An item or a block, to the run or to the verifier.
    fn handed_in(&mut self, tool: &Tool, [op, a, b, _]: Record, answer: &str) {
        let (side, version) = ((op >= 30) as usize, version_of(tool, op));
        if version == 0 {
            return;
        }
        let alone = op == 15 || op == 33;
        let items = match tool.slots.get(a as usize) {
            _ if alone => vec![(a as i32, b as u16)],
            Some(block) => items_as_given(version, block),
            None => return,
        };
        let name = |what: &str| of(version, &format!("{} {what}", SIDES[side]));
        if answer == "taken" {
            let marks = marks_in(version, &items);
            self.taken[side] += marks;
            let what = if alone { "mark taken" } else { "block with a mark taken" };
            self.count_if(marks > 0, &name(what));
        } else if number_of(answer) == 5 {
            let what = if alone { "mark refused with 5" } else { "block refused with 5 at a mark" };
            self.count_if(is_heavy_at_mark(version, &items), &name(what));
        }
        if alone {
            self.other_mark(SIDES[side], version, items[0].0, answer);
        }
    }

    fn other_mark(&mut self, side: &str, version: u64, reading: i32, answer: &str) {
        let is_other = reading == mark(3 - version);
        let what = match version {
            1 if number_of(answer) == 18 => "item of -2147483648 refused with 18 in version 1",
            2 if answer == "taken" => "item of -32768 taken in version 2",
            _ => return,
        };
        self.count_if(is_other, &format!("{side} {what}"));
    }

    /// What a run has answered, at the end of a pass in small mode or at once in full mode.
    fn given(&mut self, run: &Run, small: bool, answer: &str) {
        let kind = answer.split(' ').next().unwrap();
        if kind == "total" {
            self.of_marks = answer == "total 0" && self.taken[0] == run.items;
            self.count_if(self.of_marks, &of(run.version, "total 0 of nothing but marks"));
        }
        let mode = if small { "small" } else { "full" };
        match kind {
            "message" | "ends" | "opening" => {
                let what = format!("{kind} of nothing but marks in {mode} mode");
                self.count_if(self.of_marks && is_zero_in_f(kind, answer), &what);
            }
            "written" => self.count_if(self.of_marks, "proof of nothing but marks written"),
            _ => {}
        }
    }

    fn log(&mut self, file: &[u8], answer: &str) {
        let version = layout_named(file);
        let items = items_as_given(version, file.get(7..).unwrap_or_default());
        let marked = marks_in(version, &items) > 0;
        match number_of(answer) {
            0 if answer.starts_with("log") => {
                self.count_if(marked, &of(version, "log with a mark read"));
            }
            5 => {
                let heavy = is_heavy_at_mark(version, &items);
                self.count_if(heavy, &of(version, "log refused with 5 at a mark"));
            }
            _ => {}
        }
    }

    fn combined(&mut self, logs: &[Vec<u8>], index: usize) {
        for log in logs {
            let item = log_item(log, index);
            if item.is_some_and(|(reading, _)| reading == mark(layout_named(log))) {
                self.count(&match log[3..5] {
                    [version @ (1 | 2), 0] => of(version as u64, "combined_item with a mark"),
                    _ => "combined_item with a mark of a log of neither version".to_string(),
                });
            }
        }
    }

    fn count_if(&mut self, met: bool, what: &str) {
        if met {
            self.count(what);
        }
    }

    fn count(&mut self, what: &str) {
        self.met.count(what);
    }

    pub fn add(&mut self, other: &Marks) {
        self.met.add(&other.met);
    }

    pub fn missing(&self) -> String {
        self.met.missing(&wanted())
    }

    pub fn table(&self) -> String {
        self.met.table(&wanted())
    }
}

fn wanted() -> Vec<String> {
    let mut wanted = Vec::new();
    for side in SIDES {
        for what in BY_SIDE_AND_VERSION {
            wanted.extend([1, 2].map(|version| of(version, &format!("{side} {what}"))));
        }
        wanted.extend(BY_SIDE.map(|what| format!("{side} {what}")));
    }
    for what in BY_VERSION {
        wanted.extend([1, 2].map(|version| of(version, what)));
    }
    wanted.extend(WHATEVER_THE_VERSION.map(String::from));
    wanted
}

fn of(version: u64, what: &str) -> String {
    format!("{what}, version {version}")
}

/// Another trip's items may have come after the total, or other numbers into the buffers.
fn is_zero_in_f(kind: &str, answer: &str) -> bool {
    let numbers = numbers(answer);
    let of_f = match kind {
        "message" => 3,
        "ends" => 1,
        _ => numbers.len() / 2,
    };
    numbers[..of_f].iter().all(|&number| number == 0)
}

/// Of a log that was read.
fn items_of(log: &[u8]) -> Vec<Item> {
    read_log(log, MOST_ITEMS).unwrap().items
}

fn marks_in(version: u64, items: &[Item]) -> usize {
    items.iter().filter(|(reading, _)| *reading == mark(version)).count()
}

/// Whether the item that a 5 names is marked.
fn is_heavy_at_mark(version: u64, items: &[Item]) -> bool {
    items.iter().find(|&&item| heavy(item)).is_some_and(|(reading, _)| *reading == mark(version))
}
