//! What a comparison has covered. What it should reach and did not makes it fail.

use crate::generate::blocks::{Counts, ALWAYS_REFUSED, WHERE};
use crate::generate::claims::Claims;
use crate::generate::marks::Marks;
use crate::generate::reached::Reached;
use crate::generate::returns::Returns;
use crate::generate::script::Script;

/// Blocks and batches stand apart from the other calls of a prover and a verifier.
const GROUPS: [&str; 11] = [
    "trip",
    "prover",
    "verifier",
    "files and rules",
    "items",
    "field_items",
    "verifier's items",
    "its field_items",
    "start_batch",
    "log_value",
    "check_batch",
];

/// The refusals that documents 01 and 02 allow in each group.
const WANTED: [&[usize]; GROUPS.len()] = [
    &[1, 2, 3, 4, 5, 6, 7, 18],
    &[2, 3, 5, 6, 7, 8, 9, 10, 16, 18],
    &[1, 2, 3, 4, 5, 6, 7, 8, 10, 11, 12, 16, 18],
    &[1, 2, 3, 4, 5, 6, 7, 9, 11, 13, 14, 15, 16, 18],
    &[4, 5, 8, 9, 10, 18],
    &[8, 9, 10, 16],
    &[4, 5, 8, 10, 18],
    &[8, 10, 16],
    &[1, 2, 3, 4, 5, 6, 10, 17, 18],
    &[1, 2, 3, 4, 5, 6, 18],
    &[6, 10, 11, 17],
];

/// How a batch that was checked can end.
const FOUND: [&str; 3] = ["yes", "no at 0", "no at a j"];

#[derive(Default)]
pub struct Report {
    /// By group, then by refusal number.
    refused: [[u64; 19]; GROUPS.len()],
    answered: [u64; GROUPS.len()],
    blocks: Counts,
    yes: u64,
    no: u64,
    batches: [u64; FOUND.len()],
    reached: Reached,
    returns: Returns,
    marks: Marks,
    claims: Claims,
    trips: u64,
    lists: u64,
    pub programs: u64,
}

impl Report {
    pub fn count_trip(&mut self, log: &[u8], output: &str) {
        self.trips += 1;
        self.reached.note_trip(log, output);
        self.marks.note_trip(log, output);
        self.count(0, output);
    }

    pub fn count_script(&mut self, script: &Script) {
        self.lists += script.lists.len() as u64;
        for (record, answer) in script.records.iter().zip(&script.answers) {
            let group = match record[0] {
                10..=24 => 1,
                30..=40 => 2,
                52..=59 => 3,
                26 => 4,
                27 => 5,
                43 => 6,
                44 => 7,
                62 => 8,
                64 => 9,
                42 => 10,
                _ => continue,
            };
            self.count(group, answer);
            if record[0] == 38 || record[0] == 39 {
                self.yes += answer.starts_with("yes") as u64;
                self.no += answer.starts_with("no ") as u64;
            }
        }
        self.count_batches(script);
        self.reached.add(&script.reached);
        self.returns.add(&script.returns);
        self.marks.add(&script.marks);
        self.claims.add(&script.claims);
        let counted = self.blocks.iter_mut().flatten().flatten();
        for (sum, count) in counted.zip(script.blocks.iter().flatten().flatten()) {
            *sum += count;
        }
    }

    fn count_batches(&mut self, script: &Script) {
        for (record, answer) in script.records.iter().zip(&script.answers) {
            match (record[0], answer.trim_end()) {
                (42, "yes") => self.batches[0] += 1,
                (42, "no 0") => self.batches[1] += 1,
                (42, answer) if answer.starts_with("no ") && answer != "no verifier" => {
                    self.batches[2] += 1;
                }
                _ => {}
            }
        }
    }

    fn count(&mut self, group: usize, answer: &str) {
        let mut words = answer.split_whitespace();
        match (words.next(), words.next()) {
            (Some("refused"), Some(number)) => {
                self.refused[group][number.parse::<usize>().unwrap()] += 1;
            }
            (Some("tool"), _) | (Some("no"), Some("run" | "verifier")) => {}
            _ => self.answered[group] += 1,
        }
    }

    pub fn finish(&self) -> Result<String, String> {
        let missing = self.missing_refusals()
            + &self.missing_blocks()
            + &self.missing_batches()
            + &self.reached.missing()
            + &self.returns.missing()
            + &self.marks.missing()
            + &self.claims.missing();
        match missing.is_empty() {
            true => Ok(self.table()),
            false => Err(missing + &self.table()),
        }
    }

    fn missing_refusals(&self) -> String {
        let mut missing = String::new();
        for (group, wanted) in WANTED.iter().enumerate() {
            for &number in wanted.iter().filter(|&&number| self.refused[group][number] == 0) {
                missing += &format!("refusal {number} was not reached in {}\n", GROUPS[group]);
            }
        }
        missing
    }

    fn missing_blocks(&self) -> String {
        let mut missing = String::new();
        for (name, places) in ["plain", "twisted"].iter().zip(&self.blocks) {
            for (place, &[taken, refused]) in places.iter().enumerate() {
                if taken == 0 && place < ALWAYS_REFUSED {
                    missing += &format!("no {name} block was taken: {}\n", WHERE[place]);
                }
                if refused == 0 {
                    missing += &format!("no {name} block was refused: {}\n", WHERE[place]);
                }
            }
        }
        missing
    }

    fn missing_batches(&self) -> String {
        let missing = FOUND.iter().zip(self.batches).filter(|(_, count)| *count == 0);
        missing.map(|(found, _)| format!("no batch was checked with {found}\n")).collect()
    }

    fn table(&self) -> String {
        let columns = self.columns(0..4) + &self.columns(4..8) + &self.columns(8..11);
        let met = self.reached.table() + &self.returns.table() + &self.marks.table();
        let mut text = columns + &self.places() + &met + &self.claims.table();
        let calls =
            self.refused[1..].iter().flatten().chain(&self.answered[1..]).copied().sum::<u64>();
        text += &format!(
            "{} trips, each in small mode, in full mode, with a change and by two words of modes, \
             {} lists, {calls} calls, {} verdicts yes, {} no, {} batches yes, \
             {} no at 0, {} no at a j, {} example programs: all alike\n",
            self.trips,
            self.lists,
            self.yes,
            self.no,
            self.batches[0],
            self.batches[1],
            self.batches[2],
            self.programs
        );
        text
    }

    /// Some of the groups side by side, with the numbers that one of them can be refused with.
    fn columns(&self, groups: std::ops::Range<usize>) -> String {
        let row = |name: &str, cell: &dyn Fn(usize) -> String| {
            let cells = groups.clone().map(|group| format!("{:>17}", cell(group)));
            format!("{name:>8}{}\n", cells.collect::<String>())
        };
        let mut text = row("refused", &|group| GROUPS[group].to_string());
        for number in 1..=18 {
            if WANTED[groups.clone()].iter().any(|wanted| wanted.contains(&number)) {
                text += &row(&number.to_string(), &|group| self.refused[group][number].to_string());
            }
        }
        text + &row("answered", &|group| self.answered[group].to_string())
    }

    /// Where blocks were handed in, taken and refused.
    fn places(&self) -> String {
        let mut text = format!(
            "{:>24}{:>13}{:>13}{:>15}{:>15}\n",
            "blocks", "plain taken", "refused", "twisted taken", "refused"
        );
        for (place, name) in WHERE.iter().enumerate() {
            let [[plain, refused], [twisted, turned_away]] = self.blocks.map(|kind| kind[place]);
            text += &format!("{name:>24}{plain:>13}{refused:>13}{twisted:>15}{turned_away:>15}\n");
        }
        text
    }
}
