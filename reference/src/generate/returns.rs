//! What a comparison of runs that return to small mode has to meet, counted as the calls are made.

use super::met::Met;
use crate::replay::{Record, Tool};
use crate::state::{Aim, Mode, Next, Run};

const WANTED: [&str; 21] = [
    "returned before a message",
    "returned before the ends",
    "returned before openings",
    "return of a plain run",
    "return of a twisted run",
    "return of a batch",
    "return refused in small mode",
    "return refused while a pass is open",
    "return refused while a change is open",
    "return refused between a message and its challenge, in small mode",
    "return refused between a message and its challenge, in full mode",
    "return refused after the ends with n = 0, in full mode",
    "buffers used elsewhere between a return and a change",
    "message in small mode after a return",
    "message in full mode after a return",
    "ends in small mode after a return",
    "ends in full mode after a return",
    "opening in small mode after a return",
    "opening in full mode after a return",
    "ends after three returns or more",
    "proof written after three returns or more",
];

#[derive(Default)]
pub struct Returns {
    met: Met,
    /// Of the run that there is.
    returns: u64,
    is_batch: bool,
    used_elsewhere: bool,
}

impl Returns {
    /// The call is made; a refused one leaves the run as it was.
    pub fn note(&mut self, tool: &Tool, [op, ..]: Record, answer: &str) {
        let answer = answer.trim_end();
        if matches!(op, 10..=12 | 62) && answer == "started" {
            (self.returns, self.is_batch, self.used_elsewhere) = (0, op == 62, false);
        }
        let Some(run) = &tool.run else { return };
        match op {
            23 if answer == "changed" => self.returned(run),
            23 => self.count(refused_where(run)),
            3 | 4 if answer.is_empty() && self.returns > 0 => {
                self.used_elsewhere |= run.mode == Mode::Small && run.pass.is_none();
            }
            22 if answer == "opened" && self.used_elsewhere => {
                self.used_elsewhere = false;
                self.count("buffers used elsewhere between a return and a change");
            }
            17 | 18 | 20 | 21 if self.returns > 0 => self.given(op == 17, answer),
            24 if answer.starts_with("written") && self.returns > 2 => {
                self.count("proof written after three returns or more");
            }
            _ => {}
        }
    }

    fn returned(&mut self, run: &Run) {
        self.returns += 1;
        self.count(match run.next {
            Next::Message(_) => "returned before a message",
            Next::Ends => "returned before the ends",
            _ => "returned before openings",
        });
        self.count(match (self.is_batch, run.plain) {
            (true, _) => "return of a batch",
            (false, true) => "return of a plain run",
            (false, false) => "return of a twisted run",
        });
    }

    fn given(&mut self, small: bool, answer: &str) {
        match (answer.split(' ').next().unwrap(), small) {
            ("message", true) => self.count("message in small mode after a return"),
            ("message", false) => self.count("message in full mode after a return"),
            ("ends", true) => self.count("ends in small mode after a return"),
            ("ends", false) => self.count("ends in full mode after a return"),
            ("opening", true) => self.count("opening in small mode after a return"),
            ("opening", false) => self.count("opening in full mode after a return"),
            _ => {}
        }
        if answer.starts_with("ends") && self.returns > 2 {
            self.count("ends after three returns or more");
        }
    }

    fn count(&mut self, what: &str) {
        self.met.count(what);
    }

    pub fn add(&mut self, other: &Returns) {
        self.met.add(&other.met);
    }

    pub fn missing(&self) -> String {
        self.met.missing(&WANTED)
    }

    pub fn table(&self) -> String {
        self.met.table(&WANTED)
    }
}

fn refused_where(run: &Run) -> &'static str {
    match (run.pass.as_ref().map(|pass| pass.aim), run.next, run.mode) {
        (Some(Aim::Change(_)), ..) => "return refused while a change is open",
        (Some(_), ..) => "return refused while a pass is open",
        (None, Next::Challenge(_), Mode::Small) => {
            "return refused between a message and its challenge, in small mode"
        }
        (None, Next::Challenge(_), Mode::Full) => {
            "return refused between a message and its challenge, in full mode"
        }
        (None, _, Mode::Small) => "return refused in small mode",
        (None, _, Mode::Full) => "return refused after the ends with n = 0, in full mode",
    }
}
