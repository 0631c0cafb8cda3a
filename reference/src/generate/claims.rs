//! What a comparison of running claims has to meet, counted as the calls are made.

use super::met::Met;
use crate::field::{add, from_signed};
use crate::replay::{Record, Tool};
use crate::state::{Aim, Mode, Next, Run};

const WANTED: [&str; 20] = [
    "claim before the total",
    "claim after a total out of its limits",
    "claim that is a total of the plain kind",
    "claim that is a total below zero",
    "claim that is a total of the twisted kind",
    "claim between a message and its challenge, in small mode",
    "claim between a message and its challenge, in full mode",
    "claim between a message that does not meet it and its challenge",
    "claim after a challenge, in small mode",
    "claim after a challenge, in full mode",
    "claim after a refused challenge",
    "claim while a pass is open",
    "claim while a change is open",
    "claim after a change to full mode",
    "claim after a return to small mode",
    "claim after the ends",
    "claim after the ends with n = 0",
    "claim after a proof was written",
    "claim of a batch",
    "claim that the verifier holds after the last message",
];

#[derive(Default)]
pub struct Claims {
    met: Met,
    is_batch: bool,
    /// The run's last call, and whether it was refused.
    last: (u32, bool),
}

impl Claims {
    /// The call is made.
    pub fn note(&mut self, tool: &Tool, [op, ..]: Record, answer: &str) {
        let answer = answer.trim_end();
        if matches!(op, 10..=12 | 62) && answer == "started" {
            self.is_batch = op == 62;
        }
        match (&tool.run, op) {
            (Some(run), 25) => self.asked(run, tool),
            (_, 10..=24 | 26..=27 | 62) => self.last = (op, answer.starts_with("refused")),
            _ => {}
        }
    }

    fn asked(&mut self, run: &Run, tool: &Tool) {
        if self.is_batch {
            return self.count("claim of a batch");
        }
        let small = run.mode == Mode::Small;
        match run.next {
            Next::Total => self.count("claim before the total"),
            Next::Message(0) => self.total(run),
            Next::Ends if run.rounds == 0 => self.total(run),
            Next::Message(_) | Next::Ends if small => {
                self.count("claim after a challenge, in small mode");
            }
            Next::Message(_) | Next::Ends => self.count("claim after a challenge, in full mode"),
            Next::Challenge(i) => {
                self.count(match small {
                    true => "claim between a message and its challenge, in small mode",
                    false => "claim between a message and its challenge, in full mode",
                });
                let [even, _, odd] = run.messages[i];
                if add(even, odd) != run.claim() {
                    self.count("claim between a message that does not meet it and its challenge");
                }
            }
            Next::Openings if run.rounds == 0 => self.count("claim after the ends with n = 0"),
            Next::Openings => self.count("claim after the ends"),
        }
        self.after(run);
        let heard = tool.verifier.as_ref().filter(|verifier| verifier.passed == run.rounds);
        if run.rounds > 0 && heard.is_some_and(|verifier| verifier.claim == Some(run.claim())) {
            self.count("claim that the verifier holds after the last message");
        }
    }

    fn total(&mut self, run: &Run) {
        self.count(match run.plain {
            true => "claim that is a total of the plain kind",
            false => "claim that is a total of the twisted kind",
        });
        if run.total < 0 && run.claim() == from_signed(run.total) {
            self.count("claim that is a total below zero");
        }
    }

    /// By the call before, and by the pass.
    fn after(&mut self, run: &Run) {
        match run.pass.as_ref().map(|pass| pass.aim) {
            Some(Aim::Change(_)) => self.count("claim while a change is open"),
            Some(_) => self.count("claim while a pass is open"),
            None => {}
        }
        match self.last {
            (17, true) if run.next == Next::Total && is_whole(run) => {
                self.count("claim after a total out of its limits");
            }
            (17, false) if run.mode == Mode::Full => {
                self.count("claim after a change to full mode");
            }
            (19, true) => self.count("claim after a refused challenge"),
            (23, false) => self.count("claim after a return to small mode"),
            (24, false) => self.count("claim after a proof was written"),
            _ => {}
        }
    }

    fn count(&mut self, what: &str) {
        self.met.count(what);
    }

    pub fn add(&mut self, other: &Claims) {
        self.met.add(&other.met);
    }

    pub fn missing(&self) -> String {
        self.met.missing(&WANTED)
    }

    pub fn table(&self) -> String {
        self.met.table(&WANTED)
    }
}

fn is_whole(run: &Run) -> bool {
    run.pass.as_ref().is_some_and(|pass| pass.taken == run.items)
}
