//! Random trips and lists of calls. A list is driven by the reference's own answers, so that proper
//! calls follow whatever random ones came before, and deep states are reached in unruly lists too.

mod batch_list;
pub mod blocks;
pub mod claims;
mod file_list;
pub mod marks;
mod met;
mod noise;
mod plan;
mod prover_list;
pub mod reached;
pub mod returns;
mod rule_list;
pub mod script;
pub mod trip_files;
mod verifier_list;
mod version_list;

use crate::replay::Program;
use plan::{Kind, Plan};
use script::Script;

/// Lists for both call-list tools.
pub struct Batch {
    pub runs: Script,
    pub files: Script,
}

impl Batch {
    pub fn random(seed: u64, lists: u64) -> Batch {
        let runs = Script::new(Program::Runs, seed);
        let mut batch = Batch { runs, files: Script::new(Program::Files, !seed) };
        batch.first_list();
        (1..lists).for_each(|_| batch.list());
        batch
    }

    /// Every op, known or not; then calls before any start.
    fn first_list(&mut self) {
        for script in [&mut self.runs, &mut self.files] {
            script.begin_list();
            for op in 0..=100 {
                script.call(op, 0, 0);
            }
        }
        for _ in 0..15 {
            noise::prover_call(&mut self.runs);
            noise::verifier_call(&mut self.runs);
        }
    }

    /// One list of the usual kinds.
    fn list(&mut self) {
        let Batch { runs, files } = self;
        match runs.random.below(22) {
            0..=2 => file_list::files(files),
            3 => {
                noise::run_limits(runs);
                file_list::file_limits(files);
            }
            4..=5 => {
                let plan = rule_list::rule_check(files, &mut runs.random);
                run_and_verify(runs, plan);
            }
            6 => {
                runs.begin_list();
                noise::only(runs, 60);
            }
            7..=8 => batch_list::batches(runs),
            9..=10 => {
                version_list::runs(runs);
                version_list::logs(files);
            }
            _ => {
                let plan = Plan::random(&mut runs.random);
                run_and_verify(runs, plan);
            }
        }
    }
}

/// A run too large for the buffers until its folds are short enough.
pub fn large_list(seed: u64, items: usize, version: u64) -> Script {
    let mut script = Script::new(Program::Runs, seed);
    let plan = Plan::large(&mut script.random, items, version);
    run_and_verify(&mut script, plan);
    script
}

/// Such a run in blocks; a twisted one, of version 0, stays small to its end.
pub fn large_list_in_blocks(seed: u64, items: usize, version: u64) -> Script {
    let mut script = Script::new(Program::Runs, seed);
    let kind = if version == 0 { Kind::Twisted } else { Kind::Plain(version) };
    let plan = Plan::large_in_blocks(&mut script.random, items, kind);
    run_and_verify(&mut script, plan);
    script
}

fn run_and_verify(script: &mut Script, mut plan: Plan) {
    script.begin_list();
    let openings = prover_list::drive(script, &mut plan);
    verifier_list::drive(script, &plan, &openings);
    if script.random.chance(100) {
        verifier_list::drive(script, &plan, &openings);
    }
}
