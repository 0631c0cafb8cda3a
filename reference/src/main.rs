//! The second program: document 01 by its definitions, apart from the proved one.

mod batch;
mod block_checks;
mod claim_checks;
mod compare;
mod edges;
mod field;
mod files;
mod generate;
mod make;
mod mark_checks;
mod prover;
mod random;
mod random_runs;
mod refusal;
mod replay;
mod report;
mod rules;
mod selftest;
mod stack;
mod state;
mod table;
mod text;
mod trip;
mod vector;
mod verifier;
mod version_checks;

use replay::Program;
use std::io::{self, Read, Write};
use std::path::Path;
use std::process::ExitCode;

const USAGE: &str = "usage:
  reference trip FOLDER      what `trip` prints for trip.rvl and trip.rvc of the folder
  reference replay           the call-list tool for runs and verifiers, from standard input to
                             standard output
  reference replay_files     the call-list tool for files and rules, likewise
  reference edges            the edges of document 01
  reference rules            two small rule checks, one with a failing row, and refusals
  reference compartments     a batch of three logs, checked true and false, and refusals
  reference make FOLDER [VERSION]
                             writes trip.rvl, of version 1 (the default) or 2, and trip.rvc from
                             two lines on standard input:
                               READING:WEIGHT items, as in -180:10 -175:20 40:5, tenths of a
                               degree, or -18000:10 -17500:20 4000:5, thousandths (version 2)
                               the challenges and then the point, as in 2 3 2
  reference compare PROGRAMS [SEED] [COUNT]
                             compares the folder's trip, replay, replay_files and examples with
                             this program on COUNT trips and five times as many lists (default 1
                             and 500)
  reference selftest         checks this program against document 01's example and itself
";

fn main() -> ExitCode {
    let arguments: Vec<String> = std::env::args().skip(1).collect();
    let words: Vec<&str> = arguments.iter().map(String::as_str).collect();
    match answer(&words) {
        Ok(text) => {
            io::stdout().write_all(text.as_bytes()).ok();
            ExitCode::SUCCESS
        }
        Err(text) => {
            eprintln!("{}", text.trim_end());
            ExitCode::FAILURE
        }
    }
}

fn answer(words: &[&str]) -> Result<String, String> {
    let number = |word: &str| word.parse::<u64>().map_err(|_| USAGE.to_string());
    match words {
        ["trip", folder] => Ok(trip::output_of_folder(Path::new(folder))),
        ["replay"] => Ok(replay::output(Program::Runs, &input()?)),
        ["replay_files"] => Ok(replay::output(Program::Files, &input()?)),
        ["edges"] => Ok(edges::output()),
        ["rules"] => Ok(rules::example()),
        ["compartments"] => Ok(batch::example()),
        ["make", folder] | ["make", folder, "1"] => make_trip(folder, 1),
        ["make", folder, "2"] => make_trip(folder, 2),
        ["compare", programs] => compare::compare(Path::new(programs), 1, 500),
        ["compare", programs, seed] => compare::compare(Path::new(programs), number(seed)?, 500),
        ["compare", programs, seed, count] => {
            compare::compare(Path::new(programs), number(seed)?, number(count)?)
        }
        ["selftest"] => selftest::run(),
        _ => Err(USAGE.to_string()),
    }
}

fn make_trip(folder: &str, version: u64) -> Result<String, String> {
    let text = String::from_utf8(input()?).map_err(|error| error.to_string())?;
    make::make(Path::new(folder), version, &text).map(|()| String::new())
}

fn input() -> Result<Vec<u8>, String> {
    let mut bytes = Vec::new();
    io::stdin().read_to_end(&mut bytes).map_err(|error| error.to_string())?;
    Ok(bytes)
}
