//! Runs the programs of a folder against the reference. The first difference ends it.

use crate::generate::script::Script;
use crate::generate::trip_files::{trip_files, TripFiles};
use crate::generate::{large_list, large_list_in_blocks, Batch};
use crate::random::Random;
use crate::replay::{encode, Record, Tool};
use crate::report::Report;
use crate::text::{hex, listed};
use crate::{batch, edges, rules, trip};
use std::fs::{self, File};
use std::path::{Path, PathBuf};
use std::process::{Command, Stdio};

const LISTS_PER_TRIP: u64 = 5;
const LISTS_IN_BATCH: u64 = 50;
/// How many calls before a difference are shown.
const CALLS_SHOWN: usize = 30;

/// `count` trips, each in small mode, in full mode, with a change and by two words of modes, and five
/// times as many lists.
pub fn compare(programs: &Path, seed: u64, count: u64) -> Result<String, String> {
    let programs =
        programs.canonicalize().map_err(|error| format!("{}: {error}", programs.display()))?;
    let scratch = std::env::temp_dir().join(format!("reference-compare-{}", std::process::id()));
    fs::create_dir_all(&scratch).map_err(|error| error.to_string())?;
    let compared = compare_all(&programs, &scratch, seed, count);
    fs::remove_dir_all(&scratch).ok();
    compared.map_err(|difference| format!("seed {seed}\n{difference}"))
}

fn compare_all(programs: &Path, scratch: &Path, seed: u64, count: u64) -> Result<String, String> {
    let mut report = Report::default();
    let examples = [
        ("edges", edges::output()),
        ("rules", rules::example()),
        ("compartments", batch::example()),
    ];
    for (name, expected) in examples {
        let program = programs.join(name);
        if program.exists() {
            let got = stdout_of(&mut Command::new(program), Stdio::null())?;
            same_text(name, &expected, &got)?;
            report.programs += 1;
        }
    }
    compare_usage(programs, scratch)?;
    let mut random = Random::new(seed);
    for k in 0..count {
        let files = trip_files(&mut random);
        let change = random.below(files.rounds as u64 + 4);
        let words = [(); 2].map(|()| word_of_modes(&mut random, files.rounds as u64 + 5));
        let folder = scratch.join(format!("trip-{k}"));
        compare_trip(programs, &folder, &files, change, &words, &mut report)
            .map_err(|difference| format!("trip {k}\n{}{difference}", describe(&files)))?;
    }
    let batches = (count * LISTS_PER_TRIP).div_ceil(LISTS_IN_BATCH);
    for batch in 0..batches {
        let lists = Batch::random(seed ^ (batch + 1) << 32, LISTS_IN_BATCH);
        for script in [&lists.runs, &lists.files] {
            compare_script(programs, scratch, script, &mut report)
                .map_err(|difference| format!("batch {batch}\n{difference}"))?;
        }
    }
    for (items, [alone, in_blocks]) in [(8_191, [1, 2]), (32_768, [2, 1])] {
        let seed = seed ^ items as u64;
        let lists = [
            ("", large_list(seed, items, alone)),
            (" in blocks", large_list_in_blocks(seed, items, in_blocks)),
            (" in blocks, twisted", large_list_in_blocks(seed, items, 0)),
        ];
        for (name, script) in lists {
            compare_script(programs, scratch, &script, &mut report)
                .map_err(|difference| format!("list of {items} items{name}\n{difference}"))?;
        }
    }
    report.finish()
}

/// For fewer steps than a run has, for as many or for more.
fn word_of_modes(random: &mut Random, most: u64) -> String {
    let length = random.between(1, most);
    (0..length).map(|_| random.pick(&['s', 'f'])).collect()
}

fn compare_trip(
    programs: &Path,
    folder: &PathBuf,
    files: &TripFiles,
    change: u64,
    words: &[String; 2],
    report: &mut Report,
) -> Result<(), String> {
    fs::create_dir_all(folder).map_err(|error| error.to_string())?;
    for (name, bytes) in [("trip.rvl", &files.log), ("trip.rvc", &files.numbers)] {
        if let Some(bytes) = bytes {
            fs::write(folder.join(name), bytes).map_err(|error| error.to_string())?;
        }
    }
    let expected = trip::output_of_folder(folder);
    let change = change.to_string();
    let [first, second] = words;
    let by_word = [&["modes", first][..], &["modes", second]];
    for arguments in [&[][..], &["full"], &["change", &change]].iter().chain(&by_word) {
        let mut command = Command::new(programs.join("trip"));
        let got = stdout_of(command.args(*arguments).current_dir(folder), Stdio::null())?;
        same_text(&format!("trip {}", arguments.join(" ")), &expected, &got)?;
    }
    fs::remove_dir_all(folder).ok();
    report.count_trip(files.log.as_deref().unwrap_or_default(), &expected);
    Ok(())
}

/// Arguments that `trip` does not know: a usage line beside the output, and no output.
fn compare_usage(programs: &Path, folder: &Path) -> Result<(), String> {
    let unknown = ["other", "change", "change x", "full 1"];
    let no_word = ["modes", "modes ", "modes x", "modes sfS", "modes s f"];
    for arguments in unknown.into_iter().chain(no_word) {
        let mut command = Command::new(programs.join("trip"));
        let command = command.args(arguments.split(' ')).current_dir(folder);
        let output = command.output().map_err(|error| error.to_string())?;
        if !output.stdout.is_empty() || output.stderr.is_empty() {
            return Err(format!("trip {arguments}: wants a usage line on standard error alone"));
        }
    }
    Ok(())
}

fn compare_script(
    programs: &Path,
    scratch: &Path,
    script: &Script,
    report: &mut Report,
) -> Result<(), String> {
    let input = scratch.join("calls");
    let mut bytes: Vec<u8> = script.records.iter().flat_map(encode).collect();
    // A last partial record is ignored.
    bytes.extend(&encode(&[8, 0, 0, 0])[..15]);
    fs::write(&input, bytes).map_err(|error| error.to_string())?;
    let records = File::open(&input).map_err(|error| error.to_string())?;
    let program = programs.join(script.tool.program.name());
    let got = stdout_of(&mut Command::new(program), Stdio::from(records))?;
    if got != script.answers.concat() {
        return Err(first_difference(script, &got));
    }
    report.count_script(script);
    Ok(())
}

fn stdout_of(command: &mut Command, input: Stdio) -> Result<String, String> {
    let name = command.get_program().to_string_lossy().to_string();
    let output = command.stdin(input).output();
    let output = output.map_err(|error| format!("{name}: {error}"))?;
    if output.status.code().is_none() {
        return Err(format!("{name}: ended by a signal"));
    }
    String::from_utf8(output.stdout).map_err(|_| format!("{name}: output is not text"))
}

fn same_text(name: &str, expected: &str, got: &str) -> Result<(), String> {
    if expected == got {
        return Ok(());
    }
    let (mut wanted, mut given) = (expected.lines(), got.lines());
    let mut line = 1;
    loop {
        match (wanted.next(), given.next()) {
            (Some(a), Some(b)) if a == b => line += 1,
            (None, None) => return Err(format!("{name}: another end of the last line")),
            (a, b) => {
                let [a, b] = [a, b].map(|text| text.unwrap_or("(no more lines)"));
                return Err(format!("{name}, line {line}\n  reference: {a}\n  program:   {b}"));
            }
        }
    }
}

/// The call whose answer differs, with the calls before it in its list.
fn first_difference(script: &Script, got: &str) -> String {
    let name = script.tool.program.name();
    let mut rest = got;
    let answers = script.answers.iter();
    let place = answers.take_while(|answer| match rest.strip_prefix(answer.as_str()) {
        Some(after) => {
            rest = after;
            true
        }
        None => false,
    });
    let place = place.count();
    if place == script.answers.len() {
        return format!("{name}: more output than calls: {}", shortened(rest));
    }
    let number = script.lists.iter().rposition(|&start| start <= place).unwrap_or(0);
    // What fills the scratch list, the file and the slots is left out.
    let mut shown: Vec<usize> = (script.lists[number]..=place).collect();
    shown.retain(|&k| !matches!(script.records[k][0], 1 | 2 | 50 | 51 | 60 | 61) || k == place);
    shown.drain(..shown.len().saturating_sub(CALLS_SHOWN));
    let mut text =
        format!("{name}: list {number}, call {place} of the batch, with those before it:\n");
    for k in shown {
        let answer = if k < place { shortened(&script.answers[k]) } else { String::new() };
        text += &format!("  {:?} {answer}\n", script.records[k]);
    }
    text += &handed_over(script, place);
    let lines = script.answers[place].lines().count().max(1);
    let given: Vec<&str> = rest.lines().take(lines).collect();
    text + &format!(
        "  reference: {}\n  program:   {}",
        shortened(&script.answers[place]),
        shortened(&given.join("\n"))
    )
}

/// What a call is handed beside its record, as the tool held it then.
fn handed_over(script: &Script, place: usize) -> String {
    let mut tool = Tool::new(script.tool.program);
    script.records[..place].iter().for_each(|&record| drop(tool.step(record)));
    let [op, a, ..]: Record = script.records[place];
    match op {
        26 | 43 | 64 => tool.slots.get(a as usize).map_or(String::new(), |bytes| {
            format!("  slot {a}, {} bytes: {}\n", bytes.len(), hex(bytes))
        }),
        11 | 27 | 30..=32 | 40 | 44 | 59 => format!("  scratch list:{}\n", listed(&tool.scratch)),
        52..=57 => format!("  file: {}\n", hex(&tool.file)),
        58 => format!("  file: {}\n  scratch list:{}\n", hex(&tool.file), listed(&tool.scratch)),
        _ => String::new(),
    }
}

fn shortened(text: &str) -> String {
    let text = text.trim_end().replace('\n', " | ");
    match text.len() > 400 {
        true => format!("{} ..", &text[..400]),
        false => text,
    }
}

fn describe(files: &TripFiles) -> String {
    let part = |name: &str, bytes: &Option<Vec<u8>>| match bytes {
        Some(bytes) => {
            let shown = hex(&bytes[..bytes.len().min(100)]);
            format!("{name}, {} bytes: {shown}\n", bytes.len())
        }
        None => format!("{name} is missing\n"),
    };
    part("trip.rvl", &files.log) + &part("trip.rvc", &files.numbers)
}
