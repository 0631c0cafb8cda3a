//! Trip files from text, so that a trip can be written by hand. Values are only made to fit their
//! bytes: what `trip` refuses can be made too.

use crate::files::{write_log, Item};
use std::path::Path;

/// First line: READING:WEIGHT items. Second line: the challenges, then the point.
pub fn make(folder: &Path, version: u64, text: &str) -> Result<(), String> {
    let mut lines = text.lines();
    let item = |word| item(version, word);
    let items = words(lines.next()).map(item).collect::<Result<Vec<_>, _>>()?;
    let numbers = words(lines.next()).map(number).collect::<Result<Vec<_>, _>>()?;
    if items.len() > u16::MAX as usize {
        return Err("a log's count has two bytes".to_string());
    }
    let numbers: Vec<u8> = numbers.iter().flat_map(|number| number.to_le_bytes()).collect();
    let write = |name, bytes| {
        std::fs::write(folder.join(name), bytes).map_err(|error| format!("{name}: {error}"))
    };
    write("trip.rvl", write_log(version, &items))?;
    write("trip.rvc", numbers)
}

fn words(line: Option<&str>) -> impl Iterator<Item = &str> {
    line.unwrap_or("").split_whitespace()
}

fn item(version: u64, word: &str) -> Result<Item, String> {
    let parts = word
        .split_once(':')
        .and_then(|(text, weight)| Some((reading(version, text)?, weight.parse().ok()?)));
    parts.ok_or_else(|| format!("not READING:WEIGHT: {word}"))
}

/// Two bytes in version 1, four in version 2.
fn reading(version: u64, text: &str) -> Option<i32> {
    match version {
        2 => text.parse().ok(),
        _ => text.parse::<i16>().ok().map(i32::from),
    }
}

fn number(word: &str) -> Result<u32, String> {
    word.parse().map_err(|_| format!("not a number of four bytes: {word}"))
}
