//! Document 01, "One trip, whole": what `trip` prints, in whichever mode it works.

use crate::field::{is_usable, within_limits};
use crate::files::{read_log, Log};
use crate::refusal::{require, Refusal};
use crate::vector::{self, fold, fold_item, opening, rounds_of};
use crate::verifier::{Verdict, Verifier};
use std::path::Path;

const MOST_ITEMS: usize = 4_096;

/// A file that cannot be opened counts as empty.
pub fn output_of_folder(folder: &Path) -> String {
    let bytes_of = |name| std::fs::read(folder.join(name)).unwrap_or_default();
    output(&bytes_of("trip.rvl"), &bytes_of("trip.rvc"))
}

/// A refused trip prints its number alone, without an index.
pub fn output(log: &[u8], numbers: &[u8]) -> String {
    match accepted(log, numbers) {
        Ok(lines) => lines,
        Err(refusal) => format!("refused {}\n", refusal.number),
    }
}

fn accepted(log: &[u8], numbers: &[u8]) -> Result<String, Refusal> {
    let Log { version, items } = read_log(log, MOST_ITEMS)?;
    let rounds = rounds_of(items.len());
    require(numbers.len() == 4 * (rounds + 1), 4)?;
    let number = |bytes: &[u8]| u32::from_le_bytes(bytes.try_into().unwrap()) as u64;
    let numbers: Vec<u64> = numbers.chunks(4).map(number).collect();
    require(numbers.iter().all(|&number| is_usable(number)), 6)?;
    let (f, g, total) = vector::plain_vectors(version, &items);
    require(within_limits(total), 7)?;
    let (challenges, point) = (&numbers[..rounds], numbers[rounds]);

    let mut verifier = Verifier::start_plain(items.len() as u64, version, challenges)?;
    for &(reading, weight) in &items {
        verifier.item(reading, weight)?;
    }
    verifier.close(total)?;
    let mut lines = format!("total {total}\n");
    for i in 0..rounds {
        let message = vector::message(&fold(&f, challenges, i), &fold(&g, challenges, i));
        let [even, cross, odd] = message;
        lines += &format!("round {i} {even} {cross} {odd}\n");
        verifier.message(message)?;
    }
    let end = |vector: &[u64]| fold_item(vector, challenges, rounds, 0);
    lines += &format!("ends {} {}\n", end(&f), end(&g));
    let values = opening(&f, &g, challenges, point);
    for (k, three) in values.chunks(3).enumerate() {
        let (name, j) = (if k < rounds { "f" } else { "g" }, k % rounds + 1);
        lines += &format!("open {name} {j} {} {} {}\n", three[0], three[1], three[2]);
    }
    assert_eq!(verifier.verdict()?, Verdict::Yes, "an honest run is accepted");
    Ok(lines + "accepted\n")
}
