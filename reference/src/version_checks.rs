//! Both versions of a log by hand, for the self-check: document 01's trip in thousandths of a degree,
//! and what is refused with 2, 4, 5 and 18, in files, in batches and on both sides.

use crate::block_checks::{answers, fill_slot, Steps};
use crate::files::{write_items, write_log, Item};
use crate::replay::{Program, Tool};
use crate::selftest::alike;
use crate::trip;

/// -18.000 degrees is -18,000: each reading is a hundred times that of version 1.
const TRIP: [Item; 3] = [(-18_000, 10), (-17_500, 20), (4_000, 5)];

/// Document 01's numbers with what is worked from readings a hundred times as large.
const OUTPUT: &str = "total -510000
round 0 2147323647 2146948647 2147133647
round 1 2144833647 2147418647 20000
ends 2147442647 65
open f 1 2147446647 33000 2147446647
open f 2 2147438647 2147422647 2147442647
open g 1 70 2147483637 70
open g 2 60 40 65
accepted
";

/// Slots as `prepared` fills them.
const WHOLE: u32 = 0;
const LATER_HEAVY: u32 = 1;
const LATER_OUTSIDE: u32 = 2;
const BOTH: u32 = 3;
const TENTHS: u32 = 4;
const TORN: u32 = 5;
const WIDEST: u32 = 6;

/// Past the range below and above, and at its ends.
const BELOW: u32 = -1_000_001i32 as u32;
const LOWEST: u32 = -1_000_000i32 as u32;

const PROVER: Steps = &[
    ([10, 0, 0, 0], "refused 2"),
    ([10, 3, 3, 0], "refused 2"),
    ([10, 3, 65_537, 0], "refused 2"),
    ([10, 0, 2, 0], "refused 3"),
    ([10, 3, 1, 0], "started"),
    ([15, 40_000, 1, 0], "refused 10"),
    ([13, 0, 0, 0], "opened"),
    ([15, 40_000, 1, 0], "refused 18 2"),
    ([15, 40_000, 1_441, 0], "refused 5 2"),
    ([15, 65_356, 10, 0], "refused 18 2"),
    ([15, 32_768, 10, 0], "refused 18 2"),
    ([15, -32_769i32 as u32, 10, 0], "refused 18 2"),
    ([15, 0, 65_536, 0], "tool bad"),
    // As tenths: 18 bytes are four items and a half.
    ([26, WHOLE, 0, 0], "refused 8"),
    ([15, -32_768i32 as u32, 10, 0], "taken"),
    ([15, 32_767, 1_440, 0], "taken"),
    ([15, 40_000, 1, 0], "refused 18 0"),
    ([10, 3, 2, 0], "started"),
    ([13, 0, 0, 0], "opened"),
    ([15, BELOW, 1, 0], "refused 18 2"),
    ([15, 1_000_001, 1, 0], "refused 18 2"),
    ([15, 2_147_483_647, 1_441, 0], "refused 5 2"),
    ([26, LATER_HEAVY, 0, 0], "refused 18 1"),
    ([26, LATER_OUTSIDE, 0, 0], "refused 5 1"),
    ([26, BOTH, 0, 0], "refused 5 2"),
    // Two items of six bytes, the first with the weight 0xFF51.
    ([26, TENTHS, 0, 0], "refused 5 1"),
    ([26, TORN, 0, 0], "refused 4"),
    ([26, WHOLE, 0, 0], "taken"),
    ([15, BELOW, 1_441, 0], "refused 8"),
    ([17, 0, 0, 0], "total -510000"),
    // A short buffer comes last.
    ([3, 4, 4, 0], ""),
    ([22, 0, 0, 0], "opened"),
    ([3, 4, 3, 0], ""),
    ([15, BELOW, 1, 0], "refused 18 2"),
    ([26, LATER_HEAVY, 0, 0], "refused 18 1"),
    ([26, WHOLE, 0, 0], "refused 9"),
    ([3, 4, 4, 0], ""),
    ([26, WIDEST, 0, 0], "taken"),
    ([15, -18_000i32 as u32, 10, 0], "taken"),
    ([5, 4, 0, 0], "f-buffer 2147465647 2146483647 1000000 0|g-buffer 10 1440 1440 0"),
];

const VERIFIER: Steps = &[
    ([30, 0, 0, 0], "refused 2"),
    ([30, 3, 3, 0], "refused 2"),
    ([30, 0, 2, 0], "refused 3"),
    ([30, 3, 2, 0], "refused 6"),
    ([2, 2, 0, 0], ""),
    ([2, 3, 0, 0], ""),
    ([30, 3, 1, 0], "started"),
    ([33, 40_000, 1, 0], "refused 18 0"),
    ([33, 40_000, 1_441, 0], "refused 5 0"),
    ([30, 3, 2, 0], "started"),
    ([33, BELOW, 1, 0], "refused 18 0"),
    ([33, LOWEST, 0, 0], "taken"),
    ([33, 1_000_001, 1, 0], "refused 18 1"),
    ([30, 3, 2, 0], "started"),
    ([43, LATER_HEAVY, 0, 0], "refused 18 0"),
    ([43, LATER_OUTSIDE, 0, 0], "refused 5 0"),
    ([43, BOTH, 0, 0], "refused 5 0"),
    ([43, TORN, 0, 0], "refused 4"),
    ([43, WHOLE, 0, 0], "taken"),
    ([35, -510_000i32 as u32, u32::MAX, 0], "closed"),
    ([37, 2147323647, 2146948647, 2147133647], "passed"),
    ([37, 2144833647, 2147418647, 20000], "passed"),
    ([38, 0, 0, 0], "yes"),
];

pub fn run(numbers: &[u8]) -> Result<(), String> {
    alike("thousandths", OUTPUT, &trip::output(&write_log(2, &TRIP), numbers))?;
    answers("prover of version 2", &mut prepared(), PROVER)?;
    answers("verifier of version 2", &mut prepared(), VERIFIER)?;
    batch()?;
    logs()?;
    proof_and_matrix()
}

fn prepared() -> Tool {
    let mut tool = Tool::new(Program::Runs);
    let blocks: [&[Item]; 7] = [
        &TRIP,
        &[(-1_000_001, 1), (0, 1_441)],
        &[(0, 1_441), (1_000_001, 1)],
        &[(i32::MAX, 1_441)],
        &[],
        &[],
        &[(-1_000_000, 1_440), (1_000_000, 1_440)],
    ];
    for (slot, items) in blocks.iter().enumerate() {
        fill_slot(&mut tool, slot as u32, &write_items(2, items));
    }
    fill_slot(&mut tool, TENTHS, &write_items(1, &[(-180, 10), (-175, 20), (40, 5)]));
    fill_slot(&mut tool, TORN, &write_items(1, &[(0, 0); 2]));
    tool
}

/// Slot 0 in tenths, slot 1 in thousandths: -180 + 3 · -18,000, and -18,000 + 2 · -17,500 + 4 · 4,000.
fn batch() -> Result<(), String> {
    let tool = &mut Tool::new(Program::Runs);
    let faulty = [(0, 0), (0, 0), (1_000_001, 0)];
    fill_slot(tool, 0, &write_log(1, &[(-180, 10), (-175, 20), (40, 5)]));
    fill_slot(tool, 1, &write_log(2, &TRIP));
    fill_slot(tool, 2, &write_log(2, &faulty));
    let steps: Steps = &[
        ([2, 2, 0, 0], ""),
        ([2, 3, 0, 0], ""),
        ([62, 3, 3, 0], "refused 18 2"),
        ([64, 2, 2, 0], "refused 18 2"),
        ([64, 1, 2, 0], "value 2147446647"),
        ([63, 2, 3, 0], "number 2147429467"),
        ([63, 3, 1, 2], "number 1004041"),
        ([62, 2, 3, 0], "started"),
        ([14, 2, 0, 0], "opened"),
        ([26, 0, 0, 0], "refused 8"),
        ([15, 0, 0, 0], "refused 10"),
    ];
    answers("batch of both versions", tool, steps)
}

fn logs() -> Result<(), String> {
    let with = |faults: &[(usize, Item)]| {
        let mut items = [(0, 0); 5];
        faults.iter().for_each(|&(i, item)| items[i] = item);
        write_log(2, &items)
    };
    let second_outside = [TRIP[0], (-1_000_001, 20), TRIP[2]];
    let (wide, narrow) = (write_log(2, &TRIP), write_log(1, &[(-180, 10), (-175, 20), (40, 5)]));
    let named = |version: u16, log: &[u8]| [&log[..3], &version.to_le_bytes(), &log[5..]].concat();
    let read = [
        (wide.clone(), "log 3 2", "item -18000 10"),
        (narrow.clone(), "log 3 1", "item -180 10"),
        (write_log(2, &second_outside), "refused 18 1", "item -18000 10"),
        (with(&[(3, (1_000_001, 0)), (4, (0, 1_441))]), "refused 18 3", "item 0 0"),
        (with(&[(3, (0, 1_441)), (4, (i32::MIN + 1, 0))]), "refused 5 3", "item 0 0"),
        (with(&[(0, (i32::MAX, 65_535))]), "refused 5 0", "item 2147483647 65535"),
        (
            with(&[(0, (-1_000_000, 1_440)), (4, (1_000_000, 1_440))]),
            "log 5 2",
            "item -1000000 1440",
        ),
        (named(2, &narrow), "refused 4", "item 720716 65361"),
        (named(1, &wide), "refused 4", "item -18000 65535"),
        (named(0, &wide), "refused 2", "item -18000 65535"),
        (named(3, &narrow), "refused 2", "item -180 10"),
        (named(257, &narrow), "refused 2", "item -180 10"),
        (named(258, &wide), "refused 2", "item -18000 65535"),
        (wide[..12].to_vec(), "refused 4", "nothing"),
        (wide[..4].to_vec(), "refused 1", "nothing"),
    ];
    for (bytes, log, item) in read {
        let steps =
            [([52, 0, 0, 0], log), ([53, 0, 0, 0], item), ([53, u32::MAX, 0, 0], "nothing")];
        answers("log", &mut with_file(&bytes), &steps)?;
    }
    Ok(())
}

/// Their versions stay 1 alone.
fn proof_and_matrix() -> Result<(), String> {
    let proof = [&b"RVP"[..], &[2, 0], &[0; 13]].concat();
    answers("proof", &mut with_file(&proof), &[([54, 0, 0, 0], "refused 2")])?;
    let matrix = [&b"RVM"[..], &[2, 0], &[0; 3]].concat();
    answers("matrix", &mut with_file(&matrix), &[([56, 0, 0, 0], "refused 2")])
}

pub fn with_file(bytes: &[u8]) -> Tool {
    let mut tool = Tool::new(Program::Files);
    tool.file = bytes.to_vec();
    tool
}
