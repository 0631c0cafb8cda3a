//! The mark for no reading by hand, for the self-check: document 01's trip with its second reading
//! marked and trips of nothing but marks, in both versions, and the order 5, mark, 18 on both
//! sides, in batches and in files.

use crate::block_checks::{answers, fill_slot, Steps};
use crate::files::{write_items, write_log, Item};
use crate::replay::{Program, Tool};
use crate::selftest::alike;
use crate::trip;
use crate::version_checks::with_file;

const TENTHS: [Item; 3] = [(-180, 10), (-32_768, 20), (40, 5)];
const THOUSANDTHS: [Item; 3] = [(-18_000, 10), (i32::MIN, 20), (4_000, 5)];

/// f is -180, 0, 40, 0 and g is 10, 20, 5, 0: -180 · 10 + 40 · 5, the folds -180, 40 and 50, 5.
const OF_TENTHS: &str = "total -1600
round 0 2147482047 2147480047 0
round 1 2147474647 1100 200
ends 2147483587 65
open f 1 2147483627 2147483627 2147483627
open f 2 2147483547 2147483387 2147483587
open g 1 70 2147483637 70
open g 2 60 40 65
accepted
";

/// A hundred times as much in f.
const OF_THOUSANDTHS: &str = "total -160000
round 0 2147323647 2147123647 0
round 1 2146583647 110000 20000
ends 2147477647 65
open f 1 2147481647 2147481647 2147481647
open f 2 2147473647 2147457647 2147477647
open g 1 70 2147483637 70
open g 2 60 40 65
accepted
";

/// f is 0 throughout; the weights stay.
const OF_MARKS: &str = "total 0
round 0 0 0 0
round 1 0 0 0
ends 0 65
open f 1 0 0 0
open f 2 0 0 0
open g 1 70 2147483637 70
open g 2 60 40 65
accepted
";

/// Of version 1 and of version 2.
const MARK: u32 = -32_768i32 as u32;
const WIDE_MARK: u32 = i32::MIN as u32;

/// Slots as `prepared` fills them, the trip and two blocks with faults in either version.
const WHOLE: u32 = 0;
const HEAVY: u32 = 1;
const WIDE_WHOLE: u32 = 2;
const WIDE_HEAVY: u32 = 3;
const WIDE_BESIDE: u32 = 4;

const PROVER: Steps = &[
    ([10, 3, 1, 0], "started"),
    ([13, 0, 0, 0], "opened"),
    ([15, MARK, 1_441, 0], "refused 5 2"),
    ([15, WIDE_MARK, 1_441, 0], "refused 5 2"),
    ([15, WIDE_MARK, 1, 0], "refused 18 2"),
    ([15, MARK - 1, 1, 0], "refused 18 2"),
    ([26, HEAVY, 0, 0], "refused 5 2"),
    ([15, 40, 5, 0], "taken"),
    ([15, MARK, 20, 0], "taken"),
    ([15, -180i32 as u32, 10, 0], "taken"),
    ([17, 0, 0, 0], "total -1600"),
    ([3, 4, 4, 0], ""),
    ([22, 0, 0, 0], "opened"),
    ([26, WHOLE, 0, 0], "taken"),
    ([5, 4, 0, 0], "f-buffer 2147483467 0 40 0|g-buffer 10 20 5 0"),
    ([17, 0, 0, 0], "changed"),
    ([18, 0, 0, 0], "message 2147482047 2147480047 0"),
    ([19, 2, 0, 0], "challenged"),
    ([23, 0, 0, 0], "changed"),
    ([13, 0, 0, 0], "opened"),
    ([15, 40, 5, 0], "taken"),
    ([15, MARK, 20, 0], "taken"),
    // Level 1: 40 + 2 · 0 and 5 + 2 · 0; level 0: the marked item.
    ([5, 0, 0, 0], "f-stack 2 1:40 0:0|g-stack 2 1:5 0:20|f-buffer|g-buffer"),
    ([15, -180i32 as u32, 10, 0], "taken"),
    ([17, 0, 0, 0], "message 2147474647 1100 200"),
    // The mark of version 1 is a reading of version 2.
    ([10, 1, 2, 0], "started"),
    ([13, 0, 0, 0], "opened"),
    ([15, MARK, 3, 0], "taken"),
    ([17, 0, 0, 0], "total -98304"),
    ([10, 3, 2, 0], "started"),
    ([13, 0, 0, 0], "opened"),
    ([15, WIDE_MARK, 1_441, 0], "refused 5 2"),
    ([15, WIDE_MARK + 1, 1, 0], "refused 18 2"),
    ([26, WIDE_HEAVY, 0, 0], "refused 5 2"),
    ([26, WIDE_BESIDE, 0, 0], "refused 18 1"),
    ([26, WIDE_WHOLE, 0, 0], "taken"),
    ([17, 0, 0, 0], "total -160000"),
    ([13, 0, 0, 0], "opened"),
    ([15, 4_000, 5, 0], "taken"),
    ([15, WIDE_MARK, 20, 0], "taken"),
    ([15, -18_000i32 as u32, 10, 0], "taken"),
    ([17, 0, 0, 0], "message 2147323647 2147123647 0"),
];

const VERIFIER: Steps = &[
    ([2, 2, 0, 0], ""),
    ([2, 3, 0, 0], ""),
    ([30, 3, 1, 0], "started"),
    ([33, MARK, 1_441, 0], "refused 5 0"),
    ([33, WIDE_MARK, 1_441, 0], "refused 5 0"),
    ([33, WIDE_MARK, 1, 0], "refused 18 0"),
    ([43, HEAVY, 0, 0], "refused 5 1"),
    ([33, -180i32 as u32, 10, 0], "taken"),
    ([33, MARK, 20, 0], "taken"),
    ([33, 40, 5, 0], "taken"),
    ([35, -1_600i32 as u32, u32::MAX, 0], "closed"),
    ([37, 2147482047, 2147480047, 0], "passed"),
    ([37, 2147474647, 1100, 200], "passed"),
    ([38, 0, 0, 0], "yes"),
    ([30, 3, 2, 0], "started"),
    ([33, WIDE_MARK, 1_441, 0], "refused 5 0"),
    ([33, WIDE_MARK + 1, 1, 0], "refused 18 0"),
    ([43, WIDE_HEAVY, 0, 0], "refused 5 1"),
    ([43, WIDE_BESIDE, 0, 0], "refused 18 0"),
    ([43, WIDE_WHOLE, 0, 0], "taken"),
    ([35, -160_000i32 as u32, u32::MAX, 0], "closed"),
    ([37, 2147323647, 2147123647, 0], "passed"),
    ([37, 2146583647, 110000, 20000], "passed"),
    ([38, 0, 0, 0], "yes"),
    ([30, 3, 2, 0], "started"),
    ([33, -18_000i32 as u32, 10, 0], "taken"),
    // Not marked in version 2.
    ([33, MARK, 20, 0], "taken"),
    ([33, 4_000, 5, 0], "taken"),
    ([35, -160_000i32 as u32, u32::MAX, 0], "closed"),
    ([37, 2147323647, 2147123647, 0], "passed"),
    ([37, 2146583647, 110000, 20000], "passed"),
    ([38, 0, 0, 0], "no 2"),
];

pub fn run(numbers: &[u8]) -> Result<(), String> {
    let marked = |mark: i32| [(mark, 10), (mark, 20), (mark, 5)];
    let trips = [
        (1, TENTHS, OF_TENTHS),
        (2, THOUSANDTHS, OF_THOUSANDTHS),
        (1, marked(-32_768), OF_MARKS),
        (2, marked(i32::MIN), OF_MARKS),
    ];
    for (version, items, output) in trips {
        let name = format!("trip with marks of version {version}");
        alike(&name, output, &trip::output(&write_log(version, &items), numbers))?;
    }
    answers("prover of marks", &mut prepared(), PROVER)?;
    answers("verifier of marks", &mut prepared(), VERIFIER)?;
    nothing_but_marks(1, &marked(-32_768))?;
    nothing_but_marks(2, &marked(i32::MIN))?;
    batch()?;
    logs()
}

fn prepared() -> Tool {
    let mut tool = Tool::new(Program::Runs);
    let blocks: [(u64, &[Item]); 5] = [
        (1, &TENTHS),
        (1, &[(40, 5), (-32_768, 1_441)]),
        (2, &THOUSANDTHS),
        (2, &[(40, 5), (i32::MIN, 1_441)]),
        // A reading next to the mark comes first.
        (2, &[(i32::MIN + 1, 1), (i32::MIN, 1_441)]),
    ];
    for (slot, (version, items)) in blocks.into_iter().enumerate() {
        fill_slot(&mut tool, slot as u32, &write_items(version, items));
    }
    tool
}

/// A run with a change before its second round, its opening in full mode, and its proof.
fn nothing_but_marks(version: u64, items: &[Item]) -> Result<(), String> {
    let tool = &mut Tool::new(Program::Runs);
    fill_slot(tool, 0, &write_items(version, items));
    let steps: Steps = &[
        ([3, 4, 4, 0], ""),
        ([10, 3, version as u32, 0], "started"),
        ([13, 0, 0, 0], "opened"),
        ([26, 0, 0, 0], "taken"),
        ([17, 0, 0, 0], "total 0"),
        ([13, 0, 0, 0], "opened"),
        ([26, 0, 0, 0], "taken"),
        ([17, 0, 0, 0], "message 0 0 0"),
        ([19, 2, 0, 0], "challenged"),
        ([22, 0, 0, 0], "opened"),
        ([26, 0, 0, 0], "taken"),
        ([17, 0, 0, 0], "changed"),
        ([5, 2, 0, 0], "f-buffer 0 0|g-buffer 50 5"),
        ([18, 0, 0, 0], "message 0 0 0"),
        ([19, 3, 0, 0], "challenged"),
        ([20, 0, 0, 0], "ends 0 65"),
        ([23, 0, 0, 0], "changed"),
        ([22, 0, 0, 0], "opened"),
        ([26, 0, 0, 0], "taken"),
        ([17, 0, 0, 0], "changed"),
        ([21, 2, 0, 0], "opening 0 0 0 0 0 0 70 2147483637 70 60 40 65"),
        ([24, 256, 0, 0], "written 42"),
        ([2, 2, 0, 0], ""),
        ([2, 3, 0, 0], ""),
        ([30, 3, version as u32, 0], "started"),
        ([43, 0, 0, 0], "taken"),
        ([39, 0, 0, 0], "yes"),
    ];
    answers(&format!("nothing but marks of version {version}"), tool, steps)
}

/// Item 1 is marked in logs 0 and 1, a reading in log 2 and refused in log 3.
fn batch() -> Result<(), String> {
    let tool = &mut Tool::new(Program::Runs);
    fill_slot(tool, 0, &write_log(1, &TENTHS));
    fill_slot(tool, 1, &write_log(2, &THOUSANDTHS));
    fill_slot(tool, 2, &write_log(2, &[(0, 0), (-32_768, 0), (0, 0)]));
    fill_slot(tool, 3, &write_log(1, &[(0, 0), (-32_768, 1_441), (0, 0)]));
    let steps: Steps = &[
        ([2, 2, 0, 0], ""),
        ([2, 3, 0, 0], ""),
        ([62, 4, 3, 0], "refused 5 1"),
        ([62, 3, 3, 0], "started"),
        // -180 + 3 · -18,000; 9 · -32,768; 40 + 3 · 4,000.
        ([63, 3, 3, 0], "number 2147429467"),
        ([63, 2, 3, 1], "number 0"),
        ([63, 3, 3, 1], "number 2147188735"),
        ([63, 3, 3, 2], "number 12040"),
        // At 2: -180 + 4 · 40; -18,000 + 4 · 4,000; 2 · -32,768.
        ([64, 0, 2, 0], "value 2147483627"),
        ([64, 1, 2, 0], "value 2147481647"),
        ([64, 2, 2, 0], "value 2147418111"),
        ([64, 3, 2, 0], "refused 5 1"),
    ];
    answers("batch with marks", tool, steps)
}

/// What stands in the file is handed out.
fn logs() -> Result<(), String> {
    let read = [
        (1, (-32_768, 20), "log 3 1", "item -32768 20"),
        (1, (-32_768, 1_441), "refused 5 1", "item -32768 1441"),
        (2, (i32::MIN, 20), "log 3 2", "item -2147483648 20"),
        (2, (i32::MIN, 1_441), "refused 5 1", "item -2147483648 1441"),
        (2, (i32::MIN + 1, 20), "refused 18 1", "item -2147483647 20"),
        (2, (-32_768, 20), "log 3 2", "item -32768 20"),
    ];
    for (version, second, log, item) in read {
        let file = write_log(version, &[(0, 10), second, (0, 5)]);
        let steps = [([52, 0, 0, 0], log), ([53, 1, 0, 0], item)];
        answers("log with a mark", &mut with_file(&file), &steps)?;
    }
    Ok(())
}
