//! The running claim by hand, for the self-check: document 01's trip, whose claims go -5100, -26300,
//! -26650, there and back between the modes, a total out of its limits, a twisted run and a batch.

use crate::block_checks::{answers, fill_slot, Steps};
use crate::files::write_log;
use crate::replay::{Program, Tool};

const NONE: ([u32; 4], &str) = ([25, 0, 0, 0], "claim 0");
const FIRST: ([u32; 4], &str) = ([25, 0, 0, 0], "claim 2147478547");
const SECOND: ([u32; 4], &str) = ([25, 0, 0, 0], "claim 2147457347");
const THIRD: ([u32; 4], &str) = ([25, 0, 0, 0], "claim 2147456997");

const TRIP: Steps = &[
    ([25, 0, 0, 0], "no run"),
    ([10, 3, 1, 0], "started"),
    NONE,
    ([13, 0, 0, 0], "opened"),
    ([26, 0, 0, 0], "taken"),
    NONE,
    ([17, 0, 0, 0], "total -5100"),
    FIRST,
    ([19, 2, 0, 0], "refused 10"),
    ([3, 4, 4, 0], ""),
    ([22, 0, 0, 0], "opened"),
    FIRST,
    ([26, 0, 0, 0], "taken"),
    ([17, 0, 0, 0], "changed"),
    FIRST,
    ([18, 0, 0, 0], "message 2147482047 2147478297 2147480147"),
    // Between a message and its challenge.
    FIRST,
    ([19, 0, 0, 0], "refused 6"),
    FIRST,
    ([19, 2, 0, 0], "challenged"),
    SECOND,
    ([23, 0, 0, 0], "changed"),
    SECOND,
    ([13, 0, 0, 0], "opened"),
    ([26, 0, 0, 0], "taken"),
    ([17, 0, 0, 0], "message 2147457147 2147482997 200"),
    SECOND,
    ([19, 3, 0, 0], "challenged"),
    THIRD,
    ([13, 0, 0, 0], "opened"),
    ([26, 0, 0, 0], "taken"),
    // -410 · 65
    ([17, 0, 0, 0], "ends 2147483237 65"),
    THIRD,
    ([24, 42, 0, 0], "written 42"),
    THIRD,
];

const OTHERS: Steps = &[
    // 1,440 minutes of 1,000 degrees: over the limit, and the pass stays open.
    ([10, 1, 2, 0], "started"),
    ([13, 0, 0, 0], "opened"),
    ([15, 1_000_000, 1_440, 0], "taken"),
    ([17, 0, 0, 0], "refused 7"),
    NONE,
    // 1 · 3 + 5 · 2 · 4, then 3 + 7 · (4 + 10 · 3) + 49 · 40.
    ([2, 5, 0, 0], ""),
    ([11, 2, 0, 0], "started"),
    ([13, 0, 0, 0], "opened"),
    ([16, 2, 4, 0], "taken"),
    ([16, 1, 3, 0], "taken"),
    NONE,
    ([17, 0, 0, 0], "total 43"),
    ([25, 0, 0, 0], "claim 43"),
    ([13, 0, 0, 0], "opened"),
    ([16, 2, 4, 0], "taken"),
    ([16, 1, 3, 0], "taken"),
    ([17, 0, 0, 0], "message 3 34 40"),
    ([25, 0, 0, 0], "claim 43"),
    ([19, 7, 0, 0], "challenged"),
    ([25, 0, 0, 0], "claim 2201"),
    // A refused start leaves the run.
    ([12, 16, 1, 0], "refused 3"),
    ([25, 0, 0, 0], "claim 2201"),
];

const BATCH: Steps = &[
    ([2, 2, 0, 0], ""),
    ([2, 3, 0, 0], ""),
    ([62, 1, 1, 0], "started"),
    NONE,
    ([14, 2, 0, 0], "opened"),
    ([16, 40, 0, 0], "taken"),
    NONE,
];

pub fn run() -> Result<(), String> {
    let log = write_log(1, &crate::edges::TRIP);
    let mut tool = Tool::new(Program::Runs);
    fill_slot(&mut tool, 0, &log[7..]);
    answers("the claims of the paper's trip", &mut tool, TRIP)?;
    answers("the claims of other runs", &mut Tool::new(Program::Runs), OTHERS)?;
    let mut tool = Tool::new(Program::Runs);
    fill_slot(&mut tool, 0, &log);
    answers("the claim of a batch", &mut tool, BATCH)
}
