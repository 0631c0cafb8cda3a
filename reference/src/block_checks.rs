//! Blocks for the self-check: by hand, and in generated lists against their items one by one.

use crate::field::P;
use crate::files::{item_size, items_as_given};
use crate::generate::Batch;
use crate::replay::{self, encode, Program, Record, Tool};

/// The items of document 01's trip as they stand in its log: (-180, 10), (-175, 20), (40, 5).
const TRIP: [u8; 12] = [0x4C, 0xFF, 10, 0, 0x51, 0xFF, 20, 0, 40, 0, 5, 0];
/// Its items 0 and 2 with weights 1,441 and 65,535.
const HEAVY: [u8; 12] = [0x4C, 0xFF, 0xA1, 5, 0x51, 0xFF, 20, 0, 40, 0, 0xFF, 0xFF];

/// Slots as `prepared` fills them.
const WHOLE: u32 = 0;
const FIRST_TWO: u32 = 1;
const LAST: u32 = 2;
const LAST_TWO: u32 = 3;
const EMPTY: u32 = 4;
const TORN: u32 = 5;
const FOUR: u32 = 6;
const TOO_HEAVY: u32 = 7;

/// Calls with what they must print; a line's end stands as a bar.
pub type Steps<'a> = &'a [(Record, &'a str)];

/// In one block the total, the ends and an opening; in two the rounds.
const PLAIN: Steps = &[
    ([26, WHOLE, 0, 0], "no run"),
    ([26, 8, 0, 0], "tool bad"),
    ([27, 1, 0, 0], "tool bad"),
    ([10, 3, 1, 0], "started"),
    ([26, WHOLE, 0, 0], "refused 10"),
    ([26, EMPTY, 0, 0], "refused 10"),
    ([13, 0, 0, 0], "opened"),
    ([26, FOUR, 0, 0], "refused 8"),
    ([26, TORN, 0, 0], "refused 4"),
    ([26, TOO_HEAVY, 0, 0], "refused 5 0"),
    ([27, 0, 0, 0], "refused 10"),
    ([26, EMPTY, 0, 0], "taken"),
    ([26, WHOLE, 0, 0], "taken"),
    ([26, EMPTY, 0, 0], "taken"),
    ([26, LAST, 0, 0], "refused 8"),
    ([17, 0, 0, 0], "total -5100"),
    ([13, 0, 0, 0], "opened"),
    ([26, LAST, 0, 0], "taken"),
    ([26, TORN, 0, 0], "refused 8"),
    ([26, FIRST_TWO, 0, 0], "taken"),
    ([17, 0, 0, 0], "message 2147482047 2147478297 2147480147"),
    ([19, 2, 0, 0], "challenged"),
    ([13, 0, 0, 0], "opened"),
    ([26, LAST_TWO, 0, 0], "taken"),
    // Level 1: 40 + 2 · 0 and 5 + 2 · 0, the padding below them; level 0: item 1.
    (
        [5, 1, 0, 0],
        "f-stack 2 1:40 0:2147483472|g-stack 2 1:5 0:20|f-buffer 0|g-buffer 0",
    ),
    ([26, FIRST_TWO, 0, 0], "refused 8"),
    ([15, -180i32 as u32, 10, 0], "taken"),
    ([17, 0, 0, 0], "message 2147457147 2147482997 200"),
    ([19, 3, 0, 0], "challenged"),
    ([13, 0, 0, 0], "opened"),
    ([26, WHOLE, 0, 0], "taken"),
    ([5, 0, 0, 0], "f-stack 1 2:2147483237|g-stack 1 2:65|f-buffer|g-buffer"),
    ([17, 0, 0, 0], "ends 2147483237 65"),
    ([14, 2, 0, 0], "opened"),
    ([26, WHOLE, 0, 0], "taken"),
    (
        [17, 0, 0, 0],
        "opening 2147483277 330 2147483277 2147483197 2147483037 2147483237 70 2147483637 70 60 40 65",
    ),
];

/// A change before round 1: fold 1 is -180 + 2 · -175 = -530 and 40; 10 + 2 · 20 = 50 and 5.
const CHANGE: Steps = &[
    ([10, 3, 1, 0], "started"),
    ([13, 0, 0, 0], "opened"),
    ([26, WHOLE, 0, 0], "taken"),
    ([17, 0, 0, 0], "total -5100"),
    ([13, 0, 0, 0], "opened"),
    ([26, WHOLE, 0, 0], "taken"),
    ([17, 0, 0, 0], "message 2147482047 2147478297 2147480147"),
    ([19, 2, 0, 0], "challenged"),
    ([3, 2, 2, 0], ""),
    ([22, 0, 0, 0], "opened"),
    ([3, 2, 1, 0], ""),
    ([26, WHOLE, 0, 0], "refused 9"),
    ([26, EMPTY, 0, 0], "refused 9"),
    ([26, TOO_HEAVY, 0, 0], "refused 5 0"),
    ([3, 2, 2, 0], ""),
    ([26, LAST, 0, 0], "taken"),
    ([5, 2, 0, 0], "f-buffer 0 40|g-buffer 0 5"),
    ([26, FIRST_TWO, 0, 0], "taken"),
    ([5, 3, 0, 0], "f-buffer 2147483117 40 0|g-buffer 50 5 0"),
    ([17, 0, 0, 0], "changed"),
    ([26, EMPTY, 0, 0], "refused 10"),
    ([18, 0, 0, 0], "message 2147457147 2147482997 200"),
];

/// First to last, challenges 2 and 3.
const VERIFIER: Steps = &[
    ([43, WHOLE, 0, 0], "no verifier"),
    ([43, 8, 0, 0], "tool bad"),
    ([44, 0, 1, 0], "tool bad"),
    ([2, 2, 0, 0], ""),
    ([2, 3, 0, 0], ""),
    ([30, 3, 1, 0], "started"),
    ([43, FOUR, 0, 0], "refused 8"),
    ([43, TORN, 0, 0], "refused 4"),
    ([43, TOO_HEAVY, 0, 0], "refused 5 0"),
    ([44, 1, 0, 0], "refused 10"),
    ([43, FIRST_TWO, 0, 0], "taken"),
    ([43, EMPTY, 0, 0], "taken"),
    ([43, LAST_TWO, 0, 0], "refused 8"),
    ([43, LAST, 0, 0], "taken"),
    ([35, -5100i32 as u32, u32::MAX, 0], "closed"),
    ([43, EMPTY, 0, 0], "refused 10"),
    ([37, 2147482047, 2147478297, 2147480147], "passed"),
    ([37, 2147457147, 2147482997, 200], "passed"),
    ([38, 0, 0, 0], "yes"),
];

/// Twists 3 and 5 on (1, 2), (4, 5), (7, 8): f is 1, 12, 35 and g is 2, 5, 8. The scratch list is
/// 1, 4, 7, 2, 5, 8.
const TWISTED: Steps = &[
    ([26, EMPTY, 0, 0], "refused 10"),
    ([13, 0, 0, 0], "opened"),
    ([26, LAST, 0, 0], "refused 10"),
    ([27, 4, 2, 0], "refused 8"),
    ([27, 4, 3, 0], "tool bad"),
    ([27, u32::MAX, 2, 0], "tool bad"),
    ([27, 3, 2, 0], "refused 16"),
    ([27, 2, 4, 0], "refused 16"),
    ([27, 0, 0, 0], "taken"),
    ([27, 3, 3, 0], "taken"),
    ([27, 1, 1, 0], "refused 8"),
    ([17, 0, 0, 0], "total 342"),
    ([13, 0, 0, 0], "opened"),
    ([16, 7, 8, 0], "taken"),
];

/// The same run after item 2, with the scratch list 1, 4, 2, 5.
const TWISTED_REST: Steps = &[
    ([27, 2, 1, 0], "refused 16"),
    ([27, 2, 2, 0], "taken"),
    ([17, 0, 0, 0], "message 282 29 60"),
];

/// The scratch list 1, 4, 7, 2, 5, 8 again; challenges were 2 and 3.
const TWISTED_VERIFIER: Steps = &[
    ([43, EMPTY, 0, 0], "refused 10"),
    ([44, 4, 1, 0], "refused 8"),
    ([44, 2, 3, 0], "refused 16"),
    ([44, 0, 0, 0], "taken"),
    ([44, 3, 3, 0], "taken"),
    ([36, 342, 0, 0], "closed"),
    ([44, 0, 0, 0], "refused 10"),
    ([37, 282, 29, 60], "passed"),
    ([37, 300, 620, 280], "passed"),
    ([38, 0, 0, 0], "yes"),
];

pub fn run() -> Result<(), String> {
    for (name, steps) in [("plain", PLAIN), ("change", CHANGE), ("verifier", VERIFIER)] {
        answers(name, &mut prepared(), steps)?;
    }
    index_within_the_log()?;
    twisted()?;
    (1..=8).try_for_each(generated)
}

fn prepared() -> Tool {
    let mut tool = Tool::new(Program::Runs);
    let torn = [&TRIP[..], &[7]].concat();
    let four = [TRIP, TRIP].concat()[..16].to_vec();
    let slots: [&[u8]; 8] = [&TRIP, &TRIP[..8], &TRIP[8..], &TRIP[4..], &[], &torn, &four, &HEAVY];
    for (slot, bytes) in slots.iter().enumerate() {
        fill_slot(&mut tool, slot as u32, bytes);
    }
    tool
}

pub fn fill_slot(tool: &mut Tool, slot: u32, bytes: &[u8]) {
    tool.step([60, slot, 0, 0]);
    for &byte in bytes {
        tool.step([61, slot, byte as u32, 0]);
    }
}

pub fn answers(name: &str, tool: &mut Tool, steps: Steps) -> Result<(), String> {
    for (k, &(record, wanted)) in steps.iter().enumerate() {
        let printed = tool.step(record).trim_end().replace('\n', "|");
        if printed != wanted {
            return Err(format!("{name}, call {k} {record:?}: wanted {wanted}, got {printed}"));
        }
    }
    Ok(())
}

/// Two blocks of a log of five items, each with both its weights at fault.
fn index_within_the_log() -> Result<(), String> {
    let tool = &mut prepared();
    fill_slot(tool, TOO_HEAVY, &[0, 0, 0xA1, 5, 0, 0, 0xA1, 5]);
    let steps: Steps = &[
        ([10, 5, 1, 0], "started"),
        ([13, 0, 0, 0], "opened"),
        ([26, TOO_HEAVY, 0, 0], "refused 5 3"),
        ([26, LAST, 0, 0], "taken"),
        ([26, TOO_HEAVY, 0, 0], "refused 5 2"),
        ([2, 1, 0, 0], ""),
        ([2, 1, 0, 0], ""),
        ([2, 1, 0, 0], ""),
        ([30, 5, 1, 0], "started"),
        ([43, TOO_HEAVY, 0, 0], "refused 5 0"),
        ([43, LAST_TWO, 0, 0], "taken"),
        ([43, TOO_HEAVY, 0, 0], "refused 5 2"),
    ];
    answers("index", tool, steps)
}

fn twisted() -> Result<(), String> {
    let tool = &mut prepared();
    tool.scratch = vec![3, 5];
    answers("twisted", tool, &[([11, 3, 0, 0], "started")])?;
    tool.scratch = vec![1, 4, 7, 2, 5, 8];
    answers("twisted", tool, TWISTED)?;
    for unreduced in 0..4 {
        tool.scratch = vec![1, 4, 2, 5];
        tool.scratch[unreduced] = P;
        answers("unreduced", tool, &[([27, 2, 2, 0], "refused 16")])?;
    }
    tool.scratch = vec![1, 4, 2, 5];
    answers("twisted, rest", tool, TWISTED_REST)?;
    tool.scratch = vec![3, 5, 2, 3];
    answers("twisted verifier", tool, &[([31, 3, 2, 0], "started")])?;
    tool.scratch = vec![1, 4, 7, 2, 5, P];
    answers("unreduced", tool, &[([44, 3, 3, 0], "refused 16")])?;
    tool.scratch = vec![1, 4, 7, 2, 5, 8];
    answers("twisted verifier", tool, TWISTED_VERIFIER)
}

/// Lists for both programs print the same from their bytes; each block in them does what its items
/// do one by one, or nothing.
fn generated(seed: u64) -> Result<(), String> {
    let batch = Batch::random(seed, 30);
    for script in [&batch.runs, &batch.files] {
        let mut tool = Tool::new(script.tool.program);
        let mut bytes = Vec::new();
        for (k, &record) in script.records.iter().enumerate() {
            bytes.extend(encode(&record));
            let before = matches!(record[0], 26 | 27 | 43 | 44).then(|| tool.clone());
            let answer = tool.step(record);
            if let Some(before) = before {
                let what = |what| format!("seed {seed}, call {k} {record:?}: {what}");
                as_its_items(before, record, &answer, &tool).map_err(what)?;
            }
        }
        bytes.extend([0; 15]);
        if replay::output(script.tool.program, &bytes) != script.answers.concat() {
            return Err(format!("seed {seed}: {} differs", script.tool.program.name()));
        }
    }
    Ok(())
}

fn as_its_items(before: Tool, block: Record, answer: &str, after: &Tool) -> Result<(), String> {
    let items = one_by_one(&before, block);
    let mut given = before.clone();
    let mut taken = items.iter().flatten().map(|&item| given.step(item) == "taken\n");
    let all_taken = taken.all(|taken| taken);
    match answer {
        "taken\n" if items.is_none() => Err("taken, and no whole items".to_string()),
        "taken\n" if !all_taken => Err("taken, and an item of it is not".to_string()),
        "taken\n" if given != *after => Err("not the state that its items leave".to_string()),
        "taken\n" => Ok(()),
        _ if before != *after => Err("refused, with a change".to_string()),
        _ if all_taken && items.is_some_and(|items| !items.is_empty()) => {
            Err("refused, and its items are taken".to_string())
        }
        _ => Ok(()),
    }
}

/// The records of a block's items in the order in which they are taken; none for a torn block.
fn one_by_one(tool: &Tool, [op, a, b, _]: Record) -> Option<Vec<Record>> {
    let single = if op < 30 { op - 11 } else { op - 10 };
    let mut items: Vec<Record> = match op {
        26 | 43 => {
            let version = match op {
                26 => tool.run.as_ref().map_or(0, |run| run.version),
                _ => tool.verifier.as_ref().map_or(0, |verifier| verifier.version),
            };
            let whole = |bytes: &&Vec<u8>| bytes.len() % item_size(version) == 0;
            let items = items_as_given(version, tool.slots.get(a as usize).filter(whole)?);
            items.iter().map(|&(r, w)| [single, r as u32, w as u32, 0]).collect()
        }
        _ => {
            let numbers = tool.scratch.get(..2 * a as usize).filter(|_| a == b)?;
            let (first, second) = numbers.split_at(a as usize);
            first.iter().zip(second).map(|(&a, &b)| [single, a as u32, b as u32, 0]).collect()
        }
    };
    if op < 30 {
        items.reverse();
    }
    Some(items)
}
