//! Document 01's edges, each worked out anew. One line for each:
//!   MARK NAME NUMBERS.. [taken | refused NUMBER [INDEX]]
//! MARK is * for the proved set, else -. The paper's trip has readings -180, -175, 40, weights 10,
//! 20, 5, challenges 2 and 3, point 2. By name:
//!   message I EVEN CROSS ODD     claim K C: the claim after K messages, as a field number
//!   ends F G                     open f|g J and the three values
//!   reading R FIELD              half A FIELD
//!   rounds L N                   messages L COUNT: how many messages a run of L items has
//!   weight W and what an item (1, W) of a prover's run with L = 1 answers
//!   total-computed T and what the total's close answers, for 24 items of total T: with s the sign
//!     of T, 22 of (s·32767, 1440), one of (s·32767, 1089), one of (T - s·1073741823, 1), in
//!     this order, given from the last down
//!   total-claimed T and what a verifier's close answers, with L = 1 and the item (0, 0)
//!   rounds-all FIRST LAST N: the items from which and up to which a run has N rounds, for all L

use crate::field::{from_signed, half, TOTAL_LIMIT};
use crate::files::{Item, MOST_ITEMS};
use crate::prover::{Buffers, Call};
use crate::refusal::Refusal;
use crate::state::Run;
use crate::text::listed;
use crate::vector::{fold, fold_item, message, next_claim, opening, plain_vectors, rounds_of};
use crate::verifier::Verifier;

pub const TRIP: [Item; 3] = [(-180, 10), (-175, 20), (40, 5)];
pub const CHALLENGES: [u64; 2] = [2, 3];
pub const POINT: u64 = 2;

pub fn output() -> String {
    let mut lines = trip_lines();
    lines.push(format!("* reading -1 {}", from_signed(-1)));
    lines.push(format!("* half 1 {}", half(1)));
    lines.push(format!("* rounds 1 {}", rounds_of(1)));
    lines.push(format!("* messages 1 {}", messages_of_one()));
    for (mark, items) in [('*', 2), ('*', 3), ('-', 32_768)] {
        lines.push(format!("{mark} rounds {items} {}", rounds_of(items)));
    }
    for weight in [1_440, 1_441] {
        let mut run = Run::start_plain(1, 1).unwrap();
        call(&mut run, Call::Open).ok();
        lines.push(format!("- weight {weight} {}", worded(call(&mut run, Call::Item(1, weight)))));
    }
    let totals = [TOTAL_LIMIT, TOTAL_LIMIT + 1, -TOTAL_LIMIT, -TOTAL_LIMIT - 1];
    for total in totals {
        lines.push(format!("- total-computed {total} {}", worded(computed(total))));
    }
    for total in totals {
        lines.push(format!("- total-claimed {total} {}", worded(claimed(total))));
    }
    lines.extend(rounds_of_all());
    lines.join("\n") + "\n"
}

fn trip_lines() -> Vec<String> {
    let (f, g, total) = plain_vectors(1, &TRIP);
    let mut claims = vec![from_signed(total)];
    let mut lines = Vec::new();
    for (i, &challenge) in CHALLENGES.iter().enumerate() {
        let sent = message(&fold(&f, &CHALLENGES, i), &fold(&g, &CHALLENGES, i));
        lines.push(format!("* message {i}{}", listed(&sent)));
        claims.push(next_claim(sent, challenge));
    }
    for (k, claim) in claims.iter().enumerate() {
        lines.push(format!("* claim {k} {claim}"));
    }
    let ends = [&f, &g].map(|vector| fold_item(vector, &CHALLENGES, 2, 0));
    lines.push(format!("* ends{}", listed(&ends)));
    for (k, three) in opening(&f, &g, &CHALLENGES, POINT).chunks(3).enumerate() {
        lines.push(format!("* open {} {}{}", ["f", "g"][k / 2], k % 2 + 1, listed(three)));
    }
    lines
}

fn call(run: &mut Run, call: Call) -> Result<(), Refusal> {
    run.call(call, &mut Buffers { f: &mut [], g: &mut [] }).map(|_| ())
}

fn worded(answer: Result<(), Refusal>) -> String {
    answer.map_or_else(|refusal| refusal.to_string(), |()| "taken".to_string())
}

/// A run of one item goes from its total straight to its ends.
fn messages_of_one() -> usize {
    let mut run = Run::start_plain(1, 1).unwrap();
    for step in [Call::Open, Call::Item(7, 3), Call::Close].into_iter().cycle().take(6) {
        call(&mut run, step).unwrap();
    }
    assert!(run.ends.is_some());
    run.messages.len()
}

fn rounds_of_all() -> Vec<String> {
    let all: Vec<(usize, usize)> =
        (1..=MOST_ITEMS).map(|items| (items, rounds_of(items))).collect();
    let stretches = all.chunk_by(|one, next| one.1 == next.1);
    let line = |stretch: &[(usize, usize)]| {
        let (first, last) = (stretch[0], stretch[stretch.len() - 1]);
        format!("- rounds-all {} {} {}", first.0, last.0, first.1)
    };
    stretches.map(line).collect()
}

/// The limit is 32,767 times 32,769 minutes.
fn computed(total: i64) -> Result<(), Refusal> {
    let sign = total.signum();
    let reading = (sign * 32_767) as i32;
    let mut items = vec![(reading, 1_440); 22];
    items.push((reading, 1_089));
    items.push(((total - sign * TOTAL_LIMIT) as i32, 1));
    let mut run = Run::start_plain(24, 1).unwrap();
    call(&mut run, Call::Open)?;
    for &(reading, weight) in items.iter().rev() {
        call(&mut run, Call::Item(reading, weight))?;
    }
    call(&mut run, Call::Close)?;
    assert_eq!(run.total, total);
    Ok(())
}

fn claimed(total: i64) -> Result<(), Refusal> {
    let mut verifier = Verifier::start_plain(1, 1, &[])?;
    verifier.item(0, 0)?;
    verifier.close(total)
}
