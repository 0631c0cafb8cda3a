//! Document 01, "Rules": products, the claim, and an example.
//!
//! `reference rules` prints what the program `rules` must print: a rule check that holds, one with
//! a row that fails, and products and claims that are refused. z is (1, x, x², x³) for x = 3, and
//! the rules are x · x = x², x² · x = x³ and (x³ - x²) · 1 = 18, or 19 where the third row fails;
//! n = 2, v = 5, challenges 2 and 3. A check is, after its name,
//!   Az, Bz, Cz, each followed by its four numbers
//!   total T      (of the twisted run on Az and Bz)
//!   claim C      (the sum of (Cz)_i v^i, given to the verifier in place of the total)
//!   round I EVEN CROSS ODD
//!   verdict yes | verdict no ROUND
//! A product is lent five places with 7 in each, and its line ends with what is left in them.

use crate::field::{add, is_reduced, is_usable, mul, power, P};
use crate::files::{read_matrix, write_matrix, Entry, Matrix, MOST_ROUNDS};
use crate::prover::{Answer, Buffers, Call};
use crate::refusal::{require, Refusal};
use crate::state::Run;
use crate::text::listed;
use crate::verifier::Verifier;

const Z: [u64; 4] = [1, 3, 9, 27];
const V: u64 = 5;
const CHALLENGES: [u64; 2] = [2, 3];

/// Row, column, value. C's third row has two entries at one place.
const A: [(u16, u16, u64); 4] = [(0, 1, 1), (1, 2, 1), (2, 2, P - 1), (2, 3, 1)];
const B: [(u16, u16, u64); 3] = [(0, 1, 1), (1, 1, 1), (2, 0, 1)];
const C: [(u16, u16, u64); 4] = [(0, 2, 1), (1, 3, 1), (2, 0, 10), (2, 0, 8)];
const C_FAILING: [(u16, u16, u64); 4] = [(0, 2, 1), (1, 3, 1), (2, 0, 10), (2, 0, 9)];

/// The matrix of the file times z, for a buffer of `room` places.
pub fn product(file: &[u8], z: &[u64], room: usize) -> Result<Vec<u64>, Refusal> {
    let matrix = read_matrix(file)?;
    let size = 1 << matrix.rounds;
    require(z.len() == size, 16)?;
    require(z.iter().all(|&number| is_reduced(number)), 16)?;
    require(room >= size, 9)?;
    let mut rows = vec![0; size];
    for entry in &matrix.entries {
        let row = entry.row as usize;
        rows[row] = add(rows[row], mul(entry.value as u64, z[entry.column as usize]));
    }
    Ok(rows)
}

/// The sum of (Cz)_i v^i.
pub fn claim(cz: &[u64], rounds: u64, v: u64) -> Result<u64, Refusal> {
    require(rounds <= MOST_ROUNDS as u64, 3)?;
    require(is_usable(v), 6)?;
    require(cz.len() == 1 << rounds, 16)?;
    require(cz.iter().all(|&number| is_reduced(number)), 16)?;
    Ok(cz.iter().enumerate().fold(0, |sum, (i, &c)| add(sum, mul(c, power(v, i as u64)))))
}

pub fn example() -> String {
    check("rules that hold", &C)
        + &check("a row that fails", &C_FAILING)
        + "refusals\n"
        + &products()
        + &claims()
}

fn matrix(entries: &[(u16, u16, u64)]) -> Vec<u8> {
    let entry =
        |&(row, column, value): &(u16, u16, u64)| Entry { row, column, value: value as u32 };
    write_matrix(&Matrix { rounds: 2, entries: entries.iter().map(entry).collect() })
}

fn check(name: &str, c: &[(u16, u16, u64)]) -> String {
    let [az, bz, cz] = [&A[..], &B, c].map(|entries| product(&matrix(entries), &Z, 4).unwrap());
    let claimed = claim(&cz, 2, V).unwrap();
    let mut run = Run::start_rule(2, V).unwrap();
    let total = whole_pass(&mut run, &az, &bz);
    let vectors = [("Az", &az), ("Bz", &bz), ("Cz", &cz)];
    let mut text = format!("{name}\n");
    text += &vectors.map(|(name, vector)| format!("{name}{}\n", listed(vector))).concat();
    text += &format!("{total}\nclaim {claimed}\n");

    let mut verifier = Verifier::start_rule(2, V, &CHALLENGES).unwrap();
    for i in 0..4 {
        verifier.field_item(az[i], bz[i]).unwrap();
    }
    verifier.close_claim(claimed).unwrap();
    for (i, challenge) in CHALLENGES.into_iter().enumerate() {
        let Answer::Message(message) = whole_pass(&mut run, &az, &bz) else { unreachable!() };
        text += &format!("round {i}{}\n", listed(&message));
        // A message after a no is refused.
        verifier.message(message).ok();
        run.call(Call::Challenge(challenge), &mut Buffers { f: &mut [], g: &mut [] }).ok();
    }
    text + &format!("verdict {}\n", verifier.verdict().unwrap())
}

fn whole_pass(run: &mut Run, f: &[u64], g: &[u64]) -> Answer {
    let mut none = Buffers { f: &mut [], g: &mut [] };
    run.call(Call::Open, &mut none).ok();
    for i in (0..f.len()).rev() {
        run.call(Call::FieldItem(f[i], g[i]), &mut none).ok();
    }
    run.call(Call::Close, &mut none).unwrap_or_else(|refusal| panic!("{refusal}"))
}

fn products() -> String {
    let file = matrix(&A);
    let changed = |place: usize, byte: u8| {
        let mut bytes = file.clone();
        bytes[place] = byte;
        bytes
    };
    [
        tried("product into 5 places", &file, &Z, 5),
        tried("mark RVL", &changed(2, b'L'), &Z, 5),
        tried("n 16", &changed(5, 16), &Z, 5),
        tried("row 4", &changed(24, 4), &Z, 5),
        tried("column falls", &changed(34, 1), &Z, 5),
        tried("value 0", &changed(36, 0), &Z, 5),
        tried("vector of 3", &file, &Z[..3], 5),
        tried("vector with P", &file, &[1, 3, 9, P], 5),
        tried("into 3 places", &file, &Z, 3),
    ]
    .concat()
}

fn tried(name: &str, file: &[u8], z: &[u64], room: usize) -> String {
    let mut places = [7; 5];
    let answer = product(file, z, room).map(|rows| {
        places[..rows.len()].copy_from_slice(&rows);
        format!("n {}", rows.len().ilog2())
    });
    format!("{name}: {}, left{}\n", answer.unwrap_or_else(worded), listed(&places))
}

fn claims() -> String {
    let cz = [9, 27, 19, 0];
    let claimed = |name: &str, cz: &[u64], rounds, v| {
        let answer = claim(cz, rounds, v).map(|sum| sum.to_string());
        format!("{name}: {}\n", answer.unwrap_or_else(worded))
    };
    [
        claimed("claim n 16", &cz, 16, V),
        claimed("claim v 0", &cz, 2, 0),
        claimed("claim v P", &cz, 2, P),
        claimed("claim of 3", &cz[..3], 2, V),
        claimed("claim with P", &[9, 27, 19, P], 2, V),
        claimed("claim", &cz, 2, V),
    ]
    .concat()
}

fn worded(refusal: Refusal) -> String {
    let at = refusal.index.map_or(String::new(), |index| format!(" at {index}"));
    format!("refused {}{at}", refusal.number)
}
