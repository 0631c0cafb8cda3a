//! Random honest runs for the self-check: twisted, each step in a mode of its own.

use crate::field::mul;
use crate::prover::{Answer, Buffers, Call};
use crate::random::Random;
use crate::stack::StackMachine;
use crate::state::{Mode, Next, Run};
use crate::vector::{fold, message, rounds_of, scalar_product, twist_of};
use crate::verifier::{Verdict, Verifier};

/// Each message passes, each opening holds, the claim before each round and before the ends is the
/// scalar product of the folds and the verifier's, and the stacks of every small pass are those of a
/// stack machine.
pub fn random_run(random: &mut Random) -> Result<(), String> {
    let items = random.between(1, 40) as usize;
    let rounds = rounds_of(items);
    let twists: Vec<u64> = (0..rounds).map(|_| random.usable()).collect();
    let challenges: Vec<u64> = (0..rounds).map(|_| random.usable()).collect();
    let trip: Vec<(u64, u64)> = (0..items).map(|_| (random.field(), random.field())).collect();
    let full: Vec<bool> = (0..rounds + 2).map(|_| random.chance(500)).collect();
    let mut buffers = (vec![7; 64], vec![7; 64]);
    let mut run =
        Run::start_twisted(items as u64, &twists).map_err(|refusal| refusal.to_string())?;
    let mut verifier = Verifier::start_twisted(items as u64, &twists, &challenges).unwrap();
    trip.iter().for_each(|&(a, b)| verifier.field_item(a, b).unwrap());
    let point = random.usable();
    for step in 0..3 * rounds + 8 {
        let place = match run.next {
            Next::Message(i) => i,
            Next::Ends => rounds,
            Next::Openings => rounds + 1,
            _ => usize::MAX,
        };
        if matches!(run.next, Next::Message(_) | Next::Ends) {
            let mut folds = (vec![0; run.size()], vec![0; run.size()]);
            lend_fold_0(&mut folds, &trip, &twists);
            let [f, g] = [folds.0, folds.1].map(|v| fold(&v, &run.challenges, place));
            if run.claim() != scalar_product(&f, &g) || verifier.claim != Some(run.claim()) {
                return Err(format!("the claim at step {step} is {}", run.claim()));
            }
        }
        let call = match run.next {
            Next::Challenge(i) => Call::Challenge(challenges[i]),
            Next::Openings if rounds == 0 => break,
            Next::Total => Call::Open,
            _ if run.mode == Mode::Small && full[place] => Call::ToFull,
            _ if run.mode == Mode::Full && !full[place] => Call::ToSmall,
            Next::Openings if run.mode == Mode::Small => Call::OpenAt(point),
            _ if run.mode == Mode::Small => Call::Open,
            Next::Message(_) => Call::Message,
            Next::Ends => Call::Ends,
            _ => {
                // A change before the openings has left fold 0 in the buffers.
                if full[rounds] {
                    lend_fold_0(&mut buffers, &trip, &twists);
                }
                Call::Opening(point)
            }
        };
        if call == Call::ToSmall {
            // They may be lent elsewhere from now on.
            buffers = (vec![u32::MAX as u64; 64], vec![7; 64]);
        }
        let lent = &mut Buffers { f: &mut buffers.0, g: &mut buffers.1 };
        let answer = run.call(call, lent).map_err(|refusal| format!("step {step}: {refusal}"))?;
        let answer = match answer {
            Answer::Opened => whole_pass(&mut run, &trip, lent)?,
            other => other,
        };
        match answer {
            Answer::Total(total) => verifier.close_claim(total as u64).unwrap(),
            Answer::Message(numbers) if verifier.message(numbers) != Ok(None) => {
                return Err("a message does not pass".to_string());
            }
            Answer::Opening(values) if verifier.check_opening(point, &values) != Ok(None) => {
                return Err("an opening equation fails".to_string());
            }
            Answer::Opening(_) => break,
            _ => {}
        }
    }
    match verifier.verdict() == Ok(Verdict::Yes) {
        true => Ok(()),
        false => Err("the verdict is not yes".to_string()),
    }
}

fn lend_fold_0(buffers: &mut (Vec<u64>, Vec<u64>), trip: &[(u64, u64)], twists: &[u64]) {
    for i in 0..buffers.0.len() {
        let (a, b) = *trip.get(i).unwrap_or(&(0, 0));
        (buffers.0[i], buffers.1[i]) = (mul(twist_of(twists, i), a), b);
    }
}

fn whole_pass(run: &mut Run, trip: &[(u64, u64)], lent: &mut Buffers) -> Result<Answer, String> {
    let top = match run.next {
        Next::Total => 0,
        Next::Message(i) => i,
        _ => run.rounds,
    };
    let mut machines = [(); 2].map(|()| StackMachine::new(top, &run.challenges));
    let mut pairs = [Vec::new(), Vec::new()];
    let mut enter = |item: [u64; 2]| {
        for k in 0..2 {
            if let Some((even, odd)) = machines[k].take(item[k]) {
                pairs[k].extend([even, odd]);
            }
        }
        (machines[0].stack.clone(), machines[1].stack.clone())
    };
    (trip.len()..run.size()).for_each(|_| drop(enter([0, 0])));
    for (i, &(a, b)) in trip.iter().enumerate().rev() {
        run.call(Call::FieldItem(a, b), lent).map_err(|refusal| refusal.to_string())?;
        let held = enter([mul(twist_of(&run.twists, i), a), b]);
        if run.stacks().is_some_and(|stacks| stacks != held) {
            return Err(format!("stacks after item {i}: {:?}, machine {held:?}", run.stacks()));
        }
    }
    let answer = run.call(Call::Close, lent).map_err(|refusal| refusal.to_string())?;
    match answer {
        Answer::Message(numbers) if numbers != message(&pairs[0], &pairs[1]) => {
            Err("the message is not that of the pairs on the stacks".to_string())
        }
        answer => Ok(answer),
    }
}
