//! Drives a run to its end: at each step the call that is next in the reference's state, with random
//! calls and dumps between.

use super::blocks::{self, Taker};
use super::noise;
use super::plan::{field_items, from_record, in_record, plain_items, Kind, Plan};
use super::script::Script;
use crate::field::{from_signed, is_reduced, mul};
use crate::files::entered;
use crate::replay::PLACES;
use crate::state::{Aim, Mode, Next, Run};
use crate::table::{change_level, fold_size};
use crate::vector::twist_of;

/// Point and values of each opening that was given.
pub type Openings = Vec<(u64, Vec<u64>)>;

pub fn drive(script: &mut Script, plan: &mut Plan) -> Openings {
    start(script, plan);
    go_on(script, plan)
}

/// From the run that there is.
pub fn go_on(script: &mut Script, plan: &mut Plan) -> Openings {
    let steps = 2 * (plan.challenges.len() + 8) * (plan.items.len() + 8);
    let mut openings = Openings::new();
    for _ in 0..steps {
        // Between passes there are few steps, and the calls that may go wrong are many.
        let between = script.tool.run.as_ref().unwrap().pass.is_none();
        let noise = plan.noise * if between { 4 } else { 1 };
        if script.random.chance(noise.min(600)) {
            match script.random.below(3) {
                0 => near_miss(script),
                _ => noise::any_call(script),
            }
        }
        if script.random.chance(plan.dumps) {
            script.dump();
        }
        let run = script.tool.run.as_ref().unwrap();
        // A random start may have replaced the run.
        let replaced = run.version != plan.version() || run.items != plan.items.len();
        let openings_next = run.next == Next::Openings && run.pass.is_none();
        let all_given = run.rounds == 0 || openings.len() >= plan.openings;
        if replaced || openings_next && all_given {
            break;
        }
        if script.random.chance(plan.faults) {
            blocks::faulty(script, plan, Taker::Run);
        }
        step(script, plan, &mut openings);
    }
    if plan.noise > 0 {
        (0..3).for_each(|_| noise::prover_call(script));
    }
    openings
}

fn start(script: &mut Script, plan: &Plan) {
    let items = plan.items.len() as u64;
    if script.random.chance(150) {
        noise::refused_start(script);
    }
    match plan.kind {
        Kind::Plain(version) => script.call(10, items, version),
        Kind::Twisted => {
            script.fill_scratch(&plan.twists);
            script.call(11, items, 0)
        }
        Kind::Rule(v) => script.call(12, plan.twists.len() as u64, v),
    };
}

fn step(script: &mut Script, plan: &mut Plan, openings: &mut Openings) {
    let run = script.tool.run.as_ref().unwrap();
    match &run.pass {
        Some(pass) if pass.taken < run.items => {
            let index = run.items - 1 - pass.taken;
            match script.random.chance(plan.blocks) {
                true => blocks::give(script, plan, Taker::Run),
                false => give_item(script, plan, index),
            }
        }
        Some(pass) => {
            let aim = pass.aim;
            close(script, plan, openings, aim);
        }
        None => between_passes(script, plan, openings),
    }
}

fn between_passes(script: &mut Script, plan: &Plan, openings: &mut Openings) {
    if change_mode(script, plan, openings.len()) {
        return;
    }
    match script.tool.run.as_ref().unwrap().mode {
        Mode::Small => open(script, plan),
        Mode::Full => full_call(script, plan, openings),
    }
}

/// To the mode of the next step, where it is the other one.
fn change_mode(script: &mut Script, plan: &Plan, openings: usize) -> bool {
    let run = script.tool.run.as_ref().unwrap();
    let Some(level) = change_level(run) else { return false };
    let step = match run.next {
        Next::Message(i) => i,
        Next::Ends => run.rounds,
        _ => run.rounds + 1 + openings,
    };
    let size = run.size() >> level;
    match (run.mode, plan.is_full(step)) {
        (Mode::Small, true) if size <= PLACES => {
            script.lend(size);
            script.call(22, 0, 0);
            true
        }
        (Mode::Full, false) => {
            script.call(23, 0, 0);
            use_elsewhere(script);
            true
        }
        _ => false,
    }
}

/// After a return the buffers may hold anything and be of any length.
fn use_elsewhere(script: &mut Script) {
    let size = script.tool.run.as_ref().unwrap().size().min(PLACES) as u64;
    for _ in 0..script.random.below(6) {
        let random = &mut script.random;
        let (vector, place, value) = (random.below(2), random.below(size), random.any());
        script.call3(4, vector, place, value);
    }
    if script.random.chance(300) {
        let [f, g] = [(); 2].map(|()| script.random.below(size + 1));
        script.call(3, f, g);
    }
}

/// The call that is next, with numbers at their limits, a short buffer or an unreduced place.
fn near_miss(script: &mut Script) {
    let run = script.tool.run.as_ref().unwrap();
    let size = match run.pass.as_ref().map(|pass| pass.aim) {
        Some(Aim::Change(level)) => run.size() >> level,
        _ => fold_size(run),
    };
    let (closes, returns) = (script.random.chance(250), script.random.chance(250));
    let op = match (&run.pass, run.mode, run.next) {
        _ if returns => 23,
        (Some(_), ..) if closes => 17,
        (Some(_), ..) if run.plain => 15,
        (Some(_), ..) => 16,
        (None, _, Next::Challenge(_)) => 19,
        (None, Mode::Small, Next::Openings) => 14,
        (None, Mode::Small, _) => 22,
        (None, Mode::Full, Next::Message(_)) => 18,
        (None, Mode::Full, Next::Ends) => 20,
        (None, Mode::Full, _) => 21,
    };
    let random = &mut script.random;
    let (short, last) = (random.below(size as u64), size as u64 - random.below(2));
    let (vector, value, second) = (random.below(2), random.any(), random.any());
    let (reading, weight) = noise::near_item(random, run.version);
    let (lends, writes) = (random.chance(500), random.chance(300));
    if lends && size <= PLACES {
        let full = size as u64;
        let (f, g) = if vector == 0 { (short, full) } else { (full, short) };
        script.call(3, f, g);
    }
    if writes && last < PLACES as u64 {
        script.call3(4, vector, last, second);
    }
    match op {
        15 => script.call(15, in_record(reading), weight),
        _ => script.call(op, value, second),
    };
}

fn give_item(script: &mut Script, plan: &Plan, index: usize) {
    blocks::lend_for_change(script);
    let stray = script.random.chance(plan.strays);
    let (op, item) = match plan.plain() {
        true if stray => (15, plain_items(&mut script.random, plan.version(), 1)[0]),
        false if stray => (16, field_items(&mut script.random, 1)[0]),
        plain => (if plain { 15 } else { 16 }, plan.items[index]),
    };
    script.call(op, item.0, item.1);
}

fn close(script: &mut Script, plan: &mut Plan, openings: &mut Openings, aim: Aim) {
    let answer = script.call(17, 0, 0).to_string();
    if let Aim::Opening(point) = aim {
        openings.push((point, numbers(&answer)));
    }
    if answer == "refused 7" {
        // The pass stays open and full; only a new one can go on.
        script.call(15, 1, 1);
        script.call(17, 0, 0);
        plan.calm();
        script.call(13, 0, 0);
    }
}

fn open(script: &mut Script, plan: &Plan) {
    match script.tool.run.as_ref().unwrap().next {
        Next::Challenge(i) => {
            script.call(19, plan.challenges[i], 0);
        }
        Next::Openings => {
            let point = script.random.usable();
            script.call(14, point, 0);
        }
        _ => {
            script.call(13, 0, 0);
        }
    }
}

fn full_call(script: &mut Script, plan: &Plan, openings: &mut Openings) {
    let run = script.tool.run.as_ref().unwrap();
    let (next, size) = (run.next, fold_size(run));
    if next == Next::Openings && script.random.chance(700) {
        lend_fold_0(script, plan);
    }
    script.lend(size);
    let point = script.random.usable();
    let answer = match next {
        Next::Message(_) => script.call(18, 0, 0),
        Next::Challenge(i) => script.call(19, plan.challenges[i], 0),
        Next::Ends => script.call(20, 0, 0),
        _ => script.call(21, point, 0),
    };
    let answer = answer.to_string();
    if answer.starts_with("opening") {
        openings.push((point, numbers(&answer)));
    }
    if answer == "refused 16" {
        reduce_places(script, size);
    }
}

/// The twisted trip, place by place, where the buffers do not hold it already.
fn lend_fold_0(script: &mut Script, plan: &Plan) {
    let run: &Run = script.tool.run.as_ref().unwrap();
    let (size, twists) = (run.size(), run.twists.clone());
    for i in 0..size.min(PLACES) {
        let (a, g) = *plan.items.get(i).unwrap_or(&(0, 0));
        let a = match plan.plain() {
            true => from_signed(entered(plan.version(), from_record(&(a, g)).0)),
            false => a,
        };
        let f = mul(twist_of(&twists, i), a);
        for (vector, held, value) in [(0, script.tool.f[i], f), (1, script.tool.g[i], g)] {
            if held != value {
                script.call3(4, vector, i as u64, value);
            }
        }
    }
}

fn reduce_places(script: &mut Script, size: usize) {
    for i in 0..size {
        for (vector, held) in [(0, script.tool.f[i]), (1, script.tool.g[i])] {
            if !is_reduced(held) {
                let value = script.random.field();
                script.call3(4, vector, i as u64, value);
            }
        }
    }
}

pub fn numbers(answer: &str) -> Vec<u64> {
    answer.split(' ').skip(1).map(|word| word.parse().unwrap()).collect()
}
