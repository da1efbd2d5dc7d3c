//! Whole programs: checked, then played.

use crate::harness::{state_after, Harness};
use second::boundary::{self, REPORT};
use second::generate::{
    ill_formed, machine, paged_length, paged_program, program, requests, write_only_program,
    Program, Rng,
};
use second::library::KINDS;
use second::play::{Call, Outcome};
use std::borrow::Cow::{Borrowed, Owned};
use std::process::exit;

/// Programs, until a number of steps more were made.
pub fn programs(h: &mut Harness, steps: u64) {
    let wanted = h.counts.steps_in_runs + steps;
    while h.counts.steps_in_runs < wanted {
        let program = any_program(&mut h.rng);
        play(h, &program);
    }
}

/// One in four has pages.
fn any_program(rng: &mut Rng) -> Program {
    match rng.below(20) {
        0..=4 => {
            let length = paged_length(rng);
            paged_program(rng, length)
        }
        5..=8 => write_only_program(rng),
        _ => program(rng),
    }
}

/// Checks a program, then resets a machine and plays it with steps, runs,
/// stores and resets.
fn play(h: &mut Harness, program: &Program) {
    let checked = h.compare(Call::Check {
        image: Borrowed(&program.image),
        certificate: Borrowed(&program.certificate),
        wired: program.wired as u32,
    });
    let start = if h.rng.chance(80) { machine(&mut h.rng) } else { ill_formed(&mut h.rng) };
    let reset = h.compare(Call::Reset { state: Borrowed(&start) });
    if boundary::number(reset.answer) != 0 {
        return;
    }
    // With wired sources only, demand 3 holds of accepted programs.
    let tame = h.rng.chance(70);
    let held = tame && boundary::number(checked.answer) == 0;
    let mask = if tame { program.wired } else { 0x1F };
    let mut state = state_after(&reset);
    for _ in 0..4 + h.rng.below(20) {
        let call = next_call(h, &program.image, &state, mask);
        let kind = call.kind();
        let outcome = h.compare(call);
        if held {
            demand3(h, kind, &outcome, boundary::value(checked.answer));
            h.counts.add_demand3(&program.image);
        }
        state = state_after(&outcome);
    }
}

/// Any call of the bench on a state, its requests within a mask.
fn next_call<'a>(h: &mut Harness, image: &'a [u8], state: &'a [u8], mask: u8) -> Call<'a> {
    let (image, state) = (Borrowed(image), Borrowed(state));
    match h.rng.below(20) {
        0 => Call::Reset { state },
        1 | 2 => Call::Store {
            state,
            address: match h.rng.below(10) {
                0 | 1 => 0xC8,
                2 | 3 => 0xCA,
                _ => h.rng.byte() as u32,
            },
            value: h.rng.byte() as u32,
        },
        3..=9 => {
            let free = if h.rng.chance(3) { 0xE0 } else { 0 };
            let request = if h.rng.chance(60) { 0 } else { h.rng.byte() & (mask | free) };
            Call::Step { image, state, request: request as u32 }
        }
        _ => {
            let most = if h.rng.chance(10) { 65_535 } else { 4_000 };
            let n = h.rng.any_size(most);
            let length = match h.rng.below(4) {
                0 => 0,
                1 => h.rng.any_size(n),
                2 => n,
                _ => n + h.rng.below(20),
            };
            let mut list = requests(&mut h.rng, length, mask);
            if length > n {
                h.rng.fill(&mut list[n..]); // past n anything goes
            }
            Call::Run { image, state, requests: Owned(list), n: n as u32, report: REPORT }
        }
    }
}

/// What demand 3 promises of each call in its list.
pub fn demand3(h: &mut Harness, kind: usize, outcome: &Outcome, levels: u32) {
    let number = boundary::number(outcome.answer);
    let allowed = match KINDS[kind] {
        "step" => matches!(number, 0 | 11),
        "run" => matches!(number, 0 | 11 | 12),
        "store" => matches!(number, 0 | 10),
        _ => number == 0,
    };
    if !allowed || outcome.state.bytes()[258] as u32 > levels {
        println!("DEMAND 3 FAILS: {} gave {number}, levels {levels}", KINDS[kind]);
        exit(1);
    }
    h.counts.demand3_calls += 1;
}
