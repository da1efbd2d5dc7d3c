//! Widths of sizing programs.

use crate::certificates::checked_program;
use crate::harness::{state_after, Harness};
use crate::refusals::LENGTHS;
use second::boundary::{self, REPORT, STATE};
use second::check::check;
use second::chip::Instruction::{Jp, Stop};
use second::chip::MOST_STEPS;
use second::gauge::{Gauged, COUNT, WIDTH};
use second::generate::{
    damage, dense, image_length, program, sizing, soonest, timed, written, Program, Rng, EDGES,
};
use second::play::{Call, Outcome};
use std::borrow::Cow::{Borrowed, Owned};
use std::process::exit;

const BEYOND: [u32; 5] = [256, 511, 65_536, 0x8000_0000, u32::MAX];
/// How many programs come to one with a width that is also played with the
/// boundary's other functions.
const PLAYED_EVERY: usize = 8;
/// How many programs come to one that is given every count.
const EVERY_COUNT_EVERY: usize = 64;

pub fn widths(h: &mut Harness, programs: usize) {
    at_once(h);
    lengths(h);
    each_refusal(h);
    limits(h, programs / 50 + 5);
    for index in 0..programs {
        let program = sizing(&mut h.rng);
        accepted(h, &program, index);
        if index.is_multiple_of(EVERY_COUNT_EVERY) {
            every_count(h, &program);
        }
    }
    turned_down(h, programs);
}

/// One width on both sides; gives the second emulator's answer.
fn width(h: &mut Harness, program: &Program, count: u32) -> u64 {
    let Program { image, certificate, .. } = program;
    h.compare(Call::Width { image: Borrowed(image), certificate: Borrowed(certificate), count })
        .answer
}

/// One width, and the same with the boundary's other functions.
fn width_and_play(h: &mut Harness, program: &Program, count: u8) -> u64 {
    let answer = width(h, program, count as u32);
    play(h, program, count, answer);
    answer
}

/// A count of the slide, edges as likely as the others.
fn any_count(rng: &mut Rng) -> u8 {
    if rng.chance(50) {
        rng.edge()
    } else {
        rng.byte()
    }
}

/// An accepted program with some counts.
fn accepted(h: &mut Harness, program: &Program, index: usize) {
    for _ in 0..2 {
        let count = any_count(&mut h.rng);
        width(h, program, count as u32);
    }
    if index.is_multiple_of(PLAYED_EVERY) {
        let count = any_count(&mut h.rng);
        width_and_play(h, program, count);
    }
    if h.rng.chance(10) {
        let count = h.rng.pick(&BEYOND);
        width(h, program, count);
    }
}

/// A program with every count, up to the fourth that does not end in sleep.
fn every_count(h: &mut Harness, program: &Program) {
    let mut awake = 0;
    for count in 0..=255 {
        awake += (boundary::number(width(h, program, count)) == 24) as u32;
        if awake == 4 {
            return;
        }
    }
}

/// Programs that sleep at the first chance, with every count and beyond.
fn at_once(h: &mut Harness) {
    for (program, steps) in soonest() {
        for count in EDGES {
            let answer = width_and_play(h, &program, count);
            expect(answer, Some(steps as u32));
        }
        for count in (0..=255).chain(BEYOND) {
            width(h, &program, count);
        }
    }
}

/// Programs that sleep at the last chance, or just miss it.
fn limits(h: &mut Harness, count: usize) {
    for _ in 0..count {
        let slide_count = any_count(&mut h.rng);
        for steps in [MOST_STEPS - 1, MOST_STEPS, MOST_STEPS + 1] {
            let program = timed(&mut h.rng, slide_count, steps);
            let answer = width_and_play(h, &program, slide_count);
            expect(answer, (steps <= MOST_STEPS).then_some(steps));
            // With these it sleeps a little sooner or later.
            for other in [slide_count ^ 1, slide_count.wrapping_add(1), slide_count.wrapping_sub(1)]
            {
                width(h, &program, other as u32);
            }
        }
    }
}

/// What the generator said of a program must be so, or the limit isn't
/// tried.
fn expect(answer: u64, steps: Option<u32>) {
    let found = match boundary::number(answer) {
        0 => Some(boundary::gauged(answer).steps as u32),
        _ => None,
    };
    assert_eq!(found, steps, "the steps of a generated program");
}

/// Images and certificates of all lengths, with good and bad counts.
fn lengths(h: &mut Harness) {
    let (good, _) = &soonest()[0];
    for image in LENGTHS {
        for certificate in LENGTHS {
            let mut program = good.clone();
            program.image.resize(image, 0x6D);
            program.certificate.resize(certificate, 0);
            for count in [0, 255].into_iter().chain(BEYOND) {
                width(h, &program, count);
            }
        }
    }
}

/// A small program with one byte and its mark changed, so that the check
/// gives each of its numbers but those of the lengths (in 2K; the same in 4K
/// is compared too).
fn each_refusal(h: &mut Harness) {
    let code = [(0xFFE, Jp(0x999), 0x10), (0x999, Stop, 0x10), (0x99A, Jp(0x999), 0x10)];
    for (address, byte, mark, number) in [
        (0xFFF, 0x99, 0x10, 4),
        (0x800, 0x05, 0x10, 5),
        (0x800, 0x04, 0x01, 14),
        (0x800, 0xCD, 0x10, 15),
        (0x800, 0x04, 0x10, 16),
        (0x999, 0x6D, 0x11, 17),
        (0xFFE, 0x99, 0x00, 18),
    ] {
        for length in [2048, 4096] {
            let mut program = written(length, &code);
            let index = address + length - 0x1000;
            program.image[index] = byte;
            program.certificate[index] = mark;
            for count in [0, 255].into_iter().chain(BEYOND) {
                width(h, &program, count);
            }
            if length == 2048 {
                let refusal = check(&program.image, &program.certificate, 0).unwrap_err();
                assert_eq!(refusal.number(), number, "the refusal of a given program");
            }
        }
    }
}

/// Programs that the check refuses, and some that it doesn't.
fn turned_down(h: &mut Harness, count: usize) {
    let mut valid = program(&mut h.rng);
    let mut marked = dense(&mut h.rng, 2048);
    for index in 0..count {
        if index % 64 == 0 {
            valid = program(&mut h.rng);
            let length = image_length(&mut h.rng);
            marked = dense(&mut h.rng, length);
        } else if index % 8 == 0 {
            valid = sizing(&mut h.rng);
        }
        let mut program = checked_program(&mut h.rng, &valid, &marked);
        if h.rng.chance(30) {
            damage(&mut h.rng, &mut program);
        }
        if h.rng.chance(10) {
            program.image.resize(h.rng.pick(&LENGTHS), 0);
        }
        if h.rng.chance(10) {
            program.certificate.resize(h.rng.pick(&LENGTHS), 0);
        }
        let slide_count = any_count(&mut h.rng);
        match h.rng.below(10) {
            0 => width(h, &program, BEYOND[index % BEYOND.len()]),
            1 => width_and_play(h, &program, slide_count),
            _ => width(h, &program, slide_count as u32),
        };
    }
}

/// Plays with the boundary's other functions what a width's answer says:
/// check, reset, store, and runs up to the sleep.
fn play(h: &mut Harness, program: &Program, count: u8, answer: u64) {
    let Program { image, certificate, .. } = program;
    let checked = h.compare(Call::Check {
        image: Borrowed(image),
        certificate: Borrowed(certificate),
        wired: 0,
    });
    let refused = boundary::number(checked.answer) != 0;
    holds(refused == (boundary::number(answer) == 23), "23 is the check's refusal", answer);
    h.counts.widths.played += 1;
    if refused {
        return;
    }
    let reset = h.compare(Call::Reset { state: Owned(vec![0; STATE]) });
    let (address, value) = (COUNT as u32, count as u32);
    let stored = h.compare(Call::Store { state: Owned(state_after(&reset)), address, value });
    let start = state_after(&stored);
    let mut asleep_after = |n: u32| {
        let ran = run(h, image, &start, n);
        holds(boundary::number(ran.answer) == 0, "accepted programs never stop", answer);
        let state = state_after(&ran);
        (state[260] == 1, WIDTH.map(|address| state[address as usize]))
    };
    if boundary::number(answer) == 24 {
        holds(!asleep_after(MOST_STEPS).0, "24 is no sleep", answer);
        return;
    }
    let Gauged { width, steps } = boundary::gauged(answer);
    holds(!asleep_after(steps as u32 - 1).0, "it was awake before", answer);
    let (asleep, bytes) = asleep_after(steps as u32);
    holds(asleep, "it sleeps after these steps", answer);
    holds(bytes == width.to_be_bytes(), "the width is 256 x [084h] + [085h]", answer);
}

fn run(h: &mut Harness, image: &[u8], start: &[u8], n: u32) -> Outcome {
    h.compare(Call::Run {
        image: Borrowed(image),
        state: Borrowed(start),
        requests: Borrowed(&[]),
        n,
        report: REPORT,
    })
}

/// Ends the comparison where an answer isn't what the other functions give.
fn holds(so: bool, what: &str, answer: u64) {
    if !so {
        println!("THE GAUGE FAILS: not so that {what}; it answered {answer:X}h");
        exit(1);
    }
}
