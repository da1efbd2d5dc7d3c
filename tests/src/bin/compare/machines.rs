//! Steps, stores, resets and runs of random machines.

use crate::harness::{state_after, Harness};
use second::boundary::{self, REPORT};
use second::chip::MOST_STEPS;
use second::generate::{
    ill_formed, machine, program, random_image, request, requests, spoil, Rng, EDGES,
};
use second::play::Call;
use std::borrow::Cow::{Borrowed, Owned};

/// Single steps of random machines on random images.
pub fn steps(h: &mut Harness, count: usize) {
    let mut image = random_image(&mut h.rng);
    for index in 0..count {
        if index % 64 == 0 {
            image = random_image(&mut h.rng);
        }
        let state = if h.rng.chance(95) { machine(&mut h.rng) } else { ill_formed(&mut h.rng) };
        let request = match h.rng.below(100) {
            0 => h.rng.draw() as u32,
            1 => 0x100 << h.rng.below(24),
            _ => request(&mut h.rng) as u32,
        };
        h.compare(Call::Step { image: Borrowed(&image), state: Owned(state), request });
    }
}

/// Stores at all addresses, and beyond them.
pub fn stores(h: &mut Harness, machines: usize) {
    for index in 0..machines {
        let state = if index % 4 != 0 { machine(&mut h.rng) } else { ill_formed(&mut h.rng) };
        let beyond = [256, 257, 0x140, 0x1_0000, 0x8000_0040, u32::MAX];
        for address in (0..256).chain(beyond) {
            for value in EDGES.map(u32::from).into_iter().chain([256, u32::MAX]) {
                h.compare(Call::Store { state: Borrowed(&state), address, value });
            }
        }
    }
}

pub fn resets(h: &mut Harness, count: usize) {
    for index in 0..count {
        let state = if index % 2 == 0 { machine(&mut h.rng) } else { ill_formed(&mut h.rng) };
        let outcome = h.compare(Call::Reset { state: Borrowed(&state) });
        if boundary::number(outcome.answer) == 0 {
            let after = state_after(&outcome);
            h.compare(Call::Reset { state: Owned(after) });
        }
    }
}

/// Runs with odd numbers of steps, lists and bad bytes.
pub fn runs(h: &mut Harness, count: usize) {
    for _ in 0..count {
        let program = program(&mut h.rng);
        let image = if h.rng.chance(70) { program.image } else { random_image(&mut h.rng) };
        let n: u32 = match h.rng.below(10) {
            0 => 0,
            1 => 1,
            2 => h.rng.pick(&[65_534, 65_535]),
            3 => 65_536,
            4 => h.rng.pick(&[65_537, 0x1_0001, 0x2_0000, u32::MAX]),
            _ => h.rng.below(40) as u32,
        };
        let list = odd_list(&mut h.rng, n.min(MOST_STEPS + 2) as usize);
        let mut state = machine(&mut h.rng);
        if h.rng.chance(50) {
            boundary::reset(&mut state);
        }
        if h.rng.chance(5) {
            spoil(&mut h.rng, &mut state);
        }
        let report = if h.rng.chance(85) { REPORT } else { h.rng.below(13) };
        h.compare(Call::Run {
            image: Borrowed(&image),
            state: Owned(state),
            requests: Owned(list),
            n,
            report,
        });
    }
}

/// A list of about a length, with a bad byte now and then, mostly near there.
fn odd_list(rng: &mut Rng, around: usize) -> Vec<u8> {
    let length = match rng.below(6) {
        0 => 0,
        1 => around,
        2 => around.saturating_sub(1),
        3 => around + 1,
        4 => around + rng.below(10),
        _ => rng.below(30),
    };
    let mut list = requests(rng, length, 0x1F);
    if rng.chance(40) {
        let place = around.saturating_sub(2) + rng.below(4);
        let place = if rng.chance(50) { place } else { rng.below(length + 1) };
        if let Some(byte) = list.get_mut(place) {
            *byte |= 0x20 << rng.below(3);
        }
    }
    list
}
