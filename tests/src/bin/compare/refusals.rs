//! Calls with several faults at once, to see which is given.

use crate::harness::Harness;
use second::generate::{
    machine, paged_length, paged_program, program, requests, spoil, Program, Rng,
};
use second::play::Call;
use std::borrow::Cow::Owned;

/// Lengths about those that an image may have: those of 1, 2, 3, 9 and 10
/// halves, those beside them, and longer ones.
pub const LENGTHS: [usize; 20] = [
    0, 1, 2047, 2048, 2049, 4095, 4096, 4097, 5120, 6143, 6144, 6145, 18_432, 20_479, 20_480,
    20_481, 22_528, 24_576, 45_056, 65_536,
];

pub fn refusals(h: &mut Harness, count: usize) {
    let mut valid = program(&mut h.rng);
    for index in 0..count {
        if index % 64 == 0 {
            let length = paged_length(&mut h.rng);
            valid = paged_program(&mut h.rng, length);
        } else if index % 32 == 0 {
            valid = program(&mut h.rng);
        }
        let call = bad_call(&mut h.rng, &valid);
        h.compare(call);
    }
}

/// Any call, with any of its parts at fault.
fn bad_call(rng: &mut Rng, valid: &Program) -> Call<'static> {
    let mut image = valid.image.clone();
    if rng.chance(30) {
        image.resize(rng.pick(&LENGTHS), 0x04);
    }
    let mut certificate = valid.certificate.clone();
    if rng.chance(30) {
        certificate.resize(rng.pick(&LENGTHS), 0);
    }
    let mut state = machine(rng);
    for _ in 0..rng.pick(&[0, 0, 1, 2, 3]) {
        spoil(rng, &mut state);
    }
    let small = rng.below(12);
    match rng.below(8) {
        0 => bad_decode(rng, image, small),
        1 => bad_write(rng),
        2 => {
            let (address, value) = (number(rng, 0x20), number(rng, 0x20));
            Call::Store { state: Owned(state), address, value }
        }
        3 => Call::Step { image: Owned(image), state: Owned(state), request: number(rng, 1) },
        4 | 5 => bad_run(rng, image, state, small),
        6 => Call::Read { image: Owned(image), state: Owned(state), address: number(rng, 0x20) },
        _ => {
            if rng.chance(30) && !certificate.is_empty() {
                let index = rng.below(certificate.len());
                certificate[index] = rng.byte();
            }
            let wired = number(rng, valid.wired as u32);
            Call::Check { image: Owned(image), certificate: Owned(certificate), wired }
        }
    }
}

/// A number that may be beyond its byte, name no source, or lie in the window.
fn number(rng: &mut Rng, good: u32) -> u32 {
    match rng.below(6) {
        0 => rng.draw() as u32,
        1 => 0x100,
        2 => 0xE0,
        3 => 0x45,
        4 => good,
        _ => rng.byte() as u32 & 0x1F,
    }
}

fn bad_decode(rng: &mut Rng, image: Vec<u8>, out: usize) -> Call<'static> {
    let address = if rng.chance(50) {
        rng.below(0x1002) as u32
    } else {
        rng.pick(&[0xFFD, 0xFFE, 0xFFF, 0x1000, 0x7FF, u32::MAX])
    };
    let bank = number(rng, 0);
    Call::Decode { image: Owned(image), address, bank, out }
}

fn bad_write(rng: &mut Rng) -> Call<'static> {
    let mut fields = vec![0; rng.pick(&[0, 6, 7, 10, 10, 10])];
    rng.fill(&mut fields);
    if let Some(form) = fields.first_mut() {
        *form %= 31;
    }
    Call::Write { fields: Owned(fields), out: rng.below(4) }
}

fn bad_run(rng: &mut Rng, image: Vec<u8>, state: Vec<u8>, report: usize) -> Call<'static> {
    let n = rng.pick(&[0, 1, 2, 5, 20, 65_536, 65_537, u32::MAX]);
    let length = rng.below(8);
    let mut list = requests(rng, length, 0x1F);
    if let Some(byte) = list.last_mut() {
        if rng.chance(50) {
            *byte |= 0x80;
        }
    }
    Call::Run { image: Owned(image), state: Owned(state), requests: Owned(list), n, report }
}
