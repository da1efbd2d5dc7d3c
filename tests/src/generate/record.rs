//! Records of sessions, and damage to them.

use super::Rng;
use crate::record::{
    count, header, of_version, pieces, put_count, LEAST_2, MOST_2, RESET, STEP, STORE, VERSION_1,
    VERSION_2,
};

/// What the entries of a record are to be.
#[derive(Clone, Copy)]
pub struct Mix {
    /// How often steps, stores and resets come.
    pub kinds: [usize; 3],
    /// The bits that requests may set.
    pub requests: u8,
    /// How many of a hundred steps have a request.
    pub requested: usize,
    /// How many of a thousand steps and stores are refused.
    pub refused: usize,
}

/// Any mixture, its requests within a mask.
pub fn mix(rng: &mut Rng, requests: u8) -> Mix {
    const KINDS: [[usize; 3]; 9] = [
        [1, 0, 0],
        [0, 1, 0],
        [0, 0, 1],
        [1, 1, 1],
        [1, 9, 1],
        [20, 5, 1],
        [100, 5, 1],
        [1000, 1, 1],
        [1000, 50, 1],
    ];
    Mix {
        kinds: rng.pick(&KINDS),
        requests,
        requested: rng.pick(&[0, 2, 10, 50, 100]),
        refused: rng.pick(&[0, 0, 0, 1, 10, 200]),
    }
}

/// How many bytes entries have in version 2: the fewest and the most now and
/// then, and else few more often than many.
pub fn long_length(rng: &mut Rng) -> usize {
    match rng.below(20) {
        0 => MOST_2,
        1 => LEAST_2,
        _ => LEAST_2 + rng.any_size(MOST_2 - LEAST_2),
    }
}

/// Entries of exactly so many bytes. Where one doesn't fit any more, a reset
/// has its place.
pub fn entries(rng: &mut Rng, mix: &Mix, length: usize) -> Vec<u8> {
    let mut entries = Vec::with_capacity(length);
    while entries.len() < length {
        let room = length - entries.len();
        let kind = kind(rng, &mix.kinds);
        match kind {
            STEP if room >= 2 => entries.extend([STEP, request(rng, mix)]),
            STORE if room >= 3 => entries.extend([STORE, address(rng, mix), rng.byte()]),
            _ => entries.push(RESET),
        }
    }
    entries
}

fn kind(rng: &mut Rng, [steps, stores, resets]: &[usize; 3]) -> u8 {
    match rng.below(steps + stores + resets) {
        drawn if drawn < *steps => STEP,
        drawn if drawn < steps + stores => STORE,
        _ => RESET,
    }
}

fn refused(rng: &mut Rng, mix: &Mix) -> bool {
    mix.refused > 0 && rng.below(1000) < mix.refused
}

/// A refused one has at least one of the bits 5 to 7, and may have others.
fn request(rng: &mut Rng, mix: &Mix) -> u8 {
    let bad = if refused(rng, mix) { 0x20 << rng.below(3) } else { 0 };
    let asked = if rng.chance(mix.requested) { rng.byte() & mix.requests } else { 0 };
    bad | asked
}

/// Of a store: in the ROM window if it is to be refused. 0C8h comes often, so
/// that sources are enabled, and 0CAh, so that pages change.
fn address(rng: &mut Rng, mix: &Mix) -> u8 {
    if refused(rng, mix) {
        return 0x40 + rng.below(0x40) as u8;
    }
    if rng.chance(20) {
        return rng.pick(&[0xC8, 0xC8, 0xC8, 0xC9, 0xCA, 0xCA, 0x3F, 0x80, 0x81, 0xFF]);
    }
    match rng.byte() {
        window @ 0x40..=0x7F => window ^ 0xC0,
        address => address,
    }
}

/// Spoils a record in one way, or in none by chance.
pub fn damage_record(rng: &mut Rng, record: &mut Vec<u8>) {
    match rng.below(10) {
        0 => put(record, 0, rng.pick(&[0, 3, 0x10, 0x80, 0xFF, VERSION_1, VERSION_2])),
        1 => other_count(rng, record),
        2 => record.truncate(rng.below(record.len() + 1)),
        3 => {
            record.truncate(rng.below(record.len() + 1));
            count(record);
        }
        4 => lengthen(rng, record),
        5 => {
            lengthen(rng, record);
            count(record);
        }
        6 => record.truncate(rng.below(header(record) + 2)),
        7 => {
            let version = other_version(record);
            put(record, 0, version);
        }
        8 => *record = of_version(other_version(record), &pieces(record).1.concat()),
        _ => unknown(rng, record),
    }
}

fn put(record: &mut [u8], index: usize, byte: u8) {
    if let Some(place) = record.get_mut(index) {
        *place = byte;
    }
}

/// The version that a record isn't of.
fn other_version(record: &[u8]) -> u8 {
    match record.first() {
        Some(&VERSION_1) => VERSION_2,
        _ => VERSION_1,
    }
}

/// A count that is one off, far off, or has its bytes in another order.
fn other_count(rng: &mut Rng, record: &mut [u8]) {
    let header = header(record);
    let Some(bytes) = record.get_mut(1..header) else { return };
    match rng.below(8) {
        0 => bytes.reverse(),
        1 => bytes.rotate_left(1),
        2 => rng.fill(bytes),
        3 => bytes[rng.below(header - 1)] ^= 1 << rng.below(8),
        other => {
            let now = bytes.iter().fold(0, |count, &byte| count << 8 | byte as usize);
            // The whole record's is one of them.
            let off = [1, usize::MAX, header, 0x1_0000][other - 4];
            put_count(record, now.wrapping_add(off));
        }
    }
}

fn lengthen(rng: &mut Rng, record: &mut Vec<u8>) {
    for _ in 0..1 + rng.below(4) {
        let byte = if rng.chance(80) { rng.below(4) as u8 } else { rng.byte() };
        record.push(byte);
    }
}

/// A byte that begins no entry in place of one that does.
fn unknown(rng: &mut Rng, record: &mut [u8]) {
    let (header, pieces) = pieces(record);
    if pieces.is_empty() {
        return;
    }
    let number = match rng.below(3) {
        0 => 0,
        1 => pieces.len() - 1,
        _ => rng.below(pieces.len()),
    };
    let before: usize = pieces[..number].iter().map(|piece| piece.len()).sum();
    let index = header.len() + before;
    record[index] = 3 + rng.below(253) as u8;
}
