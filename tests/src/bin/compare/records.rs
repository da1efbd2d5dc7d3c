//! Records written by hand: every way to end a playing, and every fault of a
//! record.

use crate::harness::Harness;
use crate::long_records::{filling, long_records};
use crate::playing::{holds, play, play_into, REPORTS, SHORT, STATES};
use crate::refusals::LENGTHS;
use second::boundary;
use second::generate::{coded, entries, mix, program, random_image, Mix, Rng};
use second::play::{report, Outcome};
use second::record::{
    count, of_version, pieces, put_count, record, LEAST_2, MOST_1, MOST_2, RESET, STEP, STORE,
    VERSION_1, VERSION_2,
};

pub fn records(h: &mut Harness) {
    endings(h);
    headers(h);
    counts(h);
    cuts(h);
    unknown(h);
    buffers(h);
    images(h);
    long_records(h);
}

/// The number that a playing gives.
pub fn number(h: &mut Harness, image: &[u8], record: &[u8]) -> u8 {
    boundary::number(play(h, image, record).0.answer)
}

/// A way to end a playing: the number, code in a 2K image, entries that lead
/// there, and the entry that ends it.
pub struct Ending {
    pub number: u8,
    pub code: &'static [(usize, &'static [u8])],
    pub lead: &'static [u8],
    pub end: &'static [u8],
}

/// JP to itself at FFEh.
pub const LOOP: &[(usize, &[u8])] = &[(0xFFE, &[0xE9, 0xFF])];
/// CALL of itself at FFEh.
const CALLS: &[(usize, &[u8])] = &[(0xFFE, &[0xE1, 0xFF])];
/// JP 880h, RETI, then CALL of itself.
const CALLS_IN_MAIN: &[(usize, &[u8])] = &[(0xFFE, &[0x09, 0x88]), (0x880, &[0x4D, 0x11, 0x88])];
const ONE_STEP: &[u8] = &[STEP, 0];
/// As many steps as take six levels, without and with the way to main.
const SIX: &[u8] = &[0; 12];
const EIGHT: &[u8] = &[0; 16];

pub const ENDINGS: [Ending; 14] = [
    // LDI, whose operand would stand at 000h.
    Ending { number: 4, code: &[(0xFFE, &[0x0D, 0x20])], lead: &[], end: ONE_STEP },
    // JP 100h.
    Ending { number: 4, code: &[(0xFFE, &[0x09, 0x10])], lead: &[0, 0], end: ONE_STEP },
    Ending { number: 5, code: &[(0xFFE, &[0x05])], lead: &[], end: ONE_STEP },
    Ending { number: 5, code: &[(0xFFE, &[0x04, 0x77])], lead: &[0, 0], end: ONE_STEP },
    Ending { number: 6, code: CALLS, lead: SIX, end: ONE_STEP },
    Ending { number: 6, code: CALLS_IN_MAIN, lead: EIGHT, end: ONE_STEP },
    Ending { number: 6, code: CALLS_IN_MAIN, lead: EIGHT, end: &[STEP, 0x01] },
    Ending { number: 7, code: &[(0xFFE, &[0xCD])], lead: &[], end: ONE_STEP },
    Ending { number: 7, code: &[(0xFFE, &[0x4D, 0x4D])], lead: &[0, 0], end: ONE_STEP },
    Ending { number: 10, code: LOOP, lead: &[], end: &[STORE, 0x40, 0x00] },
    Ending { number: 10, code: LOOP, lead: &[0, 0], end: &[STORE, 0x7F, 0xFF] },
    Ending { number: 11, code: LOOP, lead: &[], end: &[STEP, 0x20] },
    Ending { number: 11, code: LOOP, lead: &[0, 0], end: &[STEP, 0x40] },
    Ending { number: 11, code: LOOP, lead: &[0, 0], end: &[STEP, 0xFF] },
];

/// Each way to end, with stores and resets before it, and others after it.
fn endings(h: &mut Harness) {
    let before: [&[u8]; 6] = [
        &[],
        &[RESET],
        &[STORE, 0x20, 0x55],
        &[STORE, 0xC9, 0x2A, STORE, 0x3F, 0x01, RESET],
        &[RESET, RESET, STORE, 0xFF, 0x80, RESET, RESET],
        &[STORE, 0x80, 0x12, STORE, 0x83, 0x34],
    ];
    let after: [&[u8]; 5] = [&[], &[RESET], ONE_STEP, &[STORE, 0x40, 1, RESET, 0, 0x80], &[0; 20]];
    for Ending { number: expected, code, lead, end } in ENDINGS {
        let image = coded(code);
        for before in before {
            let kept = play(h, &image, &record(&[before, lead].concat())).0;
            for after in after {
                let (ended, _) = play(h, &image, &record(&[before, lead, end, after].concat()));
                ends(&ended, expected, &kept);
            }
        }
    }
}

/// An entry ended a playing with a number: all else is as the playing of the
/// entries before it.
pub fn ends(ended: &Outcome, number: u8, before: &Outcome) {
    assert_eq!(boundary::number(ended.answer), number, "the end of a given record");
    let machine = ended.state.bytes() == before.state.bytes();
    holds(machine, "the machine is the one before it", ended.answer);
    let same = report(ended) == report(before);
    holds(same, "so are the cycles, and the number is its own", ended.answer);
}

/// What comes after the first byte of short records: counts that are right and
/// wrong, of two bytes and of three.
const RESTS: [&[u8]; 22] = [
    &[],
    &[0],
    &[1],
    &[0, 0],
    &[0, 1],
    &[1, 0],
    &[0, 0, RESET],
    &[0, 1, RESET],
    &[1, 0, RESET],
    &[0, 2, RESET],
    &[0, 1, 3],
    &[0, 1, STEP],
    &[0, 2, STEP, 0x20],
    &[0, 0, 3, 3],
    &[0, 0, 0],
    &[0, 1, 0],
    &[1, 0, 0],
    &[0x10, 0, 1],
    &[0, 0, 1, RESET],
    &[0, 0, 1, 3],
    &[0, 0, 2, STEP, 0x20],
    &[0xFF; 5],
];

/// Short records with every first byte.
fn headers(h: &mut Harness) {
    let image = coded(LOOP);
    for version in 0..=255 {
        for rest in RESTS {
            let number = number(h, &image, &[&[version][..], rest].concat());
            match version {
                VERSION_1 => {}
                VERSION_2 => assert_eq!(number, 28, "a short record of version 2"),
                _ if rest.len() < 2 => assert_eq!(number, 28, "under three bytes"),
                _ => assert_eq!(number, 27, "another version"),
            }
        }
    }
    play(h, &image, &[]);
    play(h, &[], &[]);
}

/// Counts about those of long and short bodies, and bodies that are longer
/// than a count can tell.
fn counts(h: &mut Harness) {
    const LENGTHS: [usize; 17] = [
        0, 1, 2, 3, 4, 255, 256, 257, 511, 512, 32_767, 32_768, 65_534, MOST_1, 65_536, 65_537,
        65_792,
    ];
    let image = coded(LOOP);
    for length in LENGTHS {
        let now = length as u16;
        for other in [now.wrapping_add(1), now.wrapping_sub(1), now.swap_bytes(), !now, 0, now] {
            let mut record = of_version(VERSION_1, &vec![RESET; length]);
            put_count(&mut record, other as usize);
            let expected = if other as usize == length { 0 } else { 28 };
            assert_eq!(number(h, &image, &record), expected, "a count of {length} bytes");
        }
    }
}

/// An image and entries: all kinds, that play, that end at once, and that end
/// somewhere.
fn some_bodies(rng: &mut Rng) -> Vec<(Vec<u8>, Vec<u8>)> {
    let kinds = [STEP, 0, STORE, 0x21, 0x43, RESET, STEP, 1, STORE, 0xC8, 0x10, RESET, RESET];
    let mut bodies = vec![(coded(LOOP), kinds.to_vec()), (coded(&[(0xFFE, &[5])]), kinds.to_vec())];
    for _ in 0..6 {
        let mix = Mix { kinds: [3, 2, 1], ..mix(rng, 0x1F) };
        let image = if rng.chance(50) { program(rng).image } else { random_image(rng) };
        let length = 1 + rng.below(SHORT);
        bodies.push((image, entries(rng, &mix, length)));
    }
    bodies
}

/// Records cut at every place, with the count as it was and with the count
/// that they have then.
fn cuts(h: &mut Harness) {
    for (image, body) in some_bodies(&mut h.rng) {
        let whole = record(&body);
        for length in 0..whole.len() {
            let mut cut = whole[..length].to_vec();
            assert_eq!(number(h, &image, &cut), 28, "a cut record");
            count(&mut cut);
            play(h, &image, &cut);
        }
    }
}

/// Every byte that begins no entry, in place of each entry's first, the last
/// byte of a record too.
fn unknown(h: &mut Harness) {
    for (image, body) in some_bodies(&mut h.rng).into_iter().take(4) {
        let whole = record(&[&body[..], &[RESET]].concat());
        let (header, pieces) = pieces(&whole);
        let mut start = header.len();
        for piece in pieces {
            let mut bad = whole.clone();
            for kind in 3..=255 {
                bad[start] = kind;
                assert_eq!(number(h, &image, &bad), 29, "an unknown entry");
            }
            start += piece.len();
        }
    }
}

/// Records with each fault, and with none: whole, ended by a refusal, and by
/// a stop.
fn each_fault() -> Vec<Vec<u8>> {
    let of_1 = |entries: &[u8]| of_version(VERSION_1, entries);
    let of_2 = |entries: &[u8]| of_version(VERSION_2, entries);
    // Records of version 2: given entries, then others; and others, then a given one.
    let long = |entries: &[u8], length: usize| of_2(&[entries, &filling(length)].concat());
    let cut = |entry: &[u8]| of_2(&[&filling(LEAST_2), entry].concat());
    vec![
        vec![],
        vec![VERSION_2, 0],
        vec![VERSION_1, 0],
        of_version(3, &[RESET]),
        of_version(3, &[3]),
        vec![3, 1, 0, RESET],
        vec![VERSION_1, 1, 0, RESET],
        vec![VERSION_1, 0, 0, 3],
        of_1(&[3]),
        of_1(&[STEP, 0, STORE, 0]),
        of_1(&[STEP, 0x80, STEP]),
        of_1(&[]),
        of_1(&[STEP, 0, RESET]),
        of_1(&[STEP, 0x80, RESET]),
        of_1(&[RESET, STORE, 0x40, 0]),
        vec![VERSION_2, 0, 0],
        vec![VERSION_2, 0x10, 0, 1],
        of_2(&[RESET]),
        of_2(&[3]),
        long(&[], MOST_1),
        long(&[3], MOST_2),
        long(&[], MOST_2 + 1),
        long(&[3], MOST_1),
        cut(&[STEP]),
        cut(&[STORE, 0x40]),
        long(&[], LEAST_2),
        long(&[STEP, 0x80], MOST_1),
        long(&[STORE, 0x40, 0], MOST_1),
    ]
}

/// Lent buffers of all lengths.
fn buffers(h: &mut Harness) {
    let images = [coded(LOOP), coded(&[(0xFFE, &[0xCD])]), vec![0; 2047]];
    for record in each_fault() {
        for image in &images {
            for state in STATES {
                for report in REPORTS {
                    play_into(h, image, &record, state, report);
                }
            }
        }
    }
}

/// Images of all lengths.
fn images(h: &mut Harness) {
    let records = each_fault();
    for length in LENGTHS {
        let image = vec![0x04; length];
        for record in &records {
            let (state, report) = (h.rng.pick(&STATES), h.rng.pick(&REPORTS));
            play_into(h, &image, record, state, report);
        }
        let record = &records[h.rng.below(records.len())];
        play(h, &image, record);
    }
}
