//! Playings of steps in rows, which the library may gather: a refusal or a stop
//! at every place of short rows, and about the ends of what it gathers at once.

use crate::harness::Harness;
use crate::long_records::filling;
use crate::playing::{any_program, play};
use second::boundary;
use second::chip::Instruction::{self, *};
use second::chip::Operand::*;
use second::chip::{BANK, HALF, IOR, RESET_VECTOR, VECTORS};
use second::generate::{laid_out, placed, requests, written, Rng};
use second::record::{record, LEAST_2, RESET, STEP, STORE};

/// Every place of rows up to this length.
pub const SHORT_ROW: usize = 40;
/// Lengths about the most that the library gathers at once.
const LONG_ROWS: [usize; 6] = [4095, 4096, 4097, 8191, 8192, 8193];
/// What ends a playing: the stops of a step, a refused store, a refused step.
pub const ENDS: [u8; 6] = [4, 5, 6, 7, 10, 11];

pub fn rows(h: &mut Harness, programs: usize) {
    for _ in 0..programs {
        cut_rows(h);
    }
    for length in 1..=SHORT_ROW {
        for place in 0..length {
            ENDS.iter().for_each(|&end| short_row(h, end, place, length));
        }
    }
    long_rows(h);
}

/// Steps, with requests within a mask now and then.
fn row(rng: &mut Rng, length: usize, mask: u8) -> Vec<u8> {
    requests(rng, length, mask).into_iter().flat_map(|request| [STEP, request]).collect()
}

/// An entry that is refused with 10 or 11, or else a step that is to stop.
fn ending(rng: &mut Rng, end: u8) -> Vec<u8> {
    match end {
        10 => vec![STORE, 0x40 + rng.below(0x40) as u8, rng.byte()],
        11 => vec![STEP, rng.byte() | 0x20 << rng.below(3)],
        _ => vec![STEP, 0],
    }
}

/// A row that ends at a place, on a program that goes straight there. Its
/// mode is that of start-up, so that nothing is taken.
fn short_row(h: &mut Harness, end: u8, place: usize, length: usize) {
    let Some(image) = straight(end, place) else { return };
    let mut body = before(&mut h.rng, place);
    body.extend(row(&mut h.rng, place, 0x1F));
    body.extend(ending(&mut h.rng, end));
    body.extend(row(&mut h.rng, length - place - 1, 0x1F));
    ends(h, &image, &body, end);
    if length == SHORT_ROW {
        ends_long(h, &image, body, end);
    }
}

/// What may come before the row: nothing, or what cuts it off from a former
/// one, which has no more steps.
fn before(rng: &mut Rng, most: usize) -> Vec<u8> {
    match rng.below(4) {
        0 => vec![RESET],
        1 => vec![STORE, 0x20, 0x55],
        2 => [&row(rng, most.min(3), 0)[..], &[RESET]].concat(),
        _ => vec![],
    }
}

/// Plays entries that end with a number; 0 if all are played.
fn ends(h: &mut Harness, image: &[u8], body: &[u8], end: u8) {
    let record = record(body);
    let (outcome, _) = play(h, image, &record);
    assert_eq!(boundary::number(outcome.answer), end, "the end of a given row");
    h.counts.rows.add(&record, &outcome);
}

/// The same in version 2: there is more to read after them.
fn ends_long(h: &mut Harness, image: &[u8], mut body: Vec<u8>, end: u8) {
    body.extend(filling(LEAST_2));
    ends(h, image, &body, end);
}

/// Two, four and five cycles, and the flags of every result.
const STRAIGHT: [Instruction; 5] = [
    Inc(Direct(0x21)),
    Jrz(0),
    Jrs { bit: 0, address: 0x21, displacement: 1 },
    Addi(0x77),
    LdTo(Short(2)),
];
const START: u16 = 0x880;

/// A 2K image whose step of a number stops, if that is the end. Nothing if it
/// can't stop so soon.
fn straight(end: u8, place: usize) -> Option<Vec<u8>> {
    // What stops is a CALL of itself that was done six times, or what a JP
    // leads to, or stands there.
    let led = match end {
        6 => 6,
        4 => place.min(1),
        _ => 0,
    };
    let before = place.checked_sub(led)?;
    let mut code: Vec<Instruction> =
        STRAIGHT.into_iter().cycle().take(before.saturating_sub(1)).collect();
    code.push(Jrz(0));
    let mut lines = placed(START, 0, &code);
    let at = if before == 0 { RESET_VECTOR } else { lines.last().expect("it has one").0 };
    lines.push((RESET_VECTOR, Jp(START), 0));
    let mut image = written(HALF, &lines).image;
    let call = [(at << 4) as u8 | 0x01, (at >> 4) as u8];
    let stops: &[u8] = match end {
        4 if place == 0 => &[0x0D, 0x20], // LDI, whose operand would stand at 000h
        4 => &[0x09, 0x10],               // JP 100h
        5 => &[0x05],
        6 => &call,
        7 => &[0xCD],
        _ => &[],
    };
    image[at as usize - HALF..][..stops.len()].copy_from_slice(stops);
    Some(image)
}

/// Rows about the most that is gathered at once, which end at some places, and
/// ones that don't.
fn long_rows(h: &mut Harness) {
    for length in LONG_ROWS {
        let edges = [0, 1, 63, 64].into_iter().chain(4093..4099).chain(8190..8193);
        let mut places: Vec<usize> = edges.filter(|&place| place < length).collect();
        places.push(h.rng.below(length));
        for end in ENDS {
            places.iter().for_each(|&place| long_row(h, end, place, length));
        }
        let body = row(&mut h.rng, length, OTHER);
        ends(h, &endless(0), &body, 0);
        let cut = h.rng.pick(&[&[RESET][..], &[STORE, 0x20, 0x55]]);
        let next = row(&mut h.rng, length, OTHER);
        ends(h, &endless(0), &[&body, cut, &next].concat(), 0);
    }
}

const NMI: u8 = 0x01;
/// A source whose service is one RETI.
const OTHER: u8 = 0x02;
/// The steps of start-up, and those of a service of [`OTHER`], with some more.
const STARTED: usize = 10;

/// A long row that ends at a place: by an NMI whose service stops.
fn long_row(h: &mut Harness, end: u8, place: usize, length: usize) {
    // The taking, and what is executed before the stop.
    let led = match end {
        4 => 2,
        5 => 1,
        6 => 6,
        7 => return, // a service can return
        _ => 0,
    };
    let (image, mut body) = if led == 0 {
        (Some(endless(end)), row(&mut h.rng, place, OTHER))
    } else if place < STARTED + led {
        (straight(end, place), row(&mut h.rng, place, OTHER))
    } else {
        let mut body = row(&mut h.rng, place - led - 2, OTHER);
        body.extend([STEP, 0, STEP, 0, STEP, NMI]);
        body.extend([STEP, 0].repeat(led - 1));
        (Some(endless(end)), body)
    };
    let Some(image) = image else { return };
    body.extend(ending(&mut h.rng, end));
    body.extend(row(&mut h.rng, length - place - 1, OTHER));
    ends(h, &image, &body, end);
    ends_long(h, &image, body, end);
}

/// A 2K image with a loop, and a service of NMI that stops, if that is the end.
fn endless(end: u8) -> Vec<u8> {
    let mut code = vec![Ldi { address: IOR, value: 0x10 }, Reti];
    code.extend(STRAIGHT);
    code.push(Jp(START + 4));
    let lines = [(RESET_VECTOR, &[Jp(START)][..]), (START, &code), (VECTORS[1], &[Reti])];
    let mut image = laid_out(&lines)[HALF..].to_vec();
    let service: &[u8] = match end {
        4 => &[0x09, 0x10], // JP 100h
        6 => &[0xC1, 0xFF], // CALL of itself
        _ => &[0x05],
    };
    image[VECTORS[0] as usize - HALF..][..service.len()].copy_from_slice(service);
    image
}

/// Rows of all lengths between stores and resets, on any program.
fn cut_rows(h: &mut Harness) {
    let program = any_program(&mut h.rng);
    let mask = if h.rng.chance(60) { program.wired } else { 0x1F };
    let least = h.rng.pick(&[1, 50, 500, 2000]);
    let least = if h.rng.below(100) == 0 { LEAST_2 } else { least };
    let mut body = Vec::new();
    while body.len() < least {
        let length = cut_length(&mut h.rng);
        body.extend(row(&mut h.rng, length, mask));
        body.extend(cut_by(&mut h.rng));
    }
    if h.rng.chance(50) {
        let end = h.rng.pick(&[10, 11]);
        body.extend(ending(&mut h.rng, end));
        body.extend(row(&mut h.rng, 5, mask));
    }
    let record = record(&body);
    let (outcome, _) = play(h, &program.image, &record);
    h.counts.rows.add(&record, &outcome);
}

fn cut_length(rng: &mut Rng) -> usize {
    match rng.below(20) {
        0 => rng.pick(&[31, 32, 33, 63, 64, 65, 79, 80, 81]),
        1 if rng.chance(5) => rng.pick(&LONG_ROWS),
        2..=5 => rng.below(200),
        _ => rng.below(9),
    }
}

/// A store, often one that matters to the steps after it, or a reset.
fn cut_by(rng: &mut Rng) -> Vec<u8> {
    match rng.below(10) {
        0 => vec![RESET],
        1..=3 => vec![STORE, BANK, rng.byte()],
        4 | 5 => vec![STORE, IOR, 0x10],
        _ => vec![STORE, 0x80 + rng.below(0x40) as u8, rng.byte()],
    }
}
