//! Records that are played.

use crate::harness::Harness;
use crate::records::records;
use crate::refusals::LENGTHS;
use second::boundary::{self, REPORT, STATE};
use second::check::check;
use second::generate::{
    call_graph, damage, damage_record, entries, long_length, machine, marks, mix, paged_graph,
    paged_length, paged_program, program, random_image, sizing, write_only_program, Mix, Program,
    Rng,
};
use second::play::{report, Call, OneByOne, Outcome};
use second::record::{pieces, read, record, Entry, LEAST_2, MOST_1, MOST_2, STEP, STORE};
use std::borrow::Cow::Borrowed;
use std::process::exit;

/// Lengths about those that the lent buffers must have.
pub const STATES: [usize; 9] = [0, 1, 8, 268, 279, STATE, 281, 300, 560];
pub const REPORTS: [usize; 13] = [0, 1, 2, 3, 4, 5, 6, 7, REPORT, 9, 12, 16, 280];
/// Up to this length every beginning of some records is played too.
pub const SHORT: usize = 60;

pub fn playing(h: &mut Harness, programs: usize) {
    records(h);
    for _ in 0..programs {
        any_records(h);
        damaged(h);
    }
    // The longest records take much time.
    for (length, every) in [(MOST_1, 100), (LEAST_2, 1000), (MOST_2, 4000)] {
        (0..programs / every + 5).for_each(|index| full(h, index, length));
    }
}

/// A playing on both sides, in buffers that held something else.
pub fn play(h: &mut Harness, image: &[u8], record: &[u8]) -> (Outcome, Option<OneByOne>) {
    let report = REPORT + if h.rng.chance(20) { h.rng.below(9) } else { 0 };
    play_into(h, image, record, STATE, report)
}

/// The same in buffers of any length. A refusal must leave both.
pub fn play_into(
    h: &mut Harness,
    image: &[u8],
    record: &[u8],
    state: usize,
    report: usize,
) -> (Outcome, Option<OneByOne>) {
    let (state, report) = (any_state(&mut h.rng, state), any_bytes(&mut h.rng, report));
    let (outcome, entries) = h.compare_playing(Call::Play {
        image: Borrowed(image),
        record: Borrowed(record),
        state: Borrowed(&state),
        report: Borrowed(&report),
    });
    if matches!(boundary::number(outcome.answer), 1 | 2 | 9 | 27..=30) {
        let left = outcome.state.bytes() == state && outcome.out.bytes() == report;
        holds(left, "a refusal leaves both buffers", outcome.answer);
        holds(entries.is_none(), "it is only refused where it may be", outcome.answer);
    }
    (outcome, entries)
}

/// What a state holds before: a machine, or any bytes.
fn any_state(rng: &mut Rng, length: usize) -> Vec<u8> {
    if length == STATE && rng.chance(50) {
        machine(rng)
    } else {
        any_bytes(rng, length)
    }
}

fn any_bytes(rng: &mut Rng, length: usize) -> Vec<u8> {
    let mut bytes = vec![0; length];
    rng.fill(&mut bytes);
    bytes
}

/// Most are accepted. Call graphs go too deep now and then, and changed bytes
/// and random images stop for every reason.
pub fn any_program(rng: &mut Rng) -> Program {
    let length = paged_length(rng);
    match rng.below(20) {
        0 => sizing(rng),
        1 | 2 => write_only_program(rng),
        3 | 4 => call_graph(rng),
        5 | 6 => {
            let mut program = program(rng);
            (0..4).for_each(|_| damage(rng, &mut program));
            program
        }
        7 => {
            let image = random_image(rng);
            Program { certificate: vec![0; marks(image.len())], image, wired: 0 }
        }
        8..=10 => paged_program(rng, length),
        11 => paged_graph(rng, length),
        12 | 13 => {
            let mut program = paged_program(rng, length);
            (0..4).for_each(|_| damage(rng, &mut program));
            program
        }
        _ => program(rng),
    }
}

/// The bytes of entries: up to a most, or now and then those of version 2.
fn any_length(rng: &mut Rng, most: usize, long_every: usize) -> usize {
    if rng.below(long_every) == 0 {
        long_length(rng)
    } else {
        rng.any_size(most)
    }
}

/// Some records on a program, short ones as likely as long ones.
fn any_records(h: &mut Harness) {
    let program = any_program(&mut h.rng);
    let levels = check(&program.image, &program.certificate, program.wired).ok();
    for _ in 0..3 {
        // With wired sources only, demand 3 holds of accepted programs.
        let tame = h.rng.chance(60);
        let mix = mix(&mut h.rng, if tame { program.wired } else { 0x1F });
        let length = any_length(&mut h.rng, MOST_1, 150);
        let body = entries(&mut h.rng, &mix, length);
        play_and_hold(h, &program.image, &body, levels.filter(|_| tame));
        if length <= SHORT && h.rng.chance(20) {
            beginnings(h, &program.image, &body, levels.filter(|_| tame));
        }
    }
}

/// Plays entries, under demand 3 where it gives levels.
fn play_and_hold(h: &mut Harness, image: &[u8], body: &[u8], levels: Option<u8>) {
    let record = record(body);
    let (outcome, entries) = play(h, image, &record);
    let entries = entries.expect("a good record");
    if let Some(levels) = levels {
        demand3(h, &record, &outcome, &entries, levels);
        h.counts.add_demand3(image);
    }
}

/// Every beginning of a record is a record too.
fn beginnings(h: &mut Harness, image: &[u8], body: &[u8], levels: Option<u8>) {
    let whole = record(body);
    let mut length = 0;
    for piece in pieces(&whole).1 {
        play_and_hold(h, image, &body[..length], levels);
        length += piece.len();
    }
}

/// What demand 3 promises of the entries: only 11 ends it at a step and 10 at
/// a store, and after each of them there are no more levels in use than the
/// check's number.
fn demand3(h: &mut Harness, record: &[u8], outcome: &Outcome, played: &OneByOne, levels: u8) {
    let number = boundary::number(outcome.answer);
    let entries = read(record).expect("it was played");
    let allowed = match entries.get(report(outcome).0 as usize) {
        None => number == 0,
        Some(Entry::Step { .. }) => number == 11,
        Some(Entry::Store { .. }) => number == 10,
        Some(Entry::Reset) => false,
    };
    let deepest = played.deepest.max(outcome.state.bytes()[258]);
    if !allowed || deepest > levels {
        println!("DEMAND 3 FAILS: a playing gave {number}, levels {deepest} of {levels}");
        exit(1);
    }
    h.counts.plays.add_demand3(record);
}

/// A record that is spoilt in some ways, with images and buffers that may be
/// bad too.
fn damaged(h: &mut Harness) {
    let good = any_program(&mut h.rng).image;
    for _ in 0..8 {
        let mix = mix(&mut h.rng, 0x1F);
        let most = if h.rng.chance(5) { MOST_1 } else { 200 };
        let length = any_length(&mut h.rng, most, 250);
        let mut bad = record(&entries(&mut h.rng, &mix, length));
        for _ in 0..h.rng.pick(&[1, 1, 1, 2, 3]) {
            damage_record(&mut h.rng, &mut bad);
        }
        let mut image = good.clone();
        if h.rng.chance(10) {
            image.resize(h.rng.pick(&LENGTHS), 0x04);
        }
        let state = if h.rng.chance(90) { STATE } else { h.rng.pick(&STATES) };
        let report = if h.rng.chance(90) { REPORT } else { h.rng.pick(&REPORTS) };
        play_into(h, &image, &bad, state, report);
    }
}

/// Records of a length where a version begins or ends, on a program that
/// doesn't stop.
fn full(h: &mut Harness, index: usize, length: usize) {
    const KINDS: [[usize; 3]; 5] = [[1, 0, 0], [0, 1, 0], [0, 0, 1], [20, 5, 1], [1000, 50, 1]];
    let program = program(&mut h.rng);
    let levels = check(&program.image, &program.certificate, program.wired).ok();
    let requested = h.rng.pick(&[0, 2, 20]);
    let kinds = KINDS[index % KINDS.len()];
    let mix = Mix { kinds, requests: program.wired, requested, refused: 0 };
    let mut body = entries(&mut h.rng, &mix, length);
    play_and_hold(h, &program.image, &body, levels);
    // The same with a last entry that is refused.
    let end = h.rng.pick(&[&[STEP, 0x80][..], &[STORE, 0x55, 0x00]]);
    body = entries(&mut h.rng, &mix, length - end.len());
    body.extend(end);
    play_and_hold(h, &program.image, &body, levels);
}

/// Ends the comparison where an answer isn't what W-206 and W-207 say of it.
pub fn holds(so: bool, what: &str, answer: u64) {
    if !so {
        println!("THE PLAYER FAILS: not so that {what}; the answer was {answer:X}h");
        exit(1);
    }
}
