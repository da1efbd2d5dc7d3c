//! The player, on records written by hand, and generated ones.

use super::*;
use crate::boundary::{self, REPORT, STATE};
use crate::check::check;
use crate::generate::{
    coded, damage_record, entries, long_length, mix, program, random_image, Mix, Rng,
};
use crate::player::{play, Played};
use crate::record::{
    count, of_version, pieces, put_count, read, record, Entry, Fault, MOST_1, MOST_2,
};
use crate::Refusal::{self, *};

/// Start-up, a loop that counts in 20h, and the services of NMI and source 1.
fn counting() -> Vec<u8> {
    coded(&[
        (0xFFE, &[0x09, 0x88]),             // JP 880h
        (0x880, &[0x0D, 0x20, 0x05, 0x4D]), // LDI 20h,5; RETI
        (0x884, &[0x7F, 0x20, 0x49, 0x88]), // INC 20h; JP 884h
        (0xFFC, &[0x4D]),                   // RETI
        (0xFF6, &[0x4D]),
    ])
}

/// Where a JP jumps to itself.
fn looping() -> Vec<u8> {
    coded(&[(0xFFE, &[0xE9, 0xFF])])
}

fn played(image: &[u8], entries: &[u8]) -> Played {
    play(image, &record(entries)).unwrap()
}

/// The record ends at an entry, with the machine and the cycles of the
/// entries before it.
fn ends(image: &[u8], before: &[u8], end: &[u8], number: u32, refusal: Refusal) {
    let whole = played(image, before);
    assert_eq!((whole.entries, whole.end), (number, None));
    let ended = Played { end: Some(refusal), ..whole };
    for after in [&[][..], &[2], &[0, 0, 1, 0x40, 0], &[0, 0xFF, 2, 2]] {
        assert_eq!(played(image, &[before, end, after].concat()), ended);
    }
}

#[test]
fn the_bytes_of_a_record() {
    let entries = [0, 0x1F, 1, 0xC8, 0x10, 2];
    assert_eq!(record(&entries), [1, 0, 6, 0, 0x1F, 1, 0xC8, 0x10, 2]);
    let expected =
        [Entry::Step { request: 0x1F }, Entry::Store { address: 0xC8, value: 0x10 }, Entry::Reset];
    assert_eq!(read(&record(&entries)).unwrap(), expected);
    assert_eq!(record(&[2; 0x1234])[..4], [1, 0x12, 0x34, 2]);
    assert_eq!(record(&[2; 65_535])[..4], [1, 0xFF, 0xFF, 2]);
}

#[test]
fn the_bytes_of_a_long_record() {
    for (length, header) in [
        (65_536, [2, 1, 0, 0]),
        (65_537, [2, 1, 0, 1]),
        (74_565, [2, 1, 0x23, 0x45]),
        (1_048_575, [2, 0x0F, 0xFF, 0xFF]),
        (1_048_576, [2, 0x10, 0, 0]),
    ] {
        let entries = vec![2; length];
        let bytes = [&header[..], &entries].concat();
        assert_eq!(record(&entries), bytes);
        assert_eq!(read(&bytes), Ok(vec![Entry::Reset; length]));
        assert_eq!(pieces(&bytes).0, header);
    }
    assert_eq!(of_version(2, &[0, 1, 2]), [2, 0, 0, 3, 0, 1, 2]);
    assert_eq!(of_version(1, &[2; 65_538])[..4], [1, 0, 2, 2]);
}

#[test]
fn every_kind_of_entry() {
    let steps = [0; 8];
    // JP, LDI, RETI, INC.
    let started = played(&counting(), &steps);
    assert_eq!((started.entries, started.cycles, started.end), (4, 4 + 4 + 2 + 4, None));
    assert_eq!((started.machine.pc, started.machine.mode), (0x886, Mode::Normal));
    assert_eq!(started.machine.data[0x20], 6);
    // A store of 9, JP, NMI, RETI, INC, a reset, a step.
    let more = [1, 0x20, 9, 0, 0, 0, 1, 0, 0, 0, 0];
    let all = played(&counting(), &[&steps[..], &more].concat());
    assert_eq!((all.entries, all.cycles), (9, 14 + 4 + 1 + 2 + 4));
    assert_eq!((all.machine.pc, all.machine.data[0x20]), (0x886, 10));
    let reset = played(&counting(), &[&steps[..], &more, &[2, 0, 0]].concat());
    assert_eq!((reset.entries, reset.cycles), (11, 25 + 4));
    assert_eq!((reset.machine.pc, reset.machine.mode), (0x880, Mode::Reset));
    assert_eq!(reset.machine.data[0x20], 10);
}

/// Source 1 is taken once a store has enabled it, and not after a reset.
#[test]
fn requests_and_stores() {
    let image = counting();
    let started = [0; 6];
    let enabled = [1, 0xC8, 0x10, 0, 2];
    let taken = played(&image, &[&started[..], &enabled].concat());
    assert_eq!((taken.machine.pc, taken.machine.mode), (0xFF6, Mode::Interrupt));
    assert_eq!((taken.entries, taken.cycles, taken.machine.levels), (5, 11, 1));
    let not_enabled = played(&image, &[&started[..], &[0, 2]].concat());
    assert_eq!((not_enabled.machine.pc, not_enabled.cycles), (0x886, 14));
    let reset = played(&image, &[&started[..], &enabled, &[2], &started, &[0, 2]].concat());
    assert_eq!((reset.machine.pc, reset.machine.data[0xC8]), (0x886, 0));
    assert_eq!((reset.entries, reset.cycles), (10, 11 + 14));
}

/// STOP at FFEh: idle steps cost nothing, and a reset wakes.
#[test]
fn sleep() {
    let image = coded(&[(0xFFE, &[0x6D])]);
    let asleep = played(&image, &[0; 20]);
    assert_eq!((asleep.entries, asleep.cycles, asleep.machine.asleep), (10, 2, true));
    let again = played(&image, &[0, 0, 0, 0, 2, 0, 0]);
    assert_eq!((again.entries, again.cycles, again.machine.pc), (4, 4, 0xFFF));
}

#[test]
fn nothing_to_play() {
    let fresh = Played { machine: Machine::default(), entries: 0, cycles: 0, end: None };
    assert_eq!(play(&counting(), &[1, 0, 0]), Ok(fresh.clone()));
    assert_eq!(play(&[0; 4096], &[1, 0, 0]), Ok(fresh));
}

#[test]
fn entries_that_end_a_playing() {
    let image = counting();
    for (before, number) in
        [(&[][..], 0), (&[2], 1), (&[0, 0], 1), (&[1, 0x20, 7], 1), (&[0, 0, 1, 0xC8, 0x10, 2], 3)]
    {
        for address in 0x40..=0x7F {
            ends(&image, before, &[1, address, 0], number, RomWindow);
        }
        for request in 0x20..=0xFF {
            ends(&image, before, &[0, request], number, Request);
        }
    }
}

/// Stops, with their addresses, first and after other entries.
#[test]
fn stops_that_end_a_playing() {
    let step = &[0, 0];
    for before in [&[][..], &[2], &[1, 0x33, 0x44], &[2, 2, 1, 0x33, 0x44, 2]] {
        let number = pieces(&record(before)).1.len() as u32;
        let with_step = [before, step].concat();
        // LDI whose operand would be at 000h; JP 100h.
        ends(&coded(&[(0xFFE, &[0x0D, 0x33])]), before, step, number, OutsideRom(0xFFE));
        ends(&coded(&[(0xFFE, &[9, 0x10])]), &with_step, step, number + 1, OutsideRom(0x100));
        ends(&coded(&[(0xFFE, &[0x05])]), before, step, number, Undefined(0xFFE));
        ends(&coded(&[(0xFFE, &[4, 0xF7])]), &with_step, step, number + 1, Undefined(0xFFF));
        ends(&coded(&[(0xFFE, &[0xCD])]), before, step, number, StackEmpty(0xFFE));
        ends(&coded(&[(0xFFE, &[0x4D, 0x4D])]), &with_step, step, number + 1, StackEmpty(0xFFF));
        // CALL of itself, six times.
        let six = [before, &[0; 12]].concat();
        ends(&coded(&[(0xFFE, &[0xE1, 0xFF])]), &six, step, number + 6, StackFull(0xFFE));
        // JP 880h, RETI, CALL 881h six times, then NMI.
        let main = coded(&[(0xFFE, &[0x09, 0x88]), (0x880, &[0x4D, 0x11, 0x88])]);
        let eight = [before, &[0; 16]].concat();
        ends(&main, &eight, &[0, 1], number + 8, StackFull(0x881));
    }
}

#[test]
fn refusals_in_order() {
    let image = looping();
    // Too short, whatever is in it; then the version, whatever comes after.
    for short in [&[][..], &[1], &[2], &[0], &[1, 0], &[2, 0], &[255, 255]] {
        assert_eq!(play(&image, short), Err(RecordLength));
        assert_eq!(play(&image[1..], short), Err(ImageLength));
    }
    for version in (0..=255).filter(|version| !matches!(version, 1 | 2)) {
        for rest in [&[0, 0][..], &[0, 1], &[0, 1, 2], &[0, 1, 3], &[0, 2, 2], &[255, 255, 9]] {
            let bytes = [&[version][..], rest].concat();
            assert_eq!(play(&image, &bytes), Err(RecordVersion));
            assert_eq!(play(&image[1..], &bytes), Err(ImageLength));
        }
    }
    for count in [[0, 1], [1, 0], [0, 4], [3, 0], [0, 6], [255, 255], [0, 0]] {
        // A bad entry, one that is refused, and good ones.
        for entries in [[3, 2, 2], [1, 0x40, 0], [0, 0, 2]] {
            let bytes = [&[1][..], &count, &entries].concat();
            assert_eq!(play(&image, &bytes), Err(RecordLength));
            assert_eq!(play(&image[1..], &bytes), Err(ImageLength));
        }
    }
    for length in [0, 1, 2047, 2049, 4095, 4097, 65_536] {
        let image = vec![0; length];
        assert_eq!(play(&image, &record(&[])), Err(ImageLength));
        assert_eq!(play(&image, &record(&[3])), Err(ImageLength));
    }
}

/// 29 wherever the bad entry is, before anything is played: here a step that
/// stops and a store that is refused come first.
#[test]
fn unknown_entries() {
    let undefined = coded(&[(0xFFE, &[0x05])]);
    let entries = [0, 0, 1, 0x40, 0, 2, 2, 0, 0xFF, 1, 1, 1];
    for image in [looping(), undefined] {
        for place in [0, 2, 5, 6, 7, 9] {
            for kind in 3..=255 {
                let mut bytes = entries;
                bytes[place] = kind;
                assert_eq!(play(&image, &record(&bytes)), Err(RecordEntry), "{kind} at {place}");
                assert_eq!(read(&record(&bytes)), Err(Fault::Unknown));
                assert_eq!(play(&image, &record(&bytes[..=place])), Err(RecordEntry));
            }
        }
        assert_eq!(play(&image, &record(&[&entries[..], &[3]].concat())), Err(RecordEntry));
    }
}

#[test]
fn cut_entries() {
    let image = coded(&[(0xFFE, &[0x05])]);
    for before in [&[][..], &[2], &[0, 0], &[1, 0x40, 0], &[2, 0, 0x80, 1, 1, 1]] {
        for (cut, fault) in [
            (&[0][..], Fault::CutStep),
            (&[1], Fault::CutStore),
            (&[1, 0], Fault::CutStore),
            (&[1, 2], Fault::CutStore),
            (&[1, 0x40], Fault::CutStore),
        ] {
            let bytes = record(&[before, cut].concat());
            assert_eq!(read(&bytes), Err(fault));
            assert_eq!(play(&image, &bytes), Err(RecordEntry));
        }
    }
}

/// A record cut at every place has a wrong count; with the right one it is
/// good between entries.
#[test]
fn cut_records() {
    let entries = [0, 0, 1, 0x20, 0x55, 2, 1, 2, 0, 0, 1, 2];
    let ends = [0, 2, 5, 6, 9, 11, 12];
    let (image, whole) = (counting(), record(&entries));
    for length in 0..whole.len() {
        let mut cut = whole[..length].to_vec();
        assert_eq!(play(&image, &cut), Err(RecordLength));
        count(&mut cut);
        let answer = play(&image, &cut).map(|played| played.entries);
        let expected = match length.checked_sub(3) {
            None => Err(RecordLength),
            Some(body) => ends.iter().position(|&end| end == body).ok_or(RecordEntry),
        };
        assert_eq!(answer, expected.map(|number| number as u32), "{length}");
    }
}

#[test]
fn full_records() {
    let image = looping();
    assert_eq!(played(&image, &[2; MOST_1]).entries, 65_535);
    let steps = played(&image, &[&[0; MOST_1 - 1][..], &[2]].concat());
    assert_eq!((steps.entries, steps.cycles), (32_768, 4 * 32_767));
    let stores = played(&image, &[1; MOST_1]);
    assert_eq!((stores.entries, stores.cycles, stores.machine.data[1]), (21_845, 0, 1));
    ends(&image, &[2; MOST_1 - 9], &[0, 0x20], 65_526, Request);
    ends(&image, &[0; MOST_1 - 9], &[1, 0x40, 1], 32_763, RomWindow);
    assert_eq!(play(&image, &record(&[0; MOST_1])), Err(RecordEntry));
    // The count has two bytes, and isn't taken modulo 65,536.
    for length in [65_536, 65_537, 65_792, 131_072] {
        let mut bytes = [&[1, 0, 0][..], &vec![2; length]].concat();
        assert_eq!(play(&image, &bytes), Err(RecordLength));
        count(&mut bytes);
        assert_eq!(play(&image, &bytes), Err(RecordLength));
        bytes[1..3].fill(0xFF);
        assert_eq!(play(&image, &bytes), Err(RecordLength));
    }
    for length in [255, 256, 257, 32_767, 32_768] {
        assert_eq!(played(&image, &vec![2; length]).entries, length as u32);
        let mut swapped = record(&vec![2; length]);
        swapped.swap(1, 2);
        let expected = if length == 257 { Ok(257) } else { Err(RecordLength) };
        assert_eq!(play(&image, &swapped).map(|played| played.entries), expected);
    }
}

#[test]
fn long_records() {
    let image = looping();
    assert_eq!(played(&image, &[2; 65_536]).entries, 65_536);
    assert_eq!(played(&image, &[2; MOST_2]).entries, 1_048_576);
    let steps = played(&image, &[0; MOST_2]);
    assert_eq!((steps.entries, steps.cycles), (524_288, 2_097_152));
    let stores = played(&image, &[&[1; MOST_2 - 1][..], &[2]].concat());
    assert_eq!((stores.entries, stores.cycles, stores.machine.data[1]), (349_526, 0, 1));
    // An entry that ends it: the first, in the middle, the last.
    ends_long(&image, &[], &[0, 0x20], &[2; 65_536], Request);
    ends_long(&image, &[2; 65_536], &[1, 0x7F, 0], &[1; 3000], RomWindow);
    ends_long(&image, &[0; 200_000], &[0, 0x80], &[], Request);
    ends_long(&coded(&[(0xFFE, &[0x04, 0x05])]), &[0, 0], &[0, 0], &[2; 70_000], Undefined(0xFFF));
}

/// A long record ends at an entry, with the machine and the cycles of the
/// entries before it.
fn ends_long(image: &[u8], before: &[u8], end: &[u8], after: &[u8], refusal: Refusal) {
    let ended = played(image, &[before, end, after].concat());
    assert_eq!(ended, Played { end: Some(refusal), ..played(image, before) });
}

/// A record is turned down, and a bad image before it.
fn refused(bytes: &[u8], fault: Fault, refusal: Refusal) {
    let image = looping();
    assert_eq!(read(bytes), Err(fault));
    assert_eq!(play(&image, bytes), Err(refusal));
    assert_eq!(play(&image[1..], bytes), Err(ImageLength));
}

#[test]
fn counts_of_long_records() {
    // Under four bytes, whatever is in them.
    for three in [[2, 0, 0], [2, 1, 0], [2, 0x10, 0], [2, 0xFF, 0xFF]] {
        refused(&three, Fault::Short2, RecordLength);
    }
    // Entries that play and ones that don't: 28 and 30 come before 29.
    for kind in [2, 3] {
        for length in [0, 1, 255, 256, 65_535] {
            refused(&of_version(2, &vec![kind; length]), Fault::TooFew, RecordLength);
        }
        for length in [1_048_577, 1_048_578, 0x10_0100, 0x11_0000] {
            refused(&of_version(2, &vec![kind; length]), Fault::TooMany, RecordTooLong);
        }
        for (length, count) in [
            (0, 1),
            (3, 0),
            (0, 1_048_577),
            (65_535, 65_536),
            (65_536, 0),
            (65_536, 65_535),
            (65_536, 1_048_577),
            (65_536, 131_072),
            (65_537, 65_536),
            (1_048_576, 1_048_577),
            (1_048_577, 1_048_576),
            (1_048_577, 1_048_578),
            (1_048_577, 0xFF_FFFF),
        ] {
            let mut bytes = of_version(2, &vec![kind; length]);
            put_count(&mut bytes, count);
            refused(&bytes, Fault::Count2, RecordLength);
        }
    }
}

#[test]
fn bad_entries_of_long_records() {
    for length in [65_536, MOST_2] {
        refused(&of_version(2, &vec![3; length]), Fault::Unknown, RecordEntry);
        let cut = [&vec![2; length - 1][..], &[0]].concat();
        refused(&of_version(2, &cut), Fault::CutStep, RecordEntry);
        let cut = [&vec![2; length - 2][..], &[1, 0x40]].concat();
        refused(&of_version(2, &cut), Fault::CutStore, RecordEntry);
    }
}

/// 27 for every version but 1 and 2, whatever the length and the count.
#[test]
fn other_versions_of_long_records() {
    let image = looping();
    for length in [65_535, 65_536, MOST_2, MOST_2 + 1] {
        for counted in [1, 2] {
            let mut bytes = of_version(counted, &vec![2; length]);
            for version in (0..=255).filter(|version| !matches!(version, 1 | 2)) {
                bytes[0] = version;
                assert_eq!(read(&bytes), Err(Fault::Version));
            }
            assert_eq!(play(&image, &bytes), Err(RecordVersion));
            assert_eq!(play(&image[1..], &bytes), Err(ImageLength));
        }
    }
    // A good record of each version as one of the other.
    for length in [0, 1, 65_535, 65_536, MOST_2] {
        let mut bytes = record(&vec![2; length]);
        bytes[0] ^= 3;
        assert_eq!(play(&image, &bytes), Err(RecordLength));
    }
}

/// The three bytes of a count in every order.
#[test]
fn orders_of_a_long_count() {
    let image = looping();
    let bytes = record(&[2; 0x1_0203]);
    for order in [[1, 2, 3], [1, 3, 2], [2, 1, 3], [2, 3, 1], [3, 1, 2], [3, 2, 1]] {
        let mut turned = bytes.clone();
        (1..).zip(order).for_each(|(to, from)| turned[to] = bytes[from]);
        let entries = play(&image, &turned).map(|played| played.entries);
        assert_eq!(entries, if order == [1, 2, 3] { Ok(0x1_0203) } else { Err(RecordLength) });
    }
}

/// A playing in lent buffers that held something else.
fn packed(image: &[u8], record: &[u8], state: usize, report: usize) -> (u64, Vec<u8>, Vec<u8>) {
    let (mut state, mut report) = (vec![0xA5; state], vec![0x5A; report]);
    let answer = boundary::play(image, record, &mut state, &mut report);
    (answer, state, report)
}

#[test]
fn packed_answers() {
    // A step, a store, a reset, a step, then one of each that ends it.
    let entries = [0, 0, 1, 0x20, 9, 2, 0, 0];
    for (image, end, answer) in [
        (looping(), &[][..], 0),
        (looping(), &[1, 0x7F, 0], 10),
        (looping(), &[0, 0x80], 11),
        (coded(&[(0xFFE, &[0x04, 0x05])]), &[0, 0], 5 | 0xFFF << 8),
        (coded(&[(0xFFE, &[0x09, 0x7F])]), &[0, 0], 4 | 0x7F0 << 8),
    ] {
        let played = played(&image, &entries);
        let (word, state, report) =
            packed(&image, &record(&[&entries[..], end].concat()), STATE, 11);
        let mut expected = vec![0; STATE];
        boundary::pack(&played.machine, &mut expected);
        assert_eq!((word, state), (answer, expected));
        assert_eq!(report[..4], [4, 0, 0, 0]);
        assert_eq!(report[4..8], played.cycles.to_le_bytes());
        assert_eq!(report[8..], [0x5A; 3]);
    }
    let mut fresh = vec![0; STATE];
    assert_eq!(boundary::reset(&mut fresh), 0);
    for (bytes, report) in [
        (vec![2; MOST_1], [0xFF, 0xFF, 0, 0, 0, 0, 0, 0]),
        (vec![2; MOST_2], [0, 0, 0x10, 0, 0, 0, 0, 0]),
        (vec![0; MOST_2], [0, 0, 8, 0, 0, 0, 0x20, 0]),
    ] {
        let answer = packed(&looping(), &record(&bytes), STATE, REPORT);
        assert_eq!(answer, (0, fresh.clone(), report.to_vec()));
    }
}

/// The playing's own refusals, then 2, then 9; all leave both buffers.
#[test]
fn packed_refusals() {
    let undefined = coded(&[(0xFFE, &[0x05])]);
    let good = record(&[0, 0]);
    let [few, many] = [MOST_1, MOST_2 + 1].map(|length| of_version(2, &vec![0; length]));
    let refused = |image: &[u8], record: &[u8], state: usize, report: usize| {
        let (answer, state, report) = packed(image, record, state, report);
        assert!(state.iter().all(|&byte| byte == 0xA5) && report.iter().all(|&byte| byte == 0x5A));
        answer
    };
    for state in [0, 1, 279, STATE, 281, 560] {
        for report in [0, 1, 7, REPORT, 9] {
            assert_eq!(refused(&undefined[1..], &[], state, report), 1);
            assert_eq!(refused(&undefined, &[2, 0], state, report), 28);
            assert_eq!(refused(&undefined, &[3, 1, 0], state, report), 27);
            assert_eq!(refused(&undefined, &[1, 1, 0], state, report), 28);
            assert_eq!(refused(&undefined, &[2, 1, 0], state, report), 28);
            assert_eq!(refused(&undefined, &few, state, report), 28);
            assert_eq!(refused(&undefined, &many, state, report), 30);
            assert_eq!(refused(&undefined, &[1, 0, 1, 1], state, report), 29);
            for image in [&undefined, &looping()] {
                let expected = if state == STATE { 9 } else { 2 };
                if state != STATE || report < REPORT {
                    assert_eq!(refused(image, &good, state, report), expected);
                }
            }
        }
    }
    assert_eq!(packed(&undefined, &good, STATE, REPORT).0, 5 | 0xFFE << 8);
}

/// Generated entries have the wanted length, and steps without another entry
/// between them are a run.
#[test]
fn generated_records_play_as_runs() {
    let mut rng = Rng::new(7);
    for round in 0..600 {
        let image = if round % 2 == 0 { program(&mut rng).image } else { random_image(&mut rng) };
        let mix = Mix { refused: 0, ..mix(&mut rng, 0x1F) };
        let length = rng.any_size(3000);
        let body = entries(&mut rng, &mix, length);
        assert_eq!(body.len(), length);
        assert_eq!(played(&image, &body), in_runs(&image, &read(&record(&body)).unwrap()));
    }
}

/// The same as a playing of entries that aren't refused, by runs.
fn in_runs(image: &[u8], entries: &[Entry]) -> Played {
    let mut all = Played { machine: Machine::default(), entries: 0, cycles: 0, end: None };
    let mut rest = entries.iter().peekable();
    loop {
        let mut requests = Vec::new();
        while let Some(Entry::Step { request }) = rest.peek() {
            requests.push(*request);
            rest.next();
        }
        let ran = all.machine.run(image, &requests, requests.len() as u32).unwrap();
        all.entries += ran.steps;
        all.cycles += ran.cycles;
        all.end = ran.stop;
        match rest.next() {
            Some(Entry::Store { address, value }) if all.end.is_none() => {
                all.machine.host_store(*address, *value).unwrap();
            }
            Some(Entry::Reset) if all.end.is_none() => all.machine.reset(),
            _ => return all,
        }
        all.entries += 1;
    }
}

/// Demand 3, tried out on records with wired sources only.
#[test]
fn accepted_programs_end_only_by_refusals() {
    let mut rng = Rng::new(8);
    let mut ended = [0; 3];
    for _ in 0..600 {
        let program = program(&mut rng);
        let Ok(levels) = check(&program.image, &program.certificate, program.wired) else {
            continue;
        };
        let mix = Mix { kinds: [20, 20, 1], ..mix(&mut rng, program.wired) };
        let played = played(&program.image, &entries(&mut rng, &mix, 2000));
        assert!(played.machine.levels <= levels);
        match played.end {
            None => ended[0] += 1,
            Some(RomWindow) => ended[1] += 1,
            Some(Request) => ended[2] += 1,
            Some(other) => panic!("{other:?}"),
        }
    }
    assert!(ended.iter().all(|&count| count > 20), "{ended:?}");
}

#[test]
fn damaged_records() {
    let mut rng = Rng::new(9);
    let mut seen = [0; 11];
    for round in 0..3000 {
        let mix = mix(&mut rng, 0x1F);
        let length = if round % 10 == 0 { long_length(&mut rng) } else { rng.below(100) };
        // Too long now and then.
        let length = if length == MOST_2 { MOST_2 + rng.below(2) } else { length };
        let version = if length > MOST_1 { 2 } else { 1 };
        let mut bytes = of_version(version, &entries(&mut rng, &mix, length));
        damage_record(&mut rng, &mut bytes);
        seen[read(&bytes).map_or_else(|fault| fault as usize, |_| 10)] += 1;
        let (header, pieces) = pieces(&bytes);
        assert_eq!([header, &pieces.concat()].concat(), bytes);
    }
    assert!(seen.iter().all(|&count| count > 0), "{seen:?}");
}
