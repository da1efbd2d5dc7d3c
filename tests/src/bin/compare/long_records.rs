//! Records of version 2 written by hand: counts about its ends, every fault,
//! every way to end a playing, and the longest.

use crate::harness::Harness;
use crate::playing::play;
use crate::records::{ends, number, Ending, ENDINGS, LOOP};
use second::boundary::{self, REPORT, STATE};
use second::generate::{coded, entries, mix, Mix};
use second::library::PROVED;
use second::play::report;
use second::record::{
    count, of_version, pieces, put_count, record, LEAST_2, MOST_1, MOST_2, RESET, STEP, STORE,
    VERSION_1, VERSION_2,
};
use std::thread;

/// Less than half of what the shortest record of `longest` has.
const SMALL_STACK: usize = 64 * 1024;

/// What is quickest comes first.
pub fn long_records(h: &mut Harness) {
    versions(h);
    orders(h);
    counts(h);
    cuts(h);
    unknown(h);
    endings(h);
    longest(h);
}

/// Entries of any length that play, in little time: stores, after resets for
/// what isn't a multiple of three.
pub fn filling(length: usize) -> Vec<u8> {
    let mut entries = vec![STORE; length];
    entries[..length % 3].fill(RESET);
    entries
}

/// What a record of version 2 gives by its count and the bytes after it, if
/// its entries play.
fn by_count(count: usize, length: usize) -> u8 {
    match length {
        _ if count != length => 28,
        0..=65_535 => 28,
        65_536..=1_048_576 => 0,
        _ => 30,
    }
}

/// Long records with every first byte, with the count of version 1, as far as
/// it goes in, or of version 2.
fn versions(h: &mut Harness) {
    let image = coded(LOOP);
    for length in [MOST_1, LEAST_2, MOST_2 + 1] {
        for counted in [VERSION_1, VERSION_2] {
            let mut record = of_version(counted, &filling(length));
            for version in 0..=255 {
                record[0] = version;
                let given = number(h, &image, &record);
                let known = matches!(version, VERSION_1 | VERSION_2);
                assert!(known || given == 27, "{given} of a long record of version {version}");
            }
        }
    }
}

/// Bad entries in records with all sorts of counts: 28 comes first, then 30,
/// then 29.
fn orders(h: &mut Harness) {
    let image = coded(LOOP);
    let counts = [0, 10, MOST_1, LEAST_2, MOST_2, MOST_2 + 1, MOST_2 + 2, 0xFF_FFFF];
    for length in [10, MOST_1, LEAST_2, MOST_2, MOST_2 + 1] {
        for body in bad_bodies(length) {
            let mut record = of_version(VERSION_2, &body);
            for count in counts {
                put_count(&mut record, count);
                let expected = match by_count(count, length) {
                    0 => 29,
                    other => other,
                };
                let given = number(h, &image, &record);
                assert_eq!(given, expected, "a bad entry, and {count} for {length} bytes");
            }
        }
    }
}

/// Entries of a length with a bad one: the first, the last, and cut ones.
fn bad_bodies(length: usize) -> [Vec<u8>; 4] {
    let (one_less, two_less) = (filling(length - 1), filling(length - 2));
    [
        [&[3][..], &one_less].concat(),
        [&one_less[..], &[0xFF]].concat(),
        [&one_less[..], &[STEP]].concat(),
        [&two_less[..], &[STORE, 0x40]].concat(),
    ]
}

/// Bodies about the least and the most, and a longer one than three bytes can
/// tell, with right and wrong counts, and the same bytes as version 1.
fn counts(h: &mut Harness) {
    const LENGTHS: [usize; 22] = [
        0, 1, 2, 255, 256, 0x0201, 65_534, 65_535, 65_536, 65_537, 0x1_0100, 0x1_0101, 0x1_0203,
        0x1_FFFF, 0x2_0000, 1_048_575, 1_048_576, 1_048_577, 0x10_0010, 0x10_0100, 0x11_0000,
        0x101_0000,
    ];
    let image = coded(LOOP);
    for length in LENGTHS {
        let mut record = of_version(VERSION_2, &filling(length));
        for count in counts_about(length) {
            put_count(&mut record, count);
            let given = number(h, &image, &record);
            assert_eq!(given, by_count(count, length), "a count of {count} for {length} bytes");
            record[0] = VERSION_1;
            let given = number(h, &image, &record);
            assert!(given == 28 || length < LEAST_2, "it has more than two bytes can tell");
            record[0] = VERSION_2;
        }
    }
}

/// The right count, as far as it goes into three bytes, and others: some off,
/// far off, and with its bytes in another order.
fn counts_about(length: usize) -> Vec<usize> {
    let [_, high, middle, low] = (length as u32).to_be_bytes();
    let orders = [
        [high, low, middle],
        [middle, high, low],
        [middle, low, high],
        [low, high, middle],
        [low, middle, high],
    ];
    let turned = orders.map(|[a, b, c]| u32::from_be_bytes([0, a, b, c]) as usize);
    let off = [1, 2, 3, 4, 5, 0x100, 0xFFFF, 0x1_0000, 0x10_0000];
    let below = off.map(|off| length.wrapping_sub(off));
    let above = off.map(|off| length + off);
    let ends = [0, MOST_1, LEAST_2, MOST_2, MOST_2 + 1, !length, !0];
    let all = turned.into_iter().chain(below).chain(above).chain(ends);
    let counts = all.filter(|&count| count != length).chain([length]);
    counts.map(|count| count & 0xFF_FFFF).collect()
}

/// A record of all kinds of entries, a few bytes longer than the least.
fn whole(h: &mut Harness) -> Vec<u8> {
    let mix = Mix { kinds: [3, 2, 1], refused: 0, ..mix(&mut h.rng, 0x1F) };
    record(&entries(&mut h.rng, &mix, LEAST_2 + 10))
}

/// Records cut at some places, with the count as it was and with the count
/// that they have then.
fn cuts(h: &mut Harness) {
    let (image, whole) = (coded(LOOP), whole(h));
    let near_the_end = whole.len() - 20..whole.len();
    let between = [100, 32_768, 65_000];
    for length in (0..12).chain(between).chain(near_the_end) {
        let mut cut = whole[..length].to_vec();
        assert_eq!(number(h, &image, &cut), 28, "a cut record");
        count(&mut cut);
        let given = number(h, &image, &cut);
        assert!(given == 28 || length >= LEAST_2 + 4, "a record that is too short now");
    }
}

/// Every byte that begins no entry, as the first entry's first, and some in
/// other places.
fn unknown(h: &mut Harness) {
    let (image, whole) = (coded(LOOP), whole(h));
    let (header, pieces) = pieces(&whole);
    let place = |entry: usize| {
        let before = pieces[..entry].iter().map(|piece| piece.len());
        header.len() + before.sum::<usize>()
    };
    let last = pieces.len() - 1;
    let firsts = (3..=255).map(|kind| (0, kind));
    let others = [1, last / 2, last - 1, last].into_iter().flat_map(|entry| {
        [3, 4, 0x10, 0x80, 0x81, 0xFF].into_iter().map(move |kind| (entry, kind))
    });
    for (entry, kind) in firsts.chain(others) {
        let mut bad = whole.clone();
        bad[place(entry)] = kind;
        assert_eq!(number(h, &image, &bad), 29, "an unknown entry");
    }
}

/// Each way to end, early, in the middle and last, and by an entry whose
/// number is above what version 1 has.
fn endings(h: &mut Harness) {
    let (stores, resets) = (filling(LEAST_2), vec![RESET; LEAST_2]);
    for Ending { number: expected, code, lead, end } in ENDINGS {
        let image = coded(code);
        for (before, after) in [(&[][..], &stores[..]), (&stores, &stores), (&resets, &[])] {
            let kept = play(h, &image, &record(&[before, lead].concat())).0;
            let (ended, _) = play(h, &image, &record(&[before, lead, end, after].concat()));
            ends(&ended, expected, &kept);
        }
    }
}

/// Whole records: more cycles than 18 bits can tell, then as many steps and as
/// many resets as fit.
fn longest(h: &mut Harness) {
    let image = coded(LOOP);
    for (bytes, entries, cycles) in [
        (vec![STEP; 140_000], 70_000, 280_000),
        (vec![STEP; MOST_2], 524_288, 2_097_152),
        (vec![RESET; MOST_2], 1_048_576, 0),
    ] {
        let record = record(&bytes);
        let outcome = play(h, &image, &record).0;
        assert_eq!(boundary::number(outcome.answer), 0, "a whole record");
        assert_eq!(report(&outcome), (entries, cycles), "entries and cycles of a whole record");
        on_small_stack(&image, &record);
    }
}

/// The library plays a record in a thread whose stack has no room for it, nor
/// for a level of calls for each of its entries.
fn on_small_stack(image: &[u8], record: &[u8]) {
    let play = || {
        let (mut state, mut report) = ([0; STATE], [0; REPORT]);
        (PROVED.play)(image, record, &mut state, &mut report)
    };
    let answer = thread::scope(|scope| {
        let builder = thread::Builder::new().stack_size(SMALL_STACK);
        builder.spawn_scoped(scope, play).expect("a thread starts").join()
    });
    assert_eq!(answer.expect("it plays to the end"), 0, "a whole record, on a small stack");
}
