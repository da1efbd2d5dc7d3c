//! Playings of records, with as many entries as fit into a version: of steps,
//! of rows of steps between stores, and of one other kind.

use super::{mixed_loop, Place, Side, Work, IN_USE};
use crate::chip::Machine;
use crate::player::play;
use crate::record::{read, record, Entry, MOST_1, MOST_2, STEP, STORE};
use crate::{boundary, proved};
use std::hint::black_box;

/// The steps of the record of each version: two bytes each.
pub const STEPS: usize = MOST_1 / 2;
pub const LONGEST_STEPS: usize = MOST_2 / 2;
/// How many steps come to one that asks for NMI.
const ASKED_EVERY: usize = 64;
const NMI: u8 = 0x01;
/// RETI, as the service of NMI at FFCh.
const SERVICE: (usize, u8) = (0xFFC - 0x800, 0x4D);

/// The longest row of steps between stores; the first has one, the next two,
/// and after the longest it begins anew.
const LONGEST_ROW: usize = 8;
/// A store into RAM that the loop doesn't use.
const A_STORE: [u8; 3] = [STORE, 0x20, 0x55];

pub struct Plays {
    image: Vec<u8>,
    entries: Vec<Entry>,
    record: Vec<u8>,
    fresh: Vec<u8>,
    /// The state and the report at the end.
    state: Vec<u8>,
    report: [u8; boundary::REPORT],
    pub cycles: u32,
}

impl Default for Plays {
    fn default() -> Self {
        Plays::of(&steps(STEPS))
    }
}

/// Steps of the mixed loop, with an NMI now and then.
fn steps(count: usize) -> Vec<u8> {
    let asked = |step: usize| if step.is_multiple_of(ASKED_EVERY) { NMI } else { 0 };
    (1..=count).flat_map(|step| [STEP, asked(step)]).collect()
}

impl Plays {
    pub fn longest() -> Self {
        Plays::of(&steps(LONGEST_STEPS))
    }

    /// Rows of one to eight steps, with a store after each.
    pub fn rows() -> Self {
        let (all, mut taken) = (steps(STEPS), 0);
        let mut entries = Vec::new();
        for row in (1..=LONGEST_ROW).cycle() {
            let bytes = &all[taken..taken + 2 * row];
            if entries.len() + bytes.len() + A_STORE.len() > MOST_1 {
                return Plays::of(&entries);
            }
            entries.extend_from_slice(bytes);
            entries.extend(A_STORE);
            taken += bytes.len();
        }
        unreachable!("rows without end")
    }

    fn of(entries: &[u8]) -> Self {
        let mut image = mixed_loop(0, Place::Fixed);
        image[SERVICE.0] = SERVICE.1;
        let record = record(entries);
        let played = play(&image, &record).expect("it is good");
        assert_eq!(played.end, None);
        let mut fresh = vec![0; boundary::STATE];
        boundary::pack(&Machine::default(), &mut fresh);
        let (mut state, mut report) = (fresh.clone(), [0; boundary::REPORT]);
        boundary::pack(&played.machine, &mut state);
        let cycles = played.cycles;
        boundary::write_report(&mut report, played.entries, cycles).expect("it is long enough");
        let entries = read(&record).expect("it was played");
        Plays { image, entries, record, fresh, state, report, cycles }
    }

    /// How many entries the record has.
    pub fn entries(&self) -> usize {
        self.entries.len()
    }

    /// The proved library's calls for the entries, from the same start.
    pub fn proved_calls(&self, times: usize) {
        for _ in 0..times {
            let mut state = self.fresh.clone();
            for &entry in &self.entries {
                let answer = match entry {
                    Entry::Step { request } => {
                        proved::step(black_box(&self.image), &mut state, request as u32)
                    }
                    Entry::Store { address, value } => {
                        proved::store(&mut state, address as u32, value as u32)
                    }
                    Entry::Reset => proved::reset(&mut state),
                };
                assert_eq!(boundary::number(answer), 0);
            }
            assert_eq!(state[IN_USE], self.state[IN_USE]);
        }
    }

    fn plays(&self, times: usize, play: impl Fn(&[u8], &[u8], &mut [u8], &mut [u8]) -> u64) {
        let (mut state, mut report) = ([0; boundary::STATE], [0; boundary::REPORT]);
        for _ in 0..times {
            let image = black_box(&self.image);
            assert_eq!(play(image, &self.record, &mut state, &mut report), 0);
            assert_eq!((&state[IN_USE], report), (&self.state[IN_USE], self.report));
        }
    }
}

impl Work for Plays {
    fn work(&mut self, side: Side, times: usize) {
        match side {
            Side::Proved => self.plays(times, proved::play),
            Side::Second => {
                for _ in 0..times {
                    let played = play(black_box(&self.image), &self.record).expect("it is good");
                    let mut report = [0; boundary::REPORT];
                    let fits = boundary::write_report(&mut report, played.entries, played.cycles);
                    assert_eq!((fits, report, played.end), (Ok(()), self.report, None));
                }
            }
            Side::Packed => self.plays(times, boundary::play),
        }
    }
}

/// Runs of the steps of a record, with their requests, if one run can have
/// them.
pub struct PlayRuns {
    plays: Plays,
    requests: Vec<u8>,
}

impl Default for PlayRuns {
    fn default() -> Self {
        let plays = Plays::default();
        let requests = plays.entries.iter().map(|entry| match entry {
            Entry::Step { request } => *request,
            _ => unreachable!("a record of steps"),
        });
        PlayRuns { requests: requests.collect(), plays }
    }
}

impl PlayRuns {
    fn runs(&self, times: usize, run: impl Fn(&[u8], &mut [u8], &[u8], u32, &mut [u8]) -> u64) {
        let PlayRuns { plays, requests } = self;
        for _ in 0..times {
            let (mut state, mut report) = (plays.fresh.clone(), [0; boundary::REPORT]);
            let (image, n) = (black_box(&plays.image), requests.len() as u32);
            assert_eq!(run(image, &mut state, requests, n, &mut report), 0);
            assert_eq!((&state[IN_USE], report), (&plays.state[IN_USE], plays.report));
        }
    }
}

impl Work for PlayRuns {
    fn work(&mut self, side: Side, times: usize) {
        let PlayRuns { plays, requests } = self;
        match side {
            Side::Proved => self.runs(times, proved::run),
            Side::Second => {
                for _ in 0..times {
                    let (mut machine, n) = (Machine::default(), requests.len() as u32);
                    let ran = machine.run(black_box(&plays.image), requests, n);
                    assert_eq!(ran.expect("it runs").cycles, plays.cycles);
                }
            }
            Side::Packed => self.runs(times, boundary::run),
        }
    }
}

/// The longest record of an entry without cycles, again and again.
pub struct Repeated {
    image: Vec<u8>,
    record: Vec<u8>,
    report: [u8; boundary::REPORT],
}

impl Repeated {
    pub fn new(entry: &[u8]) -> Self {
        let times = MOST_2 / entry.len();
        let mut report = [0; boundary::REPORT];
        boundary::write_report(&mut report, times as u32, 0).expect("it is long enough");
        Repeated {
            image: mixed_loop(0, Place::Fixed),
            record: record(&entry.repeat(times)),
            report,
        }
    }

    pub fn proved(&self) {
        let (mut state, mut report) = ([0; boundary::STATE], [0; boundary::REPORT]);
        let answer = proved::play(black_box(&self.image), &self.record, &mut state, &mut report);
        assert_eq!((answer, report), (0, self.report));
    }
}
