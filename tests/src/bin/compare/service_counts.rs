//! Counts services: what they interrupted, what was met within them, and how
//! they ended.

use crate::play_counts::{named, not_met};
use second::chip::{Mode, FIXED};
use second::services::Taking;

const SOURCES: [&str; 5] = ["NMI", "source 1", "source 2", "source 3", "source 4"];
const MODES: [&str; 2] = ["normal", "interrupt"];
const SIZES: [&str; 10] = [
    "2K", "4K", "2 pages", "3 pages", "4 pages", "5 pages", "6 pages", "7 pages", "8 pages",
    "9 pages",
];
const LEVELS: [&str; 6] = ["0", "1", "2", "3", "4", "5"];
const LEFT: [&str; 2] = ["abandoned by a reset", "open at the end of a list"];

/// What is met in a service that ended, from the taking to the RETI.
#[derive(Clone, Copy)]
pub enum Met {
    Stop,
    Wait,
    Several,
    Nmi,
    NotTaken,
    Call,
    Sleep,
    Store,
    RefusedStore,
    RefusedStep,
    ManySteps,
    RefusedRun,
    TakenInRun,
    EndedInRun,
    OneRun,
    Turned,
    Page,
    BackInPage,
}
const MET: [&str; 18] = [
    "a sleeper woken from STOP",
    "a sleeper woken from WAIT",
    "several requests at the taking",
    "an NMI's whole service",
    "a request that isn't taken",
    "a subroutine's call",
    "a sleep of its own",
    "a host's store",
    "a store refused with 10",
    "a step refused with 11",
    "a run refused with 12",
    "a run refused with 11",
    "the taking in a run",
    "the end in a run",
    "both in the same run",
    "a change of page by the program",
    "another page at the end",
    "the return into another page",
];

/// Services by what they interrupted, and by the image's size.
#[derive(Default)]
struct Tally {
    sources: [u64; SOURCES.len()],
    modes: [u64; MODES.len()],
    sizes: [u64; SIZES.len()],
    levels: [u64; LEVELS.len()],
}

/// A service that hasn't ended.
struct Open {
    met: [bool; MET.len()],
    place: Place,
}

/// Where a service begins or ends.
#[derive(Clone, Copy)]
pub struct Place {
    /// The halves of the image, and the page in place.
    pub halves: usize,
    pub page: usize,
    /// The number of the run, if the step is one of a run.
    pub run: Option<u64>,
}

#[derive(Default)]
pub struct ServiceCounts {
    /// Machines that were looked at.
    pub moments: u64,
    begun: Tally,
    ended: Tally,
    met: [u64; MET.len()],
    left: [u64; LEFT.len()],
    open: Vec<Open>,
}

impl ServiceCounts {
    pub fn begin(&mut self, taking: &Taking, place: Place) {
        self.begun.add(taking, place);
        self.open.push(Open { met: [false; MET.len()], place });
    }

    /// Something that is within every service that is open.
    pub fn meet(&mut self, what: Met) {
        self.open.iter_mut().for_each(|open| open.met[what as usize] = true);
    }

    /// Something of the last service that was begun.
    pub fn meet_last(&mut self, what: Met, met: bool) {
        if let Some(open) = self.open.last_mut() {
            open.met[what as usize] |= met;
        }
    }

    /// The service that was begun last ends.
    pub fn end(&mut self, taking: &Taking, place: Place) {
        let begun = self.open.last().expect("it was begun").place;
        let other_page = begun.page != place.page;
        for (what, met) in [
            (Met::TakenInRun, begun.run.is_some()),
            (Met::EndedInRun, place.run.is_some()),
            (Met::OneRun, begun.run.is_some() && begun.run == place.run),
            (Met::Page, other_page),
            (Met::BackInPage, other_page && taking.address < FIXED),
        ] {
            self.meet_last(what, met);
        }
        self.ended.add(taking, place);
        let Open { met, .. } = self.open.pop().expect("it was begun");
        self.met.iter_mut().zip(met).for_each(|(count, met)| *count += met as u64);
        if taking.source == 0 {
            self.meet(Met::Nmi);
        }
    }

    pub fn reset(&mut self) {
        self.left[0] += self.open.len() as u64;
        self.open.clear();
    }

    pub fn end_of_list(&mut self) {
        self.left[1] += self.open.len() as u64;
        self.open.clear();
    }

    pub fn print(&self) {
        println!("services followed, at {} moments", self.moments);
        for (way, tally) in self.tallies() {
            for (by, names, counts) in tally.lists() {
                println!("  {way} by {by}: {}", named(names, counts));
            }
        }
        println!("  ended, with {}", named(&MET, &self.met));
        println!("  {}", named(&LEFT, &self.left));
    }

    pub fn print_not_met(&self) {
        let mut missing = not_met("ended, with", &MET, &self.met);
        missing.extend(not_met("", &LEFT, &self.left));
        for (way, tally) in self.tallies() {
            for (by, names, counts) in tally.lists() {
                missing.extend(not_met(&format!("{way} by {by}"), names, counts));
            }
        }
        missing.extend(not_met("", &["moments"], &[self.moments]));
        if !missing.is_empty() {
            println!("NOT MET: services: {}", missing.join(", "));
        }
    }

    fn tallies(&self) -> [(&'static str, &Tally); 2] {
        [("begun", &self.begun), ("ended", &self.ended)]
    }
}

type List<'a> = (&'static str, &'static [&'static str], &'a [u64]);

impl Tally {
    fn add(&mut self, taking: &Taking, place: Place) {
        self.sources[taking.source] += 1;
        self.modes[(taking.mode == Mode::Interrupt) as usize] += 1;
        self.sizes[place.halves - 1] += 1;
        self.levels[taking.returns.len()] += 1;
    }

    fn lists(&self) -> [List<'_>; 4] {
        [
            ("source", &SOURCES, &self.sources),
            ("interrupted mode", &MODES, &self.modes),
            ("size", &SIZES, &self.sizes),
            ("levels beneath", &LEVELS, &self.levels),
        ]
    }
}
