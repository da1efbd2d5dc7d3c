//! Runs in which the page changes, in which instructions share the places where
//! the library keeps them decoded, and of every small number of steps.

use crate::harness::{state_after, Harness};
use second::boundary::{self, REPORT, STATE};
use second::chip::{BANK, HALF, IOR, MOST_HALVES, MOST_STEPS, SPACE, X, Y};
use second::generate::{
    filled, over_seams, paged_program, random_image, requests, sizing_visits, turning, visiting,
    visits, Program, Sharing, FEW_PLACES, PLACES, TURNS,
};
use second::play::Call;
use std::borrow::Cow::Borrowed;

/// Numbers of steps about those where the library may keep more or less.
const EDGES: [usize; 16] = [62, 63, 64, 65, 66, 78, 79, 80, 81, 82, 127, 128, 129, 255, 256, 257];
/// Every number up to this one is run.
pub const LENGTHS: usize = 200;
const SHARED: [Sharing; 4] =
    [Sharing::Place(PLACES), Sharing::Place(FEW_PLACES), Sharing::Page, Sharing::Address];

pub fn turns(h: &mut Harness, rounds: usize) {
    for round in 0..rounds {
        for halves in 1..=MOST_HALVES {
            each_form(h, halves);
            each_sharing(h, halves);
            if halves <= 2 {
                widths(h, halves);
            }
            lengths(h, 1 + (halves + round) % MOST_HALVES);
        }
    }
    for halves in [1, 2, 3, MOST_HALVES] {
        every_first(h, halves);
    }
    longest(h);
}

/// An image, and a machine that comes from run to run.
struct Course {
    image: Vec<u8>,
    state: Vec<u8>,
}

impl Course {
    /// A fresh machine.
    fn new(image: Vec<u8>) -> Self {
        let mut state = vec![0; STATE];
        boundary::reset(&mut state);
        Course { image, state }
    }

    fn run(&self, h: &mut Harness, list: &[u8], n: usize) -> Vec<u8> {
        let (image, state) = (Borrowed(&self.image[..]), Borrowed(&self.state[..]));
        let (requests, n) = (Borrowed(list), n as u32);
        let outcome = h.compare(Call::Run { image, state, requests, n, report: REPORT });
        h.counts.turns.add(&self.image, &self.state, list, n);
        state_after(&outcome)
    }

    /// A run with requests now and then, from which the machine goes on.
    fn go_on(&mut self, h: &mut Harness, n: usize) {
        let length = h.rng.below(n + 1);
        let list = requests(&mut h.rng, length, 0x1F);
        self.state = self.run(h, &list, n);
    }

    /// The same run whole, cut in two, and as single steps, which must all be
    /// the second emulator's.
    fn cut(&mut self, h: &mut Harness, n: usize) {
        let list = requests(&mut h.rng, n, 0x1F);
        let start = self.state.clone();
        let whole = self.run(h, &list, n);
        let cut = h.rng.below(n + 1);
        for (list, n) in [(&list[..cut], cut), (&list[cut..], n - cut)] {
            self.state = self.run(h, list, n);
        }
        self.state = start;
        for &request in &list {
            let (image, state) = (Borrowed(&self.image[..]), Borrowed(&self.state[..]));
            let outcome = h.compare(Call::Step { image, state, request: request as u32 });
            self.state = state_after(&outcome);
        }
        h.counts.turns.add_cut(n);
        self.state = whole;
    }
}

/// Loops that change the page by each form that stores, in short runs and in
/// longer ones.
fn each_form(h: &mut Harness, halves: usize) {
    for form in 0..TURNS.len() {
        let mut course = Course::new(turning(&mut h.rng, halves, form));
        for most in [100, 100, 1000, 2000] {
            let n = 1 + h.rng.below(most);
            course.go_on(h, n);
        }
        if halves > 1 {
            over_both_seams(h, halves, form);
        }
    }
}

/// A loop over both ends of the page, whose instructions there have bytes in
/// both halves.
fn over_both_seams(h: &mut Harness, halves: usize, form: usize) {
    let mut course = Course::new(over_seams(&mut h.rng, halves, form));
    for (register, value) in [(X, BANK), (Y, BANK), (IOR, 0x10)] {
        course.state[register as usize] = value;
    }
    course.state[259] = 1; // normal mode
    for most in [80, 200] {
        let n = 1 + h.rng.below(most);
        course.go_on(h, n);
    }
}

/// Loops whose visits share something, in runs about the lengths at which the
/// library may keep instructions elsewhere.
fn each_sharing(h: &mut Harness, halves: usize) {
    for sharing in SHARED {
        let visits = visits(&mut h.rng, halves, sharing);
        let mut course = Course::new(visiting(&mut h.rng, halves, &visits));
        for n in [h.rng.pick(&EDGES), 127, 40 + h.rng.below(40), 128, 130 + h.rng.below(400)] {
            course.go_on(h, n);
        }
    }
}

/// Widths of programs whose visits share something, though no page.
fn widths(h: &mut Harness, halves: usize) {
    for sharing in SHARED {
        let visits = visits(&mut h.rng, halves, sharing);
        let Program { image, certificate, .. } = sizing_visits(&mut h.rng, halves, &visits);
        let count = h.rng.byte() as u32;
        let (image, certificate) = (Borrowed(&image[..]), Borrowed(&certificate[..]));
        let width = h.compare(Call::Width { image, certificate, count });
        assert_eq!(boundary::number(width.answer), 0, "a given program sleeps");
        h.counts.turns.widths += 1;
    }
}

/// Every small number of steps, each on one of several programs: loops as
/// above, other programs that change the page, and random images.
fn lengths(h: &mut Harness, halves: usize) {
    let mut courses = Vec::new();
    for sharing in SHARED {
        let visits = visits(&mut h.rng, halves, sharing);
        courses.push(visiting(&mut h.rng, halves, &visits));
    }
    let form = h.rng.below(TURNS.len());
    courses.push(turning(&mut h.rng, halves, form));
    courses.push(paged_program(&mut h.rng, HALF * halves.max(2)).image);
    courses.push(random_image(&mut h.rng));
    let mut courses: Vec<Course> = courses.into_iter().map(Course::new).collect();
    for n in 1..=LENGTHS {
        let course = h.rng.below(courses.len());
        courses[course].cut(h, n);
    }
}

/// Every address as the first of a run, with bank bytes for whose page a place
/// without an instruction may be mistaken, and with others.
fn every_first(h: &mut Harness, halves: usize) {
    let image = filled(&mut h.rng, HALF * halves);
    let mut course = Course::new(image);
    for pc in 0..SPACE {
        course.state[256..258].copy_from_slice(&pc.to_le_bytes());
        for (bank, n) in [(0, 2), (255, 2), (h.rng.byte(), 2), (0, 128)] {
            course.state[BANK as usize] = bank;
            course.run(h, &[], n);
            h.counts.turns.add_first((bank, pc), n);
        }
    }
}

/// Long runs and the longest, by each form, with nine pages and others.
fn longest(h: &mut Harness) {
    for form in 0..TURNS.len() {
        let halves = if form % 2 == 0 { MOST_HALVES } else { 2 + h.rng.below(MOST_HALVES - 1) };
        let mut course = Course::new(turning(&mut h.rng, halves, form));
        for n in [4095, 4096, 4097, 1 + h.rng.below(MOST_STEPS as usize)] {
            course.go_on(h, n);
        }
    }
    let mut course = Course::new(turning(&mut h.rng, MOST_HALVES, 2));
    course.go_on(h, MOST_STEPS as usize);
}
