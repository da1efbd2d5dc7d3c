//! Runs, single steps, widths and decodes.

use crate::race::*;
use second::chip::MOST_HALVES;
use second::workload::{
    Decodes, Loop, Place, Runs, Steps, Widths, Work, IMAGES, LONG, OPCODES, RUN, SIDES, WIDTH_STEPS,
};

/// How many steps a round has, about.
const STEPS: u32 = 3 * RUN;

pub fn all_runs() {
    for steps in [10, 50, 100, 1000, RUN] {
        of_length("the mixed loop", Runs::new(Loop::default(), steps), steps);
    }
    let name = format!("a straight loop of {LONG} instructions in 4K");
    of_length(&name, Runs::longest(Loop::long()), RUN);
    for (name, halves) in [("2K", 1), ("4K", 2), ("nine pages", MOST_HALVES)] {
        for steps in [10, 100, 1000, 10_000, RUN] {
            let title = format!("{IMAGES} different loops in turn, {name}");
            of_length(&title, Runs::of_many(halves, steps), steps);
            let title = format!("{title}, changing the bank byte");
            of_length(&title, Runs::of_many_turning(halves, steps), steps);
        }
    }
}

fn of_length(name: &str, mut runs: Runs, steps: u32) {
    let per_round = runs.in_round(STEPS);
    let times = race_sides(&mut runs, per_round);
    assert!(runs.agree(), "both machines went the same way");
    let total = runs.steps(per_round) as f64;
    print(&format!("runs of {steps} steps of {name}"), "steps", total, &times);
    print_chip(total * runs.cycles_per_step(), &times);
}

/// Runs of the mixed loop in an image of nine pages, and in one of a single
/// page, all in the same rounds.
fn paged_runs() {
    for (name, place) in [
        ("in the fixed half", Place::Fixed),
        ("in the page", Place::Page),
        ("in the pages, changing them every four steps", Place::Changing),
    ] {
        let mut sizes = [9, 1].map(|pages| Runs::longest(Loop::paged(pages, place)));
        let times = race_pairs(&mut sizes, (STEPS / RUN) as usize);
        assert!(sizes.iter().all(|runs| runs.agree()), "both machines went the same way");
        let title = format!("runs of {RUN} steps of the mixed loop {name}");
        print_sizes(&title, "steps", STEPS as f64, &times);
    }
}

/// Runs that stay in one of nine pages, and runs that pick one after another,
/// all in the same rounds.
fn picking_runs() {
    let stays = Loop::paged(9, Place::Page);
    let mut all = [stays, Loop::picking(16), Loop::picking(4)].map(Runs::longest);
    let times = race_pairs(&mut all, (STEPS / RUN) as usize);
    let names = ["in the same page", "with another every 16 steps", "with another every 4 steps"];
    for ((name, runs), pair) in names.iter().zip(&all).zip(times.chunks(PAIR)) {
        assert!(runs.agree(), "both machines went the same way");
        print(&format!("nine pages: runs of {RUN} steps {name}"), "steps", STEPS as f64, pair);
        print_chip(STEPS as f64 * runs.cycles_per_step(), pair);
    }
    for (name, pair) in names.iter().zip(times.chunks(PAIR)).skip(1) {
        print_growth(&format!("nine pages, {name} / {}", names[0]), pair, &times[..PAIR]);
    }
}

/// Runs of several images, each with the ratio of times and the least times of
/// a step in nanoseconds, for `benches/placements.py`.
pub fn placed_runs() {
    const MANY: u32 = 10_000;
    for (name, mut runs) in [
        ("2K", Runs::longest(Loop::default())),
        ("4K-fixed", Runs::longest(Loop::paged(1, Place::Fixed))),
        ("4K-page", Runs::longest(Loop::paged(1, Place::Page))),
        ("9-pages", Runs::longest(Loop::paged(9, Place::Page))),
        ("9-pages-every-16", Runs::longest(Loop::picking(16))),
        ("9-pages-every-4", Runs::longest(Loop::picking(4))),
        ("64-loops-2K", Runs::of_many(1, MANY)),
        ("64-loops-4K", Runs::of_many(2, MANY)),
        ("64-loops-9-pages", Runs::of_many(MOST_HALVES, MANY)),
        ("64-turning-2K", Runs::of_many_turning(1, MANY)),
        ("64-turning-9-pages", Runs::of_many_turning(MOST_HALVES, MANY)),
    ] {
        let count = runs.in_round(STEPS);
        let total = runs.steps(count) as f64;
        let times = race_pairs(std::slice::from_mut(&mut runs), count);
        let [proved, second] = [0, 1].map(|side| 1e9 / total * least(&times[side]));
        let ratio = ratio(&times[0], &times[1]).median;
        println!("placed {name} {ratio:.4} {proved:.3} {second:.3}");
    }
}

pub fn all_paged_runs() {
    paged_runs();
    picking_runs();
}

pub fn all_steps() {
    for (name, of) in [("2K", Loop::default()), ("nine pages", Loop::paged(9, Place::Page))] {
        let mut steps = Steps(of);
        let per_round = 30_000;
        let times = race_sides(&mut steps, per_round);
        assert!(steps.0.agree(), "both machines went the same way");
        let title = format!("single steps of the mixed loop, {name}");
        print(&title, "steps", per_round as f64, &times);
        print_chip(per_round as f64 * steps.0.cycles_per_step(), &times);
    }
}

pub fn decodes() {
    let passes = 200;
    let times = race_sides(&mut Decodes::default(), passes);
    print("decode of all opcodes", "decodes", (passes * OPCODES) as f64, &times);
}

/// Widths, and the proved library's runs of as many steps in the same rounds.
pub fn widths() {
    let per_round = 3;
    let mut widths = Widths::default();
    let times = race(SIDES.len() + 1, |contestant| match SIDES.get(contestant) {
        Some(&(side, _)) => widths.work(side, per_round),
        None => widths.proved_runs(per_round),
    });
    let title = format!("widths of a program that sleeps after {WIDTH_STEPS} steps");
    print(&title, "steps", (per_round * WIDTH_STEPS as usize) as f64, &times);
    print_ratio("time of proved width / run of as many steps:", &times[0], &times[SIDES.len()]);
}
