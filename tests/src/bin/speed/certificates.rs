//! Checks and makes.

use crate::race::*;
use second::workload::{worst, worst_paged, Checks, Makes, Side, Work, IMAGES, SIDES};

pub fn all_checks() {
    checks("marked throughout", Checks::throughout, IMAGES);
    checks("with six marks", Checks::sparse, 32 * IMAGES);
    paged_checks();
}

pub fn all_makes() {
    makes("reached throughout", Makes::throughout, IMAGES);
    makes("in generated programs", Makes::programs, 2 * IMAGES);
    makes("with six marks", Makes::sparse, 2 * IMAGES);
    worst_makes("4K", worst(), LONG_ROUNDS);
    paged_makes("in generated programs", Makes::programs, IMAGES / 2);
    paged_makes("reached throughout", Makes::throughout, IMAGES / 4);
    worst_makes("nine-page", worst_paged(), FEW_ROUNDS);
}

/// Checks of 2K and of 4K images, all in the same rounds, and how their time
/// grows.
fn checks(name: &str, of: fn(usize) -> Checks, per_round: usize) {
    let times = race_pairs(&mut [of(2048), of(4096)], per_round);
    let (small, large) = times.split_at(PAIR);
    for (size, times) in [("2K", small), ("4K", large)] {
        let title = format!("checks of {size} {name}, {IMAGES} images in turn");
        print(&title, "checks", per_round as f64, times);
    }
    print_growth(&format!("{name}, 4K / 2K"), large, small);
}

/// Checks of nine pages marked throughout, and of 4K.
fn paged_checks() {
    let mut sizes = [Checks::throughout(PAGED), Checks::throughout(4096)];
    let per_round = IMAGES / 2;
    let times = race_pairs(&mut sizes, per_round);
    let title = format!("checks marked throughout, {IMAGES} images in turn");
    print_sizes(&title, "checks", per_round as f64, &times);
}

/// Makes of 2K and of 4K images, all in the same rounds, and the proved
/// library's checks of what was made.
fn makes(name: &str, of: fn(usize) -> Makes, per_round: usize) {
    makes_of(name, &[("2K", 2048), ("4K", 4096)], of, per_round);
}

/// The same with three, five and nine pages.
fn paged_makes(name: &str, of: fn(usize) -> Makes, per_round: usize) {
    let sizes = [("three pages", 8192), ("five pages", 12_288), ("nine pages", PAGED)];
    makes_of(name, &sizes, of, per_round);
}

fn makes_of(name: &str, lengths: &[(&str, usize)], of: fn(usize) -> Makes, per_round: usize) {
    const EACH: usize = 3;
    let mut sizes: Vec<Makes> = lengths.iter().map(|&(_, length)| of(length)).collect();
    let times = race(EACH * sizes.len(), |contestant| {
        let makes = &mut sizes[contestant / EACH];
        match contestant % EACH {
            0 => makes.work(Side::Proved, per_round),
            1 => makes.work(Side::Second, per_round),
            _ => makes.proved_checks(per_round),
        }
    });
    for ((size, _), times) in lengths.iter().zip(times.chunks(EACH)) {
        let title = format!("makes of {size} {name}, {IMAGES} images in turn");
        print(&title, "makes", per_round as f64, &times[..2]);
        print_ratio("time of proved make / check of what was made:", &times[0], &times[2]);
    }
}

/// Makes of the images that take longest.
fn worst_makes(size: &str, worst: Vec<(String, Makes)>, rounds: usize) {
    println!("makes of the worst {size} images, proved: milliseconds, and time of proved / second");
    for (name, mut makes) in worst {
        let times = race_rounds(rounds, 2, |side| makes.work(SIDES[side].0, 1));
        let Spread { median, most, .. } =
            spread(times[0].iter().map(|seconds| 1000.0 * seconds).collect());
        let ratio = ratio(&times[0], &times[1]).median;
        println!("  {name:34} median {median:.3} ms, max {most:.3} ms;  ratio {ratio:.3}");
    }
}
