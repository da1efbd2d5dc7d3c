//! Playings.

use crate::race::*;
use second::record::{RESET, STORE};
use second::workload::{PlayRuns, Plays, Repeated, Side, Work, LONGEST_STEPS, PLAY_STEPS, SIDES};

pub fn all_plays() {
    plays();
    rows();
    longest_plays();
}

/// Playings of a record of steps, and the proved library's single steps and
/// runs of as many in the same rounds.
fn plays() {
    let per_round = 3;
    let (mut plays, mut runs) = (Plays::default(), PlayRuns::default());
    let times = race(SIDES.len() + 2, |contestant| match SIDES.get(contestant) {
        Some(&(side, _)) => plays.work(side, per_round),
        None if contestant == SIDES.len() => plays.proved_calls(per_round),
        None => runs.work(Side::Proved, per_round),
    });
    let title = format!("playings of a record of {PLAY_STEPS} steps");
    print(&title, "steps", (per_round * PLAY_STEPS) as f64, &times);
    print_chip((per_round as u32 * plays.cycles) as f64, &times);
    let [steps, runs] = [&times[SIDES.len()], &times[SIDES.len() + 1]];
    print_ratio("time of proved playing / as many single steps:", &times[0], steps);
    print_ratio("time of proved playing / run of as many steps:", &times[0], runs);
}

/// Playings of rows of steps between stores, and the proved library's calls
/// for the same entries in the same rounds.
fn rows() {
    let per_round = 3;
    let mut plays = Plays::rows();
    let times = race(SIDES.len() + 1, |contestant| match SIDES.get(contestant) {
        Some(&(side, _)) => plays.work(side, per_round),
        None => plays.proved_calls(per_round),
    });
    let entries = plays.entries();
    let title = format!("playings of {entries} entries, rows of one to eight steps between stores");
    print(&title, "entries", (per_round * entries) as f64, &times);
    print_ratio("time of proved playing / a call for each:", &times[0], &times[SIDES.len()]);
}

/// Playings of the longest record of steps, and the proved library's single
/// steps with the same requests in the same rounds; then the longest ones of
/// the other entries.
fn longest_plays() {
    println!("playings of a record of {LONGEST_STEPS} steps, the longest");
    let mut plays = Plays::longest();
    let times =
        race_rounds(FEW_ROUNDS, SIDES.len() + 1, |contestant| match SIDES.get(contestant) {
            Some(&(side, _)) => plays.work(side, 1),
            None => plays.proved_calls(1),
        });
    let steps = &times[SIDES.len()];
    for ((_, name), times) in SIDES.iter().zip(&times) {
        print_spread(name, "ms", 1e3, times);
    }
    let each = 1e9 / LONGEST_STEPS as f64;
    print_spread("proved entry", "ns", each, &times[0]);
    print_spread("proved step", "ns", each, steps);
    print_ratio("time of proved entry / single step:", &times[0], steps);
    for (name, entry) in
        [("proved, stores", &[STORE, 0x20, 0x55][..]), ("proved, resets", &[RESET])]
    {
        let repeated = Repeated::new(entry);
        let times = race_rounds(FEW_ROUNDS, 1, |_| repeated.proved());
        print_spread(name, "ms", 1e3, &times[0]);
    }
}
