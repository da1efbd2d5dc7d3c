//! Measures the time of the proved library and of the second emulator on the
//! same inputs, in the same process, in turns.

mod certificates;
mod plays;
mod race;
mod runs;

use std::process::exit;

/// The parts by name, in the order in which they are measured; the last only
/// where it is named.
const PARTS: [(&str, fn()); 9] = [
    ("runs", runs::all_runs),
    ("steps", runs::all_steps),
    ("pages", runs::all_paged_runs),
    ("plays", plays::all_plays),
    ("widths", runs::widths),
    ("decodes", runs::decodes),
    ("checks", certificates::all_checks),
    ("makes", certificates::all_makes),
    (PLACED, runs::placed_runs),
];
const PLACED: &str = "placed";

fn main() {
    let wanted: Vec<String> = std::env::args().skip(1).collect();
    let names: Vec<&str> = PARTS.iter().map(|(name, _)| *name).collect();
    if wanted.iter().any(|word| !names.contains(&&word[..])) {
        let names = names.join(", ");
        eprintln!("speed [PART..]\n  PART  {names}; all but {PLACED}, if none is named");
        exit(2)
    }
    println!(
        "{} rounds, in turns, in processor time. `second` is the emulator by itself,\n\
         `second, packed` the same behind the library's boundary of bytes.\n",
        race::ROUNDS
    );
    for (name, part) in PARTS {
        let named = wanted.iter().any(|word| word == name);
        if named || wanted.is_empty() && name != PLACED {
            part();
        }
    }
}
