//! Plays calls on both sides and compares them.

use crate::counts::Counts;
use second::generate::Rng;
use second::library::{Library, KINDS, PROVED, SECOND};
use second::play::{difference, shrink, verdict, Call, OneByOne, Outcome, Verdict};
use std::process::exit;
use std::time::Duration;

/// How many calls come to one of which it is seen whether what was lent for
/// reading was written.
const READ_ONLY_EVERY: u64 = 64;

/// Compares calls and counts them.
pub struct Harness {
    pub rng: Rng,
    pub counts: Counts,
    rules: Rules,
    turn: u64,
}

/// What is compared, and how a difference is told.
#[derive(Clone, Copy)]
pub struct Rules {
    /// Return addresses that aren't in use must agree too.
    pub strict: bool,
    /// Nothing is compared: what is seen of the library must tell by itself.
    pub alone: bool,
    /// For making a difference smaller.
    pub time: Duration,
}

impl Harness {
    pub fn new(seed: u64, rules: Rules) -> Self {
        Harness { rng: Rng::new(seed), counts: Counts::new(), rules, turn: 0 }
    }

    /// Plays a call on both sides; gives the second emulator's outcome, or the
    /// library's if nothing is compared.
    pub fn compare(&mut self, call: Call) -> Outcome {
        self.compare_seen(call, |_, _| {})
    }

    /// The same, but what the library gave is seen before it is compared.
    pub fn compare_seen(&mut self, call: Call, see: impl FnOnce(&Call, &Outcome)) -> Outcome {
        let outcome = call.play(&SECOND);
        self.turn = self.turn.wrapping_add(1);
        let kept = self.turn.is_multiple_of(READ_ONLY_EVERY).then(|| call.clone().into_owned());
        let proved = call.play(&PROVED);
        if kept.is_some_and(|kept| !kept.same_bytes(&call)) || !call.keeps_state(&proved) {
            println!("WRITTEN TO BYTES LENT FOR READING\n{call}");
            exit(1);
        }
        see(&call, &proved);
        if self.rules.alone {
            return proved;
        }
        match verdict(&call, &outcome, &proved) {
            Verdict::Same => {}
            Verdict::UnusedDiffer if self.rules.strict => {
                report_difference("return addresses that aren't in use differ", call)
            }
            Verdict::UnusedDiffer => self.counts.unused_differ += 1,
            Verdict::Differ => {
                eprintln!("a difference in {}; making it smaller", KINDS[call.kind()]);
                report_difference("DIFFERENCE", shrink(call, self.rules.time, &sides_differ))
            }
        }
        self.counts.add(&call, &outcome);
        outcome
    }

    /// Plays a record on both sides, and there its entries one by one, which
    /// must be the same. Gives the second emulator's outcome, and what its
    /// entries gave unless the playing was turned down.
    pub fn compare_playing(&mut self, call: Call) -> (Outcome, Option<OneByOne>) {
        let outcome = self.compare(call.clone());
        let proved = self.entries_agree(&call, &outcome, ("proved", &PROVED));
        let entries = self.entries_agree(&call, &outcome, ("second", &SECOND));
        let way = |entries: &OneByOne| (entries.deepest, entries.steps);
        if proved.as_ref().map(way) != entries.as_ref().map(way) {
            println!("DIFFERENCE in levels or kinds of steps between the entries\n{call}");
            exit(1);
        }
        if let (Call::Play { record, .. }, Some(entries)) = (&call, &entries) {
            self.counts.plays.add_entries(record, entries);
        }
        (outcome, entries)
    }

    /// The entries of a playing one by one on a side. Ends the comparison
    /// unless they give what the playing gave.
    fn entries_agree(
        &self,
        call: &Call,
        outcome: &Outcome,
        (side, library): (&str, &Library),
    ) -> Option<OneByOne> {
        let entries = call.one_by_one(library)?;
        if verdict(call, outcome, &entries.outcome) == Verdict::Differ {
            report_entries(call, self.rules.time, side, library)
        }
        Some(entries)
    }
}

fn sides_differ(call: &Call) -> bool {
    verdict(call, &call.play(&SECOND), &call.play(&PROVED)) == Verdict::Differ
}

fn report_difference(title: &str, call: Call) -> ! {
    println!("{title}\n{call}");
    let (second, proved) = (call.play(&SECOND), call.play(&PROVED));
    print!("{}", difference([("second", &second), ("proved", &proved)]));
    exit(1)
}

fn report_entries(call: &Call, time: Duration, side: &str, library: &Library) -> ! {
    let outcomes = |call: &Call| Some((call.play(library), call.one_by_one(library)?.outcome));
    let differ = |call: &Call| {
        outcomes(call)
            .is_some_and(|(playing, entries)| verdict(call, &playing, &entries) == Verdict::Differ)
    };
    eprintln!("a difference in the entries of a record; making it smaller");
    let call = shrink(call.clone(), time, &differ);
    println!("DIFFERENCE between a playing of {side} and its entries one by one\n{call}");
    if let Some((playing, entries)) = outcomes(&call) {
        print!("{}", difference([("playing", &playing), ("entries", &entries)]));
    }
    exit(1)
}

/// The state after a call.
pub fn state_after(outcome: &Outcome) -> Vec<u8> {
    outcome.state.bytes().to_vec()
}
