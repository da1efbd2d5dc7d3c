//! Does one kind of work a number of times on one side, for a tool that
//! counts instructions: what n and 2n times take, subtracted, is the work's
//! own, without the start of the program. `benches/instructions.py` does that.

use second::chip::MOST_HALVES;
use second::generate::Order;
use second::workload::{
    Checks, Decodes, Loop, Makes, Place, PlayRuns, Plays, Runs, Side, Steps, Widths, Work, RUN,
};
use std::process::exit;

const USAGE: &str = "\
count WORK SIDE N
  WORK  run (65535 steps), run-10, run-50, run-100, run-1000 (so many), run-long (a long loop),
        step, check-2k, check-4k, sparse-2k, sparse-4k, decode (256 opcodes), width, make-2k,
        make-4k, make-program-2k, make-program-4k, make-sparse-2k, make-sparse-4k, make-zigzag,
        play (32767 steps), play-run (a run of them), play-rows (30035 entries); with pages:
        run-fixed-1, run-fixed-9, run-page-1, run-page-9, run-changing-1, run-changing-9 (the
        loop in the fixed half, in the page, and changing pages; so many pages), run-picking-4,
        run-picking-16 (one of nine pages after another, every so many steps), step-9, decode-9,
        check-20k, make-20k, make-program-20k; run-many-2k, run-many-4k, run-many-9 (10000 steps
        of 64 loops in turn), run-turning-2k, run-turning-9 (the same, changing the bank byte)
  SIDE  proved, second, packed
  N     how often";

/// Steps of a run of many loops.
const MANY: u32 = 10_000;

fn work(name: &str) -> Option<Box<dyn Work>> {
    Some(match name {
        "step" => Box::new(Steps::default()),
        "step-9" => Box::new(Steps(Loop::paged(9, Place::Page))),
        "decode" => Box::new(Decodes::default()),
        "decode-9" => Box::new(Decodes::paged(9)),
        "width" => Box::new(Widths::default()),
        "play" => Box::new(Plays::default()),
        "play-run" => Box::new(PlayRuns::default()),
        "play-rows" => Box::new(Plays::rows()),
        "run-many-2k" => Box::new(Runs::of_many(1, MANY)),
        "run-many-4k" => Box::new(Runs::of_many(2, MANY)),
        "run-many-9" => Box::new(Runs::of_many(MOST_HALVES, MANY)),
        "run-turning-2k" => Box::new(Runs::of_many_turning(1, MANY)),
        "run-turning-9" => Box::new(Runs::of_many_turning(MOST_HALVES, MANY)),
        _ => return runs(name).or_else(|| certificates(name)),
    })
}

fn runs(name: &str) -> Option<Box<dyn Work>> {
    let of = match name {
        "run" | "run-10" | "run-50" | "run-100" | "run-1000" => Loop::default(),
        "run-long" => Loop::long(),
        "run-fixed-1" => Loop::paged(1, Place::Fixed),
        "run-fixed-9" => Loop::paged(9, Place::Fixed),
        "run-page-1" => Loop::paged(1, Place::Page),
        "run-page-9" => Loop::paged(9, Place::Page),
        "run-changing-1" => Loop::paged(1, Place::Changing),
        "run-changing-9" => Loop::paged(9, Place::Changing),
        "run-picking-4" => Loop::picking(4),
        "run-picking-16" => Loop::picking(16),
        _ => return None,
    };
    let steps = match name {
        "run-10" => 10,
        "run-50" => 50,
        "run-100" => 100,
        "run-1000" => 1000,
        _ => RUN,
    };
    Some(Box::new(Runs::new(of, steps)))
}

fn certificates(name: &str) -> Option<Box<dyn Work>> {
    Some(match name {
        "check-2k" => Box::new(Checks::throughout(2048)),
        "check-4k" => Box::new(Checks::throughout(4096)),
        "check-20k" => Box::new(Checks::throughout(20_480)),
        "sparse-2k" => Box::new(Checks::sparse(2048)),
        "sparse-4k" => Box::new(Checks::sparse(4096)),
        "make-2k" => Box::new(Makes::throughout(2048)),
        "make-4k" => Box::new(Makes::throughout(4096)),
        "make-20k" => Box::new(Makes::throughout(20_480)),
        "make-program-2k" => Box::new(Makes::programs(2048)),
        "make-program-4k" => Box::new(Makes::programs(4096)),
        "make-program-20k" => Box::new(Makes::programs(20_480)),
        "make-sparse-2k" => Box::new(Makes::sparse(2048)),
        "make-sparse-4k" => Box::new(Makes::sparse(4096)),
        "make-zigzag" => Box::new(Makes::chains(Order::Zigzag, 6, false)),
        _ => return None,
    })
}

fn side(name: &str) -> Option<Side> {
    Some(match name {
        "proved" => Side::Proved,
        "second" => Side::Second,
        "packed" => Side::Packed,
        _ => return None,
    })
}

fn main() {
    let words: Vec<String> = std::env::args().skip(1).collect();
    let wanted = match &words[..] {
        [name, by, n] => work(name).zip(side(by)).zip(n.parse().ok()),
        _ => None,
    };
    let Some(((mut work, side), times)) = wanted else {
        eprintln!("{USAGE}");
        exit(2)
    };
    work.work(side, times);
}
