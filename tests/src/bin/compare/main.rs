//! Compares the second emulator with the proved library.

mod bank_counts;
mod banks;
mod case;
mod certificates;
mod counted_step;
mod counts;
mod harness;
mod instructions;
mod jobs;
mod long_records;
mod machines;
mod make_counts;
mod makes;
mod opcode_map;
mod origin_counts;
mod origins;
mod page_counts;
mod pages;
mod play_counts;
mod playing;
mod programs;
mod records;
mod refusals;
mod row_counts;
mod rows;
mod service_counts;
mod services;
mod turn_counts;
mod turns;
mod width_counts;
mod widths;
mod write_only;
mod write_only_counts;

use harness::{Harness, Rules};
use std::process::exit;
use std::time::{Duration, Instant};

struct Options {
    seed: u64,
    steps: u64,
    checks: u64,
    part: Option<String>,
    smaller: u64,
    strict: bool,
    alone: bool,
}

const USAGE: &str = "\
compare [--seed N] [--steps N] [--checks N] [--part NAME] [--smaller N] [--strict] [--alone]
  --seed N    the seed of all random choices (default 1)
  --steps N   steps in runs of programs; the other parts grow with it (default 20000000)
  --checks N  certificates checked (default 120000)
  --part NAME only this part, by the name that is printed
  --smaller N seconds for making a difference smaller, at most (default 30)
  --strict    return addresses that aren't in use must agree too
  --alone     the part services with nothing compared: only what is looked at of
              the library's own machines can tell a fault";

fn options() -> Options {
    let mut options = Options {
        seed: 1,
        steps: 20_000_000,
        checks: 120_000,
        part: None,
        smaller: 30,
        strict: false,
        alone: false,
    };
    let mut arguments = std::env::args().skip(1);
    while let Some(argument) = arguments.next() {
        let mut number = || {
            let given = arguments.next().and_then(|text| text.replace('_', "").parse().ok());
            given.unwrap_or_else(|| {
                eprintln!("{argument} needs a number\n{USAGE}");
                exit(2)
            })
        };
        match argument.as_str() {
            "--seed" => options.seed = number(),
            "--steps" => options.steps = number(),
            "--checks" => options.checks = number(),
            "--part" => options.part = Some(arguments.next().unwrap_or_default()),
            "--smaller" => options.smaller = number(),
            "--strict" => options.strict = true,
            "--alone" => (options.alone, options.part) = (true, Some("services".to_string())),
            _ => {
                eprintln!("{USAGE}");
                exit(2)
            }
        }
    }
    options
}

/// The parts that are wanted, each with its time; gives how many there were.
fn run_parts(h: &mut Harness, options: &Options) -> usize {
    let scale = |per_million: u64| (options.steps * per_million / 1_000_000).max(10) as usize;
    let mut parts = 0;
    let mut part = |name: &str, work: &mut dyn FnMut(&mut Harness)| {
        if options.part.as_ref().is_some_and(|only| only != name) {
            return;
        }
        parts += 1;
        let before = Instant::now();
        work(h);
        println!("{name:12} {:6.2} s", before.elapsed().as_secs_f64());
    };
    part("bench cases", &mut jobs::bench_cases);
    part("opcodes", &mut |h| instructions::opcodes(h, scale(400) / 400));
    part("exhaustive", &mut instructions::exhaustive);
    part("decodes", &mut |h| instructions::decodes(h, scale(3)));
    part("writes", &mut |h| instructions::writes(h, scale(20_000)));
    part("steps", &mut |h| machines::steps(h, scale(100_000)));
    part("stores", &mut |h| machines::stores(h, scale(5)));
    part("resets", &mut |h| machines::resets(h, scale(2_000)));
    part("refusals", &mut |h| refusals::refusals(h, scale(20_000)));
    part("runs", &mut |h| machines::runs(h, scale(100)));
    part("checks", &mut |h| certificates::checks(h, options.checks));
    part("jobs", &mut |h| jobs::jobs(h, options.checks as usize / 10));
    part("programs", &mut |h| programs::programs(h, options.steps));
    part("widths", &mut |h| widths::widths(h, scale(300)));
    part("makes", &mut |h| makes::makes(h, scale(1000)));
    part("origins", &mut |h| origins::origins(h, scale(20_000)));
    part("write-only", &mut write_only::write_only);
    part("banks", &mut |h| banks::banks(h, scale(2)));
    part("pages", &mut |h| pages::pages(h, scale(40)));
    part("playing", &mut |h| playing::playing(h, scale(800)));
    part("services", &mut |h| services::services(h, scale(150_000) as u64));
    part("turns", &mut |h| turns::turns(h, 1 + scale(10) / 8));
    part("rows", &mut |h| rows::rows(h, scale(200)));
    parts
}

fn main() {
    let options = options();
    println!("seed {}, steps {}, checks {}", options.seed, options.steps, options.checks);
    let Options { strict, alone, .. } = options;
    let rules = Rules { strict, alone, time: Duration::from_secs(options.smaller) };
    let mut h = Harness::new(options.seed, rules);
    let start = Instant::now();
    if run_parts(&mut h, &options) == 0 {
        eprintln!("there is no such part\n{USAGE}");
        exit(2)
    }
    h.counts.print();
    println!("\nno difference, in {:.1} s", start.elapsed().as_secs_f64());
}
