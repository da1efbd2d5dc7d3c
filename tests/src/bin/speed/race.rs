//! Lets contestants work in turns, and tells how long they took.

use second::workload::{Work, SIDES};

/// Many short rounds: other work on the same cores then spoils only some.
pub const ROUNDS: usize = 61;
/// Fewer where the second emulator takes long.
pub const LONG_ROUNDS: usize = 21;
/// Fewer still where all take long.
pub const FEW_ROUNDS: usize = 11;
/// Cycles of the chip in a second: 13 ticks of 8 MHz are one.
const CHIP: f64 = 8e6 / 13.0;

/// Seconds of processor time that this thread has had.
#[cfg(target_os = "linux")]
fn clock() -> f64 {
    #[repr(C)]
    struct Timespec {
        seconds: i64,
        nanoseconds: i64,
    }
    extern "C" {
        fn clock_gettime(clock: i32, time: *mut Timespec) -> i32;
    }
    const CLOCK_THREAD_CPUTIME_ID: i32 = 3;
    let mut time = Timespec { seconds: 0, nanoseconds: 0 };
    // SAFETY: the call fills in the structure that it is lent.
    let failed = unsafe { clock_gettime(CLOCK_THREAD_CPUTIME_ID, &mut time) };
    assert_eq!(failed, 0, "there is no clock");
    time.seconds as f64 + time.nanoseconds as f64 / 1e9
}

/// Seconds since the program first asked.
#[cfg(not(target_os = "linux"))]
fn clock() -> f64 {
    static START: std::sync::OnceLock<std::time::Instant> = std::sync::OnceLock::new();
    START.get_or_init(std::time::Instant::now).elapsed().as_secs_f64()
}

/// Seconds that some work takes.
fn time(work: impl FnOnce()) -> f64 {
    let start = clock();
    work();
    clock() - start
}

pub struct Spread {
    pub median: f64,
    pub least: f64,
    pub most: f64,
}

pub fn spread(mut numbers: Vec<f64>) -> Spread {
    numbers.sort_by(f64::total_cmp);
    Spread {
        median: numbers[numbers.len() / 2],
        least: numbers[0],
        most: numbers[numbers.len() - 1],
    }
}

pub fn least(times: &[f64]) -> f64 {
    times.iter().copied().fold(f64::INFINITY, f64::min)
}

/// Times of the rounds, for each contestant.
pub type Times = Vec<Vec<f64>>;

/// Lets the contestants work in turns, the first of a round changing. Each is
/// called with its number.
pub fn race(contestants: usize, work: impl FnMut(usize)) -> Times {
    race_rounds(ROUNDS, contestants, work)
}

pub fn race_rounds(rounds: usize, contestants: usize, mut work: impl FnMut(usize)) -> Times {
    for contestant in 0..contestants {
        work(contestant); // warm up
    }
    let mut times = vec![Vec::new(); contestants];
    for round in 0..rounds {
        for turn in 0..contestants {
            let contestant = (round + turn) % contestants;
            times[contestant].push(time(|| work(contestant)));
        }
    }
    times
}

/// All sides at the same work, in turns.
pub fn race_sides(work: &mut impl Work, times: usize) -> Times {
    race(SIDES.len(), |side| work.work(SIDES[side].0, times))
}

/// How often faster the first is than the second, round by round.
pub fn ratio(slow: &[f64], fast: &[f64]) -> Spread {
    spread(slow.iter().zip(fast).map(|(slow, fast)| slow / fast).collect())
}

/// Rates of the sides, and the proved library's time against the others'.
pub fn print(title: &str, unit: &str, per_round: f64, times: &[Vec<f64>]) {
    println!("{title}");
    for ((_, name), times) in SIDES.iter().zip(times) {
        let Spread { median, least, most } =
            spread(times.iter().map(|seconds| per_round / seconds).collect());
        println!("  {name:15} {median:>14.0} {unit}/s  (min {least:.0}, max {most:.0})");
    }
    for ((_, name), second) in SIDES.iter().zip(times).skip(1) {
        print_ratio(&format!("time of proved / {name}:"), &times[0], second);
    }
}

pub fn print_ratio(title: &str, slow: &[f64], fast: &[f64]) {
    let Spread { median, least, most } = ratio(slow, fast);
    println!("  {title} median {median:.2}, min {least:.2}, max {most:.2}");
}

/// Times in a unit, of which a second has so many.
pub fn print_spread(name: &str, unit: &str, per_second: f64, times: &[f64]) {
    let Spread { median, least, most } =
        spread(times.iter().map(|seconds| per_second * seconds).collect());
    println!("  {name:15} median {median:.1} {unit}, min {least:.1}, max {most:.1}");
}

/// The proved library and the second emulator by itself, where only these two
/// are measured.
pub const PAIR: usize = 2;
/// The bytes of an image with nine pages.
pub const PAGED: usize = 20_480;

/// Several works of a pair, all in turns; the pair's times stand together.
pub fn race_pairs(works: &mut [impl Work], per_round: usize) -> Times {
    race(PAIR * works.len(), |contestant| {
        works[contestant / PAIR].work(SIDES[contestant % PAIR].0, per_round);
    })
}

/// Rates with nine pages and with one, and their times against each other.
pub fn print_sizes(title: &str, unit: &str, per_round: f64, times: &Times) {
    let (nine, one) = times.split_at(PAIR);
    print(&format!("nine pages: {title}"), unit, per_round, nine);
    print(&format!("4K: {title}"), unit, per_round, one);
    print_growth("nine pages / 4K", nine, one);
}

/// The time of each of a pair at one work against its time at another.
pub fn print_growth(name: &str, slow: &[Vec<f64>], fast: &[Vec<f64>]) {
    for ((_, side), (slow, fast)) in SIDES.iter().zip(slow.iter().zip(fast)) {
        print_ratio(&format!("time of {side}, {name}:"), slow, fast);
    }
}

/// How many times faster than the chip the sides go, by the cycles of a round.
pub fn print_chip(cycles: f64, times: &[Vec<f64>]) {
    let each = SIDES.iter().zip(times).map(|((_, name), times)| {
        let speed = spread(times.iter().map(|seconds| cycles / seconds / CHIP).collect());
        format!("{name} {:.1}", speed.median)
    });
    let each: Vec<String> = each.collect();
    println!("  times the chip's speed: {}", each.join("; "));
}
