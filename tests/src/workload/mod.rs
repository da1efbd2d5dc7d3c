//! What is measured: `speed` takes its time and `count` its instructions.

mod loops;
mod makes;
mod plays;
mod widths;

use crate::check::check;
use crate::chip::{decode, Machine, HALF, SIZES};
use crate::generate::{dense, sparse, staying, turning, Program, Rng, TURNS};
use crate::{boundary, proved};
use std::hint::black_box;

use loops::{long_loop, mixed_loop, picking_loop};

pub use loops::{Place, LONG};
pub use makes::{worst, worst_paged, Makes};
pub use plays::{PlayRuns, Plays, Repeated, LONGEST_STEPS, STEPS as PLAY_STEPS};
pub use widths::{Widths, STEPS as WIDTH_STEPS};

/// Who works: the proved library, the second emulator by itself, or the same
/// behind the library's boundary of bytes.
#[derive(Clone, Copy, PartialEq, Eq)]
pub enum Side {
    Proved,
    Second,
    Packed,
}

pub const SIDES: [(Side, &str); 3] =
    [(Side::Proved, "proved"), (Side::Second, "second"), (Side::Packed, "second, packed")];

/// Something that each side can do any number of times.
pub trait Work {
    fn work(&mut self, side: Side, times: usize);
}

/// Steps of the longest run.
pub const RUN: u32 = 65_535;

/// Of a state, what comes before the return addresses: those that aren't in
/// use may be any.
const IN_USE: std::ops::Range<usize> = 0..268;

/// A loop, and where each side's machine is in it.
pub struct Loop {
    image: Vec<u8>,
    proved: Vec<u8>,
    second: Machine,
    packed: Vec<u8>,
}

impl Default for Loop {
    fn default() -> Self {
        Loop::new(mixed_loop(0, Place::Fixed))
    }
}

impl Loop {
    fn new(image: Vec<u8>) -> Self {
        let second = Machine::default();
        let mut fresh = vec![0; boundary::STATE];
        boundary::pack(&second, &mut fresh);
        Loop { image, proved: fresh.clone(), second, packed: fresh }
    }

    /// The mixed loop at a place in an image with pages.
    pub fn paged(pages: usize, place: Place) -> Self {
        Loop::new(mixed_loop(pages, place))
    }

    /// The loop that picks another of nine pages every so many steps.
    pub fn picking(every: usize) -> Self {
        Loop::new(picking_loop(every))
    }

    /// The long one, in 4K.
    pub fn long() -> Self {
        Loop::new(long_loop())
    }

    /// Whether the proved library's machine is where the second emulator's is.
    pub fn agree(&self) -> bool {
        let mut second = vec![0; boundary::STATE];
        boundary::pack(&self.second, &mut second);
        self.proved[IN_USE] == second[IN_USE]
    }

    /// The cycles of a step, by what the proved library reports for many more
    /// of them.
    pub fn cycles_per_step(&self) -> f64 {
        let (mut state, mut report) = (self.proved.clone(), [0; boundary::REPORT]);
        assert_eq!(proved::run(&self.image, &mut state, &[], RUN, &mut report), 0);
        let [.., a, b, c, d] = report;
        u32::from_le_bytes([a, b, c, d]) as f64 / RUN as f64
    }
}

/// Runs of loops in turn, of so many steps each.
pub struct Runs {
    loops: Vec<Loop>,
    steps: u32,
}

impl Runs {
    pub fn new(of: Loop, steps: u32) -> Self {
        Runs { loops: vec![of], steps }
    }

    /// The longest.
    pub fn longest(of: Loop) -> Self {
        Runs::new(of, RUN)
    }

    /// Different loops of some halves, which stay in a page.
    pub fn of_many(halves: usize, steps: u32) -> Self {
        Runs::of_each(halves, steps, staying)
    }

    /// Different loops of some halves, which store to the bank byte now and
    /// then.
    pub fn of_many_turning(halves: usize, steps: u32) -> Self {
        Runs::of_each(halves, steps, turning)
    }

    fn of_each(halves: usize, steps: u32, of: fn(&mut Rng, usize, usize) -> Vec<u8>) -> Self {
        let mut rng = Rng::new(3);
        let image = |number: usize| Loop::new(of(&mut rng, halves, number % TURNS.len()));
        Runs { loops: (0..IMAGES).map(image).collect(), steps }
    }

    /// How many a round has, of so many steps or of each loop once.
    pub fn in_round(&self, steps: u32) -> usize {
        self.loops.len().max((steps / self.steps) as usize)
    }

    /// The steps of so many runs.
    pub fn steps(&self, count: usize) -> usize {
        count * self.steps as usize
    }

    /// Whether the machines of both sides went the same way.
    pub fn agree(&self) -> bool {
        self.loops.iter().all(Loop::agree)
    }

    pub fn cycles_per_step(&self) -> f64 {
        let each = self.loops.iter().map(Loop::cycles_per_step);
        each.sum::<f64>() / self.loops.len() as f64
    }
}

impl Work for Runs {
    fn work(&mut self, side: Side, times: usize) {
        let count = self.loops.len();
        for index in 0..times {
            let Loop { image, proved, second, packed } = &mut self.loops[index % count];
            match side {
                Side::Proved => run(image, proved, self.steps, proved::run),
                Side::Second => {
                    let report = second.run(black_box(image), &[], self.steps).expect("it runs");
                    assert_eq!(black_box(report).stop, None);
                }
                Side::Packed => run(image, packed, self.steps, boundary::run),
            }
        }
    }
}

fn run(
    image: &[u8],
    state: &mut [u8],
    steps: u32,
    run: impl Fn(&[u8], &mut [u8], &[u8], u32, &mut [u8]) -> u64,
) {
    let mut report = [0; boundary::REPORT];
    assert_eq!(run(black_box(image), state, &[], steps, &mut report), 0);
    black_box(report);
}

/// Single steps of a loop.
#[derive(Default)]
pub struct Steps(pub Loop);

impl Work for Steps {
    fn work(&mut self, side: Side, times: usize) {
        let Loop { image, proved, second, packed } = &mut self.0;
        match side {
            Side::Proved => steps(image, proved, times, proved::step),
            Side::Second => {
                for _ in 0..times {
                    assert!(black_box(second.traced_step(black_box(image), 0)).is_ok());
                }
            }
            Side::Packed => steps(image, packed, times, boundary::step),
        }
    }
}

fn steps(
    image: &[u8],
    state: &mut [u8],
    times: usize,
    step: impl Fn(&[u8], &mut [u8], u32) -> u64,
) {
    for _ in 0..times {
        let answer = step(black_box(image), state, 0);
        assert_eq!(boundary::number(answer), 0);
    }
}

/// So many that a processor cannot learn the branches of them all.
pub const IMAGES: usize = 64;

/// Checks of different programs in turn.
pub struct Checks(Vec<(Program, u8)>);

impl Checks {
    /// Programs with every byte marked.
    pub fn throughout(length: usize) -> Self {
        Checks::of(length, dense)
    }

    /// Programs with six marks.
    pub fn sparse(length: usize) -> Self {
        Checks::of(length, sparse)
    }

    fn of(length: usize, program: fn(&mut Rng, usize) -> Program) -> Self {
        let mut rng = Rng::new(3);
        let with_levels = |program: Program| {
            let Program { image, certificate, wired } = &program;
            let levels = check(image, certificate, *wired).expect("it is accepted");
            (program, levels)
        };
        Checks((0..IMAGES).map(|_| with_levels(program(&mut rng, length))).collect())
    }
}

impl Work for Checks {
    fn work(&mut self, side: Side, times: usize) {
        match side {
            Side::Proved => checks(&self.0, times, proved::check),
            Side::Second => {
                for (program, levels) in self.0.iter().cycle().take(times) {
                    let Program { image, certificate, wired } = black_box(program);
                    assert_eq!(check(image, certificate, *wired), Ok(*levels));
                }
            }
            Side::Packed => checks(&self.0, times, boundary::check),
        }
    }
}

fn checks(programs: &[(Program, u8)], times: usize, check: impl Fn(&[u8], &[u8], u32) -> u64) {
    for (program, levels) in programs.iter().cycle().take(times) {
        let Program { image, certificate, wired } = black_box(program);
        let answer = check(image, certificate, *wired as u32);
        assert_eq!(boundary::value(answer), *levels as u32);
    }
}

/// Decodes of one pass over the opcodes.
pub const OPCODES: usize = 256;

/// Passes over an image that has every opcode, four bytes apart, in a page.
pub struct Decodes {
    image: Vec<u8>,
    bank: u8,
}

impl Default for Decodes {
    fn default() -> Self {
        Decodes::paged(1)
    }
}

impl Decodes {
    /// With some pages, the last of them in place.
    pub fn paged(pages: usize) -> Self {
        let mut page = vec![0; HALF];
        for (opcode, place) in (0..=255).zip(page.chunks_exact_mut(4)) {
            place[..3].copy_from_slice(&[opcode, 0x12, 0x34]);
        }
        Decodes { image: page.repeat(pages + 1), bank: pages as u8 - 1 }
    }

    /// How many opcodes are decoded through a side of the boundary.
    fn decodes(&self, decode: impl Fn(&[u8], u32, u32, &mut [u8]) -> u64) -> usize {
        let mut count = 0;
        for opcode in 0..OPCODES as u32 {
            let mut fields = [0; boundary::FIELDS];
            let answer = decode(black_box(&self.image), 4 * opcode, self.bank as u32, &mut fields);
            count += (boundary::number(answer) == 0) as usize;
            black_box(fields);
        }
        count
    }
}

impl Work for Decodes {
    fn work(&mut self, side: Side, times: usize) {
        let defined = SIZES.iter().filter(|size| size.length > 0).count();
        for _ in 0..times {
            let decoded = match side {
                Side::Proved => self.decodes(proved::decode),
                Side::Second => {
                    let good = |&opcode: &u32| {
                        black_box(decode(black_box(&self.image), 4 * opcode, self.bank)).is_ok()
                    };
                    (0..OPCODES as u32).filter(good).count()
                }
                Side::Packed => self.decodes(boundary::decode),
            };
            assert_eq!(decoded, defined);
        }
    }
}
