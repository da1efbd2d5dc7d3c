//! Certificates that are made: of ordinary programs, and of the images that
//! take a maker longest.

use super::{Side, Work, IMAGES};
use crate::chip::{Instruction, HALF, MOST_HALVES};
use crate::generate::{
    chains, dense, long_recursion, marks, maze, paged_program, program, repeated_calls,
    repeated_recursion, sparse, straight, tangle, Chains, Order, Program, Rng, Tangle, ORDERS,
};
use crate::maker::make;
use crate::{boundary, proved};
use std::hint::black_box;

const NOP: Instruction = Instruction::Jrz(0);
/// A branch to the address before it.
const BACK: Instruction = Instruction::Jrz(-2);

/// Makes of different programs in turn.
pub struct Makes {
    wanted: Vec<Wanted>,
    out: Vec<u8>,
}

/// A program, with the certificate that is made if there is one, and the
/// answer.
struct Wanted {
    program: Program,
    answer: u64,
}

impl Wanted {
    fn new(mut program: Program) -> Self {
        let Program { image, certificate, wired } = &mut program;
        let answer = boundary::make(image, *wired as u32, certificate);
        Wanted { program, answer }
    }
}

impl Makes {
    fn of(wanted: Vec<Wanted>) -> Self {
        Makes { wanted, out: vec![0; 4096] }
    }

    /// Programs that are reached nearly throughout.
    pub fn throughout(length: usize) -> Self {
        Makes::ordinary(length, reached)
    }

    /// Generated programs: start-up, main loop, subroutines and services.
    pub fn programs(length: usize) -> Self {
        Makes::ordinary(length, generated)
    }

    /// Programs that get six marks.
    pub fn sparse(length: usize) -> Self {
        Makes::ordinary(length, sparse)
    }

    fn ordinary(length: usize, program: fn(&mut Rng, usize) -> Program) -> Self {
        let mut rng = Rng::new(3);
        let wanted: Vec<Wanted> =
            (0..IMAGES).map(|_| Wanted::new(program(&mut rng, length))).collect();
        assert!(wanted.iter().all(|wanted| boundary::number(wanted.answer) == 0), "all are made");
        Makes::of(wanted)
    }

    /// The same image each time.
    fn one(program: Program) -> Self {
        Makes::of(vec![Wanted::new(program)])
    }

    /// Chains in 4K.
    pub fn chains(order: Order, depth: usize, recursive: bool) -> Self {
        Makes::one(chains(&mut Rng::new(3), Chains { length: 4096, order, depth, recursive }))
    }

    /// The proved library's checks of what is made.
    pub fn proved_checks(&self, times: usize) {
        for Wanted { program, answer } in self.wanted.iter().cycle().take(times) {
            let Program { image, certificate, wired } = black_box(program);
            assert_eq!(proved::check(image, certificate, *wired as u32), *answer);
        }
    }

    fn makes(&mut self, times: usize, make: impl Fn(&[u8], u8, &mut [u8]) -> u64) {
        for Wanted { program, answer } in self.wanted.iter().cycle().take(times) {
            let Program { image, wired, .. } = black_box(program);
            let out = &mut self.out[..marks(image.len())];
            assert_eq!(make(image, *wired, out), *answer);
            black_box(out);
        }
    }
}

impl Work for Makes {
    fn work(&mut self, side: Side, times: usize) {
        match side {
            Side::Proved => self.makes(times, |i, wired, out| proved::make(i, wired as u32, out)),
            Side::Second => self.makes(times, |i, wired, out| match make(i, wired, out) {
                Ok(levels) => (levels as u64) << 24,
                Err(refusal) => refusal.number() as u64,
            }),
            Side::Packed => self.makes(times, |i, wired, out| boundary::make(i, wired as u32, out)),
        }
    }
}

/// A program marked throughout, with a way from CD0h, where its start-up
/// jumps to, to its first byte.
fn reached(rng: &mut Rng, length: usize) -> Program {
    let base = 0x1000 - marks(length);
    let mut program = dense(rng, length);
    // At CD0h a JRZ over the JP. The byte before may be the end of a CALL,
    // and must then stay FFh.
    let way = [0xFF, 0x14, 0x09, (base >> 4) as u8];
    program.image[length - 0x1000 + 0xCCF..][..way.len()].copy_from_slice(&way);
    program
}

/// A generated program of a length that has a certificate.
fn generated(rng: &mut Rng, length: usize) -> Program {
    let mut programs = std::iter::repeat_with(|| match length {
        2048 | 4096 => program(rng),
        _ => paged_program(rng, length),
    });
    let has_certificate = |program: &Program| {
        make(&program.image, program.wired, &mut vec![0; marks(length)]).is_ok()
    };
    programs
        .find(|program| program.image.len() == length && has_certificate(program))
        .expect("there is no end of them")
}

/// A maze with subroutines of all needs.
fn deep_maze(recursive: bool) -> Program {
    let mut mazes = (0..).map(|seed| maze(&mut Rng::new(seed), 4096, recursive));
    mazes.find(|maze| maze.certificate[0xFFE] == 0x16).expect("one in seven")
}

/// The 4K images that take longest, with their names.
pub fn worst() -> Vec<(String, Makes)> {
    let others = [
        ("NOPs that loop", straight(4096)),
        ("NOPs that call themselves", long_recursion(4096, NOP)),
        ("branches that call themselves", long_recursion(4096, BACK)),
        ("calls of one subroutine, six deep", repeated_calls(4096)),
        ("calls of itself alone", repeated_recursion(4096)),
        ("maze, six deep", deep_maze(false)),
        ("maze that calls itself", deep_maze(true)),
    ];
    let others = others.map(|(name, program)| (name.to_string(), Makes::one(program)));
    worst_chains().into_iter().chain(others).collect()
}

/// The images of nine pages that take longest: those above with the same page
/// nine times, and ones with other ways on each page.
pub fn worst_paged() -> Vec<(String, Makes)> {
    let mut worst = worst();
    for (_, makes) in &mut worst {
        let program = makes.wanted.remove(0).program;
        *makes = Makes::one(nine_times(program));
    }
    let mut rng = Rng::new(3);
    for (name, how) in
        [("branches", Tangle::Branches), ("jumps", Tangle::Jumps), ("calls", Tangle::Calls)]
    {
        for (end, recursive) in [("six deep", false), ("that call themselves", true)] {
            let program = tangle(&mut rng, MOST_HALVES * HALF, how, recursive);
            worst.push((format!("{name} other on each page, {end}"), Makes::one(program)));
        }
    }
    worst
}

/// A 4K program with its page nine times.
fn nine_times(program: Program) -> Program {
    let (page, fixed) = program.image.split_at(HALF);
    Program { image: [&page.repeat(MOST_HALVES - 1), fixed].concat(), ..program }
}

fn worst_chains() -> Vec<(String, Makes)> {
    let mut worst = Vec::new();
    for (name, order) in ["upward", "downward", "zigzag", "random"].into_iter().zip(ORDERS) {
        for (end, depth, recursive) in [
            ("that loops", 0, false),
            ("that ends in CALL", 1, false),
            ("and six subroutines", 6, false),
            ("that calls itself", 1, true),
        ] {
            worst.push((format!("{name} chain {end}"), Makes::chains(order, depth, recursive)));
        }
    }
    worst
}
