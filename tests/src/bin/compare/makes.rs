//! Certificates that are made.

use crate::harness::Harness;
use crate::refusals::LENGTHS;
use second::boundary;
use second::check::check;
use second::chip::Instruction::{Jp, Jrz};
use second::chip::{write, VECTORS};
use second::generate::{
    call_graph, chains, dense, image_length, long_recursion, marks, maze, p11, program,
    random_image, repeated_calls, repeated_recursion, round_the_end, sizing, soonest, sparse,
    straight, Chains, Order, Program, Rng, ORDERS,
};
use second::maker::{reason, Reason};
use second::play::Call;
use std::borrow::Cow::Borrowed;
use std::process::exit;

/// Bytes that name more than the five sources, and numbers beyond a byte.
const BAD_WIRED: [u32; 11] =
    [32, 0x3F, 0x40, 0x80, 0xE1, 0xFF, 256, 0x101, 0x1_0000, 0x8000_0000, u32::MAX];
/// Of programs with more marks than this not every certificate with less is
/// tried.
const FEW_MARKS: usize = 30;
const TRIED_EVERY: usize = 64;
/// How many programs come to one that is made with all sources.
const EVERY_WIRED_EVERY: usize = 32;

pub fn makes(h: &mut Harness, programs: usize) {
    known(h);
    lengths(h);
    each_reason(h);
    for index in 0..programs {
        let program = any_program(&mut h.rng);
        accepted(h, &program, index);
    }
    turned_down(h, programs);
    chains_with_services(h);
    short_chains(h);
    long_chains(h, programs / 150);
}

/// A certificate on both sides, in a buffer that held something else. One
/// that is made must pass both checks with the levels told, and a refusal
/// must leave the buffer. Gives the certificate.
pub fn make_into(h: &mut Harness, image: &[u8], wired: u32, length: usize) -> Option<Vec<u8>> {
    let mut before = vec![0; length];
    h.rng.fill(&mut before);
    let outcome = h.compare(Call::Make { image: Borrowed(image), wired, out: Borrowed(&before) });
    let (answer, out) = (outcome.answer, outcome.out.bytes());
    if boundary::number(answer) != 0 {
        holds(out == before, "a refusal leaves the buffer", answer);
        return None;
    }
    let checked = checked(h, image, out, wired);
    holds(checked == answer, "the check accepts it with these levels", answer);
    Some(out.to_vec())
}

/// The same in a buffer of as many bytes as there are marks.
pub fn make(h: &mut Harness, image: &[u8], wired: u32) -> Option<Vec<u8>> {
    make_into(h, image, wired, marks(image.len()))
}

/// What both checks answer.
fn checked(h: &mut Harness, image: &[u8], certificate: &[u8], wired: u32) -> u64 {
    let (image, certificate) = (Borrowed(image), Borrowed(certificate));
    h.compare(Call::Check { image, certificate, wired }).answer
}

/// A program with few marks, or many, most of them with a certificate that
/// is accepted.
fn any_program(rng: &mut Rng) -> Program {
    let length = image_length(rng);
    match rng.below(16) {
        0 => sparse(rng, length),
        1 => dense(rng, length),
        2 => maze(rng, length, false),
        3 | 4 => sizing(rng),
        5..=8 => call_graph(rng),
        _ => program(rng),
    }
}

/// A program with its own sources, and with others.
pub fn accepted(h: &mut Harness, program: &Program, index: usize) {
    let Program { image, certificate, wired } = program;
    let made = make(h, image, *wired as u32);
    let own = check(image, certificate, *wired);
    holds(made.is_some() || own.is_err(), "26 is only given where none is accepted", 26);
    if let Some(made) = &made {
        let few = made.iter().filter(|&&mark| mark != 0).count() <= FEW_MARKS;
        if few || index.is_multiple_of(TRIED_EVERY) {
            none_is_less(h, image, made, *wired as u32);
        }
    }
    if let (Some(made), Ok(_)) = (&made, own) {
        not_above(made, certificate);
        h.counts.makes.own += 1;
    }
    if index.is_multiple_of(EVERY_WIRED_EVERY) {
        every_wired(h, image);
    }
}

/// An accepted certificate has every mark of the made one, with its kind and
/// no smaller need.
fn not_above(made: &[u8], accepted: &[u8]) {
    let above = |(made, accepted): (&u8, &u8)| {
        *made != 0 && (made >> 4 != accepted >> 4 || made & 0x0F > accepted & 0x0F)
    };
    holds(!made.iter().zip(accepted).any(above), "no accepted one has less", 0);
}

/// With one need or one mark less, no check accepts a made certificate.
fn none_is_less(h: &mut Harness, image: &[u8], made: &[u8], wired: u32) {
    let mut certificate = made.to_vec();
    for (index, &mark) in made.iter().enumerate().filter(|(_, &mark)| mark != 0) {
        let lower = (mark & 0x0F > 0).then(|| mark - 1);
        for less in lower.into_iter().chain([0]) {
            certificate[index] = less;
            let answer = checked(h, image, &certificate, wired);
            holds(boundary::number(answer) != 0, "one with less is refused", answer);
            h.counts.makes.less += 1;
        }
        certificate[index] = mark;
    }
    h.counts.makes.tried += 1;
}

/// An image with all sources, and with bytes that name none.
fn every_wired(h: &mut Harness, image: &[u8]) {
    for wired in (0..32).chain(BAD_WIRED) {
        make(h, image, wired);
    }
}

/// Programs whose least certificate is known.
fn known(h: &mut Harness) {
    let soonest = soonest().into_iter().map(|(program, _)| program);
    // From FFFh to 000h too.
    let nops = Program { image: vec![0x04; 4096], certificate: vec![0x10; 4096], wired: 0 };
    let others = [p11(2048), p11(4096), straight(2048), straight(4096), nops, round_the_end()];
    for program in soonest.chain(others) {
        expect(h, &program);
        every_wired(h, &program.image);
    }
}

/// A program that comes with its least certificate, or with one that is
/// refused because it has none.
fn expect(h: &mut Harness, program: &Program) {
    let Program { image, certificate, wired } = program;
    let made = make(h, image, *wired as u32);
    let expected = check(image, certificate, *wired).is_ok().then_some(certificate);
    assert_eq!(made.as_ref(), expected, "the least certificate of a generated program");
}

/// Images and buffers of all lengths, with good and bad sources. One image
/// has a certificate, the other none.
fn lengths(h: &mut Harness) {
    let (good, _) = &soonest()[0];
    for image in LENGTHS {
        let mut some = good.image.clone();
        some.resize(image, 0x6D);
        let none = vec![0x05; image];
        for out in LENGTHS {
            for wired in [0, 0x1F, 0x20, 0xFF, 256, u32::MAX] {
                make_into(h, &some, wired, out);
                make_into(h, &none, wired, out);
            }
        }
    }
}

/// Where start-up jumps to, and code there that leaves no certificate.
const WITHOUT: [(u16, &[u8], Reason); 12] = [
    (0x900, &[0x05], Reason::Undefined),
    (0x900, &[0x04, 0x17, 0x77, 0x77], Reason::Undefined),
    (0x900, &[0xF9, 0x7F], Reason::OutsideRom), // JP 7FFh
    (0x900, &[0x01, 0x7F, 0x29, 0x90], Reason::OutsideRom), // CALL 7F0h
    (0x900, &[0xF9, 0xFF], Reason::OutsideRom), // JP FFFh, which goes on at 000h
    (0x9F0, &[0xF9, 0xFF], Reason::OutsideRom), // JP FFFh, which has its operand there
    (0x900, &[0x21, 0x90, 0x29, 0x90], Reason::TwoKinds), // CALL 902h, and there JP 902h
    (0x900, &[0x4D, 0x01, 0x90, 0x39, 0x90], Reason::TwoKinds), // RETI, CALL 900h, JP 903h
    (0x900, &[0xCD], Reason::Misplaced),        // RET
    (0x900, &[0x4D, 0x4D], Reason::Misplaced),  // RETI, RETI
    (0x900, &[0x41, 0x90, 0x29, 0x90, 0x4D], Reason::Misplaced), // CALL 904h, and there RETI
    (0x900, &[0x41, 0x90, 0x29, 0x90, 0x41, 0x90, 0xCD], Reason::Need), // 904h calls itself
];

/// Programs without a certificate, for each reason but too many levels (in
/// 2K; the same in 4K is compared too).
fn each_reason(h: &mut Harness) {
    for (start, code, expected) in WITHOUT {
        for length in [2048, 4096] {
            let base = 0x1000 - length;
            let mut image = vec![0; length];
            image[start as usize - base..][..code.len()].copy_from_slice(code);
            write(Jp(start), &mut image[0xFFE - base..]).expect("a good jump");
            every_wired(h, &image);
            if length == 2048 {
                assert_eq!(reason(&image, 0), Some(expected), "the reason of a given program");
            }
        }
    }
}

/// Images that mostly have no certificate.
fn turned_down(h: &mut Harness, count: usize) {
    let mut program = any_program(&mut h.rng);
    for index in 0..count {
        if index.is_multiple_of(8) {
            program = any_program(&mut h.rng);
        }
        let mut image = bad_image(&mut h.rng, &program);
        if h.rng.chance(5) {
            image.resize(h.rng.pick(&LENGTHS), 0);
        }
        let length = if h.rng.chance(95) { marks(image.len()) } else { h.rng.pick(&LENGTHS) };
        let wired = match h.rng.below(10) {
            0 => h.rng.pick(&BAD_WIRED),
            1 | 2 => h.rng.byte() as u32 & 0x1F,
            _ => program.wired as u32,
        };
        make_into(h, &image, wired, length);
    }
}

fn bad_image(rng: &mut Rng, program: &Program) -> Vec<u8> {
    let length = image_length(rng);
    match rng.below(10) {
        0 => random_image(rng),
        1 => maze(rng, length, true).image,
        _ => changed(rng, program),
    }
}

/// An image with up to three bytes changed, mostly where it has code.
pub fn changed(rng: &mut Rng, program: &Program) -> Vec<u8> {
    let mut image = program.image.clone();
    let code: Vec<usize> = (0..image.len()).filter(|&index| image[index] != 0).collect();
    for _ in 0..1 + rng.below(3) {
        let byte = &mut image[rng.pick(&code)];
        *byte = match rng.below(3) {
            0 => rng.byte(),
            1 => *byte ^ 1 << rng.below(8),
            _ => rng.pick(&[0xCD, 0x4D, 0x05, 0x09, 0x01, 0x77, 0x04, 0x6D]),
        };
    }
    image
}

/// Chains in 2K with every source, up to more than six levels.
fn chains_with_services(h: &mut Harness) {
    for depth in 0..=8 {
        let wanted = Chains { length: 2048, order: Order::Upward, depth, recursive: false };
        let program = chains(&mut h.rng, wanted);
        for wired in 0..32 {
            expect(h, &with_services(&program, wired));
        }
    }
}

/// A 2K program with a RETI at every vector, and marks at the wired ones.
fn with_services(program: &Program, wired: u8) -> Program {
    let mut program = Program { wired, ..program.clone() };
    for (source, vector) in VECTORS.into_iter().enumerate() {
        let index = vector as usize - 0x800;
        program.image[index] = 0x4D;
        program.certificate[index] = if wired >> source & 1 != 0 { 0x30 } else { 0 };
    }
    program
}

/// Chains in 2K in every order.
fn short_chains(h: &mut Harness) {
    for order in ORDERS {
        for (depth, recursive) in [(0, false), (1, false), (6, false), (7, false), (2, true)] {
            let program = chains(&mut h.rng, Chains { length: 2048, order, depth, recursive });
            expect(h, &program);
        }
    }
    whole_rom(h, 2048);
}

/// Chains in 4K, where a maker that goes over everything again and again has
/// the most to do.
fn long_chains(h: &mut Harness, count: usize) {
    for index in 0..count {
        let recursive = h.rng.chance(30);
        let depth = recursive as usize + h.rng.below(8);
        let order = ORDERS[index % ORDERS.len()];
        let program = chains(&mut h.rng, Chains { length: 4096, order, depth, recursive });
        expect(h, &program);
    }
    whole_rom(h, 4096);
}

/// The same subroutine called all the time, also by itself, and long ones that
/// call themselves, of NOPs and of branches back and on.
fn whole_rom(h: &mut Harness, length: usize) {
    expect(h, &repeated_calls(length));
    expect(h, &repeated_recursion(length));
    expect(h, &long_recursion(length, Jrz(0)));
    expect(h, &long_recursion(length, Jrz(-2)));
}

/// Ends the comparison where an answer isn't what W-202 says of it.
fn holds(so: bool, what: &str, answer: u64) {
    if !so {
        println!("THE MAKER FAILS: not so that {what}; the answer was {answer:X}h");
        exit(1);
    }
}
