//! Programs with pages: their certificates checked and made, and what stays
//! without pages.

use crate::certificates::checked_program;
use crate::harness::Harness;
use crate::jobs::job_of;
use crate::makes::{accepted, changed, make, make_into};
use crate::refusals::LENGTHS;
use second::check::check;
use second::chip::Instruction::{self, *};
use second::chip::{HALF, MOST_HALVES, RESET_VECTOR, VECTORS};
use second::generate::{
    damage, dense, marks, misplaced, paged_graph, paged_program, tangle, written, Program, Tangle,
};
use second::maker::{reason, Reason};
use second::play::Call;
use second::Refusal;
use std::borrow::Cow::{Borrowed, Owned};
use std::cmp::Ordering;

pub fn pages(h: &mut Harness, count: usize) {
    each_refusal(h);
    each_reason(h);
    together(h);
    over_end(h);
    tangles(h);
    lengths(h);
    for index in 0..count {
        let length = HALF * (2 + index % (MOST_HALVES - 1));
        let valid = paged_program(&mut h.rng, length);
        let marked = dense(&mut h.rng, length);
        checks(h, &valid, &marked);
        makes(h, &valid, index);
        unpaged(h, &valid, &marked);
    }
}

fn check_one(h: &mut Harness, program: &Program) {
    let Program { image, certificate, wired } = program;
    let (image, certificate) = (Borrowed(&image[..]), Borrowed(&certificate[..]));
    h.compare(Call::Check { image, certificate, wired: *wired as u32 });
}

/// Good and damaged ones; most damage is to code of single pages.
fn checks(h: &mut Harness, valid: &Program, marked: &Program) {
    for program in [valid, marked] {
        check_one(h, program);
        for times in [1, 1, 1, 2, 2, 3] {
            let mut bad = program.clone();
            (0..times).for_each(|_| misplaced(&mut h.rng, &mut bad));
            if h.rng.chance(20) {
                damage(&mut h.rng, &mut bad);
            }
            check_one(h, &bad);
        }
    }
    for _ in 0..4 {
        let program = checked_program(&mut h.rng, valid, marked);
        check_one(h, &program);
    }
    fault_at_end(h, valid);
    let mut program = valid.clone();
    let length = h.rng.pick(&LENGTHS);
    program.certificate.resize(length, 0);
    check_one(h, &program);
    program.certificate.resize(program.image.len(), 0);
    check_one(h, &program);
}

/// The way out of the fixed half at its end: an operand in the page that is no
/// good with some pages.
fn fault_at_end(h: &mut Harness, valid: &Program) {
    let mut program = valid.clone();
    let end = program.image.len() - 1;
    program.image[end] = h.rng.pick(&[0x09, 0x01, 0x23, 0x17]);
    program.certificate[0xFFF] = program.certificate[0xFFE];
    let starts: Vec<u16> = program.marked().iter().map(|&mark| mark as u16).collect();
    for page in 0..program.pages() {
        let target = h.rng.pick(&starts);
        program.image[HALF * page] = (target >> 4) as u8;
        if h.rng.chance(30) {
            program.image[HALF * page] = h.rng.byte();
        }
    }
    check_one(h, &program);
}

/// Certificates for a program, for call graphs, and for images that hardly
/// have one.
fn makes(h: &mut Harness, valid: &Program, index: usize) {
    let length = valid.image.len();
    accepted(h, valid, index);
    for _ in 0..2 {
        let graph = paged_graph(&mut h.rng, length);
        make(h, &graph.image, graph.wired as u32);
        let image = changed(&mut h.rng, valid);
        make(h, &image, valid.wired as u32);
        let image = changed(&mut h.rng, &graph);
        make(h, &image, graph.wired as u32);
    }
    let out = h.rng.pick(&LENGTHS);
    make_into(h, &valid.image, valid.wired as u32, out);
    make_into(h, &valid.image, valid.wired as u32, length);
}

/// The gauge and jobs take no pages: 23, and 22.
fn unpaged(h: &mut Harness, valid: &Program, marked: &Program) {
    for program in [valid, marked] {
        let Program { image, certificate, .. } = program;
        for count in [h.rng.byte() as u32, 0x100] {
            let (image, certificate) = (Borrowed(&image[..]), Borrowed(&certificate[..]));
            h.compare(Call::Width { image, certificate, count });
        }
        h.compare(Call::Job { job: Owned(job_of(program)), line: 64 });
    }
}

/// Lines of a page, with their addresses.
type Code<'a> = &'a [(u16, Instruction)];

/// An image with code in each of its first pages, the same in all others as in
/// the last of them, and in the fixed half.
fn image_of(halves: usize, pages: &[Code], fixed: Code) -> Vec<u8> {
    let lines = |code: Code| -> Vec<(u16, Instruction, u8)> {
        code.iter().map(|&(address, instruction)| (address, instruction, 0)).collect()
    };
    let mut image = Vec::new();
    for page in 0..halves - 1 {
        let code = pages[page.min(pages.len() - 1)];
        image.extend(&written(2 * HALF, &lines(code)).image[..HALF]);
    }
    image.extend(&written(2 * HALF, &lines(fixed)).image[HALF..]);
    image
}

const START: (u16, Instruction) = (RESET_VECTOR, Jp(0x100));
/// A loop, and a RETI at 110h.
const LOOP: Code = &[(0x100, Jp(0x100)), (0x110, Reti)];
/// RETI, and a loop after it.
const SERVED: Code = &[(0x100, Reti), (0x101, Jp(0x101))];

/// Code at 100h that is refused there, with its number.
const REFUSED: [(&[u8], u8); 4] = [
    (&[0x05], 5),
    (&[0xCD], 15),
    (&[0x09, 0x70], 16), // JP 700h, which isn't marked
    (&[0x09, 0x20], 17), // JP 200h, which needs more
];

/// Each refusal found with each page, with another one in all later pages, and
/// with one in page 0 at a higher address.
fn each_refusal(h: &mut Harness) {
    for halves in 3..=MOST_HALVES {
        for page in 0..halves - 1 {
            for (code, number) in REFUSED {
                for (later, _) in REFUSED {
                    let program = refused_in(halves, page, code, later);
                    check_one(h, &program);
                    let refusal = check(&program.image, &program.certificate, 0).unwrap_err();
                    let given = (refusal.number(), refusal.address());
                    assert_eq!(given, (number, Some(0x100)), "the refusal of a given program");
                }
            }
        }
    }
}

/// A program with code at 100h in a page, and other code there in later ones.
fn refused_in(halves: usize, page: usize, code: &[u8], later: &[u8]) -> Program {
    let lines: Code = &[(0x100, Jp(0x100)), (0x200, Jp(0x200))];
    let mut image = image_of(halves, &[lines], &[START]);
    if page > 0 {
        image[0x200] = 0x05;
    }
    for (number, half) in image[..HALF * (halves - 1)].chunks_exact_mut(HALF).enumerate() {
        let code = match number.cmp(&page) {
            Ordering::Less => continue,
            Ordering::Equal => code,
            Ordering::Greater => later,
        };
        half[0x100..][..code.len()].copy_from_slice(code);
    }
    let mut certificate = vec![0; marks(image.len())];
    for (address, mark) in [(0x100, 0x10), (0x200, 0x11), (0xFFE, 0x10)] {
        certificate[address] = mark;
    }
    Program { image, certificate, wired: 0 }
}

/// Code at 100h of one page that leaves no certificate.
const WITHOUT: [(&[u8], Reason); 8] = [
    (&[0x05], Reason::Undefined),
    (&[0x04, 0x17, 0x77, 0x77], Reason::Undefined),
    (&[0x21, 0x10, 0x29, 0x10], Reason::TwoKinds), // CALL 102h, and there JP 102h
    (&[0x01, 0x11, 0x29, 0x10], Reason::Misplaced), // CALL 110h, where RETI stands
    (&[0xCD], Reason::Misplaced),                  // RET
    (&[0x4D, 0x4D], Reason::Misplaced),            // RETI, RETI
    (&[0x41, 0x10, 0x29, 0x10, 0x41, 0x10, 0xCD], Reason::Need), // 104h calls itself
    (&[0x41, 0x10, 0x29, 0x10, 0x4D], Reason::Misplaced), // CALL 104h, and there RETI
];

/// Programs with a page that leaves no certificate, for each reason but too
/// many levels, with that page at every place.
fn each_reason(h: &mut Harness) {
    for (code, expected) in WITHOUT {
        for halves in 3..=MOST_HALVES {
            for page in 0..halves - 1 {
                let mut image = image_of(halves, &[LOOP], &[START]);
                let from = HALF * page + 0x100;
                image[from..from + code.len()].copy_from_slice(code);
                make(h, &image, 0);
                assert!(reason(&image, 0).is_some(), "{expected:?} of a given program");
            }
        }
    }
}

/// Programs whose pages have a certificate each, but none together, and ones
/// that have one with more marks or needs than any of their pages.
fn together(h: &mut Harness) {
    // 110h calls 120h with a page, and 120h calls 110h with another.
    let (calls_on, calls_back) = (two(Call(0x120), LdiA(0)), two(LdiA(0), Call(0x110)));
    // 110h is jumped to, or called.
    let jumps: Code = &[(0x100, Jp(0x110)), (0x102, Jp(0x100)), (0x110, Jp(0x110))];
    let calls: Code = &[(0x100, Call(0x110)), (0x102, Jp(0x100)), (0x110, Jp(0x110))];
    // Four levels in start-up with a page, and three in a service with another.
    let deep_main = deep(0x100, 4);
    let deep_service = deep(0x200, 3);
    let fixed = [START, (VECTORS[0], Jp(0x200))];
    for halves in 3..=MOST_HALVES {
        for (pages, expected) in [
            ([&calls_on[..], &calls_back], Some(Reason::Need)),
            ([jumps, calls], Some(Reason::TwoKinds)),
            ([&deep_main[..], &deep_service], Some(Reason::Levels)),
            ([LOOP, LOOP], None),
            ([SERVED, SERVED], None),
        ] {
            let [first, second] = pages;
            for pages in [[first, second], [second, first]] {
                let image = image_of(halves, &pages, &fixed);
                let wired = (expected == Some(Reason::Levels)) as u8;
                for wired in [wired, wired ^ 1, h.rng.byte()] {
                    make(h, &image, wired as u32);
                }
                assert_eq!(reason(&image, wired), expected, "the reason of a given program");
            }
        }
    }
}

/// Start-up at 100h that calls 110h, and subroutines there and at 120h with an
/// instruction of two bytes each.
fn two(first: Instruction, second: Instruction) -> [(u16, Instruction); 6] {
    [
        (0x100, Call(0x110)),
        (0x102, Jp(0x100)),
        (0x110, first),
        (0x112, Ret),
        (0x120, second),
        (0x122, Ret),
    ]
}

/// A program that leaves the fixed half at its end by a JP whose operand is in
/// the page: with one page, at every place, it leads elsewhere.
fn over_end(h: &mut Harness) {
    for halves in 3..=MOST_HALVES {
        for page in 0..halves - 1 {
            let mut image = image_of(halves, &[LOOP], &[(RESET_VECTOR, Jrz(0))]);
            let last = image.len() - 1;
            image[last] = 0x09;
            (0..halves - 1).for_each(|other| image[HALF * other] = 0x10);
            let mut certificate = vec![0; marks(image.len())];
            for address in [0x100, 0xFFE, 0xFFF] {
                certificate[address] = 0x10;
            }
            let mut program = Program { image, certificate, wired: 0 };
            check_one(h, &program);
            for (elsewhere, to) in [(0x11, 0x110), (0x20, 0x200), (0x80, 0x800), (0x10, 0x100)] {
                program.image[HALF * page] = elsewhere;
                check_one(h, &program);
                make(h, &program.image, 0);
                let refusal = check(&program.image, &program.certificate, 0).err();
                let expected = (to != 0x100).then_some(Refusal::Successor(0xFFF));
                assert_eq!(refusal, expected, "a JP to {to:03X}h with page {page}");
            }
        }
    }
}

/// Programs that reach through every page, with other ways on each.
fn tangles(h: &mut Harness) {
    for halves in 3..=MOST_HALVES {
        for how in [Tangle::Branches, Tangle::Jumps, Tangle::Calls] {
            for recursive in [false, true] {
                let program = tangle(&mut h.rng, HALF * halves, how, recursive);
                make(h, &program.image, 0);
            }
        }
    }
}

/// Start-up at 100h, a service at 200h, and subroutines from 300h on, each of
/// which calls the next; so many of them are called from an address.
fn deep(from: u16, levels: u16) -> Vec<(u16, Instruction)> {
    let mut code = vec![(0x102, Jp(0x100)), (0x202, Reti)];
    for caller in [0x100, 0x200] {
        let called = if caller == from { Call(0x310 - 0x10 * (levels - 1)) } else { LdiA(0) };
        code.push((caller, called));
    }
    for level in 0..4u16 {
        let at = 0x310 - 0x10 * level;
        code.push((at, if level == 0 { LdiA(0) } else { Call(at + 0x10) }));
        code.push((at + 2, Ret));
    }
    code
}

/// Images, certificates and buffers of all lengths.
fn lengths(h: &mut Harness) {
    let image = image_of(3, &[LOOP], &[START]);
    let mut certificate = vec![0; marks(image.len())];
    (certificate[0x100], certificate[0xFFE]) = (0x10, 0x10);
    assert_eq!(check(&image, &certificate, 0), Ok(0), "a given program");
    let lengths = || LENGTHS.into_iter().chain((0..=12).map(|halves| HALF * halves));
    for image_length in lengths() {
        // The last half stays the last, as far as there is one.
        let image = resized(&image, image_length);
        for length in lengths() {
            let mut certificate = certificate.clone();
            certificate.resize(length, 0);
            for wired in [0, 0x20, 0x100] {
                let (image, certificate) = (Borrowed(&image[..]), Borrowed(&certificate[..]));
                h.compare(Call::Check { image, certificate, wired });
            }
            let (image_lent, certificate) = (Borrowed(&image[..]), Owned(certificate));
            h.compare(Call::Width { image: image_lent, certificate, count: 0 });
            for wired in [0, 0xFF] {
                make_into(h, &image, wired, length);
            }
        }
    }
}

/// An image of another length, with more pages or fewer before its end.
fn resized(image: &[u8], length: usize) -> Vec<u8> {
    let (page, fixed) = (&image[..HALF], &image[image.len() - HALF..]);
    let mut all: Vec<u8> = page.iter().copied().cycle().take(length).collect();
    let from = length.saturating_sub(HALF);
    let end = length - from;
    all[from..].copy_from_slice(&fixed[..end]);
    all
}
