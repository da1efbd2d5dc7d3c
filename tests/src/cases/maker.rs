//! The certificate maker, on programs written by hand.

use super::*;
use crate::boundary;
use crate::check::check;
use crate::chip::Instruction::{self, *};
use crate::chip::{Operand, VECTORS};
use crate::generate::{round_the_end, written, Program, Rng};
use crate::maker::{make, reason, Reason};
use crate::Refusal::{self, *};

/// Instructions with their addresses and the marks that they must get.
type Line = (u16, Instruction, u8);

/// What is made, and its levels.
fn made(image: &[u8], wired: u8) -> Result<(Vec<u8>, u8), Refusal> {
    let mut out = vec![0xA5; image.len()];
    let answer = make(image, wired, &mut out);
    if answer.is_err() {
        assert!(out.iter().all(|&mark| mark == 0xA5), "a refusal leaves the buffer");
    }
    answer.map(|levels| (out, levels))
}

/// The program gets the marks that stand with it, and no others, in 4K too.
fn gets(code: &[Line], wired: u8, levels: u8) {
    let Program { image, certificate, .. } = written(2048, code);
    assert_eq!(made(&image, wired), Ok((certificate, levels)));
    gets_in_4k(code, wired, levels);
}

fn gets_in_4k(code: &[Line], wired: u8, levels: u8) {
    let Program { image, certificate, .. } = written(4096, code);
    assert_eq!(made(&image, wired), Ok((certificate.clone(), levels)));
    assert_eq!(check(&image, &certificate, wired), Ok(levels));
}

/// The program gets no certificate.
fn gets_none(code: &[Line], wired: u8, expected: Reason) {
    let Program { image, .. } = written(2048, code);
    assert_eq!(made(&image, wired), Err(NoCertificate));
    assert_eq!(reason(&image, wired), Some(expected));
}

/// P12 has P11's image, so that both get the certificate of P11.
#[test]
fn p11_and_p12() {
    let (image, marks) = p11();
    assert_eq!(made(&image, 0x01), Ok((marks.clone(), 2)));
    let mut without_service = marks.clone();
    without_service[0x7FC] = 0;
    assert_eq!(made(&image, 0), Ok((without_service, 1)));
    // Above the service stands 00h, a JRNZ to the next address.
    for (vector, wired, levels) in
        [(0x7F6, 0x02, 2), (0x7F4, 0x04, 2), (0x7F2, 0x08, 2), (0x7F0, 0x10, 2), (0x7F0, 0x1F, 3)]
    {
        let mut longer = marks.clone();
        longer[vector..0x7FD].fill(0x30);
        assert_eq!(made(&image, wired), Ok((longer, levels)));
    }
}

#[test]
fn the_packed_answer() {
    let (image, marks) = p11();
    let mut out = vec![0; 2048];
    assert_eq!(boundary::make(&image, 1, &mut out), 2 << 24);
    assert_eq!(out, marks);
    assert_eq!(boundary::make(&image, 1, &mut out[1..]), 25);
    assert_eq!(boundary::make(&image, 32, &mut out[1..]), 11);
    assert_eq!(boundary::make(&image, 256, &mut out[1..]), 11);
    assert_eq!(boundary::make(&image, u32::MAX, &mut out[1..]), 11);
    assert_eq!(boundary::make(&image[1..], u32::MAX, &mut out[1..]), 1);
    assert_eq!(boundary::make(&[0; 2048], 0, &mut out), 26);
    assert_eq!(out, marks);
}

#[test]
fn refusals_in_order() {
    let bad = vec![0x05; 4096];
    for length in [0, 1, 2047, 2049, 4095] {
        assert_eq!(make(&bad[..length], 0xFF, &mut [0; 3]), Err(ImageLength));
        assert_eq!(make(&bad[..length], 0, &mut vec![0; length]), Err(ImageLength));
    }
    assert_eq!(make(&vec![0; 4097], 0, &mut vec![0; 4097]), Err(ImageLength));
    for image in [&bad[..2048], &bad] {
        for wired in 0x20..=0xFF {
            assert_eq!(make(image, wired, &mut []), Err(Request));
            assert_eq!(made(image, wired), Err(Request));
        }
        for length in [0, 1, image.len() - 1, image.len() + 1] {
            assert_eq!(make(image, 0x1F, &mut vec![0; length]), Err(CertificateBuffer));
        }
        assert_eq!(make(image, 0, &mut vec![0; 6144 - image.len()]), Err(CertificateBuffer));
        assert_eq!(made(image, 0x1F), Err(NoCertificate));
    }
    assert_eq!(ImageLength.number(), 1);
    assert_eq!(Request.number(), 11);
    assert_eq!(CertificateBuffer.number(), 25);
    assert_eq!(NoCertificate.number(), 26);
}

const START: Line = (0xFFE, Jp(0x900), 0x10);

#[test]
fn the_smallest_programs() {
    gets(&[(0xFFE, Jp(0xFFE), 0x10)], 0, 0);
    gets(&[START, (0x900, Jp(0x900), 0x10)], 0, 0);
    gets(&[START, (0x900, Reti, 0x10), (0x901, Jp(0x901), 0x20)], 0, 0);
    let service = (0xFFC, Reti, 0x30);
    gets(&[START, (0x900, Jp(0x900), 0x10), service], 0x01, 1);
}

/// Nearly every address could be marked 10h, but only six are reachable.
#[test]
fn unreachable_code_gets_no_mark() {
    let image = written(2048, &[(0x900, Jrz(0), 0), (0x901, Jp(0xFFB), 0), START]).image;
    let (certificate, levels) = made(&image, 0).unwrap();
    let marked: Vec<usize> = (0..2048).filter(|&index| certificate[index] != 0).collect();
    assert_eq!(marked, [0x100, 0x101, 0x7FB, 0x7FC, 0x7FD, 0x7FE]);
    assert_eq!(levels, 0);
}

#[test]
fn branches_count_both_ways() {
    let jrr = Jrr { bit: 0, address: 0, displacement: 0x20 };
    let jrs = Jrs { bit: 7, address: 0xFF, displacement: -2 };
    gets(
        &[
            START,
            (0x900, Jrc(5), 0x11), // to 906h
            (0x901, Jrnc(-2), 0x11),
            (0x902, jrr, 0x11), // to 924h
            (0x905, Jrz(0), 0x10),
            (0x906, jrs, 0x10),
            (0x909, Jrnz(-16), 0x10), // to 8FAh
            (0x90A, Jp(0x90A), 0x10),
            (0x8FA, Jp(0x8FA), 0x10),
            (0x924, Call(0xA00), 0x11),
            (0x926, Jp(0x926), 0x10),
            (0xA00, Ret, 0x40),
            (0xFFE, Jp(0x900), 0x11),
        ],
        0,
        1,
    );
}

/// Every length of instruction, and sleep, which goes on at the next.
#[test]
fn the_next_address() {
    gets(
        &[
            START,
            (0x900, Stop, 0x10),
            (0x901, Wait, 0x10),
            (0x902, Ldi { address: 1, value: 2 }, 0x10),
            (0x905, LdA(Operand::Direct(9)), 0x10),
            (0x907, LdA(Operand::ByX), 0x10),
            (0x908, Set { bit: 1, address: 3 }, 0x10),
            (0x90A, Addi(5), 0x10),
            (0x90C, Com, 0x10),
            (0x90D, Jp(0x900), 0x10),
        ],
        0,
        0,
    );
}

/// In 4K code goes on from FFFh at 000h.
#[test]
fn over_the_end() {
    let code = [(0xFFE, Com, 0x10), (0xFFF, Addi(1), 0x10), (0x001, Jp(0xFFE), 0x10)];
    gets_in_4k(&code, 0, 0);
    let code = [(0xFFE, Call(0x345), 0x11), (0x000, Jp(0x000), 0x10), (0x345, Ret, 0x40)];
    gets_in_4k(&code, 0, 1);
    let Program { image, certificate, .. } = round_the_end();
    assert_eq!(made(&image, 0), Ok((certificate, 0)));
    assert_eq!(made(&vec![0x04; 4096], 0), Ok((vec![0x10; 4096], 0)));
    assert_eq!(made(&vec![0x04; 2048], 0), Err(NoCertificate));
    assert_eq!(reason(&vec![0x04; 2048], 0), Some(Reason::OutsideRom));
}

/// A CALL's own need is one above its target's, and all that leads to it has
/// that need too; what comes after it does not.
#[test]
fn needs_rise_towards_the_start() {
    gets(
        &[
            (0xFFE, Jp(0x900), 0x13),
            (0x900, Call(0xA00), 0x13),
            (0x902, Call(0xC00), 0x11),
            (0x904, Jp(0x904), 0x10),
            (0xA00, Jrz(0), 0x42),
            (0xA01, Call(0xB00), 0x42),
            (0xA03, Ret, 0x40),
            (0xB00, Call(0xC00), 0x41),
            (0xB02, Ret, 0x40),
            (0xC00, Ret, 0x40),
        ],
        0,
        3,
    );
}

/// A loop needs all over what it needs anywhere.
#[test]
fn loops() {
    gets(
        &[
            (0xFFE, Jp(0x900), 0x11),
            (0x900, Reti, 0x11),
            (0x901, Com, 0x21),
            (0x902, Call(0xA00), 0x21),
            (0x904, Rlc, 0x21),
            (0x905, Jrz(-5), 0x21), // to 901h
            (0x906, Jp(0x906), 0x20),
            (0xA00, Jrz(-1), 0x40), // to itself
            (0xA01, Ret, 0x40),
        ],
        0,
        1,
    );
}

/// A CALL is taken to return, even where its target never does.
#[test]
fn after_a_call() {
    let call = [START, (0x900, Call(0xA00), 0x11), (0xA00, Jp(0xA00), 0x40)];
    let mut with_loop = call.to_vec();
    with_loop[0].2 = 0x11;
    with_loop.push((0x902, Jp(0x902), 0x10));
    gets(&with_loop, 0, 1);
    gets_none(&[&call[..], &[(0x902, Ret, 0)]].concat(), 0, Reason::Misplaced);
}

/// In a subroutine a CALL may have its own next address as its target.
#[test]
fn a_call_of_the_next_address() {
    gets(
        &[
            (0xFFE, Jp(0x900), 0x12),
            (0x900, Call(0xA00), 0x12),
            (0x902, Jp(0x902), 0x10),
            (0xA00, Call(0xA02), 0x41),
            (0xA02, Ret, 0x40),
        ],
        0,
        2,
    );
    gets_none(&[START, (0x900, Call(0x902), 0), (0x902, Jp(0x902), 0)], 0, Reason::TwoKinds);
}

/// Each service needs its own levels; those of the sources don't add up.
#[test]
fn services() {
    let code = [
        (0xFFE, Jp(0x900), 0x11),
        (0x900, Call(0xA00), 0x11),
        (0x902, Jp(0x902), 0x10),
        (0xA00, Ret, 0x40),
        (0xB00, Call(0xA00), 0x41),
        (0xB02, Ret, 0x40),
        (0xFFC, Jp(0xC00), 0x31),
        (0xC00, Call(0xA00), 0x31),
        (0xC02, Reti, 0x30),
        (0xFF6, Jp(0xD00), 0x32),
        (0xD00, Call(0xB00), 0x32),
        (0xD02, Reti, 0x30),
        (0xFF4, Jp(0xD02), 0x30),
    ];
    // 1 in start-up, 1 + 1 for NMI, and 1 + 2 for the sources.
    gets(&code, 0x07, 6);
    let mut deeper = code.to_vec();
    deeper.extend([(0xFF2, Jp(0xE00), 0), (0xE00, Call(0xD80), 0), (0xE02, Reti, 0)]);
    deeper.extend([(0xD80, Call(0xB00), 0), (0xD82, Ret, 0)]);
    gets_none(&deeper, 0x0F, Reason::Levels);
    let image = written(2048, &deeper).image;
    assert_eq!(made(&image, 0x0E).unwrap().1, 5);
    assert_eq!(made(&image, 0x01).unwrap().1, 3);
    assert_eq!(made(&image, 0x00).unwrap().1, 1);
    let marked = |wired| made(&image, wired).unwrap().0.iter().filter(|&&mark| mark != 0).count();
    assert_eq!([0, 1, 4].map(marked), [4, 7, 6]);
}

/// Start-up, then a number of subroutines, each called by the one above it.
fn nested(depth: u16) -> Vec<Line> {
    let need = |level: u16| (depth - level) as u8;
    let mut code = vec![(0xFFE, Jp(0x800), 0x10 | need(0)), (0x802, Jp(0x802), 0x10)];
    for level in 0..depth {
        let kind = if level == 0 { 0x10 } else { 0x40 };
        let at = 0x800 + 0x10 * level;
        code.push((at, Call(at + 0x10), kind | need(level)));
        code.push((at + 0x12, Ret, 0x40));
    }
    code.push((0x800 + 0x10 * depth, Ret, 0x40));
    code
}

/// Six levels are allowed, seven aren't.
#[test]
fn how_deep() {
    for depth in 1..=6 {
        let mut code = nested(depth);
        code.retain(|&(at, ..)| at != 0x802 + 0x10 * depth); // never reached
        gets(&code, 0, depth as u8);
    }
    gets_none(&nested(7), 0, Reason::Need);
    gets_none(&nested(8), 0, Reason::Need);
    let with_services = |depth: u16, wired: u8| {
        let mut code = nested(depth);
        code.extend(VECTORS.map(|vector| (vector, Reti, 0)));
        made(&written(2048, &code).image, wired).map(|(_, levels)| levels)
    };
    assert_eq!(with_services(4, 0x1F), Ok(6));
    assert_eq!(with_services(5, 0x10), Ok(6));
    assert_eq!(with_services(5, 0x01), Ok(6));
    assert_eq!(with_services(5, 0x11), Err(NoCertificate));
    assert_eq!(with_services(6, 0x01), Err(NoCertificate));
    assert_eq!(with_services(6, 0x02), Err(NoCertificate));
    assert_eq!(with_services(6, 0x00), Ok(6));
}

#[test]
fn no_certificate() {
    let halt = (0x902, Jp(0x902), 0);
    let call = (0x900, Call(0xA00), 0);
    for (code, expected) in [
        (&[(0x900, Ret, 0)][..], Reason::Misplaced),
        (&[(0x900, Reti, 0), (0x901, Reti, 0)], Reason::Misplaced),
        (&[call, halt, (0xA00, Reti, 0)], Reason::Misplaced),
        (&[call, halt, (0xA00, Call(0xA00), 0), (0xA02, Ret, 0)], Reason::Need),
        (&[call, halt, (0xA00, Jp(0xB00), 0), (0xB00, Jp(0x902), 0)], Reason::TwoKinds),
        (&[(0x900, Reti, 0), (0x901, Jp(0x900), 0)], Reason::TwoKinds),
        (&[(0x900, Jp(0x7FF), 0)], Reason::OutsideRom),
        (&[(0x900, Call(0x7FF), 0), halt], Reason::OutsideRom),
        (&[(0x900, Jp(0xFFF), 0)], Reason::OutsideRom),
        (&[(0x900, Jp(0x800), 0), (0x800, Jrc(-2), 0), (0x801, Jp(0x801), 0)], Reason::OutsideRom),
    ] {
        gets_none(&[&[START], code].concat(), 0, expected);
    }
    let mut undefined = written(2048, &[START]).image;
    undefined[0x100] = 0x77;
    assert_eq!(reason(&undefined, 0), Some(Reason::Undefined));
    // A service that runs into start-up, and one that ends in RET.
    gets_none(&[(0xFFE, Jp(0xFFE), 0)], 0x01, Reason::TwoKinds);
    gets_none(&[(0xFFE, Jp(0xFFE), 0), (0xFFC, Ret, 0)], 0x01, Reason::Misplaced);
    // The opcode 9Fh at FFFh has its operand at 000h.
    gets_none(&[(0xFFE, Jp(0x9F0), 0), (0x9F0, Jp(0xFFF), 0)], 0, Reason::OutsideRom);
}

/// Where four two-byte instructions stand.
const PLACES: [u16; 4] = [0x800, 0x802, 0x804, 0x806];

/// Start-up begins in the lower two, and the upper two are mostly called.
fn small_program(rng: &mut Rng) -> Vec<u8> {
    let [a, b, c, d] = PLACES;
    let any = rng.pick(&PLACES);
    let (low, high) = (rng.pick(&[a, b]), rng.pick(&[c, d]));
    let code = [
        (0xFFE, Jp(low), 0),
        (a, rng.pick(&[LdiA(0), Call(high), Call(high), Jp(any)]), 0),
        (b, rng.pick(&[Jp(a), Jp(b), Call(high), Jp(any), Ret]), 0),
        (c, rng.pick(&[Ret, Call(d), LdiA(0), Call(any), Jp(any)]), 0),
        (d, rng.pick(&[Ret, Ret, Jp(high), Jp(any)]), 0),
    ];
    written(2048, &code).image
}

/// For small programs all certificates are tried, with needs up to 3 (four
/// instructions can't need more): one is made exactly if one is accepted, and
/// none that is accepted has less.
#[test]
fn among_all_certificates() {
    let marks: Vec<u8> = [0, 0x10, 0x20, 0x30, 0x40]
        .into_iter()
        .flat_map(|kind| (0..4).map(move |need| kind | need))
        .filter(|mark| *mark == 0 || *mark > 3)
        .collect();
    let mut rng = Rng::new(9);
    let mut with = 0;
    for _ in 0..24 {
        let image = small_program(&mut rng);
        let found = least_of_all(&image, &marks);
        assert_eq!(made(&image, 0).ok().map(|(certificate, _)| certificate), found);
        with += found.is_some() as u32;
    }
    assert!((6..18).contains(&with), "{with} of 24 have one");
}

/// Of all accepted certificates of a small program the one that is below all
/// others, tried out.
fn least_of_all(image: &[u8], marks: &[u8]) -> Option<Vec<u8>> {
    let places = [0x000, 0x002, 0x004, 0x006, 0x7FE]; // of 800h to 806h, and FFEh
    let mut certificate = vec![0; 2048];
    let mut least: Option<Vec<u8>> = None;
    for number in 0..marks.len().pow(places.len() as u32) {
        for (power, &place) in (0..).zip(&places) {
            certificate[place] = marks[number / marks.len().pow(power) % marks.len()];
        }
        if check(image, &certificate, 0).is_ok() {
            let before = least.get_or_insert_with(|| certificate.clone());
            *before = before.iter().zip(&certificate).map(|(a, b)| *a.min(b)).collect();
        }
    }
    least
}
