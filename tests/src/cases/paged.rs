//! The 20K part (document 02, W-210), sentence by sentence.

use super::*;
use crate::boundary;
use crate::check::check;
use crate::chip::Instruction::*;
use crate::chip::{decode, DataByte, Instruction, Operand, Origin, Rom, Space, BANK, HALF, WINDOW};
use crate::gauge::gauge;
use crate::generate::{
    dense, filled, misplaced, paged_graph, paged_length, paged_program, place, Rng,
};
use crate::job::line;
use crate::maker::{make, reason, Reason};
use crate::player::play;
use crate::record::{record, RESET, STEP, STORE};
use crate::Refusal::{self, *};

/// An image whose pages and fixed half have bytes at program addresses; the
/// fixed half comes last.
fn halves(pages: &[&[(usize, &[u8])]], fixed: &[(usize, &[u8])]) -> Vec<u8> {
    let length = HALF * (pages.len() + 1);
    let mut image = vec![0; length];
    for (page, code) in pages.iter().chain([&fixed]).enumerate() {
        for (address, bytes) in *code {
            let index = HALF * page + address % HALF;
            image[index..index + bytes.len()].copy_from_slice(bytes);
        }
    }
    image
}

/// Pages that hold their own number, and a fixed half that holds F0h.
fn numbered(pages: usize) -> Vec<u8> {
    let numbers = (0..pages).map(|page| page as u8).chain([0xF0]);
    numbers.flat_map(|number| [number; HALF]).collect()
}

/// A machine at an address with a bank byte.
fn banked(pc: u16, bank: u8) -> Machine {
    machine(pc, &[(BANK, bank)])
}

/// "Take images of 2 to 10 halves of 2,048 bytes", and 2,048 as before.
#[test]
fn lengths() {
    for length in (0..=12 * HALF).step_by(HALF).flat_map(|n| [n.saturating_sub(1), n, n + 1]) {
        let image = vec![0x04; length];
        let good = length % HALF == 0 && (1..=10).contains(&(length / HALF));
        assert_eq!(Rom::new(&image).is_ok(), good, "{length}");
        assert_eq!(decode(&image, 0xFFE, 0).is_ok(), good);
        assert_eq!(Machine::default().step(&image, 0).is_ok(), good);
        assert_eq!(Machine::default().run(&image, &[], 5).is_ok(), good);
        assert_eq!(Machine::default().host_read(&image, 0).is_ok(), good);
        assert_eq!(play(&image, &record(&[STEP, 0])).is_ok(), good);
        assert_eq!(check(&image, &[], 0xFF) == Err(ImageLength), !good);
        assert_eq!(make(&image, 0xFF, &mut []) == Err(ImageLength), !good);
    }
}

/// "Pages first, the fixed half last, seen at 800h. The byte at 0CAh, modulo
/// the number of pages, picks what stands at 000h–7FFh."
#[test]
fn the_bank_byte_picks() {
    for pages in 1..=9 {
        let image = numbered(pages);
        for bank in 0..=255 {
            let rom = Rom::new(&image).unwrap().with_bank(bank);
            for address in [0x000, 0x001, 0x7FF] {
                assert_eq!(rom.byte(address), Some(bank % pages as u8));
            }
            for address in [0x800, 0xFFF] {
                assert_eq!(rom.byte(address), Some(0xF0));
            }
        }
    }
}

/// "Reset clears it, in every machine": an ill-formed one too, whatever image
/// it runs.
#[test]
fn reset_clears_the_bank_byte() {
    for (pc, levels) in [(0x123, 0), (0xFFFF, 0), (0, 7), (0x1000, 255)] {
        let mut m = Machine { levels, ..banked(pc, 0xAB) };
        m.data[0xCB] = 0xCD;
        m.reset();
        assert_eq!((m.data[BANK as usize], m.data[0xCB], m.pc), (0, 0xCD, 0xFFE));
    }
    let mut state = vec![0xFF; boundary::STATE];
    state[259..268].fill(0);
    assert_eq!(boundary::reset(&mut state), 0);
    assert_eq!(state[0xC7..0xCC], [0xFF, 0, 0, 0, 0xFF]);
}

/// "Decoding at an address takes the bank byte too"; one beyond its byte is 8
/// before anything else.
#[test]
fn decoding() {
    let image = halves(&[&[(0x100, &[0x17, 1])], &[(0x100, &[0x17, 2])]], &[(0xABC, &[0x4D])]);
    for bank in 0..=255 {
        assert_eq!(decode(&image, 0x100, bank), Ok(LdiA(1 + bank % 2)));
        assert_eq!(decode(&image, 0xABC, bank), Ok(Reti));
    }
    let mut out = [0; boundary::FIELDS];
    assert_eq!(boundary::decode(&image, 0x100, 3, &mut out), 2 << 24);
    assert_eq!(out[2], 2);
    for bank in [256, 257, 0x1_0000, u32::MAX] {
        for (image, address, out) in [
            (&image[..], 0x100, &mut out[..]),
            (&image[1..], 0x100, &mut []),
            (&image, 0x1000, &mut []),
        ] {
            assert_eq!(boundary::decode(image, address, bank, out), 8);
        }
    }
    assert_eq!(boundary::decode(&image[1..], 0x1000, 255, &mut []), 1);
    assert_eq!(boundary::decode(&image, 0x1000, 255, &mut []), 3);
}

/// Operand bytes come from the page in place, or from the fixed half: after
/// 7FFh comes 800h, and after FFFh 000h of the page.
#[test]
fn seams() {
    let ldi = |address: u8, value: u8| Ldi { address, value };
    let image = halves(
        &[
            &[(0x000, &[0x11, 0x22]), (0x7FE, &[0x0D, 0x33])],
            &[(0x000, &[0x44, 0x55]), (0x7FE, &[0x17, 0x0D])],
        ],
        &[(0x800, &[0x66, 0x77]), (0xFFE, &[0x0D, 0x0D])],
    );
    let decoded = |address: u32, bank: u8| decode(&image, address, bank).unwrap();
    assert_eq!([0, 1].map(|bank| decoded(0x7FE, bank)), [ldi(0x33, 0x66), LdiA(0x0D)]);
    assert_eq!(decoded(0x7FF, 3), ldi(0x66, 0x77));
    assert_eq!([2, 3].map(|bank| decoded(0xFFE, bank)), [ldi(0x0D, 0x11), ldi(0x0D, 0x44)]);
    assert_eq!([4, 5].map(|bank| decoded(0xFFF, bank)), [ldi(0x11, 0x22), ldi(0x44, 0x55)]);
    for (pc, bank, stored, next) in [
        (0x7FE, 0, (0x33, 0x66), 0x801),
        (0x7FF, 1, (0x66, 0x77), 0x802),
        (0xFFF, 4, (0x11, 0x22), 0x002),
        (0xFFF, 7, (0x44, 0x55), 0x002),
    ] {
        // The window can't be stored to, so that 44h and 66h keep nothing.
        let mut m = banked(pc, bank);
        assert_eq!(m.step(&image, 0), Ok(4));
        let (address, value) = stored;
        let kept = if (0x40..0x80).contains(&address) { 0 } else { value };
        assert_eq!((m.data[address as usize], m.pc), (kept, next));
    }
}

/// A step fetches all with the byte as it stands when it begins; the next one
/// is in the other page.
#[test]
fn a_program_changes_its_page() {
    let stores: [&[u8]; 9] = [
        &[0x0D, BANK, 1],    // LDI
        &[0x9F, BANK, 0x04], // LD rr,A
        &[0x87, 0x04, 0x04], // LD (X),A
        &[0x8F, 0x04, 0x04], // LD (Y),A
        &[0x7F, BANK, 0x04], // INC rr
        &[0x67, 0x04, 0x04], // INC (X)
        &[0x6F, 0x04, 0x04], // INC (Y)
        &[0x1B, BANK, 0x04], // SET 0
        &[0xFF, BANK, 0x04], // DEC: 255 is 1 modulo 2
    ];
    for store in stores {
        let length = SIZES[store[0] as usize].length as u16;
        let next = 0x200 + length as usize;
        // In page 0 the store and then RETI, in page 1 nothing and then LDI A.
        let image = halves(&[&[(0x200, store), (next, &[0x4D])], &[(next, &[0x17, 0x99])]], &[]);
        let mut m = machine(0x200, &[(0x80, BANK), (0x81, BANK), (0xFF, 1)]);
        assert_eq!(m.clone().step(&image, 0).map(|_| ()), Ok(()));
        let report = m.run(&image, &[], 2).unwrap();
        assert_eq!((report.steps, report.stop), (2, None), "{store:02X?}");
        assert_eq!((m.data[0xFF], m.pc), (0x99, next as u16 + 2));
    }
    // RES of bit 0 and DEC go from page 1 to page 0.
    for store in [[0x0B, BANK], [0xFF, BANK]] {
        let image = halves(&[&[(0x202, &[0x17, 0x77])], &[(0x200, &store)]], &[]);
        let mut m = banked(0x200, 1);
        m.run(&image, &[], 2).unwrap();
        assert_eq!((m.data[BANK as usize], m.data[0xFF]), (0, 0x77));
    }
}

/// The host may change it at any time; 0CAh reads back as stored.
#[test]
fn the_host_changes_the_page() {
    let image = numbered(9);
    let mut m = banked(0x900, 0);
    for value in 0..=255 {
        m.host_store(BANK, value).unwrap();
        assert_eq!(
            m.host_read(&image, BANK),
            Ok(DataByte { byte: value, origin: Origin::Register })
        );
        let shown = DataByte { byte: value % 9, origin: Origin::Rom(0x000) };
        assert_eq!(m.host_read(&image, 0x40), Ok(shown));
    }
}

/// "The data window shows program space as it then stands, and W-203's ROM
/// address is the program address, below 1000h."
#[test]
fn the_window() {
    let image = numbered(9);
    for bank in [0, 1, 8, 9, 255] {
        for (window, address, byte) in [
            (0x00, 0x000, bank % 9),
            (0x1F, 0x7C0, bank % 9),
            (0x20, 0x800, 0xF0),
            (0x3F, 0xFC0, 0xF0),
        ] {
            let mut m = machine(0x123, &[(BANK, bank), (WINDOW, window)]);
            let origin = Origin::Rom(address + 5);
            assert_eq!(m.host_read(&image, 0x45), Ok(DataByte { byte, origin }));
            let mut code = image.clone();
            code[place(image.len(), bank as usize % 9, 0x123)..][..2]
                .copy_from_slice(&[0x1F, 0x45]);
            assert_eq!(m.traced_step(&code, 0).unwrap().origin, Some(origin));
            assert_eq!(m.data[0xFF], byte);
        }
    }
}

/// "With one page all equals the 4K machine": the bank byte picks the only
/// page. A 2K image has none, and the byte drives nothing.
#[test]
fn one_page_and_none() {
    let mut rng = Rng::new(5);
    for length in [2048, 4096] {
        let image = filled(&mut rng, length);
        for bank in 0..=255u8 {
            let pc = rng.below(0x1000) as u16;
            assert_eq!(decode(&image, pc as u32, bank), decode(&image, pc as u32, 0));
            let (mut with, mut without) = (banked(pc, bank), banked(pc, 0));
            assert_eq!(with.step(&image, 0), without.step(&image, 0));
            assert_eq!(with.pc, without.pc);
        }
    }
    assert_eq!(decode(&[0x04; 2048], 0x7FF, 1), Err(OutsideRom(0x7FF)));
    let m = machine(0x900, &[(BANK, 1)]);
    let nothing = DataByte { byte: 0, origin: Origin::Nothing };
    assert_eq!(m.host_read(&[0x04; 2048], 0x40), Ok(nothing));
}

type Lines<'a> = &'a [(u16, Instruction, u8)];

/// An image with instructions in each page and in the fixed half, and 4,096
/// marks.
fn marked(pages: &[Lines], fixed: Lines) -> (Vec<u8>, Vec<u8>) {
    let (mut image, mut marks) = (vec![0; HALF * (pages.len() + 1)], vec![0; 4096]);
    for (page, lines) in pages.iter().chain([&fixed]).enumerate() {
        for &(address, instruction, mark) in *lines {
            let index = HALF * page + address as usize % HALF;
            crate::chip::write(instruction, &mut image[index..]).unwrap();
            marks[address as usize] |= mark;
        }
    }
    (image, marks)
}

const START: Lines = &[(0xFFE, Jp(0x100), 0x10)];
const LOOP: Lines = &[(0x100, Jp(0x100), 0x10)];

/// "Their certificates are 4,096 marks": 13 and 25 are measured so.
#[test]
fn certificates_have_4096_marks() {
    for pages in 1..=9 {
        let (image, marks) = marked(&vec![LOOP; pages], START);
        assert_eq!(check(&image, &marks, 0), Ok(0));
        let mut made = vec![0xEE; 4096];
        assert_eq!(make(&image, 0, &mut made), Ok(0));
        assert_eq!(made, marks);
        for length in [0, 2048, 4095, 4097, 6144, HALF * (pages + 1), 20480] {
            if length != 4096 {
                let mut other = marks.clone();
                other.resize(length, 0);
                assert_eq!(check(&image, &other, 0xFF), Err(CertificateLength), "{pages} {length}");
                assert_eq!(make(&image, 0x20, &mut other), Err(Request));
                assert_eq!(make(&image, 0, &mut other), Err(CertificateBuffer));
            }
        }
    }
}

/// "A mark must meet all its rules with page 0 in place, then all with the
/// next, to the last": address, then page, then rule; 14 comes once, before
/// them.
#[test]
fn the_order_of_the_check() {
    let refused = |pages: &[Lines], marks: &[(usize, u8)]| {
        let (image, mut all) = marked(pages, START);
        for &(address, mark) in marks {
            all[address] = mark;
        }
        check(&image, &all, 0)
    };
    let undefined: Lines = &[(0x100, Ldi { address: 0x05, value: 0 }, 0x10)];
    let ret: Lines = &[(0x100, Ret, 0x10)];
    let off: Lines = &[(0x100, Jp(0x700), 0x10)];
    // Page 0 refuses with 16, page 1 with 15: page 0's is given, and so on.
    assert_eq!(refused(&[LOOP, LOOP, LOOP], &[]), Ok(0));
    assert_eq!(refused(&[off, ret, LOOP], &[]), Err(Successor(0x100)));
    assert_eq!(refused(&[ret, off, LOOP], &[]), Err(Placement(0x100)));
    assert_eq!(refused(&[LOOP, LOOP, off], &[]), Err(Successor(0x100)));
    assert_eq!(refused(&[LOOP, ret, off], &[]), Err(Placement(0x100)));
    assert_eq!(refused(&[LOOP, off, undefined], &[]), Err(Successor(0x100)));
    // A need that is too small with page 0 comes before what page 1 lacks.
    let deeper: Lines = &[(0x100, Jp(0x200), 0x10), (0x200, Jp(0x200), 0x11)];
    let calm: Lines = &[(0x100, Jp(0x100), 0x10), (0x200, Jp(0x200), 0x11)];
    assert_eq!(refused(&[deeper, ret], &[]), Err(Need(0x100)));
    assert_eq!(refused(&[calm, deeper], &[]), Err(Need(0x100)));
    // A lower address with a later page comes before a higher one with page 0.
    let low: Lines = &[(0x100, Ret, 0x10), (0x200, Jp(0x200), 0x10)];
    let high: Lines = &[(0x100, Jp(0x100), 0x10), (0x200, Ret, 0x10)];
    assert_eq!(refused(&[high, low], &[]), Err(Placement(0x100)));
    assert_eq!(refused(&[low, high], &[]), Err(Placement(0x100)));
    // 14 at an address comes before its rules, but after those of lower ones.
    assert_eq!(refused(&[ret, off], &[(0x100, 0x17)]), Err(Mark(0x100)));
    assert_eq!(refused(&[LOOP, ret], &[(0x200, 0x50)]), Err(Placement(0x100)));
    // Vectors and levels come last, and once.
    assert_eq!(refused(&[LOOP, LOOP], &[(0xFFE, 0)]), Err(Vector(0xFFE)));
}

/// The fixed half is held to its rules with every page too: what stands at
/// FFFh has its operand in the page.
#[test]
fn the_end_of_the_fixed_half() {
    let fixed: Lines = &[(0xFFE, Jrz(0), 0x10), (0xFFF, Com, 0x10)];
    let page = |second: u8| -> (Vec<u8>, Vec<u8>) {
        let lines: Lines = &[(0x100, Jp(0x100), 0x10)];
        let (mut image, marks) = marked(&[lines, lines], fixed);
        image[3 * HALF - 1] = 0x09; // JP xx0h
        (image[0], image[HALF]) = (0x10, second);
        (image, marks)
    };
    let (image, marks) = page(0x10);
    assert_eq!(check(&image, &marks, 0), Ok(0));
    let (image, marks) = page(0x11);
    assert_eq!(check(&image, &marks, 0), Err(Successor(0xFFF)));
    // The maker follows both: 110h of both pages is reached, JRNZs up to 800h.
    let mut made = vec![0; 4096];
    assert_eq!(make(&image, 0, &mut made), Ok(0));
    assert_eq!((made[0x0FF], made[0x100], made[0x101], made[0x110]), (0, 0x10, 0, 0x10));
    assert_eq!(check(&image, &made, 0), Ok(0));
}

/// The maker's reach is the union over the pages, and the least needs are for
/// all of them.
#[test]
fn the_union_of_the_pages() {
    let calls: Lines = &[(0x100, Call(0x200), 0x11), (0x102, Jp(0x100), 0x11), (0x200, Ret, 0x40)];
    let jumps: Lines = &[(0x100, Jp(0x102), 0), (0x102, Jp(0x300), 0), (0x300, Jp(0x300), 0x10)];
    let returns: Lines = &[(0x200, Ret, 0)];
    let both = [jumps, returns].concat();
    let with_300 = [calls, &[(0x300, Jp(0x300), 0)]].concat();
    let (image, mut marks) = marked(&[&with_300, &both], START);
    marks[0xFFE] = 0x11;
    let mut made = vec![0; 4096];
    assert_eq!(make(&image, 0, &mut made), Ok(1));
    assert_eq!(made, marks);
    assert_eq!(check(&image, &marks, 0), Ok(1));
}

/// 26 exactly where no certificate would be accepted: pages that have one each
/// may have none together.
#[test]
fn none_for_the_union() {
    let two = |first: Instruction, second: Instruction| {
        let start = [(0x100, Call(0x200), 0), (0x102, Jp(0x100), 0)];
        let called = [(0x200, first, 0), (0x202, Ret, 0), (0x300, second, 0), (0x302, Ret, 0)];
        [&start[..], &called].concat()
    };
    let (on, back) = (&two(Call(0x300), LdiA(0))[..], &two(LdiA(0), Call(0x200))[..]);
    let jump: Lines = &[(0x100, Jp(0x200), 0), (0x102, Jp(0x100), 0), (0x200, Ret, 0)];
    let made = |pages: &[Lines]| {
        let image = marked(pages, START).0;
        (make(&image, 0, &mut vec![0; 4096]), reason(&image, 0))
    };
    assert_eq!(made(&[on, on]), (Ok(2), None));
    assert_eq!(made(&[back, back, back]), (Ok(1), None));
    assert_eq!(made(&[on, back]), (Err(NoCertificate), Some(Reason::Need)));
    assert_eq!(made(&[back, back, on]), (Err(NoCertificate), Some(Reason::Need)));
    assert_eq!(made(&[back, jump]).0, Err(NoCertificate));
}

/// "Jobs and the gauge stay unpaged; in the gauge an image above 4,096 bytes
/// gives 23."
#[test]
fn jobs_and_the_gauge() {
    let sleeps: Lines = &[(0x100, Stop, 0x10), (0x101, Jp(0x101), 0x10)];
    for pages in 1..=9 {
        let (image, marks) = marked(&vec![sleeps; pages], START);
        assert_eq!(check(&image, &marks, 0), Ok(0));
        let gauged = gauge(&image, &marks, 7).map(|gauged| gauged.steps);
        assert_eq!(gauged, if pages == 1 { Ok(2) } else { Err(NotAccepted) });
        let printed = if pages == 1 { "accepted 0\n" } else { "refused 22\n" };
        assert_eq!(line(&job(0, &image, &marks)), printed);
        assert_eq!(boundary::width(&image, &marks, 256), 8);
    }
    assert_eq!(gauge(&[0; 4097], &[], 0), Err(NotAccepted));
    assert_eq!(gauge(&[0; 22528], &[], 0), Err(NotAccepted));
}

/// A playing starts with page 0, and stores of the host change it.
#[test]
fn playing_with_pages() {
    let image =
        halves(&[&[(0x100, &[0x17, 1])], &[(0x100, &[0x17, 2])]], &[(0xFFE, &[0x09, 0x10])]);
    let a = |entries: &[u8]| play(&image, &record(entries)).unwrap().machine.data[0xFF];
    assert_eq!(a(&[STEP, 0, STEP, 0]), 1);
    assert_eq!(a(&[STORE, BANK, 3, STEP, 0, STEP, 0]), 2);
    assert_eq!(a(&[STEP, 0, STORE, BANK, 0xFF, STEP, 0]), 2);
    assert_eq!(a(&[STORE, BANK, 1, RESET, STEP, 0, STEP, 0]), 1);
}

/// What the generators make has the certificate that goes with it, or too
/// many levels, for every number of pages.
#[test]
fn generated_programs_with_pages() {
    let mut rng = Rng::new(7);
    let mut seen = [0; 8];
    for round in 0..600 {
        let length = HALF * (2 + round % 9);
        let p = paged_program(&mut rng, length);
        assert_eq!((p.image.len(), p.certificate.len()), (length, 4096));
        match check(&p.image, &p.certificate, p.wired) {
            Ok(levels) => seen[levels as usize] += 1,
            Err(TooManyLevels) => seen[7] += 1,
            Err(other) => panic!("{other:?}"),
        }
        let p = dense(&mut rng, length);
        assert!(p.certificate.iter().all(|&mark| mark != 0));
        check(&p.image, &p.certificate, p.wired).unwrap();
    }
    assert!(seen.iter().all(|&count| count > 0), "{seen:?}");
}

/// Call graphs have a certificate or none, some only because pages change;
/// misplaced code is refused with pages of every number.
#[test]
fn graphs_and_misplaced_code() {
    let mut rng = Rng::new(7);
    let (mut made, mut need, mut levels, mut changed) = (0, 0, 0, 0);
    for _ in 0..1000 {
        let length = paged_length(&mut rng);
        let p = paged_graph(&mut rng, length);
        let alone = (0..p.pages()).all(|page| {
            let from = HALF * page;
            let one = [&p.image[from..from + HALF], &p.image[length - HALF..]].concat();
            reason(&one, p.wired).is_none()
        });
        match reason(&p.image, p.wired) {
            None => made += 1,
            Some(Reason::Need) => need += 1,
            Some(Reason::Levels) => levels += 1,
            other => panic!("{other:?}"),
        }
        changed += (alone && reason(&p.image, p.wired).is_some()) as u32;
    }
    assert!(
        made > 200 && need > 50 && levels > 50 && changed > 50,
        "{made} {need} {levels} {changed}"
    );
    let mut refused = 0;
    for _ in 0..500 {
        let mut p = paged_program(&mut rng, 10 * HALF);
        misplaced(&mut rng, &mut p);
        refused +=
            check(&p.image, &p.certificate, p.wired).is_err_and(|e| e != TooManyLevels) as u32;
    }
    assert!(refused > 200, "{refused}");
}

/// Demand 3, tried out under any bank changes: no stop, and no more levels
/// than the check says.
#[test]
fn accepted_programs_never_stop_with_pages() {
    let mut rng = Rng::new(8);
    let mut changes = 0;
    for _ in 0..300 {
        let length = paged_length(&mut rng);
        let p = paged_program(&mut rng, length);
        let Ok(levels) = check(&p.image, &p.certificate, p.wired) else { continue };
        let mut m = Machine::default();
        for _ in 0..3000 {
            let before = m.data[BANK as usize];
            if rng.chance(5) {
                m.host_store(BANK, rng.byte()).unwrap();
            }
            let request = rng.byte() & p.wired & if rng.chance(20) { 0xFF } else { 0 };
            m.step(&p.image, request).unwrap();
            assert!(m.levels <= levels);
            changes += (m.data[BANK as usize] != before) as u32;
        }
    }
    assert!(changes > 10_000, "{changes}");
}

/// A short operand never reaches the bank byte, and every other may.
#[test]
fn operands_that_reach_the_bank_byte() {
    let image = halves(&[&[(0x100, &[0x1F, BANK])], &[]], &[]);
    let mut m = banked(0x100, 4);
    assert_eq!(m.traced_step(&image, 0).unwrap().origin, Some(Origin::Register));
    assert_eq!((m.data[0xFF], decode(&image, 0x100, 4)), (4, Ok(LdA(Operand::Direct(BANK)))));
    let refusal: Result<u32, Refusal> = banked(0x1000, 1).step(&image, 0);
    assert_eq!(refusal, Err(IllFormed));
}
