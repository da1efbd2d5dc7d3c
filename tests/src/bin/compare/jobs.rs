//! Jobs.

use crate::certificates::checked_program;
use crate::harness::Harness;
use second::boundary;
use second::check::check;
use second::generate::{dense, image_length, p11, program, Program, Rng};
use second::play::Call;
use second::Refusal;
use std::borrow::Cow::{Borrowed, Owned};

pub fn jobs(h: &mut Harness, count: usize) {
    short_jobs(h);
    let mut marked = dense(&mut h.rng, 2048);
    for index in 0..count {
        if index % 64 == 0 {
            let length = image_length(&mut h.rng);
            marked = dense(&mut h.rng, length);
        }
        let valid = program(&mut h.rng);
        let program = checked_program(&mut h.rng, &valid, &marked);
        let mut job = job_of(&program);
        if h.rng.chance(30) {
            damage(&mut h.rng, &mut job);
        }
        let line = if h.rng.chance(85) { 64 } else { h.rng.below(18) };
        h.compare(Call::Job { job: Owned(job), line });
    }
}

fn short_jobs(h: &mut Harness) {
    for short in [
        &[][..],
        &[1],
        &[1, 16],
        &[0, 0],
        &[1, 16, 1],
        &[2, 16, 1],
        &[1, 0, 0],
        &[1, 0, 1, 0],
        &[0, 0, 0],
        &[255, 255, 255],
    ] {
        for line in [0, 10, 11, 16, 64] {
            h.compare(Call::Job { job: Borrowed(short), line });
        }
    }
}

/// Also of a program with pages, which is none.
pub fn job_of(program: &Program) -> Vec<u8> {
    let count = (1 + program.image.len() + program.certificate.len()) as u16;
    let mut job = vec![1];
    job.extend(count.to_be_bytes());
    job.push(program.wired);
    job.extend(&program.image);
    job.extend(&program.certificate);
    job
}

/// Changes a byte before the image, or the length.
fn damage(rng: &mut Rng, job: &mut Vec<u8>) {
    match rng.below(8) {
        0 => job[0] = rng.byte(),
        1 => job[1] = rng.byte(),
        2 => job[2] = rng.byte(),
        3 => job[3] = rng.byte(),
        4 => job.push(0),
        5 => drop(job.pop()),
        6 => job.truncate(rng.below(10)),
        _ => {
            // Another length, with the count that goes with it.
            let length = rng.pick(&[4, 4096, 4099, 6000, 8195, 8197, 10_244, 12_000, 24_580]);
            job.resize(length, 0);
            let count = (length - 3) as u16;
            job[1..3].copy_from_slice(&count.to_be_bytes());
        }
    }
}

/// Document 01's printed cases, through both implementations.
pub fn bench_cases(h: &mut Harness) {
    let mut program = p11(2048);
    for (mark, expected) in [(0x21, "accepted 2\n"), (0x20, "refused 17 883\n")] {
        program.certificate[0x083] = mark;
        let outcome = h.compare(Call::Job { job: Owned(job_of(&program)), line: 64 });
        assert_eq!(&outcome.out.bytes()[..expected.len()], expected.as_bytes());
        assert_eq!(boundary::value(outcome.answer) as usize, expected.len());
    }
    assert_eq!(check(&program.image, &program.certificate, 1), Err(Refusal::Need(0x883)));
}
