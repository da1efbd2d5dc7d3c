//! Document 01's bench cases P1 to P12, the manual's worked examples, and
//! the places where the papers warn of mistakes.

mod bench;
mod certificate;
mod gauge;
mod generator;
mod maker;
mod manual;
mod map;
mod modes;
mod origin;
mod packing;
mod paged;
mod player;
mod services;
mod write_only;

use crate::chip::{Flags, Machine, Mode, SIZES};

/// A 4K image with bytes at an address.
fn image(address: usize, bytes: &[u8]) -> Vec<u8> {
    let mut image = vec![0; 4096];
    image[address..address + bytes.len()].copy_from_slice(bytes);
    image
}

/// A machine in normal mode at an address, with bytes in its data space.
fn machine(pc: u16, data: &[(u8, u8)]) -> Machine {
    let mut machine = Machine { pc, mode: Mode::Normal, ..Machine::default() };
    for &(address, value) in data {
        machine.data[address as usize] = value;
    }
    machine
}

/// One step of bytes at 100h; gives the machine after it.
fn stepped(bytes: &[u8], data: &[(u8, u8)], flags: Flags) -> Machine {
    let mut machine = machine(0x100, data);
    machine.flags[0] = flags;
    let cycles = machine.step(&image(0x100, bytes), 0).unwrap();
    assert_eq!(cycles, SIZES[bytes[0] as usize].cycles as u32);
    machine
}

const CLEAR: Flags = Flags { z: false, c: false };
const BOTH: Flags = Flags { z: true, c: true };

fn flags(z: u8, c: u8) -> Flags {
    Flags { z: z == 1, c: c == 1 }
}

/// P11's image and certificate, byte by byte.
fn p11() -> (Vec<u8>, Vec<u8>) {
    let mut image = vec![0; 2048];
    image[0x080..0x085].copy_from_slice(&[0x4D, 0x01, 0x89, 0x19, 0x88]);
    image[0x090] = 0xCD;
    image[0x7FE..].copy_from_slice(&[0x09, 0x88]);
    image[0x7FC] = 0x4D;
    let mut marks = vec![0; 2048];
    for (address, mark) in
        [(0x7FE, 0x11), (0x080, 0x11), (0x081, 0x21), (0x083, 0x21), (0x090, 0x40), (0x7FC, 0x30)]
    {
        marks[address] = mark;
    }
    (image, marks)
}

fn job(wired: u8, image: &[u8], certificate: &[u8]) -> Vec<u8> {
    let count = (1 + image.len() + certificate.len()) as u16;
    let mut job = vec![1];
    job.extend(count.to_be_bytes());
    job.push(wired);
    job.extend(image);
    job.extend(certificate);
    job
}
