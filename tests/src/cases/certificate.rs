//! The order in which the check and a job are refused.

use super::*;
use crate::check::check;
use crate::job::line;
use crate::Refusal::*;

#[test]
fn check_order() {
    let (image, marks) = p11();
    let with = |changes: &[(usize, u8)], wired: u8| {
        let mut marks = marks.clone();
        for &(address, mark) in changes {
            marks[address - 0x800] = mark;
        }
        check(&image, &marks, wired)
    };
    assert_eq!(check(&image, &marks[1..], 0xFF), Err(CertificateLength));
    assert_eq!(with(&[(0x800, 0x01)], 0x20), Err(Request));
    assert_eq!(with(&[(0x800, 0x01)], 1), Err(Mark(0x800)));
    assert_eq!(with(&[(0x800, 0x17)], 1), Err(Mark(0x800)));
    assert_eq!(with(&[(0x800, 0x50)], 1), Err(Mark(0x800)));
    // A malformed successor counts as such at the instruction met first.
    assert_eq!(with(&[(0x883, 0x27)], 1), Err(Successor(0x881)));
    assert_eq!(with(&[(0x890, 0x20)], 1), Err(Successor(0x881)));
    assert_eq!(with(&[(0x890, 0x20), (0x881, 0), (0x883, 0)], 1), Err(Successor(0x880)));
    assert_eq!(with(&[(0x880, 0x41)], 1), Err(Placement(0x880)));
    assert_eq!(with(&[(0x880, 0x31)], 1), Err(Successor(0xFFE)));
    assert_eq!(with(&[(0x881, 0x20)], 1), Err(Need(0x881)));
    assert_eq!(with(&[(0xFFC, 0)], 1), Err(Vector(0xFFC)));
    assert_eq!(with(&[(0xFFC, 0)], 0), Ok(1));
    assert_eq!(with(&[], 0x03), Err(Vector(0xFF6)));
    assert_eq!(with(&[], 0x1E), Err(Vector(0xFF6)));
    assert_eq!(with(&[], 0x18), Err(Vector(0xFF2)));
    assert_eq!(check(&image, &vec![0; 2048], 0x1F), Err(Vector(0xFFE)));
}

#[test]
fn jobs() {
    let (image, marks) = p11();
    let good = job(1, &image, &marks);
    assert_eq!(line(&[]), "refused 20\n");
    assert_eq!(line(&[2, 0]), "refused 20\n");
    assert_eq!(line(&[2, 0, 0]), "refused 21\n");
    assert_eq!(line(&[1, 0, 0]), "refused 22\n");
    assert_eq!(line(&good[..good.len() - 1]), "refused 22\n");
    let mut long = good.clone();
    long.push(0);
    assert_eq!(line(&long), "refused 22\n");
    let mut wired = good.clone();
    wired[3] = 0x80;
    assert_eq!(line(&wired), "refused 11\n");
    let mut vector = good.clone();
    vector[3] = 0x02;
    assert_eq!(line(&vector), "refused 18 FF6\n");
}
