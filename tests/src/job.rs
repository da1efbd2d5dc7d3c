//! The job program: a job's bytes to the printed line.

use crate::check::check;
use crate::Refusal;

/// A job is version 1, a two-byte big-endian count of the bytes after it,
/// the wired byte, the image and the certificate.
pub fn answer(job: &[u8]) -> Result<u8, Refusal> {
    let [version, high, low, rest @ ..] = job else {
        return Err(Refusal::JobShort);
    };
    if *version != 1 {
        return Err(Refusal::JobVersion);
    }
    let count = u16::from_be_bytes([*high, *low]) as usize;
    if count != rest.len() || !(count == 4097 || count == 8193) {
        return Err(Refusal::JobLength);
    }
    let (wired, bytes) = (rest[0], &rest[1..]);
    let (image, certificate) = bytes.split_at(bytes.len() / 2);
    check(image, certificate, wired)
}

/// The line that the job program prints, with its newline.
pub fn line(job: &[u8]) -> String {
    match answer(job) {
        Ok(levels) => format!("accepted {levels}\n"),
        Err(refusal) => match refusal.address() {
            Some(address) => format!("refused {} {address:03X}\n", refusal.number()),
            None => format!("refused {}\n", refusal.number()),
        },
    }
}
