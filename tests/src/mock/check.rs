//! A check of images with pages in another way than the second emulator's:
//! what is seen with each page is checked by itself, and the refusal at the
//! lowest address given, of the lowest page there.

use super::bank::{each_seen, halves};
use super::{fault, faulty};
use crate::boundary;

pub fn check(image: &[u8], certificate: &[u8], wired: u32) -> u64 {
    if faulty("paged-13-image") && halves(image).is_some() && certificate.len() != image.len() {
        return 13;
    }
    let cut =
        if faulty("paged-13-image") { certificate.len().min(4096) } else { certificate.len() };
    let answers: Vec<u64> = (each_seen(image).iter())
        .map(|seen| check_seen(seen, &certificate[..cut], wired))
        .collect();
    match (fault(), answers.len()) {
        (Some("paged-check-0"), _) => answers[0],
        (Some("paged-last"), 2..) => first(&answers[..answers.len() - 1]),
        (Some("paged-check-two"), 2..) => first(&answers[..2]),
        (Some("paged-page"), _) => *answers.iter().find(is_rule).unwrap_or(&answers[0]),
        (Some("paged-check-14"), 2..) => malformed(image, certificate).unwrap_or(first(&answers)),
        _ => first(&answers),
    }
}

fn is_rule(answer: &&u64) -> bool {
    matches!(boundary::number(**answer), 4 | 5 | 14..=17)
}

/// The refusal that is given of those with each page.
fn first(answers: &[u64]) -> u64 {
    let rank = |(page, answer): &(usize, &u64)| {
        let number = boundary::number(**answer);
        let page = if faulty("paged-down") { answers.len() - page } else { *page };
        let rule = if faulty("paged-rule") { number.max(5) } else { 0 };
        (boundary::address(**answer), rule, page)
    };
    let rules = answers.iter().enumerate().filter(|(_, answer)| is_rule(answer));
    let lowest = match fault() {
        // FFEh and FFFh have operand bytes in the page.
        Some("paged-check-end") => rules
            .filter(|(page, answer)| *page == 0 || boundary::address(**answer) < 0x800)
            .min_by_key(rank),
        _ => rules.min_by_key(rank),
    };
    lowest.map_or(answers[0], |(_, answer)| *answer)
}

/// The first malformed mark, whatever is wrong below it.
fn malformed(image: &[u8], certificate: &[u8]) -> Option<u64> {
    let bad = |mark: &u8| *mark != 0 && !(matches!(mark >> 4, 1..=4) && mark & 0x0F <= 6);
    let address = certificate.iter().position(bad)?;
    halves(image).filter(|_| certificate.len() == 4096)?;
    Some(14 | (address as u64) << 8)
}

/// The check of what is seen, with the fault.
fn check_seen(image: &[u8], certificate: &[u8], wired: u32) -> u64 {
    let answer = boundary::check(image, certificate, wired);
    if faulty("check-levels") && answer == 19 {
        return 7 << 24;
    }
    if faulty("check-need") && boundary::number(answer) == 17 {
        let index = boundary::address(answer) as usize + image.len() - 0x1000;
        if image[index] & 0x0F == 1 && certificate[index] & 0x0F < 6 {
            let mut mended = certificate.to_vec();
            mended[index] += 1;
            return check_seen(image, &mended, wired);
        }
    }
    answer
}
