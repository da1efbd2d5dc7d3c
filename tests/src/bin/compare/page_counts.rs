//! Counts what was met of pages in checks, makes, widths, jobs and playings.

use crate::play_counts::{named, not_met};
use second::boundary::{self, REPORT};
use second::check::{check, refusals_by_page};
use second::chip::{BANK, FIXED, HALF, MOST_HALVES};
use second::maker::{reason, REASONS};
use second::play::{report, Call, Outcome};
use second::record::{read, Entry};
use second::Refusal;

const MOST_PAGES: usize = MOST_HALVES - 1;
/// The numbers that a page's code gives at an address. With pages there is a
/// byte at every address, so that 4 never comes.
const RULES: [u8; 4] = [5, 15, 16, 17];
/// What else is to be met with two pages or more, by its name.
#[derive(Clone, Copy)]
enum Other {
    Mark,
    Vector,
    Levels,
    CertificateOfImage,
    BufferOfImage,
    Numbers,
    Greater,
    Lower,
    InFixedHalf,
    Together,
    Stored,
    Changed,
    Width,
    Job,
    Ended,
}
const OTHERS: [&str; 15] = [
    "14",
    "18",
    "19",
    "13 for a certificate as long as the image",
    "25 for a buffer as long as the image",
    "pages that give several numbers at an address",
    "a greater number with an earlier page",
    "a lower address with a later page",
    "refused in the fixed half with a later page",
    "none made, though of page 0 alone one is",
    "playing with a store to 0CAh",
    "playing with steps after one",
    "23 for an accepted certificate",
    "a job's 22",
    "a playing that an entry ended",
];

pub struct PageCounts {
    /// Refused checks with two pages or more, by number and page.
    rules: [[u64; MOST_PAGES]; RULES.len()],
    /// Made certificates, with two pages or more, and reasons behind 26.
    made: u64,
    reasons: [u64; REASONS.len()],
    others: [u64; OTHERS.len()],
}

impl PageCounts {
    pub fn new() -> Self {
        PageCounts {
            rules: [[0; MOST_PAGES]; RULES.len()],
            made: 0,
            reasons: [0; REASONS.len()],
            others: [0; OTHERS.len()],
        }
    }

    /// Counts a call by the second emulator's outcome.
    pub fn add(&mut self, call: &Call, outcome: &Outcome) {
        let number = boundary::number(outcome.answer);
        if let Call::Job { job, .. } = call {
            let paged = (3..=MOST_HALVES).any(|halves| job.len() == 4 + HALF * (halves + 2));
            let refused = outcome.out.bytes().starts_with(b"refused 22\n");
            self.count(Other::Job, paged && refused);
        }
        if call.image().is_none_or(|image| image.len() <= 2 * HALF) || number == 1 {
            return;
        }
        match call {
            Call::Check { image, certificate, .. } => {
                self.add_check(image, certificate, outcome.answer);
            }
            Call::Make { image, wired, out } => self.add_make(image, *wired, out.len(), number),
            Call::Width { image, certificate, .. } if number == 23 => {
                self.count(Other::Width, check(image, certificate, 0).is_ok());
            }
            Call::Play { record, report, .. } if report.len() >= REPORT => {
                self.add_play(record, outcome, number);
            }
            _ => {}
        }
    }

    fn count(&mut self, what: Other, met: bool) {
        self.others[what as usize] += met as u64;
    }

    fn add_check(&mut self, image: &[u8], certificate: &[u8], answer: u64) {
        match boundary::number(answer) {
            14 => self.count(Other::Mark, true),
            18 => self.count(Other::Vector, true),
            19 => self.count(Other::Levels, true),
            13 => self.count(Other::CertificateOfImage, certificate.len() == image.len()),
            number if RULES.contains(&number) => {
                self.add_rule(image, certificate, number, boundary::address(answer));
            }
            _ => {}
        }
    }

    fn add_rule(&mut self, image: &[u8], certificate: &[u8], number: u8, address: u16) {
        let by_page = refusals_by_page(image, certificate, address);
        let numbers: Vec<u8> = by_page.iter().flatten().map(|refusal| refusal.number()).collect();
        let page = by_page.iter().position(Option::is_some).expect("one refuses it");
        assert_eq!(numbers[0], number, "the first page that refuses gives its number");
        let rule = RULES.iter().position(|&rule| rule == number).expect("it is a rule's");
        self.rules[rule][page] += 1;
        self.count(Other::Numbers, numbers.iter().any(|&other| other != number));
        self.count(Other::Greater, numbers.iter().any(|&other| other < number));
        if page > 0 {
            let with_0 = check_page_0(image, certificate);
            self.count(Other::Lower, with_0.is_some_and(|other| other > address));
            self.count(Other::InFixedHalf, address >= FIXED);
        }
    }

    fn add_make(&mut self, image: &[u8], wired: u32, out: usize, number: u8) {
        match number {
            0 => self.made += 1,
            25 => self.count(Other::BufferOfImage, out == image.len()),
            26 => {
                let reason = |image: &[u8]| reason(image, wired as u8);
                self.reasons[reason(image).expect("it has a reason") as usize] += 1;
                self.count(Other::Together, reason(&page_0(image)).is_none());
            }
            _ => {}
        }
    }

    fn add_play(&mut self, record: &[u8], outcome: &Outcome, number: u8) {
        self.count(Other::Ended, matches!(number, 5..=7 | 10 | 11));
        let Ok(entries) = read(record) else { return };
        let played = if matches!(number, 0 | 4..=7 | 10 | 11) { report(outcome).0 } else { 0 };
        let entries = &entries[..played as usize];
        let stores = |entry: &Entry| matches!(entry, Entry::Store { address: BANK, .. });
        let stored = entries.iter().position(stores);
        self.count(Other::Stored, stored.is_some());
        let steps = |entry: &Entry| matches!(entry, Entry::Step { .. });
        let stepped = stored.is_some_and(|first| entries[first..].iter().any(steps));
        self.count(Other::Changed, stepped);
    }

    pub fn print(&self) {
        println!("checks refused, by the page with which that was found");
        for (number, pages) in RULES.iter().zip(&self.rules) {
            println!("  {number:2} {pages:?}");
        }
        let reasons = named(&REASONS.map(|(_, name)| name), &self.reasons);
        println!("makes with two pages or more: made {}, none by {reasons}", self.made);
        println!("with two pages or more: {}", named(&OTHERS, &self.others));
    }

    pub fn print_not_met(&self) {
        let mut missing = not_met("", &OTHERS, &self.others);
        for (number, pages) in RULES.iter().zip(&self.rules) {
            let never = (0..MOST_PAGES).filter(|&page| pages[page] == 0);
            missing.extend(never.map(|page| format!("{number} with page {page}")));
        }
        missing.extend(not_met("", &["made with pages"], &[self.made]));
        // A page has every address.
        let names = REASONS.map(|(_, name)| name);
        let reasons = not_met("none made with pages:", &names, &self.reasons);
        missing.extend(reasons.into_iter().filter(|missing| !missing.contains("outside")));
        if !missing.is_empty() {
            println!("NOT MET: programs with pages: {}", missing.join(", "));
        }
    }
}

/// An image with its first page alone.
fn page_0(image: &[u8]) -> Vec<u8> {
    [&image[..HALF], &image[image.len() - HALF..]].concat()
}

/// The address that is refused with the first page alone.
fn check_page_0(image: &[u8], certificate: &[u8]) -> Option<u16> {
    let refusal = check(&page_0(image), certificate, 0).err()?;
    refusal.address().filter(|_| !matches!(refusal, Refusal::Vector(_)))
}
