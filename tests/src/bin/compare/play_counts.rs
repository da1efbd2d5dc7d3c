//! Counts what the player answered.

use second::boundary;
use second::play::{report, OneByOne, Outcome};
use second::record::{body, read, Entry, Fault, LEAST_2, MOST_1, MOST_2, VERSION_2};

/// What `play` answers: done, the lent buffers, an entry's own refusal or
/// stop, and what is wrong with the image or the record.
const ANSWERS: [usize; 14] = [0, 1, 2, 4, 5, 6, 7, 9, 10, 11, 27, 28, 29, 30];
/// The numbers of entries that end a playing.
const ENDS: [u8; 6] = [4, 5, 6, 7, 10, 11];
const PLACES: [&str; 4] = ["first", "second", "middle", "last"];
/// What is wrong with a record, with names to print, in the enum's order; then
/// what is wrong with the entries of version 2.
const FAULTS: [&str; 13] = [
    "28 short",
    "27 version",
    "28 count",
    "28 short version 2",
    "28 count of version 2",
    "28 too few for version 2",
    "30 too many",
    "29 unknown",
    "29 cut step",
    "29 cut store",
    "29 unknown in version 2",
    "29 cut step in version 2",
    "29 cut store in version 2",
];
/// How many of them are of entries.
const ENTRY_FAULTS: usize = 3;
const LENGTHS: [&str; 5] = ["none", "one", "many", "most of version 1", "most of version 2"];
const BYTES: [&str; 5] =
    ["fewer", "most of version 1", "least of version 2", "between", "most of version 2"];
const KINDS: [&str; 5] = ["idle step", "taken request", "executed step", "store", "reset"];
/// What no record of version 1 reaches: a number of entries, also where a
/// later one ends the playing, and a sum of cycles.
const BEYOND: [&str; 3] = ["more entries", "ended later", "more cycles"];
/// As many steps as fit into version 1, with the most cycles that each can have.
const MOST_CYCLES_1: u32 = MOST_1 as u32 / 2 * 5;

/// Of the records of one version.
#[derive(Default)]
struct VersionCounts {
    /// Those that an entry ended, by its number and its place.
    ends: [[u64; PLACES.len()]; ENDS.len()],
    /// Entries that were played, also those before one that ended it.
    kinds: [u64; KINDS.len()],
    /// Those whose entries were also called one by one.
    one_by_one: u64,
    /// Those that demand 3 speaks of.
    demand3: u64,
}

pub struct PlayCounts {
    /// By number.
    answers: [u64; 256],
    faults: [u64; FAULTS.len()],
    /// Whole ones by the number of entries, and by the bytes of the entries.
    lengths: [u64; LENGTHS.len()],
    bytes: [u64; BYTES.len()],
    beyond: [u64; BEYOND.len()],
    versions: [VersionCounts; 2],
}

impl PlayCounts {
    pub fn new() -> Self {
        PlayCounts {
            answers: [0; 256],
            faults: [0; FAULTS.len()],
            lengths: [0; LENGTHS.len()],
            bytes: [0; BYTES.len()],
            beyond: [0; BEYOND.len()],
            versions: Default::default(),
        }
    }

    pub fn add(&mut self, record: &[u8], outcome: &Outcome) {
        let number = boundary::number(outcome.answer);
        self.answers[number as usize] += 1;
        match read(record) {
            Err(fault) if matches!(number, 27..=30) => self.add_fault(record, fault),
            Ok(entries) if number == 0 => {
                self.add_whole(record, entries.len());
                self.add_beyond(outcome, false);
            }
            Ok(entries) if ENDS.contains(&number) => {
                self.add_end(record, number, report(outcome).0 as usize, entries.len());
                self.add_beyond(outcome, true);
            }
            _ => {}
        }
    }

    fn add_fault(&mut self, record: &[u8], fault: Fault) {
        let of_entry = body(record).is_ok();
        let more = if of_entry { version(record) * ENTRY_FAULTS } else { 0 };
        self.faults[fault as usize + more] += 1;
    }

    fn add_whole(&mut self, record: &[u8], entries: usize) {
        let length = match entries {
            0 => 0,
            1 => 1,
            MOST_1 => 3,
            MOST_2 => 4,
            _ => 2,
        };
        self.lengths[length] += 1;
        let bytes = match body(record).expect("it was played").len() {
            MOST_1 => 1,
            LEAST_2 => 2,
            MOST_2 => 4,
            fewer if fewer < MOST_1 => 0,
            _ => 3,
        };
        self.bytes[bytes] += 1;
    }

    fn add_end(&mut self, record: &[u8], number: u8, entry: usize, entries: usize) {
        let end = ENDS.iter().position(|&end| end == number).expect("it is one of them");
        let place = match entry {
            0 => 0,
            1 => 1,
            _ if entry + 1 < entries => 2,
            _ => 3,
        };
        self.versions[version(record)].ends[end][place] += 1;
    }

    fn add_beyond(&mut self, outcome: &Outcome, ended: bool) {
        let (entries, cycles) = report(outcome);
        let many = entries > MOST_1 as u32;
        for (count, met) in
            self.beyond.iter_mut().zip([many, many && ended, cycles > MOST_CYCLES_1])
        {
            *count += met as u64;
        }
    }

    /// Counts the entries of a record that were called one by one.
    pub fn add_entries(&mut self, record: &[u8], one_by_one: &OneByOne) {
        let counts = &mut self.versions[version(record)];
        let (played, _) = report(&one_by_one.outcome);
        let entries = read(record).expect("it was played");
        for entry in &entries[..played as usize] {
            match entry {
                Entry::Step { .. } => {}
                Entry::Store { .. } => counts.kinds[3] += 1,
                Entry::Reset => counts.kinds[4] += 1,
            }
        }
        for (count, steps) in counts.kinds.iter_mut().zip(one_by_one.steps) {
            *count += steps;
        }
        counts.one_by_one += 1;
    }

    /// Counts a playing of which demand 3 was seen to hold.
    pub fn add_demand3(&mut self, record: &[u8]) {
        self.versions[version(record)].demand3 += 1;
    }

    pub fn print(&self) {
        println!("whole records by entries: {}", named(&LENGTHS, &self.lengths));
        println!("whole records by bytes after the header: {}", named(&BYTES, &self.bytes));
        println!("records refused: {}", named(&FAULTS, &self.faults));
        println!("playings beyond version 1: {}", named(&BEYOND, &self.beyond));
        for (counts, version) in self.versions.iter().zip(1..) {
            println!("entries of version {version} played: {}", named(&KINDS, &counts.kinds));
            println!("records of version {version} that an entry ended, by its place:");
            for (number, places) in ENDS.iter().zip(&counts.ends) {
                println!("  {number:2} {}", named(&PLACES, places));
            }
            let VersionCounts { one_by_one, demand3, .. } = counts;
            let playings = format!("playings of version {version}");
            println!("{playings} also called entry by entry, all the same: {one_by_one}");
            println!("{playings} that demand 3 speaks of, all as it says: {demand3}");
        }
    }

    pub fn print_not_met(&self) {
        let answers: Vec<usize> =
            ANSWERS.into_iter().filter(|&number| self.answers[number] == 0).collect();
        if !answers.is_empty() {
            println!("NOT MET: answers of play {answers:?}");
        }
        let mut missing = not_met("record", &FAULTS, &self.faults);
        missing.extend(not_met("entries", &LENGTHS, &self.lengths));
        missing.extend(not_met("bytes", &BYTES, &self.bytes));
        missing.extend(not_met("beyond version 1", &BEYOND, &self.beyond));
        for (counts, version) in self.versions.iter().zip(1..) {
            let of_version = |missing: String| format!("version {version} {missing}");
            missing.extend(counts.not_met().into_iter().map(of_version));
        }
        if !missing.is_empty() {
            println!("NOT MET: playings: {}", missing.join(", "));
        }
    }
}

impl VersionCounts {
    fn not_met(&self) -> Vec<String> {
        let mut missing = not_met("played", &KINDS, &self.kinds);
        for (number, places) in ENDS.iter().zip(&self.ends) {
            // Six levels take more than two entries.
            let from = if *number == 6 { 2 } else { 0 };
            let title = format!("ended by {number}");
            missing.extend(not_met(&title, &PLACES[from..], &places[from..]));
        }
        let others = [self.one_by_one, self.demand3];
        missing.extend(not_met("", &["entry by entry", "demand 3"], &others));
        missing
    }
}

/// The place of a record's version: 0 for version 1, 1 for version 2.
fn version(record: &[u8]) -> usize {
    (record.first() == Some(&VERSION_2)) as usize
}

pub fn named(names: &[&str], counts: &[u64]) -> String {
    let counted = names.iter().zip(counts).map(|(name, count)| format!("{name} {count}"));
    counted.collect::<Vec<String>>().join(", ")
}

/// What was never met, each with a title.
pub fn not_met(title: &str, names: &[&str], counts: &[u64]) -> Vec<String> {
    let missing = names.iter().zip(counts).filter(|(_, &count)| count == 0);
    missing.map(|(name, _)| format!("{title} {name}").trim().to_string()).collect()
}
