//! Counts where data bytes came from, in steps and in reads.

use crate::counts::listed;
use crate::opcode_map::{different_operations, operand_address, reads, KINDS, SHORT};
use second::boundary::{self, FIELDS, FORMS, FORM_NAMES, ORIGIN_NAMES};
use second::chip::{BANK, HALF, SPACE};

/// What `read` answers: done, or one of its refusals.
const ANSWERS: [usize; 4] = [0, 1, 2, 8];

type ByOrigin = [u64; ORIGIN_NAMES.len()];

pub struct OriginCounts {
    /// Executed instructions by form and kind of operand.
    executed: [[ByOrigin; KINDS.len()]; FORMS],
    /// Taken requests and idle steps.
    not_executed: u64,
    reads: ByOrigin,
    /// By number.
    answers: [u64; 256],
    /// ROM addresses that were told, in 2K, 4K and longer images.
    by_steps: Addresses,
    by_reads: Addresses,
}

impl OriginCounts {
    pub fn new() -> Self {
        OriginCounts {
            executed: [[[0; ORIGIN_NAMES.len()]; KINDS.len()]; FORMS],
            not_executed: 0,
            reads: [0; ORIGIN_NAMES.len()],
            answers: [0; 256],
            by_steps: Addresses::none(),
            by_reads: Addresses::none(),
        }
    }

    /// Counts a step of the second emulator. It must tell what reading its
    /// operand before it tells.
    pub fn add_step(&mut self, image: &[u8], state: &[u8], answer: u64) {
        if boundary::number(answer) != 0 {
            assert_eq!(boundary::value(answer), 0, "a refused or stopped step tells nothing");
            return;
        }
        if boundary::cycles(answer) < 2 {
            assert_eq!(answer >> 32, 0, "a taken request and an idle step tell none");
            self.not_executed += 1;
            return;
        }
        let pc = u16::from_le_bytes([state[256], state[257]]);
        let mut fields = [0; FIELDS];
        boundary::decode(image, pc as u32, state[BANK as usize] as u32, &mut fields);
        let [form, kind, field, ..] = fields;
        let address = reads(FORM_NAMES[form as usize]).then(|| operand_address(kind, field, state));
        let read = address.map_or(0, |address| boundary::read(image, state, address as u32));
        assert_eq!(answer >> 32, read >> 32, "a step tells its operand's origin");
        self.executed[form as usize][kind as usize][boundary::origin(answer)] += 1;
        self.by_steps.add(image, answer);
    }

    pub fn add_read(&mut self, image: &[u8], answer: u64) {
        let number = boundary::number(answer);
        self.answers[number as usize] += 1;
        if number == 0 {
            self.reads[boundary::origin(answer)] += 1;
            self.by_reads.add(image, answer);
        }
    }

    fn of_form(&self, form: usize) -> ByOrigin {
        let mut sums = [0; ORIGIN_NAMES.len()];
        for counts in &self.executed[form] {
            sums.iter_mut().zip(counts).for_each(|(sum, count)| *sum += count);
        }
        sums
    }

    pub fn print(&self) {
        let mut all = [self.not_executed, 0, 0, 0, 0];
        for form in 0..FORMS {
            all.iter_mut().zip(self.of_form(form)).for_each(|(sum, count)| *sum += count);
        }
        println!("single steps by origin:{}", named(&all));
        for (form, name) in FORM_NAMES.iter().enumerate().filter(|(_, name)| reads(name)) {
            println!("  {name:4}{}", named(&self.of_form(form)));
        }
        print!("  none by form:");
        for (form, name) in FORM_NAMES.iter().enumerate().filter(|(_, name)| !reads(name)) {
            print!(" {name}:{}", self.of_form(form)[0]);
        }
        println!(", by requests taken and idle steps: {}", self.not_executed);
        println!("reads by origin:{}; by number{}", named(&self.reads), listed(&self.answers));
        let (by_steps, by_reads) = (self.by_steps.count(), self.by_reads.count());
        println!(
            "ROM addresses told in 2K, 4K and more: by steps {by_steps:?}, by reads {by_reads:?}"
        );
    }

    pub fn print_not_met(&self) {
        let mut missing = self.steps_not_met();
        let read = |&origin: &usize| self.reads[origin] == 0;
        missing.extend((1..5).filter(read).map(|origin| format!("read {}", ORIGIN_NAMES[origin])));
        let answer = |number: &&usize| self.answers[**number] == 0;
        missing.extend(ANSWERS.iter().filter(answer).map(|number| format!("read's {number}")));
        for (what, told) in [("steps", &self.by_steps), ("reads", &self.by_reads)] {
            if told.count() != [2048, 4096, 4096] {
                missing.push(format!("all ROM addresses by {what}"));
            }
        }
        if !missing.is_empty() {
            println!("NOT MET: origins: {}", missing.join(", "));
        }
    }

    /// Forms with operands, as the opcode map has them, and origins that they
    /// can have and that no step told.
    fn steps_not_met(&self) -> Vec<String> {
        let mut missing = Vec::new();
        for [form, kind] in different_operations() {
            let name = FORM_NAMES[form as usize];
            let possible = match kind {
                _ if !reads(name) => 0..1,
                SHORT => 2..3,
                _ => 1..5,
            };
            let counts = self.executed[form as usize][kind as usize];
            for origin in possible.filter(|&origin| counts[origin] == 0) {
                missing.push(format!("{name}{} {}", KINDS[kind as usize], ORIGIN_NAMES[origin]));
            }
        }
        if self.not_executed == 0 {
            missing.push("taken or idle".to_string());
        }
        missing
    }
}

/// The counts that aren't 0, each with its origin.
fn named(counts: &ByOrigin) -> String {
    let counted = ORIGIN_NAMES.iter().zip(counts).filter(|(_, &count)| count > 0);
    counted.map(|(name, count)| format!(" {name} {count}")).collect()
}

/// ROM addresses of 2K, of 4K and of longer images.
struct Addresses([Vec<bool>; 3]);

impl Addresses {
    fn none() -> Self {
        Addresses([(); 3].map(|_| vec![false; SPACE as usize]))
    }

    fn add(&mut self, image: &[u8], answer: u64) {
        if ORIGIN_NAMES[boundary::origin(answer)] == "ROM" {
            let of_length = &mut self.0[(image.len() / HALF - 1).min(2)];
            of_length[boundary::rom_address(answer) as usize] = true;
        }
    }

    fn count(&self) -> [usize; 3] {
        [0, 1, 2].map(|length| self.0[length].iter().filter(|&&told| told).count())
    }
}
