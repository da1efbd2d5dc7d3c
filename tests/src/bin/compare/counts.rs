//! Counts what was compared, and prints it.

use crate::bank_counts::BankCounts;
use crate::counted_step::{AfterStep, BeforeStep};
use crate::make_counts::MakeCounts;
use crate::opcode_map::operations;
use crate::origin_counts::OriginCounts;
use crate::page_counts::PageCounts;
use crate::play_counts::PlayCounts;
use crate::row_counts::RowCounts;
use crate::service_counts::ServiceCounts;
use crate::turn_counts::TurnCounts;
use crate::width_counts::WidthCounts;
use crate::write_only_counts::WriteOnlyCounts;
use second::boundary::{self, FORMS, FORM_NAMES};
use second::chip::{Rom, HALF};
use second::library::KINDS;
use second::play::{report, Call, Outcome};

/// The greatest number of a refusal.
const NUMBERS: usize = 30;

pub struct Counts {
    calls: [u64; KINDS.len()],
    /// By kind of call and number; 0 is done.
    numbers: [[u64; 256]; KINDS.len()],
    /// Executed instructions by form, in single steps and in runs.
    step_forms: [u64; FORMS],
    run_forms: [u64; FORMS],
    /// Decoded and written instructions by form.
    decoded_forms: [u64; FORMS],
    written_forms: [u64; FORMS],
    pub steps_in_runs: u64,
    taken: u64,
    idle: u64,
    levels: [u64; 7],
    /// By the number that a job's line gives; 0 is accepted.
    lines: [u64; NUMBERS + 1],
    pub widths: WidthCounts,
    pub makes: MakeCounts,
    pub plays: PlayCounts,
    pub services: ServiceCounts,
    pub turns: TurnCounts,
    pub rows: RowCounts,
    origins: OriginCounts,
    write_only: WriteOnlyCounts,
    banks: BankCounts,
    pages: PageCounts,
    pub unused_differ: u64,
    pub demand3_calls: u64,
    /// Calls and playings of images with two pages or more of which demand 3
    /// was seen to hold.
    demand3_paged: u64,
    form_of: [Option<u8>; 256],
}

impl Counts {
    pub fn new() -> Self {
        Counts {
            calls: [0; KINDS.len()],
            numbers: [[0; 256]; KINDS.len()],
            step_forms: [0; FORMS],
            run_forms: [0; FORMS],
            decoded_forms: [0; FORMS],
            written_forms: [0; FORMS],
            steps_in_runs: 0,
            taken: 0,
            idle: 0,
            levels: [0; 7],
            lines: [0; NUMBERS + 1],
            widths: WidthCounts::new(),
            makes: MakeCounts::new(),
            plays: PlayCounts::new(),
            services: ServiceCounts::default(),
            turns: TurnCounts::new(),
            rows: RowCounts::new(),
            origins: OriginCounts::new(),
            write_only: WriteOnlyCounts::new(),
            banks: BankCounts::new(),
            pages: PageCounts::new(),
            unused_differ: 0,
            demand3_calls: 0,
            demand3_paged: 0,
            form_of: operations().map(|operation| operation.map(|[form, _]| form)),
        }
    }

    /// Counts a call or a playing that demand 3 speaks of, if it has pages.
    pub fn add_demand3(&mut self, image: &[u8]) {
        self.demand3_paged += (image.len() > 2 * HALF) as u64;
    }

    /// Counts a call by the second emulator's outcome.
    pub fn add(&mut self, call: &Call, outcome: &Outcome) {
        let number = boundary::number(outcome.answer);
        self.calls[call.kind()] += 1;
        self.numbers[call.kind()][number as usize] += 1;
        let value = boundary::value(outcome.answer);
        self.banks.add(call, outcome);
        self.pages.add(call, outcome);
        match call {
            Call::Run { image, state, requests, n, .. } if matches!(number, 0 | 4..=7) => {
                self.trace(image, state, requests, *n, outcome);
            }
            Call::Width { image, certificate, .. } => {
                self.widths.add(image, certificate, outcome.answer);
            }
            Call::Make { image, wired, .. } => self.makes.add(image, *wired, outcome.answer),
            Call::Step { image, state, request } => {
                self.add_step(image, state, *request, outcome);
            }
            Call::Read { image, state, address } => {
                self.origins.add_read(image, outcome.answer);
                self.write_only.add_read(state, *address, outcome.answer);
            }
            Call::Play { record, .. } => self.plays.add(record, outcome),
            _ if number != 0 => {}
            Call::Decode { .. } => self.decoded_forms[outcome.out.bytes()[0] as usize] += 1,
            Call::Write { fields, .. } => self.written_forms[fields[0] as usize] += 1,
            Call::Check { .. } => self.levels[value as usize] += 1,
            Call::Job { .. } => self.lines[line_number(outcome.out.bytes())] += 1,
            _ => {}
        }
    }

    fn add_step(&mut self, image: &[u8], state: &[u8], request: u32, outcome: &Outcome) {
        let answer = outcome.answer;
        self.origins.add_step(image, state, answer);
        if boundary::number(answer) != 0 {
            return;
        }
        let rom = Rom::new(image).expect("the step was not refused");
        let machine = boundary::unpack(state).expect("the step was not refused");
        let before = BeforeStep::new(&rom, machine, request as u8);
        let after = AfterStep::single(answer, outcome.state.bytes());
        self.add_done(&rom, image, &before, &after);
    }

    /// Counts a step, alone or in a run.
    fn add_done(&mut self, rom: &Rom, image: &[u8], before: &BeforeStep, after: &AfterStep) {
        match after.cycles {
            0 => self.idle += 1,
            1 => self.taken += 1,
            _ => {
                let opcode = before.opcode.expect("executed");
                let form = self.form_of[opcode as usize].expect("defined") as usize;
                let forms = if after.in_run { &mut self.run_forms } else { &mut self.step_forms };
                forms[form] += 1;
            }
        }
        self.write_only.add_step(before, after);
        self.banks.add_step(rom, image, before, after);
    }

    /// Plays a run as single steps of the second emulator: the run must be
    /// their sum. Counts what they did.
    fn trace(&mut self, image: &[u8], state: &[u8], requests: &[u8], n: u32, outcome: &Outcome) {
        let mut machine = boundary::unpack(state).expect("the run was not refused");
        let rom = Rom::new(image).expect("the run was not refused");
        let (mut steps, mut cycles, mut stop) = (0, 0, 0);
        while steps < n {
            let request = requests.get(steps as usize).copied().unwrap_or(0);
            let before = BeforeStep::new(&rom, machine.clone(), request);
            match machine.traced_step(image, request) {
                Ok(traced) => {
                    cycles += traced.cycles;
                    self.add_done(&rom, image, &before, &AfterStep::in_run(traced, &machine));
                }
                Err(refusal) => {
                    stop = refusal.number();
                    break;
                }
            }
            steps += 1;
        }
        let mut packed = state.to_vec();
        boundary::pack(&machine, &mut packed);
        assert_eq!(report(outcome), (steps, cycles), "the second emulator's run is its steps");
        assert_eq!(boundary::number(outcome.answer), stop);
        assert_eq!(outcome.state.bytes(), packed);
        self.steps_in_runs += steps as u64;
    }

    pub fn print(&self) {
        println!("\ncalls compared");
        for (kind, name) in KINDS.iter().enumerate() {
            println!("  {name:7} {:>10}  {}", self.calls[kind], listed(&self.numbers[kind]));
        }
        println!("  (number:count, 0 is done)");
        print_forms("forms executed in single steps", &self.step_forms);
        print_forms("forms executed in runs", &self.run_forms);
        print_forms("forms decoded", &self.decoded_forms);
        print_forms("forms written", &self.written_forms);
        let Counts { steps_in_runs, taken, idle, .. } = self;
        println!("steps in runs {steps_in_runs}, requests taken {taken}, idle {idle}");
        println!("accepted by levels 0 to 6 {:?}", self.levels);
        let [accepted, ..] = self.lines;
        let mut refused = self.lines;
        refused[0] = 0;
        println!("lines of jobs: accepted {accepted}; refused{}", listed(&refused));
        self.widths.print();
        self.makes.print();
        self.origins.print();
        self.write_only.print();
        self.banks.print();
        self.pages.print();
        self.plays.print();
        self.services.print();
        self.turns.print();
        self.rows.print();
        println!("calls that demand 3 speaks of, all as it says: {}", self.demand3_calls);
        println!("calls and playings with two pages or more among them: {}", self.demand3_paged);
        println!("calls that differ only in return addresses not in use: {}", self.unused_differ);
        self.print_not_met();
    }

    fn print_not_met(&self) {
        let everywhere =
            [&self.step_forms, &self.run_forms, &self.decoded_forms, &self.written_forms];
        for (form, name) in FORM_NAMES.iter().enumerate() {
            if everywhere.iter().any(|counts| counts[form] == 0) {
                println!("NOT EVERYWHERE MET: form {name}");
            }
        }
        let met = |number: usize| {
            self.lines[number] > 0 || self.numbers.iter().any(|counts| counts[number] > 0)
        };
        let missing: Vec<usize> = (1..=NUMBERS).filter(|&number| !met(number)).collect();
        if !missing.is_empty() {
            println!("NOT MET: numbers {missing:?}");
        }
        if self.demand3_paged == 0 {
            println!("NOT MET: demand 3 with two pages or more");
        }
        self.widths.print_not_met();
        self.makes.print_not_met();
        self.origins.print_not_met();
        self.write_only.print_not_met();
        self.banks.print_not_met();
        self.pages.print_not_met();
        self.plays.print_not_met();
        self.services.print_not_met();
        self.turns.print_not_met();
        self.rows.print_not_met();
    }
}

/// The number that a job's line gives; 0 for an accepted one.
fn line_number(line: &[u8]) -> usize {
    let line = String::from_utf8_lossy(line);
    let mut words = line.split_ascii_whitespace();
    let refused = words.next() == Some("refused");
    let number = words.next().and_then(|word| word.parse().ok());
    if refused {
        number.expect("a number")
    } else {
        0
    }
}

/// The counts that aren't 0, each with its number.
pub fn listed(counts: &[u64]) -> String {
    let counted = counts.iter().enumerate().filter(|(_, &count)| count > 0);
    counted.map(|(number, count)| format!(" {number}:{count}")).collect()
}

fn print_forms(title: &str, counts: &[u64; FORMS]) {
    print!("{title}");
    for (form, count) in counts.iter().enumerate() {
        let gap = if form % 8 == 0 { "\n  " } else { " " };
        print!("{gap}{}:{count}", FORM_NAMES[form]);
    }
    println!();
}
