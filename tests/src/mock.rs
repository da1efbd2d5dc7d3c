//! Stands in for the proved library: the same functions, on this crate's own
//! emulator; only its certificate maker, its player, its reading, its telling
//! of origins and all that it does with pages are others. `ST62_MOCK_FAULT`
//! names a fault to inject, so that one can see the comparison find it.

mod bank;
mod check;
mod make;
mod origin;
mod play;
mod rows;
mod traces;
mod turns;
mod write_only;

use crate::boundary;
use crate::gauge::Gauged;
use std::sync::OnceLock;

pub use check::check;
pub use make::make;
pub use origin::read;
pub use play::play;

/// The faults that can be injected.
pub const FAULTS: [&str; 291] = [
    "decode-bit",      // bit numbers unreversed
    "com-carry",       // COM leaves C clear
    "rlc-low",         // RLC shifts in 0
    "call-pushes-own", // CALL pushes its own address
    "reti-flags",      // RETI copies the flags to the pair beneath
    "second-nmi",      // an NMI is taken in NMI mode
    "window-store",    // INC in the ROM window sets no Z
    "sleep-stop",      // STOP sleeps with PC on itself
    "run-cycles",      // a long run with requests counts one cycle too many
    "run-order",       // run looks at the request bytes before n
    "run-report",      // a refused run writes its report
    "store-mask",      // the host's store to 0C9h keeps six bits
    "reset-window",    // reset keeps 0C9h
    "write-short",     // ADD with a short operand is written
    "check-need",      // a CALL's need may equal its target's
    "check-levels",    // seven levels are accepted
    "job-case",        // addresses in lower case
    "width-bytes",     // the low byte of the width first
    "width-steps",     // the gauge counts one step too many
    "width-limit",     // the gauge gives up one step early
    "width-number",    // the gauge gives the check's number in place of 23
    "width-order",     // the gauge looks at the count after the check
    "make-call-level", // a CALL needs no more levels than its target
    "make-after-call", // the address after a CALL isn't followed
    "make-taken",      // a branch is only followed where it jumps
    "make-not-taken",  // a branch is only followed where it doesn't jump
    "make-reti",       // after RETI start-up goes on as start-up
    "make-end",        // code that goes on from FFFh at 000h is refused
    "make-vectors",    // wired vectors aren't marked
    "make-kinds",      // of two kinds the first is kept
    "make-six",        // a need of six is refused
    "make-levels",     // seven levels are accepted
    "make-raised",     // a raised need isn't carried further
    "make-rounds",     // refused after as many raises as the image has bytes
    "make-list",       // the list of addresses to look at is too short
    "make-order",      // 25 before 11
    "make-writes",     // the buffer is written with 26
    "make-keeps",      // the buffer keeps what isn't reachable
    "origin-pointer",  // LD A,(X) and LD A,(Y) tell the pointer
    "origin-store-x",  // LD (X),A and LD (Y),A tell the pointer
    "origin-store-at", // LD (X),A and LD (Y),A tell where they store
    "origin-store",    // LD rr,A tells where it stores
    "origin-store-v",  // LD of A to X, Y, V or W tells where it stores
    "origin-ldi",      // LDI rr tells where it stores
    "origin-ldi-a",    // LDI A tells the accumulator
    "origin-addi",     // ADDI, SUBI, ANDI and CPI tell the accumulator
    "origin-add",      // ADD, SUB, AND and CP tell it in place of their source
    "origin-com",      // COM and RLC tell it
    "origin-ff",       // FFh as a direct operand tells none
    "origin-by-ff",    // a pointer to FFh tells none
    "origin-by-x",     // a pointer to X or Y tells none
    "origin-short",    // X, Y, V and W as short operands tell none
    "origin-jump",     // JRR and JRS tell none
    "origin-bits",     // RES and SET tell none
    "origin-inc",      // INC and DEC tell none
    "origin-cp",       // CP tells none
    "origin-after",    // told by the machine after the step
    "origin-taken",    // a taken request tells what stands at PC
    "origin-idle",     // an idle step tells what stands at PC
    "origin-stop",     // a stop tells what stands at PC
    "origin-refused",  // a refused step tells what stands at PC
    "origin-40h",      // 40h is RAM
    "origin-80h",      // 80h is RAM
    "origin-page",     // ROM addresses lack their page
    "origin-index",    // ROM addresses count from the image's first byte
    "origin-mask",     // all bits of 0C9h are the page
    "origin-no-rom",   // the window is ROM where the image has nothing
    "origin-empty-at", // it has an address where the image has nothing
    "origin-reg-at",   // a register has an address
    "read-order",      // 2 before 1
    "read-beyond",     // an address beyond its byte is cut to it
    "read-8-last",     // 8 after 1 and 2
    "read-ill-formed", // ill-formed machines are read
    "read-packing",    // badly packed machines are read
    "read-array",      // the window shows data bytes
    "read-stored-c8",  // 0C8h is read as stored
    "read-stored-c9",  // 0C9h is
    "read-zero-c7",    // 0C7h reads 0 too
    "read-zero-ca",    // 0CAh does
    "read-page-0",     // the window always shows page 0
    "read-no-origin",  // 0C8h and 0C9h have no origin
    "origin-unread",   // steps that read 0C8h or 0C9h tell none
    "stored-c8",       // steps read 0C8h as stored
    "stored-c9",       // they read 0C9h so
    "stored-direct",   // they read both so, as direct operands
    "stored-by-x",     // through X
    "stored-by-y",     // through Y
    "stored-ld",       // with LD
    "stored-add",      // with ADD, SUB, AND and CP
    "stored-inc",      // with INC and DEC
    "stored-bits",     // with RES and SET, which keep the other bits
    "stored-jump",     // with JRR and JRS
    "stored-run",      // in runs
    "stored-flags",    // flags follow what is stored there
    "stored-kept",     // INC, DEC, RES and SET store nothing there
    "zero-c7",         // steps read 0 at 0C7h too
    "zero-ca",         // they do at 0CAh
    "zero-enable",     // the enable reads 0 too: no source is taken
    "zero-page",       // so does the window's page
    "zero-state",      // states after steps have 0 at 0C8h and 0C9h
    "play-from-1",     // the entry that ends a playing is counted from 1
    "play-last",       // at the end the last entry's number is given
    "play-byte",       // entry numbers are cut to a byte
    "play-stores",     // stores aren't counted as entries
    "play-resets",     // resets aren't
    "play-store-cost", // a store costs a cycle
    "play-reset-cost", // a reset does
    "play-reset-sum",  // a reset clears the sum of cycles
    "play-reset-data", // it clears all data
    "play-end-cycles", // the entry that ends a playing costs cycles
    "play-late",       // the machine that it gives has gone past the stop
    "play-early",      // it is the one before the entry before
    "play-fresh",      // it is a fresh one
    "play-skip-10",    // refused stores are passed over
    "play-skip-11",    // refused steps are
    "play-no-request", // steps get no requests
    "play-address",    // a stop's address isn't given
    "play-value",      // the cycles are in the word too
    "play-1-late",     // 1 after the record's refusals
    "play-27-first",   // 27 before 28 of a short record
    "play-28-first",   // 28 of a wrong count before 27
    "play-29-first",   // 29 before 28 of a wrong count
    "play-29-late",    // 29 only when the entry is reached
    "play-cut-last",   // a cut entry is passed over
    "play-kind-mask",  // two bits of an entry's first byte are looked at
    "play-count-le",   // the count's low byte first
    "play-count-15",   // the count has 15 bits
    "play-count-mod",  // bytes are counted modulo 65,536
    "play-more",       // bytes past the count are passed over
    "play-empty",      // a record without entries is refused
    "play-lent",       // played from the lent state
    "play-lent-data",  // played from what reset makes of it
    "play-looks",      // a lent state that is no machine is refused
    "play-281",        // longer states are taken
    "play-9-first",    // 9 before 2
    "play-2-first",    // 2 and 9 before the playing's own
    "play-report",     // the report is written with a refusal
    "play-state",      // the state is written with 9
    "play-rest",       // the report is written past its eight bytes
    "long-unknown",    // version 2 isn't known
    "long-version-0",  // version 0 is taken as 1
    "long-version-3",  // version 3 is taken as 2
    "long-version-82", // 82h is
    "long-version-up", // every version above 2 is
    "long-count-2",    // the count of version 2 has two bytes
    "long-count-le",   // it has its low byte first
    "long-count-turn", // it has its high byte last
    "long-count-mod",  // it is compared modulo 65,536
    "long-count-24",   // bytes are counted modulo 16,777,216
    "long-count-own",  // it counts the header too
    "long-more",       // bytes past it are passed over
    "long-header-3",   // the entries begin with its last byte
    "long-header-5",   // it has four bytes
    "long-few",        // small counts are taken in version 2
    "long-few-27",     // they give 27
    "long-few-30",     // they give 30
    "long-empty",      // a count of 0 is taken
    "long-65535",      // a count of 65,535 is
    "long-65536",      // 65,536 is refused
    "long-many",       // no count is too large
    "long-1048576",    // 1,048,576 is too large
    "long-1048577",    // 1,048,577 isn't
    "long-30-first",   // 30 before 28 of a wrong count
    "long-30-length",  // 30 before 27 and 28, by the record's length
    "long-30-late",    // 30 after 2 and 9
    "long-30-28",      // 28 in place of 30
    "long-30-29",      // 29 in place of 30
    "long-30-state",   // the state is written with 30
    "long-29-first",   // 29 before 30
    "long-29-late",    // 29 past 65,535 bytes only when the entry is reached
    "long-three-0",    // a version 2 record of three bytes plays
    "long-three-27",   // it gives 27
    "long-three-30",   // it gives 30
    "long-number-16",  // entry numbers have 16 bits
    "long-number-max", // they go up to 65,535
    "long-cycles-18",  // cycles have 18 bits, enough for version 1
    "long-bytes",      // the playing ends after 65,535 bytes
    "long-entries",    // it ends after 65,535 entries
    "long-first-3",    // version 1's count has three bytes too
    "long-first-most", // 65,535 is refused in version 1
    "bank-halves",     // the bank byte modulo the number of halves
    "bank-nibble",     // four bits of it count
    "bank-signed",     // seven bits do
    "bank-clamp",      // one beyond the last page picks the last page
    "bank-from-1",     // pages are counted from 1
    "bank-power",      // modulo the next power of two first
    "bank-first",      // the first page is always in place
    "bank-fixed-0",    // the fixed half comes first in the image
    "bank-2k",         // a bank byte shows the half of a 2K image below 800h
    "bank-4k",         // one takes the page of a 4K image away
    "bank-11",         // eleven halves are taken
    "bank-10",         // ten are refused
    "bank-odd",        // odd numbers of halves from 3 on are
    "bank-ragged",     // lengths between whole halves are taken
    "bank-7ff",        // after 7FFh comes the next page
    "bank-7ff-wrap",   // after 7FFh comes the page's first byte
    "bank-fff",        // after FFFh comes page 0
    "bank-window-0",   // the window shows page 0
    "bank-window-raw", // it shows the image's first 4,096 bytes
    "bank-end",        // a step's page is the one at its end
    "bank-run",        // a run's page is the one at its start
    "bank-late",       // in runs pages change a step late
    "bank-taken",      // a taken request clears the bank byte
    "bank-origin",     // ROM addresses are indices in the image
    "bank-read-0",     // reads show page 0
    "bank-decode-0",   // decoding ignores the bank byte
    "bank-decode-mod", // one beyond its byte is cut to it
    "bank-decode-9",   // one above 9 is refused
    "bank-decode-1",   // 1 before 8
    "bank-decode-3",   // 3 before 8
    "bank-reset",      // reset keeps the bank byte
    "bank-reset-ill",  // it keeps that of ill-formed machines
    "bank-reset-next", // it clears 0CBh too
    "bank-store",      // the host's store to 0CAh keeps five bits
    "paged-check-0",   // marks are looked at with page 0 alone
    "paged-check-two", // with the first two pages alone
    "paged-last",      // with all but the last page
    "paged-down",      // with the last page first
    "paged-rule",      // with all pages for each rule
    "paged-page",      // all marks with a page before those with the next
    "paged-check-14",  // malformed marks are looked for first
    "paged-check-end", // the fixed half is looked at with page 0 alone
    "paged-13-image",  // certificates are measured by the image
    "paged-25-image",  // the maker's buffer is
    "paged-make-0",    // a certificate is made of page 0
    "paged-make-last", // of all but the last page
    "paged-make-need", // needs are those of page 0
    "paged-make-end",  // what leaves the fixed half is seen with page 0
    "paged-make-two",  // a second page's other code is refused
    "paged-width",     // the gauge takes images with pages
    "paged-width-1",   // it refuses them with 1
    "paged-width-8",   // 23 for them comes before 8
    "paged-job",       // jobs take them
    "play-bank-0",     // a playing keeps page 0
    "play-unpaged",    // images with pages are refused
    "trace-next",      // NMI's taking saves the next address
    "trace-wake",      // one that wakes a sleeper saves the address before
    "trace-bottom",    // one on two levels or more clears the bottom address
    "trace-fifth",     // one on five levels loses it
    "trace-over",      // NMI in interrupt mode sets NMI over normal
    "trace-cleared",   // a taking clears the interrupted pair
    "trace-two",       // RETI in NMI over interrupt pops two
    "trace-mode",      // it returns to normal mode
    "trace-pair",      // it copies the NMI pair to the interrupt pair
    "trace-pair-nmi",  // RETI in interrupt mode copies it to the normal pair
    "trace-empty",     // RETI in interrupt mode empties the stack
    "trace-late",      // RETI in NMI over normal goes on one address later
    "trace-run",       // RETI in any service does, in runs
    "trace-asleep",    // RETI to the address after a STOP or WAIT sleeps on
    "trace-flags",     // a source's service sets the flags of both pairs
    "trace-flags-nmi", // NMI's service sets those of the interrupt pair too
    "trace-page",      // a change of page in a service alters the top address
    "trace-call",      // CALL in a service pushes over the address beneath too
    "trace-ret",       // RET in a service pops two
    "trace-store",     // a host's store in a service clears the bottom address
    "trace-enable",    // one that clears the enable bit sets normal mode
    "trace-10",        // a refused store in a service changes the normal pair
    "trace-11",        // a refused step in a service raises the bottom address
    "trace-12",        // a refused run in a service empties the stack
    "turn-bank",       // a run takes what it decoded at an address for another page
    "turn-address",    // what it decoded for another address of the same page
    "turn-fixed",      // what it decoded in the fixed half for any page
    "turn-place",      // long runs take whatever is kept at a place
    "turn-place-few",  // short ones do
    "width-place-few", // the gauge does, with as few places
    "turn-empty",      // at 000h of page 0 a run takes what it never decoded
    "turn-back",       // a page that was left before isn't put in place again
    "turn-service",    // a service's change of page isn't seen before its end
    "turn-alias",      // another bank byte for the same page picks another
    "turn-window",     // in runs the window shows the page at the start
    "turn-pair",       // after RETI one step has the flags of the mode before
    "turn-pair-taken", // after a taking one has
    "turn-list",       // short runs have 64 requests, again and again
    "turn-list-80",    // from the 4,097th step on a request comes a step late
    "turn-80",         // a run of 80 steps counts a cycle too many
    "turn-64",         // one of 64 steps counts two cycles too few
    "row-on",          // a playing goes on after a stop, with the next row
    "row-first",       // a stop has the number of its row's first entry
    "row-next",        // it has that of the first entry after its row
    "row-cycles",      // the cycles of a row that stops are lost
    "row-back",        // the machine after a stop is the one before its row
    "row-request",     // steps have the request of the next one in their row
    "row-last",        // the last step of a row has none
    "row-cut",         // the first step after a store has none
    "row-4097",        // the 4,097th step of a row isn't done
    "row-4096",        // steps of a row after 4,096 have no requests
    "row-11",          // a refused step takes its row back
    "row-10",          // the cycles of a row before a refused store are lost
    "row-store",       // those of one before a store are
    "row-reset",       // those of one before a reset are
    "row-long",        // in version 2 a stop in a row has the next one's number
];

fn fault() -> Option<&'static str> {
    static FAULT: OnceLock<Option<&'static str>> = OnceLock::new();
    *FAULT.get_or_init(|| {
        let name = std::env::var("ST62_MOCK_FAULT").ok()?;
        let found = FAULTS.iter().find(|fault| **fault == name);
        Some(found.unwrap_or_else(|| panic!("no fault {name}; there are {FAULTS:?}")))
    })
}

fn faulty(name: &str) -> bool {
    fault() == Some(name)
}

pub fn decode(image: &[u8], address: u32, bank: u32, out: &mut [u8]) -> u64 {
    let Some(bank) = bank_byte(image, address, bank) else { return 8 };
    let answer = boundary::decode(&bank::seen(image, bank), address, 0, out);
    if faulty("decode-bit") && boundary::number(answer) == 0 && (6..=9).contains(&out[0]) {
        out[5] = (out[5] << 5).reverse_bits();
    }
    answer
}

/// The bank byte that a decode is given, unless that refuses it.
fn bank_byte(image: &[u8], address: u32, bank: u32) -> Option<u8> {
    let beyond = bank > 255;
    match fault() {
        Some("bank-decode-0") if !beyond => Some(0),
        Some("bank-decode-mod") => Some(bank as u8),
        Some("bank-decode-9") if bank > 9 => None,
        Some("bank-decode-1") if beyond && bank::halves(image).is_none() => Some(0),
        Some("bank-decode-3") if beyond && address > 0xFFF => Some(0),
        _ => u8::try_from(bank).ok(),
    }
}

pub fn step(image: &[u8], state: &mut [u8], request: u32) -> u64 {
    any_step(false, image, state, request, bank::bank(state))
}

/// One step, alone or in a run, with a bank byte and with the fault.
fn any_step(in_run: bool, image: &[u8], state: &mut [u8], request: u32, bank: u8) -> u64 {
    let before = state.to_vec();
    let seen = bank::seen_by_step(image, state, bank);
    let mut answer = step_of_seen(in_run, &seen, state, request);
    if faulty("bank-end") && bank::bank(state) != bank {
        let seen = bank::seen(image, bank::bank(state));
        state.copy_from_slice(&before);
        answer = step_of_seen(in_run, &seen, state, request);
    }
    if faulty("bank-taken") && answer == 1 << 24 {
        state[0xCA] = 0;
    }
    traces::after_step(in_run, &seen, &before, state, answer);
    bank::told_by_index(image, bank, answer)
}

/// The same of an image without pages, or with one.
fn step_of_seen(in_run: bool, image: &[u8], state: &mut [u8], request: u32) -> u64 {
    let before = state.to_vec();
    // Without the enable bit only NMI is seen.
    let seen = if faulty("zero-enable") && request < 0x20 { request & 1 } else { request };
    let answer = boundary::step(image, state, seen);
    let answer = origin::retold(image, &before, state, answer);
    let taken = boundary::cycles(answer) == 1;
    if fault().is_none() || boundary::number(answer) != 0 || before[260] == 1 || taken {
        return answer;
    }
    write_only::misread(image, &before, state, in_run);
    wrong_effect(image, &before, state, request).unwrap_or(answer)
}

/// Changes the state after the instruction at PC, which was executed; gives
/// the answer if that is another one.
fn wrong_effect(image: &[u8], before: &[u8], state: &mut [u8], request: u32) -> Option<u64> {
    let pc = u16::from_le_bytes([before[256], before[257]]);
    let at = |offset: usize| image[(pc as usize + offset) % 0x1000 % image.len()];
    let pair = |mode: u8| 261 + 2 * [2, 0, 1, 2, 2][mode as usize];
    let flags = pair(before[259]);
    let top = 268 + 2 * before[258] as usize;
    match (fault()?, at(0)) {
        ("com-carry", 0x2D) => state[flags + 1] = 0,
        ("rlc-low", 0xAD) => state[255] &= 0xFE,
        ("call-pushes-own", opcode) if opcode & 0x0F == 1 => {
            state[top..top + 2].copy_from_slice(&pc.to_le_bytes());
        }
        ("reti-flags", 0x4D) => state.copy_within(flags..flags + 2, pair(state[259])),
        ("second-nmi", _) if before[259] >= 3 && request & 1 != 0 && before[258] < 6 => {
            state.copy_from_slice(before);
            state[top..top + 2].copy_from_slice(&pc.to_le_bytes());
            state[258] += 1;
            state[256..258].copy_from_slice(&0xFFCu16.to_le_bytes());
            return Some(1 << 24);
        }
        ("window-store", 0x7F) if at(1) & 0xC0 == 0x40 => state[flags] = before[flags],
        ("sleep-stop", 0x6D) => state[256..258].copy_from_slice(&before[256..258]),
        ("zero-state", _) => state[0xC8..0xCA].fill(0),
        _ => {}
    }
    None
}

/// A run, with the fault.
pub fn run(image: &[u8], state: &mut [u8], requests: &[u8], n: u32, report: &mut [u8]) -> u64 {
    if faulty("run-order") && n > 65_535 && requests.iter().any(|byte| byte & 0xE0 != 0) {
        return 11;
    }
    let before = state.to_vec();
    let seen = bank::seen(image, bank::bank(state));
    let answer = boundary::run(&seen, state, requests, n, report);
    if fault().is_none() && image.len() <= 4096 {
        return answer;
    }
    if !matches!(boundary::number(answer), 0 | 4..=7) {
        if faulty("run-report") && report.len() >= 8 {
            report[..8].fill(0);
        }
        traces::after_refused_run(state, answer);
        return answer;
    }
    state.copy_from_slice(&before);
    let (steps, mut cycles, answer) = faulty_steps(image, state, requests, n);
    if faulty("run-cycles") && n >= 100 && requests.iter().any(|&request| request != 0) {
        cycles += 1;
    }
    report[..4].copy_from_slice(&steps.to_le_bytes());
    report[4..8].copy_from_slice(&cycles.to_le_bytes());
    answer
}

/// A run made of steps, so that it has their faults, and pages change: steps,
/// cycles, answer.
fn faulty_steps(image: &[u8], state: &mut [u8], requests: &[u8], n: u32) -> (u32, u32, u64) {
    let (mut steps, mut cycles) = (0, 0);
    let first = bank::bank(state);
    let mut last = first;
    let mut turns = turns::Turns::new(state, n);
    while steps < n {
        let request = turns::requested(requests, steps, n);
        let bank = match fault() {
            Some("bank-run") => first,
            Some("bank-late") => last,
            _ => bank::bank(state),
        };
        last = bank::bank(state);
        let shown = turns.as_mut().map(|turns| turns.shown(image, state));
        let shown = shown.as_deref().unwrap_or(image);
        let answer = any_step(true, shown, state, request as u32, bank);
        if boundary::number(answer) != 0 {
            return (steps, cycles, answer);
        }
        steps += 1;
        cycles += boundary::cycles(answer);
        if let Some(turns) = &mut turns {
            turns.after_step(state, boundary::cycles(answer));
        }
    }
    (steps, turns::cycles(cycles, n), 0)
}

pub fn write(fields: &[u8], out: &mut [u8]) -> u64 {
    if faulty("write-short") && fields.len() >= 7 && fields[..2] == [16, 2] && fields[2] < 4 {
        let mut direct = fields.to_vec();
        (direct[1], direct[2]) = (1, 0x80 + fields[2]);
        return boundary::write(&direct, out);
    }
    boundary::write(fields, out)
}

pub fn reset(state: &mut [u8]) -> u64 {
    let before = state.to_vec();
    let answer = boundary::reset(state);
    if answer != 0 {
        return answer;
    }
    match fault() {
        Some("reset-window") => state[0xC9] = before[0xC9],
        Some("bank-reset") => state[0xCA] = before[0xCA],
        Some("bank-reset-ill") if boundary::read(&[0; 2048], &before, 0) == 2 => {
            state[0xCA] = before[0xCA];
        }
        Some("bank-reset-next") => state[0xCB] = 0,
        _ => {}
    }
    answer
}

pub fn store(state: &mut [u8], address: u32, value: u32) -> u64 {
    let answer = boundary::store(state, address, value);
    match (fault(), address) {
        (Some("store-mask"), 0xC9) if answer == 0 => state[0xC9] &= 0x3F,
        (Some("bank-store"), 0xCA) if answer == 0 => state[0xCA] &= 0x1F,
        _ => {}
    }
    traces::after_store(state, address, answer);
    answer
}

pub fn job(job: &[u8], line: &mut [u8]) -> u64 {
    let answer = boundary::job(job, line);
    if let Some(levels) = paged_job(job).filter(|_| faulty("paged-job")) {
        let text = format!("accepted {levels}\n");
        line.iter_mut().zip(text.bytes()).for_each(|(place, byte)| *place = byte);
    }
    if faulty("job-case") && boundary::number(answer) == 0 {
        line[..boundary::value(answer) as usize].make_ascii_lowercase();
    }
    answer
}

/// The levels of a job with pages, if it would be one.
fn paged_job(job: &[u8]) -> Option<u32> {
    let [1, high, low, wired, rest @ ..] = job else { return None };
    let (image, certificate) = rest.split_at_checked(rest.len().checked_sub(4096)?)?;
    let counted = u16::from_be_bytes([*high, *low]) as usize == 1 + rest.len();
    let answer = check(image, certificate, *wired as u32);
    (counted && boundary::number(answer) == 0).then_some(boundary::value(answer))
}

pub fn width(image: &[u8], certificate: &[u8], count: u32) -> u64 {
    let refused = || boundary::number(check(image, certificate, 0));
    let paged = image.len() > 4096 && count < 256;
    let answer = match fault() {
        Some("paged-width") if paged && refused() == 0 => {
            boundary::width(&bank::seen(image, 0), certificate, count)
        }
        Some("paged-width-1") if paged => 1,
        Some("paged-width-8") if image.len() > 4096 => 23,
        _ => boundary::width(image, certificate, count),
    };
    let Gauged { width, steps } = boundary::gauged(answer);
    match (fault(), boundary::number(answer)) {
        (Some("width-bytes"), 0) => (steps as u64) << 40 | (width.swap_bytes() as u64) << 24,
        (Some("width-place-few"), 0) => {
            let width = turns::width(image, count as u8, steps);
            (steps as u64) << 40 | (width as u64) << 24
        }
        (Some("width-steps"), 0) => answer + (1 << 40),
        (Some("width-limit"), 0) if steps == u16::MAX => 24,
        (Some("width-number"), 23) => refused() as u64,
        (Some("width-order"), 8) if refused() != 0 => 23,
        _ => answer,
    }
}
