//! Exit reports against the original's `run` from the exit on: the number, the answer's words and every byte of the record.
//!
//! Where document 01 decides against the original, or the original can't be asked, document 01's number or answer is expected. These are
//! counted on a line of their own.
//!
//! Before each report to the port its trial is made (`trials.rs`).

use crate::archive;
use crate::buffer::Buffer;
use crate::calls::{BYTES_REFUSED, PHASE_REFUSED, Reply};
use crate::choose;
use crate::session::Session;
use crate::tally::{Tally, Totals};
use crate::trials::Trials;
use oracle::generate::Random;
use oracle::record::{self, LENGTH};
use oracle::{Answer, Call as Original, Outcome, Report, refusal_number};

/// Reports on one session, before it starts anew.
const REPORTS: u64 = 10;
const REASON_REFUSED: u32 = 14;
const MASK_REFUSED: u32 = 15;
const TYPE_REFUSED: u32 = 16;
const CR0_MASK: u32 = 0x6000;
const CR4_MASK: u32 = 0x6002;
/// Protection enable, in CR0.
const PE: u64 = 1;
const CR_ACCESS: u32 = 28;
const IO_INSTRUCTION: u32 = 30;
/// In the entry controls.
const IA32E_MODE: u64 = 0x200;
/// Size 8, and neither a string nor a repeated instruction.
const QWORD: u64 = 7;
const STRING_OR_REPEATED: u64 = 0x30;

/// A report in the running phase. Half of them have PE set, where the mask leaves it to the guest, so that entries after them give codes and give none.
pub fn any(session: &mut Session, random: &mut Random) -> Report {
    let mut report = random.report(&mut session.oracle);
    let owned = session.oracle.read_field(CR0_MASK).expect("a field");
    if owned & PE == 0 {
        report.cr0 = report.cr0 & !PE | random.below(2) * PE;
    }
    report
}

/// What the original does with a report.
pub fn original(session: &mut Session, report: &Report) -> Outcome<Answer> {
    let outcome = session.oracle.take_report(report);
    if let Ok(answer) = &outcome {
        session.reference.phase = record::phase_after(answer);
    }
    outcome
}

/// The reply that the port must give.
pub fn expected(report: &Report, outcome: &Outcome<Answer>) -> Reply {
    match outcome {
        Ok(answer) => Reply::accepted(&answer.words().map(|word| (8, word))),
        Err(failure) => Reply::refused(refusal_number(Original::Exit(report.reason), failure).expect("a number")),
    }
}

pub fn port(record: &mut Buffer, length: usize, block: &[u8]) -> Reply {
    let exit_report = archive::vcpu_exit_report().expect("the function");
    let mut reply = Reply::refused(0);
    let answer = reply.results.first();
    reply.number = unsafe { exit_report(record.pointer(), length, block.as_ptr(), block.len(), answer) };
    reply
}

/// One report in the running phase.
pub fn step(session: &mut Session, random: &mut Random, trials: &mut Trials, tally: &mut Tally) {
    let report = any(session, random);
    let outcome = original(session, &report);
    let reply = trials.report(&mut session.ours, LENGTH, &report.block());
    session.check(tally, expected(&report, &outcome), reply, || format!("{report:x?}"));
}

/// A move to CR0 that turns paging on, with a RIP near the end and, mostly, an entry word that cannot follow: 17 comes before 8.
fn crowded_step(session: &mut Session, random: &mut Random, trials: &mut Trials, tally: &mut Tally) {
    if random.chance(80) {
        session.reference.kept.pairs[4] &= !(IA32E_MODE | IA32E_MODE << 32);
        session.oracle.store_capabilities(&session.reference.kept);
        session.place();
    }
    let mut report = any(session, random);
    (report.reason, report.qualification) = (CR_ACCESS, 0);
    (report.registers[0], report.efer) = (1 << 31 | random.word(), 0x100);
    report.rip = u64::MAX - random.below(8);
    let outcome = original(session, &report);
    let reply = trials.report(&mut session.ours, LENGTH, &report.block());
    session.check(tally, expected(&report, &outcome), reply, || format!("{report:x?}"));
}

/// An I/O size of 8: as the original, but the answer is Halt.
fn qword_step(session: &mut Session, random: &mut Random, trials: &mut Trials, tally: &mut Tally) {
    let mut report = any(session, random);
    report.reason = IO_INSTRUCTION;
    report.qualification = report.qualification & !STRING_OR_REPEATED | QWORD;
    let outcome = original(session, &report).map(|_| Answer::Halt);
    let reply = trials.report(&mut session.ours, LENGTH, &report.block());
    session.check(tally, expected(&report, &outcome), reply, || format!("{report:x?}"));
}

/// Makes a report that document 01 refuses and the original does not: the number.
pub fn spoil(session: &mut Session, random: &mut Random, report: &mut Report) -> u32 {
    match random.below(4) {
        0 => {
            report.reason = 1 << 31 | random.pick(&[0, 1, 7, 10, 12, 28, 30, 32, 35, 40, 42, 44, 55, 64]);
            REASON_REFUSED
        }
        1 => {
            let above = 65 + random.below(0xFFFF - 64) as u32;
            report.reason = report.reason & 0xFFFF_0000 | random.pick(&[65, 66, 67, 68, 69, above]);
            REASON_REFUSED
        }
        2 if spoil_masked_bit(session, random, report) => MASK_REFUSED,
        _ => {
            report.reason = 1;
            report.interruption_info = report.interruption_info & !0x700 | 0x8000_0100;
            TYPE_REFUSED
        }
    }
}

/// Changes a bit of CR0 or CR4 that the session's mask has, at a reason that is neither refused by 14 nor a failed entry's.
pub fn spoil_masked_bit(session: &mut Session, random: &mut Random, report: &mut Report) -> bool {
    let of_cr0 = random.chance(50);
    let mask = session.oracle.read_field(if of_cr0 { CR0_MASK } else { CR4_MASK }).expect("a field");
    let bits: Vec<u32> = (0..64).filter(|bit| mask >> bit & 1 != 0).collect();
    if bits.is_empty() || report.failed() || matches!(report.reason & 0xFFFF, 35 | 38 | 42) {
        return false;
    }
    let flipped = 1 << random.pick(&bits);
    *(if of_cr0 { &mut report.cr0 } else { &mut report.cr4 }) ^= flipped;
    true
}

/// A call that document 01 refuses: by what the report says, by the phase, or by the bytes.
fn refused_step(session: &mut Session, random: &mut Random, trials: &mut Trials, tally: &mut Tally) {
    let mut report = any(session, random);
    let mut number = spoil(session, random, &mut report);
    let mut ours = Buffer::new(2 * LENGTH);
    ours.content_mut()[..LENGTH].copy_from_slice(session.ours.content());
    let mut block = report.block();
    let mut length = LENGTH;
    match random.below(8) {
        0 => {
            let phases = [record::FRESH, record::READY, record::WAITING_PHASE, record::ENDED];
            ours.content_mut()[record::PHASE] = random.pick(&phases);
            number = PHASE_REFUSED;
        }
        1 => {
            length = choose::breakage(random, ours.content_mut());
            number = BYTES_REFUSED;
        }
        2 => {
            block.resize(random.pick(&[0, 1, block.len() - 1, block.len() + 1]), 0);
            number = BYTES_REFUSED;
        }
        _ => (),
    }
    let before = ours.content().to_vec();
    let reply = trials.report(&mut ours, length, &block);
    let same = ours.content() == before && ours.margins_intact() && reply == Reply::refused(number);
    tally.compare_number(number, same, || {
        format!("{report:x?}, lengths {length} and {}: expected {number}, port {}", block.len(), reply.text())
    });
}

pub fn run(random: &mut Random, cases: u64, totals: &mut Totals) {
    let mut tally = Tally::new("vcpu_exit_report");
    let mut outside = Tally::new("vcpu_exit_report, refusals and answers (document 01)");
    let mut session = Session::new();
    for i in 0..cases {
        if i % REPORTS == 0 {
            session.start(random);
        }
        session.put_phase(record::RUNNING);
        match random.below(40) {
            0..4 => refused_step(&mut session, random, &mut totals.trials, &mut outside),
            4..8 => qword_step(&mut session, random, &mut totals.trials, &mut outside),
            8 => crowded_step(&mut session, random, &mut totals.trials, &mut tally),
            _ => step(&mut session, random, &mut totals.trials, &mut tally),
        }
    }
    totals.add(tally);
    totals.add(outside);
}
