//! Exits for XSETBV by document 02 (N1). The original refuses every value of XCR0, so it is not asked what becomes of one: the rule stands
//! here, written from the request. What an accepted exit stores is what the original stores at an exit of HLT that reports the same; the
//! reason, RIP and XCR0 are document 02's. Every byte of the record is compared, and `vcpu_get_xcr0` after each call (`Session::check`).

use crate::calls::{PHASE_REFUSED, Reply};
use crate::report;
use crate::session::Session;
use crate::tally::{Tally, Totals};
use crate::trials::Trials;
use oracle::generate::Random;
use oracle::record::{self, LENGTH};
use oracle::{Answer, Report};

/// A session starts anew after so many sets of bits, or exits.
const EXITS: usize = 10;

const HLT: u32 = 12;
const XSETBV: u32 = 55;
const INSTRUCTION_BYTES: u64 = 3;
const REASON: u32 = 0x4402;
const RIP: u32 = 0x681E;

const REASON_REFUSED: u32 = 14;
const MASK_REFUSED: u32 = 15;
const SUM_REFUSED: u32 = 17;
const VALUE_REFUSED: u32 = 19;
const REGISTER_REFUSED: u32 = 20;

/// Bits of XCR0 by what they enable.
const X87: u64 = 1;
const SSE: u64 = 1 << 1;
const AVX: u64 = 1 << 2;
const MPX: u64 = 0b11 << 3;
const AVX_512: u64 = 0b111 << 5;
const AMX: u64 = 0b11 << 17;
/// The places of the bits that the rule names.
const NAMED: [u32; 10] = [0, 1, 2, 3, 4, 5, 6, 7, 17, 18];
/// Supported words of document 02's edges.
const SUPPORTED: [u64; 8] = [0, 6, 7, 0x1F, 0xE7, 0x207, 0x6_0007, u64::MAX];

/// Document 02's rule, clause by clause.
fn allowed(supported: u64, value: u64) -> bool {
    let all = |bits: u64| value & bits == bits;
    let none = |bits: u64| value & bits == 0;
    let a = all(X87);
    let b = none(AVX) || all(SSE);
    let c = all(MPX) || none(MPX);
    let d = all(AVX_512) || none(AVX_512);
    let e = none(AVX_512) || all(AVX);
    let f = all(AMX) || none(AMX);
    let g = value & !supported == 0;
    a && b && c && d && e && f && g
}

/// EDX:EAX.
fn value_of(report: &Report) -> u64 {
    let [eax, _, edx] = [0, 1, 2].map(|i| report.registers[i] & 0xFFFF_FFFF);
    edx << 32 | eax
}

/// Whether a bit of CR0 or CR4 that the host owns differs from the session's.
fn owned_bits_differ(session: &mut Session, report: &Report) -> bool {
    [(0x6800, 0x6000, report.cr0), (0x6804, 0x6002, report.cr4)].into_iter().any(|(register, mask, reported)| {
        let mut field = |encoding| session.oracle.read_field(encoding).expect("a field");
        (field(register) ^ reported) & field(mask) != 0
    })
}

/// The number of a report of this reason, in document 02's order; 0 where it is accepted.
fn number(session: &mut Session, report: &Report) -> u32 {
    let refusals = [
        (session.reference.phase != record::RUNNING, PHASE_REFUSED),
        (report.failed(), REASON_REFUSED),
        (owned_bits_differ(session, report), MASK_REFUSED),
        (report.registers[1] & 0xFFFF_FFFF != 0, REGISTER_REFUSED),
        (!allowed(session.reference.supported, value_of(report)), VALUE_REFUSED),
        (report.rip > u64::MAX - INSTRUCTION_BYTES, SUM_REFUSED),
    ];
    refusals.into_iter().find(|refusal| refusal.0).map_or(0, |refusal| refusal.1)
}

/// The reply that the port must give, and the session brought to what must then be stored.
pub fn expected(session: &mut Session, report: &Report) -> Reply {
    let number = number(session, report);
    if number != 0 {
        return Reply::refused(number);
    }
    let stored = report::original(session, &Report { reason: HLT, ..report.clone() });
    assert_eq!(stored, Ok(Answer::Halt));
    session.oracle.store_field(REASON, report.reason as u64);
    session.oracle.store_field(RIP, report.rip + INSTRUCTION_BYTES);
    session.reference.xcr0 = value_of(report);
    Reply::accepted(&Answer::Nothing.words().map(|word| (8, word)))
}

/// A report of this exit and this value, with anything in the registers' high halves.
fn report_of(session: &mut Session, random: &mut Random, value: u64) -> Report {
    let mut report = report::any(session, random);
    report.reason = report.reason & 0x7FFF_0000 | XSETBV;
    report.registers[0] = random.word() << 32 | value & 0xFFFF_FFFF;
    report.registers[1] = random.word() << 32;
    report.registers[2] = random.word() << 32 | value >> 32;
    report
}

/// A value within the supported bits that passes if bit 0 is supported; one bit of it changed; or any.
fn near_value(random: &mut Random, supported: u64) -> u64 {
    let groups = [SSE, SSE | AVX, MPX, SSE | AVX | AVX_512, AMX, 1 << random.pick(&[8, 9, 16, 19, 62, 63])];
    let within = groups.into_iter().filter(|group| group & !supported == 0);
    let value = within.fold(X87, |value, group| if random.chance(50) { value | group } else { value });
    match random.below(8) {
        0..3 => value ^ 1 << random.pick(&NAMED),
        3 => value ^ 1 << random.below(64),
        4 => random.word(),
        _ => value,
    }
}

/// A report near the rule; now and then of another register, with a RIP near the end, of a failed entry, with an owned bit changed.
pub fn near_report(session: &mut Session, random: &mut Random) -> Report {
    let value = near_value(random, session.reference.supported);
    let mut report = report_of(session, random, value);
    if random.chance(10) {
        report.registers[1] = random.word();
    }
    if random.chance(25) {
        report.rip = u64::MAX - random.below(8);
    }
    match random.below(40) {
        0 => report.reason |= 1 << 31,
        1 => {
            report::spoil_masked_bit(session, random, &mut report);
        }
        _ => (),
    }
    report
}

/// One report: what the port does, and what it must do.
fn compare(session: &mut Session, report: &Report, trials: &mut Trials, tally: &mut Tally) {
    let (supported, before) = (session.reference.supported, session.reference.xcr0);
    let expected = expected(session, report);
    let reply = trials.report(&mut session.ours, LENGTH, &report.block());
    session.check(tally, expected, reply, || format!("supported {supported:#x}, XCR0 {before:#x}, {report:x?}"));
}

/// A session in the running phase, with any XCR0 and this supported word.
fn place(session: &mut Session, random: &mut Random, supported: u64) {
    session.reference.supported = supported;
    session.reference.xcr0 = random.word();
    session.reference.phase = record::RUNNING;
    session.place();
}

/// A set of the named bits, alone and with one of the other bits, under the edges' words, the value itself, and each word that lacks one
/// bit of it alone.
fn compare_set(session: &mut Session, random: &mut Random, chosen: usize, trials: &mut Trials, tally: &mut Tally) {
    let places = NAMED.iter().enumerate().filter(|(i, _)| chosen >> i & 1 != 0);
    let named = places.fold(0, |value, (_, bit)| value | 1u64 << bit);
    let others: Vec<u32> = (0..64).filter(|bit| !NAMED.contains(bit)).collect();
    for value in [named, named | 1 << others[chosen % others.len()]] {
        let bits = (0..64).map(|bit| 1u64 << bit).filter(|bit| value & bit != 0);
        for supported in SUPPORTED.into_iter().chain([value]).chain(bits.map(|bit| !bit)) {
            place(session, random, supported);
            let report = report_of(session, random, value);
            compare(session, &report, trials, tally);
        }
    }
}

pub fn run(random: &mut Random, cases: u64, totals: &mut Totals) {
    let mut tally = Tally::new("vcpu_exit_report, XSETBV (document 02)");
    let mut session = Session::new();
    for chosen in 0..1 << NAMED.len() {
        if chosen % EXITS == 0 {
            session.start(random);
        }
        compare_set(&mut session, random, chosen, &mut totals.trials, &mut tally);
    }
    for i in 0..cases {
        if i % EXITS as u64 == 0 {
            session.start(random);
        }
        let supported = random.xcr0_supported();
        place(&mut session, random, supported);
        if random.chance(3) {
            session.put_phase(random.pick(&[record::FRESH, record::READY, record::WAITING_PHASE, record::ENDED]));
        }
        let report = near_report(&mut session, random);
        compare(&mut session, &report, &mut totals.trials, &mut tally);
    }
    totals.add(tally);
}
