//! Sequences of the calls on a session: each call on the port's record and on the original in the same state. The number, the
//! results and every byte of the record are compared after each call: all 154 fields, registers, launched flag, waiting events, and
//! what document 01 adds (phase, counts, capability words) and document 02 (XCR0, its supported bits). After each call XCR0 is read too.
//!
//! Where the original can't be asked (`calls::outside`), the port must refuse with document 01's number and change nothing. These are
//! counted on lines of their own, and so are entries whose event is document 02's (`events.rs`).
//!
//! Before each entry of the port its trial is made (`trials.rs`).

use crate::archive;
use crate::buffer::Buffer;
use crate::calls::{self, Call, NAMES, Reply};
use crate::choose;
use crate::events::Met;
use crate::report;
use crate::tally::{Tally, Totals};
use crate::trials::Trials;
use oracle::generate::Random;
use oracle::record::{self, LENGTH, Reference};
use oracle::{Event, FRAME_BYTES, Oracle, State};

/// A sequence starts anew with another state after so many calls.
const CALLS: u64 = 100;
/// Places in `NAMES`.
const ENTRY: usize = 2;
const APIC_VALUE: usize = 3;
const WRITE_FIELD: usize = 5;

const CR0: u32 = 0x6800;
const CR0_READ_SHADOW: u32 = 0x6004;
/// Protection enable, in CR0.
const PE: u64 = 1;
const RFLAGS: u64 = 0x6820;
const INTERRUPT_FLAG: u64 = 0x200;
const INTERRUPTIBILITY: u64 = 0x4824;

/// The lines of the functions, in the order of `NAMES`.
pub struct Lines {
    inside: Vec<Tally>,
    outside: Vec<Tally>,
    /// Entries whose event is document 02's.
    events: Tally,
    met: Met,
}

impl Lines {
    fn new() -> Self {
        Lines {
            inside: NAMES.iter().map(|name| Tally::new(name)).collect(),
            outside: NAMES.iter().map(|name| Tally::new(&format!("{name}, refusals (document 01)"))).collect(),
            events: Tally::new("vcpu_entry, events of document 02"),
            met: Met::default(),
        }
    }

    fn add_to(self, totals: &mut Totals) {
        self.inside.into_iter().zip(self.outside).for_each(|(inside, outside)| {
            totals.add(inside);
            totals.add(outside);
        });
        totals.add(self.events);
        println!("entries by the event in front: {}", self.met.text());
    }

    /// The line of a call that the original is asked about.
    fn asked(&mut self, which: usize, call: Call, oracle: &Oracle) -> &mut Tally {
        if self.met.count(call, oracle) { &mut self.events } else { &mut self.inside[which] }
    }
}

/// The original and our record, in the same state.
pub struct Session {
    pub oracle: Oracle,
    pub reference: Reference,
    pub ours: Buffer,
    /// For records that are none: room for a wrong length.
    broken: Buffer,
}

impl Session {
    pub fn new() -> Self {
        let mut session = Session {
            oracle: Oracle::new(),
            reference: Reference::default(),
            ours: Buffer::new(LENGTH),
            broken: Buffer::new(2 * LENGTH),
        };
        session.place();
        session
    }

    /// Brings our record to where the original is.
    pub fn place(&mut self) {
        let image = record::image(&self.oracle, &self.reference);
        self.ours.content_mut().copy_from_slice(&image);
    }

    /// A state to start from: what the original's setup gives, or any.
    pub fn start(&mut self, random: &mut Random) {
        if random.chance(50) {
            self.start_new();
            self.set_up(random);
        } else {
            self.oracle.put(&choose::state(random));
            self.reference = choose::reference(random);
            self.oracle.store_capabilities(&self.reference.kept);
        }
        self.place();
    }

    pub fn start_new(&mut self) {
        *self = Session::new();
    }

    fn set_up(&mut self, random: &mut Random) {
        let setup = random.setup();
        if self.oracle.attempt(|oracle| oracle.setup(&setup)).is_ok() {
            self.reference.set_up(&setup);
        }
    }

    /// Compares our record, XCR0 as it is read from it, and the replies, and goes on from equal bytes.
    pub fn check(&mut self, tally: &mut Tally, expected: Reply, reply: Reply, what: impl FnOnce() -> String) {
        let image = record::image(&self.oracle, &self.reference);
        let read = calls::port(Call::GetXcr0, self.ours.pointer(), LENGTH);
        let read_same = read == Reply::accepted(&[(8, self.reference.xcr0)]);
        let bytes_same = self.ours.content() == image && self.ours.margins_intact();
        tally.compare_number(expected.number, bytes_same && read_same && expected == reply, || {
            let differences = record::differences(self.ours.content(), &image);
            let (wanted, given, read) = (expected.text(), reply.text(), read.text());
            format!("{}: expected {wanted}, port {given}; {differences:?}; XCR0 read: {read}", what())
        });
        if !bytes_same {
            self.ours = Buffer::new(LENGTH);
            self.place();
        }
    }

    /// One call on both sides.
    fn call(&mut self, trials: &mut Trials, lines: &mut Lines, which: usize, call: Call) {
        let (phase, waiting) = (self.reference.phase, self.oracle.events().len());
        let (tally, expected) = match calls::outside(call, self.ours.content(), LENGTH) {
            Some(number) => (&mut lines.outside[which], Reply::refused(number)),
            None => {
                let tally = lines.asked(which, call, &self.oracle);
                (tally, calls::original(call, &mut self.oracle, &mut self.reference))
            }
        };
        let reply = trials.call(call, &mut self.ours, LENGTH);
        self.check(tally, expected, reply, || format!("{call:x?} in phase {phase}, {waiting} events waiting"));
    }

    /// A call on bytes that are no record.
    fn call_on_broken(&mut self, random: &mut Random, trials: &mut Trials, tally: &mut Tally, call: Call) {
        self.broken.content_mut()[..LENGTH].copy_from_slice(self.ours.content());
        let length = choose::breakage(random, self.broken.content_mut());
        let before = self.broken.content().to_vec();
        let expected = Reply::refused(calls::outside(call, &before, length).expect("no record"));
        let reply = trials.call(call, &mut self.broken, length);
        let same = self.broken.content() == before && self.broken.margins_intact() && reply == expected;
        tally.compare_number(expected.number, same, || {
            let differences = record::differences(self.broken.content(), &before);
            let head = &before[..10];
            format!(
                "{call:x?} on no record, length {length}, first bytes {head:x?}: port {}; {differences:?}",
                reply.text()
            )
        });
    }

    fn step(&mut self, random: &mut Random, trials: &mut Trials, lines: &mut Lines, reports: &mut Tally) {
        let which = random.below(NAMES.len() as u64) as usize;
        let call = choose::call(random, which);
        self.prepare(random, trials, lines, reports, call);
        if random.chance(6) {
            self.call_on_broken(random, trials, &mut lines.outside[which], call);
        } else {
            self.call(trials, lines, which, call);
        }
    }

    /// Mostly brings the session to a phase in which the call is accepted; now and then to any.
    fn prepare(
        &mut self,
        random: &mut Random,
        trials: &mut Trials,
        lines: &mut Lines,
        reports: &mut Tally,
        call: Call,
    ) {
        if random.chance(8) {
            return self.put_phase(random.below(record::ENDED as u64 + 1) as u8);
        }
        match call {
            Call::Entry { .. } => {
                self.make_ready(random, trials, lines, reports);
                if random.chance(50) {
                    self.open_window(trials, lines);
                }
            }
            Call::ApicValue { .. } => self.put_phase(record::WAITING_PHASE),
            Call::QueueEvent { .. } | Call::InjectInterrupt { .. } if self.reference.phase == record::ENDED => {
                self.put_phase(random.below(record::ENDED as u64) as u8)
            }
            _ => (),
        }
    }

    /// From running by a report, from waiting by a value, else by the record's byte.
    fn make_ready(&mut self, random: &mut Random, trials: &mut Trials, lines: &mut Lines, reports: &mut Tally) {
        if self.reference.phase == record::RUNNING {
            report::step(self, random, trials, reports);
        }
        if self.reference.phase == record::WAITING_PHASE {
            self.call(trials, lines, APIC_VALUE, Call::ApicValue { value: random.word() });
        }
        self.put_phase(record::READY);
    }

    /// So that the next entry holds no event.
    fn open_window(&mut self, trials: &mut Trials, lines: &mut Lines) {
        for (encoding, value) in [(RFLAGS, INTERRUPT_FLAG), (INTERRUPTIBILITY, 0)] {
            self.call(trials, lines, WRITE_FIELD, Call::WriteField { encoding, value });
        }
    }

    pub fn put_phase(&mut self, phase: u8) {
        self.reference.phase = phase;
        self.ours.content_mut()[record::PHASE] = phase;
    }

    /// Any state in which the next entry has this event and this PE; the read shadow says the opposite of PE.
    fn place_event(&mut self, random: &mut Random, event: Event, protected: bool) {
        self.oracle.put(&State { events: vec![event], ..choose::state(random) });
        for (encoding, set) in [(CR0, protected), (CR0_READ_SHADOW, !protected)] {
            self.oracle.store_field(encoding, random.word() & !PE | set as u64);
        }
        self.reference = Reference { phase: record::READY, ..Reference::default() };
        self.place();
    }
}

/// An entry with each vector, with PE clear and set, with a code and without.
fn every_event(session: &mut Session, random: &mut Random, trials: &mut Trials, lines: &mut Lines) {
    for vector in 0..=255 {
        for (protected, coded) in [(false, false), (false, true), (true, false), (true, true)] {
            let code = coded.then(|| random.word32());
            session.place_event(random, (vector, code), protected);
            session.call(trials, lines, ENTRY, Call::Entry { host_stack: random.word() });
        }
    }
}

/// Calls until each function has about as many as `cases`.
pub fn run(random: &mut Random, cases: u64, totals: &mut Totals) {
    let mut lines = Lines::new();
    let mut reports = Tally::new("vcpu_exit_report, between other calls");
    let mut session = Session::new();
    every_event(&mut session, random, &mut totals.trials, &mut lines);
    for i in 0..cases * NAMES.len() as u64 {
        if i % CALLS == 0 {
            session.start(random);
        }
        session.step(random, &mut totals.trials, &mut lines, &mut reports);
    }
    lines.add_to(totals);
    totals.add(reports);
}

/// `vcpu_new`, on buffers of any bytes: the record and the frames of a new vCPU of the original.
pub fn run_new(random: &mut Random, cases: u64, totals: &mut Totals) {
    let Some(vcpu_new) = archive::vcpu_new() else { return };
    let mut tally = Tally::new("vcpu_new");
    let mut refused = Tally::new("vcpu_new, refusals (document 01)");
    let mut buffers = [LENGTH, FRAME_BYTES, FRAME_BYTES, FRAME_BYTES].map(|length| Buffer::new(2 * length));
    for _ in 0..cases {
        let lengths = lengths_of_new(random);
        let wrong = lengths != [LENGTH, FRAME_BYTES, FRAME_BYTES, FRAME_BYTES];
        fill(random, &mut buffers);
        let mut expected: Vec<Vec<u8>> = buffers.iter().map(|buffer| buffer.content().to_vec()).collect();
        if !wrong {
            let oracle = Oracle::new();
            expected[0][..LENGTH].copy_from_slice(&record::image(&oracle, &Reference::default()));
            for (bytes, frame) in expected[1..].iter_mut().zip(oracle.frames()) {
                bytes[..FRAME_BYTES].copy_from_slice(frame);
            }
        }
        let number = if wrong { calls::BYTES_REFUSED } else { 0 };
        let [r, a, b, m] = buffers.each_mut().map(|buffer| buffer.pointer());
        let answer = unsafe { vcpu_new(r, lengths[0], a, lengths[1], b, lengths[2], m, lengths[3]) };
        let same = buffers.iter().zip(&expected).all(|(ours, bytes)| ours.content() == bytes && ours.margins_intact());
        let tally = if wrong { &mut refused } else { &mut tally };
        tally.compare_number(number, same && answer == number, || {
            format!("lengths {lengths:?}: expected {number}, port {answer}, bytes as expected: {same}")
        });
    }
    totals.add(tally);
    totals.add(refused);
}

fn lengths_of_new(random: &mut Random) -> [usize; 4] {
    let mut lengths = [LENGTH, FRAME_BYTES, FRAME_BYTES, FRAME_BYTES];
    if random.chance(10) {
        let i = random.below(4) as usize;
        lengths[i] = random.pick(&[0, 1, lengths[i] - 1, lengths[i] + 1, 2 * lengths[i]]);
    }
    lengths
}

/// Bytes that are not 0, and a few of any kind.
fn fill(random: &mut Random, buffers: &mut [Buffer; 4]) {
    let byte = random.next() as u8 | 1;
    for buffer in buffers {
        buffer.content_mut().fill(byte);
        for _ in 0..16 {
            let at = random.below(buffer.content().len() as u64) as usize;
            buffer.content_mut()[at] = random.next() as u8;
        }
    }
}
