//! Whole sessions: a new one, its setup, and then calls of every kind until an entry fails. Nothing but the archive's own calls moves the
//! port's record and frames. After each call the number, the results, every byte of the record and of the three frames are compared. Before each call that
//! has a trial its trial is made (`trials.rs`).
//!
//! Some sessions are on a board without the TRUE words. Document 02 decides of them (`setup::used`), so all their calls are on a line of their own. So are
//! entries of other sessions whose event is document 02's (`events.rs`).

use crate::archive;
use crate::buffer::Buffer;
use crate::calls::{self, Call, Reply};
use crate::choose;
use crate::events::Met;
use crate::report;
use crate::session::Session;
use crate::setup;
use crate::tally::{Tally, Totals};
use crate::trials::{Accesses, MsrEdit, PortEdit, Trials};
use crate::xsetbv;
use oracle::generate::Random;
use oracle::record::{self, LENGTH};
use oracle::{Call as Original, FRAME_BYTES, Outcome, Report, refusal_number};

/// An exit for so many cases of the other comparisons.
const SHARE: u64 = 4;
/// A session is left after so many calls, if no entry failed before.
const CALLS: u64 = 400;
/// Its place in `calls::NAMES`.
const QUEUE_EVENT: usize = 0;
const REASONS: usize = 65;
const ANSWERS: usize = 12;
const FRAMES: [&str; 3] = ["I/O A", "I/O B", "MSR"];

/// Sessions in a hundred on a board without the TRUE words.
const OLDER_BOARDS: u64 = 20;

#[derive(Clone, Copy)]
enum Line {
    Calls,
    Reports,
    Xsetbv,
    Events,
    PlainWords,
}

/// In the order of `Line`.
const LINES: [&str; 5] = [
    "whole sessions, calls",
    "whole sessions, exit reports",
    "whole sessions, XSETBV (document 02)",
    "whole sessions, events of document 02",
    "whole sessions, plain words (document 02)",
];

/// The lines, and how often each reason and each answer occurred.
struct Counts {
    lines: [Tally; LINES.len()],
    /// Whether the session at hand is on a board without the TRUE words.
    older: bool,
    sessions: u64,
    exits: u64,
    reasons: [u64; REASONS],
    answers: [u64; ANSWERS],
    met: Met,
}

impl Counts {
    fn new() -> Self {
        Counts {
            lines: LINES.map(Tally::new),
            older: false,
            sessions: 0,
            exits: 0,
            reasons: [0; REASONS],
            answers: [0; ANSWERS],
            met: Met::default(),
        }
    }

    /// The line of a call of the session at hand.
    fn line(&mut self, line: Line) -> &mut Tally {
        let line = if self.older { Line::PlainWords } else { line };
        &mut self.lines[line as usize]
    }

    fn exit(&mut self, report: &Report, expected: &Reply) {
        self.exits += 1;
        if let Some(times) = self.reasons.get_mut((report.reason & 0xFFFF) as usize) {
            *times += 1;
        }
        if expected.number == 0 {
            self.answers[expected.results.words()[0] as usize] += 1;
        }
    }

    fn add_to(self, totals: &mut Totals) {
        let least = |times: &[u64]| *times.iter().min().expect("a count");
        println!(
            "whole sessions: {} sessions, {} exits; each reason from 0 to 64 at least {} times, each answer at least {} times",
            self.sessions,
            self.exits,
            least(&self.reasons),
            least(&self.answers)
        );
        println!("whole sessions: entries by the event in front: {}", self.met.text());
        self.lines.into_iter().for_each(|line| totals.add(line));
    }
}

struct Whole {
    session: Session,
    frames: [Buffer; 3],
    /// The frames as they must be.
    expected: [[u8; FRAME_BYTES]; 3],
}

impl Whole {
    /// `vcpu_new` on both sides.
    fn new(counts: &mut Counts) -> Self {
        let vcpu_new = archive::vcpu_new().expect("the function");
        let session = Session::new();
        let expected = session.oracle.frames().map(|frame| *frame);
        let mut whole = Whole { session, frames: [(); 3].map(|()| Buffer::new(FRAME_BYTES)), expected };
        let n = FRAME_BYTES;
        let [a, b, m] = whole.frames.each_mut().map(|frame| frame.pointer());
        whole.session.ours.content_mut().fill(0xA5);
        let r = whole.session.ours.pointer();
        let number = unsafe { vcpu_new(r, LENGTH, a, n, b, n, m, n) };
        counts.sessions += 1;
        whole.check(counts.line(Line::Calls), Reply::accepted(&[]), Reply::refused(number), || "vcpu_new".to_string());
        whole
    }

    /// Record and reply, then the frames; a difference is brought to where the original is.
    fn check(&mut self, tally: &mut Tally, expected: Reply, reply: Reply, what: impl Fn() -> String) {
        self.session.check(tally, expected, reply, &what);
        self.check_frames(tally, what);
    }

    fn check_frames(&mut self, tally: &mut Tally, what: impl Fn() -> String) {
        for (name, (ours, expected)) in FRAMES.into_iter().zip(self.frames.iter_mut().zip(&self.expected)) {
            if ours.content() != expected || !ours.margins_intact() {
                tally.compare(false, || format!("{}: the frame {name} is not as expected", what()));
                *ours = Buffer::new(FRAME_BYTES);
                ours.content_mut().copy_from_slice(expected);
            }
        }
    }

    fn set_up(&mut self, random: &mut Random, counts: &mut Counts) {
        let vcpu_setup = archive::vcpu_setup().expect("the function");
        let any = random.setup();
        let setup = if counts.older { setup::older_board(random, &any) } else { any };
        let used = setup::used(&setup);
        let outcome = self.session.oracle.attempt(|oracle| oracle.setup(&used));
        if outcome.is_ok() {
            self.session.reference.set_up(&used);
            self.expected = self.session.oracle.frames().map(|frame| *frame);
        }
        let block = setup.block();
        let n = FRAME_BYTES;
        let [a, b, m] = self.frames.each_mut().map(|frame| frame.pointer());
        let r = self.session.ours.pointer();
        let number = unsafe { vcpu_setup(r, LENGTH, block.as_ptr(), block.len(), a, n, b, n, m, n) };
        let tally = counts.line(Line::Calls);
        self.check(tally, done(Original::Setup, outcome), Reply::refused(number), || format!("{setup:x?}"));
    }

    fn report(&mut self, random: &mut Random, trials: &mut Trials, counts: &mut Counts) {
        let report = report::any(&mut self.session, random);
        let outcome = report::original(&mut self.session, &report);
        let expected = report::expected(&report, &outcome);
        counts.exit(&report, &expected);
        let reply = trials.report(&mut self.session.ours, LENGTH, &report.block());
        self.check(counts.line(Line::Reports), expected, reply, || format!("{report:x?}"));
    }

    /// XSETBV, of which document 02 decides.
    fn xsetbv(&mut self, random: &mut Random, trials: &mut Trials, counts: &mut Counts) {
        let report = xsetbv::near_report(&mut self.session, random);
        let expected = xsetbv::expected(&mut self.session, &report);
        counts.exit(&report, &expected);
        let reply = trials.report(&mut self.session.ours, LENGTH, &report.block());
        self.check(counts.line(Line::Xsetbv), expected, reply, || format!("{report:x?}"));
    }

    /// A report that document 01 refuses and the original does not: it changes nothing.
    fn refused_report(&mut self, random: &mut Random, trials: &mut Trials, tally: &mut Tally) {
        let mut report = report::any(&mut self.session, random);
        let number = report::spoil(&mut self.session, random, &mut report);
        let reply = trials.report(&mut self.session.ours, LENGTH, &report.block());
        self.check(tally, Reply::refused(number), reply, || format!("{report:x?}"));
    }

    fn edit_ports(&mut self, random: &mut Random, trials: &mut Trials, tally: &mut Tally) {
        let (port, count) = random.ports();
        let intercept = random.chance(60);
        let outcome = self.session.oracle.attempt(|oracle| oracle.set_io_intercept_of_range(port, count, intercept));
        self.expected = self.session.oracle.frames().map(|frame| *frame);
        let [a, b, _] = &mut self.frames;
        let edit = PortEdit { port, count, intercept: intercept as u8 };
        let number = trials.ports([a, b], [FRAME_BYTES; 2], edit);
        self.check(tally, done(Original::PortEdit, outcome), Reply::refused(number), || {
            format!("ports {port:#x}, {count:#x}, {intercept}")
        });
    }

    fn edit_msr(&mut self, random: &mut Random, trials: &mut Trials, tally: &mut Tally) {
        let (msr, intercept) = (random.msr(), random.chance(60));
        let accesses = random.pick(&[Accesses::Reads, Accesses::Writes, Accesses::Both]);
        let outcome = self.session.oracle.attempt(|oracle| match accesses {
            Accesses::Reads => oracle.set_read_intercept(msr, intercept),
            Accesses::Writes => oracle.set_write_intercept(msr, intercept),
            Accesses::Both => oracle.set_msr_intercept_of_range(msr, intercept),
        });
        self.expected = self.session.oracle.frames().map(|frame| *frame);
        let edit = MsrEdit { accesses, msr, intercept: intercept as u8 };
        let number = trials.msr(&mut self.frames[2], FRAME_BYTES, edit);
        self.check(tally, done(Original::MsrEdit, outcome), Reply::refused(number), || format!("{edit:x?}"));
    }

    /// A call on the session by its arguments, refused or not.
    fn call(&mut self, trials: &mut Trials, counts: &mut Counts, call: Call) {
        let phase = self.session.reference.phase;
        let Session { oracle, reference, ours, .. } = &mut self.session;
        let (line, expected) = match calls::outside(call, ours.content(), LENGTH) {
            Some(number) => (Line::Calls, Reply::refused(number)),
            None => {
                let line = if counts.met.count(call, oracle) { Line::Events } else { Line::Calls };
                (line, calls::original(call, oracle, reference))
            }
        };
        let reply = trials.call(call, ours, LENGTH);
        self.check(counts.line(line), expected, reply, || format!("{call:x?} in phase {phase}"));
    }

    /// The call that brings the session on, or another.
    fn step(&mut self, random: &mut Random, trials: &mut Trials, counts: &mut Counts) {
        let on = random.chance(50);
        match self.session.reference.phase {
            record::FRESH if on => self.set_up(random, counts),
            record::READY if on => self.call(trials, counts, Call::Entry { host_stack: random.word() }),
            record::RUNNING if on && random.chance(10) => self.xsetbv(random, trials, counts),
            record::RUNNING if on => self.report(random, trials, counts),
            record::RUNNING if random.chance(5) => self.refused_report(random, trials, counts.line(Line::Reports)),
            record::WAITING_PHASE if on => self.call(trials, counts, Call::ApicValue { value: random.word() }),
            _ => match random.below(10) {
                0 => self.edit_ports(random, trials, counts.line(Line::Calls)),
                1 => self.edit_msr(random, trials, counts.line(Line::Calls)),
                2 | 3 => self.call(trials, counts, choose::call(random, QUEUE_EVENT)),
                _ => {
                    let which = random.below(calls::NAMES.len() as u64) as usize;
                    self.call(trials, counts, choose::call(random, which));
                }
            },
        }
    }
}

fn done(call: Original, outcome: Outcome<()>) -> Reply {
    Reply::refused(match outcome {
        Ok(()) => 0,
        Err(failure) => refusal_number(call, &failure).expect("a number"),
    })
}

pub fn run(random: &mut Random, cases: u64, totals: &mut Totals) {
    let mut counts = Counts::new();
    while counts.exits < cases.div_ceil(SHARE) {
        counts.older = random.chance(OLDER_BOARDS);
        let mut whole = Whole::new(&mut counts);
        for i in 0..CALLS {
            whole.step(random, &mut totals.trials, &mut counts);
            if whole.session.reference.phase == record::ENDED && i % 8 == 7 {
                break;
            }
        }
    }
    counts.add_to(totals);
}
