//! The edits of the I/O and MSR bitmaps against the original's, on frames of random bytes: the number, and
//! every byte of every frame, after each edit.
//!
//! The original reaches 1,024 bytes of each I/O frame, and its types have no wrong length and no yes/no byte
//! other than 0 and 1. What document 01 says of these is compared on lines of their own.
//!
//! Before each edit of the port its trial is made (`trials.rs`).

use crate::archive;
use crate::buffer::Buffer;
use crate::tally::{Tally, Totals};
use crate::trials::{Accesses, MsrEdit, PortEdit, Trials};
use oracle::generate::Random;
use oracle::{Call, FRAME_BYTES, Oracle, Outcome, refusal_number};

/// A sequence of edits starts anew with other bytes after so many of them.
const EDITS: u64 = 200;
/// Lengths that document 01 refuses by 2.
const WRONG_LENGTHS: [usize; 5] = [0, 1, FRAME_BYTES - 1, FRAME_BYTES + 1, 2 * FRAME_BYTES];
const WRONG_LENGTH: u32 = 2;
const PORTS: u64 = 65_536;
const PAST_LAST_PORT: u32 = 10;

/// The port's frames and the original's, with equal bytes.
struct Frames {
    oracle: Oracle,
    /// I/O A, I/O B and MSR, each with room for a wrong length.
    ours: [Buffer; 3],
}

impl Frames {
    fn new() -> Self {
        Frames { oracle: Oracle::new(), ours: [(); 3].map(|()| Buffer::new(2 * FRAME_BYTES)) }
    }

    fn fill(&mut self, random: &mut Random) {
        let style = random.below(3);
        for (ours, theirs) in self.ours.iter_mut().zip(self.oracle.frames_mut()) {
            for byte in ours.content_mut() {
                *byte = [0x00, 0xFF, random.next() as u8][style as usize];
            }
            theirs.copy_from_slice(&ours.content()[..FRAME_BYTES]);
        }
    }

    /// The places where our bytes are not the original's, or where a byte beyond a frame changed.
    fn differences(&self, beyond: &[Vec<u8>; 3]) -> Vec<String> {
        let mut out = Vec::new();
        for (n, (ours, theirs)) in self.ours.iter().zip(self.oracle.frames()).enumerate() {
            let name = ["I/O A", "I/O B", "MSR"][n];
            let (frame, rest) = ours.content().split_at(FRAME_BYTES);
            if frame != theirs {
                let i = (0..FRAME_BYTES).find(|&i| frame[i] != theirs[i]).expect("a byte");
                out.push(format!("{name} byte {i} is {:#04x} and not {:#04x}", frame[i], theirs[i]));
            }
            if rest != beyond[n] || !ours.margins_intact() {
                out.push(format!("memory outside {name} changed"));
            }
        }
        out
    }

    fn beyond(&self) -> [Vec<u8>; 3] {
        [0, 1, 2].map(|n| self.ours[n].content()[FRAME_BYTES..].to_vec())
    }

    /// One edit on both sides. A refused edit of the original is undone.
    fn edit(
        &mut self,
        tally: &mut Tally,
        beyond: &[Vec<u8>; 3],
        call: Call,
        what: &str,
        original: impl FnOnce(&mut Oracle) -> Outcome<()>,
        port: impl FnOnce(&mut [Buffer; 3]) -> u32,
    ) {
        let number = match self.oracle.attempt(original) {
            Ok(()) => 0,
            Err(failure) => refusal_number(call, &failure).expect("a number"),
        };
        self.check(tally, beyond, what, number, port);
    }

    /// Our side of an edit: the number must be this one, and the bytes those of the original's frames.
    fn check(
        &mut self,
        tally: &mut Tally,
        beyond: &[Vec<u8>; 3],
        what: &str,
        number: u32,
        port: impl FnOnce(&mut [Buffer; 3]) -> u32,
    ) {
        let answer = port(&mut self.ours);
        let differences = self.differences(beyond);
        tally.compare(answer == number && differences.is_empty(), || {
            format!("{what}: expected {number}, port {answer}; {differences:?}")
        });
        // Go on from equal bytes.
        if !differences.is_empty() {
            for (ours, theirs) in self.ours.iter_mut().zip(self.oracle.frames()) {
                ours.content_mut()[..FRAME_BYTES].copy_from_slice(theirs);
            }
        }
    }
}

/// A yes/no byte; neither 0 nor 1 where nothing else is wrong.
fn wrong_yes_no(random: &mut Random, nothing_else_wrong: bool) -> u8 {
    let any = 2 + random.below(254) as u8;
    if nothing_else_wrong || random.chance(10) { random.pick(&[2, 3, 255, any]) } else { random.below(2) as u8 }
}

/// Runs `step` for so many cases, on frames that are filled anew now and then.
fn each_case(random: &mut Random, cases: u64, mut step: impl FnMut(&mut Random, &mut Frames, &[Vec<u8>; 3])) {
    let mut frames = Frames::new();
    let mut beyond = frames.beyond();
    for case in 0..cases {
        if case % EDITS == 0 {
            frames.fill(random);
            beyond = frames.beyond();
        }
        step(random, &mut frames, &beyond);
    }
}

fn call_ports(trials: &mut Trials, ours: &mut [Buffer; 3], lengths: [usize; 2], edit: PortEdit) -> u32 {
    let [a, b, _] = ours;
    trials.ports([a, b], lengths, edit)
}

fn ports(random: &mut Random, cases: u64, totals: &mut Totals) {
    const WHOLE: [usize; 2] = [FRAME_BYTES; 2];
    let name = "vcpu_set_io_intercept_of_range";
    let mut tally = Tally::new(name);
    each_case(random, cases, |random, frames, beyond| {
        let ((port, count), on) = (random.comparable_ports(), random.chance(50));
        frames.edit(
            &mut tally,
            beyond,
            Call::PortEdit,
            &format!("port {port:#x} count {count:#x} {on}"),
            |oracle| oracle.set_io_intercept_of_range(port, count, on),
            |ours| call_ports(&mut totals.trials, ours, WHOLE, PortEdit { port, count, intercept: on as u8 }),
        );
    });
    totals.add(tally);

    // Port p is bit p mod 8 of byte p / 8 in A, or of (p - 0x8000) / 8 in B from 0x8000 on.
    let mut tally = Tally::new(&format!("{name}, all ports (document 01)"));
    each_case(random, cases / 4, |random, frames, beyond| {
        let port = if random.chance(90) { random.below(PORTS + 40) } else { random.word() & 0xFFFF_FFFF };
        let count = match random.below(10) {
            0 => random.word() & 0xFFFF_FFFF,
            1 => PORTS.saturating_sub(port) + random.below(3).saturating_sub(1),
            2 => random.below(PORTS),
            _ => random.below(40),
        };
        let on = random.chance(50);
        let number = if count > 0 && port + count > PORTS { PAST_LAST_PORT } else { 0 };
        if number == 0 {
            for p in port..port + count {
                let [a, b, _] = frames.oracle.frames_mut();
                let (frame, p) = if p < 0x8000 { (a, p as usize) } else { (b, p as usize - 0x8000) };
                let bit = 1 << (p % 8);
                frame[p / 8] = if on { frame[p / 8] | bit } else { frame[p / 8] & !bit };
            }
        }
        frames.check(&mut tally, beyond, &format!("port {port:#x} count {count:#x} {on}"), number, |ours| {
            let edit = PortEdit { port: port as u32, count: count as u32, intercept: on as u8 };
            call_ports(&mut totals.trials, ours, WHOLE, edit)
        });
    });
    totals.add(tally);

    let mut tally = Tally::new(&format!("{name}, lengths and yes/no (document 01)"));
    each_case(random, cases / 16, |random, frames, beyond| {
        let wrong = random.pick(&WRONG_LENGTHS);
        let lengths = random.pick(&[[wrong, FRAME_BYTES], [FRAME_BYTES, wrong], [wrong, wrong], WHOLE]);
        let intercept = wrong_yes_no(random, lengths == WHOLE);
        let (port, count) = (random.below(PORTS + 40) as u32, random.below(40) as u32);
        let what = format!("lengths {lengths:?} port {port:#x} count {count:#x} intercept {intercept}");
        let edit = PortEdit { port, count, intercept };
        frames
            .check(&mut tally, beyond, &what, WRONG_LENGTH, |ours| call_ports(&mut totals.trials, ours, lengths, edit));
    });
    totals.add(tally);
}

type Original = fn(&mut Oracle, u32, bool) -> Outcome<()>;

fn msrs(random: &mut Random, cases: u64, totals: &mut Totals, name: &str, accesses: Accesses, original: Original) {
    let call = |trials: &mut Trials, ours: &mut [Buffer; 3], length: usize, msr: u32, intercept: u8| {
        trials.msr(&mut ours[2], length, MsrEdit { accesses, msr, intercept })
    };
    let mut tally = Tally::new(name);
    each_case(random, cases, |random, frames, beyond| {
        let (msr, on) = (random.msr(), random.chance(50));
        frames.edit(
            &mut tally,
            beyond,
            Call::MsrEdit,
            &format!("MSR {msr:#x} {on}"),
            |oracle| original(oracle, msr, on),
            |ours| call(&mut totals.trials, ours, FRAME_BYTES, msr, on as u8),
        );
    });
    totals.add(tally);

    let mut tally = Tally::new(&format!("{name}, lengths and yes/no (document 01)"));
    each_case(random, cases / 16, |random, frames, beyond| {
        let length = if random.chance(50) { random.pick(&WRONG_LENGTHS) } else { FRAME_BYTES };
        let intercept = wrong_yes_no(random, length == FRAME_BYTES);
        let msr = random.msr();
        let what = format!("length {length} MSR {msr:#x} intercept {intercept}");
        frames.check(&mut tally, beyond, &what, WRONG_LENGTH, |ours| {
            call(&mut totals.trials, ours, length, msr, intercept)
        });
    });
    totals.add(tally);
}

pub fn run_ports(random: &mut Random, cases: u64, totals: &mut Totals) {
    if archive::vcpu_set_io_intercept_of_range().is_some() {
        ports(random, cases, totals);
    }
}

pub fn run_reads(random: &mut Random, cases: u64, totals: &mut Totals) {
    if archive::vcpu_set_read_intercept().is_some() {
        msrs(random, cases, totals, "vcpu_set_read_intercept", Accesses::Reads, Oracle::set_read_intercept);
    }
}

pub fn run_writes(random: &mut Random, cases: u64, totals: &mut Totals) {
    if archive::vcpu_set_write_intercept().is_some() {
        msrs(random, cases, totals, "vcpu_set_write_intercept", Accesses::Writes, Oracle::set_write_intercept);
    }
}

pub fn run_both(random: &mut Random, cases: u64, totals: &mut Totals) {
    if archive::vcpu_set_msr_intercept_of_range().is_some() {
        let name = "vcpu_set_msr_intercept_of_range";
        msrs(random, cases, totals, name, Accesses::Both, Oracle::set_msr_intercept_of_range);
    }
}
