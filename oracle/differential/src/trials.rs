//! The trials, each made right before its call: the number, the bytes that it shows and its results must be what the call then answers and leaves, and the
//! first buffers stay as they are. The original has no trials. A trial is compared with the port's own call, and the other comparisons compare that call
//! with the original.
//!
//! Second buffers hold random bytes before. Some have another length than their first: the number is then 25, unless the call's is 2. The first buffers of
//! most trials are those of the other comparisons, whole sessions among them.

use crate::archive;
use crate::buffer::Buffer;
use crate::calls::{self, BYTES_REFUSED, Call, Reply};
use crate::report;
use crate::tally::{Tally, Totals};
use oracle::generate::Random;
use oracle::record::{self, LENGTH, Reference};
use oracle::samples::{self, usual_setup};
use oracle::{FRAME_BYTES, Report};

pub const NAMES: [&str; 6] = [
    "vcpu_try_exit_report",
    "vcpu_try_entry",
    "vcpu_try_io_intercept_of_range",
    "vcpu_try_read_intercept",
    "vcpu_try_write_intercept",
    "vcpu_try_msr_intercept_of_range",
];

/// What each line must have expected, in the order of `NAMES`.
const NUMBERS: [&[u32]; NAMES.len()] = [
    &[0, 1, 2, 8, 14, 15, 16, 17, 18, 19, 20, 21, SHOWN_REFUSED],
    &[0, 1, 2, 22, SHOWN_REFUSED],
    &[0, 2, 10, SHOWN_REFUSED],
    &[0, 2, 11, SHOWN_REFUSED],
    &[0, 2, 11, SHOWN_REFUSED],
    &[0, 2, 11, SHOWN_REFUSED],
];

/// Document 02's number for a second buffer whose length is not its first's.
const SHOWN_REFUSED: u32 = 25;

/// Second buffers in a hundred whose length is chosen apart from the first's.
const OTHER_LENGTHS: u64 = 12;

#[derive(Clone, Copy)]
enum Line {
    Report,
    Entry,
    Ports,
    Reads,
    Writes,
    ReadsAndWrites,
}

/// An edit of the intercepts of ports.
#[derive(Clone, Copy, Debug)]
pub struct PortEdit {
    pub port: u32,
    pub count: u32,
    pub intercept: u8,
}

/// An edit of the intercepts of one MSR.
#[derive(Clone, Copy, Debug)]
pub struct MsrEdit {
    pub accesses: Accesses,
    pub msr: u32,
    pub intercept: u8,
}

#[derive(Clone, Copy, Debug)]
pub enum Accesses {
    Reads,
    Writes,
    Both,
}

impl Accesses {
    fn line(self) -> Line {
        match self {
            Accesses::Reads => Line::Reads,
            Accesses::Writes => Line::Writes,
            Accesses::Both => Line::ReadsAndWrites,
        }
    }

    /// The call.
    fn edit(self) -> unsafe extern "C" fn(*mut u8, usize, u32, u8) -> u32 {
        let edit = match self {
            Accesses::Reads => archive::vcpu_set_read_intercept(),
            Accesses::Writes => archive::vcpu_set_write_intercept(),
            Accesses::Both => archive::vcpu_set_msr_intercept_of_range(),
        };
        edit.expect("the function")
    }

    fn trial(self) -> unsafe extern "C" fn(*const u8, usize, *mut u8, usize, u32, u8) -> u32 {
        let trial = match self {
            Accesses::Reads => archive::vcpu_try_read_intercept(),
            Accesses::Writes => archive::vcpu_try_write_intercept(),
            Accesses::Both => archive::vcpu_try_msr_intercept_of_range(),
        };
        trial.expect("the function")
    }
}

/// A second buffer, with room for another length.
struct Shown {
    buffer: Buffer,
    /// What it held before the trial.
    before: Vec<u8>,
    /// The length that the trial is told.
    length: usize,
}

impl Shown {
    /// With room for twice this length, in whole words.
    fn new(length: usize) -> Self {
        let room = (2 * length).next_multiple_of(8);
        Shown { buffer: Buffer::new(room), before: vec![0; room], length }
    }

    /// Random bytes, of which so many are lent: words that start and step at random, since a random number for each takes longer than the trial.
    fn lend(&mut self, random: &mut Random, length: usize) {
        let (mut number, step) = (random.next(), random.next() | 1);
        for word in self.before.chunks_exact_mut(8) {
            word.copy_from_slice(&number.to_le_bytes());
            number = number.wrapping_add(step);
        }
        self.buffer.content_mut().copy_from_slice(&self.before);
        self.length = length;
    }

    /// Where it is not so that these bytes are written and no other.
    fn difference(&self, written: &[u8]) -> Option<String> {
        let content = self.buffer.content();
        let kept = &self.before[written.len()..];
        if content[..written.len()] != *written || content[written.len()..] != *kept {
            let expected = written.iter().chain(kept);
            let (at, (byte, wanted)) =
                content.iter().zip(expected).enumerate().find(|(_, (byte, wanted))| byte != wanted)?;
            return Some(format!("byte {at} is {byte:#04x} and not {wanted:#04x}"));
        }
        (!self.buffer.margins_intact()).then(|| "memory around it changed".to_string())
    }
}

/// What a trial is lent of a first buffer and of its second.
struct Lent {
    first: *const u8,
    length: usize,
    shown: *mut u8,
    shown_length: usize,
}

/// A trial and then its call, on first buffers of these lengths. `trial` gets the place of the results. The call's reply.
fn compare<const N: usize>(
    tally: &mut Tally,
    shown: &mut [Shown; N],
    mut firsts: [&mut Buffer; N],
    lengths: [usize; N],
    trial: impl FnOnce([Lent; N], *mut u64) -> u32,
    call: impl FnOnce(&mut [&mut Buffer; N]) -> Reply,
    what: impl FnOnce() -> String,
) -> Reply {
    let before = firsts.each_ref().map(|first| first.content().to_vec());
    let lent = std::array::from_fn(|i| Lent {
        first: firsts[i].pointer().cast_const(),
        length: lengths[i],
        shown: shown[i].buffer.pointer(),
        shown_length: shown[i].length,
    });
    let mut tried = Reply::refused(0);
    tried.number = trial(lent, tried.results.first());
    let kept = firsts.iter().zip(&before).all(|(first, bytes)| first.content() == bytes && first.margins_intact());
    let reply = call(&mut firsts);
    let shown_lengths = shown.each_ref().map(|shown| shown.length);
    let number = match reply.number {
        BYTES_REFUSED => BYTES_REFUSED,
        _ if shown_lengths != lengths => SHOWN_REFUSED,
        number => number,
    };
    let accepted = number == 0;
    let expected = if accepted { reply.clone() } else { Reply::refused(number) };
    let left = |i: usize| if accepted { &firsts[i].content()[..lengths[i]] } else { &[] };
    let wrong: Vec<String> = shown.iter().enumerate().filter_map(|(i, shown)| shown.difference(left(i))).collect();
    tally.compare_number(number, tried == expected && wrong.is_empty() && kept, || {
        let (expected, tried) = (expected.text(), tried.text());
        format!(
            "lengths {lengths:?} and {shown_lengths:?}: expected {expected}, port {tried}; second buffers: {wrong:?}, first ones kept: \
            {kept}; {}",
            what()
        )
    });
    reply
}

fn lines() -> [Tally; NAMES.len()] {
    NAMES.map(|name| Tally::new(&format!("{name}, beside its call (document 02)")))
}

/// The trials of all comparisons. They have random numbers of their own, so that the calls beside them are the same without them.
pub struct Trials {
    random: Random,
    lines: [Tally; NAMES.len()],
    record: [Shown; 1],
    frame: [Shown; 1],
    frames: [Shown; 2],
}

impl Trials {
    pub fn new(random: Random) -> Self {
        let frame = || Shown::new(FRAME_BYTES);
        Trials { random, lines: lines(), record: [Shown::new(LENGTH)], frame: [frame()], frames: [frame(), frame()] }
    }

    /// The length of a second buffer: that of its first, or any. The call asks for the length `whole`.
    fn beside(&mut self, first: usize, whole: usize) -> usize {
        let room = 2 * whole;
        if self.random.chance(OTHER_LENGTHS) {
            self.random.pick(&[0, 1, first.saturating_sub(1), room.min(first + 1), whole, room])
        } else {
            first
        }
    }

    /// A report, after its trial.
    pub fn report(&mut self, record: &mut Buffer, length: usize, block: &[u8]) -> Reply {
        let shown_length = self.beside(length, LENGTH);
        self.report_with(shown_length, record, length, block)
    }

    fn report_with(&mut self, shown_length: usize, record: &mut Buffer, length: usize, block: &[u8]) -> Reply {
        let try_report = archive::vcpu_try_exit_report().expect("the function");
        let Trials { random, lines, record: shown, .. } = self;
        shown[0].lend(random, shown_length);
        let mut read = Buffer::new(block.len());
        read.content_mut().copy_from_slice(block);
        let reply = compare(
            &mut lines[Line::Report as usize],
            shown,
            [record],
            [length],
            |[lent], answer| {
                let Lent { first, length, shown, shown_length } = lent;
                unsafe { try_report(first, length, shown, shown_length, read.pointer(), block.len(), answer) }
            },
            |[record]| report::port(record, length, block),
            || format!("block {block:x?}"),
        );
        if read.content() != block || !read.margins_intact() {
            lines[Line::Report as usize].compare(false, || "the block changed".to_string());
        }
        reply
    }

    /// A call, after its trial if it has one.
    pub fn call(&mut self, call: Call, record: &mut Buffer, length: usize) -> Reply {
        match call {
            Call::Entry { host_stack } => {
                let shown_length = self.beside(length, LENGTH);
                self.entry_with(shown_length, record, length, host_stack)
            }
            _ => calls::port(call, record.pointer(), length),
        }
    }

    fn entry_with(&mut self, shown_length: usize, record: &mut Buffer, length: usize, host_stack: u64) -> Reply {
        let try_entry = archive::vcpu_try_entry().expect("the function");
        let Trials { random, lines, record: shown, .. } = self;
        shown[0].lend(random, shown_length);
        compare(
            &mut lines[Line::Entry as usize],
            shown,
            [record],
            [length],
            |[lent], resumed| {
                let Lent { first, length, shown, shown_length } = lent;
                let event = unsafe { resumed.add(1) };
                unsafe { try_entry(first, length, shown, shown_length, host_stack, resumed.cast(), event.cast()) }
            },
            |[record]| calls::port(Call::Entry { host_stack }, record.pointer(), length),
            || format!("stack {host_stack:#x}"),
        )
    }

    /// An edit of ports, after its trial: the call's number.
    pub fn ports(&mut self, frames: [&mut Buffer; 2], lengths: [usize; 2], edit: PortEdit) -> u32 {
        let shown_lengths = lengths.map(|length| self.beside(length, FRAME_BYTES));
        self.ports_with(shown_lengths, frames, lengths, edit)
    }

    fn ports_with(
        &mut self,
        shown_lengths: [usize; 2],
        frames: [&mut Buffer; 2],
        lengths: [usize; 2],
        edit: PortEdit,
    ) -> u32 {
        let set_ports = archive::vcpu_set_io_intercept_of_range().expect("the function");
        let try_ports = archive::vcpu_try_io_intercept_of_range().expect("the function");
        let PortEdit { port, count, intercept } = edit;
        let Trials { random, lines, frames: shown, .. } = self;
        shown.iter_mut().zip(shown_lengths).for_each(|(shown, length)| shown.lend(random, length));
        let reply = compare(
            &mut lines[Line::Ports as usize],
            shown,
            frames,
            lengths,
            |[a, b], _| unsafe {
                try_ports(
                    a.first,
                    a.length,
                    b.first,
                    b.length,
                    a.shown,
                    a.shown_length,
                    b.shown,
                    b.shown_length,
                    port,
                    count,
                    intercept,
                )
            },
            |[a, b]| {
                let (a, b) = (a.pointer(), b.pointer());
                Reply::refused(unsafe { set_ports(a, lengths[0], b, lengths[1], port, count, intercept) })
            },
            || format!("{edit:x?}"),
        );
        reply.number
    }

    /// An edit of one MSR, after its trial: the call's number.
    pub fn msr(&mut self, frame: &mut Buffer, length: usize, edit: MsrEdit) -> u32 {
        let shown_length = self.beside(length, FRAME_BYTES);
        self.msr_with(shown_length, frame, length, edit)
    }

    fn msr_with(&mut self, shown_length: usize, frame: &mut Buffer, length: usize, edit: MsrEdit) -> u32 {
        let MsrEdit { accesses, msr, intercept } = edit;
        let (set_msr, try_msr) = (accesses.edit(), accesses.trial());
        let Trials { random, lines, frame: shown, .. } = self;
        shown[0].lend(random, shown_length);
        let reply = compare(
            &mut lines[accesses.line() as usize],
            shown,
            [frame],
            [length],
            |[lent], _| unsafe { try_msr(lent.first, lent.length, lent.shown, lent.shown_length, msr, intercept) },
            |[frame]| Reply::refused(unsafe { set_msr(frame.pointer(), length, msr, intercept) }),
            || format!("{edit:x?}"),
        );
        reply.number
    }
}

/// Lengths of a first and of a second buffer, where the call asks for `whole`.
fn lengths(whole: usize) -> impl Iterator<Item = (usize, usize)> {
    let firsts = [0, whole - 1, whole, whole + 1];
    let seconds = [0, 1, whole - 1, whole, whole + 1, 2 * whole];
    firsts.into_iter().flat_map(move |first| seconds.map(|second| (first, second)))
}

/// Reports on a running session whose entry pair lacks bit 9: two that are accepted, and one for each number that comes after the phase's.
const REPORTS: [fn(&mut Report); 11] = [
    |_| (),
    |r| (r.reason, r.registers[1]) = (31, 0x802),
    |r| r.reason = 35,
    |r| r.cr0 ^= 0x20,
    |r| r.reason = 1,
    |r| (r.reason, r.qualification) = (28, 3),
    |r| (r.reason, r.registers[1]) = (55, 1),
    |r| r.reason = 55,
    |r| r.reason = 44,
    |r| (r.reason, r.rip) = (10, u64::MAX),
    |r| (r.reason, r.efer, r.registers[0]) = (28, 0x100, 0x8000_0001),
];
const HLT: u32 = 12;
const ENTRY_PAIR: usize = record::KEPT + 4 * 8;
const WITHOUT_BIT_9: u64 = 0xFFFF_FDFF << 32;

/// Each number beside each of the lengths, on records.
fn record_edges(trials: &mut Trials) {
    let mut oracle = samples::ready();
    let mut reference = Reference::default();
    reference.set_up(&usual_setup());
    let mut ready = record::image(&oracle, &reference);
    ready[ENTRY_PAIR..ENTRY_PAIR + 8].copy_from_slice(&WITHOUT_BIT_9.to_le_bytes());
    let in_phase = |phase: u8| {
        let mut record = ready;
        record[record::PHASE] = phase;
        record
    };
    let mut last = ready;
    last[record::ENTRIES..record::HELD].fill(0xFF);
    let hlt = samples::report(&mut oracle, HLT);
    let reports = REPORTS.map(|change| {
        let mut report = hlt.clone();
        change(&mut report);
        (in_phase(record::RUNNING), report)
    });
    // Every phase, and one that no record has.
    let phases = (0..=record::ENDED + 1).map(in_phase);
    let reports: Vec<_> = reports.into_iter().chain(phases.clone().map(|record| (record, hlt.clone()))).collect();
    let entries: Vec<_> = phases.chain([last]).collect();
    let mut first = Buffer::new(2 * LENGTH);
    for (length, shown_length) in lengths(LENGTH) {
        for (record, report) in &reports {
            first.content_mut()[..LENGTH].copy_from_slice(record);
            trials.report_with(shown_length, &mut first, length, &report.block());
        }
        for record in &entries {
            first.content_mut()[..LENGTH].copy_from_slice(record);
            trials.entry_with(shown_length, &mut first, length, 0x7000);
        }
    }
}

/// The same on frames: ports of both, of one and of none, and those past the last; MSRs at the ends of the ranges and past them.
fn frame_edges(trials: &mut Trials) {
    let [mut a, mut b] = [(); 2].map(|()| Buffer::new(2 * FRAME_BYTES));
    let near = [FRAME_BYTES - 1, FRAME_BYTES, FRAME_BYTES + 1];
    let pairs = near.iter().flat_map(|&of_a| near.map(|of_b| [of_a, of_b]));
    for (lengths, shown_lengths) in pairs.clone().flat_map(|lengths| pairs.clone().map(move |shown| (lengths, shown))) {
        for (port, count) in [(0x7FFF, 2), (0x604, 1), (0x8604, 1), (5, 0), (u32::MAX, 0), (65_535, 2)] {
            for intercept in [0, 1, 2] {
                let edit = PortEdit { port, count, intercept };
                trials.ports_with(shown_lengths, [&mut a, &mut b], lengths, edit);
            }
        }
    }
    for (length, shown_length) in lengths(FRAME_BYTES) {
        for (accesses, msr) in [Accesses::Reads, Accesses::Writes, Accesses::Both]
            .into_iter()
            .flat_map(|accesses| [0, 0x1FFF, 0x2000, 0xC000_0000, 0xC000_2000].map(|msr| (accesses, msr)))
        {
            for intercept in [0, 1, 2] {
                trials.msr_with(shown_length, &mut a, length, MsrEdit { accesses, msr, intercept });
            }
        }
    }
}

/// The edges, and then the lines of all trials: this comparison is the last.
pub fn run(_: &mut Random, _: u64, totals: &mut Totals) {
    record_edges(&mut totals.trials);
    frame_edges(&mut totals.trials);
    let made = std::mem::replace(&mut totals.trials.lines, lines());
    for (mut line, numbers) in made.into_iter().zip(NUMBERS) {
        line.demand(numbers);
        totals.add(line);
    }
}
