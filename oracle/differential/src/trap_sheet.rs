//! The trap sheet by document 02 (N2). The original has none, so the sheet is made here from the request's words: the items of each range are
//! gone through one by one. They are placed in frames as the manual says where each has its bit; or the original's own edits, and its setup,
//! make the frames, and the items are those that the edits name, which ties the sheet to the original's bits.
//!
//! The number, the length, every byte of the output, those that are kept too, and the frames are compared, for outputs of several lengths.

use crate::archive;
use crate::buffer::{Buffer, Results};
use crate::calls::{BYTES_REFUSED, Reply};
use crate::tally::{Tally, Totals};
use oracle::generate::Random;
use oracle::samples::ready;
use oracle::{FRAME_BYTES, Oracle};

/// A sheet stands for so many cases: 98,304 items are gone through for it, and the port is called five times.
const CASES_A_SHEET: u64 = 64;
/// The original's frames start anew after so many sheets.
const SHEETS: u64 = 20;
/// Each thing that is rare occurs once in so many ranges.
const RARE: u64 = 60;

const PORTS: usize = 0x1_0000;
const FIRST_PORT_OF_B: usize = 0x8000;
const MSRS: usize = 0x2000;
const FIRST_HIGH_MSR: u32 = 0xC000_0000;
const QUARTER: usize = FRAME_BYTES / 4;

const LARGEST: usize = 2_015_355;
/// Outputs are at most so much longer than their sheet, or as long as the largest.
const LONGER: usize = 300;
/// The bytes behind an output that are looked at.
const BEYOND: usize = 4096;
const ROOM_REFUSED: u32 = 24;
const WRONG_LENGTHS: [usize; 5] = [0, 1, FRAME_BYTES - 1, FRAME_BYTES + 1, 2 * FRAME_BYTES];

const KINDS: [&str; 3] = ["port", "read", "writ"];

/// The sheet of the frames that setup leaves over zeros, typed by document 02's words.
const SETUP_SHEET: &str = "\
port                                   1
read                                  65
writ                                  65
port  00000604  00000604               1
read  000000e1  000000e1               1
read  00000800  0000083f              64
writ  000000e1  000000e1               1
writ  00000800  0000083f              64
";

/// Items of one kind that are numbered one after the other, and whether each is trapped.
struct Range {
    kind: &'static str,
    first: u32,
    trapped: Vec<bool>,
}

/// The ranges in the sheet's order.
struct Traps([Range; 5]);

impl Traps {
    fn none() -> Self {
        let range = |kind, first, count| Range { kind, first, trapped: vec![false; count] };
        Traps([
            range(KINDS[0], 0, PORTS),
            range(KINDS[1], 0, MSRS),
            range(KINDS[1], FIRST_HIGH_MSR, MSRS),
            range(KINDS[2], 0, MSRS),
            range(KINDS[2], FIRST_HIGH_MSR, MSRS),
        ])
    }

    fn set(&mut self, kind: &str, number: u32, on: bool) {
        for range in self.0.iter_mut().filter(|range| range.kind == kind) {
            let place = number.checked_sub(range.first).map(|place| place as usize);
            if let Some(item) = place.and_then(|place| range.trapped.get_mut(place)) {
                *item = on;
            }
        }
    }

    /// Frames with these bits and no others.
    fn place(&self, frames: [&mut [u8]; 3]) {
        let [a, b, msr] = frames;
        let [ports, msrs @ ..] = &self.0;
        place_bits(a, &ports.trapped[..FIRST_PORT_OF_B]);
        place_bits(b, &ports.trapped[FIRST_PORT_OF_B..]);
        for (quarter, range) in msr.chunks_mut(QUARTER).zip(msrs) {
            place_bits(quarter, &range.trapped);
        }
    }

    fn sheet(&self) -> String {
        let mut sheet = String::new();
        for kind in KINDS {
            let items = self.0.iter().filter(|range| range.kind == kind).flat_map(|range| &range.trapped);
            let total = items.filter(|trapped| **trapped).count();
            sheet += &format!("{kind:<4}{:22}{total:>14}\n", "");
        }
        self.0.iter().for_each(|range| range.put_runs(&mut sheet));
        sheet
    }
}

impl Range {
    /// The lines of its runs. A run ends before an item that is not trapped, or with the range.
    fn put_runs(&self, sheet: &mut String) {
        let mut put = |first: u32, last: u32| {
            *sheet += &format!("{:<4}  {first:08x}  {last:08x}  {:>14}\n", self.kind, last - first + 1);
        };
        let mut run: Option<(u32, u32)> = None;
        for (number, trapped) in (self.first..).zip(&self.trapped) {
            match (run, trapped) {
                (None, false) => (),
                (None, true) => run = Some((number, number)),
                (Some((first, _)), true) => run = Some((first, number)),
                (Some((first, last)), false) => {
                    put(first, last);
                    run = None;
                }
            }
        }
        if let Some((first, last)) = run {
            put(first, last);
        }
    }

    fn repeat(&mut self, pair: [bool; 2]) {
        self.trapped.chunks_mut(2).for_each(|items| items.copy_from_slice(&pair));
    }

    /// Few runs among none, few holes among all, or, rarely, items of any density or every second one.
    fn choose(&mut self, random: &mut Random) {
        let rest = random.chance(40);
        self.trapped.fill(rest);
        match random.below(RARE) {
            0 => {
                let percent = random.pick(&[2, 10, 50, 90, 98]);
                self.trapped.iter_mut().for_each(|item| *item = random.chance(percent));
            }
            1 => self.repeat([rest, !rest]),
            _ => (0..random.below(12)).for_each(|_| self.put_run(random, !rest)),
        }
    }

    /// Sets or clears neighbours, often from the end of a byte or of a word on, and at the ends of ranges and frames.
    fn put_run(&mut self, random: &mut Random, on: bool) {
        let items = self.trapped.len();
        let any = random.below(items as u64) as usize;
        let border = random.pick(&[any & !7, any & !63, 0, items, items / 2]);
        let near = (border + random.pick(&[0, 1, 1, 1, 2])).saturating_sub(1);
        let from = random.pick(&[any, near]).min(items - 1);
        let long = random.below(items as u64) as usize;
        let count = random.pick(&[1, 2, 7, 8, 8, 9, 16, 63, 64, 65, 128, long]);
        self.trapped[from..(from + count).min(items)].fill(on);
    }
}

fn place_bits(bytes: &mut [u8], items: &[bool]) {
    bytes.fill(0);
    for (i, _) in items.iter().enumerate().filter(|item| *item.1) {
        bytes[i / 8] |= 1 << (i % 8);
    }
}

/// The port's frames and its output.
struct Port {
    /// I/O A, I/O B and MSR, each with room for a wrong length.
    frames: [Buffer; 3],
    output: Buffer,
    /// The output's bytes before each call: none of a text.
    before: Vec<u8>,
}

impl Port {
    fn new() -> Self {
        let before: Vec<u8> = (0..LARGEST + LONGER + BEYOND).map(|i| 0x80 | (i as u8).wrapping_mul(29)).collect();
        let mut output = Buffer::new(before.len());
        output.content_mut().copy_from_slice(&before);
        Port { frames: [(); 3].map(|()| Buffer::new(2 * FRAME_BYTES)), output, before }
    }

    fn call(&mut self, lengths: [usize; 3], room: usize) -> Reply {
        let trap_sheet = archive::vcpu_trap_sheet().expect("the function");
        let mut results = Results::new();
        let [a, b, m] = self.frames.each_mut().map(|frame| frame.pointer().cast_const());
        let [n, k, l] = lengths;
        let number = unsafe { trap_sheet(a, n, b, k, m, l, self.output.pointer(), room, results.first()) };
        Reply { number, results }
    }

    fn frames(&self) -> [Vec<u8>; 3] {
        self.frames.each_ref().map(|frame| frame.content().to_vec())
    }

    /// Whether the output's first bytes are this text and the rest up to `end` as before; they are put back.
    fn output_is(&mut self, text: &[u8], end: usize) -> bool {
        let (written, kept) = self.output.content_mut()[..end].split_at_mut(text.len());
        let same = *written == *text && *kept == self.before[text.len()..end];
        self.output.content_mut()[..end].copy_from_slice(&self.before[..end]);
        same
    }

    /// One call: what it must answer and write. The output is looked at some way beyond the room that is lent.
    fn compare(&mut self, tally: &mut Tally, lengths: [usize; 3], room: usize, sheet: &str) {
        let number = match room {
            _ if lengths != [FRAME_BYTES; 3] => BYTES_REFUSED,
            _ if room < sheet.len() => ROOM_REFUSED,
            _ => 0,
        };
        let accepted = number == 0;
        let expected = if accepted { Reply::accepted(&[(8, sheet.len() as u64)]) } else { Reply::refused(number) };
        let frames = self.frames();
        let reply = self.call(lengths, room);
        let text = if accepted { sheet } else { "" };
        let output = self.output_is(text.as_bytes(), room.max(sheet.len()) + BEYOND);
        let read_only = self.frames() == frames && self.frames.iter().all(Buffer::margins_intact);
        tally.compare_number(number, reply == expected && output && read_only, || {
            let (expected, reply) = (expected.text(), reply.text());
            let head = &sheet[..sheet.len().min(410)];
            format!(
                "lengths {lengths:?}, room {room}: expected {expected}, port {reply}; output as expected: {output}, \
                frames kept: {read_only}; the sheet starts\n{head}"
            )
        });
    }

    /// Calls with outputs that are too short, just long enough, and longer.
    fn compare_all(&mut self, tally: &mut Tally, random: &mut Random, sheet: &str) {
        let length = sheet.len();
        let longer = if random.chance(2) { LARGEST } else { length + 1 + random.below(LONGER as u64) as usize };
        for room in [0, 122, length - 1, length, longer.max(length)] {
            self.compare(tally, [FRAME_BYTES; 3], room, sheet);
        }
    }

    fn put(&mut self, traps: &Traps) {
        traps.place(self.frames.each_mut().map(|frame| &mut frame.content_mut()[..FRAME_BYTES]));
    }

    fn copy(&mut self, oracle: &Oracle) {
        for (ours, theirs) in self.frames.iter_mut().zip(oracle.frames()) {
            ours.content_mut()[..FRAME_BYTES].copy_from_slice(theirs);
        }
    }

    /// No call wrote far from what it was lent.
    fn all_kept(&self) -> bool {
        self.output.content() == self.before && self.output.margins_intact()
    }
}

/// One edit by the original, and what it names.
fn edit(oracle: &mut Oracle, random: &mut Random, traps: &mut Traps) {
    let ((port, count), msr, on) = (random.comparable_ports(), random.msr(), random.chance(60));
    let which = random.below(4);
    let done = oracle.attempt(|oracle| match which {
        0 => oracle.set_io_intercept_of_range(port, count, on),
        1 => oracle.set_read_intercept(msr, on),
        2 => oracle.set_write_intercept(msr, on),
        _ => oracle.set_msr_intercept_of_range(msr, on),
    });
    if done.is_err() {
        return;
    }
    match which {
        0 => (port..port + count).for_each(|port| traps.set("port", port, on)),
        1 => traps.set("read", msr, on),
        2 => traps.set("writ", msr, on),
        _ => ["read", "writ"].into_iter().for_each(|kind| traps.set(kind, msr, on)),
    }
}

/// Frames with no item, with all, with every second one, and then of all densities.
fn placed(random: &mut Random, sheets: u64, port: &mut Port, totals: &mut Totals) {
    let mut tally = Tally::new("vcpu_trap_sheet (document 02)");
    let mut traps = Traps::none();
    for pair in [[false, false], [true, true], [true, false], [false, true]] {
        traps.0.iter_mut().for_each(|range| range.repeat(pair));
        port.put(&traps);
        port.compare_all(&mut tally, random, &traps.sheet());
    }
    for _ in 0..sheets {
        traps.0.iter_mut().for_each(|range| range.choose(random));
        port.put(&traps);
        port.compare_all(&mut tally, random, &traps.sheet());
    }
    totals.add(tally);
}

/// Frames that the original made: by its setup, by edits of empty ones, and by edits of any.
fn edited(random: &mut Random, sheets: u64, port: &mut Port, totals: &mut Totals) {
    let mut tally = Tally::new("vcpu_trap_sheet, the original's frames (document 02)");
    port.copy(&ready());
    port.compare_all(&mut tally, random, SETUP_SHEET);
    let mut oracle = Oracle::new();
    let mut traps = Traps::none();
    for i in 0..sheets {
        if i % SHEETS == 0 {
            traps = Traps::none();
            if random.chance(30) {
                traps.0.iter_mut().for_each(|range| range.choose(random));
            }
            traps.place(oracle.frames_mut().map(|frame| &mut frame[..]));
        }
        (0..1 + random.below(12)).for_each(|_| edit(&mut oracle, random, &mut traps));
        port.copy(&oracle);
        port.compare_all(&mut tally, random, &traps.sheet());
    }
    totals.add(tally);
}

/// Frames of wrong lengths, with an output that is long enough and with one that is not.
fn lengths(random: &mut Random, cases: u64, port: &mut Port, totals: &mut Totals) {
    let mut tally = Tally::new("vcpu_trap_sheet, lengths (document 02)");
    let mut traps = Traps::none();
    traps.0.iter_mut().for_each(|range| range.put_run(random, true));
    port.put(&traps);
    let sheet = traps.sheet();
    for _ in 0..cases {
        let mut lengths = [(); 3].map(|()| if random.chance(50) { FRAME_BYTES } else { random.pick(&WRONG_LENGTHS) });
        if lengths == [FRAME_BYTES; 3] {
            lengths[random.below(3) as usize] = random.pick(&WRONG_LENGTHS);
        }
        let room = random.pick(&[0, 122, sheet.len() - 1, sheet.len(), sheet.len() + 41]);
        port.compare(&mut tally, lengths, room, &sheet);
    }
    totals.add(tally);
}

pub fn run(random: &mut Random, cases: u64, totals: &mut Totals) {
    let sheets = 1 + cases / CASES_A_SHEET;
    let mut port = Port::new();
    placed(random, sheets, &mut port, totals);
    edited(random, sheets, &mut port, totals);
    lengths(random, sheets, &mut port, totals);
    let mut tally = Tally::new("vcpu_trap_sheet, the memory behind all outputs (document 02)");
    tally.compare(port.all_kept(), || "a byte changed".to_string());
    totals.add(tally);
}
