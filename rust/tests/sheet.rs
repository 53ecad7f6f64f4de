//! The trap sheet of many frames, against lines that are made here from the frames' bits.

use x86_vcpu_core::{Frames, Refusal, FRAME_LENGTH, SHEET_LARGEST, SHEET_LINE};

/// What an output holds before a call: no byte of a sheet.
const BEFORE: u8 = 0xA5;

/// A kind, and its ranges: the first number and whether each item is intercepted.
type Kind = (&'static str, Vec<(u32, Vec<bool>)>);

fn bits(bytes: &[u8]) -> Vec<bool> {
    bytes.iter().flat_map(|byte| (0..8).map(move |i| byte >> i & 1 == 1)).collect()
}

fn kinds(frames: &Frames) -> [Kind; 3] {
    let ports = [bits(&frames.io_a.0), bits(&frames.io_b.0)].concat();
    let quarter = |i: usize| bits(&frames.msr.0[1024 * i..][..1024]);
    let msrs = |low, high| vec![(0, quarter(low)), (0xC000_0000, quarter(high))];
    [("port", vec![(0, ports)]), ("read", msrs(0, 1)), ("writ", msrs(2, 3))]
}

/// First and last of each run of a range.
fn runs(first: u32, items: &[bool]) -> Vec<(u32, u32)> {
    let mut runs: Vec<(u32, u32)> = Vec::new();
    for (number, _) in (first..).zip(items).filter(|item| *item.1) {
        match runs.last_mut() {
            Some(run) if run.1 + 1 == number => run.1 = number,
            _ => runs.push((number, number)),
        }
    }
    runs
}

fn sheet(frames: &Frames) -> String {
    let (mut totals, mut lines) = (Vec::new(), Vec::new());
    for (kind, ranges) in kinds(frames) {
        let total = ranges.iter().flat_map(|range| &range.1).filter(|item| **item).count();
        totals.push(format!("{kind:<4}{:22}{total:>14}\n", ""));
        for (first, last) in ranges.iter().flat_map(|range| runs(range.0, &range.1)) {
            lines.push(format!("{kind:<4}  {first:08x}  {last:08x}  {:>14}\n", last - first + 1));
        }
    }
    [totals, lines].concat().concat()
}

/// The answer, each byte written and each byte kept, for outputs that are too short, just long enough and longer.
fn check(frames: &Frames) {
    let expected = sheet(frames);
    let length = expected.len();
    for room in [0, 122, length - 1, length, length + 1, SHEET_LARGEST] {
        let mut output = vec![BEFORE; room];
        let answer = frames.trap_sheet(&mut output);
        let fits = length <= room;
        let (written, kept) = output.split_at(if fits { length } else { 0 });
        assert_eq!(answer, if fits { Ok(length) } else { Err(Refusal::Room) });
        assert_eq!(str::from_utf8(written), Ok(if fits { expected.as_str() } else { "" }));
        assert!(kept.iter().all(|byte| *byte == BEFORE));
    }
}

fn filled(byte: u8) -> Frames {
    let mut frames = Frames::new();
    for frame in [&mut frames.io_a, &mut frames.io_b, &mut frames.msr] {
        frame.0 = [byte; FRAME_LENGTH];
    }
    frames
}

#[test]
fn the_smallest_and_the_largest() {
    assert_eq!(sheet(&filled(0)).len(), 3 * SHEET_LINE);
    assert_eq!(sheet(&filled(0x55)).len(), SHEET_LARGEST);
    for byte in [0, 0x55, 0xAA, 0xFF, 0x80, 0x7E] {
        check(&filled(byte));
    }
}

/// The ends of the ranges, the two places where ranges are neighbours, and ends of bytes and words.
#[test]
fn runs_at_the_borders() {
    let mut frames = Frames::new();
    for (port, count) in [(0, 1), (7, 2), (14, 9), (40, 8), (63, 1), (120, 17), (0x7FF0, 0x20), (65535, 1)] {
        frames.set_io_intercept_of_range(port, count, true).unwrap();
        check(&frames);
    }
    for msr in [0, 0x1FFF, 0xC000_0000, 0xC000_1FFF, 0x1FFE, 0xC000_0001] {
        frames.set_read_intercept(msr, true).unwrap();
        check(&frames);
        frames.set_write_intercept(msr ^ 8, true).unwrap();
        check(&frames);
    }
    frames.set_io_intercept_of_range(0, 65536, true).unwrap();
    check(&frames);
    frames.set_io_intercept_of_range(0x8000, 1, false).unwrap();
    check(&frames);
}

/// Bits that are set by a chance of 1 in 2, 4, .. 256, or clear by that chance.
#[test]
fn frames_of_all_densities() {
    let mut state = 1_u64;
    let mut any = || {
        state = state.wrapping_mul(0x5851_F42D_4C95_7F2D).wrapping_add(1);
        state.to_le_bytes()[7]
    };
    for bytes in 1..=8 {
        let mut frames = Frames::new();
        for frame in [&mut frames.io_a, &mut frames.io_b, &mut frames.msr] {
            frame.0 = std::array::from_fn(|_| (0..bytes).fold(0xFF, |byte, _| byte & any()));
        }
        check(&frames);
        for frame in [&mut frames.io_a, &mut frames.io_b, &mut frames.msr] {
            frame.0 = frame.0.map(|byte| !byte);
        }
        check(&frames);
    }
}
