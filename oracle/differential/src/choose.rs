//! What the comparisons over a session choose at random: a state to start from, calls, bytes that are no record.

use crate::calls::Call;
use oracle::generate::Random;
use oracle::record::{self, LENGTH, Reference};
use oracle::{Event, FIELDS, FIELDS_BEFORE_TABLE, FRAME_BYTES, State, field_bits};

/// Lengths that are no record's.
const WRONG_LENGTHS: [usize; 5] = [0, 1, LENGTH - 1, LENGTH + 1, 2 * LENGTH];
const RFLAGS: u32 = 0x6820;
const INTERRUPTIBILITY: u32 = 0x4824;
/// Vectors with a type or a code that others lack, and their neighbours.
const SPECIAL_VECTORS: [u8; 18] = [0, 1, 2, 3, 4, 7, 8, 9, 10, 11, 12, 13, 14, 16, 17, 20, 21, 22];

/// A value that fits a field of this encoding.
fn fitting(random: &mut Random, encoding: u32) -> u64 {
    random.word() & u64::MAX >> (64 - field_bits(encoding))
}

pub fn state(random: &mut Random) -> State {
    let mut fields = [0; FIELDS.len()];
    for (value, (encoding, _)) in fields.iter_mut().zip(FIELDS).skip(FIELDS_BEFORE_TABLE) {
        *value = fitting(random, encoding);
        if encoding == RFLAGS && random.chance(50) {
            *value |= 0x200;
        }
        if encoding == INTERRUPTIBILITY && random.chance(60) {
            *value = 0;
        }
    }
    State {
        fields,
        registers: [(); 16].map(|()| random.word()),
        launched: random.chance(50),
        events: events(random),
        frames: [[0; FRAME_BYTES]; 3],
    }
}

/// Any event, often of a special vector.
fn event(random: &mut Random) -> Event {
    let (vector, code) = random.event();
    (if random.chance(40) { random.pick(&SPECIAL_VECTORS) } else { vector }, code)
}

fn events(random: &mut Random) -> Vec<Event> {
    let count = match random.below(10) {
        0..7 => random.below(6),
        7..9 => 60 + random.below(5),
        _ => random.below(65),
    };
    (0..count).map(|_| event(random)).collect()
}

pub fn reference(random: &mut Random) -> Reference {
    let entries = match random.below(10) {
        0..7 => random.below(1000) as u32,
        7..9 => u32::MAX - random.below(3) as u32,
        _ => random.word32(),
    };
    let any_phase = random.below(5) as u8;
    let mut kept = random.capabilities();
    // Setup accepts no pair whose allowed-0 has a bit that allowed-1 lacks.
    kept.pairs.iter_mut().for_each(|pair| *pair &= *pair >> 32 | 0xFFFF_FFFF << 32);
    Reference {
        phase: if random.chance(60) { record::READY } else { any_phase },
        entries,
        held: random.below(entries as u64 + 1) as u32,
        kept,
        xcr0: random.word(),
        supported: random.xcr0_supported(),
    }
}

/// A call of the function with this place in `NAMES`; now and then with arguments that the original can't take.
pub fn call(random: &mut Random, which: usize) -> Call {
    match which {
        0 => {
            let (vector, code) = event(random);
            let coded = if random.chance(3) { above(random, 1) } else { code.is_some() as u8 };
            Call::QueueEvent { vector, coded, code: random.word32() }
        }
        1 => Call::InjectInterrupt { vector: interrupt(random) },
        2 => Call::Entry { host_stack: random.word() },
        3 => Call::ApicValue { value: random.word() },
        4 => Call::ReadField { encoding: encoding(random) },
        5 => write(random),
        6 => Call::GetRegister { index: index(random) },
        7 => Call::SetRegister { index: index(random), value: random.word() },
        8 => Call::GetCounts,
        9 => Call::GetXcr0,
        10 => Call::CpuMode { host_efer: random.word() },
        11 => Call::PageWalkInfo,
        _ => Call::Gla2gva { host_efer: random.word(), address: random.word() },
    }
}

/// Often a vector that is never held.
fn interrupt(random: &mut Random) -> u64 {
    match random.below(20) {
        0 => random.word(),
        1..8 => random.below(32),
        _ => random.below(256),
    }
}

/// Mostly one of the table; else its neighbours, small ones, and any.
fn encoding(random: &mut Random) -> u64 {
    let (encoding, _) = random.pick(&FIELDS[FIELDS_BEFORE_TABLE..]);
    match random.below(20) {
        0 => encoding as u64 ^ 1 << random.below(64),
        1 => random.below(0x8000),
        2 => random.word(),
        3 => random.below(8),
        _ => encoding as u64,
    }
}

fn write(random: &mut Random) -> Call {
    let encoding = encoding(random);
    let bits = field_bits(encoding as u32);
    let value = match random.below(10) {
        0 => random.word(),
        1 if bits < 64 => (1 << bits) - 1 + random.below(3),
        _ => fitting(random, encoding as u32),
    };
    Call::WriteField { encoding, value }
}

fn index(random: &mut Random) -> u64 {
    match random.below(20) {
        0 => random.word(),
        1 => random.below(512),
        _ => random.below(17),
    }
}

/// A byte above the greatest that is allowed, often the next one.
pub fn above(random: &mut Random, most: u8) -> u8 {
    let any = most + 1 + random.below(255 - most as u64) as u8;
    random.pick(&[most + 1, 255, any])
}

/// Makes bytes that are no record, or gives a length that is none.
pub fn breakage(random: &mut Random, record: &mut [u8]) -> usize {
    match random.below(5) {
        0 => return random.pick(&WRONG_LENGTHS),
        1 => record[record::PHASE] = above(random, 4),
        2 => record[record::LAUNCHED] = above(random, 1),
        3 => record[record::WAITING] = above(random, 64),
        _ => {
            let entries = random.word32() % u32::MAX;
            let any = entries + 1 + random.below((u32::MAX - entries) as u64) as u32;
            let held = random.pick(&[entries + 1, any]);
            record[record::ENTRIES..record::HELD].copy_from_slice(&entries.to_le_bytes());
            record[record::HELD..record::HELD + 4].copy_from_slice(&held.to_le_bytes());
        }
    }
    LENGTH
}
