//! The session's byte record (include/x86_vcpu.h): what it must hold, by the original's state and by what document 01's
//! session has beyond it.

use crate::calls::QUEUE_ROOM;
use crate::{Answer, Capabilities, FIELDS, FIELDS_BEFORE_TABLE, Oracle, Setup, field_bits};
use std::sync::LazyLock;

pub const LENGTH: usize = 1485;
pub const PHASE: usize = 0;
pub const LAUNCHED: usize = 1;
pub const ENTRIES: usize = 2;
pub const HELD: usize = 6;
pub const REGISTERS: usize = 10;
const FIELDS_AT: usize = 138;
pub const WAITING: usize = 1068;
const VECTORS: usize = 1069;
const CODED: usize = 1133;
const CODES: usize = 1141;
pub const KEPT: usize = 1397;
pub const XCR0: usize = 1469;
pub const SUPPORTED: usize = 1477;

pub const FRESH: u8 = 0;
pub const READY: u8 = 1;
pub const RUNNING: u8 = 2;
pub const WAITING_PHASE: u8 = 3;
pub const ENDED: u8 = 4;

/// The phase that an exit with this answer leaves.
pub fn phase_after(answer: &Answer) -> u8 {
    match answer {
        Answer::ApicRead { .. } => WAITING_PHASE,
        Answer::FailEntry => ENDED,
        _ => READY,
    }
}

/// What the session has and the original has not: it follows from the calls' answers alone.
#[derive(Clone, Default)]
pub struct Reference {
    pub phase: u8,
    pub entries: u32,
    pub held: u32,
    /// The capability words of setup.
    pub kept: Capabilities,
    /// Document 02's: 1 from setup on, then what the last accepted XSETBV brought.
    pub xcr0: u64,
    /// The bits of XCR0 that setup was told.
    pub supported: u64,
}

impl Reference {
    /// What an accepted setup leaves of it.
    pub fn set_up(&mut self, setup: &Setup) {
        self.phase = READY;
        self.kept = setup.capabilities.clone();
        self.xcr0 = 1;
        self.supported = setup.xcr0_supported;
    }
}

/// A field's encoding, its offset and its bytes.
struct Place {
    encoding: u32,
    at: usize,
    bytes: usize,
}

/// Widths 16, 32, 64 and natural, each by ascending encoding.
static PLACES: LazyLock<Vec<Place>> = LazyLock::new(|| {
    let mut at = FIELDS_AT;
    let mut places = Vec::new();
    for width in [0, 2, 1, 3] {
        for &(encoding, _) in FIELDS[FIELDS_BEFORE_TABLE..].iter().filter(|field| field.0 >> 13 & 3 == width) {
            let bytes = field_bits(encoding) as usize / 8;
            places.push(Place { encoding, at, bytes });
            at += bytes;
        }
    }
    assert_eq!(at, WAITING);
    places
});

fn put(record: &mut [u8], at: usize, bytes: usize, number: u64) {
    assert!(bytes == 8 || number >> (8 * bytes) == 0, "{number:#x} at {at} is wider than its part of the record");
    record[at..at + bytes].copy_from_slice(&number.to_le_bytes()[..bytes]);
}

/// The number of so many bytes at an offset.
pub fn number(record: &[u8], at: usize, bytes: usize) -> u64 {
    record[at..at + bytes].iter().rev().fold(0, |number, &byte| number << 8 | byte as u64)
}

/// The bytes that the record must have. Places past the last event are zero, and so is a code that is not given.
pub fn image(oracle: &Oracle, reference: &Reference) -> [u8; LENGTH] {
    let mut record = [0; LENGTH];
    record[PHASE] = reference.phase;
    record[LAUNCHED] = oracle.launched() as u8;
    put(&mut record, ENTRIES, 4, reference.entries as u64);
    put(&mut record, HELD, 4, reference.held as u64);
    for (i, register) in oracle.registers().into_iter().enumerate() {
        put(&mut record, REGISTERS + 8 * i, 8, register);
    }
    for place in PLACES.iter() {
        put(&mut record, place.at, place.bytes, oracle.machine().field(place.encoding));
    }
    let events = oracle.events();
    record[WAITING] = events.len() as u8;
    for (i, (vector, code)) in events.into_iter().enumerate() {
        record[VECTORS + i] = vector;
        record[CODED + i / 8] |= (code.is_some() as u8) << (i % 8);
        put(&mut record, CODES + 4 * i, 4, code.unwrap_or(0) as u64);
    }
    for (i, word) in reference.kept.pairs.into_iter().chain(reference.kept.fixed()).enumerate() {
        put(&mut record, KEPT + 8 * i, 8, word);
    }
    put(&mut record, XCR0, 8, reference.xcr0);
    put(&mut record, SUPPORTED, 8, reference.supported);
    record
}

/// Whether a record is one: document 01's 2 is for all others.
pub fn lawful(record: &[u8]) -> bool {
    record[PHASE] <= ENDED
        && record[LAUNCHED] <= 1
        && record[WAITING] as usize <= QUEUE_ROOM
        && number(record, HELD, 4) <= number(record, ENTRIES, 4)
}

/// The part of the record that a byte belongs to: its name, its offset and its bytes.
fn part(at: usize) -> (String, usize, usize) {
    let indexed = |name: &str, start: usize, bytes: usize| {
        let i = (at - start) / bytes;
        (format!("{name} {i}"), start + bytes * i, bytes)
    };
    match at {
        PHASE => ("phase".to_string(), PHASE, 1),
        LAUNCHED => ("launched".to_string(), LAUNCHED, 1),
        ENTRIES..HELD => ("entries".to_string(), ENTRIES, 4),
        HELD..REGISTERS => ("held entries".to_string(), HELD, 4),
        REGISTERS..FIELDS_AT => indexed("register", REGISTERS, 8),
        FIELDS_AT..WAITING => {
            let place = PLACES.iter().find(|place| at < place.at + place.bytes).expect("a field");
            (format!("field {:#06x}", place.encoding), place.at, place.bytes)
        }
        WAITING => ("waiting events".to_string(), WAITING, 1),
        VECTORS..CODED => indexed("vector", VECTORS, 1),
        CODED..CODES => ("codes given".to_string(), CODED, 8),
        CODES..KEPT => indexed("code", CODES, 4),
        KEPT..XCR0 => indexed("capability word", KEPT, 8),
        XCR0..SUPPORTED => ("XCR0".to_string(), XCR0, 8),
        _ => ("supported bits of XCR0".to_string(), SUPPORTED, 8),
    }
}

/// The parts in which our record is not the expected one.
pub fn differences(ours: &[u8], expected: &[u8]) -> Vec<String> {
    let mut out = Vec::new();
    let mut at = 0;
    while at < LENGTH {
        let (name, start, bytes) = part(at);
        let (a, b) = (number(ours, start, bytes), number(expected, start, bytes));
        if a != b {
            out.push(format!("{name} is {a:#x} and not {b:#x}"));
        }
        at = start + bytes;
    }
    out
}
