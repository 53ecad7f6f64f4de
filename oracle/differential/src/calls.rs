//! The calls on a session by their C arguments: the port's answer, the original's, and document 01's number where the original
//! can't be asked.

use crate::archive;
use crate::buffer::Results;
use crate::events;
use oracle::calls::QUEUE_ROOM;
use oracle::record::{self, Reference};
use oracle::{Call as Original, EntryEvent, FIELDS, FIELDS_BEFORE_TABLE, Failure, Oracle, PageWalk, refusal_number};

#[derive(Clone, Copy, Debug)]
pub enum Call {
    QueueEvent { vector: u8, coded: u8, code: u32 },
    InjectInterrupt { vector: u64 },
    Entry { host_stack: u64 },
    ApicValue { value: u64 },
    ReadField { encoding: u64 },
    WriteField { encoding: u64, value: u64 },
    GetRegister { index: u64 },
    SetRegister { index: u64, value: u64 },
    GetCounts,
    GetXcr0,
    CpuMode { host_efer: u64 },
    PageWalkInfo,
    Gla2gva { host_efer: u64, address: u64 },
}

/// The functions, in the order of `Call`.
pub const NAMES: [&str; 13] = [
    "vcpu_queue_event",
    "vcpu_inject_interrupt",
    "vcpu_entry",
    "vcpu_apic_value",
    "vcpu_read_field",
    "vcpu_write_field",
    "vcpu_get_reg_of_index",
    "vcpu_set_reg_of_index",
    "vcpu_get_counts",
    "vcpu_get_xcr0",
    "vcpu_get_cpu_mode",
    "vcpu_get_ptw_info",
    "vcpu_gla2gva",
];

/// Document 01's numbers that the original has no counterpart of.
pub const PHASE_REFUSED: u32 = 1;
pub const BYTES_REFUSED: u32 = 2;
const ENCODING_REFUSED: u32 = 3;
const VECTOR_REFUSED: u32 = 12;
const FULL_REFUSED: u32 = 13;
const COUNT_REFUSED: u32 = 22;
const INDEX_REFUSED: u32 = 23;

/// The number and the results.
#[derive(Clone, PartialEq, Eq)]
pub struct Reply {
    pub number: u32,
    pub results: Results,
}

impl Reply {
    /// A refused call leaves the results alone.
    pub fn refused(number: u32) -> Self {
        Reply { number, results: Results::new() }
    }

    /// Accepted, with these results and their bytes.
    pub fn accepted(written: &[(usize, u64)]) -> Self {
        let mut results = Results::new();
        for (i, &(bytes, value)) in written.iter().enumerate() {
            results.set(i, bytes, value);
        }
        Reply { number: 0, results }
    }

    /// The value as the only result, or the failure's number.
    fn outcome(call: Original, outcome: Result<u64, Failure>) -> Self {
        match outcome {
            Ok(value) => Self::accepted(&[(8, value)]),
            Err(failure) => Self::refused(refusal_number(call, &failure).expect("a number")),
        }
    }

    /// Accepted without a result, or the failure's number.
    fn done(call: Original, outcome: Result<(), Failure>) -> Self {
        match outcome {
            Ok(()) => Self::accepted(&[]),
            Err(failure) => Self::refused(refusal_number(call, &failure).expect("a number")),
        }
    }

    pub fn text(&self) -> String {
        format!("{} {:x?}", self.number, self.results.words())
    }
}

macro_rules! port {
    ($name:ident($($argument:expr),*)) => {
        unsafe { archive::$name().expect("the function")($($argument),*) }
    };
}

/// The port's answer.
pub fn port(call: Call, record: *mut u8, length: usize) -> Reply {
    let mut results = Results::new();
    let first = results.first();
    let at = |i: usize| unsafe { first.add(i) };
    let number = match call {
        Call::QueueEvent { vector, coded, code } => port!(vcpu_queue_event(record, length, vector, coded, code)),
        Call::InjectInterrupt { vector } => port!(vcpu_inject_interrupt(record, length, vector)),
        Call::Entry { host_stack } => port!(vcpu_entry(record, length, host_stack, at(0).cast(), at(1).cast())),
        Call::ApicValue { value } => port!(vcpu_apic_value(record, length, value)),
        Call::ReadField { encoding } => port!(vcpu_read_field(record, length, encoding, at(0))),
        Call::WriteField { encoding, value } => port!(vcpu_write_field(record, length, encoding, value)),
        Call::GetRegister { index } => port!(vcpu_get_reg_of_index(record, length, index, at(0))),
        Call::SetRegister { index, value } => port!(vcpu_set_reg_of_index(record, length, index, value)),
        Call::GetCounts => {
            port!(vcpu_get_counts(record, length, at(0).cast(), at(1).cast(), at(2).cast(), at(3).cast(), at(4).cast()))
        }
        Call::GetXcr0 => port!(vcpu_get_xcr0(record, length, at(0))),
        Call::CpuMode { host_efer } => port!(vcpu_get_cpu_mode(record, length, host_efer, at(0).cast())),
        Call::PageWalkInfo => {
            port!(vcpu_get_ptw_info(record, length, at(0), at(1).cast(), at(2).cast(), at(3).cast()))
        }
        Call::Gla2gva { host_efer, address } => port!(vcpu_gla2gva(record, length, host_efer, address, at(0))),
    };
    Reply { number, results }
}

/// The original's answer. What the session has beyond it follows from the answer; of some events document 02 decides (`events.rs`).
pub fn original(call: Call, oracle: &mut Oracle, reference: &mut Reference) -> Reply {
    match call {
        Call::QueueEvent { vector, coded, code } => {
            oracle.queue_event(vector, (coded == 1).then_some(code));
            Reply::accepted(&[])
        }
        Call::InjectInterrupt { vector } => Reply::done(Original::InjectInterrupt, oracle.inject_interrupt(vector)),
        Call::Entry { host_stack } => entry(host_stack, oracle, reference),
        Call::ApicValue { value } => {
            oracle.apic_value(value);
            reference.phase = record::READY;
            Reply::accepted(&[])
        }
        Call::ReadField { encoding } => match oracle.read_field(encoding as u32) {
            Ok(value) => Reply::accepted(&[(8, value)]),
            Err(number) => Reply::refused(number),
        },
        Call::WriteField { encoding, value } => match oracle.write_field(encoding as u32, value) {
            Ok(()) => Reply::accepted(&[]),
            Err(number) => Reply::refused(number),
        },
        Call::GetRegister { index } => Reply::outcome(Original::Register, oracle.get_register(index as u8)),
        Call::SetRegister { index, value } => Reply::done(Original::Register, oracle.set_register(index as u8, value)),
        Call::GetCounts => {
            let (launched, waiting) = (oracle.launched() as u64, oracle.events().len() as u64);
            let counts = [(4, reference.entries as u64), (4, reference.held as u64)];
            Reply::accepted(&[(1, reference.phase as u64), (1, launched), (1, waiting), counts[0], counts[1]])
        }
        Call::GetXcr0 => Reply::accepted(&[(8, reference.xcr0)]),
        Call::CpuMode { host_efer } => Reply::accepted(&[(4, oracle.cpu_mode(host_efer) as u64)]),
        Call::PageWalkInfo => page_walk(oracle.page_walk()),
        Call::Gla2gva { host_efer, address } => Reply::outcome(Original::Gla2gva, oracle.gla2gva(host_efer, address)),
    }
}

fn entry(host_stack: u64, oracle: &mut Oracle, reference: &mut Reference) -> Reply {
    let entered = events::enter(oracle, host_stack);
    let event = match entered.event {
        EntryEvent::None => 0,
        EntryEvent::Held => 1,
        EntryEvent::Written => 2,
    };
    reference.phase = record::RUNNING;
    reference.entries += 1;
    reference.held += (entered.event == EntryEvent::Held) as u32;
    Reply::accepted(&[(1, !entered.launch as u64), (1, event)])
}

fn page_walk(w: PageWalk) -> Reply {
    let access = [w.is_user_mode_access, w.is_write_access, w.is_inst_fetch];
    let flags = access.into_iter().chain([w.pse, w.wp, w.nxe, w.is_smap_on, w.is_smep_on]);
    let flags = flags.enumerate().fold(0, |sum, (i, flag)| sum | (flag as u64) << i);
    Reply::accepted(&[(8, w.top_entry), (1, w.level), (1, w.width as u64), (4, flags)])
}

/// Document 01's number for a call that the original can't be asked about: it has no records, no phases and no counts, its queue
/// grows, it cuts vectors and indexes to 8 bits, and it has three fields more.
pub fn outside(call: Call, record: &[u8], length: usize) -> Option<u32> {
    if length != record::LENGTH || !record::lawful(record) {
        return Some(BYTES_REFUSED);
    }
    let phase = record[record::PHASE];
    let full = record[record::WAITING] as usize == QUEUE_ROOM;
    let first =
        |conditions: &[(bool, u32)]| conditions.iter().find(|condition| condition.0).map(|condition| condition.1);
    match call {
        Call::QueueEvent { coded, .. } => {
            first(&[(coded > 1, BYTES_REFUSED), (phase == record::ENDED, PHASE_REFUSED), (full, FULL_REFUSED)])
        }
        Call::InjectInterrupt { vector } => first(&[
            (phase == record::ENDED, PHASE_REFUSED),
            (vector > 255, VECTOR_REFUSED),
            (full && vector != 0, FULL_REFUSED),
        ]),
        Call::Entry { .. } => {
            let last = record::number(record, record::ENTRIES, 4) == u32::MAX as u64;
            first(&[(phase != record::READY, PHASE_REFUSED), (last, COUNT_REFUSED)])
        }
        Call::ApicValue { .. } => first(&[(phase != record::WAITING_PHASE, PHASE_REFUSED)]),
        Call::ReadField { encoding } | Call::WriteField { encoding, .. } => {
            let left_out = FIELDS[..FIELDS_BEFORE_TABLE].iter().any(|field| field.0 as u64 == encoding);
            first(&[(left_out || encoding > u32::MAX as u64, ENCODING_REFUSED)])
        }
        Call::GetRegister { index } | Call::SetRegister { index, .. } => first(&[(index > 255, INDEX_REFUSED)]),
        Call::GetCounts | Call::GetXcr0 | Call::CpuMode { .. } | Call::PageWalkInfo | Call::Gla2gva { .. } => None,
    }
}
