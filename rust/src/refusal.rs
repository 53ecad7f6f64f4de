//! Why a call is refused.

use core::error::Error;
use core::fmt::{Display, Formatter, Result as FmtResult};

/// Why a call is refused: `VCPU_REFUSED_..` of `include/x86_vcpu.h`, with its number. A refused call changes nothing.
#[derive(Clone, Copy, PartialEq, Eq, Hash, Debug)]
#[non_exhaustive]
#[repr(u32)]
pub enum Refusal {
    /// The session is in another phase than the call needs.
    Phase = 1,
    /// The bytes are no record. The lengths, yes/no bytes and kinds of access of which the header speaks beside it are right in every
    /// call of this crate.
    Bytes = 2,
    /// No field has the encoding.
    Encoding = 3,
    /// A write of a read-only field.
    ReadOnly = 4,
    /// A value wider than its field.
    Width = 5,
    /// Control word: allowed-0 has a bit that allowed-1 lacks. Setup: so has any of the five pairs, or fixed-0 of CR0 or CR4 beside fixed-1.
    Pair = 6,
    /// Control word: a bit is to be both set and cleared.
    SetAndClear = 7,
    /// Control word and setup: a bit to be set is not in allowed-1. Reports: a move to CR0 whose value has PG while LME and LMA are not both set, and
    /// entry control bit 9 is not in allowed-1.
    Set = 8,
    /// Control word and setup: a bit to be cleared is in allowed-0.
    Clear = 9,
    /// The count is above 0 and the last port is above 65,535.
    Port = 10,
    /// The MSR is outside 0 to 0x1FFF and `0xC000_0000` to `0xC000_1FFF`.
    Msr = 11,
    /// Interrupts: vector 0 or above 255.
    Vector = 12,
    /// 64 events wait already.
    Full = 13,
    /// Reports: the reason is 35, 38, 42 or above 64, or bit 31 (a failed entry) is set and it is not 33, 34 or 41.
    Reason = 14,
    /// Reports: a bit of CR0 or CR4 that the host owns (guest/host mask) differs from the session's.
    OwnedBits = 15,
    /// Reports: an external interrupt whose information is not valid or has type 1.
    Interrupt = 16,
    /// The sum of an address and its segment's base, or of RIP and an instruction's length, passes 2^64 - 1.
    Sum = 17,
    /// Reports: an access to a control register that is no move to CR0 or CR4.
    CrAccess = 18,
    /// Reports: XSETBV of a value that XCR0 may not have, by the manual's rule or because a bit is not supported.
    Xcr0 = 19,
    /// Reports: XSETBV of another register.
    Xcr = 20,
    /// Reports: an APIC access.
    ApicAccess = 21,
    /// The count of entries is at its end, 2^32 - 1.
    Count = 22,
    /// The register's index is 4 (the place of RSP, which is a field) or above 15.
    Index = 23,
    /// The output is shorter than the trap sheet.
    Room = 24,
    /// Trials: a second buffer has another length than the first that it stands for. The two are alike in every call of this crate.
    Shown = 25,
    /// Page walks: an entry of the guest's tables lies past the end of its memory.
    Memory = 26,
}

impl Refusal {
    /// All refusals, by number from 1 on.
    pub const ALL: [Refusal; 26] = [
        Refusal::Phase,
        Refusal::Bytes,
        Refusal::Encoding,
        Refusal::ReadOnly,
        Refusal::Width,
        Refusal::Pair,
        Refusal::SetAndClear,
        Refusal::Set,
        Refusal::Clear,
        Refusal::Port,
        Refusal::Msr,
        Refusal::Vector,
        Refusal::Full,
        Refusal::Reason,
        Refusal::OwnedBits,
        Refusal::Interrupt,
        Refusal::Sum,
        Refusal::CrAccess,
        Refusal::Xcr0,
        Refusal::Xcr,
        Refusal::ApicAccess,
        Refusal::Count,
        Refusal::Index,
        Refusal::Room,
        Refusal::Shown,
        Refusal::Memory,
    ];

    /// The number that the archive answers.
    #[must_use]
    pub const fn number(self) -> u32 {
        self as u32
    }

    const fn text(self) -> &'static str {
        match self {
            Refusal::Phase => "the session is in another phase than the call needs",
            Refusal::Bytes => "the bytes are no record",
            Refusal::Encoding => "no field has the encoding",
            Refusal::ReadOnly => "the field is read-only",
            Refusal::Width => "the value is wider than the field",
            Refusal::Pair => "a bit must be 1 and may not be 1",
            Refusal::SetAndClear => "a bit is to be both set and cleared",
            Refusal::Set => "a bit is to be set that the processor does not allow to be 1",
            Refusal::Clear => "a bit is to be cleared that the processor does not allow to be 0",
            Refusal::Port => "the last port is above 65535",
            Refusal::Msr => "the bitmaps do not cover the MSR",
            Refusal::Vector => "the vector is 0 or above 255",
            Refusal::Full => "64 events wait already",
            Refusal::Reason => "the exit reason is none that is reported",
            Refusal::OwnedBits => "a bit of CR0 or CR4 that the host owns differs from the session's",
            Refusal::Interrupt => "the external interrupt's information is not valid or has type 1",
            Refusal::Sum => "an address passes 2^64 - 1",
            Refusal::CrAccess => "the access to a control register is no move to CR0 or CR4",
            Refusal::Xcr0 => "XSETBV of a value that XCR0 may not have",
            Refusal::Xcr => "XSETBV of a register other than XCR0",
            Refusal::ApicAccess => "an APIC access",
            Refusal::Count => "the count of entries is at its end",
            Refusal::Index => "the register's index is 4 or above 15",
            Refusal::Room => "the output is shorter than the trap sheet",
            Refusal::Shown => "a second buffer has another length than the first",
            Refusal::Memory => "an entry of the guest's page tables lies past the end of its memory",
        }
    }
}

impl Display for Refusal {
    fn fmt(&self, f: &mut Formatter<'_>) -> FmtResult {
        write!(f, "refused ({}): {}", self.number(), self.text())
    }
}

impl Error for Refusal {}

/// What the number that a call answers means.
pub(crate) fn outcome(number: u32) -> Result<(), Refusal> {
    if number == 0 {
        return Ok(());
    }
    match Refusal::ALL.into_iter().find(|refusal| refusal.number() == number) {
        Some(refusal) => Err(refusal),
        None => unreachable!("the archive answers {number}, which is no number of include/x86_vcpu.h"),
    }
}

/// For a call that is never refused: the bytes of a session are a record, and all lengths are right.
pub(crate) fn accepted(number: u32) {
    if let Err(refusal) = outcome(number) {
        unreachable!("{refusal}");
    }
}
