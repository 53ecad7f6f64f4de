//! The proved core, for a hypervisor in Rust: the C interface declared (`ffi`), and a safe wrapper over it.
//!
//! A [`Session`] holds the record's bytes and [`Frames`] the three intercept frames. A refused call answers its [`Refusal`] and changes nothing.
//!
//! A trial (`try_..`) answers what its call would answer, with the session or the frames that the call would leave, and changes neither. It is of the core
//! alone: the host carries nothing of it to the processor.
//!
//! The host carries fields and registers between the session and the processor, as `include/x86_vcpu.h` says under "What the host does": after
//! [`Session::setup`] the fields of [`Field::SETUP`], before an entry all of [`Session::registers`] and [`Session::xcr0`], and what a processor asks beside it.
//!
//! Every `unsafe` block below is one call of the archive. What `include/x86_vcpu.h` asks of a caller holds in each: a pointer and its length are those of one
//! array that is borrowed for the call, a result is a local variable, and no two of them overlap.
#![no_std]

pub mod blocks;
pub mod ffi;
pub mod fields;
mod refusal;

pub use blocks::{HostWords, Report, Setup};
pub use refusal::Refusal;

use core::ops::BitOr;
use refusal::{accepted, outcome};

pub const RECORD_LENGTH: usize = 1485;
pub const FRAME_LENGTH: usize = 4096;
/// The length of a line of a trap sheet, with its line feed.
pub const SHEET_LINE: usize = 41;
/// The length of the largest trap sheet: every second port, and every second MSR of each range, is a run of its own.
pub const SHEET_LARGEST: usize = 2_015_355;

/// Where the registers lie in a record.
const REGISTERS: usize = 10;

/// A field of the VMCS by its encoding. The names are in [`fields`].
#[derive(Clone, Copy, PartialEq, Eq, PartialOrd, Ord, Hash, Debug)]
pub struct Field(pub u64);

/// One page of intercepts.
#[derive(Clone)]
#[repr(C, align(4096))]
pub struct Frame(pub [u8; FRAME_LENGTH]);

/// I/O bitmaps A and B, and the MSR bitmaps.
///
/// Edits with no port and no access to an MSR in common leave the same bytes in either order, and each bit is as the last accepted edit that covers it asked, or as it
/// was before (the header, "Intercepts").
#[derive(Clone)]
pub struct Frames {
    pub io_a: Frame,
    pub io_b: Frame,
    pub msr: Frame,
}

impl Frames {
    /// Frames that intercept nothing.
    #[must_use]
    pub const fn new() -> Frames {
        Frames { io_a: Frame([0; FRAME_LENGTH]), io_b: Frame([0; FRAME_LENGTH]), msr: Frame([0; FRAME_LENGTH]) }
    }

    /// Sets or clears the intercepts of `count` ports from `port_base` on. A count of 0 is accepted and changes nothing.
    ///
    /// # Errors
    ///
    /// [`Refusal::Port`].
    pub fn set_io_intercept_of_range(&mut self, port_base: u32, count: u32, intercept: bool) -> Result<(), Refusal> {
        let (a, b) = (&mut self.io_a.0, &mut self.io_b.0);
        outcome(unsafe { ffi::vcpu_set_io_intercept_of_range(a.as_mut_ptr(), a.len(), b.as_mut_ptr(), b.len(), port_base, count, u8::from(intercept)) })
    }

    /// Sets or clears the intercept of reads of one MSR.
    ///
    /// # Errors
    ///
    /// [`Refusal::Msr`].
    pub fn set_read_intercept(&mut self, msr: u32, intercept: bool) -> Result<(), Refusal> {
        outcome(unsafe { ffi::vcpu_set_read_intercept(self.msr.0.as_mut_ptr(), FRAME_LENGTH, msr, u8::from(intercept)) })
    }

    /// Sets or clears the intercept of writes of one MSR.
    ///
    /// # Errors
    ///
    /// [`Refusal::Msr`].
    pub fn set_write_intercept(&mut self, msr: u32, intercept: bool) -> Result<(), Refusal> {
        outcome(unsafe { ffi::vcpu_set_write_intercept(self.msr.0.as_mut_ptr(), FRAME_LENGTH, msr, u8::from(intercept)) })
    }

    /// Sets or clears the intercepts of reads and of writes of one MSR.
    ///
    /// # Errors
    ///
    /// [`Refusal::Msr`].
    pub fn set_msr_intercept_of_range(&mut self, msr: u32, intercept: bool) -> Result<(), Refusal> {
        outcome(unsafe { ffi::vcpu_set_msr_intercept_of_range(self.msr.0.as_mut_ptr(), FRAME_LENGTH, msr, u8::from(intercept)) })
    }

    /// What [`Frames::set_io_intercept_of_range`] would leave; these frames stay as they are. The MSR bitmaps are a copy.
    ///
    /// # Errors
    ///
    /// [`Refusal::Port`].
    pub fn try_io_intercept_of_range(&self, port_base: u32, count: u32, intercept: bool) -> Result<Frames, Refusal> {
        let mut shown = Frames { msr: self.msr.clone(), ..Frames::new() };
        let (a, b, next_a, next_b) = (&self.io_a.0, &self.io_b.0, &mut shown.io_a.0, &mut shown.io_b.0);
        outcome(unsafe {
            ffi::vcpu_try_io_intercept_of_range(
                a.as_ptr(),
                a.len(),
                b.as_ptr(),
                b.len(),
                next_a.as_mut_ptr(),
                next_a.len(),
                next_b.as_mut_ptr(),
                next_b.len(),
                port_base,
                count,
                u8::from(intercept),
            )
        })?;
        Ok(shown)
    }

    /// What [`Frames::set_read_intercept`] would leave; these frames stay as they are. The I/O bitmaps are copies.
    ///
    /// # Errors
    ///
    /// [`Refusal::Msr`].
    pub fn try_read_intercept(&self, msr: u32, intercept: bool) -> Result<Frames, Refusal> {
        self.try_msr(ffi::vcpu_try_read_intercept, msr, intercept)
    }

    /// What [`Frames::set_write_intercept`] would leave; these frames stay as they are. The I/O bitmaps are copies.
    ///
    /// # Errors
    ///
    /// [`Refusal::Msr`].
    pub fn try_write_intercept(&self, msr: u32, intercept: bool) -> Result<Frames, Refusal> {
        self.try_msr(ffi::vcpu_try_write_intercept, msr, intercept)
    }

    /// What [`Frames::set_msr_intercept_of_range`] would leave; these frames stay as they are. The I/O bitmaps are copies.
    ///
    /// # Errors
    ///
    /// [`Refusal::Msr`].
    pub fn try_msr_intercept_of_range(&self, msr: u32, intercept: bool) -> Result<Frames, Refusal> {
        self.try_msr(ffi::vcpu_try_msr_intercept_of_range, msr, intercept)
    }

    /// A trial of an edit of the MSR bitmaps.
    fn try_msr(&self, trial: MsrTrial, msr: u32, intercept: bool) -> Result<Frames, Refusal> {
        let mut shown = Frames { io_a: self.io_a.clone(), io_b: self.io_b.clone(), ..Frames::new() };
        let (frame, next) = (&self.msr.0, &mut shown.msr.0);
        outcome(unsafe { trial(frame.as_ptr(), frame.len(), next.as_mut_ptr(), next.len(), msr, u8::from(intercept)) })?;
        Ok(shown)
    }

    /// Writes the trap sheet, a text that lists all that the frames intercept, at the start of `output`, and answers its length in bytes. Bytes past it are
    /// kept.
    ///
    /// Every line has [`SHEET_LINE`] bytes. The first three count the ports, the MSRs whose reads and those whose writes are intercepted. Then there is a line
    /// for each run of neighbours, ascending: its first and its last number, and how many they are. A run may go on from I/O bitmap A to B; MSRs from 0 and
    /// from `0xC000_0000` on are never in one run. The frames that [`Session::setup`] leaves over zeros give:
    ///
    /// ```text
    /// port                                   1
    /// read                                  65
    /// writ                                  65
    /// port  00000604  00000604               1
    /// read  000000e1  000000e1               1
    /// read  00000800  0000083f              64
    /// writ  000000e1  000000e1               1
    /// writ  00000800  0000083f              64
    /// ```
    ///
    /// # Errors
    ///
    /// [`Refusal::Room`]; `output` keeps its bytes. [`SHEET_LARGEST`] bytes are enough for any frames.
    pub fn trap_sheet(&self, output: &mut [u8]) -> Result<usize, Refusal> {
        let (a, b, m) = (&self.io_a.0, &self.io_b.0, &self.msr.0);
        let mut length = 0;
        outcome(unsafe {
            ffi::vcpu_trap_sheet(a.as_ptr(), a.len(), b.as_ptr(), b.len(), m.as_ptr(), m.len(), output.as_mut_ptr(), output.len(), &raw mut length)
        })?;
        Ok(usize::try_from(length).unwrap_or_else(|_| unknown(length)))
    }
}

/// MSR bitmaps, second MSR bitmaps, MSR, intercept.
type MsrTrial = unsafe extern "C" fn(*const u8, usize, *mut u8, usize, u32, u8) -> u32;

impl Default for Frames {
    fn default() -> Frames {
        Frames::new()
    }
}

/// What an entry does with the front of the queue.
#[derive(Clone, Copy, PartialEq, Eq, Debug)]
pub enum Event {
    /// No event waits.
    None,
    /// It is held back, and interrupt-window exiting is set.
    Held,
    /// Its word is written.
    Written,
}

impl Event {
    fn of(number: u8) -> Event {
        match number {
            0 => Event::None,
            1 => Event::Held,
            2 => Event::Written,
            _ => unknown(number.into()),
        }
    }
}

/// The entry that the host then makes.
#[derive(Clone, Copy, PartialEq, Eq, Debug)]
pub struct Entry {
    /// VMRESUME, not VMLAUNCH.
    pub resumed: bool,
    pub event: Event,
}

/// What the host is to do after an exit.
#[derive(Clone, Copy, PartialEq, Eq, Debug)]
pub enum Answer {
    /// The exit is dealt with: the next entry may follow.
    Nothing,
    /// VMCALL: RAX, and RDI, RSI, RDX, RCX, R8, R9.
    Hypercall { nr: u64, args: [u64; 6] },
    /// IN. The host puts the value into RAX: for widths 1 and 2 the other bytes stay, for width 4 the upper four are 0.
    IoRead { port: u16, width: u8 },
    /// OUT.
    IoWrite { port: u16, width: u8, data: u64 },
    /// The guest turns its machine off.
    SystemDown,
    /// An interrupt for the host.
    ExternalInterrupt { vector: u8 },
    /// RDMSR. RIP is not advanced: the host puts the value into RAX and RDX, and writes RIP.
    SysRegRead { addr: u64 },
    /// WRMSR. RIP is not advanced: the host writes it.
    SysRegWrite { addr: u64, value: u64 },
    /// RDMSR of an APIC register. The session waits for [`Session::apic_value`].
    ApicRead { msr: u32 },
    /// WRMSR of an APIC register.
    ApicWrite { msr: u32, value: u64 },
    /// An exit that the core does not deal with.
    Halt,
    /// The entry failed: why is in the fields of exit reason and qualification. The session is ended.
    FailEntry,
}

impl Answer {
    fn of(w: [u64; 8]) -> Answer {
        let (port, width, msr) = ((w[1] & 0xFFFF) as u16, (w[2] & 0xFF) as u8, (w[1] & 0xFFFF_FFFF) as u32);
        match w[0] {
            0 => Answer::Nothing,
            1 => Answer::Hypercall { nr: w[1], args: [w[2], w[3], w[4], w[5], w[6], w[7]] },
            2 => Answer::IoRead { port, width },
            3 => Answer::IoWrite { port, width, data: w[3] },
            4 => Answer::SystemDown,
            5 => Answer::ExternalInterrupt { vector: (w[1] & 0xFF) as u8 },
            6 => Answer::SysRegRead { addr: w[1] },
            7 => Answer::SysRegWrite { addr: w[1], value: w[2] },
            8 => Answer::ApicRead { msr },
            9 => Answer::ApicWrite { msr, value: w[2] },
            10 => Answer::Halt,
            11 => Answer::FailEntry,
            number => unknown(number),
        }
    }
}

/// Where a session stands.
#[derive(Clone, Copy, PartialEq, Eq, Debug)]
pub enum Phase {
    Fresh,
    Ready,
    Running,
    /// An APIC register is read: [`Session::apic_value`] brings its value.
    Waiting,
    Ended,
}

impl Phase {
    fn of(number: u8) -> Phase {
        match number {
            0 => Phase::Fresh,
            1 => Phase::Ready,
            2 => Phase::Running,
            3 => Phase::Waiting,
            4 => Phase::Ended,
            _ => unknown(number.into()),
        }
    }
}

/// Where a session stands, how many events wait, its accepted entries, and those that held an event.
#[derive(Clone, Copy, PartialEq, Eq, Debug)]
pub struct Counts {
    pub phase: Phase,
    pub launched: bool,
    pub waiting: u8,
    pub entries: u32,
    pub held: u32,
}

/// The mode of the guest's CPU.
#[derive(Clone, Copy, PartialEq, Eq, Debug)]
pub enum VmCpuMode {
    Real,
    Protected,
    Compatibility,
    Mode64,
}

impl VmCpuMode {
    fn of(number: u32) -> VmCpuMode {
        match number {
            0 => VmCpuMode::Real,
            1 => VmCpuMode::Protected,
            2 => VmCpuMode::Compatibility,
            3 => VmCpuMode::Mode64,
            _ => unknown(number.into()),
        }
    }
}

/// The yes/no values of a page-walk reading.
#[derive(Clone, Copy, PartialEq, Eq, Default, Debug)]
pub struct WalkFlags(u32);

impl WalkFlags {
    /// The access is the user's: SS has DPL 3.
    pub const USER: WalkFlags = WalkFlags(1);
    /// A write. A reading never has it: the host knows its access.
    pub const WRITE: WalkFlags = WalkFlags(2);
    /// An instruction fetch. A reading never has it.
    pub const FETCH: WalkFlags = WalkFlags(4);
    /// CR4.PSE with 2 levels, else set.
    pub const PSE: WalkFlags = WalkFlags(8);
    /// CR0.WP.
    pub const WP: WalkFlags = WalkFlags(16);
    /// EFER.NXE, clear with 2 levels.
    pub const NXE: WalkFlags = WalkFlags(32);
    /// CR4.SMAP.
    pub const SMAP: WalkFlags = WalkFlags(64);
    /// CR4.SMEP.
    pub const SMEP: WalkFlags = WalkFlags(128);

    /// All flags of `other` are set.
    #[must_use]
    pub const fn contains(self, other: WalkFlags) -> bool {
        self.0 & other.0 == other.0
    }

    /// The flags as `VCPU_WALK_..` of the header has them.
    #[must_use]
    pub const fn bits(self) -> u32 {
        self.0
    }
}

impl BitOr for WalkFlags {
    type Output = WalkFlags;

    fn bitor(self, other: WalkFlags) -> WalkFlags {
        WalkFlags(self.0 | other.0)
    }
}

/// What a walk of the guest's page tables starts from.
#[derive(Clone, Copy, PartialEq, Eq, Debug)]
pub struct PageWalk {
    /// CR3.
    pub top_entry: u64,
    /// How many levels: 0 without paging, 2, 3 or 4.
    pub level: u8,
    /// How many bits of an address each level takes: 0, 10 or 9.
    pub width: u8,
    pub flags: WalkFlags,
}

/// The kind of access that a walk of the guest's page tables is for. Whether it is the user's is the session's to tell.
#[derive(Clone, Copy, PartialEq, Eq, Debug)]
#[repr(u8)]
pub enum Access {
    Read = 0,
    Write = 1,
    /// An instruction fetch.
    Fetch = 2,
}

impl Access {
    /// `VCPU_ACCESS_..` of the header.
    #[must_use]
    pub const fn number(self) -> u8 {
        self as u8
    }
}

/// Why a walk of the guest's page tables fails at an entry, in the order in which it is judged.
#[derive(Clone, Copy, PartialEq, Eq, Debug)]
#[repr(u8)]
pub enum Rule {
    /// The entry is not present.
    NotPresent = 1,
    /// A reserved bit is set.
    Reserved = 2,
    /// The user's access, and the entry is the supervisor's.
    User = 3,
    /// A write, and the entry allows none. A supervisor is held to it with CR0.WP only.
    Write = 4,
    /// A fetch, and the entry allows none.
    Execute = 5,
    /// A supervisor's fetch from a page that is the user's at every level.
    Smep = 6,
    /// A supervisor's read or write of a page that is the user's at every level.
    Smap = 7,
}

impl Rule {
    /// All rules, by number from 1 on.
    pub const ALL: [Rule; 7] = [Rule::NotPresent, Rule::Reserved, Rule::User, Rule::Write, Rule::Execute, Rule::Smep, Rule::Smap];

    /// `VCPU_RULE_..` of the header.
    #[must_use]
    pub const fn number(self) -> u8 {
        self as u8
    }

    fn of(number: u64) -> Rule {
        Rule::ALL.into_iter().find(|rule| u64::from(rule.number()) == number).unwrap_or_else(|| unknown(number))
    }
}

/// What a walk of the guest's page tables comes to.
#[derive(Clone, Copy, PartialEq, Eq, Debug)]
pub enum Walked {
    /// The guest-physical address.
    Address(u64),
    /// The guest would fault: the level, from 4, 3 or 2 at the top table to 1, and the first rule that its entry breaks.
    Fails { level: u8, rule: Rule },
}

impl Walked {
    fn of(w: [u64; 3]) -> Walked {
        match w[0] {
            0 => Walked::Address(w[1]),
            1 => Walked::Fails { level: (w[1] & 0xFF) as u8, rule: Rule::of(w[2]) },
            number => unknown(number),
        }
    }
}

/// The archive is of another version than this crate.
fn unknown(number: u64) -> ! {
    unreachable!("the archive answers {number}, which include/x86_vcpu.h does not have there")
}

/// The session of one virtual CPU: its record.
#[derive(Clone, PartialEq, Eq, Debug)]
pub struct Session([u8; RECORD_LENGTH]);

impl Session {
    /// A new session. The frames are cleared.
    pub fn new(frames: &mut Frames) -> Session {
        let mut session = Session([0; RECORD_LENGTH]);
        let (a, b, m) = (&mut frames.io_a.0, &mut frames.io_b.0, &mut frames.msr.0);
        accepted(unsafe { ffi::vcpu_new(session.at(), RECORD_LENGTH, a.as_mut_ptr(), a.len(), b.as_mut_ptr(), b.len(), m.as_mut_ptr(), m.len()) });
        session
    }

    /// The session of kept bytes.
    ///
    /// # Errors
    ///
    /// [`Refusal::Bytes`], the bytes are no record.
    pub fn from_bytes(bytes: [u8; RECORD_LENGTH]) -> Result<Session, Refusal> {
        let session = Session(bytes);
        outcome(session.read_counts().0).map(|()| session)
    }

    #[must_use]
    pub fn as_bytes(&self) -> &[u8; RECORD_LENGTH] {
        &self.0
    }

    fn at(&mut self) -> *mut u8 {
        self.0.as_mut_ptr()
    }

    /// Sets a fresh session up and adds its intercepts to the frames. The host then writes the fields of [`Field::SETUP`] to the processor.
    ///
    /// # Errors
    ///
    /// [`Refusal::Phase`] (not fresh), [`Refusal::Pair`], [`Refusal::Set`], [`Refusal::Clear`]. Most processors without the TRUE words get the last.
    pub fn setup(&mut self, setup: &Setup, frames: &mut Frames) -> Result<(), Refusal> {
        let block = setup.to_bytes();
        let (a, b, m) = (&mut frames.io_a.0, &mut frames.io_b.0, &mut frames.msr.0);
        outcome(unsafe {
            ffi::vcpu_setup(self.at(), RECORD_LENGTH, block.as_ptr(), block.len(), a.as_mut_ptr(), a.len(), b.as_mut_ptr(), b.len(), m.as_mut_ptr(), m.len())
        })
    }

    /// Queues an event last. Vectors 8, 10 to 14, 17 and 21 carry an error code, this one or else the exit's; others drop it. It goes in as
    /// [`Session::entry`] says.
    ///
    /// # Errors
    ///
    /// [`Refusal::Phase`] (ended), [`Refusal::Full`].
    pub fn queue_event(&mut self, vector: u8, code: Option<u32>) -> Result<(), Refusal> {
        outcome(unsafe { ffi::vcpu_queue_event(self.at(), RECORD_LENGTH, vector, u8::from(code.is_some()), code.unwrap_or(0)) })
    }

    /// Queues an interrupt without an error code. Vectors 1 to 31 go in as exceptions do, those that carry a code with the exit's.
    ///
    /// # Errors
    ///
    /// [`Refusal::Phase`] (ended), [`Refusal::Vector`], [`Refusal::Full`].
    pub fn inject_interrupt(&mut self, vector: u64) -> Result<(), Refusal> {
        outcome(unsafe { ffi::vcpu_inject_interrupt(self.at(), RECORD_LENGTH, vector) })
    }

    /// An entry into the guest, which the host then makes. `host_stack` is stored at the first entry only. No error code goes in while PE of the
    /// session's CR0 is clear.
    ///
    /// # Errors
    ///
    /// [`Refusal::Phase`] (not ready), [`Refusal::Count`].
    pub fn entry(&mut self, host_stack: u64) -> Result<Entry, Refusal> {
        let (mut resumed, mut event) = (0, 0);
        outcome(unsafe { ffi::vcpu_entry(self.at(), RECORD_LENGTH, host_stack, &raw mut resumed, &raw mut event) })?;
        Ok(Entry { resumed: resumed == 1, event: Event::of(event) })
    }

    /// Takes what an exit reports and answers what the host is to do.
    ///
    /// # Errors
    ///
    /// [`Refusal::Phase`] (not running), [`Refusal::Reason`], [`Refusal::OwnedBits`], [`Refusal::Interrupt`], [`Refusal::CrAccess`], [`Refusal::Xcr`],
    /// [`Refusal::Xcr0`], [`Refusal::ApicAccess`], [`Refusal::Sum`], [`Refusal::Set`]. The session still runs then.
    pub fn exit_report(&mut self, report: &Report) -> Result<Answer, Refusal> {
        let (block, mut words) = (report.to_bytes(), [0; 8]);
        outcome(unsafe { ffi::vcpu_exit_report(self.at(), RECORD_LENGTH, block.as_ptr(), block.len(), words.as_mut_ptr()) })?;
        Ok(Answer::of(words))
    }

    /// What [`Session::entry`] would answer, and the session that it would leave; this one stays as it is. The host makes no entry for it.
    ///
    /// # Errors
    ///
    /// [`Refusal::Phase`] (not ready), [`Refusal::Count`].
    pub fn try_entry(&self, host_stack: u64) -> Result<(Entry, Session), Refusal> {
        let (mut shown, mut resumed, mut event) = (Session([0; RECORD_LENGTH]), 0, 0);
        outcome(unsafe {
            ffi::vcpu_try_entry(self.0.as_ptr(), RECORD_LENGTH, shown.at(), RECORD_LENGTH, host_stack, &raw mut resumed, &raw mut event)
        })?;
        Ok((Entry { resumed: resumed == 1, event: Event::of(event) }, shown))
    }

    /// What [`Session::exit_report`] would answer, and the session that it would leave; this one stays as it is.
    ///
    /// # Errors
    ///
    /// Those of [`Session::exit_report`].
    pub fn try_exit_report(&self, report: &Report) -> Result<(Answer, Session), Refusal> {
        let (mut shown, block, mut words) = (Session([0; RECORD_LENGTH]), report.to_bytes(), [0; 8]);
        outcome(unsafe {
            ffi::vcpu_try_exit_report(self.0.as_ptr(), RECORD_LENGTH, shown.at(), RECORD_LENGTH, block.as_ptr(), block.len(), words.as_mut_ptr())
        })?;
        Ok((Answer::of(words), shown))
    }

    /// Brings the value of the APIC register that the guest reads.
    ///
    /// # Errors
    ///
    /// [`Refusal::Phase`] (not waiting).
    pub fn apic_value(&mut self, value: u64) -> Result<(), Refusal> {
        outcome(unsafe { ffi::vcpu_apic_value(self.at(), RECORD_LENGTH, value) })
    }

    /// Reads a field, in any phase.
    ///
    /// # Errors
    ///
    /// [`Refusal::Encoding`], for no field of [`Field::ALL`].
    pub fn read_field(&self, field: Field) -> Result<u64, Refusal> {
        let mut value = 0;
        outcome(unsafe { ffi::vcpu_read_field(self.0.as_ptr(), RECORD_LENGTH, field.0, &raw mut value) }).map(|()| value)
    }

    /// Writes a field, in any phase.
    ///
    /// # Errors
    ///
    /// [`Refusal::Encoding`], [`Refusal::ReadOnly`], [`Refusal::Width`].
    pub fn write_field(&mut self, field: Field, value: u64) -> Result<(), Refusal> {
        outcome(unsafe { ffi::vcpu_write_field(self.at(), RECORD_LENGTH, field.0, value) })
    }

    /// Reads a general-purpose register by its encoding in an instruction, in any phase.
    ///
    /// # Errors
    ///
    /// [`Refusal::Index`].
    pub fn reg_of_index(&self, index: u64) -> Result<u64, Refusal> {
        let mut value = 0;
        outcome(unsafe { ffi::vcpu_get_reg_of_index(self.0.as_ptr(), RECORD_LENGTH, index, &raw mut value) }).map(|()| value)
    }

    /// Writes a general-purpose register, in any phase.
    ///
    /// # Errors
    ///
    /// [`Refusal::Index`].
    pub fn set_reg_of_index(&mut self, index: u64, value: u64) -> Result<(), Refusal> {
        outcome(unsafe { ffi::vcpu_set_reg_of_index(self.at(), RECORD_LENGTH, index, value) })
    }

    /// All registers, in the order of their encoding; place 4 is not used. The core is not called for it.
    #[must_use]
    pub fn registers(&self) -> [u64; 16] {
        core::array::from_fn(|i| {
            let mut bytes = [0; 8];
            bytes.copy_from_slice(&self.0[REGISTERS + 8 * i..][..8]);
            u64::from_le_bytes(bytes)
        })
    }

    /// Writes all registers. The core is not called for it.
    pub fn set_registers(&mut self, registers: &[u64; 16]) {
        for (bytes, register) in self.0[REGISTERS..][..128].chunks_exact_mut(8).zip(registers) {
            bytes.copy_from_slice(&register.to_le_bytes());
        }
    }

    /// Where the session stands.
    #[must_use]
    pub fn counts(&self) -> Counts {
        let (number, counts) = self.read_counts();
        accepted(number);
        counts
    }

    /// The number of the call, and what it gives where it is accepted.
    fn read_counts(&self) -> (u32, Counts) {
        let (mut phase, mut launched, mut waiting, mut entries, mut held) = (0, 0, 0, 0, 0);
        let number = unsafe {
            ffi::vcpu_get_counts(self.0.as_ptr(), RECORD_LENGTH, &raw mut phase, &raw mut launched, &raw mut waiting, &raw mut entries, &raw mut held)
        };
        (number, Counts { phase: Phase::of(phase), launched: launched == 1, waiting, entries, held })
    }

    /// XCR0 of the guest: 0 while fresh, 1 from setup on, then what the last accepted XSETBV brought. The core never loads it: the host does.
    #[must_use]
    pub fn xcr0(&self) -> u64 {
        let mut value = 0;
        accepted(unsafe { ffi::vcpu_get_xcr0(self.0.as_ptr(), RECORD_LENGTH, &raw mut value) });
        value
    }

    /// The mode of the guest's CPU, told by LMA of the EFER given, the guest's CS access rights and CR0. With the host's EFER, as in the published Rust, a
    /// guest in real or protected mode is told as in compatibility mode by a host in long mode; the guest's ([`fields::VmcsGuest64::IA32_EFER`]) gives its mode.
    #[must_use]
    pub fn cpu_mode(&self, host_efer: u64) -> VmCpuMode {
        let mut mode = 0;
        accepted(unsafe { ffi::vcpu_get_cpu_mode(self.0.as_ptr(), RECORD_LENGTH, host_efer, &raw mut mode) });
        VmCpuMode::of(mode)
    }

    /// What a walk of the guest's page tables starts from.
    #[must_use]
    pub fn ptw_info(&self) -> PageWalk {
        let (mut top_entry, mut level, mut width, mut flags) = (0, 0, 0, 0);
        accepted(unsafe { ffi::vcpu_get_ptw_info(self.0.as_ptr(), RECORD_LENGTH, &raw mut top_entry, &raw mut level, &raw mut width, &raw mut flags) });
        PageWalk { top_entry, level, width, flags: WalkFlags(flags) }
    }

    /// Walks the guest's page tables from a guest-virtual address to the guest-physical one, or to the rule by which the guest itself would fault there. The
    /// walk starts from what [`Session::ptw_info`] tells, so the access is the user's where SS has DPL 3. `memory` holds the guest's memory from address 0 on;
    /// only the entries must lie in it, the page need not. Accessed and dirty bits are neither judged nor set. Without paging the address is the answer.
    ///
    /// # Errors
    ///
    /// [`Refusal::Memory`], an entry lies past the end of `memory`. It is judged at each level before that level's rules.
    pub fn page_walk(&self, memory: &[u8], address: u64, access: Access) -> Result<Walked, Refusal> {
        let mut words = [0; 3];
        outcome(unsafe {
            ffi::vcpu_page_walk(self.0.as_ptr(), RECORD_LENGTH, memory.as_ptr(), memory.len(), address, access.number(), words.as_mut_ptr())
        })?;
        Ok(Walked::of(words))
    }

    /// A guest address with the base of its code segment added (none in 64-bit mode).
    ///
    /// # Errors
    ///
    /// [`Refusal::Sum`].
    pub fn gla2gva(&self, host_efer: u64, address: u64) -> Result<u64, Refusal> {
        let mut linear = 0;
        outcome(unsafe { ffi::vcpu_gla2gva(self.0.as_ptr(), RECORD_LENGTH, host_efer, address, &raw mut linear) }).map(|()| linear)
    }
}

/// A control word from the halves of its capability MSR.
///
/// # Errors
///
/// [`Refusal::Pair`], [`Refusal::SetAndClear`], [`Refusal::Set`], [`Refusal::Clear`].
pub fn set_control(allowed0: u32, allowed1: u32, old: u32, set: u32, clear: u32) -> Result<u32, Refusal> {
    let mut word = 0;
    outcome(unsafe { ffi::vcpu_set_control(allowed0, allowed1, old, set, clear, &raw mut word) }).map(|()| word)
}
