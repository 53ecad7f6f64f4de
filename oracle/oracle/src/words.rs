//! What goes in and what comes out.

use machine::{ApicValueWanted, Entered as EnteredPayload, Machine};
use std::any::Any;
use x86_vcpu::access::{self, AxVCpuExitReason, VmxVcpu};

pub const MSR_PAT: u32 = 0x277;
pub const MSR_EFER: u32 = 0xC000_0080;
pub const MSR_TRUE_ENTRY: u32 = 0x490;
pub const MSR_VMX_BASIC: u32 = 0x480;
/// Bit 55 of it: the processor has the TRUE words.
pub const VMX_FLEX_CONTROLS: u64 = 1 << 55;
/// Fixed-0, then fixed-1.
pub const MSR_CR0_FIXED: [u32; 2] = [0x486, 0x487];
pub const MSR_CR4_FIXED: [u32; 2] = [0x488, 0x489];

/// The capability word of a pair: allowed-0 in the low half, allowed-1 in the high half.
pub fn pair(allowed0: u32, allowed1: u32) -> u64 {
    (allowed1 as u64) << 32 | allowed0 as u64
}

/// Field encodings that a report carries (appendix B).
pub mod field {
    pub const ENTRY_INTERRUPTION_INFO: u32 = 0x4016;
    pub const GUEST_PHYSICAL_ADDRESS: u32 = 0x2400;
    pub const REASON: u32 = 0x4402;
    pub const INTERRUPTION_INFO: u32 = 0x4404;
    pub const INTERRUPTION_ERROR_CODE: u32 = 0x4406;
    pub const INSTRUCTION_LENGTH: u32 = 0x440C;
    pub const QUALIFICATION: u32 = 0x6400;
    pub const EFER: u32 = 0x2806;
    pub const CS_RIGHTS: u32 = 0x4816;
    pub const SS_RIGHTS: u32 = 0x4818;
    pub const INTERRUPTIBILITY: u32 = 0x4824;
    pub const CR0: u32 = 0x6800;
    pub const CR3: u32 = 0x6802;
    pub const CR4: u32 = 0x6804;
    pub const CS_BASE: u32 = 0x6808;
    pub const RSP: u32 = 0x681C;
    pub const RIP: u32 = 0x681E;
    pub const RFLAGS: u32 = 0x6820;
}

/// The eighteen host words of setup.
#[derive(Clone, Debug, Default, PartialEq, Eq)]
pub struct HostWords {
    pub pat: u64,
    pub efer: u64,
    pub cr0: u64,
    /// The original keeps bits 12 to 51 of it.
    pub cr3: u64,
    pub cr4: u64,
    pub es: u16,
    pub cs: u16,
    pub ss: u16,
    pub ds: u16,
    pub fs: u16,
    pub gs: u16,
    pub fs_base: u64,
    pub gs_base: u64,
    /// The original panics if its index (bits 3 to 15) is 8191.
    pub tr: u16,
    pub tr_base: u64,
    pub gdtr_base: u64,
    pub idtr_base: u64,
    pub rip: u64,
}

/// Capability words: a pair has allowed-0 in the low half and allowed-1 in the high half.
#[derive(Clone, Debug, Default, PartialEq, Eq)]
pub struct Capabilities {
    /// MSRs 0x48D, 0x48E, 0x48B, 0x48F, 0x490: pin, primary, secondary, exit, entry.
    pub pairs: [u64; 5],
    /// MSRs 0x481, 0x482, 0x483, 0x484, whose low halves are the old pin, primary, exit and entry words.
    pub plain: [u64; 4],
    /// MSRs 0x486 to 0x489: CR0 fixed-0 and fixed-1, CR4 fixed-0 and fixed-1.
    pub cr0_fixed0: u64,
    pub cr0_fixed1: u64,
    pub cr4_fixed0: u64,
    pub cr4_fixed1: u64,
}

impl Capabilities {
    /// CR0 fixed-0 and fixed-1, CR4 fixed-0 and fixed-1.
    pub fn fixed(&self) -> [u64; 4] {
        [self.cr0_fixed0, self.cr0_fixed1, self.cr4_fixed0, self.cr4_fixed1]
    }

    /// Document 01's 6 at setup: a bit that must be 1 and may not be.
    pub fn inconsistent(&self) -> bool {
        let in_pair = |pair: &u64| pair & !(pair >> 32) & 0xFFFF_FFFF != 0;
        let in_fixed = |fixed: &[u64]| fixed[0] & !fixed[1] != 0;
        self.pairs.iter().any(in_pair) || self.fixed().chunks(2).any(in_fixed)
    }

    /// Put the words into the MSRs that the original reads.
    pub(crate) fn load(&self, m: &mut Machine) {
        for (msr, pair) in [0x48D, 0x48E, 0x48B, 0x48F, 0x490].into_iter().zip(self.pairs) {
            m.set_msr(msr, pair);
        }
        for (msr, word) in (0x481..).zip(self.plain) {
            m.set_msr(msr, word);
        }
        for (msr, word) in (0x486..).zip(self.fixed()) {
            m.set_msr(msr, word);
        }
    }
}

#[derive(Clone, Debug, Default, PartialEq, Eq)]
pub struct Setup {
    pub host: HostWords,
    pub entry: u64,
    pub ept_root: u64,
    /// Physical addresses of I/O A, I/O B and MSR.
    pub frames: [u64; 3],
    /// MSR 0x480, which the original's setup does not read.
    pub vmx_basic: u64,
    pub capabilities: Capabilities,
    pub guest_pat: u64,
    /// The port's alone: the original has no such word.
    pub xcr0_supported: u64,
    pub rdtscp: bool,
    pub invpcid: bool,
    pub xsaves: bool,
}

impl Setup {
    /// Put the words into the arrays that the original reads.
    pub(crate) fn load(&self, m: &mut Machine) {
        let host = &self.host;
        self.capabilities.load(m);
        // The original reads the one PAT register twice: for the host, then for the guest.
        m.pat_reads = vec![host.pat, self.guest_pat];
        m.set_msr(MSR_EFER, host.efer);
        m.set_msr(0xC000_0100, host.fs_base);
        m.set_msr(0xC000_0101, host.gs_base);
        m.set_msr(MSR_VMX_BASIC, self.vmx_basic);
        m.cr0 = host.cr0;
        m.cr3 = host.cr3;
        m.cr4 = host.cr4;
        m.segments = [host.es, host.cs, host.ss, host.ds, host.fs, host.gs];
        m.tr = host.tr;
        // A table in which the TR selector's descriptor has the TR base.
        let index = (host.tr >> 3) as usize;
        let base = host.tr_base;
        let entries = (index + 2).min(8192);
        m.gdt_limit = (8 * entries - 1) as u16;
        m.gdt.clear();
        m.gdt.resize(entries, 0);
        m.gdt[index] = (base & 0xFF_FFFF) << 16 | 1 << 47 | (base >> 24 & 0xFF) << 56;
        if let Some(high) = m.gdt.get_mut(index + 1) {
            *high = base >> 32;
        }
        m.gdt_base = host.gdtr_base;
        m.idt_base = host.idtr_base;
        m.host_rip = host.rip;
        m.frame_addresses[1..4].copy_from_slice(&self.frames);
        m.has_rdtscp = self.rdtscp;
        m.has_invpcid = self.invpcid;
        m.has_xsaves = self.xsaves;
    }
}

/// An exit report.
#[derive(Clone, Debug, Default, PartialEq, Eq)]
pub struct Report {
    /// By index; 4 is not stored.
    pub registers: [u64; 16],
    pub rip: u64,
    pub rsp: u64,
    pub rflags: u64,
    pub interruptibility: u32,
    pub cr0: u64,
    pub cr3: u64,
    pub cr4: u64,
    pub efer: u64,
    pub cs_base: u64,
    pub cs_rights: u32,
    pub ss_rights: u32,
    pub reason: u32,
    pub qualification: u64,
    pub instruction_length: u32,
    pub interruption_info: u32,
    pub interruption_error_code: u32,
    /// EAX, EBX, ECX, EDX of the host for the leaf in question.
    pub cpuid: [u32; 4],
}

impl Report {
    pub fn failed(&self) -> bool {
        self.reason >> 31 != 0
    }

    /// What the processor does at an exit: store the guest's state and the exit words; of a failed entry,
    /// reason and qualification only.
    pub fn load(&self, vcpu: &mut VmxVcpu, clear_entry_valid: bool) {
        let reason = self.reason as u64;
        let set = |fields: &[(u32, u64)]| {
            machine::with(|m| fields.iter().for_each(|&(encoding, value)| m.set_field(encoding, value)))
        };
        set(&[(field::REASON, reason), (field::QUALIFICATION, self.qualification)]);
        if self.failed() {
            return;
        }
        let registers = access::registers_mut(vcpu);
        let unused = registers[4];
        *registers = self.registers;
        registers[4] = unused;
        set(&[
            (field::RIP, self.rip),
            (field::RSP, self.rsp),
            (field::RFLAGS, self.rflags),
            (field::INTERRUPTIBILITY, self.interruptibility as u64),
            (field::CR0, self.cr0),
            (field::CR3, self.cr3),
            (field::CR4, self.cr4),
            (field::EFER, self.efer),
            (field::CS_BASE, self.cs_base),
            (field::CS_RIGHTS, self.cs_rights as u64),
            (field::SS_RIGHTS, self.ss_rights as u64),
            (field::INSTRUCTION_LENGTH, self.instruction_length as u64),
            (field::INTERRUPTION_INFO, self.interruption_info as u64),
            (field::INTERRUPTION_ERROR_CODE, self.interruption_error_code as u64),
        ]);
        machine::with(|m| {
            m.cpuid = self.cpuid;
            if clear_entry_valid {
                let word = m.field(field::ENTRY_INTERRUPTION_INFO);
                m.set_field(field::ENTRY_INTERRUPTION_INFO, word & 0x7FFF_FFFF);
            }
        });
    }
}

#[derive(Clone, Copy, Debug, PartialEq, Eq)]
pub enum EntryEvent {
    None,
    Held,
    Written,
}

#[derive(Clone, Copy, Debug, PartialEq, Eq)]
pub struct Entered {
    pub launch: bool,
    pub event: EntryEvent,
}

/// The answer to an exit: the original's. Calls of the APIC device are answers of their own.
#[derive(Clone, Debug, PartialEq, Eq)]
pub enum Answer {
    Nothing,
    Hypercall { nr: u64, args: [u64; 6] },
    IoRead { port: u16, bytes: u8 },
    IoWrite { port: u16, bytes: u8, data: u64 },
    SysRegRead { addr: u64 },
    SysRegWrite { addr: u64, value: u64 },
    ExternalInterrupt { vector: u64 },
    ApicRead { msr: u64 },
    ApicWrite { msr: u64, value: u64 },
    SystemDown,
    Halt,
    FailEntry,
}

impl Answer {
    pub fn name(&self) -> &'static str {
        match self {
            Answer::Nothing => "Nothing",
            Answer::Hypercall { .. } => "Hypercall",
            Answer::IoRead { .. } => "IoRead",
            Answer::IoWrite { .. } => "IoWrite",
            Answer::SysRegRead { .. } => "SysRegRead",
            Answer::SysRegWrite { .. } => "SysRegWrite",
            Answer::ExternalInterrupt { .. } => "ExternalInterrupt",
            Answer::ApicRead { .. } => "ApicRead",
            Answer::ApicWrite { .. } => "ApicWrite",
            Answer::SystemDown => "SystemDown",
            Answer::Halt => "Halt",
            Answer::FailEntry => "FailEntry",
        }
    }

    /// The answer's numbers in the order of its parts.
    pub fn numbers(&self) -> Vec<u64> {
        match self {
            Answer::Hypercall { nr, args } => std::iter::once(*nr).chain(*args).collect(),
            Answer::IoRead { port, bytes } => vec![*port as u64, *bytes as u64],
            Answer::IoWrite { port, bytes, data } => vec![*port as u64, *bytes as u64, *data],
            Answer::SysRegRead { addr } => vec![*addr],
            Answer::SysRegWrite { addr, value } => vec![*addr, *value],
            Answer::ExternalInterrupt { vector } => vec![*vector],
            Answer::ApicRead { msr } => vec![*msr],
            Answer::ApicWrite { msr, value } => vec![*msr, *value],
            _ => Vec::new(),
        }
    }

    /// The eight words of `vcpu_exit_report`: the answer's code and its numbers, words without one 0.
    pub fn words(&self) -> [u64; 8] {
        let code = match self {
            Answer::Nothing => 0,
            Answer::Hypercall { .. } => 1,
            Answer::IoRead { .. } => 2,
            Answer::IoWrite { .. } => 3,
            Answer::SystemDown => 4,
            Answer::ExternalInterrupt { .. } => 5,
            Answer::SysRegRead { .. } => 6,
            Answer::SysRegWrite { .. } => 7,
            Answer::ApicRead { .. } => 8,
            Answer::ApicWrite { .. } => 9,
            Answer::Halt => 10,
            Answer::FailEntry => 11,
        };
        let mut words = [0; 8];
        words[0] = code;
        for (word, number) in words[1..].iter_mut().zip(self.numbers()) {
            *word = number;
        }
        words
    }

    /// Name and hexadecimal numbers.
    pub fn line(&self) -> String {
        self.numbers().iter().fold(self.name().to_string(), |text, number| format!("{text} {number:x}"))
    }

    pub(crate) fn of(reason: AxVCpuExitReason) -> Answer {
        use AxVCpuExitReason as R;
        match reason {
            R::Hypercall { nr, args } => Answer::Hypercall { nr, args },
            R::IoRead { port, width } => Answer::IoRead { port: port.0, bytes: width.size() as u8 },
            R::IoWrite { port, width, data } => Answer::IoWrite { port: port.0, bytes: width.size() as u8, data },
            R::SysRegRead { addr, .. } => Answer::SysRegRead { addr: addr.0 as u64 },
            R::SysRegWrite { addr, value } => Answer::SysRegWrite { addr: addr.0 as u64, value },
            R::ExternalInterrupt { vector } => Answer::ExternalInterrupt { vector },
            R::Halt => Answer::Halt,
            R::Nothing => Answer::Nothing,
            R::SystemDown => Answer::SystemDown,
            R::FailEntry { .. } => Answer::FailEntry,
        }
    }
}

/// How a call of the original does not succeed.
#[derive(Clone, Debug, PartialEq, Eq)]
pub enum Failure {
    Panicked(String),
    Error {
        kind: String,
        message: String,
    },
    /// The run was left after the entry (inside the oracle only).
    Entered,
    /// The run was left at an APIC read (inside the oracle only).
    ApicValueWanted,
}

pub(crate) fn failure_of(payload: Box<dyn Any + Send>) -> Failure {
    if payload.is::<EnteredPayload>() {
        return Failure::Entered;
    }
    if payload.is::<ApicValueWanted>() {
        return Failure::ApicValueWanted;
    }
    Failure::Panicked(match payload.downcast::<String>() {
        Ok(text) => *text,
        Err(payload) => match payload.downcast::<&'static str>() {
            Ok(text) => text.to_string(),
            Err(_) => "no message".to_string(),
        },
    })
}
