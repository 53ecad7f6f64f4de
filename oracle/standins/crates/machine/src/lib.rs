//! The processor as arrays, in place of real hardware.
//!
//! Every word that the original reads from or writes to the processor (VMCS fields, MSRs, CPUID,
//! control registers, segment registers, descriptor tables, physical frames) is here. One machine at
//! a time is current in a thread; the other stand-ins reach it through [`with`].

use std::cell::RefCell;

/// Slots of the field array: the encoding's width (bits 13-14), kind (10-11) and index (1-5).
pub const FIELD_SLOTS: usize = 512;

/// The slot of a field encoding, or `None` if the encoding cannot be that of a full field.
pub fn field_slot(encoding: u32) -> Option<usize> {
    if encoding & !0x6C3E != 0 {
        return None;
    }
    let width = (encoding >> 13) & 3;
    let kind = (encoding >> 10) & 3;
    let index = (encoding >> 1) & 31;
    Some(((width * 4 + kind) * 32 + index) as usize)
}

/// What the emulated APIC was asked to do.
#[derive(Clone, Copy, Debug, PartialEq, Eq)]
pub enum ApicCall {
    Read { msr: u64 },
    Write { msr: u64, value: u64 },
}

/// Unwinding payload: the entry is done and no exit is to be handled.
pub struct Entered;
/// Unwinding payload: the original asked the APIC for a value, which comes with a later call.
pub struct ApicValueWanted;

/// The words outside the vCPU structure.
#[derive(Clone)]
pub struct Machine {
    pub fields: [u64; FIELD_SLOTS],
    /// MSR number and value; a number that is not listed reads as 0.
    pub msrs: Vec<(u32, u64)>,
    /// Values for the next reads of MSR 0x277 (host PAT, then guest PAT, at setup).
    pub pat_reads: Vec<u64>,
    /// EAX, EBX, ECX, EDX of the next `cpuid!`.
    pub cpuid: [u32; 4],
    pub has_xsave: bool,
    pub has_rdtscp: bool,
    pub has_invpcid: bool,
    pub has_xsaves: bool,
    pub cr0: u64,
    pub cr3: u64,
    pub cr4: u64,
    pub xcr0: u64,
    /// ES, CS, SS, DS, FS, GS.
    pub segments: [u16; 6],
    pub tr: u16,
    pub gdt_base: u64,
    pub gdt_limit: u16,
    pub idt_base: u64,
    /// The memory that the GDT base stands for.
    pub gdt: Vec<u64>,
    pub host_rip: u64,
    pub host_stack: u64,
    /// Physical addresses and memory of the frames, in the order of their allocation.
    pub frame_addresses: Vec<u64>,
    pub frames: Vec<*mut u8>,
    pub apic_call: Option<ApicCall>,
    /// Unwind with [`Entered`] at the next read of the exit reason.
    pub stop_at_exit_reason: bool,
    /// The last `invept`: type and EPT pointer.
    pub invept: Option<(u64, u64)>,
}

impl Machine {
    pub const fn new() -> Self {
        Machine {
            fields: [0; FIELD_SLOTS],
            msrs: Vec::new(),
            pat_reads: Vec::new(),
            cpuid: [0; 4],
            has_xsave: false,
            has_rdtscp: false,
            has_invpcid: false,
            has_xsaves: false,
            cr0: 0,
            cr3: 0,
            cr4: 0,
            xcr0: 0,
            segments: [0; 6],
            tr: 0,
            gdt_base: 0,
            gdt_limit: 0,
            idt_base: 0,
            gdt: Vec::new(),
            host_rip: 0,
            host_stack: 0,
            frame_addresses: Vec::new(),
            frames: Vec::new(),
            apic_call: None,
            stop_at_exit_reason: false,
            invept: None,
        }
    }

    pub fn msr(&self, number: u32) -> u64 {
        match self.msrs.iter().find(|entry| entry.0 == number) {
            Some(entry) => entry.1,
            None => 0,
        }
    }

    pub fn set_msr(&mut self, number: u32, value: u64) {
        match self.msrs.iter_mut().find(|entry| entry.0 == number) {
            Some(entry) => entry.1 = value,
            None => self.msrs.push((number, value)),
        }
    }

    pub fn field(&self, encoding: u32) -> u64 {
        self.fields[field_slot(encoding).expect("field encoding")]
    }

    pub fn set_field(&mut self, encoding: u32, value: u64) {
        self.fields[field_slot(encoding).expect("field encoding")] = value;
    }
}

impl Default for Machine {
    fn default() -> Self {
        Self::new()
    }
}

thread_local! {
    static CURRENT: RefCell<Box<Machine>> = RefCell::new(Box::new(Machine::new()));
}

/// Use the current machine.
pub fn with<T>(f: impl FnOnce(&mut Machine) -> T) -> T {
    CURRENT.with(|current| f(&mut current.borrow_mut()))
}

/// Exchange the current machine with another.
pub fn swap(other: &mut Box<Machine>) {
    CURRENT.with(|current| std::mem::swap(&mut *current.borrow_mut(), other))
}
