//! The original's functions that need no vCPU.

use crate::words::{field, pair};
use crate::{Machine, Outcome, guarded};
use std::cell::RefCell;
use x86_vcpu::access;

thread_local! {
    static SCRATCH: RefCell<Box<Machine>> = RefCell::new(Box::new(Machine::new()));
}

/// Run the original's code on a machine with these words loaded.
fn scratch<T>(load: impl FnOnce(&mut Machine), f: impl FnOnce() -> axerrno::AxResult<T>) -> Outcome<T> {
    SCRATCH.with(|scratch| {
        let machine = &mut *scratch.borrow_mut();
        load(machine);
        guarded(machine, f)
    })
}

pub fn set_control(allowed0: u32, allowed1: u32, old: u32, set: u32, clear: u32) -> Outcome<u32> {
    scratch(|_| (), || access::control_word(pair(allowed0, allowed1), old, set, clear))
}

pub fn ept_pointer(root: u64) -> u64 {
    access::ept_pointer(root)
}

pub fn event_type(vector: u8) -> u8 {
    access::event_type(vector)
}

pub fn event_has_code(vector: u8) -> bool {
    access::event_has_code(vector)
}

pub fn event_is_soft(vector: u8) -> bool {
    access::event_is_soft(vector)
}

/// The interruption word of a vector and a code (`VmxInterruptInfo::from` and `bits`).
pub fn event_word(vector: u8, code: Option<u32>) -> u32 {
    access::event_word(vector, code)
}

/// Access size, in, string, repeated, port.
pub fn io_exit_info(qualification: u64) -> Outcome<(u8, bool, bool, bool, u16)> {
    scratch(|m| m.set_field(field::QUALIFICATION, qualification), access::io_exit_info)
}

/// CR number, access type, LMSW operand type, register, LMSW source data.
pub fn cr_access_info(qualification: u64) -> Outcome<(u8, u8, u8, u8, u8)> {
    scratch(|m| m.set_field(field::QUALIFICATION, qualification), access::cr_access_info)
}

/// Offset, access type, asynchronous.
pub fn apic_access_exit_info(qualification: u64) -> Outcome<(u16, u8, bool)> {
    scratch(|m| m.set_field(field::QUALIFICATION, qualification), access::apic_access_exit_info)
}

/// Vector, type, error code, valid.
pub fn interrupt_exit_info(info: u32, code: u32) -> Outcome<(u8, u8, Option<u32>, bool)> {
    let load = |m: &mut Machine| {
        m.set_field(field::INTERRUPTION_INFO, info as u64);
        m.set_field(field::INTERRUPTION_ERROR_CODE, code as u64);
    };
    scratch(load, access::interrupt_exit_info)
}

/// Access flags (1 read, 2 write, 4 execute) and guest-physical address.
pub fn ept_violation_info(qualification: u64, address: u64) -> Outcome<(u64, u64)> {
    let load = |m: &mut Machine| {
        m.set_field(field::QUALIFICATION, qualification);
        m.set_field(field::GUEST_PHYSICAL_ADDRESS, address);
    };
    scratch(load, access::ept_violation_info)
}

/// Reason, failed entry, instruction length, RIP.
pub fn exit_info(reason: u32, length: u32, rip: u64) -> Outcome<(u32, bool, u32, u64)> {
    let load = |m: &mut Machine| {
        m.set_field(field::REASON, reason as u64);
        m.set_field(field::INSTRUCTION_LENGTH, length as u64);
        m.set_field(field::RIP, rip);
    };
    scratch(load, access::exit_info)
}
