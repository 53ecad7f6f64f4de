//! Added for the oracle, not in the original: a child module of `vcpu`, so that it reaches the private
//! parts. It passes numbers to the original's functions and back, and decides nothing.

#[path = "fields.rs"]
pub mod fields;

use super::super::structs::EPTPointer;
use super::*;
use crate::vmx::definitions::VmxInterruptionType;
use std::cell::RefCell;

pub use super::VmxVcpu;
pub use axvcpu::AxVCpuExitReason;

/// What the processor does between entry and exit. The flag is true for a launch, false for a resume.
pub type Between = Box<dyn FnOnce(&mut VmxVcpu, bool)>;

thread_local! {
    static BETWEEN: RefCell<Option<Between>> = const { RefCell::new(None) };
}

// In place of `vmlaunch` and `vmresume`. RSP points behind the guest registers, where the host's RSP
// is kept. Switch to the host's stack, call `between` in place of the guest's run, load the guest
// registers, and go on at the original's exit code.
core::arch::global_asm!(
    ".globl oracle_vmlaunch",
    "oracle_vmlaunch:",
    "mov    rsi, 1",
    "jmp    2f",
    ".globl oracle_vmresume",
    "oracle_vmresume:",
    "mov    rsi, 0",
    "2:",
    "lea    rdi, [rsp - {registers}]",
    "mov    rsp, [rsp]",
    "push   rdi",
    "call   {between}",
    "pop    rsp",
    restore_regs_from_stack!(),
    "jmp    {exit}",
    registers = const size_of::<GeneralRegisters>(),
    between = sym between,
    exit = sym VmxVcpu::vmx_exit,
);

extern "C" fn between(vcpu: &mut VmxVcpu, launch: u64) {
    if let Some(action) = BETWEEN.take() {
        action(vcpu, launch == 1);
    }
}

/// The original's `run`, with this between entry and exit.
pub fn run(vcpu: &mut VmxVcpu, action: Between) -> AxResult<AxVCpuExitReason> {
    BETWEEN.set(Some(action));
    <VmxVcpu as AxArchVCpu>::run(vcpu)
}

pub fn setup(vcpu: &mut VmxVcpu, entry: u64, ept_root: u64) -> AxResult {
    vcpu.set_entry(GuestPhysAddr::from(entry as usize))?;
    vcpu.set_ept_root(HostPhysAddr::from(ept_root as usize))?;
    <VmxVcpu as AxArchVCpu>::setup(vcpu, ())
}

pub fn unbind(vcpu: &mut VmxVcpu) -> AxResult {
    <VmxVcpu as AxArchVCpu>::unbind(vcpu)
}

pub fn inject_interrupt(vcpu: &mut VmxVcpu, vector: u64) -> AxResult {
    <VmxVcpu as AxArchVCpu>::inject_interrupt(vcpu, vector as usize)
}

pub fn write_edx_eax(vcpu: &mut VmxVcpu, value: u64) {
    vcpu.write_edx_eax(value)
}

pub fn launched(vcpu: &VmxVcpu) -> bool {
    vcpu.launched
}

pub fn set_launched(vcpu: &mut VmxVcpu, launched: bool) {
    vcpu.launched = launched
}

pub fn guest_xcr0(vcpu: &VmxVcpu) -> u64 {
    vcpu.xstate.guest_xcr0
}

pub fn events(vcpu: &VmxVcpu) -> &VecDeque<(u8, Option<u32>)> {
    &vcpu.pending_events
}

pub fn events_mut(vcpu: &mut VmxVcpu) -> &mut VecDeque<(u8, Option<u32>)> {
    &mut vcpu.pending_events
}

/// RAX, RCX, RDX, RBX, the unused slot, RBP, RSI, RDI, R8 to R15.
pub fn registers(vcpu: &VmxVcpu) -> &[u64; 16] {
    // `GeneralRegisters` is `repr(C)` with sixteen `u64`.
    unsafe { &*(&vcpu.guest_regs as *const GeneralRegisters as *const [u64; 16]) }
}

pub fn registers_mut(vcpu: &mut VmxVcpu) -> &mut [u64; 16] {
    unsafe { &mut *(&mut vcpu.guest_regs as *mut GeneralRegisters as *mut [u64; 16]) }
}

pub fn get_register(vcpu: &VmxVcpu, index: u8) -> u64 {
    vcpu.regs().get_reg_of_index(index)
}

pub fn set_register(vcpu: &mut VmxVcpu, index: u8, value: u64) {
    vcpu.regs_mut().set_reg_of_index(index, value)
}

/// By an index of 64 bits, of which the original takes 8.
pub fn set_gpr(vcpu: &mut VmxVcpu, index: u64, value: u64) {
    <VmxVcpu as AxArchVCpu>::set_gpr(vcpu, index as usize, value as usize)
}

pub fn set_read_intercept(vcpu: &mut VmxVcpu, msr: u32, intercept: bool) {
    vcpu.msr_bitmap.set_read_intercept(msr, intercept)
}

pub fn set_write_intercept(vcpu: &mut VmxVcpu, msr: u32, intercept: bool) {
    vcpu.msr_bitmap.set_write_intercept(msr, intercept)
}

/// 0 real, 1 protected, 2 compatibility, 3 64-bit.
pub fn cpu_mode(vcpu: &VmxVcpu) -> u8 {
    match vcpu.get_cpu_mode() {
        VmCpuMode::Real => 0,
        VmCpuMode::Protected => 1,
        VmCpuMode::Compatibility => 2,
        VmCpuMode::Mode64 => 3,
    }
}

pub fn gla2gva(vcpu: &VmxVcpu, address: u64) -> u64 {
    vcpu.gla2gva(GuestVirtAddr::from(address as usize)).as_usize() as u64
}

/// The original's `GuestPageWalkInfo`, in the order of its fields.
#[derive(Clone, Copy, Debug, PartialEq, Eq)]
pub struct PageWalk {
    pub top_entry: u64,
    pub level: u64,
    pub width: u32,
    pub is_user_mode_access: bool,
    pub is_write_access: bool,
    pub is_inst_fetch: bool,
    pub pse: bool,
    pub wp: bool,
    pub nxe: bool,
    pub is_smap_on: bool,
    pub is_smep_on: bool,
}

pub fn page_walk(vcpu: &VmxVcpu) -> PageWalk {
    let info = vcpu.get_ptw_info();
    PageWalk {
        top_entry: info.top_entry as u64,
        level: info.level as u64,
        width: info.width,
        is_user_mode_access: info.is_user_mode_access,
        is_write_access: info.is_write_access,
        is_inst_fetch: info.is_inst_fetch,
        pse: info.pse,
        wp: info.wp,
        nxe: info.nxe,
        is_smap_on: info.is_smap_on,
        is_smep_on: info.is_smep_on,
    }
}

/// `set_control` for the pair in this capability word, by way of the pin field and MSR 0x48D of the
/// current machine.
pub fn control_word(capability: u64, old: u32, set: u32, clear: u32) -> AxResult<u32> {
    machine::with(|m| m.set_msr(Msr::IA32_VMX_TRUE_PINBASED_CTLS as u32, capability));
    let control = VmcsControl32::PINBASED_EXEC_CONTROLS;
    vmcs::set_control(control, Msr::IA32_VMX_TRUE_PINBASED_CTLS, old, set, clear)?;
    control.read()
}

/// `set_control` for the pair that the last `control_word` gave.
pub fn set_control(old: u32, set: u32, clear: u32) -> AxResult {
    vmcs::set_control(VmcsControl32::PINBASED_EXEC_CONTROLS, Msr::IA32_VMX_TRUE_PINBASED_CTLS, old, set, clear)
}

/// The part of an entry before the guest's registers are loaded.
pub fn inject_pending_events(vcpu: &mut VmxVcpu) -> AxResult {
    vcpu.inject_pending_events()
}

pub fn read_rip() -> AxResult<usize> {
    VmcsGuestNW::RIP.read()
}

pub fn write_rip(value: usize) -> AxResult {
    VmcsGuestNW::RIP.write(value)
}

pub fn ept_pointer(root: u64) -> u64 {
    EPTPointer::from_table_phys(HostPhysAddr::from(root as usize)).bits()
}

pub fn event_type(vector: u8) -> u8 {
    VmxInterruptionType::from_vector(vector) as u8
}

pub fn event_is_soft(vector: u8) -> bool {
    VmxInterruptionType::from_vector(vector).is_soft()
}

/// The interruption word of a vector and a code.
pub fn event_word(vector: u8, code: Option<u32>) -> u32 {
    vmcs::VmxInterruptInfo::from(vector, code).bits()
}

pub fn event_has_code(vector: u8) -> bool {
    VmxInterruptionType::vector_has_error_code(vector)
}

pub fn inject_event(vector: u8, code: Option<u32>) -> AxResult {
    vmcs::inject_event(vector, code)
}

pub fn update_efer() -> AxResult {
    vmcs::update_efer()
}

pub fn set_cr(vcpu: &mut VmxVcpu, cr: usize, value: u64) {
    vcpu.set_cr(cr, value)
}

/// Access size, in, string, repeated, port.
pub fn io_exit_info() -> AxResult<(u8, bool, bool, bool, u16)> {
    let info = vmcs::io_exit_info()?;
    Ok((info.access_size, info.is_in, info.is_string, info.is_repeat, info.port))
}

/// CR number, access type, LMSW operand type, register, LMSW source data.
pub fn cr_access_info() -> AxResult<(u8, u8, u8, u8, u8)> {
    let info = vmcs::cr_access_info()?;
    let lmsw = info.lmsw_source_data;
    Ok((info.cr_number, info.access_type, info.lmsw_op_type, info.gpr, lmsw))
}

/// Vector, type, error code, valid.
pub fn interrupt_exit_info() -> AxResult<(u8, u8, Option<u32>, bool)> {
    let info = vmcs::interrupt_exit_info()?;
    Ok((info.vector, info.int_type as u8, info.err_code, info.valid))
}

/// Offset, access type, asynchronous.
pub fn apic_access_exit_info() -> AxResult<(u16, u8, bool)> {
    let info = vmcs::apic_access_exit_info()?;
    Ok((info.offset, info.access_type as u8, info.non_event_delivery_asynchronous))
}

/// Access flags (1 read, 2 write, 4 execute) and guest-physical address.
pub fn ept_violation_info() -> AxResult<(u64, u64)> {
    let info = vmcs::ept_violation_info()?;
    Ok((info.access_flags.bits() as u64, info.fault_guest_paddr.as_usize() as u64))
}

/// Reason, failed entry, instruction length, RIP.
pub fn exit_info() -> AxResult<(u32, bool, u32, u64)> {
    let info = vmcs::exit_info()?;
    let reason = info.exit_reason as u32;
    Ok((reason, info.entry_failure, info.exit_instruction_length, info.guest_rip as u64))
}
