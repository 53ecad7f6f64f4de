//! Stand-in for the crate `x86_vlapic`: the device only notes what it was asked.

use axaddrspace::device::{AccessWidth, SysRegAddr, SysRegAddrRange};
use axdevice_base::BaseDeviceOps;
use axerrno::AxResult;
use axvisor_api::vmm::{VCpuId, VMId};
use machine::{ApicCall, ApicValueWanted};

pub struct EmulatedLocalApic;

impl EmulatedLocalApic {
    pub fn new(_vm_id: VMId, _vcpu_id: VCpuId) -> Self {
        EmulatedLocalApic
    }
}

impl BaseDeviceOps<SysRegAddrRange> for EmulatedLocalApic {
    /// The value comes with a later call: this one is noted, and the run is left by unwinding.
    fn handle_read(&self, addr: SysRegAddr, _width: AccessWidth) -> AxResult<usize> {
        machine::with(|m| m.apic_call = Some(ApicCall::Read { msr: addr.0 as u64 }));
        std::panic::resume_unwind(Box::new(ApicValueWanted))
    }

    fn handle_write(&self, addr: SysRegAddr, _width: AccessWidth, value: usize) -> AxResult {
        machine::with(|m| m.apic_call = Some(ApicCall::Write { msr: addr.0 as u64, value: value as u64 }));
        Ok(())
    }
}
