//! Stand-in for the original's `lib.rs`, which is not among the listed files.

extern crate alloc;
#[macro_use]
extern crate log;

mod ept;
mod msr;
#[macro_use]
mod regs;
mod vmx;

pub use vmx::VmxArchVCpu;
pub use vmx::access;
