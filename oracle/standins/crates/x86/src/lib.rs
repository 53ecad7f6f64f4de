//! Stand-in for the crate `x86`: instructions go to the arrays of [`machine`]; bit positions and
//! vector numbers are those of Intel's manual, volume 3.

/// Exceptions and interrupts (volume 3A, table 6-1).
pub mod irq {
    pub const DEBUG_VECTOR: u8 = 1;
    pub const NONMASKABLE_INTERRUPT_VECTOR: u8 = 2;
    pub const BREAKPOINT_VECTOR: u8 = 3;
    pub const OVERFLOW_VECTOR: u8 = 4;
    pub const DOUBLE_FAULT_VECTOR: u8 = 8;
    pub const INVALID_TSS_VECTOR: u8 = 10;
    pub const SEGMENT_NOT_PRESENT_VECTOR: u8 = 11;
    pub const STACK_SEGEMENT_FAULT_VECTOR: u8 = 12;
    pub const GENERAL_PROTECTION_FAULT_VECTOR: u8 = 13;
    pub const PAGE_FAULT_VECTOR: u8 = 14;
    pub const ALIGNMENT_CHECK_VECTOR: u8 = 17;
    pub const VIRTUALIZATION_VECTOR: u8 = 20;
}

/// Model-specific registers.
pub mod msr {
    const IA32_PAT: u32 = 0x277;

    /// # Safety
    /// Reads the array only.
    pub unsafe fn rdmsr(number: u32) -> u64 {
        machine::with(|m| {
            if number == IA32_PAT && !m.pat_reads.is_empty() {
                return m.pat_reads.remove(0);
            }
            m.msr(number)
        })
    }

    /// # Safety
    /// Writes the array only.
    pub unsafe fn wrmsr(number: u32, value: u64) {
        machine::with(|m| m.set_msr(number, value))
    }
}

/// Extended control register 0.
pub mod controlregs {
    bitflags::bitflags! {
        /// XCR0 (volume 1, section 13.3).
        #[derive(Clone, Copy)]
        pub struct Xcr0: u64 {
            const XCR0_PKRU_STATE = 1 << 9;
            const XCR0_HI16_ZMM_STATE = 1 << 7;
            const XCR0_ZMM_HI256_STATE = 1 << 6;
            const XCR0_OPMASK_STATE = 1 << 5;
            const XCR0_BNDCSR_STATE = 1 << 4;
            const XCR0_BNDREG_STATE = 1 << 3;
            const XCR0_AVX_STATE = 1 << 2;
            const XCR0_SSE_STATE = 1 << 1;
            const XCR0_FPU_MMX_STATE = 1 << 0;
        }
    }

    /// # Safety
    /// Reads the array only.
    pub unsafe fn xcr0() -> Xcr0 {
        machine::with(|m| Xcr0::from_bits_truncate(m.xcr0))
    }

    /// # Safety
    /// Writes the array only.
    pub unsafe fn xcr0_write(value: Xcr0) {
        machine::with(|m| m.xcr0 = value.bits())
    }
}

/// Segment registers.
pub mod segmentation {
    #[derive(Clone, Copy)]
    pub struct SegmentSelector(u16);

    impl SegmentSelector {
        pub const fn from_raw(bits: u16) -> Self {
            Self(bits)
        }

        pub const fn bits(&self) -> u16 {
            self.0
        }

        pub const fn index(&self) -> u16 {
            self.0 >> 3
        }
    }

    fn segment(number: usize) -> SegmentSelector {
        SegmentSelector(machine::with(|m| m.segments[number]))
    }

    pub fn es() -> SegmentSelector {
        segment(0)
    }
    pub fn cs() -> SegmentSelector {
        segment(1)
    }
    pub fn ss() -> SegmentSelector {
        segment(2)
    }
    pub fn ds() -> SegmentSelector {
        segment(3)
    }
    pub fn fs() -> SegmentSelector {
        segment(4)
    }
    pub fn gs() -> SegmentSelector {
        segment(5)
    }
}

/// The task register.
pub mod task {
    /// # Safety
    /// Reads the array only.
    pub unsafe fn tr() -> crate::segmentation::SegmentSelector {
        crate::segmentation::SegmentSelector::from_raw(machine::with(|m| m.tr))
    }
}

/// Descriptor tables.
pub mod dtables {
    pub struct DescriptorTablePointer<Entry> {
        pub limit: u16,
        pub base: *const Entry,
    }

    impl<Entry> Default for DescriptorTablePointer<Entry> {
        fn default() -> Self {
            Self { limit: 0, base: std::ptr::null() }
        }
    }

    /// # Safety
    /// Reads the array only.
    pub unsafe fn sgdt<T>(pointer: &mut DescriptorTablePointer<T>) {
        machine::with(|m| {
            pointer.limit = m.gdt_limit;
            pointer.base = m.gdt_base as *const T;
        })
    }

    /// # Safety
    /// Reads the array only.
    pub unsafe fn sidt<T>(pointer: &mut DescriptorTablePointer<T>) {
        machine::with(|m| pointer.base = m.idt_base as *const T)
    }

    /// The memory that the GDT's base stands for (used by the patch).
    pub fn gdt_memory() -> *const u64 {
        machine::with(|m| m.gdt.as_ptr())
    }
}

pub mod bits64 {
    /// The status that a VMX instruction leaves: success.
    pub mod rflags {
        bitflags::bitflags! {
            /// RFLAGS (volume 1, section 3.4.3).
            #[derive(Clone, Copy)]
            pub struct RFlags: u64 {
                const FLAGS_CF = 1 << 0;
                const FLAGS_ZF = 1 << 6;
            }
        }

        pub fn read() -> RFlags {
            RFlags::empty()
        }
    }

    /// VMX instructions.
    pub mod vmx {
        use crate::vmx::{Result, VmFail};

        const EXIT_REASON: u32 = 0x4402;

        /// # Safety
        /// Reads the array only.
        pub unsafe fn vmread(encoding: u32) -> Result<u64> {
            let stop = machine::with(|m| encoding == EXIT_REASON && std::mem::take(&mut m.stop_at_exit_reason));
            if stop {
                std::panic::resume_unwind(Box::new(machine::Entered));
            }
            let slot = machine::field_slot(encoding).ok_or(VmFail::VmFailValid)?;
            Ok(machine::with(|m| m.fields[slot]))
        }

        /// # Safety
        /// Writes the array only.
        pub unsafe fn vmwrite(encoding: u32, value: u64) -> Result<()> {
            let slot = machine::field_slot(encoding).ok_or(VmFail::VmFailValid)?;
            machine::with(|m| m.fields[slot] = value);
            Ok(())
        }

        /// # Safety
        /// Does nothing.
        pub unsafe fn vmclear(_region: u64) -> Result<()> {
            Ok(())
        }

        /// # Safety
        /// Does nothing.
        pub unsafe fn vmptrld(_region: u64) -> Result<()> {
            Ok(())
        }

        /// The `invept` instruction's effect: it is noted (used by the patch).
        pub fn note_invept(kind: u64, descriptor: &[u64; 2]) {
            machine::with(|m| m.invept = Some((kind, descriptor[0])))
        }

        /// The host's exit address, a word that setup is given (used by the patch).
        pub fn host_rip() -> usize {
            machine::with(|m| m.host_rip as usize)
        }

        /// The host's stack number, a word that entry is given (used by the patch).
        pub fn host_stack() -> usize {
            machine::with(|m| m.host_stack as usize)
        }
    }
}

pub mod vmx {
    /// How a VMX instruction fails.
    #[derive(Debug)]
    pub enum VmFail {
        VmFailValid,
        VmFailInvalid,
    }

    pub type Result<T> = std::result::Result<T, VmFail>;

    pub mod vmcs {
        /// Control words (volume 3C, sections 24.6 to 24.8).
        pub mod control {
            bitflags::bitflags! {
                /// Table 24-5.
                #[derive(Clone, Copy)]
                pub struct PinbasedControls: u32 {
                    const EXTERNAL_INTERRUPT_EXITING = 1 << 0;
                    const NMI_EXITING = 1 << 3;
                }

                /// Table 24-6.
                #[derive(Clone, Copy)]
                pub struct PrimaryControls: u32 {
                    const INTERRUPT_WINDOW_EXITING = 1 << 2;
                    const CR3_LOAD_EXITING = 1 << 15;
                    const CR3_STORE_EXITING = 1 << 16;
                    const CR8_LOAD_EXITING = 1 << 19;
                    const CR8_STORE_EXITING = 1 << 20;
                    const USE_IO_BITMAPS = 1 << 25;
                    const USE_MSR_BITMAPS = 1 << 28;
                    const SECONDARY_CONTROLS = 1 << 31;
                }

                /// Table 24-7.
                #[derive(Clone, Copy)]
                pub struct SecondaryControls: u32 {
                    const ENABLE_EPT = 1 << 1;
                    const ENABLE_RDTSCP = 1 << 3;
                    const UNRESTRICTED_GUEST = 1 << 7;
                    const ENABLE_INVPCID = 1 << 12;
                    const ENABLE_XSAVES_XRSTORS = 1 << 20;
                }

                /// Table 24-12.
                #[derive(Clone, Copy)]
                pub struct ExitControls: u32 {
                    const HOST_ADDRESS_SPACE_SIZE = 1 << 9;
                    const ACK_INTERRUPT_ON_EXIT = 1 << 15;
                    const SAVE_IA32_PAT = 1 << 18;
                    const LOAD_IA32_PAT = 1 << 19;
                    const SAVE_IA32_EFER = 1 << 20;
                    const LOAD_IA32_EFER = 1 << 21;
                }

                /// Table 24-14.
                #[derive(Clone, Copy)]
                pub struct EntryControls: u32 {
                    const IA32E_MODE_GUEST = 1 << 9;
                    const LOAD_IA32_PAT = 1 << 14;
                    const LOAD_IA32_EFER = 1 << 15;
                }
            }
        }
    }
}
