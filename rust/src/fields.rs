//! Written by tools/fields.py: the fields of the VMCS, by the names that they have in the enums of vmcs.rs of `x86_vcpu`.

use crate::Field;

impl Field {
    /// All 154 fields, ascending.
    pub const ALL: [Field; 154] = [
        VmcsGuest16::ES_SELECTOR,
        VmcsGuest16::CS_SELECTOR,
        VmcsGuest16::SS_SELECTOR,
        VmcsGuest16::DS_SELECTOR,
        VmcsGuest16::FS_SELECTOR,
        VmcsGuest16::GS_SELECTOR,
        VmcsGuest16::LDTR_SELECTOR,
        VmcsGuest16::TR_SELECTOR,
        VmcsGuest16::INTERRUPT_STATUS,
        VmcsGuest16::PML_INDEX,
        VmcsHost16::ES_SELECTOR,
        VmcsHost16::CS_SELECTOR,
        VmcsHost16::SS_SELECTOR,
        VmcsHost16::DS_SELECTOR,
        VmcsHost16::FS_SELECTOR,
        VmcsHost16::GS_SELECTOR,
        VmcsHost16::TR_SELECTOR,
        VmcsControl64::IO_BITMAP_A_ADDR,
        VmcsControl64::IO_BITMAP_B_ADDR,
        VmcsControl64::MSR_BITMAPS_ADDR,
        VmcsControl64::VMEXIT_MSR_STORE_ADDR,
        VmcsControl64::VMEXIT_MSR_LOAD_ADDR,
        VmcsControl64::VMENTRY_MSR_LOAD_ADDR,
        VmcsControl64::EXECUTIVE_VMCS_PTR,
        VmcsControl64::PML_ADDR,
        VmcsControl64::TSC_OFFSET,
        VmcsControl64::VIRT_APIC_ADDR,
        VmcsControl64::APIC_ACCESS_ADDR,
        VmcsControl64::POSTED_INTERRUPT_DESC_ADDR,
        VmcsControl64::VM_FUNCTION_CONTROLS,
        VmcsControl64::EPTP,
        VmcsControl64::EOI_EXIT0,
        VmcsControl64::EOI_EXIT1,
        VmcsControl64::EOI_EXIT2,
        VmcsControl64::EOI_EXIT3,
        VmcsControl64::EPTP_LIST_ADDR,
        VmcsControl64::VMREAD_BITMAP_ADDR,
        VmcsControl64::VMWRITE_BITMAP_ADDR,
        VmcsControl64::VIRT_EXCEPTION_INFO_ADDR,
        VmcsControl64::XSS_EXITING_BITMAP,
        VmcsControl64::ENCLS_EXITING_BITMAP,
        VmcsControl64::SUBPAGE_PERM_TABLE_PTR,
        VmcsControl64::TSC_MULTIPLIER,
        VmcsReadOnly64::GUEST_PHYSICAL_ADDR,
        VmcsGuest64::LINK_PTR,
        VmcsGuest64::IA32_DEBUGCTL,
        VmcsGuest64::IA32_PAT,
        VmcsGuest64::IA32_EFER,
        VmcsGuest64::IA32_PERF_GLOBAL_CTRL,
        VmcsGuest64::PDPTE0,
        VmcsGuest64::PDPTE1,
        VmcsGuest64::PDPTE2,
        VmcsGuest64::PDPTE3,
        VmcsGuest64::IA32_BNDCFGS,
        VmcsGuest64::IA32_RTIT_CTL,
        VmcsHost64::IA32_PAT,
        VmcsHost64::IA32_EFER,
        VmcsHost64::IA32_PERF_GLOBAL_CTRL,
        VmcsControl32::PINBASED_EXEC_CONTROLS,
        VmcsControl32::PRIMARY_PROCBASED_EXEC_CONTROLS,
        VmcsControl32::EXCEPTION_BITMAP,
        VmcsControl32::PAGE_FAULT_ERR_CODE_MASK,
        VmcsControl32::PAGE_FAULT_ERR_CODE_MATCH,
        VmcsControl32::CR3_TARGET_COUNT,
        VmcsControl32::VMEXIT_CONTROLS,
        VmcsControl32::VMEXIT_MSR_STORE_COUNT,
        VmcsControl32::VMEXIT_MSR_LOAD_COUNT,
        VmcsControl32::VMENTRY_CONTROLS,
        VmcsControl32::VMENTRY_MSR_LOAD_COUNT,
        VmcsControl32::VMENTRY_INTERRUPTION_INFO_FIELD,
        VmcsControl32::VMENTRY_EXCEPTION_ERR_CODE,
        VmcsControl32::VMENTRY_INSTRUCTION_LEN,
        VmcsControl32::TPR_THRESHOLD,
        VmcsControl32::SECONDARY_PROCBASED_EXEC_CONTROLS,
        VmcsControl32::PLE_GAP,
        VmcsControl32::PLE_WINDOW,
        VmcsReadOnly32::VM_INSTRUCTION_ERROR,
        VmcsReadOnly32::EXIT_REASON,
        VmcsReadOnly32::VMEXIT_INTERRUPTION_INFO,
        VmcsReadOnly32::VMEXIT_INTERRUPTION_ERR_CODE,
        VmcsReadOnly32::IDT_VECTORING_INFO,
        VmcsReadOnly32::IDT_VECTORING_ERR_CODE,
        VmcsReadOnly32::VMEXIT_INSTRUCTION_LEN,
        VmcsReadOnly32::VMEXIT_INSTRUCTION_INFO,
        VmcsGuest32::ES_LIMIT,
        VmcsGuest32::CS_LIMIT,
        VmcsGuest32::SS_LIMIT,
        VmcsGuest32::DS_LIMIT,
        VmcsGuest32::FS_LIMIT,
        VmcsGuest32::GS_LIMIT,
        VmcsGuest32::LDTR_LIMIT,
        VmcsGuest32::TR_LIMIT,
        VmcsGuest32::GDTR_LIMIT,
        VmcsGuest32::IDTR_LIMIT,
        VmcsGuest32::ES_ACCESS_RIGHTS,
        VmcsGuest32::CS_ACCESS_RIGHTS,
        VmcsGuest32::SS_ACCESS_RIGHTS,
        VmcsGuest32::DS_ACCESS_RIGHTS,
        VmcsGuest32::FS_ACCESS_RIGHTS,
        VmcsGuest32::GS_ACCESS_RIGHTS,
        VmcsGuest32::LDTR_ACCESS_RIGHTS,
        VmcsGuest32::TR_ACCESS_RIGHTS,
        VmcsGuest32::INTERRUPTIBILITY_STATE,
        VmcsGuest32::ACTIVITY_STATE,
        VmcsGuest32::SMBASE,
        VmcsGuest32::IA32_SYSENTER_CS,
        VmcsGuest32::VMX_PREEMPTION_TIMER_VALUE,
        VmcsHost32::IA32_SYSENTER_CS,
        VmcsControlNW::CR0_GUEST_HOST_MASK,
        VmcsControlNW::CR4_GUEST_HOST_MASK,
        VmcsControlNW::CR0_READ_SHADOW,
        VmcsControlNW::CR4_READ_SHADOW,
        VmcsControlNW::CR3_TARGET_VALUE0,
        VmcsControlNW::CR3_TARGET_VALUE1,
        VmcsControlNW::CR3_TARGET_VALUE2,
        VmcsControlNW::CR3_TARGET_VALUE3,
        VmcsReadOnlyNW::EXIT_QUALIFICATION,
        VmcsReadOnlyNW::IO_RCX,
        VmcsReadOnlyNW::IO_RSI,
        VmcsReadOnlyNW::IO_RDI,
        VmcsReadOnlyNW::IO_RIP,
        VmcsReadOnlyNW::GUEST_LINEAR_ADDR,
        VmcsGuestNW::CR0,
        VmcsGuestNW::CR3,
        VmcsGuestNW::CR4,
        VmcsGuestNW::ES_BASE,
        VmcsGuestNW::CS_BASE,
        VmcsGuestNW::SS_BASE,
        VmcsGuestNW::DS_BASE,
        VmcsGuestNW::FS_BASE,
        VmcsGuestNW::GS_BASE,
        VmcsGuestNW::LDTR_BASE,
        VmcsGuestNW::TR_BASE,
        VmcsGuestNW::GDTR_BASE,
        VmcsGuestNW::IDTR_BASE,
        VmcsGuestNW::DR7,
        VmcsGuestNW::RSP,
        VmcsGuestNW::RIP,
        VmcsGuestNW::RFLAGS,
        VmcsGuestNW::PENDING_DBG_EXCEPTIONS,
        VmcsGuestNW::IA32_SYSENTER_ESP,
        VmcsGuestNW::IA32_SYSENTER_EIP,
        VmcsHostNW::CR0,
        VmcsHostNW::CR3,
        VmcsHostNW::CR4,
        VmcsHostNW::FS_BASE,
        VmcsHostNW::GS_BASE,
        VmcsHostNW::TR_BASE,
        VmcsHostNW::GDTR_BASE,
        VmcsHostNW::IDTR_BASE,
        VmcsHostNW::IA32_SYSENTER_ESP,
        VmcsHostNW::IA32_SYSENTER_EIP,
        VmcsHostNW::RSP,
        VmcsHostNW::RIP,
    ];

    /// The fields that setup writes, ascending: the host writes each to the processor after [`crate::Session::setup`].
    pub const SETUP: [Field; 93] = [
        VmcsGuest16::ES_SELECTOR,
        VmcsGuest16::CS_SELECTOR,
        VmcsGuest16::SS_SELECTOR,
        VmcsGuest16::DS_SELECTOR,
        VmcsGuest16::FS_SELECTOR,
        VmcsGuest16::GS_SELECTOR,
        VmcsGuest16::LDTR_SELECTOR,
        VmcsGuest16::TR_SELECTOR,
        VmcsHost16::ES_SELECTOR,
        VmcsHost16::CS_SELECTOR,
        VmcsHost16::SS_SELECTOR,
        VmcsHost16::DS_SELECTOR,
        VmcsHost16::FS_SELECTOR,
        VmcsHost16::GS_SELECTOR,
        VmcsHost16::TR_SELECTOR,
        VmcsControl64::IO_BITMAP_A_ADDR,
        VmcsControl64::IO_BITMAP_B_ADDR,
        VmcsControl64::MSR_BITMAPS_ADDR,
        VmcsControl64::EPTP,
        VmcsGuest64::LINK_PTR,
        VmcsGuest64::IA32_DEBUGCTL,
        VmcsGuest64::IA32_PAT,
        VmcsGuest64::IA32_EFER,
        VmcsHost64::IA32_PAT,
        VmcsHost64::IA32_EFER,
        VmcsControl32::PINBASED_EXEC_CONTROLS,
        VmcsControl32::PRIMARY_PROCBASED_EXEC_CONTROLS,
        VmcsControl32::EXCEPTION_BITMAP,
        VmcsControl32::CR3_TARGET_COUNT,
        VmcsControl32::VMEXIT_CONTROLS,
        VmcsControl32::VMEXIT_MSR_STORE_COUNT,
        VmcsControl32::VMEXIT_MSR_LOAD_COUNT,
        VmcsControl32::VMENTRY_CONTROLS,
        VmcsControl32::VMENTRY_MSR_LOAD_COUNT,
        VmcsControl32::SECONDARY_PROCBASED_EXEC_CONTROLS,
        VmcsGuest32::ES_LIMIT,
        VmcsGuest32::CS_LIMIT,
        VmcsGuest32::SS_LIMIT,
        VmcsGuest32::DS_LIMIT,
        VmcsGuest32::FS_LIMIT,
        VmcsGuest32::GS_LIMIT,
        VmcsGuest32::LDTR_LIMIT,
        VmcsGuest32::TR_LIMIT,
        VmcsGuest32::GDTR_LIMIT,
        VmcsGuest32::IDTR_LIMIT,
        VmcsGuest32::ES_ACCESS_RIGHTS,
        VmcsGuest32::CS_ACCESS_RIGHTS,
        VmcsGuest32::SS_ACCESS_RIGHTS,
        VmcsGuest32::DS_ACCESS_RIGHTS,
        VmcsGuest32::FS_ACCESS_RIGHTS,
        VmcsGuest32::GS_ACCESS_RIGHTS,
        VmcsGuest32::LDTR_ACCESS_RIGHTS,
        VmcsGuest32::TR_ACCESS_RIGHTS,
        VmcsGuest32::INTERRUPTIBILITY_STATE,
        VmcsGuest32::ACTIVITY_STATE,
        VmcsGuest32::IA32_SYSENTER_CS,
        VmcsGuest32::VMX_PREEMPTION_TIMER_VALUE,
        VmcsHost32::IA32_SYSENTER_CS,
        VmcsControlNW::CR0_GUEST_HOST_MASK,
        VmcsControlNW::CR4_GUEST_HOST_MASK,
        VmcsControlNW::CR0_READ_SHADOW,
        VmcsControlNW::CR4_READ_SHADOW,
        VmcsGuestNW::CR0,
        VmcsGuestNW::CR3,
        VmcsGuestNW::CR4,
        VmcsGuestNW::ES_BASE,
        VmcsGuestNW::CS_BASE,
        VmcsGuestNW::SS_BASE,
        VmcsGuestNW::DS_BASE,
        VmcsGuestNW::FS_BASE,
        VmcsGuestNW::GS_BASE,
        VmcsGuestNW::LDTR_BASE,
        VmcsGuestNW::TR_BASE,
        VmcsGuestNW::GDTR_BASE,
        VmcsGuestNW::IDTR_BASE,
        VmcsGuestNW::DR7,
        VmcsGuestNW::RSP,
        VmcsGuestNW::RIP,
        VmcsGuestNW::RFLAGS,
        VmcsGuestNW::PENDING_DBG_EXCEPTIONS,
        VmcsGuestNW::IA32_SYSENTER_ESP,
        VmcsGuestNW::IA32_SYSENTER_EIP,
        VmcsHostNW::CR0,
        VmcsHostNW::CR3,
        VmcsHostNW::CR4,
        VmcsHostNW::FS_BASE,
        VmcsHostNW::GS_BASE,
        VmcsHostNW::TR_BASE,
        VmcsHostNW::GDTR_BASE,
        VmcsHostNW::IDTR_BASE,
        VmcsHostNW::IA32_SYSENTER_ESP,
        VmcsHostNW::IA32_SYSENTER_EIP,
        VmcsHostNW::RIP,
    ];
}

/// The guest's state, 16 bits.
pub struct VmcsGuest16;

impl VmcsGuest16 {
    pub const ES_SELECTOR: Field = Field(0x0800);
    pub const CS_SELECTOR: Field = Field(0x0802);
    pub const SS_SELECTOR: Field = Field(0x0804);
    pub const DS_SELECTOR: Field = Field(0x0806);
    pub const FS_SELECTOR: Field = Field(0x0808);
    pub const GS_SELECTOR: Field = Field(0x080A);
    pub const LDTR_SELECTOR: Field = Field(0x080C);
    pub const TR_SELECTOR: Field = Field(0x080E);
    pub const INTERRUPT_STATUS: Field = Field(0x0810);
    pub const PML_INDEX: Field = Field(0x0812);
}

/// The host's state, 16 bits.
pub struct VmcsHost16;

impl VmcsHost16 {
    pub const ES_SELECTOR: Field = Field(0x0C00);
    pub const CS_SELECTOR: Field = Field(0x0C02);
    pub const SS_SELECTOR: Field = Field(0x0C04);
    pub const DS_SELECTOR: Field = Field(0x0C06);
    pub const FS_SELECTOR: Field = Field(0x0C08);
    pub const GS_SELECTOR: Field = Field(0x0C0A);
    pub const TR_SELECTOR: Field = Field(0x0C0C);
}

/// Controls, 64 bits.
pub struct VmcsControl64;

impl VmcsControl64 {
    pub const IO_BITMAP_A_ADDR: Field = Field(0x2000);
    pub const IO_BITMAP_B_ADDR: Field = Field(0x2002);
    pub const MSR_BITMAPS_ADDR: Field = Field(0x2004);
    pub const VMEXIT_MSR_STORE_ADDR: Field = Field(0x2006);
    pub const VMEXIT_MSR_LOAD_ADDR: Field = Field(0x2008);
    pub const VMENTRY_MSR_LOAD_ADDR: Field = Field(0x200A);
    pub const EXECUTIVE_VMCS_PTR: Field = Field(0x200C);
    pub const PML_ADDR: Field = Field(0x200E);
    pub const TSC_OFFSET: Field = Field(0x2010);
    pub const VIRT_APIC_ADDR: Field = Field(0x2012);
    pub const APIC_ACCESS_ADDR: Field = Field(0x2014);
    pub const POSTED_INTERRUPT_DESC_ADDR: Field = Field(0x2016);
    pub const VM_FUNCTION_CONTROLS: Field = Field(0x2018);
    pub const EPTP: Field = Field(0x201A);
    pub const EOI_EXIT0: Field = Field(0x201C);
    pub const EOI_EXIT1: Field = Field(0x201E);
    pub const EOI_EXIT2: Field = Field(0x2020);
    pub const EOI_EXIT3: Field = Field(0x2022);
    pub const EPTP_LIST_ADDR: Field = Field(0x2024);
    pub const VMREAD_BITMAP_ADDR: Field = Field(0x2026);
    pub const VMWRITE_BITMAP_ADDR: Field = Field(0x2028);
    pub const VIRT_EXCEPTION_INFO_ADDR: Field = Field(0x202A);
    pub const XSS_EXITING_BITMAP: Field = Field(0x202C);
    pub const ENCLS_EXITING_BITMAP: Field = Field(0x202E);
    pub const SUBPAGE_PERM_TABLE_PTR: Field = Field(0x2030);
    pub const TSC_MULTIPLIER: Field = Field(0x2032);
}

/// Exit information, read-only, 64 bits.
pub struct VmcsReadOnly64;

impl VmcsReadOnly64 {
    pub const GUEST_PHYSICAL_ADDR: Field = Field(0x2400);
}

/// The guest's state, 64 bits.
pub struct VmcsGuest64;

impl VmcsGuest64 {
    pub const LINK_PTR: Field = Field(0x2800);
    pub const IA32_DEBUGCTL: Field = Field(0x2802);
    pub const IA32_PAT: Field = Field(0x2804);
    pub const IA32_EFER: Field = Field(0x2806);
    pub const IA32_PERF_GLOBAL_CTRL: Field = Field(0x2808);
    pub const PDPTE0: Field = Field(0x280A);
    pub const PDPTE1: Field = Field(0x280C);
    pub const PDPTE2: Field = Field(0x280E);
    pub const PDPTE3: Field = Field(0x2810);
    pub const IA32_BNDCFGS: Field = Field(0x2812);
    pub const IA32_RTIT_CTL: Field = Field(0x2814);
}

/// The host's state, 64 bits.
pub struct VmcsHost64;

impl VmcsHost64 {
    pub const IA32_PAT: Field = Field(0x2C00);
    pub const IA32_EFER: Field = Field(0x2C02);
    pub const IA32_PERF_GLOBAL_CTRL: Field = Field(0x2C04);
}

/// Controls, 32 bits.
pub struct VmcsControl32;

impl VmcsControl32 {
    pub const PINBASED_EXEC_CONTROLS: Field = Field(0x4000);
    pub const PRIMARY_PROCBASED_EXEC_CONTROLS: Field = Field(0x4002);
    pub const EXCEPTION_BITMAP: Field = Field(0x4004);
    pub const PAGE_FAULT_ERR_CODE_MASK: Field = Field(0x4006);
    pub const PAGE_FAULT_ERR_CODE_MATCH: Field = Field(0x4008);
    pub const CR3_TARGET_COUNT: Field = Field(0x400A);
    pub const VMEXIT_CONTROLS: Field = Field(0x400C);
    pub const VMEXIT_MSR_STORE_COUNT: Field = Field(0x400E);
    pub const VMEXIT_MSR_LOAD_COUNT: Field = Field(0x4010);
    pub const VMENTRY_CONTROLS: Field = Field(0x4012);
    pub const VMENTRY_MSR_LOAD_COUNT: Field = Field(0x4014);
    pub const VMENTRY_INTERRUPTION_INFO_FIELD: Field = Field(0x4016);
    pub const VMENTRY_EXCEPTION_ERR_CODE: Field = Field(0x4018);
    pub const VMENTRY_INSTRUCTION_LEN: Field = Field(0x401A);
    pub const TPR_THRESHOLD: Field = Field(0x401C);
    pub const SECONDARY_PROCBASED_EXEC_CONTROLS: Field = Field(0x401E);
    pub const PLE_GAP: Field = Field(0x4020);
    pub const PLE_WINDOW: Field = Field(0x4022);
}

/// Exit information, read-only, 32 bits.
pub struct VmcsReadOnly32;

impl VmcsReadOnly32 {
    pub const VM_INSTRUCTION_ERROR: Field = Field(0x4400);
    pub const EXIT_REASON: Field = Field(0x4402);
    pub const VMEXIT_INTERRUPTION_INFO: Field = Field(0x4404);
    pub const VMEXIT_INTERRUPTION_ERR_CODE: Field = Field(0x4406);
    pub const IDT_VECTORING_INFO: Field = Field(0x4408);
    pub const IDT_VECTORING_ERR_CODE: Field = Field(0x440A);
    pub const VMEXIT_INSTRUCTION_LEN: Field = Field(0x440C);
    pub const VMEXIT_INSTRUCTION_INFO: Field = Field(0x440E);
}

/// The guest's state, 32 bits.
pub struct VmcsGuest32;

impl VmcsGuest32 {
    pub const ES_LIMIT: Field = Field(0x4800);
    pub const CS_LIMIT: Field = Field(0x4802);
    pub const SS_LIMIT: Field = Field(0x4804);
    pub const DS_LIMIT: Field = Field(0x4806);
    pub const FS_LIMIT: Field = Field(0x4808);
    pub const GS_LIMIT: Field = Field(0x480A);
    pub const LDTR_LIMIT: Field = Field(0x480C);
    pub const TR_LIMIT: Field = Field(0x480E);
    pub const GDTR_LIMIT: Field = Field(0x4810);
    pub const IDTR_LIMIT: Field = Field(0x4812);
    pub const ES_ACCESS_RIGHTS: Field = Field(0x4814);
    pub const CS_ACCESS_RIGHTS: Field = Field(0x4816);
    pub const SS_ACCESS_RIGHTS: Field = Field(0x4818);
    pub const DS_ACCESS_RIGHTS: Field = Field(0x481A);
    pub const FS_ACCESS_RIGHTS: Field = Field(0x481C);
    pub const GS_ACCESS_RIGHTS: Field = Field(0x481E);
    pub const LDTR_ACCESS_RIGHTS: Field = Field(0x4820);
    pub const TR_ACCESS_RIGHTS: Field = Field(0x4822);
    pub const INTERRUPTIBILITY_STATE: Field = Field(0x4824);
    pub const ACTIVITY_STATE: Field = Field(0x4826);
    pub const SMBASE: Field = Field(0x4828);
    pub const IA32_SYSENTER_CS: Field = Field(0x482A);
    pub const VMX_PREEMPTION_TIMER_VALUE: Field = Field(0x482E);
}

/// The host's state, 32 bits.
pub struct VmcsHost32;

impl VmcsHost32 {
    pub const IA32_SYSENTER_CS: Field = Field(0x4C00);
}

/// Controls, natural width.
pub struct VmcsControlNW;

impl VmcsControlNW {
    pub const CR0_GUEST_HOST_MASK: Field = Field(0x6000);
    pub const CR4_GUEST_HOST_MASK: Field = Field(0x6002);
    pub const CR0_READ_SHADOW: Field = Field(0x6004);
    pub const CR4_READ_SHADOW: Field = Field(0x6006);
    pub const CR3_TARGET_VALUE0: Field = Field(0x6008);
    pub const CR3_TARGET_VALUE1: Field = Field(0x600A);
    pub const CR3_TARGET_VALUE2: Field = Field(0x600C);
    pub const CR3_TARGET_VALUE3: Field = Field(0x600E);
}

/// Exit information, read-only, natural width.
pub struct VmcsReadOnlyNW;

impl VmcsReadOnlyNW {
    pub const EXIT_QUALIFICATION: Field = Field(0x6400);
    pub const IO_RCX: Field = Field(0x6402);
    pub const IO_RSI: Field = Field(0x6404);
    pub const IO_RDI: Field = Field(0x6406);
    pub const IO_RIP: Field = Field(0x6408);
    pub const GUEST_LINEAR_ADDR: Field = Field(0x640A);
}

/// The guest's state, natural width.
pub struct VmcsGuestNW;

impl VmcsGuestNW {
    pub const CR0: Field = Field(0x6800);
    pub const CR3: Field = Field(0x6802);
    pub const CR4: Field = Field(0x6804);
    pub const ES_BASE: Field = Field(0x6806);
    pub const CS_BASE: Field = Field(0x6808);
    pub const SS_BASE: Field = Field(0x680A);
    pub const DS_BASE: Field = Field(0x680C);
    pub const FS_BASE: Field = Field(0x680E);
    pub const GS_BASE: Field = Field(0x6810);
    pub const LDTR_BASE: Field = Field(0x6812);
    pub const TR_BASE: Field = Field(0x6814);
    pub const GDTR_BASE: Field = Field(0x6816);
    pub const IDTR_BASE: Field = Field(0x6818);
    pub const DR7: Field = Field(0x681A);
    pub const RSP: Field = Field(0x681C);
    pub const RIP: Field = Field(0x681E);
    pub const RFLAGS: Field = Field(0x6820);
    pub const PENDING_DBG_EXCEPTIONS: Field = Field(0x6822);
    pub const IA32_SYSENTER_ESP: Field = Field(0x6824);
    pub const IA32_SYSENTER_EIP: Field = Field(0x6826);
}

/// The host's state, natural width.
pub struct VmcsHostNW;

impl VmcsHostNW {
    pub const CR0: Field = Field(0x6C00);
    pub const CR3: Field = Field(0x6C02);
    pub const CR4: Field = Field(0x6C04);
    pub const FS_BASE: Field = Field(0x6C06);
    pub const GS_BASE: Field = Field(0x6C08);
    pub const TR_BASE: Field = Field(0x6C0A);
    pub const GDTR_BASE: Field = Field(0x6C0C);
    pub const IDTR_BASE: Field = Field(0x6C0E);
    pub const IA32_SYSENTER_ESP: Field = Field(0x6C10);
    pub const IA32_SYSENTER_EIP: Field = Field(0x6C12);
    pub const RSP: Field = Field(0x6C14);
    pub const RIP: Field = Field(0x6C16);
}
