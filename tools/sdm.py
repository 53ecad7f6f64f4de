#!/usr/bin/env python3
"""Tables of Intel's SDM, typed from the manual and not from the Rust: the VMCS fields of appendix B, the basic exit reasons of appendix C
(volume 3D), the interruption types (volume 3C, 25.8.3 and 25.9.2).

Usage: tools/sdm.py (in the repository's root). Computes each field's encoding from its kind, width and index, and compares fields, reasons and
types with the enums of docs/src by name and number. Prints what differs; the exit status is then 1.
"""
import re
import sys

CONTROL, READ_ONLY, GUEST, HOST = range(4)
NATURAL = 0
KIND_NAMES = {CONTROL: "Control", READ_ONLY: "ReadOnly", GUEST: "Guest", HOST: "Host"}
WIDTH_CODES = {16: 0, 64: 1, 32: 2, NATURAL: 3}

# Appendix B, section by section: kind, width, and the fields as index, the manual's name, the Rust's name.
SECTIONS = [
    # B.1.1
    (CONTROL, 16, [
        (0, "Virtual-processor identifier (VPID)", "VPID"),
        (1, "Posted-interrupt notification vector", "POSTED_INTERRUPT_NOTIFICATION_VECTOR"),
        (2, "EPTP index", "EPTP_INDEX"),
    ]),
    # B.1.2
    (GUEST, 16, [
        (0, "Guest ES selector", "ES_SELECTOR"),
        (1, "Guest CS selector", "CS_SELECTOR"),
        (2, "Guest SS selector", "SS_SELECTOR"),
        (3, "Guest DS selector", "DS_SELECTOR"),
        (4, "Guest FS selector", "FS_SELECTOR"),
        (5, "Guest GS selector", "GS_SELECTOR"),
        (6, "Guest LDTR selector", "LDTR_SELECTOR"),
        (7, "Guest TR selector", "TR_SELECTOR"),
        (8, "Guest interrupt status", "INTERRUPT_STATUS"),
        (9, "PML index", "PML_INDEX"),
    ]),
    # B.1.3
    (HOST, 16, [
        (0, "Host ES selector", "ES_SELECTOR"),
        (1, "Host CS selector", "CS_SELECTOR"),
        (2, "Host SS selector", "SS_SELECTOR"),
        (3, "Host DS selector", "DS_SELECTOR"),
        (4, "Host FS selector", "FS_SELECTOR"),
        (5, "Host GS selector", "GS_SELECTOR"),
        (6, "Host TR selector", "TR_SELECTOR"),
    ]),
    # B.2.1
    (CONTROL, 64, [
        (0, "Address of I/O bitmap A", "IO_BITMAP_A_ADDR"),
        (1, "Address of I/O bitmap B", "IO_BITMAP_B_ADDR"),
        (2, "Address of MSR bitmaps", "MSR_BITMAPS_ADDR"),
        (3, "VM-exit MSR-store address", "VMEXIT_MSR_STORE_ADDR"),
        (4, "VM-exit MSR-load address", "VMEXIT_MSR_LOAD_ADDR"),
        (5, "VM-entry MSR-load address", "VMENTRY_MSR_LOAD_ADDR"),
        (6, "Executive-VMCS pointer", "EXECUTIVE_VMCS_PTR"),
        (7, "PML address", "PML_ADDR"),
        (8, "TSC offset", "TSC_OFFSET"),
        (9, "Virtual-APIC address", "VIRT_APIC_ADDR"),
        (10, "APIC-access address", "APIC_ACCESS_ADDR"),
        (11, "Posted-interrupt descriptor address", "POSTED_INTERRUPT_DESC_ADDR"),
        (12, "VM-function controls", "VM_FUNCTION_CONTROLS"),
        (13, "EPT pointer (EPTP)", "EPTP"),
        (14, "EOI-exit bitmap 0", "EOI_EXIT0"),
        (15, "EOI-exit bitmap 1", "EOI_EXIT1"),
        (16, "EOI-exit bitmap 2", "EOI_EXIT2"),
        (17, "EOI-exit bitmap 3", "EOI_EXIT3"),
        (18, "EPTP-list address", "EPTP_LIST_ADDR"),
        (19, "VMREAD-bitmap address", "VMREAD_BITMAP_ADDR"),
        (20, "VMWRITE-bitmap address", "VMWRITE_BITMAP_ADDR"),
        (21, "Virtualization-exception information address", "VIRT_EXCEPTION_INFO_ADDR"),
        (22, "XSS-exiting bitmap", "XSS_EXITING_BITMAP"),
        (23, "ENCLS-exiting bitmap", "ENCLS_EXITING_BITMAP"),
        (24, "Sub-page-permission-table pointer", "SUBPAGE_PERM_TABLE_PTR"),
        (25, "TSC multiplier", "TSC_MULTIPLIER"),
    ]),
    # B.2.2
    (READ_ONLY, 64, [
        (0, "Guest-physical address", "GUEST_PHYSICAL_ADDR"),
    ]),
    # B.2.3
    (GUEST, 64, [
        (0, "VMCS link pointer", "LINK_PTR"),
        (1, "Guest IA32_DEBUGCTL", "IA32_DEBUGCTL"),
        (2, "Guest IA32_PAT", "IA32_PAT"),
        (3, "Guest IA32_EFER", "IA32_EFER"),
        (4, "Guest IA32_PERF_GLOBAL_CTRL", "IA32_PERF_GLOBAL_CTRL"),
        (5, "Guest PDPTE0", "PDPTE0"),
        (6, "Guest PDPTE1", "PDPTE1"),
        (7, "Guest PDPTE2", "PDPTE2"),
        (8, "Guest PDPTE3", "PDPTE3"),
        (9, "Guest IA32_BNDCFGS", "IA32_BNDCFGS"),
        (10, "Guest IA32_RTIT_CTL", "IA32_RTIT_CTL"),
    ]),
    # B.2.4
    (HOST, 64, [
        (0, "Host IA32_PAT", "IA32_PAT"),
        (1, "Host IA32_EFER", "IA32_EFER"),
        (2, "Host IA32_PERF_GLOBAL_CTRL", "IA32_PERF_GLOBAL_CTRL"),
    ]),
    # B.3.1
    (CONTROL, 32, [
        (0, "Pin-based VM-execution controls", "PINBASED_EXEC_CONTROLS"),
        (1, "Primary processor-based VM-execution controls", "PRIMARY_PROCBASED_EXEC_CONTROLS"),
        (2, "Exception bitmap", "EXCEPTION_BITMAP"),
        (3, "Page-fault error-code mask", "PAGE_FAULT_ERR_CODE_MASK"),
        (4, "Page-fault error-code match", "PAGE_FAULT_ERR_CODE_MATCH"),
        (5, "CR3-target count", "CR3_TARGET_COUNT"),
        (6, "VM-exit controls", "VMEXIT_CONTROLS"),
        (7, "VM-exit MSR-store count", "VMEXIT_MSR_STORE_COUNT"),
        (8, "VM-exit MSR-load count", "VMEXIT_MSR_LOAD_COUNT"),
        (9, "VM-entry controls", "VMENTRY_CONTROLS"),
        (10, "VM-entry MSR-load count", "VMENTRY_MSR_LOAD_COUNT"),
        (11, "VM-entry interruption-information field", "VMENTRY_INTERRUPTION_INFO_FIELD"),
        (12, "VM-entry exception error code", "VMENTRY_EXCEPTION_ERR_CODE"),
        (13, "VM-entry instruction length", "VMENTRY_INSTRUCTION_LEN"),
        (14, "TPR threshold", "TPR_THRESHOLD"),
        (15, "Secondary processor-based VM-execution controls", "SECONDARY_PROCBASED_EXEC_CONTROLS"),
        (16, "PLE_Gap", "PLE_GAP"),
        (17, "PLE_Window", "PLE_WINDOW"),
    ]),
    # B.3.2
    (READ_ONLY, 32, [
        (0, "VM-instruction error", "VM_INSTRUCTION_ERROR"),
        (1, "Exit reason", "EXIT_REASON"),
        (2, "VM-exit interruption information", "VMEXIT_INTERRUPTION_INFO"),
        (3, "VM-exit interruption error code", "VMEXIT_INTERRUPTION_ERR_CODE"),
        (4, "IDT-vectoring information field", "IDT_VECTORING_INFO"),
        (5, "IDT-vectoring error code", "IDT_VECTORING_ERR_CODE"),
        (6, "VM-exit instruction length", "VMEXIT_INSTRUCTION_LEN"),
        (7, "VM-exit instruction information", "VMEXIT_INSTRUCTION_INFO"),
    ]),
    # B.3.3
    (GUEST, 32, [
        (0, "Guest ES limit", "ES_LIMIT"),
        (1, "Guest CS limit", "CS_LIMIT"),
        (2, "Guest SS limit", "SS_LIMIT"),
        (3, "Guest DS limit", "DS_LIMIT"),
        (4, "Guest FS limit", "FS_LIMIT"),
        (5, "Guest GS limit", "GS_LIMIT"),
        (6, "Guest LDTR limit", "LDTR_LIMIT"),
        (7, "Guest TR limit", "TR_LIMIT"),
        (8, "Guest GDTR limit", "GDTR_LIMIT"),
        (9, "Guest IDTR limit", "IDTR_LIMIT"),
        (10, "Guest ES access rights", "ES_ACCESS_RIGHTS"),
        (11, "Guest CS access rights", "CS_ACCESS_RIGHTS"),
        (12, "Guest SS access rights", "SS_ACCESS_RIGHTS"),
        (13, "Guest DS access rights", "DS_ACCESS_RIGHTS"),
        (14, "Guest FS access rights", "FS_ACCESS_RIGHTS"),
        (15, "Guest GS access rights", "GS_ACCESS_RIGHTS"),
        (16, "Guest LDTR access rights", "LDTR_ACCESS_RIGHTS"),
        (17, "Guest TR access rights", "TR_ACCESS_RIGHTS"),
        (18, "Guest interruptibility state", "INTERRUPTIBILITY_STATE"),
        (19, "Guest activity state", "ACTIVITY_STATE"),
        (20, "Guest SMBASE", "SMBASE"),
        (21, "Guest IA32_SYSENTER_CS", "IA32_SYSENTER_CS"),
        # no field has index 22
        (23, "VMX-preemption timer value", "VMX_PREEMPTION_TIMER_VALUE"),
    ]),
    # B.3.4
    (HOST, 32, [
        (0, "Host IA32_SYSENTER_CS", "IA32_SYSENTER_CS"),
    ]),
    # B.4.1
    (CONTROL, NATURAL, [
        (0, "CR0 guest/host mask", "CR0_GUEST_HOST_MASK"),
        (1, "CR4 guest/host mask", "CR4_GUEST_HOST_MASK"),
        (2, "CR0 read shadow", "CR0_READ_SHADOW"),
        (3, "CR4 read shadow", "CR4_READ_SHADOW"),
        (4, "CR3-target value 0", "CR3_TARGET_VALUE0"),
        (5, "CR3-target value 1", "CR3_TARGET_VALUE1"),
        (6, "CR3-target value 2", "CR3_TARGET_VALUE2"),
        (7, "CR3-target value 3", "CR3_TARGET_VALUE3"),
    ]),
    # B.4.2
    (READ_ONLY, NATURAL, [
        (0, "Exit qualification", "EXIT_QUALIFICATION"),
        (1, "I/O RCX", "IO_RCX"),
        (2, "I/O RSI", "IO_RSI"),
        (3, "I/O RDI", "IO_RDI"),
        (4, "I/O RIP", "IO_RIP"),
        (5, "Guest-linear address", "GUEST_LINEAR_ADDR"),
    ]),
    # B.4.3
    (GUEST, NATURAL, [
        (0, "Guest CR0", "CR0"),
        (1, "Guest CR3", "CR3"),
        (2, "Guest CR4", "CR4"),
        (3, "Guest ES base", "ES_BASE"),
        (4, "Guest CS base", "CS_BASE"),
        (5, "Guest SS base", "SS_BASE"),
        (6, "Guest DS base", "DS_BASE"),
        (7, "Guest FS base", "FS_BASE"),
        (8, "Guest GS base", "GS_BASE"),
        (9, "Guest LDTR base", "LDTR_BASE"),
        (10, "Guest TR base", "TR_BASE"),
        (11, "Guest GDTR base", "GDTR_BASE"),
        (12, "Guest IDTR base", "IDTR_BASE"),
        (13, "Guest DR7", "DR7"),
        (14, "Guest RSP", "RSP"),
        (15, "Guest RIP", "RIP"),
        (16, "Guest RFLAGS", "RFLAGS"),
        (17, "Guest pending debug exceptions", "PENDING_DBG_EXCEPTIONS"),
        (18, "Guest IA32_SYSENTER_ESP", "IA32_SYSENTER_ESP"),
        (19, "Guest IA32_SYSENTER_EIP", "IA32_SYSENTER_EIP"),
    ]),
    # B.4.4
    (HOST, NATURAL, [
        (0, "Host CR0", "CR0"),
        (1, "Host CR3", "CR3"),
        (2, "Host CR4", "CR4"),
        (3, "Host FS base", "FS_BASE"),
        (4, "Host GS base", "GS_BASE"),
        (5, "Host TR base", "TR_BASE"),
        (6, "Host GDTR base", "GDTR_BASE"),
        (7, "Host IDTR base", "IDTR_BASE"),
        (8, "Host IA32_SYSENTER_ESP", "IA32_SYSENTER_ESP"),
        (9, "Host IA32_SYSENTER_EIP", "IA32_SYSENTER_EIP"),
        (10, "Host RSP", "RSP"),
        (11, "Host RIP", "RIP"),
    ]),
]

# Appendix C: the number, the manual's words, the Rust's name. 35, 38 and 42 are no reasons.
EXIT_REASONS = [
    (0, "Exception or non-maskable interrupt (NMI)", "EXCEPTION_NMI"),
    (1, "External interrupt", "EXTERNAL_INTERRUPT"),
    (2, "Triple fault", "TRIPLE_FAULT"),
    (3, "INIT signal", "INIT"),
    (4, "Start-up IPI (SIPI)", "SIPI"),
    (5, "I/O system-management interrupt (SMI)", "SMI"),
    (6, "Other SMI", "OTHER_SMI"),
    (7, "Interrupt window", "INTERRUPT_WINDOW"),
    (8, "NMI window", "NMI_WINDOW"),
    (9, "Task switch", "TASK_SWITCH"),
    (10, "CPUID", "CPUID"),
    (11, "GETSEC", "GETSEC"),
    (12, "HLT", "HLT"),
    (13, "INVD", "INVD"),
    (14, "INVLPG", "INVLPG"),
    (15, "RDPMC", "RDPMC"),
    (16, "RDTSC", "RDTSC"),
    (17, "RSM", "RSM"),
    (18, "VMCALL", "VMCALL"),
    (19, "VMCLEAR", "VMCLEAR"),
    (20, "VMLAUNCH", "VMLAUNCH"),
    (21, "VMPTRLD", "VMPTRLD"),
    (22, "VMPTRST", "VMPTRST"),
    (23, "VMREAD", "VMREAD"),
    (24, "VMRESUME", "VMRESUME"),
    (25, "VMWRITE", "VMWRITE"),
    (26, "VMXOFF", "VMOFF"),
    (27, "VMXON", "VMON"),
    (28, "Control-register accesses", "CR_ACCESS"),
    (29, "MOV DR", "DR_ACCESS"),
    (30, "I/O instruction", "IO_INSTRUCTION"),
    (31, "RDMSR", "MSR_READ"),
    (32, "WRMSR", "MSR_WRITE"),
    (33, "VM-entry failure due to invalid guest state", "INVALID_GUEST_STATE"),
    (34, "VM-entry failure due to MSR loading", "MSR_LOAD_FAIL"),
    (36, "MWAIT", "MWAIT_INSTRUCTION"),
    (37, "Monitor trap flag", "MONITOR_TRAP_FLAG"),
    (39, "MONITOR", "MONITOR_INSTRUCTION"),
    (40, "PAUSE", "PAUSE_INSTRUCTION"),
    (41, "VM-entry failure due to machine-check event", "MCE_DURING_VMENTRY"),
    (43, "TPR below threshold", "TPR_BELOW_THRESHOLD"),
    (44, "APIC access", "APIC_ACCESS"),
    (45, "Virtualized EOI", "VIRTUALIZED_EOI"),
    (46, "Access to GDTR or IDTR", "GDTR_IDTR"),
    (47, "Access to LDTR or TR", "LDTR_TR"),
    (48, "EPT violation", "EPT_VIOLATION"),
    (49, "EPT misconfiguration", "EPT_MISCONFIG"),
    (50, "INVEPT", "INVEPT"),
    (51, "RDTSCP", "RDTSCP"),
    (52, "VMX-preemption timer expired", "PREEMPTION_TIMER"),
    (53, "INVVPID", "INVVPID"),
    (54, "WBINVD or WBNOINVD", "WBINVD"),
    (55, "XSETBV", "XSETBV"),
    (56, "APIC write", "APIC_WRITE"),
    (57, "RDRAND", "RDRAND"),
    (58, "INVPCID", "INVPCID"),
    (59, "VMFUNC", "VMFUNC"),
    (60, "ENCLS", "ENCLS"),
    (61, "RDSEED", "RDSEED"),
    (62, "Page-modification log full", "PML_FULL"),
    (63, "XSAVES", "XSAVES"),
    (64, "XRSTORS", "XRSTORS"),
    (65, "PCONFIG", "PCONFIG"),
    (66, "SPP-related event", "SPP_EVENT"),
    (67, "UMWAIT", "UMWAIT"),
    (68, "TPAUSE", "TPAUSE"),
    (69, "LOADIWKEY", "LOADIWKEY"),
]

# Bits 10:8 of the interruption information: the number, the manual's words, the Rust's name.
INTERRUPTION_TYPES = [
    (0, "External interrupt", "External"),
    (1, "Reserved", "Reserved"),
    (2, "Non-maskable interrupt (NMI)", "NMI"),
    (3, "Hardware exception", "HardException"),
    (4, "Software interrupt", "SoftIntr"),
    (5, "Privileged software exception", "PrivSoftException"),
    (6, "Software exception", "SoftException"),
    (7, "Other event", "Other"),
]


def encoding(kind, width, index):
    """Bit 0 the access type (0 is full), bits 9:1 the index, 11:10 the kind, 12 reserved, 14:13 the width (volume 3C, 25.11.2; appendix B)."""
    return index << 1 | kind << 10 | WIDTH_CODES[width] << 13


def fields():
    """Each field's encoding, kind, width in bits (64 for a natural one), the manual's name, the Rust's enum and name."""
    for kind, width, members in SECTIONS:
        enum = "Vmcs%s%s" % (KIND_NAMES[kind], width or "NW")
        for index, manual, name in members:
            yield encoding(kind, width, index), kind, width or 64, manual, enum, name


def members(source, enum):
    """The names of an enum of the Rust, with their numbers."""
    body = re.search(r"pub enum %s \{(.*?)\n\}" % enum, source, re.S).group(1)
    return {name: int(number, 0) for name, number in re.findall(r"^\s*(\w+) = (0x[0-9A-Fa-f]+|\d+),", body, re.M)}


def differences(enum, ours, theirs):
    """What the manual's numbers by the Rust's names and the Rust's own differ in."""
    for name in sorted(set(ours) | set(theirs)):
        if ours.get(name) != theirs.get(name):
            yield "%s::%s: the manual has %s, the Rust %s" % (enum, name, ours.get(name), theirs.get(name))


def main():
    vmcs = open("docs/src/src/vmx/vmcs.rs").read()
    definitions = open("docs/src/src/vmx/definitions.rs").read()
    tables = {}
    for number, _, _, _, enum, name in fields():
        tables.setdefault(enum, {})[name] = number
    wrong = []
    for enum in sorted(set(tables) | set(re.findall(r"pub enum (Vmcs\w+) \{", vmcs))):
        wrong += differences(enum, tables.get(enum, {}), members(vmcs, enum))
    for enum, rows in (("VmxExitReason", EXIT_REASONS), ("VmxInterruptionType", INTERRUPTION_TYPES)):
        wrong += differences(enum, {name: number for number, _, name in rows}, members(definitions, enum))
    print("\n".join(wrong), end="\n" if wrong else "")
    return int(bool(wrong))


if __name__ == "__main__":
    sys.exit(main())
