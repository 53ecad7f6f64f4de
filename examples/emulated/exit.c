/* An exit: the report from the VMCS, the core's answer, and the fields that the report changed back to the VMCS. */
#include "host.h"
#include "instructions.h"

static uint8_t report[VCPU_REPORT_LENGTH];

/* The parts of a report that are fields as they are. */
static const struct {
    unsigned at, size;
    uint64_t encoding;
} reported[] = {
    {VCPU_REPORT_RIP, 8, VmcsGuestNW_RIP},
    {VCPU_REPORT_RSP, 8, VmcsGuestNW_RSP},
    {VCPU_REPORT_RFLAGS, 8, VmcsGuestNW_RFLAGS},
    {VCPU_REPORT_CR0, 8, VmcsGuestNW_CR0},
    {VCPU_REPORT_CR3, 8, VmcsGuestNW_CR3},
    {VCPU_REPORT_CR4, 8, VmcsGuestNW_CR4},
    {VCPU_REPORT_EFER, 8, VmcsGuest64_IA32_EFER},
    {VCPU_REPORT_CS_BASE, 8, VmcsGuestNW_CS_BASE},
    {VCPU_REPORT_CS_RIGHTS, 4, VmcsGuest32_CS_ACCESS_RIGHTS},
    {VCPU_REPORT_SS_RIGHTS, 4, VmcsGuest32_SS_ACCESS_RIGHTS},
    {VCPU_REPORT_REASON, 4, VmcsReadOnly32_EXIT_REASON},
    {VCPU_REPORT_QUALIFICATION, 8, VmcsReadOnlyNW_EXIT_QUALIFICATION},
    {VCPU_REPORT_INSTRUCTION_LENGTH, 4, VmcsReadOnly32_VMEXIT_INSTRUCTION_LEN},
    {VCPU_REPORT_INTERRUPTION, 4, VmcsReadOnly32_VMEXIT_INTERRUPTION_INFO},
    {VCPU_REPORT_ERROR_CODE, 4, VmcsReadOnly32_VMEXIT_INTERRUPTION_ERR_CODE},
};

/* The exits whose instruction is done by core and host, and not by the guest after its next entry. */
static int completes(uint32_t reason)
{
    return reason == EXIT_CPUID || reason == EXIT_VMCALL || reason == EXIT_CR_ACCESS || reason == EXIT_IO || reason == EXIT_RDMSR || reason == EXIT_WRMSR ||
           reason == EXIT_XSETBV;
}

/*
 * Blocking by STI and MOV SS ends with the instruction that follows, so it is cleared where that is done here. Of the other bits none keeps an interrupt
 * out: blocking by NMI in a report would hold interrupts while the processor sees its window open, exit after exit.
 */
static uint64_t blocking(uint32_t reason)
{
    uint64_t state = vmread(VmcsGuest32_INTERRUPTIBILITY_STATE);

    if (completes(reason) && !deviates(KEEP_BLOCKING)) {
        state &= ~(uint64_t)BLOCKING_STI_MOV_SS;
        vmwrite(VmcsGuest32_INTERRUPTIBILITY_STATE, state);
    }
    return deviates(REPORT_NMI_BLOCKING) ? state : state & BLOCKING_STI_MOV_SS;
}

/*
 * CPUID for the guest. OSXSAVE of leaf 1 is a bit of CR4, and the sizes in leaf 0xD are those of the XCR0 that is loaded (SDM 2A, CPUID): each is to be the
 * guest's. Leaf 0xD offers no bit of XCR0 that setup was not given.
 */
static void guest_cpuid(uint32_t leaf, uint32_t subleaf, uint32_t r[4])
{
    int sizes = leaf == 0xD && !deviates(HOST_SIZE);

    if (sizes)
        load_xcr0(guest_xcr0());
    cpuid(leaf, subleaf, r);
    if (sizes)
        load_xcr0(HOST_XCR0);
    if (leaf == 1 && !deviates(HOST_OSXSAVE))
        r[2] = (r[2] & ~CPUID_1_OSXSAVE) | (vmread(VmcsGuestNW_CR4) & CR4_OSXSAVE ? CPUID_1_OSXSAVE : 0);
    if (leaf == 0xD && subleaf == 0 && !deviates(OFFER_ALL)) {
        r[0] &= (uint32_t)supported_xcr0();
        r[3] &= (uint32_t)(supported_xcr0() >> 32);
    }
}

static void fill_report(uint32_t reason)
{
    uint32_t r[4] = {0, 0, 0, 0};
    unsigned i;

    for (i = 0; i < 16; i++)
        put(report, VCPU_REPORT_REGS + 8 * i, 8, guest_area.regs[i]);
    for (i = 0; i < sizeof reported / sizeof reported[0]; i++)
        put(report, reported[i].at, reported[i].size, vmread(reported[i].encoding));
    if (deviates(RECORD_CR0))
        put(report, VCPU_REPORT_CR0, 8, field(VmcsGuestNW_CR0));
    put(report, VCPU_REPORT_INTERRUPTIBILITY, 4, blocking(reason));
    if (reason == EXIT_CPUID)
        guest_cpuid((uint32_t)guest_area.regs[RAX], (uint32_t)guest_area.regs[RCX], r);
    for (i = 0; i < 4; i++)
        put(report, VCPU_REPORT_CPUID_EAX + 4 * i, 4, r[i]);
}

/* ---- Moves to CR0 and CR4 ---- */

/* CR0 or CR4 as the guest reads it: under the mask the read shadow. */
static uint64_t read_by_guest(uint64_t value, uint64_t mask, uint64_t shadow)
{
    return (vmread(value) & ~vmread(mask)) | (vmread(shadow) & vmread(mask));
}

/* The bits whose change makes a move to CR0 or CR4 load the page-directory pointers (SDM 3A, 4.4.1). */
static uint64_t paging_bits(void)
{
    uint64_t cr0 = read_by_guest(VmcsGuestNW_CR0, VmcsControlNW_CR0_GUEST_HOST_MASK, VmcsControlNW_CR0_READ_SHADOW);
    uint64_t cr4 = read_by_guest(VmcsGuestNW_CR4, VmcsControlNW_CR4_GUEST_HOST_MASK, VmcsControlNW_CR4_READ_SHADOW);

    return (cr0 & (CR0_CD | CR0_NW | CR0_PG)) | (cr4 & (CR4_PSE | CR4_PAE | CR4_PGE | CR4_SMEP));
}

static void load_pdptes(void)
{
    uint64_t cr3 = field(VmcsGuestNW_CR3) & 0xFFFFFFE0, entry;
    unsigned i;

    for (i = 0; i < 4 && cr3 < 4096 * GUEST_PAGES; i++) {
        memcpy(&entry, memory + cr3 + 8 * i, sizeof entry);
        vmwrite(VmcsGuest64_PDPTE0 + 2 * i, entry);
    }
}

/* A move that changes one of those bits and leaves PAE paging on. */
static int loads_pdptes(uint64_t bits_before)
{
    return paging_bits() != bits_before && field(VmcsGuestNW_CR0) & CR0_PG && field(VmcsGuestNW_CR4) & CR4_PAE && !(field(VmcsGuest64_IA32_EFER) & EFER_LMA);
}

/* LMA is LME and PG (SDM 3A, 10.8.5); the core sets it at a move with PG, whatever LME is, and never clears it. */
static void set_lma(void)
{
    uint64_t efer = field(VmcsGuest64_IA32_EFER), lma = efer & EFER_LME && field(VmcsGuestNW_CR0) & CR0_PG ? EFER_LMA : 0;

    if ((efer & EFER_LMA) != lma)
        set_field(VmcsGuest64_IA32_EFER, (efer & ~EFER_LMA) | lma);
}

/*
 * Entry control bit 9 is to be LMA. Where the guest turns long mode on or off without an exit the processor changes the bit in the VMCS, and the record's
 * word goes stale: the host takes the word from the record and the bit from EFER. In the VMCS alone.
 */
static void write_entry_controls(void)
{
    uint64_t word = field(VmcsControl32_VMENTRY_CONTROLS), lma = field(VmcsGuest64_IA32_EFER) & EFER_LMA;

    vmwrite(VmcsControl32_VMENTRY_CONTROLS, (word & ~ENTRY_IA32E_GUEST) | (lma ? ENTRY_IA32E_GUEST : 0));
}

static void carry_cr0(uint64_t controls_before)
{
    carry(VmcsGuestNW_CR0);
    carry(VmcsControlNW_CR0_READ_SHADOW);
    carry(VmcsControlNW_CR0_GUEST_HOST_MASK);
    carry(VmcsGuest64_IA32_EFER);
    if (!deviates(KEEP_LMA))
        set_lma();
    if (!deviates(CHANGED_ENTRY_CONTROLS))
        write_entry_controls();
    else if (field(VmcsControl32_VMENTRY_CONTROLS) != controls_before)
        carry(VmcsControl32_VMENTRY_CONTROLS);
}

static void carry_cr4(void)
{
    carry(VmcsGuestNW_CR4);
    carry(VmcsControlNW_CR4_READ_SHADOW);
    carry(VmcsControlNW_CR4_GUEST_HOST_MASK);
}

static void carry_move(uint64_t controls_before, uint64_t bits_before)
{
    if (vmread(VmcsReadOnlyNW_EXIT_QUALIFICATION) & 0xF)
        carry_cr4();
    else
        carry_cr0(controls_before);
    if (deviates(RECORD_ENTRY_CONTROLS))
        carry(VmcsControl32_VMENTRY_CONTROLS);
    if (loads_pdptes(bits_before) && !deviates(NO_PDPTES))
        load_pdptes();
    tell("  CR0 %x, CR4 %x, EFER %x, entry controls %x\n", field(VmcsGuestNW_CR0), field(VmcsGuestNW_CR4), field(VmcsGuest64_IA32_EFER),
         vmread(VmcsControl32_VMENTRY_CONTROLS));
}

/* ---- The exit ---- */

/*
 * An exit while an event was delivered: the event did not arrive, and no report tells the core. What came of the guest's instruction comes again, since RIP
 * is still there. What this entry put in, and an interrupt or NMI, is queued again, behind those that wait; INT3 and INTO return to RIP plus their length,
 * where RIP is put.
 */
static void queue_vectoring(void)
{
    uint64_t info = vmread(VmcsReadOnly32_IDT_VECTORING_INFO);

    if (!(info & INFO_VALID) || deviates(LOSE_VECTORING))
        return;
    tell("  an exit during delivery of %x\n", info);
    if (INFO_OF_INSTRUCTION(info) && (info & INFO_WHAT) != (entered_with & INFO_WHAT))
        return;
    if (INFO_SOFTWARE_EXCEPTION(info))
        set_field(VmcsGuestNW_RIP, field(VmcsGuestNW_RIP) + vmread(VmcsReadOnly32_VMEXIT_INSTRUCTION_LEN));
    queue((uint8_t)info, info & INFO_CODE ? 1 : 0, (uint32_t)vmread(VmcsReadOnly32_IDT_VECTORING_ERR_CODE));
}

static void tell_answer(const uint64_t *answer)
{
    static const char *const names[] = {"Nothing", "Hypercall", "IoRead", "IoWrite", "SystemDown", "ExternalInterrupt",
                                        "SysRegRead", "SysRegWrite", "ApicRead", "ApicWrite", "Halt", "FailEntry"};
    unsigned i, last = 0;

    for (i = 1; i < VCPU_ANSWER_WORDS; i++)
        if (answer[i])
            last = i;
    tell(" -> %s", answer[0] < sizeof names / sizeof names[0] ? names[answer[0]] : "no answer");
    for (i = 1; i <= last; i++)
        tell(" %x", answer[i]);
    tell("; RIP %x\n", field(VmcsGuestNW_RIP));
}

int leave(void)
{
    uint64_t answer[VCPU_ANSWER_WORDS], controls = field(VmcsControl32_VMENTRY_CONTROLS), paging = paging_bits();
    uint32_t reason = (uint32_t)vmread(VmcsReadOnly32_EXIT_REASON), number;

    count.exits++;
    count.by_reason[reason < 65 ? reason : 64]++;
    count.windows_in_a_row = reason == EXIT_INTERRUPT_WINDOW ? count.windows_in_a_row + 1 : 0;
    tell("exit %d: reason %x, qualification %x, RIP %x", count.exits, (uint64_t)reason, vmread(VmcsReadOnlyNW_EXIT_QUALIFICATION), vmread(VmcsGuestNW_RIP));
    fill_report(reason);
    number = vcpu_exit_report(record, sizeof record, report, sizeof report, answer);
    if (number) {
        tell("\n");
        return ending("report refused %d", number);
    }
    tell_answer(answer);
    check_trap(reason);
    carry(VmcsGuestNW_RIP);
    if (reason == EXIT_INTERRUPT_WINDOW)
        carry(VmcsControl32_PRIMARY_PROCBASED_EXEC_CONTROLS);
    if (reason == EXIT_PREEMPTION_TIMER)
        carry(VmcsGuest32_VMX_PREEMPTION_TIMER_VALUE);
    if (reason == EXIT_CR_ACCESS)
        carry_move(controls, paging);
    if (reason == EXIT_XSETBV)
        tell("  XCR0 %x, for the next entry\n", guest_xcr0());
    if (answer[0] != VCPU_ANSWER_FAIL_ENTRY)
        queue_vectoring();
    queue_late_nmi();
    return act(answer, reason);
}
