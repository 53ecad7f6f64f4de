/* What was seen, and what should have been; and how the run ended. */
#include "host.h"
#include "instructions.h"

struct counts count;
uint8_t queued[MANY_ROOM];
static int ran_to_its_end;

/* Every check counts; a wrong one is said. */
void check(const char *what, uint64_t is, uint64_t should)
{
    count.checks++;
    if (is == should) {
        tell("  check %s: %x\n", what, is);
        return;
    }
    count.wrong++;
    say("wrong: %s: %x, should be %x\n", what, is, should);
}

/* How the run ended, for the table. Answers 1: the guest is to run no further. */
int ending(const char *format, ...)
{
    va_list values;

    va_start(values, format);
    say("ending: ");
    print(format, values);
    say("\n");
    va_end(values);
    return 1;
}

/* The guest has turned its machine off, as each does at its end: what it saw can be checked. */
int finished(void)
{
    ran_to_its_end = 1;
    return ending("ok");
}

/* What the host put right after VMfail, for the table. */
void repaired(const char *how)
{
    say("repair: %s\n", how);
}

/* ---- During the run ---- */

/* What the processor tests at an entry (SDM 3C, 27.3.1.1 and 27.2.1.3) and Bochs 2.7, on some models or all, does not. */
void check_entry(void)
{
    static int said;
    uint64_t info = vmread(VmcsControl32_VMENTRY_INTERRUPTION_INFO_FIELD), cr0 = vmread(VmcsGuestNW_CR0);
    const char *why = 0;

    if (vmread(VmcsControl32_VMENTRY_CONTROLS) & ENTRY_IA32E_GUEST && !(cr0 & CR0_PG))
        why = "entry control bit 9 while CR0.PG is clear";
    if (info & INFO_VALID && info & INFO_CODE && !(cr0 & CR0_PE))
        why = "an error code while CR0.PE is clear";
    if (why && !said++)
        say("refuses: %s\n", why);
}

/* The core's walk leads from the address of the VMCALL that exited, three bytes before RIP, to its bytes: the processor fetched them through the same tables. */
static void check_walk(uint64_t rip)
{
    uint64_t walked[3] = {9, 9, 9};
    uint32_t bytes = 0;

    vcpu_page_walk(record, sizeof record, memory, 4096 * GUEST_PAGES, rip - 3, VCPU_ACCESS_FETCH, walked);
    check("walk of the VMCALL", walked[0], VCPU_WALKED_ADDRESS);
    if (walked[1] <= 4096 * GUEST_PAGES - 3)
        memcpy(&bytes, memory + walked[1], 3);
    check("bytes of the VMCALL", bytes, 0xC1010F);
}

/* The core's readings beside what the guest says of itself. Its bases are 0, its accesses the supervisor's. */
void check_mode(uint64_t mode, uint64_t levels)
{
    static const uint8_t widths[] = {0, 0, 10, 9, 9};
    uint64_t top = 0, linear = 0, efer = deviates(HOST_EFER) ? rdmsr(IA32_EFER) : field(VmcsGuest64_IA32_EFER);
    uint32_t is = 9, flags = 0;
    uint8_t level = 9, width = 9;

    vcpu_get_cpu_mode(record, sizeof record, efer, &is);
    check("CPU mode", is, mode);
    vcpu_gla2gva(record, sizeof record, efer, field(VmcsGuestNW_RIP), &linear);
    check("linear address of RIP", linear, vmread(VmcsGuestNW_RIP));
    vcpu_get_ptw_info(record, sizeof record, &top, &level, &width, &flags);
    check("levels of paging", level, levels);
    check("bits of a level", width, widths[levels]);
    check("top of the walk", top, vmread(VmcsGuestNW_CR3));
    check("flags of the walk", flags, VCPU_WALK_PSE);
    check_walk(linear);
    if (level == 3) {
        /* Of PAE's pointers the second leads to the same page, and the third is not there yet. */
        uint64_t walked[3] = {9, 9, 9};

        vcpu_page_walk(record, sizeof record, memory, 4096 * GUEST_PAGES, 0x40000000 + linear, VCPU_ACCESS_FETCH, walked);
        check("walk through the second pointer", walked[1], linear);
        vcpu_page_walk(record, sizeof record, memory, 4096 * GUEST_PAGES, 0x80000000 + linear, VCPU_ACCESS_FETCH, walked);
        check("level of the third pointer", walked[1], 3);
        check("rule of the third pointer", walked[2], VCPU_RULE_NOT_PRESENT);
    }
}

/* ---- At the end ---- */

static void check_saw(const char *what, unsigned n, uint64_t should)
{
    check(what, saw(n), should);
}

/* CPUID as the main guest saw it, beside the processor's. */
static void check_cpuid(void)
{
    uint32_t r[4];

    cpuid(1, 0, r);
    check_saw("CPUID 1, EAX: without bit 7", SAW_CPUID_1, r[0] & ~(1u << 7));
    check_saw("CPUID 1, EBX", SAW_CPUID_1 + 1, r[1]);
    check_saw("CPUID 1, ECX: no VMX, no OSXSAVE, a hypervisor", SAW_CPUID_1 + 2, (r[2] & ~(1u << 5 | CPUID_1_OSXSAVE)) | 1u << 31);
    check_saw("CPUID 1, EDX", SAW_CPUID_1 + 3, r[3]);
    check_saw("CPUID 0x40000000, EAX", SAW_CPUID_VENDOR, 0x40000001);
    check_saw("vendor, RVMR", SAW_CPUID_VENDOR + 1, 0x524D5652);
    check_saw("vendor, VMRV", SAW_CPUID_VENDOR + 2, 0x56524D56);
    check_saw("vendor, MRVM", SAW_CPUID_VENDOR + 3, 0x4D56524D);
    cpuid(4, 1, r);
    check_saw("CPUID 4, subleaf 1, EAX", SAW_CPUID_4, r[0]);
}

/* What the main guest saw of ports, MSRs and control registers. */
static void check_main(void)
{
    check_saw("CR0 as first read", SAW_CR0, 0x60000010);
    check_saw("CR4 as first read", SAW_CR4, 0x2000);
    check_saw("IN of one byte", SAW_IN_1, 0x1122335A);
    check_saw("IN of two bytes", SAW_IN_2, 0x1122C75A);
    check_saw("IN of four bytes", SAW_IN_4, 0xA5B6C75A);
    check_saw("IN of a port that is not trapped", SAW_IN_OPEN, 0xE9);
    check_saw("ECX after REP OUTS", SAW_OUTS_CX, 5);
    check_saw("RDMSR, EAX", SAW_RDMSR, 0x11223344);
    check_saw("RDMSR, EDX", SAW_RDMSR + 1, 0xAABBCCDD);
    check("RDMSR that is not trapped: the guest's PAT", saw(SAW_RDMSR_OPEN) | (uint64_t)saw(SAW_RDMSR_OPEN + 1) << 32, GUEST_PAT);
    check_saw("APIC register, EAX", SAW_APIC, 0x3456789A);
    check_saw("APIC register, EDX", SAW_APIC + 1, 0x12);
    check_saw("XMM0 after exits", SAW_XMM, 0x12345678);
    check_saw("CR2 after exits", SAW_CR2, 0xFA17000);
    check_saw("CR0 after PE without an exit", SAW_PE_NO_EXIT, 0x60000011);
    check_saw("CR0 after PE with an exit", SAW_PE_EXIT, 0x11);
    check_saw("vendor in protected mode", SAW_VENDOR_PROTECTED, 0x524D5652);
    check_saw("code of the page fault", SAW_CODE_14, 2);
}

/* The order of what happened to the main guest; guest/main.S says what stands for what. */
static void check_log(void)
{
    static const uint8_t should[] = {0xFE, 0x20, 0x21, 0xFD, 0x22, 0xFC, 0x02, 0xFB, 0x06, 0x03, 0xFA, 0x0E, 0xF9};
    unsigned i;

    check("length of the log", memory[LOG], sizeof should);
    for (i = 0; i < sizeof should; i++)
        check("the log", memory[LOG + 1 + i], should[i]);
    check("exits for the interrupt window", count.by_reason[EXIT_INTERRUPT_WINDOW], 2);
    /* IN of port 0xE9 and RDMSR of 0x277, on no line of the sheet, are not among these */
    check("I/O that exited", count.by_reason[EXIT_IO], 8);
    check("RDMSR that exited", count.by_reason[EXIT_RDMSR], 2);
    check("WRMSR that exited", count.by_reason[EXIT_WRMSR], 2);
    check("moves to CR0 or CR4 that exited", count.by_reason[EXIT_CR_ACCESS], 1);
}

static void check_breakpoint(void)
{
    check_saw("where the breakpoint returns to", SAW_RETURN, saw(SAW_RETURN_TO));
}

/* The last event went in without its code, since PE was clear: 0x4018 keeps the code of the page fault before it, or else the 0 of a new record. */
static void check_no_code(void)
{
    check("word of the general-protection fault", last_word, 0x8000030D);
    check("0x4018, which is kept", field(VmcsControl32_VMENTRY_EXCEPTION_ERR_CODE), saw(SAW_CODE_14));
}

/* A hardware exception has no length: 0x401A keeps the 0 of a new record, though the last exit had the length of VMCALL. */
static void check_debug(void)
{
    check("word of the debug exception", last_word, 0x80000301);
    check("0x401A, which is kept", field(VmcsControl32_VMENTRY_INSTRUCTION_LEN), 0);
}

/* The caller's code, where the host has queued vector 21. */
static void check_control_protection(void)
{
    check_saw("code of the control-protection exception", SAW_CODE_21, count.queued ? 3 : 0);
}

/* Each interrupt was handled once, in the order of the queue. */
static void check_many(void)
{
    unsigned handled = memory[COUNT] | memory[COUNT + 1] << 8, in_order = 0;

    check("interrupts handled", handled, count.queued);
    while (in_order < handled && in_order < MANY_ROOM && memory[MANY + in_order] == queued[in_order])
        in_order++;
    check("in the queue's order", in_order, count.queued);
    say("handled: %d\n", in_order);
}

/* Of two faults: the caller's code, and where the caller gives none the exit's. */
static void check_codes(void)
{
    check_saw("code of the page fault", SAW_CODE_14, 2);
    check_saw("code of the general-protection fault", SAW_CODE_13, field(VmcsReadOnly32_VMEXIT_INTERRUPTION_ERR_CODE));
}

static void check_timer(void)
{
    check("exits of the preemption timer", count.by_reason[EXIT_PREEMPTION_TIMER], 1);
    check("its next value", vmread(VmcsGuest32_VMX_PREEMPTION_TIMER_VALUE), 1000000);
}

static void check_pae(void)
{
    unsigned i;

    for (i = 0; i < 4; i++)
        check_saw("a word by each page-directory pointer", SAW_PAE + i, 0x9AE);
}

/* EBX of CPUID leaf 0xD, the size of the XSAVE area, with this XCR0. */
static uint32_t area(uint64_t xcr0)
{
    uint32_t r[4];

    load_xcr0(xcr0);
    cpuid(0xD, 0, r);
    load_xcr0(HOST_XCR0);
    return r[1];
}

/* XCR0 as the guest read it after XSETBV and before it, and as the core has it; a word from the upper half of a register of AVX, over an exit; CPUID. */
static void check_xcr0(void)
{
    uint64_t should = supported_xcr0();

    check("XCR0 after XSETBV", saw(SAW_XCR0) | (uint64_t)saw(SAW_XCR0 + 1) << 32, should);
    check("XCR0 in the record", guest_xcr0(), should);
    check_saw("XCR0 before XSETBV", SAW_XCR0_FIRST, 1);
    check_saw("YMM0 after an exit", SAW_AVX, should & XCR0_AVX ? AVX_WORD : 0);
    check_saw("CPUID 0xD, EBX, before XSETBV", SAW_AREA, area(1));
    check_saw("CPUID 0xD, EBX, after XSETBV", SAW_AREA + 1, area(should));
    check("CPUID 1, OSXSAVE, before CR4 has it", saw(SAW_OSXSAVE) & CPUID_1_OSXSAVE, 0);
    check("CPUID 1, OSXSAVE, after that", saw(SAW_OSXSAVE + 1) & CPUID_1_OSXSAVE, CPUID_1_OSXSAVE);
}

static void check_counts(void)
{
    uint8_t phase = 9, was_launched = 9, waiting = 9;
    uint32_t entries = 0, held = 0;

    vcpu_get_counts(record, sizeof record, &phase, &was_launched, &waiting, &entries, &held);
    check("phase", phase, VCPU_READY);
    check("launched", was_launched, 1);
    check("waiting", waiting, 0);
    check("entries", entries, count.exits);
    check("entries that held", held, count.held);
    check("events that went in", count.written, count.queued);
    check("out of the queue's order", count.out_of_order, 0);
}

/* What each exit loads for the host, and XCR0, which the host loads itself. */
static void check_host(void)
{
    check("the host's PAT", rdmsr(IA32_PAT), host_pat);
    check("the host's SYSENTER_CS", rdmsr(IA32_SYSENTER_CS), HOST_CS);
    check("the host's SYSENTER_ESP", rdmsr(IA32_SYSENTER_ESP), 0x5000);
    check("the host's SYSENTER_EIP", rdmsr(IA32_SYSENTER_EIP), 0x6000);
    if (has_xsave())
        check("the host's XCR0", read_xcr0(), HOST_XCR0);
}

static unsigned ones(const uint8_t *frame)
{
    unsigned n = 0, i;

    for (i = 0; i < 8 * VCPU_FRAME_LENGTH; i++)
        n += frame[i / 8] >> i % 8 & 1;
    return n;
}

/* Setup traps one port, and reads and writes of 65 MSRs; the host twelve ports, and reads of three MSRs (add_intercepts). */
static void check_frames(void)
{
    check("ports that are trapped", ones(io_a) + ones(io_b), 1 + 12);
    check("accesses of MSRs that are trapped", ones(msrs), 2 * 65 + 3);
    check("ports in all, by the sheet", sheet_total(ACCESS_PORT), 1 + 12);
    check("reads in all, by the sheet", sheet_total(ACCESS_READ), 65 + 3);
    check("writes in all, by the sheet", sheet_total(ACCESS_WRITE), 65);
}

static void check_done(void)
{
    uint32_t done;

    memcpy(&done, memory + DONE, sizeof done);
    switch (done) {
    case DONE_MAIN:
        check_main();
        check_cpuid();
        check_log();
        check_frames();
        check_breakpoint();
        break;
    case DONE_MANY:
        check_many();
        break;
    case DONE_BREAKPOINT:
        check_breakpoint();
        break;
    case DONE_LONG_MODE:
        check_saw("all registers over an exit, and after CPUID", SAW_REGISTERS, 1);
        break;
    case DONE_PAE:
        check_pae();
        break;
    case DONE_CODE:
        check_saw("code of the page fault", SAW_CODE_14, 2);
        break;
    case DONE_CODES:
        check_codes();
        break;
    case DONE_NO_CODE:
        check_no_code();
        break;
    case DONE_DEBUG:
        check_debug();
        break;
    case DONE_CONTROL_PROTECTION:
        check_control_protection();
        break;
    case DONE_SHADOW:
        check_saw("the page as the handler found it", SAW_SHADOW, 0x5AD0);
        break;
    case DONE_TIMER:
        check_timer();
        break;
    case DONE_XCR0:
        check_xcr0();
        break;
    case DONE_ACCESSES:
        check_accesses();
        break;
    default:
        check("the guest's last word", done, DONE_PLAIN);
    }
}

void conclude(void)
{
    unsigned i;

    if (ran_to_its_end) {
        check_counts();
        check_host();
        check_done();
    }
    say("log:");
    for (i = 0; i < memory[LOG]; i++)
        say(" %x", (uint64_t)memory[LOG + 1 + i]);
    say("\n");
    list_stale_fields();
    say("exits: %d\nqueued: %d\nrefused: %d\nwritten: %d\nticks: %d\nwindows: %d\nchecks: %d\nwrong checks: %d\n", count.exits, count.queued, count.refused,
        count.written, count.ticks, count.by_reason[EXIT_INTERRUPT_WINDOW], count.checks, count.wrong);
}
