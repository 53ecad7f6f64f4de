/*
 * A small host, with the processor played by arrays. It does what a hypervisor does around the core: it makes a session, sets it up from the processor's
 * capability words (and shows words that are refused, those of an older board among them), edits intercepts, with the trap sheet before and after, and queues
 * events; for each exit it enters the guest, carries fields and registers to the processor and back, reports the exit (one report is tried first), and does what
 * the core answers. Once the guest has paging on, two of its addresses are walked. After each call it writes to the processor the fields that the header names and no
 * others; at each entry all 154 are compared, and those in which processor and record differ are counted. Arrays refuse no entry: examples/emulated is a host on
 * processors that do, with all that the header's section "What the host does" says.
 */
#include "x86_vcpu.h"

#include <inttypes.h>
#include <stdio.h>
#include <stdlib.h>
#include <string.h>

/* The fields by the Rust's names: those that setup writes, host RSP, those of an event, and those of an exit. */
#define NAMED(group, name, encoding) group##_##name = encoding,
enum {
    VCPU_SETUP_FIELDS(NAMED)
    VmcsHostNW_RSP = 0x6C14,
    VmcsControl32_VMENTRY_INTERRUPTION_INFO_FIELD = 0x4016,
    VmcsControl32_VMENTRY_EXCEPTION_ERR_CODE = 0x4018,
    VmcsControl32_VMENTRY_INSTRUCTION_LEN = 0x401A,
    VmcsReadOnly32_EXIT_REASON = 0x4402,
    VmcsReadOnly32_VMEXIT_INTERRUPTION_INFO = 0x4404,
    VmcsReadOnly32_VMEXIT_INTERRUPTION_ERR_CODE = 0x4406,
    VmcsReadOnly32_VMEXIT_INSTRUCTION_LEN = 0x440C,
    VmcsReadOnlyNW_EXIT_QUALIFICATION = 0x6400
};

/* Registers by their place. */
enum { RAX, RCX, RDX };

/* Bits of XCR0: the host uses x87 and SSE, and the processor has AVX besides. */
enum { HOST_XCR0 = 3, SUPPORTED_XCR0 = 7 };

/* ---- The processor: its capability MSRs, the fields of its VMCS by encoding, the registers that the guest runs with, XCR0, and its guest with its memory ---- */

/* The capability MSRs 0x480 to 0x484, 0x486 to 0x489, 0x48B, 0x48D to 0x490, by their place in the block of setup. */
enum { BASIC, SECONDARY = 9, TRUE_PIN, TRUE_ENTRY = 13, WORDS };

static const uint64_t usual_words[WORDS] = {
    0x00DA040000000004, 0x0000007F00000016, 0xFFF9FFFE0401E172u, 0x01FFFFFF00036DFF, 0x0003FFFF000011FF, 0x80000021, 0xFFFFFFFF, 0x2000, 0x3767FF,
    0x55CFEFFF00000000, 0x0000007F00000016, 0xFFF9FFFE04006172u, 0x01FFFFFF00036DFB, 0x0003FFFF000011FB,
};

static uint64_t words[WORDS], fields[0x8000], guest[16], xcr0;
static uint8_t guest_memory[0x9000];

/* The TRUE words are there where bit 55 of IA32_VMX_BASIC is set. To read an MSR that is not there is a fault, at which this host stops. */
static uint64_t rdmsr(unsigned place)
{
    if (place >= TRUE_PIN && !(words[BASIC] >> 55 & 1)) {
        printf("RDMSR: vector 13\n");
        exit(1);
    }
    return words[place];
}

static uint64_t vmread(uint64_t encoding)
{
    return fields[encoding];
}

static void vmwrite(uint64_t encoding, uint64_t x)
{
    fields[encoding] = x;
}

static void put(uint8_t *bytes, unsigned at, unsigned size, uint64_t x)
{
    for (; size--; at++, x >>= 8)
        bytes[at] = (uint8_t)x;
}

/* The guest's page tables, of four levels: the page of its code, 0x8000, is mapped to itself, the next one to 0x7000, and no other. */
static void make_tables(void)
{
    put(guest_memory, 0x1000, 8, 0x2003);
    put(guest_memory, 0x2000, 8, 0x3003);
    put(guest_memory, 0x3000, 8, 0x4003);
    put(guest_memory, 0x4040, 8, 0x8003);
    put(guest_memory, 0x4048, 8, 0x7003);
}

/* An exit: what the guest does, the full reason, the qualification, the instruction's length, RAX and RCX. */
struct exit {
    const char *what;
    uint32_t reason;
    uint64_t qualification, length, rax, rcx;
};

/* The guest runs, with IF set, until this exit; if bit 31 of the reason is set, it did not come to run. */
static void run_guest(const struct exit *e)
{
    vmwrite(VmcsReadOnly32_EXIT_REASON, e->reason);
    vmwrite(VmcsReadOnlyNW_EXIT_QUALIFICATION, e->qualification);
    if (e->reason >> 31)
        return;
    guest[RAX] = e->rax;
    guest[RCX] = e->rcx;
    /* on its way to long mode the guest has made its tables, loaded CR3 and set EFER.LME, which are not trapped */
    if (e->reason == 28) {
        make_tables();
        vmwrite(VmcsGuestNW_CR3, 0x1000);
        vmwrite(VmcsGuest64_IA32_EFER, 0x100);
    }
    /* the high half of what the guest loads into XCR0 */
    if (e->reason == 55)
        guest[RDX] = 0;
    vmwrite(VmcsGuestNW_RFLAGS, 0x202);
    vmwrite(VmcsReadOnly32_VMEXIT_INSTRUCTION_LEN, e->length);
    vmwrite(VmcsReadOnly32_VMEXIT_INTERRUPTION_INFO, e->reason == 1 ? 0x80000031 : 0);
    /* the event, if there was one, is delivered: every exit clears its bit 31 */
    vmwrite(VmcsControl32_VMENTRY_INTERRUPTION_INFO_FIELD, vmread(VmcsControl32_VMENTRY_INTERRUPTION_INFO_FIELD) & 0x7FFFFFFF);
}

/* ---- The host: its record, its frames, and what it carries ---- */

static uint8_t record[VCPU_RECORD_LENGTH], io_a[VCPU_FRAME_LENGTH], io_b[VCPU_FRAME_LENGTH], msrs[VCPU_FRAME_LENGTH];
static uint8_t arguments[VCPU_SETUP_LENGTH], report[VCPU_REPORT_LENGTH];
static unsigned differing;

static uint64_t get(const uint8_t *bytes, unsigned at, unsigned size)
{
    uint64_t x = 0;

    while (size--)
        x = x << 8 | bytes[at + size];
    return x;
}

/* The header lets a host read and write the registers in the record itself. */
static uint64_t reg(unsigned i)
{
    return get(record, VCPU_OFFSET_REGS + 8 * i, 8);
}

static void set_reg(unsigned i, uint64_t x)
{
    put(record, VCPU_OFFSET_REGS + 8 * i, 8, x);
}

static uint64_t field(uint64_t encoding)
{
    uint64_t x = 0;

    vcpu_read_field(record, sizeof record, encoding, &x);
    return x;
}

/* From the record to the processor. */
static void carry(uint64_t encoding)
{
    vmwrite(encoding, field(encoding));
}

static void count_differing(void)
{
    uint64_t encoding, x = 0;

    for (encoding = 0; encoding < 0x8000; encoding++)
        if (vcpu_read_field(record, sizeof record, encoding, &x) == 0 && x != vmread(encoding))
            differing++;
}

/* ---- Setup ---- */

/* IA32_VMX_BASIC says whether the TRUE words may be read; where not, 0 is given for each. */
static void put_words(void)
{
    unsigned i, last = rdmsr(BASIC) >> 55 & 1 ? TRUE_ENTRY : SECONDARY;

    for (i = BASIC; i <= last; i++)
        put(arguments, VCPU_SETUP_MSRS + 8 * i, 8, rdmsr(i));
}

/* On a processor with the usual words but for this one. */
static uint32_t setup_on(unsigned place, uint64_t word)
{
    uint32_t number;

    memcpy(words, usual_words, sizeof words);
    words[place] = word;
    memset(arguments, 0, sizeof arguments);
    put_words();
    put(arguments, VCPU_SETUP_HOST_RIP, 8, 0xFFFF800000001000u);
    put(arguments, VCPU_SETUP_ENTRY, 8, 0x8000);
    put(arguments, VCPU_SETUP_EPT_ROOT, 8, 0x1FFF);
    put(arguments, VCPU_SETUP_XCR0_SUPPORTED, 8, SUPPORTED_XCR0);
    arguments[VCPU_SETUP_RDTSCP] = 1;
    number = vcpu_setup(record, sizeof record, arguments, sizeof arguments, io_a, sizeof io_a, io_b, sizeof io_b, msrs, sizeof msrs);
    if (number == 0) {
#define CARRY(group, name, encoding) carry(encoding);
        VCPU_SETUP_FIELDS(CARRY)
    }
    return number;
}

/* ---- What its frames trap ---- */

static void print_sheet(const char *when)
{
    static uint8_t sheet[VCPU_SHEET_LARGEST];
    uint64_t length = 0;

    printf("trap sheet %s: %" PRIu32 "\n", when,
           vcpu_trap_sheet(io_a, sizeof io_a, io_b, sizeof io_b, msrs, sizeof msrs, sheet, sizeof sheet, &length));
    fwrite(sheet, 1, (size_t)length, stdout);
}

/* The frames as the program trapsheet takes them; 0 where they are written. */
static int write_frames(const char *name)
{
    FILE *file = fopen(name, "wb");
    int written = file && fwrite(io_a, sizeof io_a, 1, file) && fwrite(io_b, sizeof io_b, 1, file) && fwrite(msrs, sizeof msrs, 1, file);

    return !file || fclose(file) || !written;
}

/* ---- Entries ---- */

/* Bit 11 says that an error code goes in. */
static void print_event(void)
{
    uint64_t word = vmread(VmcsControl32_VMENTRY_INTERRUPTION_INFO_FIELD);

    printf(" 0x%08" PRIX64, word);
    if (word >> 11 & 1)
        printf(" with code 0x%" PRIX64, vmread(VmcsControl32_VMENTRY_EXCEPTION_ERR_CODE));
}

static void enter(void)
{
    static const char *const events[] = {"no event", "event held", "event written"};
    uint8_t resumed = 0, event = 0;
    uint32_t number = vcpu_entry(record, sizeof record, 0xFFFF800000008000u, &resumed, &event);
    unsigned i;

    if (number) {
        printf("entry: refused %" PRIu32 "\n", number);
        return;
    }
    if (!resumed)
        carry(VmcsHostNW_RSP);
    if (event == VCPU_EVENT_HELD)
        carry(VmcsControl32_PRIMARY_PROCBASED_EXEC_CONTROLS);
    if (event == VCPU_EVENT_WRITTEN) {
        carry(VmcsControl32_VMENTRY_INTERRUPTION_INFO_FIELD);
        carry(VmcsControl32_VMENTRY_EXCEPTION_ERR_CODE);
        carry(VmcsControl32_VMENTRY_INSTRUCTION_LEN);
    }
    for (i = 0; i < 16; i++)
        guest[i] = reg(i);
    vcpu_get_xcr0(record, sizeof record, &xcr0);
    count_differing();
    printf("entry: %s, %s", resumed ? "VMRESUME" : "VMLAUNCH", events[event]);
    if (event == VCPU_EVENT_WRITTEN)
        print_event();
    printf("; the guest has RIP 0x%" PRIX64 ", RAX 0x%" PRIX64 ", XCR0 0x%" PRIX64 "\n", vmread(VmcsGuestNW_RIP), guest[RAX], xcr0);
}

/* ---- Exits ---- */

/* The parts of a report that are fields. */
static const struct {
    unsigned at, size;
    uint64_t encoding;
} reported[] = {
    {VCPU_REPORT_RIP, 8, VmcsGuestNW_RIP},
    {VCPU_REPORT_RSP, 8, VmcsGuestNW_RSP},
    {VCPU_REPORT_RFLAGS, 8, VmcsGuestNW_RFLAGS},
    {VCPU_REPORT_INTERRUPTIBILITY, 4, VmcsGuest32_INTERRUPTIBILITY_STATE},
    {VCPU_REPORT_CR0, 8, VmcsGuestNW_CR0},
    {VCPU_REPORT_CR3, 8, VmcsGuestNW_CR3},
    {VCPU_REPORT_CR4, 8, VmcsGuestNW_CR4},
    {VCPU_REPORT_EFER, 8, VmcsGuest64_IA32_EFER},
    {VCPU_REPORT_CS_BASE, 8, VmcsGuestNW_CS_BASE},
    {VCPU_REPORT_CS_RIGHTS, 4, VmcsGuest32_CS_ACCESS_RIGHTS},
    {VCPU_REPORT_SS_RIGHTS, 4, VmcsGuest32_SS_ACCESS_RIGHTS},
    {VCPU_REPORT_REASON, 4, VmcsReadOnly32_EXIT_REASON},
    {VCPU_REPORT_QUALIFICATION, 8, VmcsReadOnlyNW_EXIT_QUALIFICATION},
    {VCPU_REPORT_INSTRUCTION_LENGTH, 4, VmcsReadOnly32_VMEXIT_INSTRUCTION_LEN},
    {VCPU_REPORT_INTERRUPTION, 4, VmcsReadOnly32_VMEXIT_INTERRUPTION_INFO},
    {VCPU_REPORT_ERROR_CODE, 4, VmcsReadOnly32_VMEXIT_INTERRUPTION_ERR_CODE},
};

static void fill_report(void)
{
    unsigned i;

    for (i = 0; i < 16; i++)
        put(report, VCPU_REPORT_REGS + 8 * i, 8, guest[i]);
    for (i = 0; i < sizeof reported / sizeof reported[0]; i++)
        put(report, reported[i].at, reported[i].size, vmread(reported[i].encoding));
    /* CPUID of this processor: EAX of leaf 1, the other words 0 */
    put(report, VCPU_REPORT_CPUID_EAX, 4, guest[RAX] == 1 ? 0x000806EC : 0);
}

/* Writes what the report changed to the processor. */
static void carry_report(void)
{
    int cr0 = (vmread(VmcsReadOnlyNW_EXIT_QUALIFICATION) & 0xF) == 0;

    carry(VmcsGuestNW_RIP);
    switch (vmread(VmcsReadOnly32_EXIT_REASON) & 0xFFFF) {
    case 7:
        carry(VmcsControl32_PRIMARY_PROCBASED_EXEC_CONTROLS);
        break;
    case 28:
        carry(cr0 ? VmcsGuestNW_CR0 : VmcsGuestNW_CR4);
        carry(cr0 ? VmcsControlNW_CR0_READ_SHADOW : VmcsControlNW_CR4_READ_SHADOW);
        carry(cr0 ? VmcsControlNW_CR0_GUEST_HOST_MASK : VmcsControlNW_CR4_GUEST_HOST_MASK);
        if (cr0) {
            carry(VmcsGuest64_IA32_EFER);
            /* bit 9, IA-32e mode guest, is EFER.LMA */
            vmwrite(VmcsControl32_VMENTRY_CONTROLS, (field(VmcsControl32_VMENTRY_CONTROLS) & ~(uint64_t)0x200) | (field(VmcsGuest64_IA32_EFER) >> 10 & 1) << 9);
        }
        break;
    case 52:
        carry(VmcsGuest32_VMX_PREEMPTION_TIMER_VALUE);
        break;
    }
}

/* Past an instruction that the core leaves to the host. */
static void skip_instruction(void)
{
    vcpu_write_field(record, sizeof record, VmcsGuestNW_RIP, field(VmcsGuestNW_RIP) + vmread(VmcsReadOnly32_VMEXIT_INSTRUCTION_LEN));
    carry(VmcsGuestNW_RIP);
}

/* RAX after an IN: bytes beside the width stay for widths 1 and 2 and are 0 for width 4. */
static uint64_t after_in(uint64_t rax, uint64_t width, uint64_t value)
{
    uint64_t mask = ((uint64_t)1 << 8 * width) - 1;

    return width == 4 ? value & mask : (rax & ~mask) | (value & mask);
}

/* What the answer asks of the host. Its device reads as 0x5A5A5A5A, its hypercalls give 0, and of MSRs it has EFER alone. */
static void act(const uint64_t *answer)
{
    switch (answer[0]) {
    case VCPU_ANSWER_HYPERCALL:
        set_reg(RAX, 0);
        break;
    case VCPU_ANSWER_IO_READ:
        set_reg(RAX, after_in(reg(RAX), answer[2], 0x5A5A5A5A));
        break;
    case VCPU_ANSWER_SYS_REG_READ:
        set_reg(RAX, field(VmcsGuest64_IA32_EFER) & 0xFFFFFFFF);
        set_reg(RDX, field(VmcsGuest64_IA32_EFER) >> 32);
        skip_instruction();
        break;
    case VCPU_ANSWER_SYS_REG_WRITE:
        skip_instruction();
        break;
    case VCPU_ANSWER_APIC_READ:
        /* before the value is brought an entry is refused */
        enter();
        printf("APIC value: %" PRIu32 "\n", vcpu_apic_value(record, sizeof record, 0x123456789A));
        break;
    }
}

static void print_answer(const char *what, uint32_t number, const uint64_t *answer)
{
    static const char *const names[] = {"Nothing", "Hypercall", "IoRead", "IoWrite", "SystemDown", "ExternalInterrupt",
                                        "SysRegRead", "SysRegWrite", "ApicRead", "ApicWrite", "Halt", "FailEntry"};
    unsigned i, last = 0;

    if (number) {
        printf("%s: refused %" PRIu32 "\n", what, number);
        return;
    }
    for (i = 1; i < VCPU_ANSWER_WORDS; i++)
        if (answer[i])
            last = i;
    printf("%s: %s", what, names[answer[0]]);
    for (i = 1; i <= last; i++)
        printf(" 0x%" PRIX64, answer[i]);
    putchar('\n');
}

/* Hands the block in, carries what the report changed, and acts. */
static void hand_in(const char *what)
{
    uint64_t answer[VCPU_ANSWER_WORDS];
    uint32_t number = vcpu_exit_report(record, sizeof record, report, sizeof report, answer);

    print_answer(what, number, answer);
    if (number)
        return;
    carry_report();
    act(answer);
}

/* Tries the report before it is handed in. The answer is one at which the host leaves the record as the report left it, so that it is what the trial showed. */
static void try_and_hand_in(const char *what)
{
    static uint8_t shown[VCPU_RECORD_LENGTH];
    uint64_t answer[VCPU_ANSWER_WORDS];
    uint32_t number = vcpu_try_exit_report(record, sizeof record, shown, sizeof shown, report, sizeof report, answer);

    printf("trial of ");
    print_answer(what, number, answer);
    hand_in(what);
    printf("the record and the one that the trial showed: %s\n", memcmp(record, shown, sizeof record) ? "they differ" : "the same");
}

/* Up to an exit and its report. Neither entry nor exit loads XCR0: the host has put the guest's there, and puts back its own. */
static void run_until(const struct exit *e)
{
    enter();
    run_guest(e);
    xcr0 = HOST_XCR0;
    fill_report();
}

static void enter_and_report(const struct exit *e)
{
    run_until(e);
    hand_in(e->what);
}

/* ---- The guest's addresses ---- */

static void walk(const char *what, uint64_t address, uint8_t kind)
{
    uint64_t answer[3];
    uint32_t number = vcpu_page_walk(record, sizeof record, guest_memory, sizeof guest_memory, address, kind, answer);

    printf("walk of a %s at 0x%" PRIX64 ": ", what, address);
    if (number)
        printf("refused %" PRIu32 "\n", number);
    else if (answer[0] == VCPU_WALKED_ADDRESS)
        printf("address 0x%" PRIX64 "\n", answer[1]);
    else
        printf("fails at level %" PRIu64 " by rule %" PRIu64 "\n", answer[1], answer[2]);
}

/* ---- The run ---- */

static const struct exit window = {"interrupt window", 7, 0, 0, 0, 0};
static const struct exit power_off = {"OUT to port 0x604", 30, 0x06040001, 1, 0x2000, 0};
static const struct exit failed_entry = {"failed entry", 0x80000021, 0, 0, 0, 0};

static const struct exit exits[] = {
    {"CPUID leaf 1", 10, 0, 2, 1, 0},
    {"VMCALL", 18, 0, 3, 5, 7},
    {"IN of one byte of port 0x2F8", 30, 0x02F80008, 1, 0x1122334455667788, 0},
    {"IN of four bytes of port 0x2F8", 30, 0x02F8000B, 2, 0x1122334455667788, 0},
    {"OUT to port 0x2F8", 30, 0x02F80000, 1, 0x41, 0},
    {"RDMSR 0xC0000080", 31, 0, 2, 0, 0xC0000080},
    {"WRMSR 0xE1", 32, 0, 2, 7, 0xE1},
    {"RDMSR of an APIC register", 31, 0, 2, 0, 0x802},
    {"WRMSR of an APIC register", 32, 0, 2, 9, 0x80B},
    {"external interrupt", 1, 0, 0, 0, 0},
    {"preemption timer", 52, 0, 0, 0, 0},
    {"move to CR4", 28, 0x004, 3, 0x40020, 0},
    {"XSETBV of 7", 55, 0, 3, 7, 0},
    {"move to CR0", 28, 0x000, 3, 0x80000031, 0},
    {"HLT", 12, 0, 1, 0, 0},
    {"SIPI", 4, 0, 0, 0, 0},
};

static void prepare(void)
{
    printf("new: %" PRIu32 "\n", vcpu_new(record, sizeof record, io_a, sizeof io_a, io_b, sizeof io_b, msrs, sizeof msrs));
    printf("setup without EPT: refused %" PRIu32 "\n", setup_on(SECONDARY, 0x55CFEFFD00000000));
    /* Its plain primary word, 0x482, demands CR3-load and CR3-store exiting, which setup clears. */
    printf("setup on an older board, without TRUE words: refused %" PRIu32 "\n", setup_on(BASIC, 0x005A040000000004));
    printf("setup: %" PRIu32 "\n", setup_on(BASIC, usual_words[BASIC]));
    printf("CR0 0x%" PRIX64 ", its mask 0x%" PRIX64 ", EPT pointer 0x%" PRIX64 "\n", vmread(VmcsGuestNW_CR0), vmread(VmcsControlNW_CR0_GUEST_HOST_MASK),
           vmread(VmcsControl64_EPTP));
    print_sheet("after setup");
    /* The ports of a device that this host emulates (0x2F8 to 0x2FF, the second serial port), and reads of IA32_EFER. */
    printf("intercept ports 0x2F8 to 0x2FF: %" PRIu32 "\n", vcpu_set_io_intercept_of_range(io_a, sizeof io_a, io_b, sizeof io_b, 0x2F8, 8, 1));
    printf("intercept reads of MSR 0xC0000080: %" PRIu32 "\n", vcpu_set_read_intercept(msrs, sizeof msrs, 0xC0000080, 1));
    print_sheet("after these edits");
}

/* A report of a reason that no processor gives is refused, and the session runs on; the right report follows, tried first. */
static void report_twice(const struct exit *e)
{
    run_until(e);
    put(report, VCPU_REPORT_REASON, 4, 65);
    hand_in("reason 65");
    fill_report();
    try_and_hand_in(e->what);
}

static void print_counts(void)
{
    uint8_t phase = 0, launched = 0, waiting = 0;
    uint32_t entries = 0, held = 0;

    vcpu_get_counts(record, sizeof record, &phase, &launched, &waiting, &entries, &held);
    printf("phase %u, %u waiting, %" PRIu32 " entries, %" PRIu32 " held\n", phase, waiting, entries, held);
    printf("fields that differed from the record's at an entry: %u\n", differing);
}

static void page_fault(void)
{
    printf("page fault, code 2: %" PRIu32 "\n", vcpu_queue_event(record, sizeof record, 14, 1, 2));
}

/* The first argument, if there is one, names the file to which the frames go. */
int main(int argc, char **argv)
{
    unsigned i;

    prepare();
    if (argc > 1 && write_frames(argv[1]))
        return 1;
    /* Vector 32 is held while IF is clear, as it is after setup. */
    printf("interrupt 32: %" PRIu32 "\n", vcpu_inject_interrupt(record, sizeof record, 32));
    enter_and_report(&window);
    /* The guest is in real mode: the code does not go in. */
    page_fault();
    printf("breakpoint: %" PRIu32 "\n", vcpu_queue_event(record, sizeof record, 3, 0, 0));
    for (i = 0; i < sizeof exits / sizeof exits[0]; i++)
        enter_and_report(&exits[i]);
    printf("CR0 0x%" PRIX64 ", CR4 0x%" PRIX64 ", EFER 0x%" PRIX64 ", entry controls 0x%" PRIX64 "\n", vmread(VmcsGuestNW_CR0), vmread(VmcsGuestNW_CR4),
           vmread(VmcsGuest64_IA32_EFER), vmread(VmcsControl32_VMENTRY_CONTROLS));
    walk("read", 0x9ABC, VCPU_ACCESS_READ);
    walk("write", 0xA000, VCPU_ACCESS_WRITE);
    /* The guest has set PE: the code goes in. */
    page_fault();
    report_twice(&power_off);
    enter_and_report(&failed_entry);
    enter();
    print_counts();
    return differing != 0;
}
