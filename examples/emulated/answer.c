/* What the host does at each answer. Its device reads as 0xA5B6C75A, its local APIC as 0x123456789A, its MSRs as below. */
#include "host.h"
#include "instructions.h"

#define DEVICE_READS 0xA5B6C75A
#define APIC_READS 0x123456789A
#define MSR_READS_LOW 0x11223344
#define MSR_READS_HIGH 0xAABBCCDD

/* The vector to be queued at the next exit that completes nothing, and whether interrupts come at random. */
static uint64_t at_next;
static int random;

/* ---- Events ---- */

static void queued_or_not(uint8_t vector, uint32_t number)
{
    tell("  queue %x: %d\n", (uint64_t)vector, number);
    if (number)
        count.refused++;
    else
        queued[count.queued++ % MANY_ROOM] = vector;
}

void queue(uint8_t vector, uint8_t coded, uint32_t code)
{
    queued_or_not(vector, vcpu_queue_event(record, sizeof record, vector, coded, code));
}

void inject(uint64_t vector)
{
    queued_or_not((uint8_t)vector, vcpu_inject_interrupt(record, sizeof record, vector));
}

/* In protected mode vector 21 has a code, with which the entry is VMfail 7 where bit 56 of IA32_VMX_BASIC is clear (SDM 3C, 27.2.1.3; 3D, A.1). */
static int takes(uint8_t vector)
{
    return vector != 21 || rdmsr(IA32_VMX_BASIC) & BASIC_ANY_CODE || deviates(QUEUE_21);
}

/* An NMI goes in at once, and the processor takes none while STI or MOV SS blocks: it waits for an exit where neither does. */
static int late_nmi;

void queue_nmi(void)
{
    late_nmi = field(VmcsGuest32_INTERRUPTIBILITY_STATE) & BLOCKING_STI_MOV_SS && !deviates(NMI_AT_ONCE);
    if (!late_nmi)
        queue(2, 0, 0);
}

void queue_late_nmi(void)
{
    if (late_nmi)
        queue_nmi();
}

/* The same numbers on every run. */
static uint32_t draw(uint32_t below)
{
    static uint32_t seed = 1;

    seed = seed * 1664525 + 1013904223;
    return (seed >> 16) % below;
}

static void queue_some(void)
{
    unsigned n = draw(3) ? 0 : draw(6);

    random = 1;
    while (n--)
        inject(0x20 + draw(16));
    if (!draw(8))
        start_timer();
}

/* ---- Hypercalls ---- */

static void check_arguments(const uint64_t *answer)
{
    check("RDI, RSI, RDX, RCX", answer[2] << 12 | answer[3] << 8 | answer[4] << 4 | answer[5], 0x1234);
    if (field(VmcsGuest64_IA32_EFER) & EFER_LMA) {
        check("R8", answer[6], ARGUMENT_R8);
        check("R9", answer[7], ARGUMENT_R9);
    }
}

static uint64_t waiting(void)
{
    uint8_t phase, was_launched, n = 0;
    uint32_t entries, held;

    vcpu_get_counts(record, sizeof record, &phase, &was_launched, &n, &entries, &held);
    return n;
}

/* Setup leaves the VMX-preemption timer off: the host turns it on by a raw write of a control word, after which demand 3 claims no permitted words. */
static void activate_timer(void)
{
    set_field(VmcsControl32_PINBASED_EXEC_CONTROLS, field(VmcsControl32_PINBASED_EXEC_CONTROLS) | PIN_PREEMPTION_TIMER);
    set_field(VmcsGuest32_VMX_PREEMPTION_TIMER_VALUE, 1000);
}

static void use_another(void)
{
    if (!deviates(NOT_COPIED)) {
        copy_vmcs();
        return;
    }
    load_vmcs(1);
    carry_setup();
    carry_others();
}

static void hypercall(const uint64_t *answer)
{
    switch (answer[1]) {
    case CALL_ARGUMENTS:
        check_arguments(answer);
        break;
    case CALL_QUEUE:
        if (takes((uint8_t)answer[2]))
            queue((uint8_t)answer[2], (uint8_t)answer[3], (uint32_t)answer[4]);
        break;
    case CALL_TIMER:
        start_timer();
        break;
    case CALL_MODE:
        check_mode(answer[2], answer[3]);
        break;
    case CALL_SOME:
        queue_some();
        break;
    case CALL_WAITING:
        set_reg(RAX, waiting());
        break;
    case CALL_MOVE:
        load_vmcs(0);
        break;
    case CALL_ANOTHER:
        use_another();
        break;
    case CALL_PREEMPTION:
        activate_timer();
        break;
    case CALL_AT_NEXT:
        at_next = answer[2];
        break;
    }
}

/* ---- Ports, MSRs, interrupts ---- */

/* RAX after an IN: bytes beside the width stay for widths 1 and 2, and are 0 for width 4. Ports but the first read as all ones. */
static void answer_in(uint64_t port, uint64_t width)
{
    uint64_t mask = (1ull << 8 * width) - 1;

    set_reg(RAX, (width == 4 ? 0 : reg(RAX) & ~mask) | ((port == SERIAL ? DEVICE_READS : ~0ull) & mask));
}

/* What guests send and ask for. One that names its accesses is held to those instead (sheet.c). */
static void check_unnamed(const char *what, uint64_t is, uint64_t should)
{
    if (!memory[ACCESS])
        check(what, is, should);
}

/* What the main guest sends: 1, 2 and 4 bytes, to the first three ports. */
static void check_out(uint64_t port, uint64_t width, uint64_t data)
{
    if (port == SERIAL + 7)
        return;
    check("port of OUT", port, SERIAL + width / 2);
    check("data of OUT", data, 0x11223341 & ((1ull << 8 * width) - 1));
}

/* Past an instruction that the core leaves to the host. */
static void step(void)
{
    set_field(VmcsGuestNW_RIP, field(VmcsGuestNW_RIP) + vmread(VmcsReadOnly32_VMEXIT_INSTRUCTION_LEN));
}

static void answer_rdmsr(uint64_t msr)
{
    check_unnamed("MSR of RDMSR", msr, IA32_EFER);
    set_reg(RAX, MSR_READS_LOW);
    set_reg(RDX, MSR_READS_HIGH);
    step();
}

static void answer_wrmsr(uint64_t msr, uint64_t value)
{
    check_unnamed("MSR of WRMSR", msr, 0xE1);
    check_unnamed("value of WRMSR", value, 0x1155667788);
    step();
}

static void answer_apic_read(uint64_t msr)
{
    check_unnamed("APIC register that is read", msr, 0x802);
    check("APIC value", vcpu_apic_value(record, sizeof record, APIC_READS), 0);
}

static void answer_apic_write(uint64_t msr, uint64_t value)
{
    check_unnamed("APIC register that is written", msr, 0x80B);
    check_unnamed("value for the APIC", value, 9);
}

/* The machine's timer, which the host takes; what it means to the guest is queued. */
static void interrupt(uint64_t vector)
{
    check("vector of the timer", vector, 0x40);
    end_of_interrupt();
    count.ticks++;
    inject(random ? 0x20 + draw(16) : 0x22);
}

/* ---- Exits that the core leaves to the host ---- */

static void queue_at_next(void)
{
    if (at_next == 2)
        queue_nmi();
    else if (at_next)
        inject(at_next);
    at_next = 0;
}

static int halted(uint32_t reason)
{
    uint64_t info = vmread(VmcsReadOnly32_VMEXIT_INTERRUPTION_INFO);

    switch (reason) {
    case EXIT_EXCEPTION:
        if ((uint8_t)info != 6)
            break;
        queue_at_next();
        raise_fault(6);
        return 0;
    case EXIT_IO: /* a string instruction; RIP is past it */
        return 0;
    case EXIT_EPT_VIOLATION:
        tell("  EPT violation at %x\n", vmread(VmcsReadOnly64_GUEST_PHYSICAL_ADDR));
        if (vmread(VmcsReadOnly64_GUEST_PHYSICAL_ADDR) / 4096 != HOLE / 4096 || !map_hole())
            break;
        queue_at_next();
        return 0;
    }
    return ending("Halt at reason %d, interruption information %x", reason, info);
}

static int last(const uint64_t *answer, uint32_t reason)
{
    switch (answer[0]) {
    case VCPU_ANSWER_SYSTEM_DOWN:
        return finished();
    case VCPU_ANSWER_HALT:
        return halted(reason);
    case VCPU_ANSWER_FAIL_ENTRY:
        return ending("entry failed, reason %d", reason & 0xFFFF);
    default:
        return ending("no such answer: %u", answer[0]);
    }
}

/* 0 where the guest is to run on. */
int act(const uint64_t *answer, uint32_t reason)
{
    switch (answer[0]) {
    case VCPU_ANSWER_NOTHING:
        if (reason == EXIT_PREEMPTION_TIMER)
            memory[FLAG] = 1;
        return 0;
    case VCPU_ANSWER_HYPERCALL:
        hypercall(answer);
        return 0;
    case VCPU_ANSWER_IO_READ:
        answer_in(answer[1], answer[2]);
        return 0;
    case VCPU_ANSWER_IO_WRITE:
        check_out(answer[1], answer[2], answer[3]);
        return 0;
    case VCPU_ANSWER_EXTERNAL_INTERRUPT:
        interrupt(answer[1]);
        return 0;
    case VCPU_ANSWER_SYS_REG_READ:
        answer_rdmsr(answer[1]);
        return 0;
    case VCPU_ANSWER_SYS_REG_WRITE:
        answer_wrmsr(answer[1], answer[2]);
        return 0;
    case VCPU_ANSWER_APIC_READ:
        answer_apic_read(answer[1]);
        return 0;
    case VCPU_ANSWER_APIC_WRITE:
        answer_apic_write(answer[1], answer[2]);
        return 0;
    default:
        return last(answer, reason);
    }
}
