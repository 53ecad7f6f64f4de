/* An entry: the core decides, the fields that it names go to the VMCS, and the guest runs until its next exit. */
#include "host.h"
#include "instructions.h"

struct guest_area guest_area __attribute__((aligned(16)));
/* Whether the current VMCS was launched: the processor's state, which VMCLEAR ends and the record does not follow. */
int launched;
/* The event of the last entry as the VMCS had it; none where it was a fault of the guest's instruction. */
uint64_t entered_with;
/* The word of the last event that an entry wrote, as the record had it before the exit cleared its bit 31. */
uint64_t last_word;
/* The guest's CR2, which is in no field. */
static uint64_t guest_cr2;

/*
 * INT3 and INTO (type 6) return to RIP plus the length, which the core takes from the last exit. RIP is past that exit's instruction already: the length is
 * to be 0, or where the processor takes no 0 (IA32_VMX_MISC bit 30), 1 from one byte before. In the VMCS alone.
 */
static void set_length(void)
{
    if (rdmsr(IA32_VMX_MISC) >> 30 & 1) {
        vmwrite(VmcsControl32_VMENTRY_INSTRUCTION_LEN, 0);
    } else {
        vmwrite(VmcsControl32_VMENTRY_INSTRUCTION_LEN, 1);
        vmwrite(VmcsGuestNW_RIP, field(VmcsGuestNW_RIP) - 1);
    }
}

static void carry_entry(uint8_t resumed, uint8_t event)
{
    if (!resumed)
        carry(VmcsHostNW_RSP);
    if (event == VCPU_EVENT_HELD)
        carry(VmcsControl32_PRIMARY_PROCBASED_EXEC_CONTROLS);
    if (event == VCPU_EVENT_WRITTEN) {
        carry(VmcsControl32_VMENTRY_INTERRUPTION_INFO_FIELD);
        carry(VmcsControl32_VMENTRY_EXCEPTION_ERR_CODE);
        carry(VmcsControl32_VMENTRY_INSTRUCTION_LEN);
    }
}

/*
 * A fault of the guest's present instruction. The queue would bring it too late: behind an interrupt that is held, or in the handler of one that goes in. It
 * goes into the VMCS alone; where the entry writes an event it does not, and the guest meets it again, since RIP is still at the instruction.
 */
static uint64_t fault;
static int fault_written;

void raise_fault(uint8_t vector)
{
    if (deviates(QUEUE_FAULT))
        queue(vector, 0, 0);
    else
        fault = INFO_VALID | INFO_HARDWARE_EXCEPTION | vector;
}

static void write_fault(uint8_t event)
{
    fault_written = fault && event != VCPU_EVENT_WRITTEN;
    if (fault_written) {
        vmwrite(VmcsControl32_VMENTRY_INTERRUPTION_INFO_FIELD, fault);
        tell("  fault written: word %x\n", fault);
    }
    fault = 0;
}

/* In the queue's order? The vectors that entries wrote are those that were queued, one by one. */
static void follow_order(void)
{
    last_word = field(VmcsControl32_VMENTRY_INTERRUPTION_INFO_FIELD);
    if ((uint8_t)last_word != queued[count.written % MANY_ROOM])
        count.out_of_order++;
    count.written++;
    tell("  event written: word %x, code %x, length %u\n", vmread(VmcsControl32_VMENTRY_INTERRUPTION_INFO_FIELD),
         vmread(VmcsControl32_VMENTRY_EXCEPTION_ERR_CODE), vmread(VmcsControl32_VMENTRY_INSTRUCTION_LEN));
}

/* After VMfail nothing is to be reported: the session runs on. Says whether the host has put right what may have been wrong, to try the instruction again. */
static int repair(int way, int *resume)
{
    static int dropped;
    uint64_t error = way == 2 ? vmread(VmcsReadOnly32_VM_INSTRUCTION_ERROR) : 0;

    tell("%s: VMfail%s, error %u\n", *resume ? "VMRESUME" : "VMLAUNCH", way == 1 ? "Invalid" : "Valid", error);
    if (*resume && error == 5) {
        repaired("VMfail 5, then VMLAUNCH");
        *resume = 0;
    } else if (error == 7 && field(VmcsControl64_EPTP) & EPTP_FLAGS && !(rdmsr(IA32_VMX_EPT_VPID_CAP) >> 21 & 1)) {
        repaired("VMfail 7, then without bit 6 of the EPT pointer");
        set_field(VmcsControl64_EPTP, field(VmcsControl64_EPTP) & ~EPTP_FLAGS);
    } else if (error == 7 && vmread(VmcsControl32_VMENTRY_INTERRUPTION_INFO_FIELD) & INFO_VALID && !dropped && !deviates(DIRTY_REGION)) {
        repaired("VMfail 7, then without the event");
        set_field(VmcsControl32_VMENTRY_INTERRUPTION_INFO_FIELD, 0);
        carry(VmcsGuestNW_RIP);
        dropped = 1;
    } else {
        ending("VMfail %u", error);
        return 0;
    }
    return 1;
}

/* XCR0 is in no field, and neither entry nor exit loads it. Where the processor has none, CR4 has no OSXSAVE. */
void load_xcr0(uint64_t x)
{
    if (read_cr4() & CR4_OSXSAVE)
        write_xcr0(x);
}

static int run_guest(uint8_t resumed)
{
    int resume = deviates(CORE_RESUME) ? resumed : launched, way;
    unsigned i;

    for (i = 0; i < 16; i++)
        guest_area.regs[i] = i == 4 ? 0 : reg(i);
    check_entry();
    if (!deviates(NO_XCR0))
        load_xcr0(guest_xcr0());
    write_cr2(guest_cr2);
    do {
        entered_with = fault_written ? 0 : vmread(VmcsControl32_VMENTRY_INTERRUPTION_INFO_FIELD);
        way = vm_enter(&guest_area, resume);
    } while (way && repair(way, &resume));
    guest_cr2 = read_cr2();
    write_cr2(0); /* as a page fault of the host would */
    if (!deviates(LEAVE_XCR0))
        load_xcr0(HOST_XCR0);
    /* an entry that fails, by VMfail or by bit 31 of the reason, leaves the VMCS as it was, clear or launched */
    if (!way && !(vmread(VmcsReadOnly32_EXIT_REASON) >> 31))
        launched = 1;
    return way;
}

int enter(void)
{
    uint8_t resumed = 0, event = 0;
    uint32_t number = vcpu_entry(record, sizeof record, (uint64_t)&guest_area.host_rsp, &resumed, &event);

    if (number)
        return ending("entry refused %d", number);
    carry_entry(resumed, event);
    if (deviates(FIELDS_AGAIN))
        carry_setup();
    if (!deviates(DIRTY_REGION))
        compare_fields();
    if (event == VCPU_EVENT_HELD) {
        count.held++;
        tell("  event held\n");
    }
    if (event == VCPU_EVENT_WRITTEN) {
        if (INFO_SOFTWARE_EXCEPTION(field(VmcsControl32_VMENTRY_INTERRUPTION_INFO_FIELD)) && !deviates(EXIT_LENGTH))
            set_length();
        follow_order();
    }
    write_fault(event);
    return run_guest(resumed);
}
