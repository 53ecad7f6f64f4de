/* The record, and what is carried between it and the VMCS: after setup its 93 fields, later the fields that the header names after each call. */
#include "host.h"
#include "instructions.h"

uint8_t record[VCPU_RECORD_LENGTH];

void put(uint8_t *bytes, unsigned at, unsigned size, uint64_t x)
{
    for (; size--; at++, x >>= 8)
        bytes[at] = (uint8_t)x;
}

uint64_t field(uint64_t encoding)
{
    uint64_t x = 0;

    vcpu_read_field(record, sizeof record, encoding, &x);
    return x;
}

/* A raw write, in the record and in the VMCS. */
void set_field(uint64_t encoding, uint64_t x)
{
    check("a raw field write", vcpu_write_field(record, sizeof record, encoding, x), 0);
    carry(encoding);
}

uint64_t reg(unsigned i)
{
    uint64_t x = 0;

    vcpu_get_reg_of_index(record, sizeof record, i, &x);
    return x;
}

void set_reg(unsigned i, uint64_t x)
{
    check("a register write", vcpu_set_reg_of_index(record, sizeof record, i, x), 0);
}

/* 1 after setup, then what the guest's last XSETBV brought. */
uint64_t guest_xcr0(void)
{
    uint64_t x = 0;

    vcpu_get_xcr0(record, sizeof record, &x);
    return x;
}

/* From the record to the VMCS. */
void carry(uint64_t encoding)
{
    if (vmwrite(encoding, field(encoding)))
        check("VMWRITE failed: field", encoding, 0);
}

void carry_setup(void)
{
#define CARRY(group, name, encoding) carry(encoding);
    VCPU_SETUP_FIELDS(CARRY)
}

/* Fields that no call names and an entry or the guest meets: 0 in the record, and in the VMCS what its region happened to hold. */
void carry_others(void)
{
    if (!deviates(NO_EVENT_FIELD))
        carry(VmcsControl32_VMENTRY_INTERRUPTION_INFO_FIELD);
    if (!deviates(NO_PAGE_FAULT_WORDS)) {
        carry(VmcsControl32_PAGEFAULT_ERR_CODE_MASK);
        carry(VmcsControl32_PAGEFAULT_ERR_CODE_MATCH);
    }
    if (field(VmcsControl32_SECONDARY_PROCBASED_EXEC_CONTROLS) & SECONDARY_XSAVES && !deviates(NO_XSS_BITMAP))
        carry(VmcsControl64_XSS_EXITING_BITMAP);
}

/* To another VMCS: all that the old one holds, since the record has most of the guest's fields as setup wrote them. */
void copy_vmcs(void)
{
    static uint64_t values[0x4000];
    static uint8_t has[0x4000];
    unsigned i;

    for (i = 0; i < 0x4000; i++)
        has[i] = (i >> 9 & 3) != 1 && !vmread_to(2 * i, &values[i]);
    load_vmcs(1);
    for (i = 0; i < 0x4000; i++)
        if (has[i])
            vmwrite(2 * i, values[i]);
}

/* ---- Record and VMCS compared, before each entry ---- */

/* The fields that both have and a host can write, and those of them that were found stale. */
static uint16_t both[154], stale[154];
static unsigned both_count, stale_count;

void find_fields(void)
{
    uint64_t x;
    uint16_t encoding;

    for (encoding = 0; encoding < 0x8000; encoding += 2)
        if ((encoding >> 10 & 3) != 1 && !vcpu_read_field(record, sizeof record, encoding, &x) && !vmread_to(encoding, &x))
            both[both_count++] = encoding;
}

/* Whether record and VMCS are to agree on a field: on those of controls and host, and of the guest's on those that a report brings or a call writes. */
static int alive(uint16_t encoding)
{
    switch (encoding) {
    case VmcsGuestNW_RIP:
    case VmcsGuestNW_RSP:
    case VmcsGuestNW_RFLAGS:
    case VmcsGuest32_INTERRUPTIBILITY_STATE:
    case VmcsGuestNW_CR0:
    case VmcsGuestNW_CR3:
    case VmcsGuestNW_CR4:
    case VmcsGuest64_IA32_EFER:
    case VmcsGuestNW_CS_BASE:
    case VmcsGuest32_CS_ACCESS_RIGHTS:
    case VmcsGuest32_SS_ACCESS_RIGHTS:
    case VmcsGuest32_VMX_PREEMPTION_TIMER_VALUE:
        return 1;
    default:
        return (encoding >> 10 & 3) != 2;
    }
}

/* The bits in which they may differ: the processor changes them, or the host does in the VMCS alone (entry.c, exit.c). */
static uint64_t apart(uint16_t encoding)
{
    switch (encoding) {
    case VmcsControl32_VMENTRY_CONTROLS:
        return ENTRY_IA32E_GUEST;
    case VmcsGuest32_INTERRUPTIBILITY_STATE:
        return ~(uint64_t)BLOCKING_STI_MOV_SS;
    case VmcsControl32_VMENTRY_INTERRUPTION_INFO_FIELD:
        return ~INFO_VALID;
    case VmcsControl32_VMENTRY_INSTRUCTION_LEN:
        return ~0ull;
    default:
        return 0;
    }
}

void compare_fields(void)
{
    uint64_t its;
    unsigned i;

    for (i = 0; i < both_count; i++) {
        its = vmread(both[i]);
        if (!((field(both[i]) ^ its) & ~apart(both[i])))
            continue;
        tell("  field %x: record %x, VMCS %x\n", (uint64_t)both[i], field(both[i]), its);
        if (alive(both[i]))
            check("record and VMCS differ in a field that is alive", both[i], 0);
        stale[stale_count++] = both[i];
        both[i--] = both[--both_count];
    }
}

void list_stale_fields(void)
{
    unsigned i;

    say("stale:");
    for (i = 0; i < stale_count; i++)
        say(" %x", (uint64_t)stale[i]);
    say("\n");
}
