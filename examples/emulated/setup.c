/* The session: the block of setup from the processor, and which bits of the capability words decide what setup says. */
#include "host.h"
#include "instructions.h"

#define PAGE __attribute__((aligned(4096)))

PAGE uint8_t io_a[VCPU_FRAME_LENGTH], io_b[VCPU_FRAME_LENGTH], msrs[VCPU_FRAME_LENGTH];
uint64_t host_pat;
static uint8_t block[VCPU_SETUP_LENGTH];
/* The capability words of the block, by their places there. */
enum { BASIC, PIN, PRIMARY, EXIT, ENTRY, SECONDARY = 9, TRUE_PIN, TRUE_PRIMARY, TRUE_EXIT, TRUE_ENTRY, WORDS };
static const uint16_t word_msr[WORDS] = {0x480, 0x481, 0x482, 0x483, 0x484, 0x486, 0x487, 0x488, 0x489, 0x48B, 0x48D, 0x48E, 0x48F, 0x490};
static uint64_t words[WORDS];

/*
 * RDMSR of a capability word. No model of the emulator lacks 0x48D to 0x490, so for a board that does the host stands in: bit 55 of 0x480 is clear, and to read
 * one of the four is to read an MSR that no processor has, which faults.
 */
static uint64_t board_word(unsigned i)
{
    if (!deviates(OLDER_BOARD))
        return rdmsr(word_msr[i]);
    if (i >= TRUE_PIN)
        return rdmsr(NO_MSR);
    return i == BASIC ? rdmsr(IA32_VMX_BASIC) & ~BASIC_TRUE_WORDS : rdmsr(word_msr[i]);
}

/* MSR 0x48B is there where bit 63 of 0x482 is set, 0x48D to 0x490 are where bit 55 of 0x480 is (SDM 3D, A.2 and A.3). Both words are read before these. */
static int is_there(unsigned i)
{
    if (i == SECONDARY)
        return words[PRIMARY] >> 63;
    return i < TRUE_PIN || words[BASIC] & BASIC_TRUE_WORDS || deviates(READ_TRUE_WORDS);
}

/* The words by number, 0x480 first. One that is not there is not read, and setup gets 0 for it. */
static void read_words(void)
{
    unsigned i;

    for (i = 0; i < WORDS; i++) {
        words[i] = is_there(i) ? board_word(i) : 0;
        say("msr %x: %x\n", (uint64_t)word_msr[i], words[i]);
    }
    say("msr %x: %x\n", (uint64_t)IA32_VMX_MISC, rdmsr(IA32_VMX_MISC));
    /* 0x48C is there where the processor offers EPT or VPID, secondary controls 1 and 5. */
    if (words[SECONDARY] >> 32 & 0x22)
        say("msr %x: %x\n", (uint64_t)IA32_VMX_EPT_VPID_CAP, rdmsr(IA32_VMX_EPT_VPID_CAP));
}

/* Words stand in the block as in memory, least significant byte first. */
static void put_words(const uint64_t *given)
{
    _Static_assert(VCPU_SETUP_MSRS + sizeof words == VCPU_SETUP_XCR0_SUPPORTED, "the block has as many words");
    memcpy(block + VCPU_SETUP_MSRS, given, sizeof words);
}

/* The host's state, to which an exit returns. FS and GS have the selector 0. */
static void put_host(void)
{
    host_pat = rdmsr(IA32_PAT);
    put(block, VCPU_SETUP_HOST_PAT, 8, host_pat);
    put(block, VCPU_SETUP_HOST_EFER, 8, rdmsr(IA32_EFER));
    put(block, VCPU_SETUP_HOST_CR0, 8, read_cr0());
    put(block, VCPU_SETUP_HOST_CR3, 8, read_cr3());
    put(block, VCPU_SETUP_HOST_CR4, 8, read_cr4());
    put(block, VCPU_SETUP_HOST_ES, 2, HOST_DATA);
    put(block, VCPU_SETUP_HOST_CS, 2, HOST_CS);
    put(block, VCPU_SETUP_HOST_SS, 2, HOST_DATA);
    put(block, VCPU_SETUP_HOST_DS, 2, HOST_DATA);
    put(block, VCPU_SETUP_HOST_TR, 2, HOST_TR);
    put(block, VCPU_SETUP_HOST_FS_BASE, 8, rdmsr(IA32_FS_BASE));
    put(block, VCPU_SETUP_HOST_GS_BASE, 8, rdmsr(IA32_GS_BASE));
    put(block, VCPU_SETUP_HOST_TR_BASE, 8, (uint64_t)tss);
    put(block, VCPU_SETUP_HOST_GDTR_BASE, 8, (uint64_t)gdt);
    put(block, VCPU_SETUP_HOST_IDTR_BASE, 8, (uint64_t)idt);
    put(block, VCPU_SETUP_HOST_RIP, 8, (uint64_t)vm_exit);
}

static void put_guest(uint64_t rip)
{
    put(block, VCPU_SETUP_ENTRY, 8, rip);
    put(block, VCPU_SETUP_GUEST_PAT, 8, GUEST_PAT);
    put(block, VCPU_SETUP_EPT_ROOT, 8, lay_memory());
    put(block, VCPU_SETUP_IO_BITMAP_A, 8, (uint64_t)io_a);
    put(block, VCPU_SETUP_IO_BITMAP_B, 8, (uint64_t)io_b);
    put(block, VCPU_SETUP_MSR_BITMAPS, 8, (uint64_t)msrs);
}

/* The bits that XCR0 may have (SDM 1, 13.3): none where there is no XCR0. */
uint64_t offered_xcr0(void)
{
    uint32_t r[4];

    if (!has_xsave())
        return 0;
    cpuid(0xD, 0, r);
    return (uint64_t)r[3] << 32 | r[0];
}

/* The supported word of setup. */
uint64_t supported_xcr0(void)
{
    if (deviates(ALL_XCR0))
        return ~0ull;
    return deviates(FEWER_XCR0) ? offered_xcr0() & HOST_XCR0 : offered_xcr0();
}

/* What CPUID offers: bits of XCR0; whether there are RDTSCP, INVPCID and XSAVES (SDM 2A, CPUID). */
static void put_offers(void)
{
    uint32_t r[4], last;

    say("xcr0: %x\n", offered_xcr0());
    put(block, VCPU_SETUP_XCR0_SUPPORTED, 8, supported_xcr0());
    cpuid(0x80000001, 0, r);
    block[VCPU_SETUP_RDTSCP] = r[3] >> 27 & 1;
    cpuid(0, 0, r);
    last = r[0];
    if (last >= 7) {
        cpuid(7, 0, r);
        block[VCPU_SETUP_INVPCID] = r[1] >> 10 & 1;
    }
    if (last >= 0xD) {
        cpuid(0xD, 1, r);
        block[VCPU_SETUP_XSAVES] = r[0] >> 3 & 1;
    }
}

/* ---- Which bits decide ---- */

/* The words whose pairs are used where bit 55 of 0x480 is clear and where it is set, in the order in which setup judges them. */
static const unsigned used_words[2][5] = {{PIN, PRIMARY, SECONDARY, EXIT, ENTRY}, {TRUE_PIN, TRUE_PRIMARY, SECONDARY, TRUE_EXIT, TRUE_ENTRY}};
/* A word all of whose bits are free: allowed-1 is the high half, allowed-0 the low one. */
#define FREE 0xFFFFFFFF00000000

static const unsigned *used(void)
{
    return used_words[(words[BASIC] & BASIC_TRUE_WORDS) != 0];
}

/* What setup says of a new session with these words. */
static uint32_t ask(const uint64_t *given)
{
    static uint8_t new_record[VCPU_RECORD_LENGTH], a[VCPU_FRAME_LENGTH], b[VCPU_FRAME_LENGTH], m[VCPU_FRAME_LENGTH];

    put_words(given);
    memset(new_record, 0, sizeof new_record); /* as vcpu_new leaves it */
    return vcpu_setup(new_record, sizeof new_record, block, sizeof block, a, sizeof a, b, sizeof b, m, sizeof m);
}

/* The same of the processor's words on a board without 0x48D to 0x490. */
static uint32_t ask_as_older_board(void)
{
    uint64_t given[WORDS];

    memcpy(given, words, sizeof given);
    given[BASIC] &= ~BASIC_TRUE_WORDS;
    memset(given + TRUE_PIN, 0, sizeof given - TRUE_PIN * sizeof given[0]);
    return ask(given);
}

/* The same where all five words used are free, but for this one. */
static uint32_t trial(unsigned which, uint64_t value)
{
    uint64_t given[WORDS];
    unsigned i;

    memcpy(given, words, sizeof given);
    for (i = 0; i < 5; i++)
        given[used()[i]] = used()[i] == which ? value : FREE;
    return ask(given);
}

/* Asks the core bit by bit: is it to be set, or clear, and is it as the processor has it a reason to refuse? */
static void list_bits(unsigned which)
{
    uint64_t msr = word_msr[which];
    unsigned bit;

    for (bit = 0; bit < 32; bit++) {
        uint64_t allowed0 = 1ull << bit, allowed1 = allowed0 << 32;

        if (trial(which, FREE & ~allowed1) == VCPU_REFUSED_SET)
            say("to set: %x %d\n", msr, bit);
        if (trial(which, FREE | allowed0) == VCPU_REFUSED_CLEAR)
            say("to clear: %x %d\n", msr, bit);
        if (trial(which, (FREE & ~allowed1) | (words[which] & (allowed0 | allowed1))))
            say("cause: %x %d\n", msr, bit);
    }
}

static void list_words(void)
{
    unsigned i;

    for (i = 0; i < 5; i++)
        list_bits(used()[i]);
}

/* ---- The session ---- */

/*
 * The ports of a device that this host emulates (those of the second serial port, 0x2F8 to 0x2FF), and reads of IA32_EFER. Besides, to be seen on the sheet,
 * ports in both frames, which are one run, and reads of the last MSR of the low range and the first of the high one, which are two.
 */
static void add_intercepts(void)
{
    check("an edit of ports", vcpu_set_io_intercept_of_range(io_a, sizeof io_a, io_b, sizeof io_b, SERIAL, 8, 1), 0);
    check("an edit of ports", vcpu_set_io_intercept_of_range(io_a, sizeof io_a, io_b, sizeof io_b, 0x7FFE, 4, 1), 0);
    check("an edit of MSRs", vcpu_set_read_intercept(msrs, sizeof msrs, IA32_EFER, 1), 0);
    check("an edit of MSRs", vcpu_set_read_intercept(msrs, sizeof msrs, LOW_MSRS_LAST, 1), 0);
    check("an edit of MSRs", vcpu_set_read_intercept(msrs, sizeof msrs, HIGH_MSRS_FIRST, 1), 0);
}

/*
 * What setup leaves that this processor or this host has otherwise: accessed and dirty flags of the EPT, where the processor lacks them; and the host's
 * SYSENTER, which setup writes as 0 and each exit loads.
 */
static void mend_setup(void)
{
    if (!(rdmsr(IA32_VMX_EPT_VPID_CAP) >> 21 & 1) && !deviates(KEEP_EPT_FLAGS)) {
        say("EPT pointer: bit 6 cleared\n");
        set_field(VmcsControl64_EPTP, field(VmcsControl64_EPTP) & ~EPTP_FLAGS);
    }
    if (!deviates(ZERO_SYSENTER)) {
        set_field(VmcsHost32_IA32_SYSENTER_CS, rdmsr(IA32_SYSENTER_CS));
        set_field(VmcsHostNW_IA32_SYSENTER_ESP, rdmsr(IA32_SYSENTER_ESP));
        set_field(VmcsHostNW_IA32_SYSENTER_EIP, rdmsr(IA32_SYSENTER_EIP));
    }
}

/* Makes the session and carries it to the VMCS. Where setup refuses, the run ends here. */
void make_session(uint64_t guest)
{
    uint32_t number;

    read_words();
    put_words(words);
    put_host();
    put_guest(guest);
    put_offers();
    vcpu_new(record, sizeof record, io_a, sizeof io_a, io_b, sizeof io_b, msrs, sizeof msrs);
    number = vcpu_setup(record, sizeof record, block, sizeof block, io_a, sizeof io_a, io_b, sizeof io_b, msrs, sizeof msrs);
    say("setup: %d\n", number);
    say("setup with bit 55 clear: %d\n", ask_as_older_board());
    list_words();
    if (number) {
        ending("setup refused %d", number);
        stop();
    }
    print_sheet("after setup");
    add_intercepts();
    if (!deviates(EARLY_SHEET))
        print_sheet("after the host's edits");
    find_fields();
    carry_setup();
    carry_others();
    mend_setup();
}
