/*
 * Exit reports, from C: 400,000 calls (or as many as the first argument says) of every reason on records in every phase and on wrong blocks,
 * each against a model written from documents 01 and 02 and the manual. Every byte of the record and every word of the answer is compared; the
 * calls that got each number and each answer are counted and printed, and for XSETBV the values that break each clause of its rule alone.
 */
#include "x86_vcpu.h"

#define TEST "report"
#include "model.h"

enum { BLOCK = VCPU_REPORT_LENGTH, WORDS = VCPU_ANSWER_WORDS };

/* Encodings of the fields that a report reads or writes (SDM 3D, appendix B). */
enum {
    PRIMARY = 0x4002,
    ENTRY_CONTROLS = 0x4012,
    ENTRY_INFO = 0x4016,
    EXIT_REASON = 0x4402,
    EXIT_INFO = 0x4404,
    EXIT_CODE = 0x4406,
    EXIT_LENGTH = 0x440C,
    CS_RIGHTS = 0x4816,
    SS_RIGHTS = 0x4818,
    INTERRUPTIBILITY = 0x4824,
    TIMER = 0x482E,
    EFER = 0x2806,
    CR0_MASK = 0x6000,
    CR4_MASK = 0x6002,
    CR0_SHADOW = 0x6004,
    CR4_SHADOW = 0x6006,
    QUALIFICATION = 0x6400,
    CR0 = 0x6800,
    CR3 = 0x6802,
    CR4 = 0x6804,
    CS_BASE = 0x6808,
    RSP = 0x681C,
    RIP = 0x681E,
    RFLAGS = 0x6820
};

/* The place of the entry controls among the kept pairs. */
enum { ENTRY_PAIR = 4 };

/* Offsets of the block: the bytes with bit 31 of the reason and of the interruption information, and a register. */
enum { REASON_TOP = VCPU_REPORT_REASON + 3, INTERRUPTION_TOP = VCPU_REPORT_INTERRUPTION + 3 };
#define REG_AT(i) (VCPU_REPORT_REGS + 8 * (i))

/* ---- the model ---- */

static const uint8_t *p; /* the block */

static uint64_t reg(unsigned i)
{
    return get(p, REG_AT(i), 8);
}

static uint32_t reason(void)
{
    return (uint32_t)get(p, VCPU_REPORT_REASON, 2);
}

static int failed(void)
{
    return p[REASON_TOP] >> 7;
}

static int apic(void)
{
    return (uint32_t)reg(1) >= 0x800 && (uint32_t)reg(1) <= 0x8FF;
}

static int move_to(unsigned n)
{
    return (p[VCPU_REPORT_QUALIFICATION] & 0x3F) == n;
}

static uint64_t edx_eax(void)
{
    return reg(2) << 32 | (uint32_t)reg(0);
}

static uint64_t moved(void)
{
    unsigned i = p[VCPU_REPORT_QUALIFICATION + 1] & 15;

    return i == 4 ? get(p, VCPU_REPORT_RSP, 8) : reg(i);
}

static uint64_t advance(void)
{
    switch (reason()) {
    case 10:
        return 2;
    case 28:
    case 55:
        return 3;
    case 18:
    case 30:
        return p[VCPU_REPORT_INSTRUCTION_LENGTH];
    case 31:
    case 32:
        return apic() ? 2 : 0;
    }
    return 0;
}

/* A move to CR0 that sets PG, unless LME and LMA are both set. */
static int enters_long_mode(void)
{
    return reason() == 28 && move_to(0) && moved() >> 31 & 1 && (get(p, VCPU_REPORT_EFER, 8) & 0x500) != 0x500;
}

/* The clauses of the rule of XCR0, (a) to (g). */
enum { CLAUSES = 7 };

/* The clauses that a value breaks: bit 0 for (a), and so on. */
static unsigned breaks(uint64_t supported, uint64_t value)
{
    unsigned mpx = value >> 3 & 3, avx512 = value >> 5 & 7, amx = value >> 17 & 3, broken = 0;

    broken |= (unsigned)!(value & 1);                       /* (a) x87 is set */
    broken |= (unsigned)((value & 6) == 4) << 1;            /* (b) AVX comes with SSE */
    broken |= (unsigned)(mpx != 0 && mpx != 3) << 2;        /* (c) bits 3 and 4 are equal */
    broken |= (unsigned)(avx512 != 0 && avx512 != 7) << 3;  /* (d) bits 5, 6 and 7 are equal */
    broken |= (unsigned)(avx512 == 7 && !(value & 4)) << 4; /* (e) and come with AVX */
    broken |= (unsigned)(amx != 0 && amx != 3) << 5;        /* (f) bits 17 and 18 are equal */
    broken |= (unsigned)((value & ~supported) != 0) << 6;   /* (g) no bit is set that is not supported */
    return broken;
}

static uint32_t model_number(const uint8_t *r)
{
    uint32_t n = reason();

    if (r[R_PHASE] != VCPU_RUNNING)
        return 1;
    if (n > 64 || n == 35 || n == 38 || n == 42 || (failed() && n != 33 && n != 34 && n != 41))
        return 14;
    if (failed())
        return 0;
    if (((get(p, VCPU_REPORT_CR0, 8) ^ field(r, CR0)) & field(r, CR0_MASK)) || ((get(p, VCPU_REPORT_CR4, 8) ^ field(r, CR4)) & field(r, CR4_MASK)))
        return 15;
    if (n == 1 && (!(p[INTERRUPTION_TOP] >> 7) || (p[VCPU_REPORT_INTERRUPTION + 1] & 7) == 1))
        return 16;
    if (n == 28 && !move_to(0) && !move_to(4))
        return 18;
    if (n == 55 && (uint32_t)reg(1))
        return 20;
    if (n == 55 && breaks(get(r, R_XCR0_SUPPORTED, L_XCR0_SUPPORTED), edx_eax()))
        return 19;
    if (n == 44)
        return 21;
    if (get(p, VCPU_REPORT_RIP, 8) > ~(uint64_t)0 - advance())
        return 17;
    if (enters_long_mode() && !(get(r, R_ALLOWED1(ENTRY_PAIR), 4) >> 9 & 1))
        return 8;
    return 0;
}

static void store(uint8_t *r)
{
    static const struct {
        uint64_t field;
        unsigned at, size;
    } parts[] = {
        {RIP, VCPU_REPORT_RIP, 8},
        {RSP, VCPU_REPORT_RSP, 8},
        {RFLAGS, VCPU_REPORT_RFLAGS, 8},
        {INTERRUPTIBILITY, VCPU_REPORT_INTERRUPTIBILITY, 4},
        {CR0, VCPU_REPORT_CR0, 8},
        {CR3, VCPU_REPORT_CR3, 8},
        {CR4, VCPU_REPORT_CR4, 8},
        {EFER, VCPU_REPORT_EFER, 8},
        {CS_BASE, VCPU_REPORT_CS_BASE, 8},
        {CS_RIGHTS, VCPU_REPORT_CS_RIGHTS, 4},
        {SS_RIGHTS, VCPU_REPORT_SS_RIGHTS, 4},
        {EXIT_REASON, VCPU_REPORT_REASON, 4},
        {QUALIFICATION, VCPU_REPORT_QUALIFICATION, 8},
        {EXIT_LENGTH, VCPU_REPORT_INSTRUCTION_LENGTH, 4},
        {EXIT_INFO, VCPU_REPORT_INTERRUPTION, 4},
        {EXIT_CODE, VCPU_REPORT_ERROR_CODE, 4},
    };
    unsigned i;

    for (i = 0; i < sizeof parts / sizeof parts[0]; i++)
        set_field(r, parts[i].field, get(p, parts[i].at, parts[i].size));
    memcpy(r + R_REGS, p + VCPU_REPORT_REGS, L_REGS);
    set_field(r, ENTRY_INFO, field(r, ENTRY_INFO) & 0x7FFFFFFF);
}

static void model_cpuid(uint8_t *r)
{
    uint32_t w[4], leaf = (uint32_t)reg(0);
    unsigned i;

    for (i = 0; i < 4; i++)
        w[i] = (uint32_t)get(p, VCPU_REPORT_CPUID_EAX + 4 * i, 4);
    if (leaf == 1) {
        w[0] &= ~(uint32_t)0x80;
        w[2] = (w[2] & ~(uint32_t)0x20) | 0x80000000u;
    } else if (leaf == 7 && reg(1) == 0) {
        w[2] &= ~(uint32_t)0x10020;
    } else if (leaf == 0x16 && w[0] == 0) {
        w[0] = 3000;
    } else if (leaf == 0x40000000) {
        w[0] = 0x40000001;
        w[1] = 0x524D5652;
        w[2] = 0x56524D56;
        w[3] = 0x4D56524D;
    } else if (leaf == 0x40000001) {
        memset(w, 0, sizeof w);
    }
    put(r, R_REG(0), 8, w[0]);
    put(r, R_REG(3), 8, w[1]);
    put(r, R_REG(1), 8, w[2]);
    put(r, R_REG(2), 8, w[3]);
}

static void model_cr(uint8_t *r)
{
    unsigned at = move_to(0) ? R_CR0 : R_CR4;
    uint64_t must1 = get(r, at, 8), must0 = get(r, at + 8, 8), value = moved();

    if (move_to(0)) {
        must1 &= ~(uint64_t)0x80000001;
        must0 &= ~(uint64_t)0x60000000;
    } else {
        value |= 0x2000;
    }
    set_field(r, move_to(0) ? CR0 : CR4, (value & must0) | must1);
    set_field(r, move_to(0) ? CR0_SHADOW : CR4_SHADOW, value);
    set_field(r, move_to(0) ? CR0_MASK : CR4_MASK, must1 | ~must0);
    if (enters_long_mode()) {
        uint32_t m0 = (uint32_t)get(r, R_ALLOWED0(ENTRY_PAIR), 4), m1 = (uint32_t)get(r, R_ALLOWED1(ENTRY_PAIR), 4);
        uint32_t old = (uint32_t)field(r, ENTRY_CONTROLS);

        set_field(r, EFER, (field(r, EFER) & 0xFD01) | 0x400);
        set_field(r, ENTRY_CONTROLS, m0 | 0x200 | (old & ~m0 & m1 & ~(uint32_t)0x200));
    }
}

static void model_io(uint64_t *w)
{
    uint32_t q = (uint32_t)get(p, VCPU_REPORT_QUALIFICATION, 4);
    uint32_t size = (q & 7) + 1, port = q >> 16;

    if (q & 0x30 || (size != 1 && size != 2 && size != 4)) {
        w[0] = VCPU_ANSWER_HALT;
    } else if (q & 8) {
        w[0] = VCPU_ANSWER_IO_READ;
        w[1] = port;
        w[2] = size;
    } else if (port == 0x604 && size == 2 && reg(0) == 0x2000) {
        w[0] = VCPU_ANSWER_SYSTEM_DOWN;
    } else {
        w[0] = VCPU_ANSWER_IO_WRITE;
        w[1] = port;
        w[2] = size;
        w[3] = reg(0) & (size == 1 ? 0xFF : size == 2 ? 0xFFFF : 0xFFFFFFFF);
    }
}

static void model_msr(uint8_t *r, uint64_t *w)
{
    int write = reason() == 32;

    w[0] = apic() ? (write ? VCPU_ANSWER_APIC_WRITE : VCPU_ANSWER_APIC_READ) : write ? VCPU_ANSWER_SYS_REG_WRITE : VCPU_ANSWER_SYS_REG_READ;
    w[1] = apic() ? (uint32_t)reg(1) : reg(1);
    if (write)
        w[2] = edx_eax();
    else if (apic())
        r[R_PHASE] = VCPU_WAITING;
}

static void model(uint8_t *r, uint64_t *w)
{
    memset(w, 0, WORDS * sizeof *w);
    if (failed()) {
        set_field(r, EXIT_REASON, get(p, VCPU_REPORT_REASON, 4));
        set_field(r, QUALIFICATION, get(p, VCPU_REPORT_QUALIFICATION, 8));
        r[R_PHASE] = VCPU_ENDED;
        w[0] = VCPU_ANSWER_FAIL_ENTRY;
        return;
    }
    store(r);
    r[R_PHASE] = VCPU_READY;
    switch (reason()) {
    case 1:
        w[0] = VCPU_ANSWER_EXTERNAL_INTERRUPT;
        w[1] = p[VCPU_REPORT_INTERRUPTION];
        break;
    case 7:
        set_field(r, PRIMARY, field(r, PRIMARY) & ~(uint64_t)4);
        break;
    case 10:
        model_cpuid(r);
        break;
    case 18:
        w[0] = VCPU_ANSWER_HYPERCALL;
        w[1] = reg(0);
        w[2] = reg(7);
        w[3] = reg(6);
        w[4] = reg(2);
        w[5] = reg(1);
        w[6] = reg(8);
        w[7] = reg(9);
        break;
    case 28:
        model_cr(r);
        break;
    case 30:
        model_io(w);
        break;
    case 31:
    case 32:
        model_msr(r, w);
        break;
    case 52:
        set_field(r, TIMER, 1000000);
        break;
    case 55:
        put(r, R_XCR0, L_XCR0, edx_eax());
        break;
    default:
        w[0] = VCPU_ANSWER_HALT;
    }
    set_field(r, RIP, get(p, VCPU_REPORT_RIP, 8) + advance());
}

/* ---- inputs ---- */

static uint64_t few(const uint64_t *list, unsigned n)
{
    return below(3) ? list[below(n)] : any();
}

static void any_record(uint8_t *r)
{
    static const uint64_t supported[] = {0, 1, 3, 6, 7, 0x1F, 0xE7, 0x207, 0x60007, 0x602E7, 0x602FF, ~(uint64_t)0};
    unsigned i;

    for (i = 0; i < N; i++)
        r[i] = (uint8_t)(any() >> 24);
    r[R_PHASE] = (uint8_t)(below(16) ? VCPU_RUNNING : below(6));
    r[R_LAUNCHED] = (uint8_t)(below(64) ? below(2) : 2);
    put(r, R_HELD, L_HELD, get(r, R_ENTRIES, L_ENTRIES) / 2);
    r[R_WAITING] = (uint8_t)below(EVENTS + 1);
    put(r, R_XCR0_SUPPORTED, L_XCR0_SUPPORTED, few(supported, 12));
}

/* A value near the rule of XCR0: some of its groups and some other bits, as far as they are supported; in half of the cases one bit is off. */
static uint64_t near_rule(uint64_t supported)
{
    static const uint64_t groups[] = {2, 6, 0x18, 0xE6, 0x60000};
    static const uint8_t ruled[] = {0, 1, 2, 3, 4, 5, 6, 7, 17, 18};
    uint64_t x = 1;
    unsigned i;

    for (i = 0; i < 5; i++)
        if (below(2) && !(groups[i] & ~supported))
            x |= groups[i];
    if (below(2))
        x |= any() & supported & ~(uint64_t)0x600FF;
    if (below(2))
        x ^= (uint64_t)1 << (below(4) ? ruled[below(10)] : below(64));
    return x;
}

/* XSETBV, mostly of XCR0, with anything in the high halves of its three registers; at times where RIP is near its end. */
static void any_xsetbv(uint8_t *b, const uint8_t *r)
{
    uint64_t value = near_rule(get(r, R_XCR0_SUPPORTED, L_XCR0_SUPPORTED));

    put(b, REG_AT(0), 8, any() << 32 | (uint32_t)value);
    put(b, REG_AT(2), 8, any() << 32 | value >> 32);
    if (below(8))
        put(b, REG_AT(1), 8, any() << 32);
    if (below(8) == 0)
        put(b, VCPU_REPORT_RIP, 8, ~(uint64_t)0 - below(6));
}

static void any_block(uint8_t *b, const uint8_t *r)
{
    static const uint64_t leaves[] = {0, 1, 7, 0x16, 0x40000000, 0x40000001, 0x100000001, 0x2000, 0x12000};
    static const uint64_t msrs[] = {0, 0x7FF, 0x800, 0x83F, 0x8FF, 0x900, 0x500000800, 0x100000000};
    static const uint64_t quals[] = {0x06040001, 0x06040009, 0x00600000, 0x00600003, 0x00600007, 0x00600010, 0x00600020, 0x000, 0x004, 0x400, 0x104, 0x010, 0x020, 0x003};
    static const unsigned common[] = {1, 7, 10, 18, 28, 28, 28, 30, 30, 31, 32, 44, 52, 55, 55, 55, 33, 34, 41};
    unsigned i, n = below(3) ? common[below(19)] : below(67);

    for (i = 0; i < BLOCK; i++)
        b[i] = (uint8_t)(any() >> 24);
    put(b, VCPU_REPORT_REASON, 2, n);
    b[REASON_TOP] &= (uint8_t)((n == 33 || n == 34 || n == 41) && below(2) ? 0xFF : below(32) ? 0x7F : 0xFF);
    put(b, REG_AT(0), 8, few(leaves, 9));
    put(b, REG_AT(1), 8, few(msrs, 8));
    put(b, VCPU_REPORT_QUALIFICATION, 8, few(quals, 14));
    put(b, VCPU_REPORT_RIP, 8, below(8) ? any() >> below(60) : ~(uint64_t)0 - below(260));
    if (n == 30 && below(16) == 0) {
        put(b, VCPU_REPORT_QUALIFICATION, 8, quals[0]);
        put(b, REG_AT(0), 8, 0x2000); /* the machine is turned off */
    }
    if (n == 55)
        any_xsetbv(b, r);
    if (below(8)) {
        uint64_t m0 = field(r, CR0_MASK), m4 = field(r, CR4_MASK);

        put(b, VCPU_REPORT_CR0, 8, (any() & ~m0) | (field(r, CR0) & m0));
        put(b, VCPU_REPORT_CR4, 8, (any() & ~m4) | (field(r, CR4) & m4));
    }
    if (below(4))
        b[INTERRUPTION_TOP] |= 0x80;
    if (below(4) == 0)
        put(b, VCPU_REPORT_CPUID_EAX, 4, 0);
}

/* ---- the calls ---- */

static uint8_t r[N], s[N], block[BLOCK + 1];
static uint64_t answer[WORDS], expected[WORDS];
/* How many calls got each number and each answer, and of XSETBV which values: those that break one clause alone, and last those that pass. */
static unsigned long numbers[32], answers[12], values[CLAUSES + 1];

static void count_value(void)
{
    unsigned broken = breaks(get(s, R_XCR0_SUPPORTED, L_XCR0_SUPPORTED), edx_eax()), k;

    for (k = 0; k < CLAUSES; k++)
        values[k] += broken == 1u << k;
    values[CLAUSES] += broken == 0;
}

static void once(void)
{
    size_t length = below(64) ? N : N - 1, blocks = below(64) ? BLOCK : BLOCK - 1 + 2 * below(2);
    uint32_t number, wanted;
    unsigned i;

    any_record(r);
    any_block(block, r);
    for (i = 0; i < WORDS; i++)
        answer[i] = expected[i] = any();
    memcpy(s, r, N);
    p = block;
    wanted = !lawful(s, length) || blocks != BLOCK ? 2 : model_number(s);
    if (wanted == 0)
        model(s, expected);
    number = vcpu_exit_report(r, length, block, blocks, answer);
    CHECK(number == wanted);
    CHECK(memcmp(r, s, N) == 0);
    CHECK(memcmp(answer, expected, sizeof answer) == 0);
    numbers[number]++;
    if (number == 0)
        answers[answer[0]]++;
    if (number == 19 || (number == 0 && reason() == 55))
        count_value();
}

/* ---- the header's numbers, one small report for each ---- */

static void go(void)
{
    uint8_t resumed, event;

    CHECK(vcpu_entry(r, N, 0, &resumed, &event) == 0);
}

/* Capability words whose TRUE entry controls may not have bit 9. */
enum { MSR_BASIC = 0, MSR_PRIMARY = 2, MSR_ENTRY = 4, MSR_TRUE_ENTRY = 13, MSR_COUNT };
static const uint64_t msrs[MSR_COUNT] = {
    0xDA040000000004, 0x7F00000016, 0xFFF9FFFE0401E172u, 0x1FFFFFF00036DFF, 0x3FFFF000011FF, 0x80000021, 0xFFFFFFFF, 0x2000, 0x3767FF,
    0x55CFEFFF00000000, 0x7F00000016, 0xFFF9FFFE04006172u, 0x1FFFFFF00036DFB, 0x3FDFF000011FB,
};

/* A session that runs, set up from these capability words and with this supported word. */
static void running_on(const uint64_t *words, uint64_t supported)
{
    static uint8_t frames[3][VCPU_FRAME_LENGTH], arguments[VCPU_SETUP_LENGTH];
    unsigned i;

    CHECK(vcpu_new(r, N, frames[0], VCPU_FRAME_LENGTH, frames[1], VCPU_FRAME_LENGTH, frames[2], VCPU_FRAME_LENGTH) == 0);
    for (i = 0; i < MSR_COUNT; i++)
        put(arguments, VCPU_SETUP_MSRS + 8 * i, 8, words[i]);
    put(arguments, VCPU_SETUP_XCR0_SUPPORTED, 8, supported);
    CHECK(vcpu_setup(r, N, arguments, sizeof arguments, frames[0], VCPU_FRAME_LENGTH, frames[1], VCPU_FRAME_LENGTH, frames[2], VCPU_FRAME_LENGTH) == 0);
    go();
}

static void running(uint64_t supported)
{
    running_on(msrs, supported);
}

/* A report of this reason, otherwise all zero. */
static void plain_block(uint32_t reason)
{
    memset(block, 0, BLOCK);
    put(block, VCPU_REPORT_CR0, 8, field(r, CR0));
    put(block, VCPU_REPORT_CR4, 8, field(r, CR4));
    put(block, VCPU_REPORT_REASON, 4, reason);
}

static uint32_t told(uint32_t reason, unsigned at, unsigned size, uint64_t x)
{
    plain_block(reason);
    put(block, at, size, x);
    return vcpu_exit_report(r, N, block, BLOCK, answer);
}

static void header_numbers(void)
{
    running(7);
    CHECK(told(65, VCPU_REPORT_RSP, 8, 0) == VCPU_REFUSED_REASON);
    CHECK(told(12, VCPU_REPORT_CR0, 8, field(r, CR0) ^ 0x20) == VCPU_REFUSED_OWNED_BITS);
    CHECK(told(1, VCPU_REPORT_INTERRUPTION, 4, 0x31) == VCPU_REFUSED_INTERRUPT);
    CHECK(told(28, VCPU_REPORT_QUALIFICATION, 8, 0x10) == VCPU_REFUSED_CR_ACCESS);
    CHECK(told(55, REG_AT(1), 8, 1) == VCPU_REFUSED_XCR);
    CHECK(told(55, REG_AT(1), 8, 0) == VCPU_REFUSED_XCR0);
    CHECK(told(44, VCPU_REPORT_RSP, 8, 0) == VCPU_REFUSED_APIC_ACCESS);
    CHECK(told(10, VCPU_REPORT_RIP, 8, ~(uint64_t)0) == VCPU_REFUSED_SUM);
    CHECK(told(28, REG_AT(0), 8, 0x80000000) == VCPU_REFUSED_SET);
    CHECK(vcpu_exit_report(r, N, block, BLOCK - 1, answer) == VCPU_REFUSED_BYTES);
    CHECK(told(12, VCPU_REPORT_RSP, 8, 0) == 0 && answer[0] == VCPU_ANSWER_HALT);
    CHECK(told(12, VCPU_REPORT_RSP, 8, 0) == VCPU_REFUSED_PHASE);
}

/*
 * A move to CR0 with PG is judged by the entry pair that setup used: the TRUE word's (above), and the plain word's with bit 55 of 0x480 clear. Only a plain primary
 * word that does not demand bits 15 and 16 comes that far.
 */
static void kept_entry_pair(void)
{
    uint64_t older[MSR_COUNT];

    memcpy(older, msrs, sizeof older);
    older[MSR_BASIC] = 0;
    older[MSR_PRIMARY] = 0xFFF9FFFE04006172u;
    running_on(older, 7);
    CHECK(told(28, REG_AT(0), 8, 0x80000000) == 0);
    older[MSR_ENTRY] = 0x3FDFF000011FF;
    older[MSR_TRUE_ENTRY] = 0x3FFFF000011FB;
    running_on(older, 7);
    CHECK(told(28, REG_AT(0), 8, 0x80000000) == VCPU_REFUSED_SET);
}

/* ---- XSETBV, by document 02 ---- */

/* A report of it: RAX, RCX and RDX, RIP, and the instruction length that is reported. A refused one changes nothing. */
static uint32_t xsetbv(uint64_t rax, uint64_t rcx, uint64_t rdx, uint64_t rip, uint32_t length)
{
    uint32_t number;

    plain_block(55);
    put(block, REG_AT(0), 8, rax);
    put(block, REG_AT(1), 8, rcx);
    put(block, REG_AT(2), 8, rdx);
    put(block, VCPU_REPORT_RIP, 8, rip);
    put(block, VCPU_REPORT_INSTRUCTION_LENGTH, 4, length);
    memcpy(s, r, N);
    number = vcpu_exit_report(r, N, block, BLOCK, answer);
    CHECK(number == 0 || memcmp(r, s, N) == 0);
    return number;
}

static uint64_t xcr0(void)
{
    uint64_t x = 99;

    CHECK(vcpu_get_xcr0(r, N, &x) == 0);
    return x;
}

/* The number that a value gets, twice: the second time with high halves that do not count. A refused one leaves XCR0 as setup stored it. */
static uint32_t rule(uint64_t supported, uint64_t value)
{
    uint64_t high = 0xFFFFFFFF00000000u;
    uint32_t number;

    running(supported);
    number = xsetbv((uint32_t)value, 0, value >> 32, 0x1000, 3);
    CHECK(xcr0() == (number ? 1 : value));
    running(supported);
    CHECK(xsetbv(high | value, high, high | value >> 32, 0x1000, 3) == number);
    CHECK(xcr0() == (number ? 1 : value));
    CHECK(get(r, R_XCR0_SUPPORTED, L_XCR0_SUPPORTED) == supported);
    return number;
}

static void values_of_xcr0(void)
{
    CHECK(rule(7, 1) == 0);
    CHECK(rule(7, 3) == 0);
    CHECK(rule(7, 7) == 0);
    CHECK(rule(7, 0) == 19);
    CHECK(rule(7, 2) == 19);
    CHECK(rule(7, 5) == 19);
    CHECK(rule(7, 6) == 19);
    CHECK(rule(7, 0xF) == 19);
    CHECK(rule(0x1F, 0x19) == 0);
    CHECK(rule(0x1F, 0x1F) == 0);
    CHECK(rule(0x1F, 0x9) == 19);
    CHECK(rule(0x1F, 0x11) == 19);
    CHECK(rule(0xE7, 0xE7) == 0);
    CHECK(rule(0xE7, 0xE3) == 19);
    CHECK(rule(0xE7, 0x27) == 19);
    CHECK(rule(0xE7, 0xC7) == 19);
    CHECK(rule(0xE7, 0xA7) == 19);
    CHECK(rule(0x60007, 0x60001) == 0);
    CHECK(rule(0x60007, 0x20001) == 19);
    CHECK(rule(0x60007, 0x40001) == 19);
    CHECK(rule(0x207, 0x201) == 0);
    CHECK(rule(7, 0x201) == 19);
    CHECK(rule(~(uint64_t)0, 0x101) == 0);
    CHECK(rule(~(uint64_t)0, 0x8000000000000001u) == 0);
    CHECK(rule(~(uint64_t)0, ~(uint64_t)0) == 0);
    CHECK(rule(6, 7) == 19);
    CHECK(rule(6, 1) == 19);
    CHECK(rule(0, 1) == 19);
    /* beside document 02's: bit 7 apart from two equal ones, AVX without the AVX-512 that is supported, a bit of EDX that is not */
    CHECK(rule(0xE7, 0x67) == 19);
    CHECK(rule(0xE7, 7) == 0);
    CHECK(rule(7, 0x100000001) == 19);
}

/* The order of the numbers, and where RIP goes, whatever instruction length is reported. */
static void around_the_rule(void)
{
    static const uint32_t lengths[] = {0, 3, 15, 0xFFFFFFFF};
    uint64_t end = ~(uint64_t)0; /* 2^64 - 1 */
    unsigned i, k;

    for (i = 0; i < 4; i++) {
        running(7);
        CHECK(xsetbv(7, 1, 0, end, lengths[i]) == 20);
        CHECK(xsetbv(5, 0x100000001, 0, end, lengths[i]) == 20);
        CHECK(xsetbv(5, 0, 0, end - 2, lengths[i]) == 19);
        CHECK(xsetbv(7, 0, 0, end - 2, lengths[i]) == 17);
        CHECK(xsetbv(7, 0x100000000, 0, end - 3, lengths[i]) == 0);
        CHECK(xcr0() == 7 && field(r, RIP) == end && r[R_PHASE] == VCPU_READY);
        for (k = 0; k < WORDS; k++)
            CHECK(answer[k] == 0);
        CHECK(xsetbv(7, 0, 0, 0, 3) == 1);
    }
}

/* The last accepted value stays: over other exits, and where the entry fails. */
static void kept_xcr0(void)
{
    running(7);
    CHECK(xsetbv(7, 0, 0, 0, 3) == 0);
    go();
    CHECK(told(10, VCPU_REPORT_RSP, 8, 0) == 0 && xcr0() == 7);
    go();
    CHECK(xsetbv(3, 0, 0, 0, 3) == 0 && xcr0() == 3);
    go();
    CHECK(told(0x80000037, VCPU_REPORT_RSP, 8, 0) == 14);
    CHECK(told(0x80000021, REG_AT(0), 8, 7) == 0 && answer[0] == VCPU_ANSWER_FAIL_ENTRY);
    CHECK(xcr0() == 3 && get(r, R_XCR0_SUPPORTED, L_XCR0_SUPPORTED) == 7);
}

int main(int argc, char **argv)
{
    unsigned long calls = argc > 1 ? strtoul(argv[1], 0, 10) : 400000, i;

    header_numbers();
    kept_entry_pair();
    values_of_xcr0();
    around_the_rule();
    kept_xcr0();
    for (i = 0; i < calls; i++)
        once();
    for (i = 0; i < 32; i++)
        if (numbers[i])
            printf("report: number %lu, %lu calls\n", i, numbers[i]);
    for (i = 0; i < 12; i++) {
        printf("report: answer %lu, %lu calls\n", i, answers[i]);
        CHECK(calls < 10000 || answers[i]);
    }
    for (i = 0; i < CLAUSES; i++) {
        printf("report: XSETBV, %lu values that break (%c) alone\n", values[i], (char)('a' + i));
        CHECK(calls < 100000 || values[i]);
    }
    printf("report: XSETBV, %lu values that pass\n", values[CLAUSES]);
    CHECK(calls < 100000 || values[CLAUSES]);
    CHECK(calls < 10000 || (numbers[1] && numbers[2] && numbers[8] && numbers[14] && numbers[15] && numbers[16] && numbers[17] && numbers[18] && numbers[19] && numbers[20] && numbers[21]));
    printf("report: %lu calls, every byte and word as the model\n", calls);
    return 0;
}
