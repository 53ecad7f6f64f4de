/*
 * Setup, from C: 100,000 calls (or as many as the first argument says) on capability words of many kinds, with the TRUE words and without, on records in every
 * phase and on wrong blocks, each against a model written from documents 01 and 02 and the manual. Every byte of the record and of the frames is compared, and
 * each call is made again on a block that differs where setup does not look; the calls that got each number are counted and printed. Before them, that the
 * header's VCPU_SETUP_FIELDS are the fields that setup writes.
 */
#include "x86_vcpu.h"

#define TEST "setup"
#include "model.h"

enum { BLOCK = VCPU_SETUP_LENGTH, FRAME = VCPU_FRAME_LENGTH };

/* Offsets of the block that are used often. */
enum { MSRS = VCPU_SETUP_MSRS, SUPPORTED = VCPU_SETUP_XCR0_SUPPORTED };
enum { RDTSCP = VCPU_SETUP_RDTSCP, INVPCID = VCPU_SETUP_INVPCID, XSAVES = VCPU_SETUP_XSAVES };

/* Where the MSR bitmaps have the half that intercepts writes. */
enum { WRITES = 2048 };

/* The places of the MSRs in the block. */
enum { BASIC, PIN, PRIMARY, EXIT, ENTRY, CR0_0, CR0_1, CR4_0, CR4_1, SECONDARY, TRUE_PIN, TRUE_PRIMARY, TRUE_EXIT, TRUE_ENTRY, MSR_COUNT };

static uint64_t msr(const uint8_t *block, unsigned which)
{
    return get(block, MSRS + 8 * which, 8);
}

static void set_msr(uint8_t *block, unsigned which, uint64_t x)
{
    put(block, MSRS + 8 * which, 8, x);
}

/* ---- the model ---- */

/* The five words in order: the plain MSR, the TRUE one (0x48B stands for both), and the field. */
static const struct {
    unsigned plain, superseding;
    uint64_t field;
} words[5] = {
    {PIN, TRUE_PIN, 0x4000}, {PRIMARY, TRUE_PRIMARY, 0x4002}, {SECONDARY, SECONDARY, 0x401E}, {EXIT, TRUE_EXIT, 0x400C}, {ENTRY, TRUE_ENTRY, 0x4012},
};

/* Bit 55 of IA32_VMX_BASIC: the processor has the TRUE words, and they supersede the plain ones. */
static int has_true_words(const uint8_t *block)
{
    return msr(block, BASIC) >> 55 & 1;
}

/* The MSR whose halves are the pair of a word: allowed-0 low, allowed-1 high. */
static uint64_t used(const uint8_t *block, unsigned k)
{
    return msr(block, has_true_words(block) ? words[k].superseding : words[k].plain);
}

static uint32_t set_of(const uint8_t *block, unsigned k)
{
    static const uint32_t set[5] = {0x9, 0x92000000, 0x82, 0x3C8200, 0xC000};

    if (k != 2)
        return set[k];
    return set[2] | (uint32_t)block[RDTSCP] << 3 | (uint32_t)block[INVPCID] << 12 | (uint32_t)block[XSAVES] << 20;
}

static uint32_t clear_of(unsigned k)
{
    return k == 1 ? 0x198000 : 0;
}

static uint32_t model_number(const uint8_t *r, const uint8_t *block)
{
    unsigned k;

    if (r[R_PHASE] != VCPU_FRESH)
        return 1;
    for (k = 0; k < 5; k++)
        if ((uint32_t)used(block, k) & ~(uint32_t)(used(block, k) >> 32))
            return 6;
    if (msr(block, CR0_0) & ~msr(block, CR0_1) || msr(block, CR4_0) & ~msr(block, CR4_1))
        return 6;
    for (k = 0; k < 5; k++) {
        uint64_t m = used(block, k);

        if (set_of(block, k) & ~(uint32_t)(m >> 32))
            return 8;
        if (clear_of(k) & (uint32_t)m)
            return 9;
    }
    return 0;
}

static void model_words(uint8_t *r, const uint8_t *block)
{
    unsigned k;

    for (k = 0; k < 5; k++) {
        uint32_t m0 = (uint32_t)used(block, k), m1 = (uint32_t)(used(block, k) >> 32);
        uint32_t old = (uint32_t)msr(block, words[k].plain), set = set_of(block, k), clear = clear_of(k);

        set_field(r, words[k].field, m0 | set | (old & ~m0 & m1 & ~set & ~clear));
        put(r, R_ALLOWED0(k), 4, m0);
        put(r, R_ALLOWED1(k), 4, m1);
    }
}

static void model_crs(uint8_t *r, const uint8_t *block)
{
    uint64_t must0 = msr(block, CR0_1) & ~(uint64_t)0x60000000, must1 = msr(block, CR0_0) & ~(uint64_t)0x80000001;
    uint64_t first = 0x60000010, vmxe = 0x2000;

    set_field(r, 0x6800, (first & must0) | must1);
    set_field(r, 0x6004, first);
    set_field(r, 0x6000, must1 | ~must0);
    set_field(r, 0x6804, (vmxe & msr(block, CR4_1)) | msr(block, CR4_0));
    set_field(r, 0x6006, vmxe);
    set_field(r, 0x6002, msr(block, CR4_0) | ~msr(block, CR4_1));
    put(r, R_CR0, 8, msr(block, CR0_0));
    put(r, R_CR0 + 8, 8, msr(block, CR0_1));
    put(r, R_CR4, 8, msr(block, CR4_0));
    put(r, R_CR4 + 8, 8, msr(block, CR4_1));
}

/* The supported word is kept as it is; XCR0 is 1, also where the word has no bit 0. */
static void model_xcr0(uint8_t *r, const uint8_t *block)
{
    put(r, R_XCR0, L_XCR0, 1);
    put(r, R_XCR0_SUPPORTED, L_XCR0_SUPPORTED, get(block, SUPPORTED, 8));
}

/* Fields that take a number of the block: encoding, offset, width. */
static const struct {
    uint64_t field;
    unsigned at, size;
} given[] = {
    {0x2C00, VCPU_SETUP_HOST_PAT, 8},       {0x2C02, VCPU_SETUP_HOST_EFER, 8},     {0x6C00, VCPU_SETUP_HOST_CR0, 8},
    {0x6C02, VCPU_SETUP_HOST_CR3, 8},       {0x6C04, VCPU_SETUP_HOST_CR4, 8},      {0x0C00, VCPU_SETUP_HOST_ES, 2},
    {0x0C02, VCPU_SETUP_HOST_CS, 2},        {0x0C04, VCPU_SETUP_HOST_SS, 2},       {0x0C06, VCPU_SETUP_HOST_DS, 2},
    {0x0C08, VCPU_SETUP_HOST_FS, 2},        {0x0C0A, VCPU_SETUP_HOST_GS, 2},       {0x6C06, VCPU_SETUP_HOST_FS_BASE, 8},
    {0x6C08, VCPU_SETUP_HOST_GS_BASE, 8},   {0x0C0C, VCPU_SETUP_HOST_TR, 2},       {0x6C0A, VCPU_SETUP_HOST_TR_BASE, 8},
    {0x6C0C, VCPU_SETUP_HOST_GDTR_BASE, 8}, {0x6C0E, VCPU_SETUP_HOST_IDTR_BASE, 8}, {0x6C16, VCPU_SETUP_HOST_RIP, 8},
    {0x681E, VCPU_SETUP_ENTRY, 8},          {0x2804, VCPU_SETUP_GUEST_PAT, 8},     {0x2000, VCPU_SETUP_IO_BITMAP_A, 8},
    {0x2002, VCPU_SETUP_IO_BITMAP_B, 8},    {0x2004, VCPU_SETUP_MSR_BITMAPS, 8},
};

/* Fields that take the same number always; the eight segments follow by their place. */
static const struct {
    uint64_t field, value;
} fixed[] = {
    {0x6C10, 0}, {0x6C12, 0}, {0x4C00, 0},                                             /* host SYSENTER */
    {0x6816, 0}, {0x4810, 0xFFFF}, {0x6818, 0}, {0x4812, 0xFFFF},                      /* GDTR, IDTR */
    {0x6802, 0}, {0x681A, 0x400}, {0x681C, 0}, {0x6820, 2}, {0x6822, 0},               /* CR3, DR7, RSP, RFLAGS, pending debug */
    {0x6824, 0}, {0x6826, 0}, {0x482A, 0},                                             /* SYSENTER */
    {0x4824, 0}, {0x4826, 0}, {0x482E, 1000000},                                       /* interruptibility, activity, preemption timer */
    {0x2800, 0xFFFFFFFFFFFFFFFFu}, {0x2802, 0}, {0x2806, 0},                           /* link pointer, DEBUGCTL, EFER */
    {0x400E, 0}, {0x4010, 0}, {0x4014, 0}, {0x400A, 0}, {0x4004, 0x40},                /* counts, exception bitmap */
};

static void model_fields(uint8_t *r, const uint8_t *block)
{
    /* ES CS SS DS FS GS LDTR TR, in the order of their encodings */
    static const uint32_t rights[8] = {0x93, 0x9B, 0x93, 0x93, 0x93, 0x93, 0x82, 0x8B};
    unsigned i;

    for (i = 0; i < sizeof given / sizeof given[0]; i++)
        set_field(r, given[i].field, get(block, given[i].at, given[i].size));
    for (i = 0; i < sizeof fixed / sizeof fixed[0]; i++)
        set_field(r, fixed[i].field, fixed[i].value);
    for (i = 0; i < 8; i++) {
        set_field(r, 0x0800 + 2 * i, 0);
        set_field(r, 0x6806 + 2 * i, 0);
        set_field(r, 0x4800 + 2 * i, 0xFFFF);
        set_field(r, 0x4814 + 2 * i, rights[i]);
    }
    set_field(r, 0x201A, (get(block, VCPU_SETUP_EPT_ROOT, 8) & ~(uint64_t)0xFFF) | 0x5E);
}

static void model_frames(uint8_t *a, uint8_t *m)
{
    a[0x604 / 8] |= 1 << (0x604 % 8);
    m[0xE1 / 8] |= 1 << (0xE1 % 8);
    m[WRITES + 0xE1 / 8] |= 1 << (0xE1 % 8);
    memset(m + 0x800 / 8, 0xFF, 8);
    memset(m + WRITES + 0x800 / 8, 0xFF, 8);
}

/* ---- inputs ---- */

/* Capability words of a processor with TRUE words, which allow every control that setup sets. */
static const uint64_t real[MSR_COUNT] = {
    0xDA040000000004, 0x7F00000016, 0xFFF9FFFE0401E172u, 0x1FFFFFF00036DFF, 0x3FFFF000011FF, 0x80000021, 0xFFFFFFFF, 0x2000, 0x3767FF,
    0x55CFEFFF00000000, 0x7F00000016, 0xFFF9FFFE04006172u, 0x1FFFFFF00036DFB, 0x3FFFF000011FB,
};

/* Words of the kinds that decide: the common ones, open ones, few bits changed, any. Of the bits that setup clears the primary words demand none or some. */
static void any_words(uint8_t *block)
{
    unsigned kind = below(8), k;

    for (k = PIN; k < MSR_COUNT; k++) {
        uint64_t x = real[k];

        if (kind >= 4 && k != CR0_0 && k != CR4_0)
            x = k >= CR0_0 && k <= CR4_1 ? ~(uint64_t)0 : 0xFFFFFFFF00000000u | (any() & any() & ~(uint64_t)0x198000 & 0xFFFFFFFF);
        if ((k == PRIMARY || k == TRUE_PRIMARY) && below(2))
            x = (x & ~(uint64_t)0x198000) | (below(4) ? 0 : any() & 0x198000);
        if (kind == 3 || kind == 6)
            x ^= below(6) ? 0 : (uint64_t)1 << below(64);
        if (kind == 7 && below(2))
            x = any();
        set_msr(block, k, x);
    }
}

/* Any bytes where setup does not look: in BASIC all but bit 55; where it is set the high halves of the plain words, where it is clear the TRUE words. */
static void any_unused(uint8_t *block)
{
    uint64_t bit = (uint64_t)1 << 55;
    unsigned k;

    set_msr(block, BASIC, (any() & ~bit) | (msr(block, BASIC) & bit));
    for (k = 0; k < 5; k++) {
        if (words[k].plain == words[k].superseding)
            continue;
        if (has_true_words(block))
            put(block, MSRS + 8 * words[k].plain + 4, 4, any());
        else
            set_msr(block, words[k].superseding, any());
    }
}

/* BASIC with bit 55 set and clear, alone and with all others; in half of the blocks the words that are not used have any bytes. */
static void any_msrs(uint8_t *block)
{
    static const uint64_t basic[] = {0xDA040000000004, 0x5A040000000004, (uint64_t)1 << 55, ~((uint64_t)1 << 55), ~(uint64_t)0, 0};

    any_words(block);
    set_msr(block, BASIC, basic[below(sizeof basic / sizeof basic[0])]);
    if (below(2))
        any_unused(block);
}

static void any_block(uint8_t *block)
{
    unsigned i;

    for (i = 0; i < BLOCK; i++)
        block[i] = (uint8_t)(any() >> 24);
    for (i = RDTSCP; i <= XSAVES; i++)
        block[i] = (uint8_t)(below(64) ? below(2) : 2 + below(254));
    any_msrs(block);
}

static void any_record(uint8_t *r)
{
    unsigned i;

    for (i = 0; i < N; i++)
        r[i] = (uint8_t)(any() >> 24);
    r[R_PHASE] = (uint8_t)(below(8) ? VCPU_FRESH : below(6));
    r[R_LAUNCHED] = (uint8_t)(below(32) ? below(2) : 2);
    put(r, R_HELD, L_HELD, below(32) ? get(r, R_ENTRIES, L_ENTRIES) / 2 : any() & 0xFFFFFFFF);
    r[R_WAITING] = (uint8_t)below(EVENTS + 2);
}

/* ---- the calls ---- */

static uint8_t r[N], s[N], again[N], block[BLOCK + 1], frames[3][FRAME], copies[3][FRAME], frames_again[3][FRAME];
/* By bit 55 of BASIC and number. */
static unsigned long counts[2][10];

static int flags_valid(void)
{
    return block[RDTSCP] <= 1 && block[INVPCID] <= 1 && block[XSAVES] <= 1;
}

static void any_frames(void)
{
    unsigned i;

    for (i = 0; i < FRAME; i++) {
        uint64_t x = any();

        frames[0][i] = (uint8_t)(x >> 8);
        frames[1][i] = (uint8_t)(x >> 16);
        frames[2][i] = (uint8_t)(x >> 24);
    }
}

/* What an accepted setup leaves in the copies. */
static void model_setup(void)
{
    s[R_PHASE] = VCPU_READY;
    model_words(s, block);
    model_crs(s, block);
    model_xcr0(s, block);
    model_fields(s, block);
    model_frames(copies[0], copies[2]);
}

static void once(void)
{
    size_t length = below(64) ? N : N - 1, blocks = below(64) ? BLOCK : BLOCK - 1 + 2 * below(2), sizes[3] = {FRAME, FRAME, FRAME};
    int short_frame = below(64) == 0;
    uint32_t number, model;

    if (short_frame)
        sizes[below(3)]--;
    any_record(r);
    any_block(block);
    any_frames();
    memcpy(s, r, N);
    memcpy(again, r, N);
    memcpy(copies, frames, sizeof frames);
    memcpy(frames_again, frames, sizeof frames);
    model = !lawful(s, length) || blocks != BLOCK || !flags_valid() || short_frame ? 2 : model_number(s, block);
    if (model == 0)
        model_setup();
    number = vcpu_setup(r, length, block, blocks, frames[0], sizes[0], frames[1], sizes[1], frames[2], sizes[2]);
    CHECK(number == model);
    CHECK(memcmp(r, s, N) == 0);
    CHECK(memcmp(frames, copies, sizeof frames) == 0);
    counts[has_true_words(block)][number]++;
    /* two blocks that differ where setup does not look get the same */
    any_unused(block);
    CHECK(vcpu_setup(again, length, block, blocks, frames_again[0], sizes[0], frames_again[1], sizes[1], frames_again[2], sizes[2]) == number);
    CHECK(memcmp(again, r, N) == 0);
    CHECK(memcmp(frames_again, frames, sizeof frames) == 0);
}

/* Of 64 calls at least one got each number that the words decide, with bit 55 set and with it clear. */
static void print_counts(unsigned long calls)
{
    static const unsigned decided[] = {0, 6, 8, 9};
    unsigned i, bit;

    for (i = 0; i < 10; i++)
        if (counts[0][i] || counts[1][i])
            printf("setup: number %u, %lu calls with bit 55 of 0x480 set, %lu with it clear\n", i, counts[1][i], counts[0][i]);
    for (bit = 0; bit < 2; bit++) {
        for (i = 0; i < sizeof decided / sizeof decided[0]; i++)
            CHECK(calls < 1000 || counts[bit][decided[i]] > calls / 64);
        CHECK(calls < 1000 || (counts[bit][1] && counts[bit][2]));
    }
}

/* A block that is accepted; all but the capability words is zero. */
static void usual_block(void)
{
    unsigned i;

    memset(block, 0, BLOCK);
    for (i = 0; i < MSR_COUNT; i++)
        set_msr(block, i, real[i]);
}

/* A new session set up by the block as it is; the number. */
static uint32_t with_block(void)
{
    CHECK(vcpu_new(r, N, frames[0], FRAME, frames[1], FRAME, frames[2], FRAME) == 0);
    return vcpu_setup(r, N, block, BLOCK, frames[0], FRAME, frames[1], FRAME, frames[2], FRAME);
}

#define ENCODING(group, name, encoding) encoding,
static const uint64_t setup_fields[] = {VCPU_SETUP_FIELDS(ENCODING)};

/*
 * Two sessions are set up by the same block, and each byte of their fields differs beforehand. A field that setup writes is then the same in both; one that it does not write
 * still has what it had. The header's list, which ascends, has all of the former and no others.
 */
static void listed(void)
{
    enum { COUNT = sizeof setup_fields / sizeof setup_fields[0] };
    uint8_t was[N];
    unsigned i, k, found = 0;

    usual_block();
    memset(r, 0, N);
    for (i = R_W16; i < R_WAITING; i++)
        r[i] = (uint8_t)(any() >> 24);
    memcpy(was, r, N);
    memcpy(s, r, N);
    for (i = R_W16; i < R_WAITING; i++)
        s[i] = (uint8_t)~r[i];
    CHECK(vcpu_setup(r, N, block, BLOCK, frames[0], FRAME, frames[1], FRAME, frames[2], FRAME) == 0);
    CHECK(vcpu_setup(s, N, block, BLOCK, frames[0], FRAME, frames[1], FRAME, frames[2], FRAME) == 0);
    for (i = 0; i < FIELDS; i++) {
        uint64_t encoding = fields[i].encoding;
        int written = field(r, encoding) == field(s, encoding), in_list = 0;

        for (k = 0; k < COUNT; k++)
            in_list |= setup_fields[k] == encoding;
        CHECK(written == in_list);
        CHECK(written || field(r, encoding) == field(was, encoding));
        found += (unsigned)written;
    }
    for (k = 1; k < COUNT; k++)
        CHECK(setup_fields[k - 1] < setup_fields[k]);
    CHECK(found == COUNT);
    printf("setup: writes %u fields, those of VCPU_SETUP_FIELDS\n", found);
}

/* Document 01's P4 and P5, through the call: CR0 and its mask, and the EPT pointer, of such words on a new session. */
static void worked(void)
{
    usual_block();
    put(block, VCPU_SETUP_EPT_ROOT, 8, 0x1FFF);
    CHECK(with_block() == 0);
    CHECK(field(r, 0x6800) == 0x30);
    CHECK(field(r, 0x6000) == 0xFFFFFFFF60000020u);
    CHECK(field(r, 0x201A) == 0x105E);
    CHECK(vcpu_setup(r, N, block, BLOCK, frames[0], FRAME, frames[1], FRAME, frames[2], FRAME) == VCPU_REFUSED_PHASE);
}

/* Setup of a new session with this supported word; the number. */
static uint32_t with_word(uint64_t supported)
{
    put(block, SUPPORTED, 8, supported);
    return with_block();
}

/* XCR0 is 0 before setup and 1 after it, whatever the supported word is, which is kept and not tested. A refused setup stores neither. */
static void xcr0(void)
{
    static const uint64_t supported[] = {0, 1, 2, 6, 7, 0xE7, 0x602E7, (uint64_t)1 << 63, ~(uint64_t)0};
    uint64_t x = 99;
    unsigned i;

    usual_block();
    for (i = 0; i < sizeof supported / sizeof supported[0]; i++) {
        CHECK(with_word(supported[i]) == 0);
        CHECK(vcpu_get_xcr0(r, N, &x) == 0 && x == 1);
        CHECK(get(r, R_XCR0_SUPPORTED, L_XCR0_SUPPORTED) == supported[i]);
    }
    set_msr(block, TRUE_PIN, 1);
    CHECK(with_word(7) == VCPU_REFUSED_PAIR);
    CHECK(vcpu_get_xcr0(r, N, &x) == 0 && x == 0);
    CHECK(get(r, R_XCR0_SUPPORTED, L_XCR0_SUPPORTED) == 0);
}

/*
 * A processor without the TRUE words, for which the host gives 0. Its plain primary word demands bits 15 and 16: VCPU_REFUSED_CLEAR. One that demands neither is
 * accepted, the plain pairs are kept, and each control word has all that they demand.
 */
static void older_board(void)
{
    unsigned k;

    usual_block();
    set_msr(block, BASIC, real[BASIC] & ~((uint64_t)1 << 55));
    for (k = TRUE_PIN; k <= TRUE_ENTRY; k++)
        set_msr(block, k, 0);
    CHECK(with_block() == VCPU_REFUSED_CLEAR);
    CHECK(r[R_PHASE] == VCPU_FRESH);
    set_msr(block, PRIMARY, 0xFFF9FFFE04006172u);
    CHECK(with_block() == 0);
    CHECK(get(r, R_PAIRS, 8) == 0x7F00000016);
    CHECK(get(r, R_PAIRS + 8, 8) == 0xFFF9FFFE04006172u);
    CHECK(get(r, R_PAIRS + 16, 8) == 0x55CFEFFF00000000);
    CHECK(get(r, R_PAIRS + 24, 8) == 0x1FFFFFF00036DFF);
    CHECK(get(r, R_PAIRS + 32, 8) == 0x3FFFF000011FF);
    CHECK(field(r, 0x4000) == 0x1F);
    CHECK(field(r, 0x4002) == 0x96006172);
    CHECK(field(r, 0x401E) == 0x82);
    CHECK(field(r, 0x400C) == 0x3FEFFF);
    CHECK(field(r, 0x4012) == 0xD1FF);
}

int main(int argc, char **argv)
{
    unsigned long calls = argc > 1 ? strtoul(argv[1], 0, 10) : 100000, i;

    worked();
    listed();
    xcr0();
    older_board();
    for (i = 0; i < calls; i++)
        once();
    print_counts(calls);
    printf("setup: %lu calls, every byte as the model, and as with other bytes where setup does not look\n", calls);
    return 0;
}
