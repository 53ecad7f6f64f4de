/*
 * The calls on a session, from C: 1,000,000 calls (or as many as the first argument says) on lawful records, mutated ones and random bytes,
 * each against a model written from document 01 over the record's bytes. Every byte and result is compared; the share of accepted calls is
 * printed for each function. Then the edges of document 01.
 */
#include "x86_vcpu.h"

#define TEST "session"
#include "model.h"

/* ---- the model: each function changes r as the call should, and gives the number ---- */

static uint32_t model_push(uint8_t *r, uint8_t vector, uint8_t coded, uint32_t code)
{
    unsigned at = r[R_WAITING];

    if (at >= EVENTS)
        return 13;
    r[R_VECTORS + at] = vector;
    r[R_CODED + at / 8] = (uint8_t)((r[R_CODED + at / 8] & ~(1u << at % 8)) | (unsigned)coded << at % 8);
    put(r, R_CODE(at), 4, coded ? code : 0);
    r[R_WAITING]++;
    return 0;
}

/* Entries that wrote a vector which carries a code, by CR0.PE and whether the code was given. */
static unsigned long carrying[2][2];

static uint32_t model_entry(uint8_t *r, uint64_t stack, uint8_t *resumed, uint8_t *event)
{
    static const uint8_t codes[] = {8, 10, 11, 12, 13, 14, 17, 21};
    unsigned v = r[R_VECTORS], type, code = 0, left;

    if (r[R_PHASE] != VCPU_READY)
        return 1;
    if (get(r, R_ENTRIES, L_ENTRIES) == 0xFFFFFFFF)
        return 22;
    *resumed = r[R_LAUNCHED];
    if (!r[R_LAUNCHED])
        set_field(r, 0x6C14, stack);
    r[R_PHASE] = VCPU_RUNNING;
    r[R_LAUNCHED] = 1;
    put(r, R_ENTRIES, L_ENTRIES, get(r, R_ENTRIES, L_ENTRIES) + 1);
    *event = VCPU_EVENT_NONE;
    if (r[R_WAITING] == 0)
        return 0;
    if (v >= 32 && (!(field(r, 0x6820) >> 9 & 1) || field(r, 0x4824) != 0)) {
        *event = VCPU_EVENT_HELD;
        put(r, R_HELD, L_HELD, get(r, R_HELD, L_HELD) + 1);
        set_field(r, 0x4002, field(r, 0x4002) | 4);
        return 0;
    }
    *event = VCPU_EVENT_WRITTEN;
    type = v == 2 ? 2 : v == 3 || v == 4 ? 6 : v <= 21 ? 3 : v <= 31 ? 7 : 0;
    if (memchr(codes, (int)v, sizeof codes)) {
        code = (unsigned)field(r, 0x6800) & 1;
        carrying[code][r[R_CODED] & 1]++;
    }
    if (code)
        set_field(r, 0x4018, r[R_CODED] & 1 ? get(r, R_CODE(0), 4) : field(r, 0x4406));
    if (type == 4 || type == 5 || type == 6)
        set_field(r, 0x401A, field(r, 0x440C));
    set_field(r, 0x4016, 0x80000000u | code << 11 | type << 8 | v);
    left = --r[R_WAITING];
    memmove(r + R_VECTORS, r + R_VECTORS + 1, left);
    r[R_VECTORS + left] = 0;
    put(r, R_CODED, L_CODED, get(r, R_CODED, L_CODED) >> 1);
    memmove(r + R_CODE(0), r + R_CODE(1), 4 * left);
    put(r, R_CODE(left), 4, 0);
    return 0;
}

static uint32_t model_mode(const uint8_t *r, uint64_t efer)
{
    if (efer >> 10 & 1)
        return field(r, 0x4816) >> 13 & 1 ? VCPU_MODE_64 : VCPU_MODE_COMPATIBILITY;
    return field(r, 0x6800) & 1 ? VCPU_MODE_PROTECTED : VCPU_MODE_REAL;
}

static uint32_t model_flags(const uint8_t *r, unsigned *level, unsigned *width)
{
    uint64_t cr0 = field(r, 0x6800), cr4 = field(r, 0x6804), efer = field(r, 0x2806);
    int pse, nxe;

    *level = !(cr0 >> 31 & 1) ? 0 : !(cr4 >> 5 & 1) ? 2 : efer >> 10 & 1 ? 4 : 3;
    *width = *level == 0 ? 0 : *level == 2 ? 10 : 9;
    pse = *level == 2 ? (int)(cr4 >> 4 & 1) : 1;
    nxe = *level == 2 ? 0 : (int)(efer >> 11 & 1);
    return ((field(r, 0x4818) >> 5 & 3) == 3 ? VCPU_WALK_USER : 0) | (pse ? VCPU_WALK_PSE : 0) | (cr0 >> 16 & 1 ? VCPU_WALK_WP : 0) |
           (nxe ? VCPU_WALK_NXE : 0) | (cr4 >> 21 & 1 ? VCPU_WALK_SMAP : 0) | (cr4 >> 20 & 1 ? VCPU_WALK_SMEP : 0);
}

/* ---- records to call on ---- */

static void random_lawful(uint8_t *r)
{
    unsigned i;
    uint64_t entries = below(4) ? below(1000) : 0xFFFFFFFF - below(2);

    for (i = 0; i < N; i++)
        r[i] = (uint8_t)any();
    r[R_PHASE] = (uint8_t)(below(2) ? VCPU_READY : below(5));
    r[R_LAUNCHED] = (uint8_t)below(2);
    put(r, R_ENTRIES, L_ENTRIES, entries);
    put(r, R_HELD, L_HELD, entries / (1 + below(5)));
    r[R_WAITING] = (uint8_t)(below(4) ? below(4) : EVENTS - 4 + below(5));
    for (i = 0; i < EVENTS; i++)
        if (below(2))
            r[R_VECTORS + i] = (uint8_t)below(40);
    if (below(2))
        set_field(r, 0x4824, 0);
}

/* Bytes that are mostly a record: of ten, one is random, two have one to three bytes changed, one has at times a wrong length; the length is answered. */
static size_t bytes(uint8_t *r)
{
    unsigned kind = below(10), i;

    random_lawful(r);
    if (kind == 0)
        for (i = 0; i < N; i++)
            r[i] = (uint8_t)any();
    if (kind == 1 || kind == 2)
        for (i = 0; i <= below(3); i++)
            r[below(3) ? below(N) : below(R_REGS)] = (uint8_t)any();
    if (kind == 3 && below(2))
        return below(2) ? N - 1 : N + 1;
    return N;
}

static uint64_t encoding(void)
{
    return below(4) ? fields[below(FIELDS)].encoding : below(2) ? below(0x8000) : any();
}

static const char *const names[] = {"vcpu_queue_event",      "vcpu_inject_interrupt", "vcpu_entry",      "vcpu_apic_value",   "vcpu_read_field",
                                    "vcpu_write_field",      "vcpu_get_reg_of_index", "vcpu_set_reg_of_index", "vcpu_get_counts", "vcpu_get_cpu_mode",
                                    "vcpu_get_ptw_info",     "vcpu_get_xcr0",         "vcpu_gla2gva"};

enum { FUNCTIONS = sizeof names / sizeof names[0] };

/* One call of function f on r and on its copy for the model: the number, with everything compared. */
static uint32_t one(unsigned f, uint8_t *r, size_t length)
{
    uint8_t m[N + 1], before = 0xA5, after = 0x5A, before2 = 0xA5, after2 = 0x5A;
    uint64_t x = any(), y = any(), v = 0x1122334455667788u, w = v;
    uint32_t n, k = 2;
    int ok = lawful(r, length);
    unsigned i;

    memcpy(m, r, N + 1);
    switch (f) {
    case 0: {
        uint8_t coded = (uint8_t)(below(8) ? below(2) : x >> 8);

        n = vcpu_queue_event(r, length, (uint8_t)x, coded, (uint32_t)y);
        if (ok && coded <= 1)
            k = m[R_PHASE] == VCPU_ENDED ? 1 : model_push(m, (uint8_t)x, coded, (uint32_t)y);
        break;
    }
    case 1:
        x = below(8) ? x % 257 : x;
        n = vcpu_inject_interrupt(r, length, x);
        if (ok)
            k = m[R_PHASE] == VCPU_ENDED ? 1 : x == 0 || x > 255 ? 12 : model_push(m, (uint8_t)x, 0, 0);
        break;
    case 2:
        after = before;
        after2 = before2;
        n = vcpu_entry(r, length, x, &before, &before2);
        if (ok)
            k = model_entry(m, x, &after, &after2);
        CHECK(before == after && before2 == after2);
        break;
    case 3:
        if (below(2))
            r[R_PHASE] = m[R_PHASE] = VCPU_WAITING, ok = lawful(r, length);
        n = vcpu_apic_value(r, length, x);
        if (ok) {
            k = m[R_PHASE] == VCPU_WAITING ? 0 : 1;
            if (!k) {
                put(m, R_REG(0), 8, x & 0xFFFFFFFF);
                put(m, R_REG(2), 8, x >> 32);
                m[R_PHASE] = VCPU_READY;
            }
        }
        break;
    case 4:
        x = encoding();
        n = vcpu_read_field(r, length, x, &v);
        if (ok) {
            k = place(x) == FIELDS ? 3 : 0;
            if (!k)
                w = field(m, x);
        }
        CHECK(v == w);
        break;
    case 5:
        x = encoding();
        y = below(2) ? y & 0xFFFF : below(2) ? y & 0xFFFFFFFF : y;
        n = vcpu_write_field(r, length, x, y);
        if (ok) {
            i = place(x);
            k = i == FIELDS ? 3 : fields[i].read_only ? 4 : fields[i].width < 8 && y >> 8 * fields[i].width ? 5 : 0;
            if (!k)
                set_field(m, x, y);
        }
        break;
    case 6:
    case 7:
        x = below(8) ? x % 17 : x;
        n = f == 6 ? vcpu_get_reg_of_index(r, length, x, &v) : vcpu_set_reg_of_index(r, length, x, y);
        if (ok) {
            k = x == 4 || x > 15 ? 23 : 0;
            if (!k && f == 6)
                w = get(m, R_REG((unsigned)x), 8);
            if (!k && f == 7)
                put(m, R_REG((unsigned)x), 8, y);
        }
        CHECK(v == w);
        break;
    case 8: {
        uint8_t phase = 9, launched = 9, waiting = 99;
        uint32_t entries = 999, held = 999;

        n = vcpu_get_counts(r, length, &phase, &launched, &waiting, &entries, &held);
        if (ok)
            k = 0;
        CHECK(ok ? phase == m[R_PHASE] && launched == m[R_LAUNCHED] && waiting == m[R_WAITING] && entries == get(m, R_ENTRIES, L_ENTRIES) &&
                       held == get(m, R_HELD, L_HELD)
                 : phase == 9 && launched == 9 && waiting == 99 && entries == 999 && held == 999);
        break;
    }
    case 9: {
        uint32_t mode = 77;

        n = vcpu_get_cpu_mode(r, length, x, &mode);
        if (ok)
            k = 0;
        CHECK(mode == (ok ? model_mode(m, x) : 77));
        break;
    }
    case 10: {
        uint64_t top = 77;
        uint8_t level = 77, width = 77;
        uint32_t flags = 777;
        unsigned l, d;

        n = vcpu_get_ptw_info(r, length, &top, &level, &width, &flags);
        if (ok)
            k = 0;
        CHECK(ok ? flags == model_flags(m, &l, &d) && level == l && width == d && top == field(m, 0x6802)
                 : top == 77 && level == 77 && width == 77 && flags == 777);
        break;
    }
    case 11:
        n = vcpu_get_xcr0(r, length, &v);
        if (ok) {
            k = 0;
            w = get(m, R_XCR0, L_XCR0);
        }
        CHECK(v == w);
        break;
    default:
        if (below(2))
            y >>= 8;
        n = vcpu_gla2gva(r, length, x, y, &v);
        if (ok) {
            uint64_t base = model_mode(m, x) == VCPU_MODE_64 ? 0 : field(m, 0x6808);

            k = y + base < y ? 17 : 0;
            if (!k)
                w = y + base;
        }
        CHECK(v == w);
    }
    CHECK(n == k);
    CHECK(memcmp(r, m, N + 1) == 0);
    return n;
}

static void many(unsigned long calls)
{
    static uint8_t r[N + 1], kept[N + 1];
    unsigned long made[FUNCTIONS] = {0}, accepted[FUNCTIONS] = {0}, i;
    unsigned f;

    random_lawful(kept);
    for (i = 0; i < calls; i++) {
        f = (unsigned)(i % FUNCTIONS);
        made[f]++;
        /* one call in four goes on with the record that the last such call left */
        if (below(4) == 0) {
            if (f == 2 && kept[R_PHASE] == VCPU_RUNNING)
                kept[R_PHASE] = VCPU_READY;
            accepted[f] += one(f, kept, N) == 0;
            if (below(1000) == 0)
                random_lawful(kept);
            continue;
        }
        accepted[f] += one(f, r, bytes(r)) == 0;
    }
    for (f = 0; f < FUNCTIONS; f++) {
        printf("%-22s %7lu calls, %5.1f%% accepted\n", names[f], made[f], 100.0 * (double)accepted[f] / (double)made[f]);
        CHECK(accepted[f] * 5 > made[f]);
    }
    printf("events that carry a code: PE clear %lu, %lu of them with one given; PE set %lu, %lu\n", carrying[0][0] + carrying[0][1], carrying[0][1],
           carrying[1][0] + carrying[1][1], carrying[1][1]);
    CHECK(carrying[0][0] && carrying[0][1] && carrying[1][0] && carrying[1][1]);
}

/* The offsets and numbers that the header publishes are those of the model, which every call above is compared with; so are the offsets of fields.h. */
static void offsets(void)
{
#define SAME(name, length) CHECK(VCPU_OFFSET_##name == R_##name);
    RECORD(SAME)
    CHECK(VCPU_RECORD_LENGTH == N);
    CHECK(fields[0].offset == R_W16 && fields[17].offset == R_W32 && fields[67].offset == R_W64 && fields[108].offset == R_NATURAL);
    CHECK(VCPU_REFUSED_PHASE == 1 && VCPU_REFUSED_BYTES == 2 && VCPU_REFUSED_ENCODING == 3 && VCPU_REFUSED_READ_ONLY == 4);
    CHECK(VCPU_REFUSED_WIDTH == 5 && VCPU_REFUSED_VECTOR == 12 && VCPU_REFUSED_FULL == 13 && VCPU_REFUSED_SUM == 17);
    CHECK(VCPU_REFUSED_COUNT == 22 && VCPU_REFUSED_INDEX == 23);
}

static void edges(void)
{
    static uint8_t r[N], a[VCPU_FRAME_LENGTH], b[VCPU_FRAME_LENGTH], m[VCPU_FRAME_LENGTH], zero[VCPU_FRAME_LENGTH];
    uint8_t resumed, event;
    unsigned i;

    memset(r, 0xFF, sizeof r);
    memset(a, 0xFF, sizeof a);
    CHECK(vcpu_new(r, N, a, sizeof a, b, sizeof b, m, sizeof m - 1) == VCPU_REFUSED_BYTES && r[R_PHASE] == 0xFF && a[0] == 0xFF);
    CHECK(vcpu_new(r, N - 1, a, sizeof a, b, sizeof b, m, sizeof m) == VCPU_REFUSED_BYTES && r[R_PHASE] == 0xFF && a[0] == 0xFF);
    CHECK(vcpu_new(r, N, a, sizeof a, b, sizeof b, m, sizeof m) == 0);
    CHECK(!memcmp(r, zero, N) && !memcmp(a, zero, sizeof a) && !memcmp(b, zero, sizeof b) && !memcmp(m, zero, sizeof m));
    CHECK(vcpu_entry(r, N, 0, &resumed, &event) == VCPU_REFUSED_PHASE);
    /* the 64th event passes, the 65th does not */
    for (i = 0; i < EVENTS; i++)
        CHECK(vcpu_queue_event(r, N, 32, 0, 7) == 0);
    CHECK(vcpu_queue_event(r, N, 32, 0, 7) == VCPU_REFUSED_FULL);
    CHECK(vcpu_inject_interrupt(r, N, 256) == VCPU_REFUSED_VECTOR && vcpu_inject_interrupt(r, N, 0) == VCPU_REFUSED_VECTOR);
    /* with IF clear, vector 32 is held and 31 goes in */
    r[R_PHASE] = VCPU_READY;
    CHECK(vcpu_entry(r, N, 0x1234, &resumed, &event) == 0 && resumed == 0 && event == VCPU_EVENT_HELD && r[R_WAITING] == EVENTS);
    r[R_PHASE] = VCPU_READY;
    r[R_VECTORS] = 31;
    CHECK(vcpu_entry(r, N, 0x5678, &resumed, &event) == 0 && resumed == 1 && event == VCPU_EVENT_WRITTEN && r[R_WAITING] == EVENTS - 1);
    CHECK(field(r, 0x6C14) == 0x1234 && field(r, 0x4016) == 0x8000071F && get(r, R_ENTRIES, L_ENTRIES) == 2 && get(r, R_HELD, L_HELD) == 1);
    /* the count of entries at its end */
    r[R_PHASE] = VCPU_READY;
    put(r, R_ENTRIES, L_ENTRIES, 0xFFFFFFFE);
    CHECK(vcpu_entry(r, N, 0, &resumed, &event) == 0);
    r[R_PHASE] = VCPU_READY;
    CHECK(vcpu_entry(r, N, 0, &resumed, &event) == VCPU_REFUSED_COUNT);
    /* an ended session takes no event */
    r[R_PHASE] = VCPU_ENDED;
    CHECK(vcpu_queue_event(r, N, 3, 1, 7) == VCPU_REFUSED_PHASE);
    printf("session: edges as document 01 says\n");
}

/*
 * What an entry writes for an event, by vector, CR0, and whether code 2 is given: 0x4016, 0x4018 and 0x401A. Before it 0x4018 is 9 and 0x401A is 5; the exit's
 * code is 6, its length 3.
 */
static const struct {
    uint8_t vector;
    uint64_t cr0;
    uint8_t coded;
    uint32_t word, code, length;
} written[] = {
    {1, 1, 0, 0x80000301, 9, 5},     {1, 0, 1, 0x80000301, 9, 5},     {2, 1, 1, 0x80000202, 9, 5},    {3, 1, 0, 0x80000603, 9, 3},     {3, 0, 1, 0x80000603, 9, 3},
    {4, 1, 1, 0x80000604, 9, 3},     {8, 1, 0, 0x80000B08, 6, 5},     {8, 0, 0, 0x80000308, 9, 5},    {9, 1, 1, 0x80000309, 9, 5},     {10, 1, 1, 0x80000B0A, 2, 5},
    {10, 0, 1, 0x8000030A, 9, 5},    {11, 1, 1, 0x80000B0B, 2, 5},    {11, 0, 0, 0x8000030B, 9, 5},   {12, 1, 1, 0x80000B0C, 2, 5},    {12, 0, 1, 0x8000030C, 9, 5},
    {13, 1, 0, 0x80000B0D, 6, 5},    {13, 0, 1, 0x8000030D, 9, 5},    {14, 1, 1, 0x80000B0E, 2, 5},   {14, 0, 1, 0x8000030E, 9, 5},    {14, ~(uint64_t)1, 1, 0x8000030E, 9, 5},
    {17, 1, 1, 0x80000B11, 2, 5},    {17, 0, 1, 0x80000311, 9, 5},    {20, 1, 1, 0x80000314, 9, 5},   {21, 1, 0, 0x80000B15, 6, 5},    {21, ~(uint64_t)0, 1, 0x80000B15, 2, 5},
    {21, 0, 1, 0x80000315, 9, 5},    {22, 1, 1, 0x80000716, 9, 5},    {31, 1, 1, 0x8000071F, 9, 5},   {32, 1, 1, 0x80000020, 9, 5},    {255, 1, 1, 0x800000FF, 9, 5},
};

/* PE is that of 0x6800 at the entry: the read shadow and the host's CR0 say the opposite, and so does 0x6800 while the event is queued. */
static void events(void)
{
    static uint8_t r[N];
    uint8_t resumed, event;
    unsigned i;

    for (i = 0; i < sizeof written / sizeof written[0]; i++) {
        memset(r, 0, N);
        r[R_PHASE] = VCPU_READY;
        set_field(r, 0x6800, ~written[i].cr0);
        CHECK(vcpu_queue_event(r, N, written[i].vector, written[i].coded, 2) == 0);
        set_field(r, 0x6800, written[i].cr0);
        set_field(r, 0x6004, ~written[i].cr0);
        set_field(r, 0x6C00, ~written[i].cr0);
        set_field(r, 0x6820, 1 << 9);
        set_field(r, 0x4018, 9);
        set_field(r, 0x401A, 5);
        set_field(r, 0x4406, 6);
        set_field(r, 0x440C, 3);
        CHECK(vcpu_entry(r, N, 0, &resumed, &event) == 0 && event == VCPU_EVENT_WRITTEN);
        CHECK(field(r, 0x4016) == written[i].word && field(r, 0x4018) == written[i].code && field(r, 0x401A) == written[i].length);
    }
    printf("session: %u events in their fields\n", i);
}

/* Of bytes that are no record XCR0 is not read, and the result keeps what it had. */
static void xcr0_of_no_record(uint8_t *r, size_t length, unsigned at, unsigned size, uint64_t x)
{
    uint64_t was = get(r, at, size), value = 0x1122334455667788u;

    put(r, at, size, x);
    CHECK(vcpu_get_xcr0(r, length, &value) == VCPU_REFUSED_BYTES && value == 0x1122334455667788u);
    put(r, at, size, was);
}

/* XCR0 is read in every phase, 0 from a new record. Values outside the rule of XSETBV, and bits outside the supported word, are as good as others. */
static void xcr0(void)
{
    static const uint64_t values[] = {1, 0, 2, 5, 0x9, 0xE3, 0x20001, 0x8000000000000000u, ~(uint64_t)0};
    static uint8_t r[N + 1], zero[N];
    uint64_t value = 99;
    unsigned i, phase;

    CHECK(vcpu_get_xcr0(zero, N, &value) == 0 && value == 0);
    for (i = 0; i < sizeof values / sizeof values[0]; i++)
        for (phase = VCPU_FRESH; phase <= VCPU_ENDED; phase++) {
            random_lawful(r);
            r[R_PHASE] = (uint8_t)phase;
            r[R_WAITING] = 0;
            put(r, R_ENTRIES, L_ENTRIES, 10);
            put(r, R_HELD, L_HELD, 10);
            put(r, R_XCR0, L_XCR0, values[i]);
            put(r, R_XCR0_SUPPORTED, L_XCR0_SUPPORTED, 7);
            CHECK(vcpu_get_xcr0(r, N, &value) == 0 && value == values[i]);
            CHECK(vcpu_queue_event(r, N, 32, 0, 0) == (phase == VCPU_ENDED ? VCPU_REFUSED_PHASE : 0));
            CHECK(get(r, R_XCR0, L_XCR0) == values[i] && get(r, R_XCR0_SUPPORTED, L_XCR0_SUPPORTED) == 7);
            xcr0_of_no_record(r, N, R_PHASE, L_PHASE, 5);
            xcr0_of_no_record(r, N, R_LAUNCHED, L_LAUNCHED, 2);
            xcr0_of_no_record(r, N, R_HELD, L_HELD, 11);
            xcr0_of_no_record(r, N, R_WAITING, L_WAITING, EVENTS + 1);
            xcr0_of_no_record(r, N - 1, R_PHASE, L_PHASE, phase);
            xcr0_of_no_record(r, N + 1, R_PHASE, L_PHASE, phase);
            CHECK(vcpu_get_xcr0(r, N, &value) == 0 && value == values[i]);
        }
    printf("session: XCR0 read in every phase\n");
}

int main(int argc, char **argv)
{
    unsigned long calls = argc > 1 ? strtoul(argv[1], 0, 10) : 1000000;

    offsets();
    edges();
    events();
    xcr0();
    many(calls);
    printf("session: %lu calls, every byte and result as the model\n", calls);
    return 0;
}
