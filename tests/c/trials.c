/*
 * Trials, from C: 900,000 cases (or as many as the first argument says), a sixth of them for each trial, on lawful records in every phase, mutated ones, random bytes
 * and frames, with second buffers of right and wrong lengths. Each case is the trial and then the call itself on a copy, which is the model: the number, the second buffers
 * and the results are compared, and everything else that was lent, the bytes around each buffer too, must be as it was. Before them come all combinations of faults, which
 * try the order of the numbers; after them chains, in which each trial goes on with what the last one showed.
 */
#include "x86_vcpu.h"

#define TEST "trials"
#include "model.h"

enum { BLOCK = VCPU_REPORT_LENGTH, WORDS = VCPU_ANSWER_WORDS, FRAME = VCPU_FRAME_LENGTH };

/* Fields by which an entry or a report is decided (SDM 3D, appendix B). */
enum { INTERRUPTIBILITY = 0x4824, CR0_MASK = 0x6000, CR4_MASK = 0x6002, CR0 = 0x6800, CR4 = 0x6804 };

/* ---- what a trial is lent ---- */

/* The first buffers that a trial has at most, and as many second ones. Each stands at any alignment, between bytes that are not its own. */
enum { BUFFERS = 2, AROUND = 16 };
#define SPACE(length) (AROUND + (length) + 1 + AROUND)

/* Each result stands between two others. */
struct results {
    uint64_t answer[1 + WORDS + 1];
    uint8_t resumed[3], event[3];
};

static struct lent {
    uint8_t first[BUFFERS][SPACE(FRAME)], second[BUFFERS][SPACE(FRAME)], block[SPACE(BLOCK)];
    struct results results;
} lent, expected; /* expected is a copy taken before the trial, with what the trial is to write */

/* Where first buffers and block, and second buffers, start in their space. */
static unsigned from, to;

static size_t first_length[BUFFERS], second_length[BUFFERS], block_length;
static uint64_t host_stack;
static uint32_t port, count, msr;
static uint8_t intercept;

static uint8_t *first(unsigned i)
{
    return lent.first[i] + from;
}

static uint8_t *second(unsigned i)
{
    return lent.second[i] + to;
}

static uint8_t *block(void)
{
    return lent.block + from;
}

/* What the call leaves in copies of the first buffers, and its results. */
static uint8_t left[BUFFERS][FRAME + 1];
static struct results told;

/* ---- the trials, and the calls on the copies ---- */

static uint32_t try_report(void)
{
    return vcpu_try_exit_report(first(0), first_length[0], second(0), second_length[0], block(), block_length, lent.results.answer + 1);
}

static uint32_t call_report(void)
{
    return vcpu_exit_report(left[0], first_length[0], expected.block + from, block_length, told.answer + 1);
}

static uint32_t try_entry(void)
{
    return vcpu_try_entry(first(0), first_length[0], second(0), second_length[0], host_stack, lent.results.resumed + 1, lent.results.event + 1);
}

static uint32_t call_entry(void)
{
    return vcpu_entry(left[0], first_length[0], host_stack, told.resumed + 1, told.event + 1);
}

static uint32_t try_ports(void)
{
    return vcpu_try_io_intercept_of_range(first(0), first_length[0], first(1), first_length[1], second(0), second_length[0], second(1), second_length[1], port, count,
                                          intercept);
}

static uint32_t call_ports(void)
{
    return vcpu_set_io_intercept_of_range(left[0], first_length[0], left[1], first_length[1], port, count, intercept);
}

#define MSR_EDIT(edit)                                                                                  \
    static uint32_t try_##edit(void)                                                                    \
    {                                                                                                   \
        return vcpu_try_##edit(first(0), first_length[0], second(0), second_length[0], msr, intercept); \
    }                                                                                                   \
                                                                                                        \
    static uint32_t call_##edit(void)                                                                   \
    {                                                                                                   \
        return vcpu_set_##edit(left[0], first_length[0], msr, intercept);                               \
    }

MSR_EDIT(read_intercept)
MSR_EDIT(write_intercept)
MSR_EDIT(msr_intercept_of_range)

/* ---- where the call answers 2, told apart from it ---- */

static int entry_bytes(void)
{
    return lawful(expected.first[0] + from, first_length[0]);
}

static int report_bytes(void)
{
    return entry_bytes() && block_length == BLOCK;
}

static int msr_bytes(void)
{
    return first_length[0] == FRAME && intercept <= 1;
}

static int ports_bytes(void)
{
    return msr_bytes() && first_length[1] == FRAME;
}

/* ---- inputs: the bytes that decide, put among any others ---- */

/* A record in this phase; most of it may have any content and stays as it was filled. */
static void make_record(uint8_t *r, unsigned phase)
{
    static const uint64_t supported[] = {1, 7, 0x602E7, ~(uint64_t)0};
    uint64_t entries = below(8) ? below(1000) : 0xFFFFFFFF - below(2);
    unsigned i;

    r[R_PHASE] = (uint8_t)phase;
    r[R_LAUNCHED] = (uint8_t)below(2);
    put(r, R_ENTRIES, L_ENTRIES, entries);
    put(r, R_HELD, L_HELD, entries / (1 + below(5)));
    r[R_WAITING] = (uint8_t)(below(4) ? below(4) : EVENTS - below(3));
    for (i = 0; i < 4; i++)
        if (below(2))
            r[R_VECTORS + i] = (uint8_t)below(40);
    if (below(2))
        set_field(r, INTERRUPTIBILITY, 0);
    put(r, R_XCR0_SUPPORTED, L_XCR0_SUPPORTED, supported[below(4)]);
}

/* In the bits of CR0 and CR4 that the host owns the report is as the record. */
static void put_owned(uint8_t *b, const uint8_t *r)
{
    uint64_t m0 = field(r, CR0_MASK), m4 = field(r, CR4_MASK);

    put(b, VCPU_REPORT_CR0, 8, (any() & ~m0) | (field(r, CR0) & m0));
    put(b, VCPU_REPORT_CR4, 8, (any() & ~m4) | (field(r, CR4) & m4));
}

/* A report that is accepted more often than not: mostly of a reason that the core deals with, and with values that it takes. */
static void make_report(uint8_t *b, const uint8_t *r)
{
    static const uint32_t reasons[] = {1, 7, 10, 12, 18, 28, 28, 30, 30, 31, 32, 52, 55, 55};
    static const uint64_t values[] = {1, 3, 7, 0x2000, 0x40000000}, numbers[] = {0, 0xE1, 0x802, 0x8FF};
    static const uint64_t qualifications[] = {0x000, 0x304, 0x300, 0x010, 0x06040001, 0x02F80000, 0x02F8000B};
    uint32_t failed = below(48) == 0, reason = failed ? 33 : below(8) ? reasons[below(14)] : below(67);

    put(b, VCPU_REPORT_REASON, 4, reason | (failed || below(64) == 0 ? 0x80000000u : 0));
    put(b, VCPU_REPORT_RIP, 8, below(16) ? any() >> 8 : ~(uint64_t)0 - below(4));
    if (below(16))
        put_owned(b, r);
    if (below(8))
        put(b, VCPU_REPORT_INTERRUPTION, 4, 0x80000000u | below(256));
    if (below(8))
        put(b, VCPU_REPORT_QUALIFICATION, 8, qualifications[below(7)]);
    if (below(8)) {
        put(b, VCPU_REPORT_REGS, 8, values[below(5)]);
        put(b, VCPU_REPORT_REGS + 8, 8, reason == 55 && below(8) ? 0 : numbers[below(4)]);
        put(b, VCPU_REPORT_REGS + 16, 8, 0);
    }
}

/* Of ten one is left as it was filled, and two have one to three bytes changed. */
static void any_record(unsigned phase)
{
    unsigned kind = below(10), i;
    uint8_t *r = first(0);

    if (kind == 0)
        return;
    make_record(r, below(8) ? phase : below(5));
    if (kind <= 2)
        for (i = 0; i <= below(3); i++)
            r[below(3) ? below(N) : below(R_REGS)] = (uint8_t)any();
}

static void any_report(void)
{
    any_record(VCPU_RUNNING);
    make_report(block(), first(0));
}

static void any_entry(void)
{
    any_record(VCPU_READY);
    host_stack = any();
}

static void any_edit(void)
{
    static const uint32_t ports[] = {0, 0x7FF0, 0x8000, 0xFFFF, 0x10000, 0xFFFFFFFF};
    static const uint32_t msrs[] = {0x1FFF, 0x2000, 0xBFFFFFFF, 0xC0001FFF, 0xC0002000, 0xFFFFFFFF};

    port = below(4) ? below(65536) : ports[below(6)];
    count = below(8) == 0 ? 0 : below(4) ? 1 + below(40) : below(8) ? below(66000) : (uint32_t)any();
    msr = below(4) ? below(2) * 0xC0000000 + below(0x2000) : msrs[below(6)];
    intercept = (uint8_t)(below(16) ? below(2) : 2 + below(254));
}

/* ---- inputs that are accepted, and faults of them: fault 0 is none ---- */

static void usual_record(uint8_t *r, unsigned phase)
{
    make_record(r, phase);
    put(r, R_ENTRIES, L_ENTRIES, 7);
    put(r, R_HELD, L_HELD, 7);
}

static void usual_report(void)
{
    usual_record(first(0), VCPU_RUNNING);
    put_owned(block(), first(0));
    put(block(), VCPU_REPORT_REASON, 4, 12);
}

static void usual_entry(void)
{
    usual_record(first(0), VCPU_READY);
    host_stack = any();
}

static void usual_edit(void)
{
    port = 0x7FF0 + below(16);
    count = below(32);
    msr = below(0x2000);
    intercept = (uint8_t)below(2);
}

static size_t wrong_length(unsigned which, size_t right)
{
    return which == 0 ? 0 : which == 1 ? right - 1 : right + 1;
}

/* Faults by which the call answers 2; the last three of a record's are the block's. */
static void spoil_record(unsigned fault)
{
    uint8_t *r = first(0);

    if (1 <= fault && fault <= 3)
        first_length[0] = wrong_length(fault - 1, N);
    if (fault == 4)
        r[R_PHASE] = 5;
    if (fault == 5)
        r[R_LAUNCHED] = 2;
    if (fault == 6)
        put(r, R_ENTRIES, L_ENTRIES, 6);
    if (fault == 7)
        r[R_WAITING] = EVENTS + 1;
    if (8 <= fault && fault <= 10)
        block_length = wrong_length(fault - 8, BLOCK);
}

static void spoil_frames(unsigned fault)
{
    if (fault == 1 || fault == 2)
        intercept = fault == 1 ? 2 : 255;
    if (3 <= fault && fault <= 8)
        first_length[(fault - 3) / 3] = wrong_length((fault - 3) % 3, FRAME);
}

/* Other faults, and the number that the call answers. The first four of a record are the other phases. */
static uint32_t spoil_report(unsigned fault)
{
    uint8_t *r = first(0), *b = block();

    if (fault == 5 || fault == 8)
        put(b, VCPU_REPORT_REASON, 4, 65);
    if (fault == 6) {
        set_field(r, CR0_MASK, 0x20);
        put(b, VCPU_REPORT_CR0, 8, field(r, CR0) ^ 0x20);
    }
    if (fault == 7)
        put(b, VCPU_REPORT_REASON, 4, 44);
    if ((1 <= fault && fault <= 4) || fault == 8)
        r[R_PHASE] = (uint8_t)((VCPU_RUNNING + fault) % 5);
    return fault == 0 ? 0 : fault == 5 ? 14 : fault == 6 ? 15 : fault == 7 ? 21 : 1;
}

static uint32_t spoil_entry(unsigned fault)
{
    uint8_t *r = first(0);

    if (fault == 5 || fault == 6)
        put(r, R_ENTRIES, L_ENTRIES, 0xFFFFFFFF);
    if ((1 <= fault && fault <= 4) || fault == 6)
        r[R_PHASE] = (uint8_t)((VCPU_READY + fault) % 5);
    return fault == 0 ? 0 : fault == 5 ? 22 : 1;
}

static uint32_t spoil_edit_of_ports(unsigned fault)
{
    if (fault) {
        port = fault == 1 ? 65535 : 65536;
        count = fault == 1 ? 2 : 1;
    }
    return fault ? 10 : 0;
}

static uint32_t spoil_edit_of_msr(unsigned fault)
{
    if (fault)
        msr = fault == 1 ? 0x2000 : 0xFFFFFFFF;
    return fault ? 11 : 0;
}

/* ---- the cases ---- */

enum { TRIALS = 6, NUMBERS = 26 };

static const struct trial {
    const char *name;
    unsigned buffers;
    size_t length; /* of each first buffer */
    int (*bytes)(void); /* whether they are what the call asks for, so that it does not answer 2 */
    uint32_t (*try_it)(void), (*call_it)(void);
    void (*any_input)(void), (*usual_input)(void);
    void (*spoil_bytes)(unsigned fault);
    unsigned byte_faults;
    uint32_t (*spoil_rest)(unsigned fault);
    unsigned other_faults;
    uint8_t others[NUMBERS]; /* the call's numbers but 0 and 2 */
} trials[TRIALS] = {
    {"vcpu_try_exit_report", 1, N, report_bytes, try_report, call_report, any_report, usual_report, spoil_record, 10, spoil_report, 8,
     {1, 14, 15, 16, 18, 20, 19, 21, 17, 8}},
    {"vcpu_try_entry", 1, N, entry_bytes, try_entry, call_entry, any_entry, usual_entry, spoil_record, 7, spoil_entry, 6, {1, 22}},
    {"vcpu_try_io_intercept_of_range", 2, FRAME, ports_bytes, try_ports, call_ports, any_edit, usual_edit, spoil_frames, 8, spoil_edit_of_ports, 2, {10}},
#define MSR_TRIAL(edit) {"vcpu_try_" #edit, 1, FRAME, msr_bytes, try_##edit, call_##edit, any_edit, usual_edit, spoil_frames, 5, spoil_edit_of_msr, 2, {11}},
    MSR_TRIAL(read_intercept)
    MSR_TRIAL(write_intercept)
    MSR_TRIAL(msr_intercept_of_range)
};

static const struct trial *trial;

/* The number of the call in the last case, and the cases of each trial by it and by whether a second length was wrong; accepted reports and entries by their results. */
static uint32_t of_call;
static unsigned long counts[TRIALS][NUMBERS][2], answers[12], entries[2][3];

static void demand(int holds, const char *what)
{
    char text[128];

    if (!holds) {
        snprintf(text, sizeof text, "%s: %s", trial->name, what);
        fail(text);
    }
}

static void compare(uint32_t number, uint32_t wanted)
{
    char text[64];

    if (number != wanted) {
        snprintf(text, sizeof text, "it answers %u in place of %u", (unsigned)number, (unsigned)wanted);
        demand(0, text);
    }
    demand(memcmp(lent.first, expected.first, sizeof lent.first) == 0, "a first buffer is written");
    demand(memcmp(lent.block, expected.block, sizeof lent.block) == 0, "the block is written");
    demand(memcmp(lent.second, expected.second, sizeof lent.second) == 0, number ? "refused, and a second buffer is written" : "a second buffer is not what the call leaves");
    demand(memcmp(&lent.results, &expected.results, sizeof told) == 0, number ? "refused, and a result is written" : "a result is not the call's");
}

static int wrong_second(void)
{
    unsigned i;
    int wrong = 0;

    for (i = 0; i < trial->buffers; i++)
        wrong |= second_length[i] != first_length[i];
    return wrong;
}

/* The trial, and then the call on copies that were taken before; the number of the trial. */
static uint32_t tried(void)
{
    uint32_t number, wanted;
    unsigned i;

    memcpy(&expected, &lent, sizeof lent);
    memcpy(&told, &lent.results, sizeof told);
    for (i = 0; i < trial->buffers; i++)
        memcpy(left[i], first(i), first_length[i]);
    number = trial->try_it();
    of_call = trial->call_it();
    demand((of_call == 2) == !trial->bytes(), "the call's 2 is not where the bytes are wrong");
    wanted = of_call == 2 ? 2 : wrong_second() ? 25 : of_call;
    if (wanted == 0) {
        for (i = 0; i < trial->buffers; i++)
            memcpy(expected.second[i] + to, left[i], trial->length);
        memcpy(&expected.results, &told, sizeof told);
    }
    compare(number, wanted);
    return number;
}

/* Any bytes in all that is lent. */
static void lend(void)
{
    unsigned i;

    from = AROUND - below(8);
    to = AROUND - below(8);
    for (i = 0; i < trial->buffers; i++) {
        fill(lent.first[i], SPACE(trial->length));
        fill(lent.second[i], SPACE(trial->length));
    }
    fill(lent.block, sizeof lent.block);
    fill(&lent.results, sizeof lent.results);
}

/* Lengths that are mostly right. Where that of a first buffer is wrong, the second has the right one, or the same. */
static void any_lengths(void)
{
    unsigned wrong = below(4) ? 0 : 1 + below(3), i;

    for (i = 0; i < BUFFERS; i++) {
        first_length[i] = below(24) ? trial->length : wrong_length(below(3), trial->length);
        second_length[i] = wrong >> i & 1 ? wrong_length(below(3), trial->length) : below(2) ? trial->length : first_length[i];
    }
    block_length = below(24) ? BLOCK : wrong_length(below(3), BLOCK);
}

static void once(unsigned which)
{
    uint32_t number;

    trial = &trials[which];
    lend();
    any_lengths();
    trial->any_input();
    number = tried();
    counts[which][of_call][wrong_second()]++;
    if (number == 0 && trial->try_it == try_report)
        answers[lent.results.answer[1]]++;
    if (number == 0 && trial->try_it == try_entry)
        entries[lent.results.resumed[1]][lent.results.event[1]]++;
}

/* ---- the order of the numbers ---- */

/* The lengths of a second buffer: the right one, that of the first, and the three wrong ones. */
enum { LENGTHS = 5 };

static void combination(unsigned byte_fault, unsigned other_fault, unsigned lengths)
{
    uint32_t number;
    unsigned i, kind;
    int wrong = 0;

    lend();
    first_length[0] = first_length[1] = trial->length;
    block_length = BLOCK;
    trial->usual_input();
    number = trial->spoil_rest(other_fault);
    trial->spoil_bytes(byte_fault);
    for (i = 0; i < BUFFERS; i++, lengths /= LENGTHS) {
        kind = lengths % LENGTHS;
        second_length[i] = kind == 0 ? trial->length : kind == 1 ? first_length[i] : wrong_length(kind - 2, trial->length);
        wrong |= kind >= 2;
    }
    demand(tried() == (byte_fault ? 2 : wrong ? 25 : number), "its number is not the first of 2, 25 and the others");
}

/* Each fault of the bytes or none, with each other fault or none, and each length of the second buffers: one fault alone, pairs and triples. */
static void combinations(void)
{
    unsigned long made = 0;
    unsigned which, b, o, l;

    for (which = 0; which < TRIALS; which++) {
        trial = &trials[which];
        for (b = 0; b <= trial->byte_faults; b++)
            for (o = 0; o <= trial->other_faults; o++)
                for (l = 0; l < (trial->buffers == 2 ? LENGTHS * LENGTHS : LENGTHS); l++, made++)
                    combination(b, o, l);
    }
    printf("trials: %lu combinations of faults, the number is the first of 2, 25 and the others\n", made);
}

/* ---- chains ---- */

enum { STEPS = 10 };

/* A session that is ready: of two, one is set up from a processor's capability words, and one is any record. */
static void start(uint8_t *r)
{
    static const uint64_t words[] = {
        0xDA040000000004, 0x7F00000016, 0xFFF9FFFE0401E172u, 0x1FFFFFF00036DFF, 0x3FFFF000011FF, 0x80000021, 0xFFFFFFFF, 0x2000, 0x3767FF,
        0x55CFEFFF00000000, 0x7F00000016, 0xFFF9FFFE04006172u, 0x1FFFFFF00036DFB, 0x3FFFF000011FB,
    };
    static uint8_t frames[3][FRAME], arguments[VCPU_SETUP_LENGTH];
    unsigned i;

    if (below(2)) {
        fill(r, N);
        usual_record(r, VCPU_READY);
        return;
    }
    for (i = 0; i < sizeof words / sizeof words[0]; i++)
        put(arguments, VCPU_SETUP_MSRS + 8 * i, 8, words[i]);
    put(arguments, VCPU_SETUP_XCR0_SUPPORTED, 8, 7);
    CHECK(vcpu_new(r, N, frames[0], FRAME, frames[1], FRAME, frames[2], FRAME) == 0);
    CHECK(vcpu_setup(r, N, arguments, sizeof arguments, frames[0], FRAME, frames[1], FRAME, frames[2], FRAME) == 0);
}

/*
 * An entry or a report, tried on at and made on real; whether it is accepted, so that next is shown. Events, and the value of an APIC register, come by calls
 * on both records.
 */
static int step(uint8_t *at, uint8_t *next, uint8_t *real)
{
    uint64_t shown_answer[WORDS] = {0}, answer[WORDS] = {0}, x = any();
    uint8_t shown_resumed = 9, resumed = 9, shown_event = 9, event = 9, report[BLOCK];
    uint32_t number;

    if (at[R_PHASE] == VCPU_WAITING) {
        CHECK(vcpu_apic_value(at, N, x) == 0 && vcpu_apic_value(real, N, x) == 0);
        return 0;
    }
    if (below(4) == 0)
        CHECK(vcpu_queue_event(at, N, (uint8_t)x, 1, 7) == vcpu_queue_event(real, N, (uint8_t)x, 1, 7));
    fill(next, N);
    if (at[R_PHASE] == VCPU_READY) {
        number = vcpu_try_entry(at, N, next, N, x, &shown_resumed, &shown_event);
        CHECK(number == vcpu_entry(real, N, x, &resumed, &event));
    } else {
        fill(report, BLOCK);
        make_report(report, at);
        number = vcpu_try_exit_report(at, N, next, N, report, BLOCK, shown_answer);
        CHECK(number == vcpu_exit_report(real, N, report, BLOCK, answer));
    }
    CHECK(shown_resumed == resumed && shown_event == event && memcmp(shown_answer, answer, sizeof answer) == 0);
    return number == 0;
}

/* The records that ten trials show, each tried on the one before. Refused ones in between change nothing; a failed entry ends a chain early. */
static void chains(unsigned long times)
{
    static uint8_t row[STEPS + 1][N], real[N];
    unsigned long i, whole = 0;
    unsigned n;

    for (i = 0; i < times; i++) {
        start(real);
        memcpy(row[0], real, N);
        for (n = 0; n < STEPS && row[n][R_PHASE] != VCPU_ENDED;)
            n += (unsigned)step(row[n], row[n + 1], real);
        CHECK(memcmp(row[n], real, N) == 0);
        whole += n == STEPS;
    }
    printf("trials: %lu chains, %lu of them of ten trials, the last shows what the calls leave\n", times, whole);
    CHECK(whole * 2 > times);
}

/* ---- what the cases were ---- */

/* Each number of the call came with right second lengths, where the trial answers it, and with wrong ones. */
static void count_numbers(unsigned which)
{
    unsigned long made = 0, accepted = counts[which][0][0], bytes = counts[which][2][0] + counts[which][2][1], shown = 0;
    const uint8_t *other;
    unsigned n;

    trial = &trials[which];
    for (n = 0; n < NUMBERS; n++) {
        made += counts[which][n][0] + counts[which][n][1];
        shown += n == 2 ? 0 : counts[which][n][1];
    }
    printf("%-31s %7lu cases, %4.1f%% accepted: %6lu, by 2 %6lu, by 25 %6lu, by others %6lu\n", trial->name, made, 100.0 * (double)accepted / (double)made, accepted, bytes,
           shown, made - accepted - bytes - shown);
    demand(accepted * 5 > made, "less than a fifth is accepted");
    demand(counts[which][0][1] && counts[which][2][0] && counts[which][2][1], "0 or 2 did not come with right and wrong second lengths");
    for (other = trial->others; *other; other++)
        demand(counts[which][*other][0] && counts[which][*other][1], "a number did not come with right and wrong second lengths");
}

static void count_results(void)
{
    unsigned i;

    for (i = 0; i < 12; i++)
        CHECK(answers[i]);
    for (i = 0; i < 6; i++)
        CHECK(entries[i / 3][i % 3]);
}

int main(int argc, char **argv)
{
    unsigned long cases = argc > 1 ? strtoul(argv[1], 0, 10) : 900000, i;

    CHECK(VCPU_FRAME_LENGTH == 4096 && VCPU_REFUSED_BYTES == 2 && VCPU_REFUSED_SHOWN == 25);
    combinations();
    for (i = 0; i < cases; i++)
        once((unsigned)(i % TRIALS));
    /* fewer cases do not have all */
    if (cases >= 60000) {
        for (i = 0; i < TRIALS; i++)
            count_numbers((unsigned)i);
        count_results();
    }
    chains(cases / 20 + 1);
    printf("trials: %lu cases, every byte and result as the calls\n", cases);
    return 0;
}
