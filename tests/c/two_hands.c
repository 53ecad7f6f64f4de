/*
 * Two hands editing intercepts, from C: 100,000 pairs of scripts (or as many as the first argument says), each a list of edits. Both orders and a shuffle of the two are made on
 * copies of the same frames. Where no item is covered by both scripts, all bytes must be equal; where some is, it is counted whether they are. Then lists of edits after a setup,
 * one for 50 pairs: each of the 98,304 bits must be as the last accepted edit that covers its item asked, or as setup left it. Each edit answers the number that its arguments
 * and the frames' lengths give, at every place. Before them come pairs and bytes that are written out.
 */
#include "x86_vcpu.h"

#define TEST "two_hands"
#include "check.h"

/* ---- the frames, which stand at any alignment, with bytes around them that are not theirs ---- */

enum { FRAME = 4096, AROUND = 16 };
enum { A, B, MSR, FRAMES };

/* As they were, and after both orders and the shuffle; a list after setup is made on first. */
static struct frames {
    uint8_t memory[FRAMES][AROUND + FRAME + AROUND];
} start, first, second, mixed;

/* Where each frame starts in its memory, and the lengths that the calls are told. */
static unsigned from;
static size_t length[FRAMES];

static uint8_t *frame(struct frames *f, unsigned i)
{
    return f->memory[i] + from;
}

static int same(const struct frames *f, const struct frames *g)
{
    return memcmp(f, g, sizeof *f) == 0;
}

static void around_kept(const struct frames *f)
{
    unsigned i;

    for (i = 0; i < FRAMES; i++) {
        CHECK(memcmp(f->memory[i], start.memory[i], from) == 0);
        CHECK(memcmp(f->memory[i] + from + FRAME, start.memory[i] + from + FRAME, 2 * AROUND - from) == 0);
    }
}

static void right_lengths(void)
{
    length[A] = length[B] = length[MSR] = FRAME;
}

static void any_start(void)
{
    from = AROUND - below(8);
    fill(&start, sizeof start);
}

/* ---- the model: items, and what an edit covers and answers by its arguments ---- */

/*
 * The items are numbered as their bits stand in A, B and the MSR frame (SDM 3C, 25.6.4 and 25.6.9): the ports, reads of low MSRs, reads of high ones, writes of low ones, writes of
 * high ones. So each bit belongs to one item.
 */
enum { ALL_PORTS = 65536, RANGE = 0x2000, WRITES = 2 * RANGE, ITEMS = ALL_PORTS + 4 * RANGE };

enum { PORTS, READ, WRITE, BOTH };

/* The first port and how many, or the MSR, for which the count plays no part. */
struct edit {
    unsigned kind;
    uint32_t number, count;
    uint8_t on;
};

/* Items from the first up to the one before past. */
struct run {
    uint32_t first, past;
};

static int trapped(const struct frames *f, uint32_t item)
{
    return f->memory[item / 8 / FRAME][from + item / 8 % FRAME] >> item % 8 & 1;
}

static int in_a_range(uint32_t msr)
{
    return msr <= 0x1FFF || (0xC0000000 <= msr && msr <= 0xC0001FFF);
}

static uint32_t read_item(uint32_t msr)
{
    return ALL_PORTS + (msr >= 0xC0000000 ? RANGE : 0) + msr % RANGE;
}

static struct run one_item(uint32_t item)
{
    struct run r = {item, item + 1};

    return r;
}

/* The runs of items that an edit covers, refused or not, and how many there are: none of a count of 0, of ports above 65,535 alone and of an MSR outside both ranges. */
static unsigned covered(const struct edit *e, struct run runs[2])
{
    uint64_t past = (uint64_t)e->number + e->count;
    unsigned n = 0;

    if (e->kind == PORTS) {
        runs[0].first = e->number;
        runs[0].past = past < ALL_PORTS ? (uint32_t)past : ALL_PORTS;
        return runs[0].first < runs[0].past;
    }
    if (!in_a_range(e->number))
        return 0;
    if (e->kind != WRITE)
        runs[n++] = one_item(read_item(e->number));
    if (e->kind != READ)
        runs[n++] = one_item(read_item(e->number) + WRITES);
    return n;
}

static int share(const struct edit *d, const struct edit *e)
{
    struct run x[2], y[2];
    unsigned m = covered(d, x), n = covered(e, y), i, k;

    for (i = 0; i < m; i++)
        for (k = 0; k < n; k++)
            if (x[i].first < y[k].past && y[k].first < x[i].past)
                return 1;
    return 0;
}

static uint32_t answer(const struct edit *e)
{
    if (e->kind == PORTS) {
        if (length[A] != FRAME || length[B] != FRAME || e->on > 1)
            return 2;
        return e->count && (uint64_t)e->number + e->count > ALL_PORTS ? 10 : 0;
    }
    if (length[MSR] != FRAME || e->on > 1)
        return 2;
    return in_a_range(e->number) ? 0 : 11;
}

/* What setup adds: port 0x604, and reads and writes of MSRs 0xE1 and 0x800 to 0x83F. */
static int added(uint32_t item)
{
    uint32_t msr;

    if (item < ALL_PORTS)
        return item == 0x604;
    msr = (item - ALL_PORTS) % WRITES;
    return msr == 0xE1 || (0x800 <= msr && msr <= 0x83F);
}

/* ---- scripts ---- */

enum { SHORT = 4, LONG = 60 };

struct script {
    unsigned edits;
    struct edit edit[LONG];
};

static uint32_t call(struct frames *f, const struct edit *e)
{
    switch (e->kind) {
    case PORTS: return vcpu_set_io_intercept_of_range(frame(f, A), length[A], frame(f, B), length[B], e->number, e->count, e->on);
    case READ: return vcpu_set_read_intercept(frame(f, MSR), length[MSR], e->number, e->on);
    case WRITE: return vcpu_set_write_intercept(frame(f, MSR), length[MSR], e->number, e->on);
    default: return vcpu_set_msr_intercept_of_range(frame(f, MSR), length[MSR], e->number, e->on);
    }
}

/* The model's number does not depend on the frames' bytes, so a call must answer alike in every order. */
static void make(struct frames *f, const struct edit *e)
{
    CHECK(call(f, e) == answer(e));
}

static void play(struct frames *f, const struct script *s)
{
    unsigned i;

    for (i = 0; i < s->edits; i++)
        make(f, &s->edit[i]);
}

/* The edits of both scripts, each in its script's order. */
static void shuffle(struct frames *f, const struct script *x, const struct script *y)
{
    unsigned i = 0, k = 0;

    while (i < x->edits || k < y->edits)
        if (k == y->edits || (i < x->edits && below(2)))
            make(f, &x->edit[i++]);
        else
            make(f, &y->edit[k++]);
}

static void each_order(const struct script *x, const struct script *y)
{
    first = second = mixed = start;
    play(&first, x);
    play(&first, y);
    play(&second, y);
    play(&second, x);
    shuffle(&mixed, x, y);
    around_kept(&first);
    around_kept(&second);
    around_kept(&mixed);
}

static int scripts_share(const struct script *x, const struct script *y)
{
    unsigned i, k;

    for (i = 0; i < x->edits; i++)
        for (k = 0; k < y->edits; k++)
            if (share(&x->edit[i], &y->edit[k]))
                return 1;
    return 0;
}

/* ---- cases that are written out ---- */

/* Two edits, whether they share an item, and whether the bytes depend on their order, whatever they were beforehand. */
static const struct {
    const char *name;
    struct edit d, e;
    int shared, differ;
} known[] = {
    {"ports 7FFF and 8000", {PORTS, 0x7FFF, 1, 1}, {PORTS, 0x8000, 1, 0}, 0, 0},
    {"ports up to 7FFF and from 8000", {PORTS, 0x7FF0, 16, 0}, {PORTS, 0x8000, 16, 1}, 0, 0},
    {"ports up to 8000 and from 8000", {PORTS, 0x7FF0, 17, 0}, {PORTS, 0x8000, 16, 1}, 1, 1},
    {"neighbours in a byte", {PORTS, 0x604, 1, 1}, {PORTS, 0x605, 1, 0}, 0, 0},
    {"one port, set and cleared", {PORTS, 0x604, 1, 1}, {PORTS, 0x604, 1, 0}, 1, 1},
    {"one port, set twice", {PORTS, 0x604, 1, 1}, {PORTS, 0x604, 1, 1}, 1, 0},
    {"all ports and the first", {PORTS, 0, 65536, 1}, {PORTS, 0, 1, 0}, 1, 1},
    {"all ports and the last", {PORTS, 0, 65536, 1}, {PORTS, 65535, 1, 0}, 1, 1},
    {"all ports but the last, and the last", {PORTS, 0, 65535, 1}, {PORTS, 65535, 1, 0}, 0, 0},
    {"a count of 0 among ports", {PORTS, 8, 0, 1}, {PORTS, 0, 16, 0}, 0, 0},
    {"a count of 0 past the ports", {PORTS, 0xFFFFFFFF, 0, 1}, {PORTS, 0, 65536, 0}, 0, 0},
    {"refused by 10, over the last port", {PORTS, 65535, 2, 1}, {PORTS, 65535, 1, 0}, 1, 0},
    {"refused by 10, past the ports", {PORTS, 65536, 1, 1}, {PORTS, 65536, 1, 0}, 0, 0},
    {"refused by 10, a sum above 2^32", {PORTS, 0xFFFFFFFF, 2, 1}, {PORTS, 0, 1, 0}, 0, 0},
    {"refused by 2, over one port", {PORTS, 5, 1, 2}, {PORTS, 5, 1, 0}, 1, 0},
    {"a port and an MSR", {PORTS, 0xE1, 1, 1}, {BOTH, 0xE1, 1, 0}, 0, 0},
    {"both accesses and a read", {BOTH, 0xE1, 1, 1}, {READ, 0xE1, 1, 0}, 1, 1},
    {"both accesses and a write", {BOTH, 0xC0000080, 1, 1}, {WRITE, 0xC0000080, 1, 0}, 1, 1},
    {"a read, set and cleared", {READ, 0x1FFF, 1, 1}, {READ, 0x1FFF, 1, 0}, 1, 1},
    {"neighbouring MSRs", {BOTH, 0x800, 1, 1}, {BOTH, 0x801, 1, 0}, 0, 0},
    {"a low MSR and a high one", {BOTH, 0x80, 1, 1}, {BOTH, 0xC0000080, 1, 0}, 0, 0},
    {"the last low MSR and the first high one", {BOTH, 0x1FFF, 1, 1}, {BOTH, 0xC0000000, 1, 0}, 0, 0},
    {"the last read and the first write", {READ, 0xC0001FFF, 1, 1}, {WRITE, 0, 1, 0}, 0, 0},
    {"refused by 11, over no item", {BOTH, 0x2000, 1, 1}, {BOTH, 0x2000, 1, 0}, 0, 0},
    {"refused by 11, below the high MSRs", {BOTH, 0xBFFFFFFF, 1, 1}, {BOTH, 0x1FFF, 1, 0}, 0, 0},
    {"refused by 2, over one access", {READ, 0xE1, 1, 255}, {READ, 0xE1, 1, 1}, 1, 0},
};

static struct script single(struct edit e)
{
    struct script s = {1, {{0, 0, 0, 0}}};

    s.edit[0] = e;
    return s;
}

static void known_pairs(void)
{
    unsigned i;

    for (i = 0; i < sizeof known / sizeof known[0]; i++) {
        struct script x = single(known[i].d), y = single(known[i].e);

        any_start();
        each_order(&x, &y);
        if (scripts_share(&x, &y) != known[i].shared || scripts_share(&y, &x) != known[i].shared || same(&first, &second) == known[i].differ ||
            (!known[i].differ && !same(&first, &mixed)))
            fail(known[i].name);
    }
    printf("two_hands: %u pairs of edits share items, and differ by order, where the table says\n", i);
}

/* Reads and writes of one MSR, asked for different values. Each gets its own. */
static void reads_and_writes(void)
{
    static const uint32_t msrs[] = {0, 7, 0xE1, 0x800, 0x83F, 0x1FFF, 0xC0000000, 0xC0000080, 0xC0001FFF};
    unsigned i;

    for (i = 0; i < 2 * sizeof msrs / sizeof msrs[0]; i++) {
        uint32_t msr = msrs[i / 2];
        uint8_t on = i % 2;
        struct script x = single((struct edit){READ, msr, 1, on}), y = single((struct edit){WRITE, msr, 1, !on});

        any_start();
        each_order(&x, &y);
        CHECK(!scripts_share(&x, &y) && same(&first, &second) && same(&first, &mixed));
        CHECK(trapped(&first, read_item(msr)) == on && trapped(&first, read_item(msr) + WRITES) == !on);
    }
    printf("two_hands: %u pairs of a read and a write of one MSR, each with its own value in both orders\n", i);
}

/* Every edit of both scripts is refused. */
static void refused_scripts(void)
{
    static const struct script x = {4, {{PORTS, 65535, 2, 1}, {BOTH, 0x2000, 1, 1}, {READ, 0xE1, 1, 2}, {PORTS, 0, 65537, 0}}};
    static const struct script y = {4, {{PORTS, 65530, 7, 0}, {WRITE, 0xBFFFFFFF, 1, 1}, {PORTS, 5, 1, 255}, {BOTH, 0xC0002000, 1, 0}}};

    any_start();
    each_order(&x, &y);
    CHECK(same(&first, &start) && same(&second, &start) && same(&mixed, &start));
}

/* Frames of zeros, in which other bits than these stay clear. */
static void worked_bytes(void)
{
    static const struct script x = {3, {{PORTS, 0x7FFD, 3, 1}, {WRITE, 0xC0000080, 1, 1}, {READ, 0x1FFF, 1, 1}}};
    static const struct script y = {4, {{PORTS, 0x8000, 2, 1}, {READ, 0xC0001FFF, 1, 1}, {WRITE, 0, 1, 1}, {PORTS, 0xFFFF, 1, 1}}};

    memset(&start, 0, sizeof start);
    each_order(&x, &y);
    frame(&start, A)[4095] = 0xE0;
    frame(&start, B)[0] = 0x03;
    frame(&start, B)[4095] = 0x80;
    frame(&start, MSR)[1023] = 0x80;
    frame(&start, MSR)[2047] = 0x80;
    frame(&start, MSR)[2048] = 0x01;
    frame(&start, MSR)[3088] = 0x01;
    CHECK(same(&first, &start) && same(&second, &start) && same(&mixed, &start));
}

/* ---- edits at random: near the borders of frames, near the ends of ranges, over what setup adds, and any ---- */

static uint32_t any_port(void)
{
    static const uint32_t near[] = {0x8000, 16, 0x604, 65536 - 12};

    return below(32) == 0 ? (uint32_t)any() : below(4) == 0 ? below(ALL_PORTS) : near[below(4)] - 16 + below(32);
}

static uint32_t any_count(void)
{
    switch (below(16)) {
    case 0: return 0;
    case 1: return below(66000);
    case 2: return below(4) ? below(4000) : (uint32_t)any();
    default: return 1 + below(24);
    }
}

static uint32_t any_msr(void)
{
    static const uint32_t near[] = {0, 0x2000, 0xC0000000, 0xC0002000, 0xE1, 0x800, 0x840};

    if (below(4) == 0)
        return 0x800 + below(64);
    return below(3) == 0 ? below(2) * 0xC0000000 + below(RANGE) : near[below(7)] - 3 + below(6);
}

/* The yes/no byte, of which one in so many is neither. */
static uint8_t any_value(unsigned one_in)
{
    return (uint8_t)(below(one_in) ? below(2) : 2 + below(254));
}

static struct edit any_edit(void)
{
    struct edit e = {below(2) ? PORTS : 1 + below(3), 0, 1, any_value(16)};

    if (e.kind == PORTS) {
        e.number = any_port();
        e.count = any_count();
    } else {
        e.number = any_msr();
    }
    return e;
}

/* An edit that ends where e starts, or starts where it ends, or shares its last port; or the same MSR or its neighbour. */
static struct edit beside(struct edit e)
{
    uint32_t count = 1 + below(24);

    if (e.kind == PORTS) {
        switch (below(5)) {
        case 0: e.number += e.count - 1; break;
        case 1: case 2: e.number += e.count; break;
        default: e.number -= count;
        }
        e.count = count;
    } else {
        e.kind = 1 + below(3);
        e.number ^= below(2);
    }
    e.on = any_value(16);
    return e;
}

/* ---- pairs ---- */

/* Pairs with nothing in common, those of them with accepted edits on both sides, pairs that share an item, those of them that gave other bytes, and edits by their numbers. */
static unsigned long apart, both_active, shared, differed, numbers[12];

static void any_lengths(void)
{
    static const size_t wrong[] = {0, FRAME - 1, FRAME + 1};
    unsigned i;

    for (i = 0; i < FRAMES; i++)
        length[i] = below(48) ? FRAME : wrong[below(3)];
}

/* Of a second script half of the edits lie beside those of the first. */
static void any_script(struct script *s, const struct script *other)
{
    unsigned i;

    s->edits = below(SHORT + 1);
    for (i = 0; i < s->edits; i++) {
        s->edit[i] = other && other->edits && below(2) ? beside(other->edit[below(other->edits)]) : any_edit();
        numbers[answer(&s->edit[i])]++;
    }
}

/* Whether some edit is accepted and covers an item. */
static int active(const struct script *s)
{
    struct run runs[2];
    unsigned i;

    for (i = 0; i < s->edits; i++)
        if (answer(&s->edit[i]) == 0 && covered(&s->edit[i], runs))
            return 1;
    return 0;
}

static void pair(void)
{
    static struct script x, y;

    any_start();
    any_lengths();
    any_script(&x, 0);
    any_script(&y, &x);
    each_order(&x, &y);
    if (scripts_share(&x, &y)) {
        shared++;
        differed += !same(&first, &second);
        return;
    }
    CHECK(same(&first, &second));
    CHECK(same(&first, &mixed));
    apart++;
    both_active += active(&x) && active(&y);
}

/* ---- lists after setup ---- */

static struct script list;

/* For each item 1 more than the place of the last accepted edit that covers it, or 0. */
static uint8_t last[ITEMS];

/* Bits compared, decided by an edit, and of those that setup adds cleared by one, and left set though clear before setup; lists with an edit that is refused after an accepted one over a common item. */
static unsigned long long compared, decided, cleared, left;
static unsigned long edits, refused_after;

/* All but the capability words is any bytes. These have a low half of zeros and a high half of ones: nothing is demanded, and every control may be set. */
static void any_block(uint8_t *block)
{
    unsigned i;

    fill(block, VCPU_SETUP_LENGTH);
    for (i = 0; i < 14; i++) {
        memset(block + VCPU_SETUP_MSRS + 8 * i, 0, 4);
        memset(block + VCPU_SETUP_MSRS + 8 * i + 4, 0xFF, 4);
    }
    for (i = VCPU_SETUP_RDTSCP; i <= VCPU_SETUP_XSAVES; i++)
        block[i] = (uint8_t)below(2);
}

/* A new session with frames of zeros or of any bytes, kept in start, and in first what setup leaves of them. */
static void set_up(void)
{
    static uint8_t record[VCPU_RECORD_LENGTH], block[VCPU_SETUP_LENGTH];

    any_start();
    CHECK(vcpu_new(record, sizeof record, frame(&start, A), FRAME, frame(&start, B), FRAME, frame(&start, MSR), FRAME) == 0);
    if (below(2))
        fill(&start, sizeof start);
    first = start;
    any_block(block);
    CHECK(vcpu_setup(record, sizeof record, block, sizeof block, frame(&first, A), FRAME, frame(&first, B), FRAME, frame(&first, MSR), FRAME) == 0);
}

/* Of four edits one is an earlier one with a value drawn anew, which half of the time is refused, or lies beside it. */
static void any_list(void)
{
    unsigned i;

    list.edits = below(LONG + 1);
    for (i = 0; i < list.edits; i++)
        if (i == 0 || below(4)) {
            list.edit[i] = any_edit();
        } else if (below(3) == 0) {
            list.edit[i] = beside(list.edit[below(i)]);
        } else {
            list.edit[i] = list.edit[below(i)];
            list.edit[i].on = any_value(2);
        }
}

static void decide(unsigned place)
{
    struct run runs[2];
    unsigned n = covered(&list.edit[place], runs), i;

    for (i = 0; i < n; i++)
        memset(last + runs[i].first, (int)place + 1, runs[i].past - runs[i].first);
}

static int follows_accepted(unsigned place)
{
    unsigned i;

    for (i = 0; i < place; i++)
        if (answer(&list.edit[i]) == 0 && share(&list.edit[i], &list.edit[place]))
            return 1;
    return 0;
}

static void compare_bits(void)
{
    uint32_t i;

    for (i = 0; i < ITEMS; i++) {
        const struct edit *e = last[i] ? &list.edit[last[i] - 1] : 0;

        CHECK(trapped(&first, i) == (e ? e->on : added(i) || trapped(&start, i)));
        decided += e != 0;
        if (added(i)) {
            cleared += e && !e->on;
            left += !e && !trapped(&start, i);
        }
    }
    compared += ITEMS;
}

static void one_list(void)
{
    int after = 0;
    unsigned i;

    set_up();
    any_list();
    memset(last, 0, sizeof last);
    for (i = 0; i < list.edits; i++) {
        make(&first, &list.edit[i]);
        if (answer(&list.edit[i]) == 0)
            decide(i);
        else
            after |= follows_accepted(i);
    }
    compare_bits();
    around_kept(&first);
    edits += list.edits;
    refused_after += (unsigned)after;
}

int main(int argc, char **argv)
{
    unsigned long pairs = argc > 1 ? strtoul(argv[1], 0, 10) : 100000, lists = pairs / 50, i;

    CHECK(VCPU_FRAME_LENGTH == FRAME && VCPU_REFUSED_BYTES == 2 && VCPU_REFUSED_PORT == 10 && VCPU_REFUSED_MSR == 11);
    right_lengths();
    known_pairs();
    reads_and_writes();
    refused_scripts();
    worked_bytes();
    for (i = 0; i < pairs; i++)
        pair();
    printf("two_hands: %lu pairs of scripts, %lu edits accepted, %lu refused by 2, %lu by 10, %lu by 11\n", pairs, numbers[0], numbers[2], numbers[10], numbers[11]);
    printf("two_hands: %lu pairs with nothing in common, equal bytes in both orders and shuffled; in %lu of them both scripts had accepted edits\n", apart, both_active);
    printf("two_hands: %lu pairs that shared an item, of which %lu gave other bytes in the other order\n", shared, differed);
    right_lengths();
    for (i = 0; i < lists; i++)
        one_list();
    printf("two_hands: %lu lists of %lu edits after setup, %lu lists with an edit refused after an accepted one over a common item\n", lists, edits, refused_after);
    printf("two_hands: %llu bits as the model, %llu decided by an edit; of those that setup adds %llu cleared, %llu left as added\n", compared, decided, cleared, left);
    /* fewer pairs do not have all */
    CHECK(pairs < 1000 || (both_active && differed && numbers[0] && numbers[2] && numbers[10] && numbers[11]));
    CHECK(pairs < 1000 || (refused_after && decided && cleared && left));
    return 0;
}
