/*
 * Walks of the guest's page tables, from C: 1,000,000 walks (or as many as the first argument says), each against a walk written from the tables of SDM 3A, chapter 4.
 * The entries that a walk meets are made along its path in a memory of 64 KBytes, so that most lead on; bits of one are flipped, and slices end within one. The number
 * and the answer are compared, and everything that was lent must be as it was. It is printed how often each rule was met at each level; each that can be must be, and so
 * must each single bit flipped, each two rules broken by one entry, each setting with each kind of access, and each phase. Before them come cases with their answers,
 * slices that end at each byte of an entry, and the order of the numbers.
 */
#include "x86_vcpu.h"

#define TEST "walk"
#include "model.h"

/* The fields that a walk starts from (SDM 3D, appendix B). */
enum { EFER = 0x2806, SS_RIGHTS = 0x4818, CR0 = 0x6800, CR3 = 0x6802, CR4 = 0x6804 };

/* ---- the manual's tables ---- */

#define BIT(n) ((uint64_t)1 << (n))
#define BITS(low, high) (BIT(high) - BIT(low) + BIT(high))

/* Bits of an entry: present, read/write, user/supervisor, page size, execute-disable. */
#define P BIT(0)
#define RW BIT(1)
#define US BIT(2)
#define PS BIT(7)
#define XD BIT(63)

/* The bits that are address bits 32 to 39 of a 4-MByte page. */
#define PSE_36 BITS(13, 20)

/* One more than the levels of a walk, and than the rules of an entry, which count from 1. */
enum { LEVELS = 5, RULES = 8 };

/*
 * The entries of one level: the bits of the linear address that choose one; the bits that are the address of the table below it, or of the page (0 where it has none);
 * the reserved bits of both kinds; and which of RW, US and XD it has. XD is reserved where it has it and NXE is clear.
 */
struct level {
    unsigned low, high;
    uint64_t table, page, table_reserved, page_reserved, rights;
};

/* By the number of levels: the bits of CR3 that are the top table's address, the bytes of an entry, and the levels. */
static const struct paging {
    uint64_t top;
    unsigned size;
    struct level level[LEVELS];
} pagings[LEVELS] = {
    /* tables 4-3 to 4-6 */
    [2] = {BITS(12, 31), 4, {
        [2] = {22, 31, BITS(12, 31), BITS(22, 31), 0, BIT(21), RW | US},
        [1] = {12, 21, 0, BITS(12, 31), 0, 0, RW | US},
    }},
    /* tables 4-7 to 4-11 */
    [3] = {BITS(5, 31), 8, {
        [3] = {30, 31, BITS(12, 51), 0, BITS(1, 2) | BITS(5, 8) | BITS(52, 63), 0, 0},
        [2] = {21, 29, BITS(12, 51), BITS(21, 51), BITS(52, 62), BITS(13, 20) | BITS(52, 62), RW | US | XD},
        [1] = {12, 20, 0, BITS(12, 51), 0, BITS(52, 62), RW | US | XD},
    }},
    /* tables 4-12, 4-13 and 4-15 to 4-20 */
    [4] = {BITS(12, 51), 8, {
        [4] = {39, 47, BITS(12, 51), 0, PS, 0, RW | US | XD},
        [3] = {30, 38, BITS(12, 51), BITS(30, 51), 0, BITS(13, 29), RW | US | XD},
        [2] = {21, 29, BITS(12, 51), BITS(21, 51), 0, BITS(13, 20), RW | US | XD},
        [1] = {12, 20, 0, BITS(12, 51), 0, 0, RW | US | XD},
    }},
};

/* Whether entries of this level may map a page and may lead to a table: then the page size bit tells. */
static int both(const struct level *l)
{
    return l->table && l->page;
}

static uint64_t place_of_entry(unsigned levels, unsigned level, uint64_t table, uint64_t address)
{
    const struct level *l = &pagings[levels].level[level];

    return table + (address >> l->low) % BIT(l->high - l->low + 1) * pagings[levels].size;
}

/* ---- the model ---- */

struct access {
    unsigned levels;
    int user, write, fetch, pse, wp, nxe, smep, smap;
};

/* The number, and of an accepted walk the answer; the level at which it ended, and the rules that the entry there breaks, bit i for rule i. */
struct walked {
    uint32_t number;
    uint64_t answer[3];
    unsigned level, broken;
};

static int bit(const uint8_t *r, uint64_t encoding, unsigned n)
{
    return (int)(field(r, encoding) >> n & 1);
}

static struct access access_of(const uint8_t *r, uint8_t kind)
{
    struct access a;

    a.levels = !bit(r, CR0, 31) ? 0 : !bit(r, CR4, 5) ? 2 : bit(r, EFER, 10) ? 4 : 3;
    a.user = bit(r, SS_RIGHTS, 5) && bit(r, SS_RIGHTS, 6);
    a.write = kind == VCPU_ACCESS_WRITE;
    a.fetch = kind == VCPU_ACCESS_FETCH;
    a.pse = a.levels != 2 || bit(r, CR4, 4);
    a.wp = bit(r, CR0, 16);
    a.nxe = bit(r, EFER, 11);
    a.smep = bit(r, CR4, 20);
    a.smap = bit(r, CR4, 21);
    return a;
}

static int maps_page(const struct access *a, const struct level *l, uint64_t entry)
{
    return both(l) ? a->pse && entry & PS : l->page != 0;
}

/* All rules that the entry breaks; users says whether US is set wherever there is one, this entry's too. */
static unsigned broken_rules(const struct access *a, const struct level *l, uint64_t entry, int users)
{
    int page = maps_page(a, l, entry);
    uint64_t reserved = (page ? l->page_reserved : l->table_reserved) | (a->nxe ? 0 : l->rights & XD);
    unsigned broken = 0;

    broken |= (unsigned)!(entry & P) << VCPU_RULE_NOT_PRESENT;
    broken |= (unsigned)!!(entry & reserved) << VCPU_RULE_RESERVED;
    broken |= (unsigned)(a->user && l->rights & ~entry & US) << VCPU_RULE_USER;
    broken |= (unsigned)(a->write && (a->user || a->wp) && l->rights & ~entry & RW) << VCPU_RULE_WRITE;
    broken |= (unsigned)(a->fetch && a->nxe && l->rights & entry & XD) << VCPU_RULE_EXECUTE;
    if (page && users && !a->user)
        broken |= (unsigned)(a->fetch ? a->smep << VCPU_RULE_SMEP : a->smap << VCPU_RULE_SMAP);
    return broken;
}

static struct walked refused(unsigned level)
{
    struct walked w = {VCPU_REFUSED_MEMORY, {0, 0, 0}, level, 0};

    return w;
}

static struct walked mapped(unsigned level, uint64_t address)
{
    struct walked w = {0, {VCPU_WALKED_ADDRESS, address, 0}, level, 0};

    return w;
}

/* By the first of these rules. */
static struct walked fails(unsigned level, unsigned broken)
{
    struct walked w = {0, {VCPU_WALKED_FAILS, level, 0}, level, broken};

    while (!(broken >> w.answer[2] & 1))
        w.answer[2]++;
    return w;
}

static uint64_t page_address(const struct level *l, uint64_t entry, uint64_t address)
{
    uint64_t pse_36 = l->low == 22 ? (entry & PSE_36) << 19 : 0;

    return (entry & l->page) | pse_36 | address % BIT(l->low);
}

/* The walk from a record, whatever its phase, for a kind of access up to 2. */
static struct walked model(const uint8_t *r, const uint8_t *memory, uint64_t length, uint64_t address, uint8_t kind)
{
    struct access a = access_of(r, kind);
    const struct paging *p = &pagings[a.levels];
    uint64_t table = field(r, CR3) & p->top, at, entry;
    unsigned level, broken;
    int users = 1;

    for (level = a.levels; level; level--) {
        const struct level *l = &p->level[level];

        at = place_of_entry(a.levels, level, table, address);
        if (at + p->size > length)
            return refused(level);
        entry = get(memory, (unsigned)at, p->size);
        users = users && !(l->rights & ~entry & US);
        broken = broken_rules(&a, l, entry, users);
        if (broken)
            return fails(level, broken);
        if (maps_page(&a, l, entry))
            return mapped(level, page_address(l, entry, address));
        table = entry & l->table;
    }
    return mapped(0, address);
}

/* ---- what a walk is lent ---- */

/* Each stands at any alignment, between bytes that are not its own. */
enum { AROUND = 16, MEMORY = 0x10000, PAGE = 0x1000, WORDS = 3 };

static struct lent {
    uint8_t record[AROUND + N + 1 + AROUND];
    uint64_t answer[1 + WORDS + 1];
} lent, expected; /* expected is a copy taken before the call, with what the call is to write */

static size_t record_length;
static unsigned from;

/* The model's last walk, were the record and the kind of access right. */
static struct walked would;

/* The memory, and a copy that the calls do not see. */
static uint8_t memory_space[AROUND + MEMORY + AROUND], memory_copy[AROUND + MEMORY + AROUND];
static uint8_t *memory = memory_space, *copy = memory_copy;

static uint8_t *record(void)
{
    return lent.record + from;
}

/* Another memory, of any bytes or of zeros; the last one must be as it was written. */
static void renew_memory(int zeros)
{
    unsigned at = AROUND - below(8);

    CHECK(memcmp(memory_space, memory_copy, sizeof memory_space) == 0);
    fill(memory_space, sizeof memory_space);
    memory = memory_space + at;
    copy = memory_copy + at;
    if (zeros)
        memset(memory, 0, MEMORY);
    memcpy(memory_copy, memory_space, sizeof memory_space);
}

/* Writes an entry that lies in the memory. What stood there must be as it was written. */
static void put_entry(uint64_t at, unsigned size, uint64_t entry)
{
    if (at + size > MEMORY)
        return;
    CHECK(memcmp(memory + at, copy + at, size) == 0);
    put(memory, (unsigned)at, size, entry);
    put(copy, (unsigned)at, size, entry);
}

static void differs(uint32_t number, uint32_t wanted, size_t length, uint64_t address, uint8_t kind)
{
    const uint64_t *a = lent.answer + 1, *e = expected.answer + 1;

    fprintf(stderr, TEST ": %u levels, CR3 %llX, %lu bytes, address %llX, kind %u: %u and %llX %llX %llX in place of %u and %llX %llX %llX\n",
            access_of(record(), kind).levels, (unsigned long long)field(record(), CR3), (unsigned long)length, (unsigned long long)address, kind, (unsigned)number,
            (unsigned long long)a[0], (unsigned long long)a[1], (unsigned long long)a[2], (unsigned)wanted, (unsigned long long)e[0], (unsigned long long)e[1],
            (unsigned long long)e[2]);
    fail("the walk is not the model's");
}

/* One call, on the memory's first bytes or on a copy of them; its number. */
static uint32_t ask(const uint8_t *slice, size_t length, uint64_t address, uint8_t kind)
{
    int right = lawful(record(), record_length) && kind <= VCPU_ACCESS_FETCH;
    uint32_t number, wanted;

    would = model(record(), slice, length, address, kind);
    wanted = right ? would.number : VCPU_REFUSED_BYTES;
    fill(lent.answer, sizeof lent.answer);
    memcpy(&expected, &lent, sizeof lent);
    if (wanted == 0)
        memcpy(expected.answer + 1, would.answer, sizeof would.answer);
    number = vcpu_page_walk(record(), record_length, slice, length, address, kind, lent.answer + 1);
    if (number != wanted || memcmp(lent.answer, expected.answer, sizeof lent.answer))
        differs(number, wanted, length, address, kind);
    CHECK(memcmp(lent.record, expected.record, sizeof lent.record) == 0);
    return number;
}

/* The same on bytes of their own, past whose end valgrind sees a read. */
static uint32_t ask_alone(size_t length, uint64_t address, uint8_t kind)
{
    uint8_t *slice = malloc(length ? length : 1);
    uint32_t number;

    CHECK(slice);
    memcpy(slice, memory, length);
    number = ask(slice, length, address, kind);
    CHECK(memcmp(slice, memory, length) == 0);
    free(slice);
    return number;
}

/* ---- records ---- */

/* What a walk depends on but for CR3 and the kind of access, a bit each. */
enum { PG = 1, PAE = 2, LMA = 4, PSE = 8, WP = 16, NXE = 32, SMEP = 64, SMAP = 128, USER = 256, SETTINGS = 512 };

/* The settings of a number of levels. */
static const unsigned paging_of[LEVELS] = {0, 0, PG, PG | PAE, PG | PAE | LMA};

static void set_bit(uint8_t *r, uint64_t encoding, unsigned n, int x)
{
    set_field(r, encoding, (field(r, encoding) & ~BIT(n)) | (x ? BIT(n) : 0));
}

/* A record of any phase with these settings; the rest has any content. */
static void make_record(unsigned settings)
{
    unsigned entries = below(1000), dpl = settings & USER ? 3 : below(3);
    uint8_t *r;

    from = AROUND - below(8);
    fill(lent.record, sizeof lent.record);
    r = record();
    record_length = N;
    r[R_PHASE] = (uint8_t)below(5);
    r[R_LAUNCHED] = (uint8_t)below(2);
    put(r, R_ENTRIES, L_ENTRIES, entries);
    put(r, R_HELD, L_HELD, below(2) ? entries : below(entries + 1));
    r[R_WAITING] = (uint8_t)below(EVENTS + 1);
    set_bit(r, CR0, 31, settings & PG);
    set_bit(r, CR4, 5, settings & PAE);
    set_bit(r, EFER, 10, settings & LMA);
    set_bit(r, CR4, 4, settings & PSE);
    set_bit(r, CR0, 16, settings & WP);
    set_bit(r, EFER, 11, settings & NXE);
    set_bit(r, CR4, 20, settings & SMEP);
    set_bit(r, CR4, 21, settings & SMAP);
    set_bit(r, SS_RIGHTS, 5, dpl & 1);
    set_bit(r, SS_RIGHTS, 6, dpl & 2);
}

/* Faults of a record, by which a call answers 2; fault 0 is none. */
enum { FAULTS = 9 };

static void spoil_record(unsigned fault)
{
    static const size_t lengths[] = {N, 0, N - 1, N + 1};
    uint8_t *r = record();

    if (fault <= 3)
        record_length = lengths[fault];
    if (fault == 4)
        r[R_PHASE] = 5;
    if (fault == 5)
        r[R_PHASE] = 255;
    if (fault == 6)
        r[R_LAUNCHED] = 2;
    if (fault == 7)
        put(r, R_HELD, L_HELD, get(r, R_ENTRIES, L_ENTRIES) + 1);
    if (fault == 8)
        r[R_WAITING] = EVENTS + 1;
}

/* ---- cases with their answers ---- */

struct entry {
    uint64_t at, entry;
};

static const struct fixed {
    unsigned settings;
    uint64_t cr3, address;
    struct entry entries[4];
    uint32_t number;
    uint64_t answer[3];
} cases[] = {
    {PG | PAE | LMA | NXE, 0x1000, 0x8040201ABC, {{0x1008, 0x2007}, {0x2008, 0x3007}, {0x3008, 0x4007}, {0x4008, 0x5007}}, 0, {VCPU_WALKED_ADDRESS, 0x5ABC, 0}},
    {PG | PAE | LMA | NXE, 0x1000, 0x8040201ABC, {{0x1008, 0x2007}, {0x2008, 0x3007}, {0x3008, 0x20000087}}, 0, {VCPU_WALKED_ADDRESS, 0x20001ABC, 0}},
    {PG | PAE | LMA | NXE, 0x1000, 0x8040201ABC, {{0x1008, 0x2007}, {0x2008, 0x3007}, {0x3008, 0x20002087}}, 0, {VCPU_WALKED_FAILS, 2, VCPU_RULE_RESERVED}},
    {PG | PAE | LMA | NXE | USER, 0x1000, 0x8040201ABC, {{0x1008, 0x2003}, {0x2008, 0}}, 0, {VCPU_WALKED_FAILS, 4, VCPU_RULE_USER}},
    {PG | PAE | LMA | NXE, 0x1000, 0x8040201ABC, {{0x1008, 0xFFFFFFFFFF003}}, VCPU_REFUSED_MEMORY, {0, 0, 0}},
    {PG | PAE | LMA | NXE, 0x1000, 0x8040201ABC, {{0x1008, 0x2003}, {0x2008, 0xFFFFFFFFFF003}}, VCPU_REFUSED_MEMORY, {0, 0, 0}},
    {PG | NXE | PSE, 0x1000, 0x00C01234, {{0x100C, 0x00802087}}, 0, {VCPU_WALKED_ADDRESS, 0x100801234, 0}},
    {PG | NXE, 0x1000, 0x00C01234, {{0x100C, 0x00802087}}, VCPU_REFUSED_MEMORY, {0, 0, 0}},
    {PG | PAE | NXE, 0x1020, 0, {{0x1020, 0x2003}}, 0, {VCPU_WALKED_FAILS, 3, VCPU_RULE_RESERVED}},
    {PG | PAE | LMA | NXE | SMAP, 0x1000, 0x8040201ABC, {{0x1008, 0x2007}, {0x2008, 0x3007}, {0x3008, 0x4007}, {0x4008, 0x5007}}, 0, {VCPU_WALKED_FAILS, 1, VCPU_RULE_SMAP}},
};

enum { CASES = sizeof cases / sizeof cases[0] };

/* Supervisor's or user's reads of a memory of 0x6000 bytes. */
static void fixed_cases(void)
{
    const struct fixed *c;
    unsigned i;

    for (c = cases; c < cases + CASES; c++) {
        renew_memory(1);
        for (i = 0; i < 4; i++)
            if (c->entries[i].at)
                put_entry(c->entries[i].at, c->settings & PAE ? 8 : 4, c->entries[i].entry);
        make_record(c->settings);
        set_field(record(), CR3, c->cr3);
        CHECK(ask_alone(0x6000, c->address, VCPU_ACCESS_READ) == c->number);
        CHECK(c->number || memcmp(lent.answer + 1, c->answer, sizeof c->answer) == 0);
    }
    printf("walk: %u cases answered as said\n", CASES);
}

/* ---- slices that end at each byte of an entry ---- */

/*
 * Tables one above the other from this page on, with which the address 0 is its own. The entry of this level is not present, if it is to be, so that its answer shows
 * that it was read.
 */
static void ascending(unsigned levels, unsigned first_page, unsigned absent)
{
    unsigned size = pagings[levels].size, level;
    uint64_t table = first_page * PAGE;

    renew_memory(1);
    set_field(record(), CR3, table);
    for (level = levels; level; level--, table += PAGE)
        put_entry(table, size, level == absent ? 0 : level == 1 ? P : (table + PAGE) | P);
}

/* A supervisor's reads; with the first table at 0 the slices have lengths from 0 on. */
static void ends_of_entry(unsigned levels, unsigned level, unsigned first_page)
{
    unsigned size = pagings[levels].size;
    size_t at = (first_page + levels - level) * PAGE, length;
    uint32_t number;

    make_record(paging_of[levels]);
    ascending(levels, first_page, level);
    for (length = at ? at - 1 : 0; length <= at + size; length++) {
        number = ask_alone(length, 0, VCPU_ACCESS_READ);
        CHECK(number == (length < at + size ? VCPU_REFUSED_MEMORY : 0));
        CHECK(number || (lent.answer[1] == VCPU_WALKED_FAILS && lent.answer[2] == level && lent.answer[3] == VCPU_RULE_NOT_PRESENT));
    }
    ascending(levels, first_page, 0);
    for (length = at ? at - 1 : 0; length <= at + size; length++)
        CHECK(ask_alone(length, 0, VCPU_ACCESS_READ) == (level > 1 || length < at + size ? VCPU_REFUSED_MEMORY : 0));
}

static void ends_of_slices(void)
{
    unsigned levels, level, page;

    for (levels = 2; levels < LEVELS; levels++)
        for (level = levels; level; level--)
            for (page = 0; page < 3; page++)
                ends_of_entry(levels, level, page);
    make_record(LMA | NXE | USER);
    CHECK(ask_alone(0, ~(uint64_t)0, VCPU_ACCESS_WRITE) == 0 && lent.answer[2] == ~(uint64_t)0);
    printf("walk: slices end at each byte of an entry\n");
}

/* ---- the order of the numbers ---- */

/* Each fault of a record or none, each kind of access, each number of levels, and slices of the whole memory and too short for any entry. */
static void order(void)
{
    unsigned long made = 0;
    unsigned fault, kind, levels;
    uint32_t number;
    int whole;

    for (levels = 0; levels < LEVELS; levels += levels ? 1 : 2)
        for (fault = 0; fault < FAULTS; fault++)
            for (kind = 0; kind < 256; kind++)
                for (whole = 0; whole < 2; whole++, made++) {
                    if (kind % 64 == 0) {
                        make_record(paging_of[levels]);
                        ascending(levels, 1, 0);
                        spoil_record(fault);
                    }
                    number = ask(memory, whole ? MEMORY : below(PAGE), 0, (uint8_t)kind);
                    CHECK(number == (fault || kind > 2 ? 2 : whole || !levels ? 0 : 26));
                }
    printf("walk: %lu combinations of faults, the number is the first of 2 and 26\n", made);
}

/* ---- walks ---- */

/* The path of the last walk made: where its entries are, and the level at which it ends. */
static struct path {
    unsigned levels, last, size;
    uint64_t at[LEVELS];
    int page[LEVELS]; /* whether the entry was made to map a page */
} path;

/* How often each was met. */
static unsigned long past[LEVELS][LEVELS], rules[LEVELS][LEVELS][RULES], addresses[LEVELS][LEVELS], pairs[RULES][RULES];
static unsigned long flips[LEVELS][LEVELS][2][64], drawn[SETTINGS][3], phases[5];

/* Walks refused by 2: for the kind of access, the record or both; without paging, where the number would be 26, and others. */
static unsigned long bad[3][3];

/* No paging in a sixteenth of all, 2 levels in four, 3 in five, 4 in six. */
static unsigned any_settings(void)
{
    unsigned settings = (unsigned)any() % SETTINGS, sixteenth = below(16);

    if (sixteenth == 0)
        return settings & ~(unsigned)PG;
    if (sixteenth <= 4)
        return (settings | PG) & ~(unsigned)PAE;
    return sixteenth <= 9 ? (settings | PG | PAE) & ~(unsigned)LMA : settings | PG | PAE | LMA;
}

/* The address of a table: mostly one of the memory's. */
static uint64_t any_table(uint64_t bits)
{
    return (below(64) ? any() % MEMORY : any()) & bits;
}

/* A bit is as usual: always with odds 0, mostly with 1, in half of all with 2. */
static uint64_t with_odds(uint64_t x, uint64_t mask, int usual, unsigned odds)
{
    int is = odds == 0 || below(odds == 1 ? 8 : 2) ? usual : !usual;

    return is ? x | mask : x & ~mask;
}

/* An entry that is present, has no reserved bit, and leads on, unless by its rights. */
static uint64_t any_entry(const struct access *a, unsigned level, const unsigned *odds)
{
    const struct level *l = &pagings[a->levels].level[level];
    int large = both(l) && a->pse, page = large ? below(4) == 0 : l->table == 0;
    uint64_t x = any() & ~l->rights;

    if (l->rights) {
        x = with_odds(x, RW, 1, odds[0]);
        x = with_odds(x, US, 1, odds[1]);
    }
    if (l->rights & XD && a->nxe)
        x = with_odds(x, XD, 0, odds[2]);
    if (large)
        x = page ? x | PS : x & ~PS;
    if (!page)
        x = (x & ~l->table) | any_table(l->table);
    path.page[level] = page;
    return (x & ~(page ? l->page_reserved : l->table_reserved)) | P;
}

/* Makes CR3 and the entries on the path of an address; those that would lie past the memory are not there. */
static void make_path(const struct access *a, uint64_t address)
{
    const struct paging *p = &pagings[a->levels];
    unsigned odds[3] = {below(3), below(3), below(3)}, level;
    uint64_t table = any_table(p->top), entry;

    set_field(record(), CR3, table | (below(2) ? any() & ~p->top : 0));
    path.levels = a->levels;
    path.size = p->size;
    path.last = 1;
    for (level = a->levels; level; level--) {
        path.at[level] = place_of_entry(a->levels, level, table, address);
        entry = any_entry(a, level, odds);
        put_entry(path.at[level], p->size, entry);
        table = entry & p->level[level].table;
        path.last = level;
        if (path.page[level])
            return;
    }
}

static unsigned any_level(void)
{
    return path.last + below(path.levels - path.last + 1);
}

static void flip(unsigned level, unsigned n)
{
    uint64_t at = path.at[level];

    if (at + path.size <= MEMORY)
        put_entry(at, path.size, get(memory, (unsigned)at, path.size) ^ BIT(n));
}

/* One bit of one entry, or several, mostly those that a rule looks at. */
static void flip_several(unsigned level)
{
    static const unsigned looked_at[] = {0, 1, 2, 7, 13, 21, 52, 63};
    unsigned i;

    for (i = 0; i <= below(4); i++)
        flip(level, (below(4) ? looked_at[below(8)] : below(64)) % (8 * path.size));
}

/* The bytes of a slice: all, or up to within an entry on the path, or any number. */
static size_t any_length(void)
{
    unsigned kind = below(16);
    uint64_t at;

    if (kind == 0)
        return below(4) ? below(MEMORY + 1) : below(9);
    if (kind > 4 || !path.levels)
        return MEMORY;
    at = path.at[any_level()] + below(path.size + 1);
    return at < MEMORY ? (size_t)at : MEMORY;
}

/* Any, sign-extended as a canonical one, or of 32 bits. */
static uint64_t any_address(void)
{
    uint64_t x = any();
    unsigned kind = below(4);

    return kind == 0 ? x & BITS(0, 31) : kind == 1 ? (x & BIT(47) ? x | BITS(48, 63) : x & BITS(0, 47)) : x;
}

/* One record in sixteen has a fault, some bytes changed, or any bytes. */
static int any_fault(void)
{
    unsigned kind = below(48), i;

    if (kind == 0)
        spoil_record(1 + below(FAULTS - 1));
    if (kind == 1)
        for (i = 0; i <= below(3); i++)
            record()[below(3) ? below(N) : below(R_REGS)] = (uint8_t)any();
    if (kind == 2)
        fill(lent.record, sizeof lent.record);
    return kind <= 2;
}

static void count_pairs(unsigned broken)
{
    unsigned i, j;

    for (i = 1; i < RULES; i++)
        for (j = i + 1; j < RULES; j++)
            pairs[i][j] += broken >> i & broken >> j & 1;
}

static void count(uint32_t number, uint8_t kind)
{
    unsigned levels = access_of(record(), kind).levels;

    if (number == VCPU_REFUSED_BYTES) {
        bad[lawful(record(), record_length) ? 0 : kind <= 2 ? 1 : 2][!levels ? 0 : would.number ? 1 : 2]++;
        return;
    }
    phases[record()[R_PHASE]]++;
    if (number)
        past[levels][would.level]++;
    else if (would.answer[0] == VCPU_WALKED_ADDRESS)
        addresses[levels][would.level]++;
    else
        rules[levels][would.level][would.answer[2]]++;
    count_pairs(would.broken);
}

/* Flips bits of half of all paths. The level of an entry of which this one bit was flipped, or 0. */
static unsigned any_flip(unsigned n)
{
    unsigned level;

    if (!path.levels || below(2))
        return 0;
    level = any_level();
    if (below(4)) {
        flip(level, n);
        return level;
    }
    flip_several(level);
    return 0;
}

static void any_walk(void)
{
    unsigned settings = any_settings(), flipped, n;
    uint8_t kind = (uint8_t)(below(24) ? below(3) : below(256));
    uint64_t address = any_address();
    struct access a;
    size_t length;
    uint32_t number;
    int spoiled;

    make_record(settings);
    a = access_of(record(), kind);
    make_path(&a, address);
    n = below(a.levels == 2 ? 32 : 64);
    flipped = any_flip(n);
    length = any_length();
    spoiled = any_fault();
    number = below(64) ? ask(memory, length, address, kind) : ask_alone(length, address, kind);
    count(number, kind);
    if (number == VCPU_REFUSED_BYTES || spoiled)
        return;
    drawn[settings][kind]++;
    /* counted if the entry was read */
    if (flipped && (number ? would.level < flipped : would.level <= flipped))
        flips[a.levels][flipped][path.page[flipped]][n]++;
}

/* ---- what the walks met ---- */

/*
 * With 2 levels a 4-MByte page alone has a reserved bit, and NXE counts as clear. The top entries of PAE paging have no rights. An entry that maps no page, as those of
 * the top levels of 3 and 4, is not judged by SMEP and SMAP.
 */
static int can_break(unsigned levels, unsigned level, unsigned rule)
{
    const struct level *l = &pagings[levels].level[level];

    switch (rule) {
    case VCPU_RULE_NOT_PRESENT:
        return 1;
    case VCPU_RULE_RESERVED:
        return levels > 2 || level == 2;
    case VCPU_RULE_USER:
    case VCPU_RULE_WRITE:
        return levels != 3 || level != 3;
    case VCPU_RULE_EXECUTE:
        return levels == 4 || (levels == 3 && level != 3);
    default:
        return l->page != 0;
    }
}

/* A user's access breaks neither SMEP nor SMAP, and each kind of access has its own of write, execute, SMEP and SMAP, but write and SMAP, and execute and SMEP. */
static int exclude(unsigned i, unsigned j)
{
    static const unsigned excluded[RULES] = {[VCPU_RULE_USER] = 1 << VCPU_RULE_SMEP | 1 << VCPU_RULE_SMAP,
                                             [VCPU_RULE_WRITE] = 1 << VCPU_RULE_EXECUTE | 1 << VCPU_RULE_SMEP,
                                             [VCPU_RULE_EXECUTE] = 1 << VCPU_RULE_SMAP,
                                             [VCPU_RULE_SMEP] = 1 << VCPU_RULE_SMAP};

    return (int)(excluded[i] >> j & 1);
}

static void demand(int holds, const char *what, unsigned levels, unsigned level, unsigned n)
{
    char text[128];

    if (!holds) {
        snprintf(text, sizeof text, "%s: %u levels, level %u, %u", what, levels, level, n);
        fail(text);
    }
}

/* A hyphen where it cannot be met. */
static void print_met(unsigned long times, int can)
{
    if (can)
        printf(" %11lu", times);
    else
        printf(" %11s", "-");
}

/* A row for each level: walks refused by 26, those that fail by each rule, and those that end at a page. */
static void print_table(void)
{
    static const char *const pages[LEVELS][LEVELS] = {[2] = {0, " 4 KBytes", " 4 MBytes"}, [3] = {0, " 4 KBytes", " 2 MBytes"}, [4] = {0, " 4 KBytes", " 2 MBytes", " 1 GByte"}};
    static const char *const causes[] = {"the kind of access", "the record", "both"};
    unsigned levels, level, rule;

    printf("levels level          26 not present    reserved        user       write     execute        SMEP        SMAP     address\n");
    for (levels = 2; levels < LEVELS; levels++)
        for (level = levels; level; level--) {
            printf("%6u %5u", levels, level);
            print_met(past[levels][level], 1);
            for (rule = 1; rule < RULES; rule++)
                print_met(rules[levels][level][rule], can_break(levels, level, rule));
            print_met(addresses[levels][level], pages[levels][level] != 0);
            puts(pages[levels][level] ? pages[levels][level] : "");
        }
    printf("%6u %5s %107lu uncut\n", 0, "", addresses[0][0]);
    for (level = 0; level < 3; level++)
        printf("refused by 2 for %s: %lu without paging, %lu where 26 would be the number, %lu others\n", causes[level], bad[level][0], bad[level][1], bad[level][2]);
}

static void demand_rules(void)
{
    unsigned levels, level, rule;

    for (levels = 2; levels < LEVELS; levels++)
        for (level = levels; level; level--) {
            demand(past[levels][level] != 0, "26 not met", levels, level, 26);
            for (rule = 1; rule < RULES; rule++)
                demand(!!rules[levels][level][rule] == can_break(levels, level, rule), "a rule not met, or met where it cannot be", levels, level, rule);
            demand(!!addresses[levels][level] == !!pagings[levels].level[level].page, "pages not met, or met where none can be", levels, level, 0);
        }
    CHECK(addresses[0][0]);
}

/* Each bit of each kind of entry was flipped alone, and the entry was read. */
static unsigned demand_flips(void)
{
    unsigned levels, level, page, n, kinds = 0;

    for (levels = 2; levels < LEVELS; levels++)
        for (level = levels; level; level--)
            for (page = 0; page < 2; page++) {
                const struct level *l = &pagings[levels].level[level];

                if (!(page ? l->page : l->table))
                    continue;
                for (n = 0; n < 8 * pagings[levels].size; n++)
                    demand(flips[levels][level][page][n] != 0, "a bit not flipped", levels, level, n);
                kinds++;
            }
    return kinds;
}

static unsigned demand_pairs(void)
{
    unsigned i, j, met = 0;

    for (i = 1; i < RULES; i++)
        for (j = i + 1; j < RULES; j++) {
            demand(!!pairs[i][j] == !exclude(i, j), "rules not broken together, or though they exclude each other", 0, i, j);
            met += pairs[i][j] != 0;
        }
    return met;
}

static void demand_all(void)
{
    unsigned i;

    demand_rules();
    for (i = 0; i < SETTINGS * 3; i++)
        CHECK(drawn[i / 3][i % 3]);
    for (i = 0; i < 5; i++)
        CHECK(phases[i]);
    for (i = 0; i < 9; i++)
        CHECK(bad[i / 3][i % 3]);
    printf("walk: each bit of %u kinds of entries flipped alone, ", demand_flips());
    printf("%u pairs of rules broken by one entry, ", demand_pairs());
    printf("%u settings with each kind of access, 5 phases\n", SETTINGS);
}

int main(int argc, char **argv)
{
    unsigned long walks = argc > 1 ? strtoul(argv[1], 0, 10) : 1000000, i;

    CHECK(VCPU_REFUSED_BYTES == 2 && VCPU_REFUSED_MEMORY == 26 && VCPU_WALKED_ADDRESS == 0 && VCPU_WALKED_FAILS == 1);
    CHECK(VCPU_ACCESS_READ == 0 && VCPU_ACCESS_WRITE == 1 && VCPU_ACCESS_FETCH == 2 && VCPU_RULE_NOT_PRESENT == 1 && VCPU_RULE_RESERVED == 2);
    CHECK(VCPU_RULE_USER == 3 && VCPU_RULE_WRITE == 4 && VCPU_RULE_EXECUTE == 5 && VCPU_RULE_SMEP == 6 && VCPU_RULE_SMAP == 7);
    fixed_cases();
    ends_of_slices();
    order();
    for (i = 0; i < walks; i++) {
        if (i % 512 == 0)
            renew_memory(0);
        any_walk();
    }
    renew_memory(0);
    print_table();
    /* fewer walks do not meet all */
    if (walks >= 500000)
        demand_all();
    printf("walk: %lu walks, every number and answer as the model\n", walks);
    return 0;
}
