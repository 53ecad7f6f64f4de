/*
 * What the tests of a session share: a record's parts, numbers and fields, and which bytes are a record. The file that includes it names itself by TEST.
 */
#include "check.h"
#include "fields.h"

/* The fields of a record, and the events that may wait in its queue. */
enum { FIELDS = sizeof fields / sizeof fields[0], EVENTS = 64 };

/*
 * The parts of a record in their order, each with its length in bytes; nothing lies between them. They are typed apart from the header, since they
 * judge it: session.c compares its offsets and its length with these. A new part is one line here.
 */
#define RECORD(F)         \
    F(PHASE, 1)           \
    F(LAUNCHED, 1)        \
    F(ENTRIES, 4)         \
    F(HELD, 4)            \
    F(REGS, 16 * 8)       \
    F(W16, 17 * 2)        \
    F(W32, 50 * 4)        \
    F(W64, 41 * 8)        \
    F(NATURAL, 46 * 8)    \
    F(WAITING, 1)         \
    F(VECTORS, EVENTS)    \
    F(CODED, 8)           \
    F(CODES, EVENTS * 4)  \
    F(PAIRS, 5 * 8)       \
    F(CR0, 2 * 8)         \
    F(CR4, 2 * 8)         \
    F(XCR0, 8)            \
    F(XCR0_SUPPORTED, 8)

/* R_PHASE and so on: where each part starts, one byte past the last one of the part before it; N: the record's length. */
#define START(name, length) R_##name, R_##name##_LAST = R_##name + (length) - 1,
enum { RECORD(START) N };

/* L_PHASE and so on: the length of each part. */
#define LENGTH(name, length) L_##name = length,
enum { RECORD(LENGTH) };

/* Where a register, the error code of a place in the queue, and the two words of a kept pair stand. */
#define R_REG(i) (R_REGS + 8 * (i))
#define R_CODE(place) (R_CODES + 4 * (place))
#define R_ALLOWED0(pair) (R_PAIRS + 8 * (pair))
#define R_ALLOWED1(pair) (R_PAIRS + 8 * (pair) + 4)

static uint64_t get(const uint8_t *r, unsigned at, unsigned size)
{
    uint64_t x = 0;

    while (size--)
        x = x << 8 | r[at + size];
    return x;
}

static void put(uint8_t *r, unsigned at, unsigned size, uint64_t x)
{
    for (; size--; at++, x >>= 8)
        r[at] = (uint8_t)x;
}

static unsigned place(uint64_t encoding)
{
    unsigned i;

    for (i = 0; i < FIELDS && fields[i].encoding != encoding; i++)
        ;
    return i;
}

static uint64_t field(const uint8_t *r, uint64_t encoding)
{
    unsigned i = place(encoding);

    return get(r, fields[i].offset, fields[i].width);
}

static void set_field(uint8_t *r, uint64_t encoding, uint64_t x)
{
    unsigned i = place(encoding);

    put(r, fields[i].offset, fields[i].width, x);
}

static int lawful(const uint8_t *r, size_t length)
{
    return length == N && r[R_PHASE] <= 4 && r[R_LAUNCHED] <= 1 && get(r, R_HELD, L_HELD) <= get(r, R_ENTRIES, L_ENTRIES) && r[R_WAITING] <= EVENTS;
}
