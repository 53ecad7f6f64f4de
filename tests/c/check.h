/*
 * Numbers that look random, and how a test fails. The file that includes it names itself by TEST.
 */
#include <stdio.h>
#include <stdlib.h>
#include <string.h>

static uint64_t state = 0x2545F4914F6CDD1Du;

static uint64_t any(void)
{
    state ^= state << 13;
    state ^= state >> 7;
    state ^= state << 17;
    return state;
}

static unsigned below(unsigned n)
{
    return (unsigned)((any() >> 20) % n);
}

/* Any bytes. Inline, since a test may have no use for it. */
static inline void fill(void *bytes, size_t n)
{
    uint8_t *b = bytes;
    uint64_t x;

    for (; n >= sizeof x; n -= sizeof x, b += sizeof x) {
        x = any();
        memcpy(b, &x, sizeof x);
    }
    x = any();
    memcpy(b, &x, n);
}

static void fail(const char *what)
{
    fprintf(stderr, TEST ": failed: %s\n", what);
    exit(1);
}

#define CHECK(e) ((e) ? (void)0 : fail(#e))
