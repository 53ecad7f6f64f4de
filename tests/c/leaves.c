/*
 * The control word and the intercept edits, from C: document 01's worked cases and edges, every refusal, that a refused call writes
 * nothing, and random edits against a bitmap kept one byte to a port or MSR access.
 */
#include "x86_vcpu.h"

#include <stdio.h>
#include <stdlib.h>
#include <string.h>

static unsigned checks;

static void check(int holds, const char *what)
{
    checks++;
    if (!holds) {
        fprintf(stderr, "leaves: failed: %s\n", what);
        exit(1);
    }
}

#define CHECK(e) check((e) != 0, #e)

static uint64_t state = 0x9E3779B97F4A7C15u;

static uint32_t any(void)
{
    state ^= state << 13;
    state ^= state >> 7;
    state ^= state << 17;
    return (uint32_t)(state >> 32);
}

/* Bits that are sparse, dense or even. */
static uint32_t bits(void)
{
    switch (any() % 4) {
    case 0: return any() & any();
    case 1: return any() | any();
    case 2: return 0;
    default: return any();
    }
}

static uint32_t word(uint32_t allowed0, uint32_t allowed1, uint32_t old, uint32_t set, uint32_t clear, uint32_t *out)
{
    return vcpu_set_control(allowed0, allowed1, old, set, clear, out);
}

static void control_words(void)
{
    uint32_t w = 0xDEADBEEF;
    unsigned i, taken = 0;

    /* P1, P2, P3 */
    CHECK(word(0x16, 0x7F, 0x16, 9, 0, &w) == 0 && w == 0x1F);
    w = 0xDEADBEEF;
    CHECK(word(0x16, 0x7F, 0x16, 1, 1, &w) == VCPU_REFUSED_SET_AND_CLEAR && w == 0xDEADBEEF);
    CHECK(word(0x16, 0x7F, 0x16, 0, 2, &w) == VCPU_REFUSED_CLEAR && w == 0xDEADBEEF);
    /* the order of the refusals: each call also meets the conditions of those after it */
    CHECK(word(0x80, 0x7F, 0, 0x181, 0x81, &w) == VCPU_REFUSED_PAIR && w == 0xDEADBEEF);
    CHECK(word(0x01, 0x7F, 0, 0x81, 0x81, &w) == VCPU_REFUSED_SET_AND_CLEAR && w == 0xDEADBEEF);
    CHECK(word(0x01, 0x7F, 0, 0x80, 0x01, &w) == VCPU_REFUSED_SET && w == 0xDEADBEEF);
    CHECK(word(0x01, 0x7F, 0, 0x40, 0x01, &w) == VCPU_REFUSED_CLEAR && w == 0xDEADBEEF);

    for (i = 0; i < 200000; i++) {
        uint32_t one = any() % 8 ? bits() | 0xFFFF : bits(), zero = any() % 8 ? bits() & one : bits();
        uint32_t old = bits(), set = any() % 4 ? bits() & one : bits(), clear = bits() & ~set & ~zero, wanted = 0xDEADBEEF, r = 0;
        int k;

        if (any() % 8 == 0)
            clear = bits();
        w = 0xDEADBEEF;
        /* bit by bit, from the manual */
        for (k = 0; k < 32 && !r; k++)
            if ((zero >> k & 1) && !(one >> k & 1))
                r = VCPU_REFUSED_PAIR;
        for (k = 0; k < 32 && !r; k++)
            if ((set >> k & 1) && (clear >> k & 1))
                r = VCPU_REFUSED_SET_AND_CLEAR;
        for (k = 0; k < 32 && !r; k++)
            if ((set >> k & 1) && !(one >> k & 1))
                r = VCPU_REFUSED_SET;
        for (k = 0; k < 32 && !r; k++)
            if ((clear >> k & 1) && (zero >> k & 1))
                r = VCPU_REFUSED_CLEAR;
        if (!r)
            for (wanted = 0, k = 0; k < 32; k++) {
                uint32_t b = old >> k & 1;

                if (set >> k & 1)
                    b = 1;
                if (clear >> k & 1)
                    b = 0;
                if (zero >> k & 1)
                    b = 1;
                if (!(one >> k & 1))
                    b = 0;
                wanted |= b << k;
            }
        CHECK(word(zero, one, old, set, clear, &w) == r && w == wanted);
        taken += r == 0;
    }
    printf("set_control: %u calls, %u accepted\n", i, taken);
    CHECK(taken > i / 2);
}

static uint8_t a[VCPU_FRAME_LENGTH + 1], b[VCPU_FRAME_LENGTH + 1], m[VCPU_FRAME_LENGTH + 1];
static uint8_t a0[sizeof a], b0[sizeof b], m0[sizeof m];

static void fill(void)
{
    size_t i;

    for (i = 0; i < sizeof a; i++) {
        a0[i] = a[i] = (uint8_t)any();
        b0[i] = b[i] = (uint8_t)any();
        m0[i] = m[i] = (uint8_t)any();
    }
}

static int kept(void)
{
    return !memcmp(a, a0, sizeof a) && !memcmp(b, b0, sizeof b) && !memcmp(m, m0, sizeof m);
}

static uint32_t ports(size_t la, size_t lb, uint32_t base, uint32_t count, uint8_t on)
{
    return vcpu_set_io_intercept_of_range(a, la, b, lb, base, count, on);
}

static void port_edges(void)
{
    const size_t n = VCPU_FRAME_LENGTH;

    fill();
    CHECK(ports(n - 1, n, 0, 1, 1) == VCPU_REFUSED_BYTES && kept());
    CHECK(ports(n + 1, n, 0, 1, 1) == VCPU_REFUSED_BYTES && kept());
    CHECK(ports(n, n - 1, 0, 1, 1) == VCPU_REFUSED_BYTES && kept());
    CHECK(ports(n, n + 1, 0, 1, 1) == VCPU_REFUSED_BYTES && kept());
    CHECK(ports(0, 0, 65536, 1, 1) == VCPU_REFUSED_BYTES && kept());
    CHECK(ports(n, n, 0, 1, 2) == VCPU_REFUSED_BYTES && kept());
    CHECK(ports(n, n, 65536, 1, 255) == VCPU_REFUSED_BYTES && kept());
    CHECK(ports(n, n, 65535, 2, 1) == VCPU_REFUSED_PORT && kept());
    CHECK(ports(n, n, 65536, 1, 1) == VCPU_REFUSED_PORT && kept());
    CHECK(ports(n, n, 1, 0xFFFFFFFF, 1) == VCPU_REFUSED_PORT && kept());
    CHECK(ports(n, n, 0, 65537, 1) == VCPU_REFUSED_PORT && kept());
    CHECK(ports(n, n, 0xFFFFFFFF, 0, 1) == 0 && kept());
    /* P6: port 0x604 is bit 4 of byte 192 of A */
    a0[192] |= 0x10;
    CHECK(ports(n, n, 0x604, 1, 1) == 0 && kept());
    a0[192] &= (uint8_t)~0x10;
    CHECK(ports(n, n, 0x604, 1, 0) == 0 && kept());
    /* the last port of all, and both frames whole */
    b0[4095] |= 0x80;
    CHECK(ports(n, n, 65535, 1, 1) == 0 && kept());
    memset(a0, 0xFF, n);
    memset(b0, 0xFF, n);
    CHECK(ports(n, n, 0, 65536, 1) == 0 && kept());
    memset(a0, 0, n);
    memset(b0, 0, n);
    CHECK(ports(n, n, 0, 65536, 0) == 0 && kept());
}

static void random_ports(void)
{
    unsigned i, taken = 0;

    for (i = 0; i < 20000; i++) {
        uint32_t base = any() % 65600, count = any() % (any() % 4 ? 40 : 66000), p;
        uint8_t on = any() % 2;

        if (any() % 4 == 0)
            base = 0x8000 - any() % 20;
        if (count && (uint64_t)base + count > 65536) {
            CHECK(ports(VCPU_FRAME_LENGTH, VCPU_FRAME_LENGTH, base, count, on) == VCPU_REFUSED_PORT && kept());
            continue;
        }
        for (p = base; p < base + count; p++) {
            uint8_t *frame = p < 0x8000 ? a0 : b0;

            frame[p % 0x8000 / 8] = (uint8_t)((frame[p % 0x8000 / 8] & ~(1u << p % 8)) | (unsigned)on << p % 8);
        }
        CHECK(ports(VCPU_FRAME_LENGTH, VCPU_FRAME_LENGTH, base, count, on) == 0 && kept());
        taken++;
    }
    printf("set_io_intercept_of_range: %u calls, %u accepted\n", i, taken);
    CHECK(taken > i / 2);
}

static uint32_t msr(int access, size_t length, uint32_t number, uint8_t on)
{
    return access == 0   ? vcpu_set_read_intercept(m, length, number, on)
           : access == 1 ? vcpu_set_write_intercept(m, length, number, on)
                         : vcpu_set_msr_intercept_of_range(m, length, number, on);
}

static void expect(uint32_t number, unsigned half, uint8_t on)
{
    unsigned byte = half * 2048 + (number >= 0xC0000000 ? 1024 : 0) + (number & 0x1FFF) / 8;

    m0[byte] = (uint8_t)((m0[byte] & ~(1u << number % 8)) | (unsigned)on << number % 8);
}

static void msrs(void)
{
    static const uint32_t edges[] = {0, 7, 8, 0x1FFF, 0x2000, 0xBFFFFFFF, 0xC0000000, 0xC0000080, 0xC0001FFF, 0xC0002000, 0xFFFFFFFF};
    unsigned i, taken = 0;
    int access;

    fill();
    for (access = 0; access < 3; access++) {
        CHECK(msr(access, VCPU_FRAME_LENGTH - 1, 0, 1) == VCPU_REFUSED_BYTES && kept());
        CHECK(msr(access, VCPU_FRAME_LENGTH + 1, 0, 1) == VCPU_REFUSED_BYTES && kept());
        CHECK(msr(access, 0, 0x2000, 1) == VCPU_REFUSED_BYTES && kept());
        CHECK(msr(access, VCPU_FRAME_LENGTH, 0x2000, 2) == VCPU_REFUSED_BYTES && kept());
        CHECK(msr(access, VCPU_FRAME_LENGTH, 0x2000, 1) == VCPU_REFUSED_MSR && kept());
    }
    /* P7: a write of MSR 0xC0000080 is bit 0 of byte 3,088 */
    m[3088] &= 0xFE;
    m0[3088] |= 0x01;
    CHECK(msr(1, VCPU_FRAME_LENGTH, 0xC0000080, 1) == 0 && kept());
    for (i = 0; i < 200000; i++) {
        uint32_t number = any() % 4 == 0 ? edges[any() % 11] : any() % 2 ? any() % 0x2100 : 0xC0000000 + any() % 0x2100;
        uint8_t on = any() % 2;
        int named = number <= 0x1FFF || (0xC0000000 <= number && number <= 0xC0001FFF);

        access = (int)(any() % 3);
        if (named && access != 1)
            expect(number, 0, on);
        if (named && access != 0)
            expect(number, 1, on);
        CHECK(msr(access, VCPU_FRAME_LENGTH, number, on) == (named ? 0u : VCPU_REFUSED_MSR) && kept());
        taken += (unsigned)named;
    }
    printf("MSR edits: %u calls, %u accepted\n", i, taken);
    CHECK(taken > i / 2);
}

int main(void)
{
    control_words();
    port_edges();
    random_ports();
    msrs();
    printf("leaves: %u checks pass\n", checks);
    return 0;
}
