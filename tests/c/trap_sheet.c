/*
 * The trap sheet, from C: 20,000 sets of frames (or as many as the first argument says), of all densities, each with outputs of six lengths, against lines that snprintf
 * makes of the bits as the manual lays them out. The number, the length, each byte written and each byte kept, the frames' too, are compared. Before them come sheets that
 * are typed whole, the longest sheet, and lengths that are refused.
 */
#include "x86_vcpu.h"

#define TEST "trap_sheet"
#include "check.h"

/* Typed apart from the header, since they judge it. */
enum { FRAME = 4096, LINE = 41, TOTALS = 3 * LINE, LARGEST = (3 + 65536 / 2 + 32768 / 2) * LINE };

/* ---- the frames, which stand at any alignment, with bytes around them that are not theirs ---- */

enum { A, B, MSR, FRAMES };

static uint8_t memory[FRAMES][FRAME + 32], before[FRAMES][FRAME + 32], *frame[FRAMES];

/* A place for each frame, and all bytes the same. */
static void all(uint8_t around, uint8_t x)
{
    unsigned i;

    memset(memory, around, sizeof memory);
    for (i = 0; i < FRAMES; i++) {
        frame[i] = memory[i] + 1 + below(8);
        memset(frame[i], x, FRAME);
    }
}

/* ---- the model ---- */

static const char *const kinds[] = {"port", "read", "writ"};

static char sheet[LARGEST];
static size_t sheet_length;

/* Ports below 0x8000 are in A. In the MSR frame reads of low MSRs come first, then reads of high ones, writes of low ones, writes of high ones. */
static int trapped(unsigned kind, uint32_t number)
{
    if (kind == 0)
        return (number < 0x8000 ? frame[A] : frame[B])[number % 0x8000 / 8] >> number % 8 & 1;
    return frame[MSR][(kind == 2 ? 2048 : 0) + (number >= 0xC0000000 ? 1024 : 0) + number % 0x2000 / 8] >> number % 8 & 1;
}

static void add_run(unsigned kind, uint32_t first, uint32_t last, unsigned numbers)
{
    char line[64];

    CHECK(snprintf(line, sizeof line, "%-4s  %08x  %08x  %14u\n", kinds[kind], (unsigned)first, (unsigned)last, numbers) == LINE);
    CHECK(sheet_length + LINE <= LARGEST);
    memcpy(sheet + sheet_length, line, LINE);
    sheet_length += LINE;
}

/* Adds the runs of a range; how many of its numbers are trapped. */
static unsigned add_range(unsigned kind, uint32_t first, unsigned numbers)
{
    unsigned i, run = 0, total = 0;

    for (i = 0; i < numbers; i++) {
        if (trapped(kind, first + i)) {
            run++;
        } else if (run) {
            add_run(kind, first + i - run, first + i - 1, run);
            total += run;
            run = 0;
        }
    }
    if (run)
        add_run(kind, first + i - run, first + i - 1, run);
    return total + run;
}

static void model(void)
{
    unsigned kind, total;
    char line[64];

    sheet_length = TOTALS;
    for (kind = 0; kind < 3; kind++) {
        total = kind ? add_range(kind, 0, 0x2000) : add_range(kind, 0, 65536);
        total += kind ? add_range(kind, 0xC0000000, 0x2000) : 0;
        CHECK(snprintf(line, sizeof line, "%-4s%22s%14u\n", kinds[kind], "", total) == LINE);
        memcpy(sheet + kind * LINE, line, LINE);
    }
}

/* ---- calls ---- */

/* The output, with bytes around it, and what it holds beforehand: no byte of a text. */
enum { MARGIN = 64, ALL = MARGIN + LARGEST + 1 + MARGIN };

static uint8_t output[ALL], paint[ALL];

/* The calls that got each number. */
static unsigned long counts[25];

static void paint_output(void)
{
    size_t i;

    for (i = 0; i < ALL; i++)
        output[i] = paint[i] = (uint8_t)(0x80 | i * 167 >> 3);
}

static void output_kept(size_t bytes)
{
    CHECK(memcmp(output, paint, bytes < ALL ? bytes : ALL) == 0);
}

/*
 * A call with frames of these lengths, which must answer number. The output is painted again where the sheet stood, and compared up to some bytes past it: to compare all of it each
 * time would take too long, and a byte written farther away stays until that is done.
 */
static void call(const size_t *lengths, size_t room, uint32_t number)
{
    const uint64_t unwritten = 0x1122334455667788u;
    size_t written = number ? 0 : sheet_length;
    uint64_t length = unwritten;

    memcpy(before, memory, sizeof memory);
    CHECK(vcpu_trap_sheet(frame[A], lengths[A], frame[B], lengths[B], frame[MSR], lengths[MSR], output + MARGIN, room, &length) == number);
    CHECK(length == (number ? unwritten : sheet_length));
    CHECK(memcmp(output + MARGIN, sheet, written) == 0);
    memcpy(output + MARGIN, paint + MARGIN, written);
    output_kept(MARGIN + sheet_length + FRAME);
    CHECK(memcmp(memory, before, sizeof memory) == 0);
    counts[number]++;
}

static const size_t right[FRAMES] = {FRAME, FRAME, FRAME};

enum { ROOMS = 6 };

static size_t room(unsigned i)
{
    const size_t rooms[ROOMS] = {0, TOTALS - 1, sheet_length - 1, sheet_length, sheet_length + 1, LARGEST};

    return rooms[i];
}

static void with_room(size_t bytes)
{
    call(right, bytes, bytes < sheet_length ? VCPU_REFUSED_ROOM : 0);
}

static void each_room(void)
{
    unsigned i;

    for (i = 0; i < ROOMS; i++)
        with_room(room(i));
}

/* ---- known sheets ---- */

static void known(const char *text)
{
    model();
    CHECK(sheet_length == strlen(text) && memcmp(sheet, text, sheet_length) == 0);
    each_room();
    output_kept(ALL);
}

static void setup_frames(void)
{
    all(0, 0);
    frame[A][192] = 0x10;
    frame[MSR][28] = frame[MSR][2048 + 28] = 0x02;
    memset(frame[MSR] + 256, 0xFF, 8);
    memset(frame[MSR] + 2048 + 256, 0xFF, 8);
}

/* No trap, those of setup on a new session, and all traps; around the frames is what they lack. */
static void known_sheets(void)
{
    all(0xFF, 0);
    known("port                                   0\n"
          "read                                   0\n"
          "writ                                   0\n");
    setup_frames();
    known("port                                   1\n"
          "read                                  65\n"
          "writ                                  65\n"
          "port  00000604  00000604               1\n"
          "read  000000e1  000000e1               1\n"
          "read  00000800  0000083f              64\n"
          "writ  000000e1  000000e1               1\n"
          "writ  00000800  0000083f              64\n");
    all(0, 0xFF);
    known("port                               65536\n"
          "read                               16384\n"
          "writ                               16384\n"
          "port  00000000  0000ffff           65536\n"
          "read  00000000  00001fff            8192\n"
          "read  c0000000  c0001fff            8192\n"
          "writ  00000000  00001fff            8192\n"
          "writ  c0000000  c0001fff            8192\n");
}

/* Every second number is trapped, the even ones or the odd ones: no sheet is longer. */
static void longest(uint8_t x)
{
    all(0xFF, x);
    model();
    CHECK(sheet_length == LARGEST);
    each_room();
    output_kept(ALL);
}

/* ---- lengths ---- */

/* A length that no frame has, which its memory has. */
static size_t wrong_length(unsigned i)
{
    static const size_t lengths[] = {FRAME - 1, FRAME + 1, 0, 1, FRAME - 8, FRAME + 8};

    return lengths[i % (sizeof lengths / sizeof lengths[0])];
}

/* Each frame alone and all together have a wrong length, with any output, also one that is too short for the sheet. No length of the output is wrong. */
static void lengths(void)
{
    static const size_t rooms[] = {0, 1, 40, 41, 82, 122, 123, 124, 327, 328, 329, 4095, 4096, 4097, 12287, 12288, 12289, LARGEST - 1, LARGEST};
    const unsigned count = sizeof rooms / sizeof rooms[0];
    unsigned i, k, wrong;

    setup_frames();
    model();
    for (k = 0; k < count; k++) {
        with_room(rooms[k]);
        for (i = 0; i < 6; i++)
            for (wrong = 1; wrong < 8; wrong++) {
                const size_t lent[FRAMES] = {wrong & 1 ? wrong_length(i) : FRAME, wrong & 2 ? wrong_length(i) : FRAME, wrong & 4 ? wrong_length(i) : FRAME};

                call(lent, rooms[k], VCPU_REFUSED_BYTES);
            }
    }
    output_kept(ALL);
}

/* ---- frames of all densities ---- */

enum { BITS = FRAMES * FRAME * 8 };

/* Sets or clears bits, counted through A, B and the MSR frame; those past the last are left out. */
static void set_bits(unsigned first, unsigned bits, int on)
{
    for (; bits && first < BITS; bits--, first++) {
        uint8_t *byte = frame[first / 8 / FRAME] + first / 8 % FRAME;

        *byte = (uint8_t)((*byte & ~(1u << first % 8)) | (unsigned)on << first % 8);
    }
}

/* A byte whose bits are each set with a chance of so many eighths. */
static uint8_t byte(unsigned eighths)
{
    uint64_t x = any(), y = x >> 16, z = x >> 32;

    switch (eighths) {
    case 0: return 0;
    case 1: return (uint8_t)(x & y & z);
    case 2: return (uint8_t)(x & y);
    case 3: return (uint8_t)(x & (y | z));
    case 4: return (uint8_t)x;
    case 5: return (uint8_t)(x | (y & z));
    case 6: return (uint8_t)(x | y);
    case 7: return (uint8_t)(x | y | z);
    default: return 0xFF;
    }
}

/* Bytes of one density, all of them or a stretch. */
static void dense(unsigned first, unsigned bytes)
{
    unsigned eighths = below(9);

    for (; bytes && first < BITS / 8; bytes--, first++)
        frame[first / FRAME][first % FRAME] = byte(eighths);
}

/* How many gaps and how many runs were laid over byte borders. */
static unsigned long crossed[2];

/* Runs, or gaps, over some byte borders. All have their turn, by steps of seven so that those of one call stay apart. */
static void cross_bytes(int on)
{
    unsigned borders = below(32);

    for (; borders; borders--) {
        unsigned border = 1 + (unsigned)(7 * crossed[on]++ % (BITS / 8 - 1)), ahead = 1 + below(8);

        set_bits(8 * border - ahead, ahead + 1 + below(9), on);
    }
}

/* The same over the borders of frames and of quarters. */
static void cross_parts(int on)
{
    static const unsigned borders[] = {FRAME, 2 * FRAME, 2 * FRAME + 1024, 2 * FRAME + 2048, 2 * FRAME + 3072};
    unsigned i;

    for (i = 0; i < 5; i++)
        if (below(4) == 0) {
            unsigned ahead = below(3) ? 1 : below(80);

            set_bits(8 * borders[i] - ahead, ahead + below(80), on);
        }
}

/* Few bits or few holes; stretches of one density; single bytes; long runs; setup's frames with few changes. One of 128 is dense all over. */
static void any_frames(void)
{
    unsigned most = below(2) ? 3 : 40, i;
    int on = (int)below(2);

    all(below(2) ? 0xFF : 0, on ? 0 : 0xFF);
    if (below(128) == 0) {
        for (i = 0; i < FRAMES; i++)
            dense(i * FRAME, FRAME);
        return;
    }
    switch (below(5)) {
    case 0:
        for (i = below(most); i; i--)
            set_bits(below(BITS), 1, on);
        break;
    case 1:
        for (i = below(3); i; i--)
            dense(below(BITS / 8), 1 + below(200));
        break;
    case 2:
        for (i = below(most); i; i--)
            dense(below(BITS / 8), 1);
        break;
    case 3:
        for (i = below(most); i; i--)
            set_bits(below(BITS), below(3000), (int)below(2));
        break;
    default:
        setup_frames();
        on = 1;
        for (i = below(4); i; i--)
            set_bits(below(BITS), 1, (int)below(2));
    }
    if (below(2))
        cross_bytes(on);
    cross_parts(on);
}

static void many(unsigned long times)
{
    unsigned long i;

    for (i = 0; i < times; i++) {
        any_frames();
        model();
        each_room();
        if (below(4) == 0) {
            size_t lent[FRAMES] = {FRAME, FRAME, FRAME};

            lent[below(FRAMES)] = wrong_length(below(6));
            call(lent, room(below(ROOMS)), VCPU_REFUSED_BYTES);
        }
        if (i % 64 == 0)
            output_kept(ALL);
    }
    output_kept(ALL);
    CHECK(times < 20000 || (crossed[0] >= BITS / 8 && crossed[1] >= BITS / 8));
}

int main(int argc, char **argv)
{
    unsigned long times = argc > 1 ? strtoul(argv[1], 0, 10) : 20000;

    CHECK(VCPU_FRAME_LENGTH == FRAME && VCPU_SHEET_LINE == LINE && VCPU_SHEET_LARGEST == LARGEST);
    CHECK(VCPU_REFUSED_BYTES == 2 && VCPU_REFUSED_ROOM == 24);
    paint_output();
    known_sheets();
    longest(0x55);
    longest(0xAA);
    lengths();
    many(times);
    printf("trap_sheet: %lu sheets written, %lu calls refused by 24, %lu by 2\n", counts[0], counts[24], counts[2]);
    printf("trap_sheet: %lu sets of frames, every byte as the model\n", times);
    return 0;
}
