/* The trap sheet: printed, and every exit of a port or an MSR held to its text, as an installer reads it. */
#include "host.h"
#include "instructions.h"

#define ROOM 4096
/* The columns of a line (include/x86_vcpu.h, "Trap sheet"); the totals, one for each kind, come first. */
#define FIRST_AT 6
#define LAST_AT 16
#define NUMBER_AT 26
#define TOTALS 3

/* An access of a guest as it names it in its memory. */
struct access {
    uint32_t number;
    uint8_t kind, width;
    uint16_t routine;
};

static const char *const kinds[TOTALS] = {"port", "read", "writ"};
/* The sheet that was printed last, and a zero behind it. */
static char sheet[ROOM + 1];
static uint64_t length;
static const char *const lines = sheet + TOTALS * VCPU_SHEET_LINE;
/* Which of the named accesses made an exit. */
static uint8_t exited[ACCESS_ROOM];

/* ---- Its text ---- */

static uint64_t number_at(const char *columns, unsigned width, unsigned base)
{
    uint64_t x = 0;

    for (; width--; columns++)
        if (*columns != ' ')
            x = base * x + (unsigned)(*columns <= '9' ? *columns - '0' : *columns - 'a' + 10);
    return x;
}

uint64_t sheet_total(unsigned kind)
{
    return number_at(sheet + VCPU_SHEET_LINE * kind + NUMBER_AT, 14, 10);
}

static int is_of(const char *line, const char *kind)
{
    unsigned i;

    for (i = 0; i < 4 && line[i] == kind[i]; i++)
        ;
    return i == 4;
}

/* Whether any number from first to last is on a line. */
static int on_line(unsigned kind, uint64_t first, uint64_t last)
{
    const char *line;

    for (line = lines; line < sheet + length; line += VCPU_SHEET_LINE)
        if (is_of(line, kinds[kind]) && number_at(line + FIRST_AT, 8, 16) <= last && first <= number_at(line + LAST_AT, 8, 16))
            return 1;
    return 0;
}

/* The lines of a kind add up to its total, by their ends and by their last column. */
static void add_up(unsigned kind)
{
    uint64_t by_ends = 0, by_column = 0;
    const char *line;

    for (line = lines; line < sheet + length; line += VCPU_SHEET_LINE)
        if (is_of(line, kinds[kind])) {
            by_ends += number_at(line + LAST_AT, 8, 16) - number_at(line + FIRST_AT, 8, 16) + 1;
            by_column += number_at(line + NUMBER_AT, 14, 10);
        }
    check("a total of the sheet, by the ends of the lines", by_ends, sheet_total(kind));
    check("a total of the sheet, by the lines' last column", by_column, sheet_total(kind));
}

void print_sheet(const char *when)
{
    uint32_t number = vcpu_trap_sheet(io_a, sizeof io_a, io_b, sizeof io_b, msrs, sizeof msrs, (uint8_t *)sheet, ROOM, &length);
    unsigned kind;

    if (number) {
        ending("sheet refused %d", number);
        stop();
    }
    sheet[length] = 0;
    say("trap sheet %s:\n%s", when, sheet);
    for (kind = 0; kind < TOTALS; kind++)
        add_up(kind);
}

/* ---- Held to it ---- */

/* Whether an access always exits: it wraps past the last port, or is of an MSR that the frame has no bit for (SDM 3C, 26.1.3 and 25.6.9). */
static int always(const struct access *a)
{
    if (a->kind == ACCESS_PORT)
        return a->number + a->width > 0x10000;
    return (a->number > LOW_MSRS_LAST && a->number < HIGH_MSRS_FIRST) || a->number > HIGH_MSRS_LAST;
}

static void hold(const struct access *a, int exits)
{
    uint64_t first = a->number, last = first + a->width - 1;
    int on = on_line(a->kind, first, last);
    const char *line = on ? "a line" : "no line", *exit = exits ? "an exit" : "no exit";

    count.checks++;
    if (exits == (on || always(a))) {
        tell("  check %s %x to %x, on %s of the sheet: %s\n", kinds[a->kind], first, last, line, exit);
        return;
    }
    count.wrong++;
    say("wrong: %s %x to %x, on %s of the sheet: %s\n", kinds[a->kind], first, last, line, exit);
}

static struct access named(unsigned i)
{
    struct access a;

    memcpy(&a, memory + ACCESSES + sizeof a * i, sizeof a);
    return a;
}

static uint64_t as_word(const struct access *a)
{
    return (uint64_t)a->width << 40 | (uint64_t)a->kind << 32 | a->number;
}

/* An exit of a port or an MSR: the sheet has it, and where the guest names its accesses it is the last one named. */
void check_trap(uint32_t reason)
{
    uint64_t qualification = vmread(VmcsReadOnlyNW_EXIT_QUALIFICATION);
    struct access a = {(uint32_t)guest_area.regs[RCX], ACCESS_READ, 1, 0}, its;
    unsigned n = memory[ACCESS];

    if (reason != EXIT_IO && reason != EXIT_RDMSR && reason != EXIT_WRMSR)
        return;
    if (reason == EXIT_WRMSR)
        a.kind = ACCESS_WRITE;
    if (reason == EXIT_IO)
        a = (struct access){qualification >> 16 & 0xFFFF, ACCESS_PORT, (qualification & 7) + 1, 0};
    hold(&a, 1);
    if (!n)
        return;
    its = named(n - 1);
    check("the access that the guest has named: width, kind, number", as_word(&a), as_word(&its));
    exited[n - 1] = 1;
}

/* The other direction, once the guest has made all its accesses: those that made no exit. Each other made one. */
void check_accesses(void)
{
    struct access a;
    unsigned i, n = 0;

    for (i = 0; i < memory[ACCESS]; i++) {
        a = named(i);
        n += exited[i];
        if (!exited[i])
            hold(&a, 0);
    }
    check("exits of ports and MSRs", count.by_reason[EXIT_IO] + count.by_reason[EXIT_RDMSR] + count.by_reason[EXIT_WRMSR], n);
}
