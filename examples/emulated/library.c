/* What a compiler and the archive ask for (memset, memcpy, memmove), and output through port 0xE9, which the emulator prints. */
#include "host.h"
#include "instructions.h"

void *memset(void *to, int byte, size_t length)
{
    void *start = to;

    ASM("rep stosb" : "+D"(to), "+c"(length) : "a"(byte) : "memory");
    return start;
}

void *memcpy(void *to, const void *from, size_t length)
{
    void *start = to;

    ASM("rep movsb" : "+D"(to), "+S"(from), "+c"(length) : : "memory");
    return start;
}

void *memmove(void *to, const void *from, size_t length)
{
    uint8_t *a = to;
    const uint8_t *b = from;

    if (a <= b)
        return memcpy(to, from, length);
    while (length--)
        ((volatile uint8_t *)a)[length] = b[length];
    return to;
}

static void text(const char *s)
{
    while (*s)
        out8(0xE9, (uint8_t)*s++);
}

static void number(uint64_t x, unsigned base)
{
    char digits[24];
    int at = sizeof digits;

    digits[--at] = 0;
    do
        digits[--at] = "0123456789ABCDEF"[x % base];
    while (x /= base);
    text(digits + at);
}

/* %s; %d, an unsigned int; %x and %u, an uint64_t in hexadecimal with 0x and in decimal. */
void print(const char *format, va_list values)
{
    for (; *format; format++) {
        if (*format != '%') {
            out8(0xE9, (uint8_t)*format);
            continue;
        }
        switch (*++format) {
        case 's':
            text(va_arg(values, const char *));
            break;
        case 'd':
            number(va_arg(values, unsigned), 10);
            break;
        case 'u':
            number(va_arg(values, uint64_t), 10);
            break;
        case 'x':
            text("0x");
            number(va_arg(values, uint64_t), 16);
            break;
        }
    }
}

/* What the table is made of. */
void say(const char *format, ...)
{
    va_list values;

    va_start(values, format);
    print(format, values);
    va_end(values);
}

/* What only `run -v` shows. */
void tell(const char *format, ...)
{
    va_list values;

    if (!deviates(VERBOSE))
        return;
    va_start(values, format);
    print(format, values);
    va_end(values);
}

/* Turns the machine off: the emulator takes this word at this port. */
void stop(void)
{
    const char *s;

    text("end\n");
    for (;;)
        for (s = "Shutdown"; *s; s++)
            out8(0x8900, (uint8_t)*s);
}
