/*
 * The stack that each call needs: the other tests of this folder in one program, in which every call is made on a stack of its own that was painted
 * beforehand. The linker puts the function below in place of each exported one (--wrap). At the end the deepest byte that the calls of a function
 * changed is printed and compared with the number in the header's VCPU_STACK.
 */
#include "x86_vcpu.h"

#include <stdio.h>
#include <string.h>

/* The bytes of each stack, what they are painted with, and how many of them a call's arguments take. */
enum { SIZE = 16384, PAINT = 0xA5, ARGUMENTS = 6 * 8 };

/* Not static, since the assembler names them. */
#define STACK(name, most)             \
    extern uint8_t stack_##name[SIZE]; \
    uint8_t stack_##name[SIZE] __attribute__((aligned(16)));
VCPU_STACK(STACK)

/*
 * Calls the function on its stack, with the registers as they are. The last five of eleven arguments are on the stack, and six words keep it aligned to 16; a call with fewer
 * arguments copies other words.
 */
#define WRAPPER(name, most)                                 \
    __asm__(".text\n"                                       \
            ".globl __wrap_" #name "\n"                     \
            "__wrap_" #name ":\n"                           \
            "pushq %rbx\n"                                  \
            "movq %rsp, %rbx\n"                             \
            "leaq stack_" #name " + 16384(%rip), %rsp\n"    \
            "pushq 56(%rbx)\n"                              \
            "pushq 48(%rbx)\n"                              \
            "pushq 40(%rbx)\n"                              \
            "pushq 32(%rbx)\n"                              \
            "pushq 24(%rbx)\n"                              \
            "pushq 16(%rbx)\n"                              \
            "call __real_" #name "\n"                       \
            "movq %rbx, %rsp\n"                             \
            "popq %rbx\n"                                   \
            "ret\n");
VCPU_STACK(WRAPPER)

#define CALL(name, most) {#name, stack_##name, most},
static const struct {
    const char *name;
    uint8_t *stack;
    unsigned most;
} calls[] = {VCPU_STACK(CALL)};

enum { CALLS = sizeof calls / sizeof calls[0] };

int leaves_main(void);
int session_main(int argc, char **argv);
int setup_main(int argc, char **argv);
int report_main(int argc, char **argv);
int trap_sheet_main(int argc, char **argv);
int trials_main(int argc, char **argv);
int two_hands_main(int argc, char **argv);
int walk_main(int argc, char **argv);

/* How far below the caller's stack pointer the calls changed a byte. */
static unsigned deepest(const uint8_t *stack)
{
    unsigned at = 0;

    while (at < SIZE - ARGUMENTS && stack[at] == PAINT)
        at++;
    return SIZE - ARGUMENTS - at;
}

/* The number of calls that each test makes. */
static char name[] = "stack", fewest[] = "1000", few[] = "20000", some[] = "100000", many[] = "240000";
static char *session[] = {name, many}, *setup[] = {name, few}, *report[] = {name, some}, *trap_sheet[] = {name, fewest}, *trials[] = {name, some}, *two_hands[] = {name, fewest},
            *walk[] = {name, some};

int main(void)
{
    unsigned i, wrong = 0;

    for (i = 0; i < CALLS; i++)
        memset(calls[i].stack, PAINT, SIZE);
    if (leaves_main() || session_main(2, session) || setup_main(2, setup) || report_main(2, report) || trap_sheet_main(2, trap_sheet) || trials_main(2, trials) ||
        two_hands_main(2, two_hands) || walk_main(2, walk))
        return 1;
    for (i = 0; i < CALLS; i++) {
        unsigned bytes = deepest(calls[i].stack);

        printf("stack: %-31s %4u bytes, in the header %u\n", calls[i].name, bytes, calls[i].most);
        if (bytes == 0 || bytes > calls[i].most) {
            printf("stack: failed: %s %s\n", calls[i].name, bytes ? "needs more than VCPU_STACK of the header says" : "was not called");
            wrong = 1;
        }
    }
    return (int)wrong;
}
