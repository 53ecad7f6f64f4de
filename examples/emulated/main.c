/*
 * A host on the bare processor. It gives the core the processor's capability words and its own state, carries fields to a VMCS as include/x86_vcpu.h
 * says, enters, reports each exit and does what the core answers. The boot sector brings the guest's first RIP and what this run is to do otherwise.
 */
#include "host.h"
#include "instructions.h"

#define EXITS_AT_MOST 20000
#define WINDOWS_AT_MOST 100

uint64_t options;

int deviates(enum option option)
{
    return options >> option & 1;
}

/* The name by which the processor calls itself: twelve words of CPUID. */
static void say_name(void)
{
    char name[49] = "";
    uint32_t r[4];
    unsigned i;

    cpuid(0x80000000, 0, r);
    if (r[0] >= 0x80000004)
        for (i = 0; i < 3; i++) {
            cpuid(0x80000002 + i, 0, r);
            memcpy(name + 16 * i, r, 16);
        }
    say("processor: %s\n", name);
}

static int endless(void)
{
    if (count.windows_in_a_row >= WINDOWS_AT_MOST)
        return ending("exits of reason 7 without end");
    if (count.refused)
        return ending("the queue is full");
    if (count.exits >= EXITS_AT_MOST)
        return ending("no end after %d exits", count.exits);
    return 0;
}

void host_main(uint32_t guest, uint64_t chosen);

void host_main(uint32_t guest, uint64_t chosen)
{
    options = chosen;
    say("begin\n");
    say_name();
    load_tables();
    enable_xsave();
    enable_vmx();
    make_session(guest);
    put(guest_area.guest_fx, 0, 2, 0x37F);   /* x87 control word and MXCSR after FNINIT and at reset */
    put(guest_area.guest_fx, 24, 4, 0x1F80);
    if (deviates(QUEUE_FIRST))
        queue(3, 0, 0);
    while (!enter() && !leave() && !endless())
        ;
    conclude();
    stop();
}
