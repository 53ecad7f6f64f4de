/* The guest's memory, 256 KBytes at 2 MByte of the host's, and the extended page tables that map it (SDM 3C, 29.3.2). */
#include "host.h"

#define PAGE __attribute__((aligned(4096)))
/* Read, write and execute; memory type write-back in an entry of the last level. */
#define EPT_ALL 7
#define EPT_WRITE_BACK 0x30

uint8_t *const memory = (uint8_t *)0x200000;
extern uint8_t guest_image[], guest_image_end[];
static PAGE uint64_t ept4[512], ept3[512], ept2[512], ept1[512];

static void map(unsigned page)
{
    ept1[page] = ((uint64_t)memory + 4096 * page) | EPT_ALL | EPT_WRITE_BACK;
}

/* Maps a page of 4 KBytes for each of the guest's, all but the hole. Answers the root. */
static uint64_t lay_ept(void)
{
    unsigned i;

    ept4[0] = (uint64_t)ept3 | EPT_ALL;
    ept3[0] = (uint64_t)ept2 | EPT_ALL;
    ept2[0] = (uint64_t)ept1 | EPT_ALL;
    for (i = 0; i < GUEST_PAGES; i++)
        if (i != HOLE / 4096)
            map(i);
    return (uint64_t)ept4;
}

/* The guests' programs, their paging structures, and for a guest that starts with a breakpoint its vector. */
uint64_t lay_memory(void)
{
    memset(memory, 0, 4096 * GUEST_PAGES);
    memcpy(memory + START, guest_image, (size_t)(guest_image_end - guest_image));
    put(memory, PML4, 8, PDPT | 7);
    put(memory, PDPT, 8, PD | 7);
    put(memory, PD, 8, 0x87);
    put(memory, PD32, 4, 0x87);
    put(memory, PDPTES, 8, PD_PAE | 1); /* all but the third, which the guest adds */
    put(memory, PDPTES + 8, 8, PD_PAE | 1);
    put(memory, PDPTES + 24, 8, PD_PAE | 1);
    put(memory, PD_PAE, 8, 0x87);
    if (deviates(QUEUE_FIRST))
        put(memory, 4 * 3, 4, START);
    return lay_ept();
}

/* 1 where the hole was not mapped before. */
int map_hole(void)
{
    int first = !ept1[HOLE / 4096];

    map(HOLE / 4096);
    return first;
}

uint32_t saw(unsigned n)
{
    uint32_t x;

    memcpy(&x, memory + SAW(n), sizeof x);
    return x;
}
