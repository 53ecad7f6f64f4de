/* Instructions of the processor that C has no words for; the last ones are VMX's (SDM 3C, chapter 31), whose 1 says that they failed. */
#ifndef INSTRUCTIONS_H
#define INSTRUCTIONS_H

#include <stdint.h>

#define ASM __asm__ volatile

static inline void out8(uint16_t port, uint8_t x)
{
    ASM("outb %0, %1" : : "a"(x), "Nd"(port));
}

static inline uint64_t rdmsr(uint32_t msr)
{
    uint32_t low, high;

    ASM("rdmsr" : "=a"(low), "=d"(high) : "c"(msr));
    return (uint64_t)high << 32 | low;
}

static inline void wrmsr(uint32_t msr, uint64_t x)
{
    ASM("wrmsr" : : "a"((uint32_t)x), "d"((uint32_t)(x >> 32)), "c"(msr));
}

static inline void cpuid(uint32_t leaf, uint32_t subleaf, uint32_t r[4])
{
    ASM("cpuid" : "=a"(r[0]), "=b"(r[1]), "=c"(r[2]), "=d"(r[3]) : "a"(leaf), "c"(subleaf));
}

/* XCR0 (SDM 1, 13.3); both fault unless CR4 has OSXSAVE. */
static inline uint64_t read_xcr0(void)
{
    uint32_t low, high;

    ASM("xgetbv" : "=a"(low), "=d"(high) : "c"(0));
    return (uint64_t)high << 32 | low;
}

static inline void write_xcr0(uint64_t x)
{
    ASM("xsetbv" : : "a"((uint32_t)x), "d"((uint32_t)(x >> 32)), "c"(0) : "memory");
}

#define CONTROL_REGISTER(name)                            \
    static inline uint64_t read_##name(void)              \
    {                                                     \
        uint64_t x;                                       \
                                                          \
        ASM("mov %%" #name ", %0" : "=r"(x));             \
        return x;                                         \
    }                                                     \
    static inline void write_##name(uint64_t x)           \
    {                                                     \
        ASM("mov %0, %%" #name : : "r"(x) : "memory");    \
    }
CONTROL_REGISTER(cr0)
CONTROL_REGISTER(cr2)
CONTROL_REGISTER(cr3)
CONTROL_REGISTER(cr4)

/* VMXON, VMCLEAR and VMPTRLD take the physical address of a region. */
#define REGION_INSTRUCTION(name)                                                               \
    static inline int name(const void *region)                                                 \
    {                                                                                          \
        uint64_t address = (uint64_t)region;                                                   \
        uint8_t failed;                                                                        \
                                                                                               \
        ASM(#name " %1; setbe %0" : "=r"(failed) : "m"(address) : "cc", "memory");             \
        return failed;                                                                         \
    }
REGION_INSTRUCTION(vmxon)
REGION_INSTRUCTION(vmclear)
REGION_INSTRUCTION(vmptrld)

static inline int vmwrite(uint64_t encoding, uint64_t x)
{
    uint8_t failed;

    ASM("vmwrite %2, %1; setbe %0" : "=r"(failed) : "r"(encoding), "r"(x) : "cc");
    return failed;
}

/* Where the processor has no such field, x stays. */
static inline int vmread_to(uint64_t encoding, uint64_t *x)
{
    uint64_t y;
    uint8_t failed;

    ASM("vmread %2, %1; setbe %0" : "=r"(failed), "=r"(y) : "r"(encoding) : "cc");
    if (!failed)
        *x = y;
    return failed;
}

static inline uint64_t vmread(uint64_t encoding)
{
    uint64_t x = 0;

    vmread_to(encoding, &x);
    return x;
}

#endif
