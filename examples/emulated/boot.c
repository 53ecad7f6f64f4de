/* The machine as the host wants it: its descriptor tables, XCR0, VMX operation, a current VMCS, a timer that ticks. */
#include "host.h"
#include "instructions.h"

#define PAGE __attribute__((aligned(4096)))

extern uint8_t traps[];
void host_trap(uint64_t vector, uint64_t code, uint64_t rip);

uint64_t gdt[5], idt[512];
uint8_t tss[104];
static PAGE uint8_t vmxon_region[4096], vmcs_regions[2][4096];

void load_tables(void)
{
    static struct {
        uint16_t limit;
        uint64_t base;
    } __attribute__((packed)) gdtr, idtr;
    uint64_t base = (uint64_t)tss, at;
    unsigned i;

    gdt[1] = 0x00209B0000000000;
    gdt[2] = 0x0000930000000000;
    gdt[3] = (sizeof tss - 1) | (base & 0xFFFFFF) << 16 | 0x89ull << 40 | (base >> 24 & 0xFF) << 56;
    gdt[4] = base >> 32;
    for (i = 0; i < 32; i++) {
        at = (uint64_t)traps + 16 * i;
        idt[2 * i] = (at & 0xFFFF) | HOST_CS << 16 | 0x8Eull << 40 | (at >> 16 & 0xFFFF) << 48;
        idt[2 * i + 1] = at >> 32;
    }
    gdtr.limit = sizeof gdt - 1;
    gdtr.base = (uint64_t)gdt;
    idtr.limit = sizeof idt - 1;
    idtr.base = (uint64_t)idt;
    ASM("lgdt %0; lidt %1; ltr %w2" : : "m"(gdtr), "m"(idtr), "r"(HOST_TR) : "memory");
    wrmsr(IA32_SYSENTER_CS, HOST_CS);
    wrmsr(IA32_SYSENTER_ESP, 0x5000);
    wrmsr(IA32_SYSENTER_EIP, 0x6000);
}

void host_trap(uint64_t vector, uint64_t code, uint64_t rip)
{
    tell("at %x\n", rip);
    ending("the host took exception %u, code %x", vector, code);
    stop();
}

int has_xsave(void)
{
    uint32_t r[4];

    cpuid(1, 0, r);
    return r[2] >> 26 & 1;
}

/* XCR0 as the host wants it, where the processor has one. CR4 keeps OSXSAVE, for the guest's XCR0 before each entry and the host's after each exit. */
void enable_xsave(void)
{
    if (!has_xsave())
        return;
    write_cr4(read_cr4() | CR4_OSXSAVE);
    write_xcr0(HOST_XCR0);
}

/* VMX operation (SDM 3C, 24.7 and 24.8), where the processor offers it. An entry changes neither CD nor NW, and the core's guest has both clear. */
void enable_vmx(void)
{
    uint32_t r[4];
    unsigned i;

    cpuid(1, 0, r);
    if (!(r[2] >> 5 & 1)) {
        ending("CPUID offers no VMX");
        stop();
    }
    if (!(rdmsr(IA32_FEATURE_CONTROL) & 1))
        wrmsr(IA32_FEATURE_CONTROL, rdmsr(IA32_FEATURE_CONTROL) | 5);
    if ((rdmsr(IA32_FEATURE_CONTROL) & 5) != 5) {
        ending("IA32_FEATURE_CONTROL locks VMX out");
        stop();
    }
    write_cr0(((read_cr0() | rdmsr(IA32_VMX_CR0_FIXED0)) & rdmsr(IA32_VMX_CR0_FIXED1) & ~(CR0_CD | CR0_NW)) | (deviates(HOST_CD) ? CR0_CD : 0));
    write_cr4((read_cr4() | CR4_VMXE | rdmsr(IA32_VMX_CR4_FIXED0)) & rdmsr(IA32_VMX_CR4_FIXED1));
    put(vmxon_region, 0, 4, rdmsr(IA32_VMX_BASIC) & 0x7FFFFFFF);
    if (vmxon(vmxon_region)) {
        ending("VMXON failed");
        stop();
    }
    /* The first bytes of a region are its revision and the abort indicator; the rest of a new one is zero. */
    for (i = 0; i < 2; i++) {
        memset(vmcs_regions[i], deviates(DIRTY_REGION) ? 0xFF : 0, sizeof vmcs_regions[i]);
        put(vmcs_regions[i], 0, 8, rdmsr(IA32_VMX_BASIC) & 0x7FFFFFFF);
    }
    load_vmcs(0);
}

/* A VMCS that is clear, and current. After this the next entry is VMLAUNCH, whatever the record says. */
void load_vmcs(int which)
{
    if (vmclear(vmcs_regions[0]) || vmclear(vmcs_regions[1]) || vmptrld(vmcs_regions[which])) {
        ending("VMCLEAR or VMPTRLD failed");
        stop();
    }
    launched = 0;
}

/* Interrupt controllers from vector 0x40 on, all but the timer masked; counter 0 of the timer, mode 0, 100 ticks. */
void start_timer(void)
{
    static const uint8_t writes[][2] = {{0x20, 0x11}, {0x21, 0x40}, {0x21, 4}, {0x21, 1}, {0xA0, 0x11}, {0xA1, 0x48}, {0xA1, 2},
                                        {0xA1, 1}, {0xA1, 0xFF}, {0x21, 0xFE}, {0x43, 0x30}, {0x40, 100}, {0x40, 0}};
    unsigned i;

    for (i = 0; i < sizeof writes / sizeof writes[0]; i++)
        out8(writes[i][0], writes[i][1]);
}

void end_of_interrupt(void)
{
    out8(0x21, 0xFF);
    out8(0x20, 0x20);
}
