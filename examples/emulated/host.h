/* What the files of the host share. A function's comment stands with its body. */
#ifndef HOST_H
#define HOST_H

#include "guest/guest.h"
#include "options.h"
#include "x86_vcpu.h"

#include <stdarg.h>

/* The fields by the Rust's names: those that setup writes, and those beside them that a host reads or writes (SDM 3D, appendix B). */
#define NAMED(group, name, encoding) group##_##name = encoding,
enum {
    VCPU_SETUP_FIELDS(NAMED)
    VmcsHostNW_RSP = 0x6C14,
    VmcsControl64_XSS_EXITING_BITMAP = 0x202C,
    VmcsGuest64_PDPTE0 = 0x280A,
    VmcsControl32_PAGEFAULT_ERR_CODE_MASK = 0x4006,
    VmcsControl32_PAGEFAULT_ERR_CODE_MATCH = 0x4008,
    VmcsControl32_VMENTRY_INTERRUPTION_INFO_FIELD = 0x4016,
    VmcsControl32_VMENTRY_EXCEPTION_ERR_CODE = 0x4018,
    VmcsControl32_VMENTRY_INSTRUCTION_LEN = 0x401A,
    VmcsReadOnly64_GUEST_PHYSICAL_ADDR = 0x2400,
    VmcsReadOnly32_VM_INSTRUCTION_ERROR = 0x4400,
    VmcsReadOnly32_EXIT_REASON = 0x4402,
    VmcsReadOnly32_VMEXIT_INTERRUPTION_INFO = 0x4404,
    VmcsReadOnly32_VMEXIT_INTERRUPTION_ERR_CODE = 0x4406,
    VmcsReadOnly32_IDT_VECTORING_INFO = 0x4408,
    VmcsReadOnly32_IDT_VECTORING_ERR_CODE = 0x440A,
    VmcsReadOnly32_VMEXIT_INSTRUCTION_LEN = 0x440C,
    VmcsReadOnlyNW_EXIT_QUALIFICATION = 0x6400
};

/* MSRs. */
enum {
    IA32_FEATURE_CONTROL = 0x3A,
    IA32_SYSENTER_CS = 0x174,
    IA32_SYSENTER_ESP = 0x175,
    IA32_SYSENTER_EIP = 0x176,
    IA32_PAT = 0x277,
    IA32_VMX_BASIC = 0x480,
    IA32_VMX_MISC = 0x485,
    IA32_VMX_CR0_FIXED0 = 0x486,
    IA32_VMX_CR0_FIXED1 = 0x487,
    IA32_VMX_CR4_FIXED0 = 0x488,
    IA32_VMX_CR4_FIXED1 = 0x489,
    IA32_VMX_EPT_VPID_CAP = 0x48C,
    LOW_MSRS_LAST = 0x1FFF,
    NO_MSR = 0x40000000, /* no processor has it (SDM 4, table 2-2) */
    HIGH_MSRS_FIRST = 0xC0000000,
    HIGH_MSRS_LAST = 0xC0001FFF,
    IA32_EFER = 0xC0000080,
    IA32_FS_BASE = 0xC0000100,
    IA32_GS_BASE = 0xC0000101
};

/* Bits by their names. */
#define CR0_PE (1ull << 0)
#define CR0_NW (1ull << 29)
#define CR0_CD (1ull << 30)
#define CR0_PG (1ull << 31)
#define CR4_PSE (1ull << 4)
#define CR4_PAE (1ull << 5)
#define CR4_PGE (1ull << 7)
#define CR4_VMXE (1ull << 13)
#define CR4_OSXSAVE (1ull << 18)
#define CR4_SMEP (1ull << 20)
#define CPUID_1_OSXSAVE (1u << 27)
#define EFER_LME (1ull << 8)
#define EFER_LMA (1ull << 10)
#define ENTRY_IA32E_GUEST (1ull << 9)
#define EPTP_FLAGS (1ull << 6)
#define BLOCKING_STI_MOV_SS 3u
#define INFO_VALID (1ull << 31)
#define INFO_CODE (1ull << 11)
#define INFO_HARDWARE_EXCEPTION (3ull << 8)
#define INFO_TYPE(info) ((info) >> 8 & 7)
#define INFO_WHAT (INFO_VALID | 0x7FF)                       /* valid, type, vector */
#define INFO_OF_INSTRUCTION(info) (INFO_TYPE(info) >= 3)     /* INT n and exceptions */
#define INFO_SOFTWARE_EXCEPTION(info) (INFO_TYPE(info) == 6) /* INT3, INTO */
#define PIN_PREEMPTION_TIMER (1ull << 6)
#define SECONDARY_XSAVES (1ull << 20)
#define BASIC_TRUE_WORDS (1ull << 55)
#define BASIC_ANY_CODE (1ull << 56)

/* Exit reasons (SDM 3D, appendix C). */
enum {
    EXIT_EXCEPTION = 0,
    EXIT_INTERRUPT_WINDOW = 7,
    EXIT_CPUID = 10,
    EXIT_VMCALL = 18,
    EXIT_CR_ACCESS = 28,
    EXIT_IO = 30,
    EXIT_RDMSR = 31,
    EXIT_WRMSR = 32,
    EXIT_EPT_VIOLATION = 48,
    EXIT_PREEMPTION_TIMER = 52,
    EXIT_XSETBV = 55
};

enum { RAX, RCX, RDX };

/* library.c: what a compiler and the archive ask for, and output */
void *memset(void *to, int byte, size_t length);
void *memcpy(void *to, const void *from, size_t length);
void *memmove(void *to, const void *from, size_t length);
void print(const char *format, va_list values);
void say(const char *format, ...);
void tell(const char *format, ...);
void stop(void);

/* boot.c: the machine as the host wants it */
#define HOST_CS 0x08
#define HOST_DATA 0x10
#define HOST_TR 0x18
extern uint64_t gdt[5], idt[512];
extern uint8_t tss[104];
/* x87 and SSE: what the host uses. */
#define HOST_XCR0 3
void load_tables(void);
int has_xsave(void);
void enable_xsave(void);
void enable_vmx(void);
void load_vmcs(int which);
void start_timer(void);
void end_of_interrupt(void);

/* fields.c: the record, and what is carried between it and the VMCS */
extern uint8_t record[VCPU_RECORD_LENGTH];
void put(uint8_t *bytes, unsigned at, unsigned size, uint64_t x);
uint64_t field(uint64_t encoding);
void set_field(uint64_t encoding, uint64_t x);
uint64_t reg(unsigned i);
void set_reg(unsigned i, uint64_t x);
uint64_t guest_xcr0(void);
void carry(uint64_t encoding);
void carry_setup(void);
void carry_others(void);
void copy_vmcs(void);
void find_fields(void);
void compare_fields(void);
void list_stale_fields(void);

/* memory.c: the guest's memory and the tables that map it */
extern uint8_t *const memory;
uint64_t lay_memory(void);
int map_hole(void);
uint32_t saw(unsigned n);

/* setup.c: the session */
extern uint8_t io_a[VCPU_FRAME_LENGTH], io_b[VCPU_FRAME_LENGTH], msrs[VCPU_FRAME_LENGTH];
extern uint64_t host_pat;
uint64_t offered_xcr0(void);
uint64_t supported_xcr0(void);
void make_session(uint64_t guest);
/* Not the host's: every memory type is write-back. */
#define GUEST_PAT 0x0606060606060606

/* sheet.c: the trap sheet, and each exit held to it */
void print_sheet(const char *when);
uint64_t sheet_total(unsigned kind);
void check_trap(uint32_t reason);
void check_accesses(void);

/* enter.S, entry.c, exit.c, answer.c: one round. enter, leave and act answer 0 where the guest is to run on. */
struct guest_area {
    uint64_t regs[16], host_rsp, pad;
    uint8_t guest_fx[512], host_fx[512];
};
extern struct guest_area guest_area;
int vm_enter(struct guest_area *area, int launched);
void vm_exit(void);
void load_xcr0(uint64_t x);
int enter(void);
int leave(void);
int act(const uint64_t *answer, uint32_t reason);
void queue(uint8_t vector, uint8_t coded, uint32_t code);
void inject(uint64_t vector);
void raise_fault(uint8_t vector);
void queue_nmi(void);
void queue_late_nmi(void);
extern int launched;
extern uint64_t entered_with, last_word;

/* checks.c: what was seen, and what should have been */
struct counts {
    unsigned exits, by_reason[65], queued, refused, written, held, out_of_order, ticks, checks, wrong, windows_in_a_row;
};
extern struct counts count;
extern uint8_t queued[MANY_ROOM];
void check(const char *what, uint64_t is, uint64_t should);
void check_mode(uint64_t mode, uint64_t levels);
void check_entry(void);
int ending(const char *format, ...);
int finished(void);
void repaired(const char *how);
void conclude(void);

/* main.c */
extern uint64_t options;
int deviates(enum option option);

#endif
