/* What the guests (assembly) and the host (C) agree on. */
#ifndef GUEST_H
#define GUEST_H

/* Hypercalls: the number in RAX, arguments in RDI, RSI, RDX, RCX, R8, R9. */
#define CALL_HERE 0x10       /* an exit, and nothing else */
#define CALL_ARGUMENTS 0x11  /* the host compares the arguments with 1 to 4 and the two words below */
#define CALL_QUEUE 0x12      /* queue an event: vector, whether it has a code, the code */
#define CALL_TIMER 0x13      /* let the host's timer tick soon; the host then queues vector 0x22 */
#define CALL_MODE 0x14       /* compare the core's readings: CPU mode, levels of paging */
#define CALL_SOME 0x15       /* queue some interrupts, or let the timer tick, or neither, at random */
#define CALL_WAITING 0x16    /* how many events wait? (RAX) */
#define CALL_MOVE 0x17       /* clear the VMCS and load it again, as for another processor */
#define CALL_PREEMPTION 0x18 /* activate the VMX-preemption timer */
#define CALL_AT_NEXT 0x19    /* queue this vector at the next exit that completes nothing */
#define CALL_ANOTHER 0x1A    /* go on with another VMCS */
#define ARGUMENT_R8 0x1122334455667788
#define ARGUMENT_R9 0x99AABBCCDDEEFF00

/* The guest's memory: what it saw (words of 4 bytes), what happened (a count byte, then the entries), vectors in the order in which they came. */
#define GUEST_PAGES 64
#define SAW(n) (0x6000 + 4 * (n))
#define LOG 0x6800
#define FLAG 0x6900
#define COUNT 0x6A00
/* How many accesses to ports and MSRs the guest has named, each before it makes it; and these: number (4 bytes), kind, width in bytes (MSRs: 1), 2 bytes. */
#define ACCESS 0x6B00
#define ACCESSES 0x6B08
#define ACCESS_ROOM 255
#define ACCESS_PORT 0
#define ACCESS_READ 1
#define ACCESS_WRITE 2
#define START 0x8000 /* the guests; first the handler of vector 3 */
#define MANY 0xB000
#define MANY_ROOM 0x1000
#define HOLE 0xE000 /* a page that the EPT lacks until it is touched */
#define SERIAL 0x2F8 /* the first of the ports that the host has trapped */
/* Paging structures, laid by the host: for long mode, a page directory of 4-MByte pages, page-directory pointers. */
#define PML4 0x10000
#define PDPT 0x11000
#define PD 0x12000
#define PD32 0x13000
#define PDPTES 0x14000
#define PD_PAE 0x15000

/* What the guests saw, most of it in the main run. */
#define SAW_CR0 0
#define SAW_CR4 1
#define SAW_CPUID_1 2 /* EAX, EBX, ECX, EDX */
#define SAW_CPUID_VENDOR 6
#define SAW_IN_1 10
#define SAW_IN_2 11
#define SAW_IN_4 12
#define SAW_IN_OPEN 13
#define SAW_OUTS_CX 14
#define SAW_RDMSR 15 /* EAX, EDX */
#define SAW_RDMSR_OPEN 17
#define SAW_APIC 19
#define SAW_XMM 21
#define SAW_PE_NO_EXIT 22
#define SAW_PE_EXIT 23
#define SAW_VENDOR_PROTECTED 24
#define SAW_RETURN 25    /* where the last handler returns to, of those that look */
#define SAW_RETURN_TO 26 /* where it should */
#define SAW_CODE_14 27
#define SAW_CODE_13 28
#define SAW_CR2 29
#define SAW_SHADOW 30    /* what the handler found in HOLE */
#define SAW_REGISTERS 31 /* 1: all stayed over an exit, and CPUID gave its four */
#define SAW_PAE 32       /* one word by four page-directory pointers */
#define SAW_CPUID_4 36   /* EAX of subleaf 1 */
#define SAW_XCR0 37      /* EAX, EDX */
#define SAW_XCR0_FIRST 39
#define SAW_AVX 40       /* from the upper half of YMM0; behind it the word that was put there */
#define SAW_AREA 42      /* EBX of leaf 0xD before XSETBV, and after it */
#define SAW_OSXSAVE 44   /* ECX of leaf 1 before CR4.OSXSAVE, and after it */
#define SAW_CODE_21 46

/* The last word: which checks the host makes, in a guest that came to its end. */
#define DONE 0x67FC
#define DONE_PLAIN 0x600D0000
#define DONE_MAIN 0x600D0001
#define DONE_MANY 0x600D0002
#define DONE_BREAKPOINT 0x600D0003
#define DONE_CODES 0x600D0004
#define DONE_SHADOW 0x600D0005
#define DONE_TIMER 0x600D0006
#define DONE_LONG_MODE 0x600D0007
#define DONE_PAE 0x600D0008
#define DONE_CODE 0x600D0009
#define DONE_XCR0 0x600D000A
#define DONE_ACCESSES 0x600D000B
#define DONE_NO_CODE 0x600D000C
#define DONE_DEBUG 0x600D000D
#define DONE_CONTROL_PROTECTION 0x600D000E

/* The bit of AVX in XCR0, and the word that the guest puts through YMM0. */
#define XCR0_AVX 4
#define AVX_WORD 0x00A7C256

#endif
