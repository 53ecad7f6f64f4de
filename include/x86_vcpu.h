/*
 * x86_vcpu: the deciding core of a VT-x virtual CPU.
 *
 * Every function answers 0 where the call is accepted, or the number of the refusal (VCPU_REFUSED_..). A refused call writes
 * nothing: every buffer and result keeps its bytes. Numbers are tested in the order that each function's comment gives.
 *
 * A buffer is a pointer, which is not null, and its length in bytes. A result goes through a pointer that is not null and is aligned
 * for its type. No two buffers or results of one call overlap, the first and second buffers of a trial neither, and nobody else writes them during the call.
 *
 * The functions keep nothing between calls and allocate nothing. Of the program that the archive is linked into they need memcpy,
 * memmove and memset. Their code uses the XMM registers: a host that leaves the guest's in the processor saves them before a call
 * and loads them again before it enters. It also uses the red zone, the 128 bytes below the stack pointer (System V ABI): what interrupts
 * a call must not write there, so a kernel has interrupts off during a call or takes them, NMIs too, on another stack.
 *
 * A yes/no argument is a byte: 1 is yes, 0 is no, and any other value is refused by VCPU_REFUSED_BYTES.
 */
#ifndef X86_VCPU_H
#define X86_VCPU_H

#include <stddef.h>
#include <stdint.h>

#ifdef __cplusplus
extern "C" {
#endif

/* The kit that built the archive with which this header is handed out, as `rt version` prints it. */
#define VCPU_KIT "rattle-kit-13f logic dac8208d650f15bf"

/* ---- Numbers of refusals ---- */

/* The session is in another phase than the call needs. */
#define VCPU_REFUSED_PHASE 1
/*
 * A buffer has another length than the function asks for, a yes/no argument (of a call or in the block of setup) is neither 0 nor 1, a kind of access is
 * above 2, or the bytes are no record: its phase is above 4, more than 64 events wait, it has more held entries than entries, or its byte launched is neither
 * 0 nor 1.
 */
#define VCPU_REFUSED_BYTES 2
/* Fields: no such encoding; a write of a read-only field; a value wider than the field. */
#define VCPU_REFUSED_ENCODING 3
#define VCPU_REFUSED_READ_ONLY 4
#define VCPU_REFUSED_WIDTH 5
/* Control word: allowed-0 has a bit that allowed-1 lacks. Setup: so has any of the five pairs used, or fixed-0 of CR0 or CR4 beside fixed-1. */
#define VCPU_REFUSED_PAIR 6
/* Control word: a bit is to be both set and cleared. */
#define VCPU_REFUSED_SET_AND_CLEAR 7
/*
 * Control word and setup: a bit to be set is not in allowed-1. Reports: a move to CR0 whose value has PG while EFER.LME and EFER.LMA are not both set,
 * with paging on or off before it, and entry control bit 9 is not in allowed-1.
 */
#define VCPU_REFUSED_SET 8
/* Control word and setup: a bit to be cleared is in allowed-0. */
#define VCPU_REFUSED_CLEAR 9
/* Ports: count is above 0 and the last port is above 65,535. */
#define VCPU_REFUSED_PORT 10
/* MSRs: outside 0 to 0x1FFF and 0xC0000000 to 0xC0001FFF. */
#define VCPU_REFUSED_MSR 11
/* Interrupts: vector 0 or above 255. */
#define VCPU_REFUSED_VECTOR 12
/* Events: 64 events wait already. */
#define VCPU_REFUSED_FULL 13
/* Reports: the reason (bits 0 to 15) is 35, 38, 42 or above 64, or bit 31 (a failed entry) is set and it is not 33, 34 or 41. */
#define VCPU_REFUSED_REASON 14
/* Reports: a bit of CR0 or CR4 that the host owns (guest/host mask) differs from the session's. */
#define VCPU_REFUSED_OWNED_BITS 15
/* Reports: an external interrupt whose information is not valid or has type 1. */
#define VCPU_REFUSED_INTERRUPT 16
/* Addresses, and RIP past an instruction: the sum passes 2^64 - 1. */
#define VCPU_REFUSED_SUM 17
/* Reports: an access to a control register that is no move to CR0 or CR4. */
#define VCPU_REFUSED_CR_ACCESS 18
/*
 * Reports: XSETBV of a value that XCR0 may not have, and of another register. A value passes where (a) bit 0, x87, is set; (b) bit 2, AVX, comes with bit 1, SSE;
 * (c) bits 3 and 4, MPX, are equal; (d) bits 5, 6 and 7, AVX-512, are all equal; (e) if they are set, bit 2 is set; (f) bits 17 and 18, AMX, are equal; and
 * (g) no bit is set that the supported word of setup lacks. Bits 8 to 16 and 19 to 63 are ruled by (g) alone (SDM 1, 13.3; 2D, XSETBV).
 */
#define VCPU_REFUSED_XCR0 19
#define VCPU_REFUSED_XCR 20
/* Reports: an APIC access. */
#define VCPU_REFUSED_APIC_ACCESS 21
/* Entry: the count of entries is at its end, 2^32 - 1. */
#define VCPU_REFUSED_COUNT 22
/* Registers: index 4 (the place of RSP, which is a field) or above 15. */
#define VCPU_REFUSED_INDEX 23
/* Trap sheets: the output is shorter than the sheet. */
#define VCPU_REFUSED_ROOM 24
/* Trials: a second buffer has another length than the first that it stands for. */
#define VCPU_REFUSED_SHOWN 25
/* Page walks: a byte of an entry lies past the end of the memory. */
#define VCPU_REFUSED_MEMORY 26

/* ---- Sizes ---- */

/* The length in bytes of a session's record. */
#define VCPU_RECORD_LENGTH 1485

/* The length in bytes of an intercept frame: I/O bitmap A, I/O bitmap B, MSR bitmaps (SDM 3C, 25.6.4 and 25.6.9). */
#define VCPU_FRAME_LENGTH 4096

/* ---- Layout of a record ----
 * Nothing lies between the parts, and numbers stand least significant byte first. The host may read and write the registers in place, at
 * VCPU_OFFSET_REGS: any content of their 128 bytes is accepted, and 15 single calls take longer than an entry and a report. Fields are read and written
 * by vcpu_read_field and vcpu_write_field; the phase and the counts are read by vcpu_get_counts, XCR0 by vcpu_get_xcr0. Nothing hands out the waiting events,
 * the kept pairs, the fixed words and the supported word; their offsets are for tools that keep or show records.
 */

/* Where the session stands: phase (1 byte), launched (1, yes/no), accepted entries (4), entries that held an event (4). */
#define VCPU_OFFSET_PHASE 0
#define VCPU_OFFSET_LAUNCHED 1
#define VCPU_OFFSET_ENTRIES 2
#define VCPU_OFFSET_HELD 6
/* Sixteen registers of 8 bytes, in the order of their encoding: RAX RCX RDX RBX (unused: RSP is a field) RBP RSI RDI R8 .. R15. */
#define VCPU_OFFSET_REGS 10
/* The fields by width, each group by ascending encoding: 17 of 2 bytes, 50 of 4, 41 of 8, 46 natural ones of 8. */
#define VCPU_OFFSET_W16 138
#define VCPU_OFFSET_W32 172
#define VCPU_OFFSET_W64 372
#define VCPU_OFFSET_NATURAL 700
/*
 * The queue, its front first: how many events wait (1), vectors (64), whether each has an error code (one number of 8 bytes: bit i for place i), codes
 * (64 of 4). What stands in the places past the last event is not looked at.
 */
#define VCPU_OFFSET_WAITING 1068
#define VCPU_OFFSET_VECTORS 1069
#define VCPU_OFFSET_CODED 1133
#define VCPU_OFFSET_CODES 1141
/* Kept from setup: the five pairs used, allowed-0 (4), allowed-1 (4), for pin, primary, secondary, exit, entry; CR0 and CR4 fixed-0 (8), fixed-1 (8). */
#define VCPU_OFFSET_PAIRS 1397
#define VCPU_OFFSET_CR0 1437
#define VCPU_OFFSET_CR4 1453
/* The guest's XCR0 (8); kept from setup, its bits that the host supports (8). Any content of both is accepted. */
#define VCPU_OFFSET_XCR0 1469
#define VCPU_OFFSET_XCR0_SUPPORTED 1477

/* ---- Phases ---- */

#define VCPU_FRESH 0
#define VCPU_READY 1
#define VCPU_RUNNING 2
/* An APIC register is read: vcpu_apic_value brings its value. */
#define VCPU_WAITING 3
#define VCPU_ENDED 4

/* ---- What the host does ----
 * The record holds the fields of the VMCS and the guest's registers as the core knows them; the host carries them to the processor and back. To write a field
 * is VMWRITE, with the value that vcpu_read_field gives unless another is said. examples/emulated is a host that does all of this on emulated processors: names in
 * brackets are its probes, of which those that leave something out show what happens then.
 *
 * Before the first entry:
 * - The host's CR0 has CD and NW clear. An entry does not change them and an exit stores them as the guest's: VCPU_REFUSED_OWNED_BITS [host-cd].
 * - Of the capability MSRs the host reads IA32_VMX_BASIC (0x480) first, and 0x48D to 0x490 only where its bit 55 is set. Where it is clear these four are not there
 *   and RDMSR of one faults (vector 13): the host gives 0 for each, and vcpu_setup answers by a number [older-board, older-board-read]. Every emulated model has
 *   the four; these probes play a board that lacks them. The same of 0x48B, by bit 63 of 0x482 (no probe).
 * - In the frames that it hands to vcpu_setup the host traps the ports and MSRs that the guest is not to reach, the machine's own too [main]. Which of all others
 *   the guest reaches is said under "Trap sheet".
 * - A trap sheet has what the frames trap when it is made. The host makes the one that it hands out after its last edit of them: an older one lacks what was
 *   trapped since [trap-sheet, trap-sheet-early].
 * - After vcpu_setup it writes the fields of VCPU_SETUP_FIELDS; and, since an entry or the guest would meet what the VMCS region held, 0x4006, 0x4008 and 0x4016,
 *   and 0x202C where XSAVES is set [dirty-region, dirty-region-event, dirty-page-fault, dirty-page-fault-words, dirty-xsaves, dirty-xsaves-bitmap].
 * - Where IA32_VMX_EPT_VPID_CAP (0x48C) has bit 21 clear, as on processors before Haswell, it clears bit 6 of the EPT pointer (0x201A) by vcpu_write_field and
 *   writes the field; else the first entry is VMfail 7 [main, ept-flags-kept].
 * - Setup writes the host's SYSENTER fields (0x4C00, 0x6C10, 0x6C12) as 0, which every exit loads. A host that uses SYSENTER writes them by vcpu_write_field and
 *   then the fields [main, sysenter-zero].
 * - The supported word of setup is CPUID leaf 0xD, subleaf 0, EDX:EAX, or has fewer bits; without XSAVE it is 0. A bit that the processor lacks passes the core,
 *   and the host's own XSETBV then faults [xsetbv, xsetbv-all-bits].
 * - It writes the fields of setup once. Alive in the record after that are those that a report brings and those that a call writes; the guest's others (selectors,
 *   limits, GDTR, IDTR, rights and bases but for CS and the rights of SS, ..) stay there as setup wrote them, while the guest changes its own [fields-again].
 *
 * At an entry:
 * - After vcpu_entry it writes, where *resumed is 0, host RSP (0x6C14); for a held event the primary controls (0x4002); for a written one 0x4016, 0x4018, 0x401A.
 * - A processor refuses some events (VMfail 7). Vectors 22 to 31 have type 7, and a code has 16 bits: the host queues none of the first and no wider code
 *   [vector-25, wide-code]. It queues vector 21 only where IA32_VMX_BASIC (0x480) has bit 56: else a processor takes no code with it
 *   [control-protection, control-protection-queued].
 * - Whether an error code goes in is decided by CR0.PE of the record [page-fault, code-in-real-mode, code-waits], which is therefore to be that of the VMCS: reports
 *   bring CR0 as it is at the exit, and a host that changes 0x6800 in the VMCS alone gets the wrong word [code-waits-stale].
 * - Vectors 3 and 4 return to RIP plus the length, which is the last exit's, while RIP is past that exit's instruction already (before the first exit it is 0).
 *   In the VMCS alone the host writes 0x401A as 0 or, where IA32_VMX_MISC (0x485) has bit 30 clear, as 1 and RIP (0x681E) less by 1, which the guest sees if
 *   the delivery faults [breakpoint, breakpoint-exit-length, first-breakpoint, first-breakpoint-exit-length].
 * - An entry looks at the front of the queue alone, so an exception waits behind a held interrupt. A fault of the guest's present instruction, as #UD of reason 0,
 *   is therefore not queued: where *event is not VCPU_EVENT_WRITTEN the host writes it to 0x4016 and 0x4018 of the VMCS alone, with bit 11 only while CR0.PE is set,
 *   and else it leaves it, since the guest comes to the instruction again [fault, fault-queued, fault-and-interrupt].
 * - Vector 2 goes in at once. The host queues it only while neither bit 0 nor bit 1 of interruptibility (0x4824) is set [nmi-shadow, nmi-shadow-at-once].
 * - It loads all registers, and CR2 and the x87 and SSE state, which are in neither record nor VMCS [long-mode, main]; and what else guest and host share and no
 *   probe has a use of: DR0 to DR3 and DR6, PKRU, the MSRs of SYSCALL, SWAPGS and RDTSCP, IA32_XFD (0x1C4), IA32_XFD_ERR (0x1C5), IA32_XSS and the state that it
 *   adds.
 * - Where the processor has XSAVE it loads XCR0 with what vcpu_get_xcr0 gives, at the first entry too, and after the exit its own as it needs it: by XSETBV, for
 *   which its CR4, setup's too, has OSXSAVE. No entry or exit changes XCR0, and the guest reads it without an exit [xsetbv, xsetbv-not-loaded, xsetbv-left].
 * - It saves and loads the state that XCR0 adds (YMM, ZMM, ..) while the guest's XCR0 is loaded: with its own, XSAVE leaves out what that lacks. The host of
 *   examples/emulated uses none of this state, so that it stays in the processor [xsetbv].
 * - It enters by VMLAUNCH where the VMCS is clear and by VMRESUME where it was launched. After VMCLEAR that is VMLAUNCH whatever *resumed says
 *   [vmcs-moved, vmcs-moved-resumed]. Another VMCS is clear too, and first gets all fields of the old one, by VMREAD, host RSP among them
 *   [another-vmcs, another-vmcs-not-copied]; on another processor the host's own fields (0x6C02, 0x6C08, ..) by vcpu_write_field besides.
 * - VMfail has no report: the session is running, and a written event is out of the queue. The host puts the VMCS right and repeats the instruction without
 *   another vcpu_entry [ept-flags-kept, vmcs-moved-resumed, wide-code], or gives the session up.
 *
 * At an exit:
 * - The report has what the processor has, but of interruptibility (0x4824) bits 0 and 1 alone. An event is held while any bit is set, and blocking by NMI (bit 3)
 *   does not close the interrupt window: exits of reason 7 would follow one another without end, in an NMI's handler and after it, since IRET does not clear
 *   the bit while NMIs exit [nmi-handler, nmi-handler-reported, nmi-return, nmi-return-reported].
 * - Blocking by STI and MOV SS (bits 0 and 1) ends with one instruction. Where core or host carry that out (reasons 10, 18, 28, 30, 31, 32 and 55 among them) the
 *   host clears both bits in report and VMCS [sti-exits, sti-exits-kept, nmi-mov-ss, nmi-mov-ss-kept], at other exits it leaves them [sti-shadow].
 * - At reason 10 the report has CPUID as the guest is to see it. ECX bit 27 of leaf 1 is the guest's CR4.OSXSAVE, which tells its programs whether XGETBV is #UD
 *   [xsetbv, xsetbv-host-osxsave]. Leaf 0xD is that with the guest's XCR0 and IA32_XSS loaded, on which the sizes in EBX depend: by the host's the guest makes its
 *   XSAVE area too small [xsetbv, xsetbv-host-size]. EDX:EAX of subleaf 0 have no bit that the supported word of setup lacks, else the guest loads what CPUID
 *   offers and its report is refused by VCPU_REFUSED_XCR0 [xsetbv-fewer, xsetbv-fewer-offered].
 * - After vcpu_exit_report it writes RIP (0x681E); at reason 7 the primary controls; at reason 52 the preemption timer (0x482E); at a move to CR4 0x6804, 0x6006
 *   and 0x6002; at a move to CR0 0x6800, 0x6004, 0x6000, EFER (0x2806) and the entry controls (0x4012), these two as follows.
 * - At a move to CR0 the core sets LMA with PG, whatever LME is, and never clears it; to a processor LMA is LME and PG. Where the record's EFER says otherwise the
 *   host writes it by vcpu_write_field [paging, paging-kept, leave-long-mode, leave-long-mode-kept].
 * - Bit 9 of the entry controls is LMA. The processor changes it in the VMCS where the guest turns long mode on or off without an exit, and no report tells the
 *   core. So the host writes 0x4012 at moves to CR0 alone, there always, with the record's word but for bit 9, which it takes from EFER: a stale word, or none,
 *   makes the entry fail [long-mode, long-mode-no-exit, long-mode-no-exit-stale, long-mode-twice, long-mode-twice-changed, leave-no-exit, leave-no-exit-stale].
 * - Where a move leaves PAE paging on without long mode, and changes CD, NW or PG of CR0, or PSE, PAE, PGE or SMEP of CR4, the host writes 0x280A to 0x2810 with
 *   the four entries that CR3 points to in the guest's memory [pae, pae-kept, pae-no-pdptes].
 * - The core tests no value that a guest moves to CR0 or CR4: what a processor would refuse by vector 13 makes the next entry fail, or is dropped
 *   [pg-without-pe, cr4-reserved].
 * - XSETBV of a value that breaks the rule of VCPU_REFUSED_XCR0, or of another register, is vector 13 to a processor. Here its report is refused and the session
 *   runs on [xsetbv-refused]: the host gives it up, or reports the exit under a reason that is Halt and writes the fault as above, with code 0 (no probe).
 * - IDT-vectoring information (0x4408) with bit 31 names an event whose delivery the exit ended. What came of the guest's instruction comes again by itself,
 *   but for a debug trap, which no probe has [delivery-own, delivery-int, delivery-int3]. An interrupt, an NMI and what the entry put in are queued again, with
 *   the code of 0x440A where bit 11 is set, and then stand last; with vectors 3 and 4 RIP goes on by the exit's instruction length
 *   [delivery, delivery-lost, delivery-code, delivery-breakpoint].
 * - Reason 0 with type 2 in 0x4404 is the machine's NMI, and is Halt: the host runs its handler (no probe). INVEPT after a change of EPT tables in use is the host's.
 * - vcpu_get_cpu_mode and vcpu_gla2gva tell the guest's mode if they are given the guest's EFER (0x2806) in place of the host's [main, host-efer].
 *
 * Raw writes (vcpu_write_field) of the EPT pointer, EFER, RIP and host fields, as here, leave all that is proved of the five control words, CR0, CR4 and their
 * masks (docs/DEMAND-3.md). A raw write of one of those nine ends it: from then on the host answers for what the processor permits. So does a host that turns
 * the preemption timer on, by 0x4000 [preemption-timer]; what is put into the VMCS alone the host answers for as well.
 */

/* ---- Sessions ----
 * A record is tested before anything else: every function that takes one but vcpu_new answers VCPU_REFUSED_BYTES first.
 * The guest's XCR0 is a number in the record, and the core never loads it: the host does, before the first entry and again after an accepted report of reason 55.
 */

/*
 * Makes a new session: a fresh record, all zero, and three frames that intercept nothing. Only the lengths are looked at.
 * Refusals: VCPU_REFUSED_BYTES.
 */
uint32_t vcpu_new(uint8_t *record, size_t length, uint8_t *a, size_t a_length, uint8_t *b, size_t b_length, uint8_t *msr,
                  size_t msr_length);

/* ---- Setup ----
 * Its arguments are one block of bytes. Nothing lies between the parts, and numbers stand least significant byte first.
 */

/* The length in bytes of the block. */
#define VCPU_SETUP_LENGTH 273

/* The host's state, which an exit restores: PAT, EFER, CR0, CR3, CR4 (8 bytes each). */
#define VCPU_SETUP_HOST_PAT 0
#define VCPU_SETUP_HOST_EFER 8
#define VCPU_SETUP_HOST_CR0 16
#define VCPU_SETUP_HOST_CR3 24
#define VCPU_SETUP_HOST_CR4 32
/* Selectors (2 bytes each). */
#define VCPU_SETUP_HOST_ES 40
#define VCPU_SETUP_HOST_CS 42
#define VCPU_SETUP_HOST_SS 44
#define VCPU_SETUP_HOST_DS 46
#define VCPU_SETUP_HOST_FS 48
#define VCPU_SETUP_HOST_GS 50
/* FS and GS base (8 each), TR (2) and its base, GDTR and IDTR base, and the address that an exit goes to (8 each). */
#define VCPU_SETUP_HOST_FS_BASE 52
#define VCPU_SETUP_HOST_GS_BASE 60
#define VCPU_SETUP_HOST_TR 68
#define VCPU_SETUP_HOST_TR_BASE 70
#define VCPU_SETUP_HOST_GDTR_BASE 78
#define VCPU_SETUP_HOST_IDTR_BASE 86
#define VCPU_SETUP_HOST_RIP 94
/* The guest's first RIP, and its IA32_PAT (8 each). */
#define VCPU_SETUP_ENTRY 102
#define VCPU_SETUP_GUEST_PAT 110
/* Physical addresses (8 each): the root of the extended page tables, and the frames I/O bitmap A, I/O bitmap B, MSR bitmaps. */
#define VCPU_SETUP_EPT_ROOT 118
#define VCPU_SETUP_IO_BITMAP_A 126
#define VCPU_SETUP_IO_BITMAP_B 134
#define VCPU_SETUP_MSR_BITMAPS 142
/*
 * The capability MSRs (SDM 3D, appendix A) as RDMSR gives them, 14 words of 8 bytes by number: 0x480 (IA32_VMX_BASIC, of which bit 55 alone is looked at), 0x481 to
 * 0x484 (the plain words: pin, primary, exit, entry), 0x486 to 0x489 (CR0 fixed-0 and fixed-1, CR4 fixed-0 and fixed-1), 0x48B (secondary), 0x48D to 0x490 (the TRUE
 * words: pin, primary, exit, entry). Where bit 55 of 0x480 is clear the last four are not looked at: a host gives 0 and does not read the MSRs.
 */
#define VCPU_SETUP_MSRS 150
/* The supported word (8): the bits that the guest's XCR0 may have, CPUID leaf 0xD, subleaf 0, EDX:EAX, or less. */
#define VCPU_SETUP_XCR0_SUPPORTED 262
/* Yes/no bytes: whether CPUID offers the guest RDTSCP, INVPCID and XSAVES. */
#define VCPU_SETUP_RDTSCP 270
#define VCPU_SETUP_INVPCID 271
#define VCPU_SETUP_XSAVES 272

/*
 * Sets a fresh session up: the fields of host, guest and controls are written, the five pairs used and the fixed bits are kept, and the session is ready. To what the
 * frames hold it adds the intercepts of port 0x604 and of reads and writes of MSRs 0xE1 and 0x800 to 0x83F.
 * The pairs used of pin, primary, exit and entry are those of the TRUE words where bit 55 of 0x480 is set, and of the plain words where it is clear; the secondary
 * pair is 0x48B's. Bits that a pair leaves open and setup neither sets nor clears are, in both cases, those of the low half of the plain word (of 0x48B). A plain
 * primary word as the manual has it demands bits 15 and 16, which setup clears: a processor that has it and no TRUE words gets VCPU_REFUSED_CLEAR, if no earlier
 * number applies.
 * The supported word is kept and not tested: any is accepted, and where it lacks bit 0 no value of XSETBV passes. XCR0 is stored as 1, whatever the word and the
 * host's XCR0 are.
 * Refusals: VCPU_REFUSED_BYTES (record, block, a frame's length), VCPU_REFUSED_PHASE (not fresh), VCPU_REFUSED_PAIR (any of the five pairs used, CR0
 * or CR4: a bit must be 1 and may not be); then by word, pin, primary, secondary, exit, entry: VCPU_REFUSED_SET, VCPU_REFUSED_CLEAR.
 */
uint32_t vcpu_setup(uint8_t *record, size_t length, const uint8_t *block, size_t block_length, uint8_t *a, size_t a_length, uint8_t *b,
                    size_t b_length, uint8_t *msr, size_t msr_length);

/*
 * The 93 fields that setup writes, ascending: the enum and the name of each in the Rust, and its encoding. An array of the encodings:
 *
 *     #define ENCODING(group, name, encoding) encoding,
 *     static const uint64_t setup_fields[] = {VCPU_SETUP_FIELDS(ENCODING)};
 */
#define VCPU_SETUP_FIELDS(F)                                    \
    F(VmcsGuest16, ES_SELECTOR, 0x0800)                         \
    F(VmcsGuest16, CS_SELECTOR, 0x0802)                         \
    F(VmcsGuest16, SS_SELECTOR, 0x0804)                         \
    F(VmcsGuest16, DS_SELECTOR, 0x0806)                         \
    F(VmcsGuest16, FS_SELECTOR, 0x0808)                         \
    F(VmcsGuest16, GS_SELECTOR, 0x080A)                         \
    F(VmcsGuest16, LDTR_SELECTOR, 0x080C)                       \
    F(VmcsGuest16, TR_SELECTOR, 0x080E)                         \
    F(VmcsHost16, ES_SELECTOR, 0x0C00)                          \
    F(VmcsHost16, CS_SELECTOR, 0x0C02)                          \
    F(VmcsHost16, SS_SELECTOR, 0x0C04)                          \
    F(VmcsHost16, DS_SELECTOR, 0x0C06)                          \
    F(VmcsHost16, FS_SELECTOR, 0x0C08)                          \
    F(VmcsHost16, GS_SELECTOR, 0x0C0A)                          \
    F(VmcsHost16, TR_SELECTOR, 0x0C0C)                          \
    F(VmcsControl64, IO_BITMAP_A_ADDR, 0x2000)                  \
    F(VmcsControl64, IO_BITMAP_B_ADDR, 0x2002)                  \
    F(VmcsControl64, MSR_BITMAPS_ADDR, 0x2004)                  \
    F(VmcsControl64, EPTP, 0x201A)                              \
    F(VmcsGuest64, LINK_PTR, 0x2800)                            \
    F(VmcsGuest64, IA32_DEBUGCTL, 0x2802)                       \
    F(VmcsGuest64, IA32_PAT, 0x2804)                            \
    F(VmcsGuest64, IA32_EFER, 0x2806)                           \
    F(VmcsHost64, IA32_PAT, 0x2C00)                             \
    F(VmcsHost64, IA32_EFER, 0x2C02)                            \
    F(VmcsControl32, PINBASED_EXEC_CONTROLS, 0x4000)            \
    F(VmcsControl32, PRIMARY_PROCBASED_EXEC_CONTROLS, 0x4002)   \
    F(VmcsControl32, EXCEPTION_BITMAP, 0x4004)                  \
    F(VmcsControl32, CR3_TARGET_COUNT, 0x400A)                  \
    F(VmcsControl32, VMEXIT_CONTROLS, 0x400C)                   \
    F(VmcsControl32, VMEXIT_MSR_STORE_COUNT, 0x400E)            \
    F(VmcsControl32, VMEXIT_MSR_LOAD_COUNT, 0x4010)             \
    F(VmcsControl32, VMENTRY_CONTROLS, 0x4012)                  \
    F(VmcsControl32, VMENTRY_MSR_LOAD_COUNT, 0x4014)            \
    F(VmcsControl32, SECONDARY_PROCBASED_EXEC_CONTROLS, 0x401E) \
    F(VmcsGuest32, ES_LIMIT, 0x4800)                            \
    F(VmcsGuest32, CS_LIMIT, 0x4802)                            \
    F(VmcsGuest32, SS_LIMIT, 0x4804)                            \
    F(VmcsGuest32, DS_LIMIT, 0x4806)                            \
    F(VmcsGuest32, FS_LIMIT, 0x4808)                            \
    F(VmcsGuest32, GS_LIMIT, 0x480A)                            \
    F(VmcsGuest32, LDTR_LIMIT, 0x480C)                          \
    F(VmcsGuest32, TR_LIMIT, 0x480E)                            \
    F(VmcsGuest32, GDTR_LIMIT, 0x4810)                          \
    F(VmcsGuest32, IDTR_LIMIT, 0x4812)                          \
    F(VmcsGuest32, ES_ACCESS_RIGHTS, 0x4814)                    \
    F(VmcsGuest32, CS_ACCESS_RIGHTS, 0x4816)                    \
    F(VmcsGuest32, SS_ACCESS_RIGHTS, 0x4818)                    \
    F(VmcsGuest32, DS_ACCESS_RIGHTS, 0x481A)                    \
    F(VmcsGuest32, FS_ACCESS_RIGHTS, 0x481C)                    \
    F(VmcsGuest32, GS_ACCESS_RIGHTS, 0x481E)                    \
    F(VmcsGuest32, LDTR_ACCESS_RIGHTS, 0x4820)                  \
    F(VmcsGuest32, TR_ACCESS_RIGHTS, 0x4822)                    \
    F(VmcsGuest32, INTERRUPTIBILITY_STATE, 0x4824)              \
    F(VmcsGuest32, ACTIVITY_STATE, 0x4826)                      \
    F(VmcsGuest32, IA32_SYSENTER_CS, 0x482A)                    \
    F(VmcsGuest32, VMX_PREEMPTION_TIMER_VALUE, 0x482E)          \
    F(VmcsHost32, IA32_SYSENTER_CS, 0x4C00)                     \
    F(VmcsControlNW, CR0_GUEST_HOST_MASK, 0x6000)               \
    F(VmcsControlNW, CR4_GUEST_HOST_MASK, 0x6002)               \
    F(VmcsControlNW, CR0_READ_SHADOW, 0x6004)                   \
    F(VmcsControlNW, CR4_READ_SHADOW, 0x6006)                   \
    F(VmcsGuestNW, CR0, 0x6800)                                 \
    F(VmcsGuestNW, CR3, 0x6802)                                 \
    F(VmcsGuestNW, CR4, 0x6804)                                 \
    F(VmcsGuestNW, ES_BASE, 0x6806)                             \
    F(VmcsGuestNW, CS_BASE, 0x6808)                             \
    F(VmcsGuestNW, SS_BASE, 0x680A)                             \
    F(VmcsGuestNW, DS_BASE, 0x680C)                             \
    F(VmcsGuestNW, FS_BASE, 0x680E)                             \
    F(VmcsGuestNW, GS_BASE, 0x6810)                             \
    F(VmcsGuestNW, LDTR_BASE, 0x6812)                           \
    F(VmcsGuestNW, TR_BASE, 0x6814)                             \
    F(VmcsGuestNW, GDTR_BASE, 0x6816)                           \
    F(VmcsGuestNW, IDTR_BASE, 0x6818)                           \
    F(VmcsGuestNW, DR7, 0x681A)                                 \
    F(VmcsGuestNW, RSP, 0x681C)                                 \
    F(VmcsGuestNW, RIP, 0x681E)                                 \
    F(VmcsGuestNW, RFLAGS, 0x6820)                              \
    F(VmcsGuestNW, PENDING_DBG_EXCEPTIONS, 0x6822)              \
    F(VmcsGuestNW, IA32_SYSENTER_ESP, 0x6824)                   \
    F(VmcsGuestNW, IA32_SYSENTER_EIP, 0x6826)                   \
    F(VmcsHostNW, CR0, 0x6C00)                                  \
    F(VmcsHostNW, CR3, 0x6C02)                                  \
    F(VmcsHostNW, CR4, 0x6C04)                                  \
    F(VmcsHostNW, FS_BASE, 0x6C06)                              \
    F(VmcsHostNW, GS_BASE, 0x6C08)                              \
    F(VmcsHostNW, TR_BASE, 0x6C0A)                              \
    F(VmcsHostNW, GDTR_BASE, 0x6C0C)                            \
    F(VmcsHostNW, IDTR_BASE, 0x6C0E)                            \
    F(VmcsHostNW, IA32_SYSENTER_ESP, 0x6C10)                    \
    F(VmcsHostNW, IA32_SYSENTER_EIP, 0x6C12)                    \
    F(VmcsHostNW, RIP, 0x6C16)

/*
 * Queues an event last: its vector and, where coded is 1, its error code (code does not matter where coded is 0). Vectors 8, 10 to 14, 17 and 21 carry a code,
 * which waits with its event and goes in as vcpu_entry says; others drop it.
 * Refusals: VCPU_REFUSED_BYTES, VCPU_REFUSED_PHASE (ended), VCPU_REFUSED_FULL.
 */
uint32_t vcpu_queue_event(uint8_t *record, size_t length, uint8_t vector, uint8_t coded, uint32_t code);

/*
 * Queues an interrupt without an error code. The vector is judged whole. Vectors 1 to 31 go in as exceptions do, those that carry a code with the exit's, as
 * vcpu_entry says.
 * Refusals: VCPU_REFUSED_BYTES, VCPU_REFUSED_PHASE (ended), VCPU_REFUSED_VECTOR, VCPU_REFUSED_FULL.
 */
uint32_t vcpu_inject_interrupt(uint8_t *record, size_t length, uint64_t vector);

/* What an entry does with the front of the queue: none waits; it is held back and interrupt-window exiting is set; its word is written. */
#define VCPU_EVENT_NONE 0
#define VCPU_EVENT_HELD 1
#define VCPU_EVENT_WRITTEN 2

/*
 * An entry into the guest, which the host then makes: *resumed is 0 for VMLAUNCH (the first entry) and 1 for VMRESUME, *event what became
 * of the front of the queue. host_stack is stored in the field host RSP at the first entry only. An event whose vector is 32 or more is
 * held while RFLAGS.IF is clear or interruptibility is not 0. A written event is in the entry interruption field (0x4016), with its code (0x4018) and its length
 * (0x401A). Vectors 8, 10 to 14, 17 and 21 have a code, the caller's or else the exit's (0x4406), unless CR0.PE is clear (bit 0 of 0x6800 in the record, as the entry
 * finds it). Vectors 3 and 4 have a length, the exit's (0x440C). Without a code bit 11 of 0x4016 is clear and 0x4018 keeps what it had; without a length 0x401A does.
 * Refusals: VCPU_REFUSED_BYTES, VCPU_REFUSED_PHASE (not ready), VCPU_REFUSED_COUNT.
 */
uint32_t vcpu_entry(uint8_t *record, size_t length, uint64_t host_stack, uint8_t *resumed, uint8_t *event);

/* ---- Exit reports ----
 * What the processor tells after an exit is one block of bytes. Nothing lies between the parts, and numbers stand least significant byte first.
 */

/* The length in bytes of the block. */
#define VCPU_REPORT_LENGTH 244

/* Sixteen registers of 8 bytes, in the order of the record's. */
#define VCPU_REPORT_REGS 0
/* The guest's fields (8 bytes each; interruptibility and the access rights 4). */
#define VCPU_REPORT_RIP 128
#define VCPU_REPORT_RSP 136
#define VCPU_REPORT_RFLAGS 144
#define VCPU_REPORT_INTERRUPTIBILITY 152
#define VCPU_REPORT_CR0 156
#define VCPU_REPORT_CR3 164
#define VCPU_REPORT_CR4 172
#define VCPU_REPORT_EFER 180
#define VCPU_REPORT_CS_BASE 188
#define VCPU_REPORT_CS_RIGHTS 196
#define VCPU_REPORT_SS_RIGHTS 200
/* The exit words: full reason (4), qualification (8), instruction length, interruption information and its error code (4 each). */
#define VCPU_REPORT_REASON 204
#define VCPU_REPORT_QUALIFICATION 208
#define VCPU_REPORT_INSTRUCTION_LENGTH 216
#define VCPU_REPORT_INTERRUPTION 220
#define VCPU_REPORT_ERROR_CODE 224
/* CPUID for the guest's EAX and ECX (4 each), leaves 1 and 0xD as "What the host does" says; it is looked at for a CPUID exit alone. */
#define VCPU_REPORT_CPUID_EAX 228
#define VCPU_REPORT_CPUID_EBX 232
#define VCPU_REPORT_CPUID_ECX 236
#define VCPU_REPORT_CPUID_EDX 240

/* The answer is eight words: its number, then its values; words without a value are 0. */
#define VCPU_ANSWER_WORDS 8

/* The exit is dealt with: the next entry may follow. */
#define VCPU_ANSWER_NOTHING 0
/* VMCALL: RAX, then the arguments RDI, RSI, RDX, RCX, R8, R9. */
#define VCPU_ANSWER_HYPERCALL 1
/*
 * IN: port, width in bytes (1, 2 or 4). The host puts the value into RAX, the first register of the record: for widths 1 and 2 the other bytes
 * stay those that RAX had, for width 4 the upper four are 0.
 */
#define VCPU_ANSWER_IO_READ 2
/* OUT: port, width, data. */
#define VCPU_ANSWER_IO_WRITE 3
/* The guest turns its machine off. */
#define VCPU_ANSWER_SYSTEM_DOWN 4
/* An interrupt for the host, which the exit has acknowledged: vector. */
#define VCPU_ANSWER_EXTERNAL_INTERRUPT 5
/* RDMSR: all of RCX; the host puts the value into RAX and RDX. WRMSR: all of RCX, EDX:EAX. RIP is not advanced: the host writes the field 0x681E. */
#define VCPU_ANSWER_SYS_REG_READ 6
#define VCPU_ANSWER_SYS_REG_WRITE 7
/* RDMSR of an APIC register: MSR. The session waits for vcpu_apic_value. WRMSR of one: MSR, EDX:EAX. */
#define VCPU_ANSWER_APIC_READ 8
#define VCPU_ANSWER_APIC_WRITE 9
/* An exit that the core does not deal with. A string or repeated I/O instruction is one too: RIP is past it, and nothing of it is done. */
#define VCPU_ANSWER_HALT 10
/* The entry failed (its value is 0): why is in the fields of exit reason and qualification. The session is ended. */
#define VCPU_ANSWER_FAIL_ENTRY 11

/*
 * Takes what an exit reports and answers what the host is to do. The session is then ready, waiting or ended; a refused report leaves it running.
 * RIP is advanced past CPUID, VMCALL, XSETBV, moves to CR0 and CR4, every I/O instruction and accesses of APIC registers, and at no other exit.
 * XSETBV (reason 55) with ECX 0 stores EDX:EAX as the guest's XCR0; the upper halves of RAX, RCX and RDX are not looked at.
 * Refusals: VCPU_REFUSED_BYTES (record or block), VCPU_REFUSED_PHASE (not running), VCPU_REFUSED_REASON, VCPU_REFUSED_OWNED_BITS,
 * VCPU_REFUSED_INTERRUPT, VCPU_REFUSED_CR_ACCESS, VCPU_REFUSED_XCR, VCPU_REFUSED_XCR0, VCPU_REFUSED_APIC_ACCESS, VCPU_REFUSED_SUM, VCPU_REFUSED_SET.
 */
uint32_t vcpu_exit_report(uint8_t *record, size_t length, const uint8_t *block, size_t block_length, uint64_t *answer);

/*
 * Brings the value of the APIC register that the guest reads: RAX gets its low half, RDX its high half, and the session is ready.
 * Refusals: VCPU_REFUSED_BYTES, VCPU_REFUSED_PHASE (not waiting).
 */
uint32_t vcpu_apic_value(uint8_t *record, size_t length, uint64_t value);

/*
 * Reads or writes a field of the VMCS by its encoding (SDM 3D, appendix B), in any phase. The encoding is judged whole.
 * Refusals: VCPU_REFUSED_BYTES, VCPU_REFUSED_ENCODING; of a write then VCPU_REFUSED_READ_ONLY, VCPU_REFUSED_WIDTH.
 */
uint32_t vcpu_read_field(const uint8_t *record, size_t length, uint64_t encoding, uint64_t *value);
uint32_t vcpu_write_field(uint8_t *record, size_t length, uint64_t encoding, uint64_t value);

/*
 * Reads or writes a general-purpose register by its encoding in an instruction, in any phase. The index is judged whole.
 * Refusals: VCPU_REFUSED_BYTES, VCPU_REFUSED_INDEX.
 */
uint32_t vcpu_get_reg_of_index(const uint8_t *record, size_t length, uint64_t index, uint64_t *value);
uint32_t vcpu_set_reg_of_index(uint8_t *record, size_t length, uint64_t index, uint64_t value);

/*
 * Where the session stands: its phase, whether it was launched, how many events wait, its accepted entries, those that held an event.
 * Refusals: VCPU_REFUSED_BYTES.
 */
uint32_t vcpu_get_counts(const uint8_t *record, size_t length, uint8_t *phase, uint8_t *launched, uint8_t *waiting, uint32_t *entries,
                         uint32_t *held);

/*
 * The guest's XCR0, in any phase: 0 while the session is fresh, 1 from setup on, then what the last accepted XSETBV brought.
 * Refusals: VCPU_REFUSED_BYTES.
 */
uint32_t vcpu_get_xcr0(const uint8_t *record, size_t length, uint64_t *xcr0);

/*
 * The mode of the guest's CPU, told by LMA of the IA32_EFER given, the guest's CS access rights and CR0. With the host's, as in the Rust, it is
 * compatibility mode for a guest in real or protected mode on a host in long mode; with the guest's (0x2806) it is the guest's mode.
 * Refusals: VCPU_REFUSED_BYTES.
 */
#define VCPU_MODE_REAL 0
#define VCPU_MODE_PROTECTED 1
#define VCPU_MODE_COMPATIBILITY 2
#define VCPU_MODE_64 3
uint32_t vcpu_get_cpu_mode(const uint8_t *record, size_t length, uint64_t host_efer, uint32_t *mode);

/*
 * What a walk of the guest's page tables starts from: CR3, the number of levels (0 without paging, 2, 3 or 4), how many bits of an address
 * each level takes (0, 10, 9 or 9), and VCPU_WALK_ flags: the access is the user's (SS has DPL 3), CR4.PSE with 2 levels and else 1, CR0.WP,
 * EFER.NXE (0 with 2 levels), CR4.SMAP, CR4.SMEP. VCPU_WALK_WRITE and VCPU_WALK_FETCH are never set: the host knows its access.
 * Refusals: VCPU_REFUSED_BYTES.
 */
#define VCPU_WALK_USER 1
#define VCPU_WALK_WRITE 2
#define VCPU_WALK_FETCH 4
#define VCPU_WALK_PSE 8
#define VCPU_WALK_WP 16
#define VCPU_WALK_NXE 32
#define VCPU_WALK_SMAP 64
#define VCPU_WALK_SMEP 128
uint32_t vcpu_get_ptw_info(const uint8_t *record, size_t length, uint64_t *top_entry, uint8_t *level, uint8_t *width, uint32_t *flags);

/*
 * Walks the guest's page tables (SDM 3A, chapter 4): from a guest-virtual address to the guest-physical one, or to the reason why the guest itself would fault there.
 * It starts from what vcpu_get_ptw_info reads: CR0, CR3, CR4, EFER and the access rights of SS as the record has them, which each report brings. Whether the access
 * writes or fetches is told by its kind (VCPU_ACCESS_). The phase is not looked at. Record and memory are only read.
 * - memory holds the guest's physical memory from address 0 on, and may have any length, 0 too. The entries that the walk meets must lie in it, the page need not.
 * - The answer is three words: VCPU_WALKED_ADDRESS, the address, 0; or VCPU_WALKED_FAILS, the level of the entry at which the walk fails, the rule (VCPU_RULE_) that
 *   this entry breaks.
 * - Without paging (0 levels) the answer is the address itself, with all its bits, whatever memory is.
 * - With 4 levels bits 0 to 47 of the address count, with 3 and 2 bits 0 to 31. The others are ignored: whether the address is canonical is not judged.
 * - The top table is at bits 12 to 51 of CR3 with 4 levels, bits 5 to 31 with 3, bits 12 to 31 with 2; the others are ignored. The four top entries of PAE paging
 *   (3 levels) are read from memory, not from the fields 0x280A to 0x2810.
 * - An entry has 8 bytes, with 2 levels 4. It maps a page at level 1; at level 2 where bit 7 is set, with 2 levels only if CR4.PSE is set too; and at level 3 of 4 where
 *   bit 7 is set, since 1-GByte pages count as supported. Every other entry leads to the table below. Physical addresses have 52 bits, that of a 4-MByte page 40 (PSE-36).
 * - The walk goes from the top level down. If a byte of the next entry lies past the end of memory the call is refused by VCPU_REFUSED_MEMORY; else all rules that the
 *   entry can break are judged, in the order of their numbers, before another is read. So the answer is the first rule broken by the first entry that breaks one:
 *   VCPU_RULE_USER at level 4 comes before VCPU_RULE_NOT_PRESENT at level 3, and before VCPU_REFUSED_MEMORY there.
 * - There are no protection keys, RFLAGS.AC counts as clear, and accessed and dirty bits are neither judged nor set.
 * Refusals: VCPU_REFUSED_BYTES (the record, or a kind above 2, also without paging), VCPU_REFUSED_MEMORY.
 */
#define VCPU_ACCESS_READ 0
#define VCPU_ACCESS_WRITE 1
#define VCPU_ACCESS_FETCH 2
#define VCPU_WALKED_ADDRESS 0
#define VCPU_WALKED_FAILS 1
/* Bit 0 is 0. */
#define VCPU_RULE_NOT_PRESENT 1
/*
 * A reserved bit is 1. 4 levels: bit 63 if EFER.NXE is clear; bit 7 at level 4; bits 13 to 29 of a 1-GByte page; bits 13 to 20 of a 2-MByte page. 3 levels: at level 3
 * bits 1, 2, 5 to 8 and 52 to 63; below it bits 52 to 62, bit 63 if EFER.NXE is clear, bits 13 to 20 of a 2-MByte page. 2 levels: bit 21 of a 4-MByte page.
 */
#define VCPU_RULE_RESERVED 2
/*
 * User: the access is the user's and bit 2 is 0. Write: it is a write and bit 1 is 0; of a supervisor only if CR0.WP is set. Execute: it is a fetch, EFER.NXE is set
 * and bit 63 is 1; never with 2 levels. The top entries of PAE paging break none of these three.
 */
#define VCPU_RULE_USER 3
#define VCPU_RULE_WRITE 4
#define VCPU_RULE_EXECUTE 5
/*
 * Judged at the page alone, and broken only if bit 2 is 1 in every entry met but the top one of PAE paging: SMEP, by a supervisor's fetch if CR4.SMEP is set; SMAP, by
 * a supervisor's read or write if CR4.SMAP is set.
 */
#define VCPU_RULE_SMEP 6
#define VCPU_RULE_SMAP 7
uint32_t vcpu_page_walk(const uint8_t *record, size_t length, const uint8_t *memory, size_t memory_length, uint64_t address, uint8_t kind, uint64_t *answer);

/*
 * A guest address with the base of its code segment added (none in 64-bit mode).
 * Refusals: VCPU_REFUSED_BYTES, VCPU_REFUSED_SUM.
 */
uint32_t vcpu_gla2gva(const uint8_t *record, size_t length, uint64_t host_efer, uint64_t address, uint64_t *linear);

/* ---- Control words ---- */

/*
 * Computes a VMX control word (SDM 3D, A.2 to A.5; the Rust cites 31.5.1, algorithm 3, of an older edition). allowed0 and allowed1 are the low and the high half of the control's
 * capability MSR, old is the present word. *word gets allowed0, plus the bits of set, plus those bits of old that the processor leaves
 * open and that are in neither set nor clear.
 * Refusals: VCPU_REFUSED_PAIR, VCPU_REFUSED_SET_AND_CLEAR, VCPU_REFUSED_SET, VCPU_REFUSED_CLEAR.
 */
uint32_t vcpu_set_control(uint32_t allowed0, uint32_t allowed1, uint32_t old, uint32_t set, uint32_t clear, uint32_t *word);

/* ---- Intercepts ----
 * The frames are the ones whose physical addresses the VMCS holds. An edit touches the named bits alone, in any phase of a session.
 *
 * What scripts of edits leave (theorem two_hands of crates/intercepts; docs/TWO-HANDS.md), the calls on one frame being made one at a time:
 * - Edits that have no port, no read and no write of an MSR in common leave the same bytes in either order. So do two scripts, if no edit of one has any of these in
 *   common with an edit of the other: one after the other or interleaved, each script's own calls in order. An edit gets the same answer at every place, and a refused
 *   one counts for nothing.
 * - While nobody else writes the frames after vcpu_setup, each bit is as the last accepted edit since then that covers it asked, or, if there is none, as vcpu_setup left
 *   it; an edit may clear what vcpu_setup set. An edit covers the ports of its range, or the read, the write or both of its MSR, which are two bits.
 */

/*
 * Sets (intercept 1) or clears (intercept 0) the intercepts of the count ports from port_base on, in I/O bitmaps A (ports below 0x8000)
 * and B. A count of 0 is accepted for any port_base and changes nothing.
 * Refusals: VCPU_REFUSED_BYTES, VCPU_REFUSED_PORT.
 */
uint32_t vcpu_set_io_intercept_of_range(uint8_t *a, size_t a_length, uint8_t *b, size_t b_length, uint32_t port_base, uint32_t count,
                                        uint8_t intercept);

/*
 * Sets or clears the intercept of reads of one MSR, of writes of one, or of both, in the MSR bitmaps.
 * Refusals: VCPU_REFUSED_BYTES, VCPU_REFUSED_MSR.
 */
uint32_t vcpu_set_read_intercept(uint8_t *frame, size_t length, uint32_t msr, uint8_t intercept);
uint32_t vcpu_set_write_intercept(uint8_t *frame, size_t length, uint32_t msr, uint8_t intercept);
uint32_t vcpu_set_msr_intercept_of_range(uint8_t *frame, size_t length, uint32_t msr, uint8_t intercept);

/* ---- Trap sheet ----
 * What the frames trap when the call is made, as text. The sheet of the frames that vcpu_new and then vcpu_setup leave:
 *
 *     port                                   1
 *     read                                  65
 *     writ                                  65
 *     port  00000604  00000604               1
 *     read  000000e1  000000e1               1
 *     read  00000800  0000083f              64
 *     writ  000000e1  000000e1               1
 *     writ  00000800  0000083f              64
 *
 * - It is ASCII, and every line has 40 columns and a line feed. Nothing stands before, between or after the lines.
 * - The kinds are port, I/O of a port; read, RDMSR of an MSR; writ, WRMSR of one.
 * - The first three lines are totals, of port, read and writ in this order: the kind (4 columns), 22 blanks, and how many ports or MSRs are trapped, decimal,
 *   without leading zeros, right in 14 columns. It is 0 for a kind that has no trap and so no other line, and at most 65,536, 16,384 and 16,384.
 * - Then comes a line for each run of trapped numbers: all of port, then of read, then of writ, and those of a kind ascend. It has the kind, the first and the last
 *   number of the run in 8 small hexadecimal digits each, and how many numbers the run has, as in a total; two blanks stand before each of the three.
 * - A run ends where the next number is not trapped or the range ends. Ports are one range, 0 to 0xFFFF, and a run may pass from I/O bitmap A to B. MSRs have two,
 *   0 to 0x1FFF and then 0xC0000000 to 0xC0001FFF, and no run is in both. So whatever is trapped is on one line, nothing else is on any, and the lines of a kind
 *   add up to its total.
 * - The guest reaches without an exit every port that is on no line, and every read and write of an MSR of the two ranges that is on none. That holds while the
 *   VMCS has the addresses of these frames and the controls use I/O bitmaps and use MSR bitmaps (bits 25 and 28 of 0x4002), which setup sets. I/O of more than one
 *   port exits where one of them is trapped or it wraps past port 0xFFFF (SDM 3C, 26.1.3). MSRs outside both ranges always exit (25.6.9) and are on no sheet.
 */

/* The length in bytes of a line with its line feed, and of the longest sheet: three totals, and every second of all ports, reads and writes. */
#define VCPU_SHEET_LINE 41
#define VCPU_SHEET_LARGEST 2015355

/*
 * Writes the sheet of three frames, which are only read, to the start of output, and its length in bytes to *length. The output may be longer and keeps every byte
 * past the sheet; VCPU_SHEET_LARGEST bytes suffice for any frames.
 * Refusals: VCPU_REFUSED_BYTES (a frame's length; no length of the output gives it), VCPU_REFUSED_ROOM.
 */
uint32_t vcpu_trap_sheet(const uint8_t *a, size_t a_length, const uint8_t *b, size_t b_length, const uint8_t *msr, size_t msr_length,
                         uint8_t *output, size_t output_length, uint64_t *length);

/* ---- Trials ----
 * What a call would do. vcpu_try_X answers what vcpu_X would answer (vcpu_try_.._intercept.. what vcpu_set_.._intercept.. would), and shows in second buffers, which the
 * caller lends, what the call would leave in the first ones.
 * - The first buffers, record or frames, and the block are only read: the guest's own keep every byte. What the second ones held before does not matter.
 * - Accepted (0): each second buffer holds, byte for byte, what the call would have left in the first that it stands for, and the results are the call's.
 * - Refused: nothing is written, neither second buffers nor results.
 * - Numbers, in this order: VCPU_REFUSED_BYTES exactly where the call answers it, in which the second buffers play no part; VCPU_REFUSED_SHOWN, a second buffer's
 *   length is not that of its first; then the call's others, in its order. So a first record of another length is refused by VCPU_REFUSED_BYTES even where the second has
 *   the same length, and a session in another phase with a second record too short by VCPU_REFUSED_SHOWN.
 * - A trial changes no session: between calls any number of trials may be made, and the calls answer and leave what they would without them. What a trial of a report or
 *   an entry shows is a record, on which calls and further trials work as on any other.
 * - It shows what the core would do, and enters no guest: the host carries nothing of it to the processor.
 */

/* vcpu_exit_report and vcpu_entry, shown in a second record. */
uint32_t vcpu_try_exit_report(const uint8_t *record, size_t length, uint8_t *shown, size_t shown_length, const uint8_t *block, size_t block_length,
                              uint64_t *answer);
uint32_t vcpu_try_entry(const uint8_t *record, size_t length, uint8_t *shown, size_t shown_length, uint64_t host_stack, uint8_t *resumed, uint8_t *event);

/* vcpu_set_io_intercept_of_range, shown in a second A and a second B. Both are written, also where the edit leaves one of them as it is or count is 0. */
uint32_t vcpu_try_io_intercept_of_range(const uint8_t *a, size_t a_length, const uint8_t *b, size_t b_length, uint8_t *shown_a, size_t shown_a_length,
                                        uint8_t *shown_b, size_t shown_b_length, uint32_t port_base, uint32_t count, uint8_t intercept);

/* vcpu_set_read_intercept, vcpu_set_write_intercept and vcpu_set_msr_intercept_of_range, shown in a second MSR frame. */
uint32_t vcpu_try_read_intercept(const uint8_t *frame, size_t length, uint8_t *shown, size_t shown_length, uint32_t msr, uint8_t intercept);
uint32_t vcpu_try_write_intercept(const uint8_t *frame, size_t length, uint8_t *shown, size_t shown_length, uint32_t msr, uint8_t intercept);
uint32_t vcpu_try_msr_intercept_of_range(const uint8_t *frame, size_t length, uint8_t *shown, size_t shown_length, uint32_t msr, uint8_t intercept);

/* ---- Stack ----
 * The bytes of stack that each call needs at most: those below the caller's stack pointer, the return address and the red zone among them, the caller's
 * arguments not. Measured over accepted and refused calls (tests/c/stack.c) and rounded up to a multiple of 64, with some to spare. The host's memcpy, memmove and
 * memset are in it with their return address alone.
 */
#define VCPU_STACK(F)                       \
    F(vcpu_new, 64)                         \
    F(vcpu_setup, 1280)                     \
    F(vcpu_queue_event, 64)                 \
    F(vcpu_inject_interrupt, 64)            \
    F(vcpu_entry, 192)                      \
    F(vcpu_exit_report, 512)                \
    F(vcpu_apic_value, 64)                  \
    F(vcpu_read_field, 128)                 \
    F(vcpu_write_field, 128)                \
    F(vcpu_get_reg_of_index, 64)            \
    F(vcpu_set_reg_of_index, 64)            \
    F(vcpu_get_counts, 64)                  \
    F(vcpu_get_xcr0, 64)                    \
    F(vcpu_get_cpu_mode, 64)                \
    F(vcpu_get_ptw_info, 64)                \
    F(vcpu_page_walk, 768)                  \
    F(vcpu_gla2gva, 64)                     \
    F(vcpu_set_control, 64)                 \
    F(vcpu_set_io_intercept_of_range, 128)  \
    F(vcpu_set_read_intercept, 128)         \
    F(vcpu_set_write_intercept, 128)        \
    F(vcpu_set_msr_intercept_of_range, 128) \
    F(vcpu_trap_sheet, 512)                 \
    F(vcpu_try_exit_report, 576)            \
    F(vcpu_try_entry, 192)                  \
    F(vcpu_try_io_intercept_of_range, 192)  \
    F(vcpu_try_read_intercept, 128)         \
    F(vcpu_try_write_intercept, 128)        \
    F(vcpu_try_msr_intercept_of_range, 128)

#ifdef __cplusplus
}
#endif

#endif
