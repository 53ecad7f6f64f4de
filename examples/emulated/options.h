/*
 * What a probe makes the host do otherwise than the header's section "What the host does" says, one bit for each. `run` reads the names here: O(KEEP_LMA)
 * is keep-lma in the list of probes.
 */
#ifndef OPTIONS_H
#define OPTIONS_H

#define OPTIONS(O)                                                                            \
    O(VERBOSE)                /* print each exit and each check */                            \
    O(DIRTY_REGION)           /* start from a VMCS region that is not zero */                 \
    O(NO_EVENT_FIELD)         /* do not write 0x4016 after setup */                           \
    O(NO_PAGE_FAULT_WORDS)    /* do not write 0x4006 and 0x4008 after setup */                \
    O(NO_XSS_BITMAP)          /* do not write 0x202C after setup */                           \
    O(ZERO_SYSENTER)          /* leave the host's SYSENTER fields as setup wrote them */      \
    O(KEEP_EPT_FLAGS)         /* leave bit 6 of the EPT pointer as setup wrote it */          \
    O(FIELDS_AGAIN)           /* write the 93 fields of setup before every entry */           \
    O(RECORD_ENTRY_CONTROLS)  /* write 0x4012 as the record has it, at every reason 28 */     \
    O(CHANGED_ENTRY_CONTROLS) /* write 0x4012 as the record has it, where it changed */       \
    O(KEEP_LMA)               /* leave EFER.LMA as the core does */                           \
    O(NO_PDPTES)              /* do not load the page-directory pointers */                   \
    O(CORE_RESUME)            /* VMRESUME wherever vcpu_entry answers so */                   \
    O(NOT_COPIED)             /* give another VMCS what setup wrote, and not the old one's */ \
    O(QUEUE_FAULT)            /* queue a fault of the guest's present instruction */          \
    O(NMI_AT_ONCE)            /* queue an NMI while STI or MOV SS blocks */                   \
    O(HOST_CD)                /* run with CD set in the host's CR0 */                         \
    O(LOSE_VECTORING)         /* do not queue what IDT-vectoring information names */         \
    O(KEEP_BLOCKING)          /* leave blocking by STI and MOV SS at a completed exit */      \
    O(REPORT_NMI_BLOCKING)    /* leave blocking by NMI in the report */                       \
    O(RECORD_CR0)             /* report CR0 as the record has it, not as the exit left it */  \
    O(QUEUE_21)               /* queue vector 21 where the processor takes no code with it */ \
    O(EXIT_LENGTH)            /* leave the length of INT3 and INTO as the core does */        \
    O(HOST_EFER)              /* read the CPU mode with the host's EFER */                    \
    O(QUEUE_FIRST)            /* queue vector 3 before the first entry */                     \
    O(NO_XCR0)                /* do not load the guest's XCR0 before an entry */              \
    O(LEAVE_XCR0)             /* do not load the host's XCR0 after an exit */                 \
    O(ALL_XCR0)               /* give setup a supported word of all bits */                   \
    O(FEWER_XCR0)             /* give setup a supported word of x87 and SSE alone */          \
    O(OFFER_ALL)              /* leave bits in leaf 0xD that the supported word lacks */      \
    O(HOST_SIZE)              /* run CPUID of leaf 0xD with the host's XCR0 */                \
    O(HOST_OSXSAVE)           /* leave OSXSAVE of leaf 1 as the host's CR4 has it */          \
    O(EARLY_SHEET)            /* print no trap sheet after the host's own edits */            \
    O(OLDER_BOARD)            /* take the processor for a board that lacks 0x48D to 0x490 */  \
    O(READ_TRUE_WORDS)        /* read 0x48D to 0x490 where bit 55 of 0x480 is clear too */

#define OPTION(name) name,
enum option { OPTIONS(OPTION) };

#endif
