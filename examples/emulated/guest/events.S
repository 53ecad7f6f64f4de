# Events that are hard to deliver, and exits that a host sees seldom.
    begin   plain                       # does nothing
    finish  DONE_PLAIN

    .macro  returns_to_next number, coded=0, code=0 # 0xEE in the log where the handler does not return right behind VMCALL
    hypercall CALL_QUEUE \number \coded \code
1:  nop
    nop
    nop
    nop
    cmpl    $1b, SAW(SAW_RETURN)
    je      2f
    note    0xEE
2:
    .endm

    begin   codes                       # exceptions with an error code, in protected mode: 14 with the caller's, 13 with the exit's
    protect 0x5FF0
    movl    $0x77, SAW(SAW_CODE_13)
    hypercall CALL_QUEUE 14 1 2
    hypercall CALL_QUEUE 13
    finish  DONE_CODES

    begin   delivery_code               # the same where the stack is in a page that the EPT lacks
    protect (HOLE + 0xFF0)
    hypercall CALL_QUEUE 14 1 2
    finish  DONE_CODE

    begin   wide_code                   # a code of more than 16 bits
    protect 0x5FF0
    hypercall CALL_QUEUE 14 1 0x10002
    finish  DONE_PLAIN

    begin   code_in_real_mode           # a general-protection fault with a code, where no event has one
    returns_to_next 0x0D 1 0x18
    finish  DONE_NO_CODE

    begin   code_waits                  # the same, queued in protected mode behind an interrupt: both go in in real mode
    protect 0x5FF0
    hypercall CALL_QUEUE 14 1 2
    hypercall CALL_QUEUE 0x20
    hypercall CALL_QUEUE 0x0D 1 0x18
    note    0xF0
    real
    sti
    nop
    nop
    cli
    note    0xF1
    finish  DONE_NO_CODE

    begin   debug                       # a debug exception goes in where RIP is past VMCALL, and has no length: real and protected mode
    returns_to_next 1
    protect 0x5FF0
    returns_to_next 1
    finish  DONE_DEBUG

    begin   control_protection          # in real mode without its code, in protected mode with it
    hypercall CALL_QUEUE 21 1 3
    protect 0x5FF0
    hypercall CALL_QUEUE 21 1 3
    finish  DONE_CONTROL_PROTECTION

    begin   breakpoint                  # INTO and INT3 go in where RIP is past VMCALL, whose length the last exit had
    returns_to_next 4
    hypercall CALL_QUEUE 3
1:  nop
    nop
    nop
    nop
    movl    $1b, SAW(SAW_RETURN_TO)
    finish  DONE_BREAKPOINT

    .globl  first_breakpoint
first_breakpoint:                       # the host has queued vector 3 before the first entry, and laid its handler
    mov     $0x5FF0, %sp
    movl    $first_breakpoint, SAW(SAW_RETURN_TO)
    finish  DONE_BREAKPOINT

    begin   vector_25                   # reserved vector: type 7
    hypercall CALL_QUEUE 25
    finish  DONE_PLAIN

    begin   delivery                    # the interrupt's frame goes to a page that the EPT lacks: an exit while it is delivered
    mov     $(HOLE + 0xFF0), %sp
    sti
    nop
    hypercall CALL_QUEUE 0x20
    nop
    nop
    finish  DONE_PLAIN

    begin   delivery_breakpoint         # the same of a breakpoint: it returns to where it was to return
    mov     $(HOLE + 0xFF0), %sp
    hypercall CALL_QUEUE 3
1:  nop
    nop
    nop
    nop
    movl    $1b, SAW(SAW_RETURN_TO)
    finish  DONE_BREAKPOINT

    begin   delivery_own                # the guest's own divide error, while an interrupt is held: it comes again by itself
    movl    $2f, 0
    hypercall CALL_QUEUE 0x20
    mov     $(HOLE + 0xFF0), %sp
    mov     $0x1234, %ax
    xor     %bx, %bx
    div     %bl
    note    0xF0
    sti
    nop
    nop
    cli
    note    0xF1
    finish  DONE_PLAIN
2:  mov     $0x80, %bl                  # its handler
    note    0x00
    iret

    begin   delivery_int                # INT n: the guest executes it again
    mov     $(HOLE + 0xFF0), %sp
    int     $0x20
    finish  DONE_PLAIN

    begin   delivery_int3               # INT3
    mov     $(HOLE + 0xFF0), %sp
    int3
1:  nop
    movl    $1b, SAW(SAW_RETURN_TO)
    finish  DONE_BREAKPOINT

    begin   nmi_mov_ss                  # an NMI while MOV SS blocks
    xor     %esi, %esi
    xor     %edx, %edx
    mov     $CALL_QUEUE, %eax
    mov     $2, %edi
    mov     %dx, %ss
    vmcall
    finish  DONE_PLAIN

    begin   nmi_shadow                  # an NMI at an exit in the shadow of MOV SS whose instruction is yet to be done
    hypercall CALL_AT_NEXT 2
    xor     %edx, %edx
    mov     %dx, %ss
    movl    $0x5AD0, HOLE
    note    0xF0
    hypercall CALL_HERE
    note    0xF1
    finish  DONE_PLAIN

    .macro  xsave_on otherwise          # OSXSAVE, without an exit, where CPUID offers XSAVE
    mov     $1, %eax
    xor     %ecx, %ecx
    cpuid
    bt      $26, %ecx
    jnc     \otherwise
    mov     %cr4, %eax
    or      $0x40000, %eax
    mov     %eax, %cr4
    .endm

    .macro  round number, instruction:vararg
    sti
    \instruction
    cli
    note    \number
    .endm
    begin   sti_exits                   # instructions that exit, right after STI: without a host the interrupt comes after each
    hypercall CALL_QUEUE 0x20
    mov     $0x40000000, %eax
    round   0xF0, cpuid
    hypercall CALL_QUEUE 0x20
    mov     $CALL_HERE, %eax
    round   0xF1, vmcall
    hypercall CALL_QUEUE 0x20
    mov     $(SERIAL + 7), %dx
    round   0xF2, out %al, %dx
    hypercall CALL_QUEUE 0x20
    mov     $(SERIAL + 7), %dx
    round   0xF3, in %dx, %al
    hypercall CALL_QUEUE 0x20
    mov     $0xC0000080, %ecx           # the host steps over it
    round   0xF4, rdmsr
    hypercall CALL_QUEUE 0x20
    mov     $0x802, %ecx                # a register of the local APIC
    round   0xF5, rdmsr
    hypercall CALL_QUEUE 0x20
    mov     $0x80B, %ecx
    mov     $9, %eax
    xor     %edx, %edx
    round   0xF6, wrmsr
    hypercall CALL_QUEUE 0x20
    mov     %cr0, %eax
    xor     $0x20, %eax                 # NE
    round   0xF7, mov %eax, %cr0
    xsave_on 2f
    hypercall CALL_QUEUE 0x20
    xor     %ecx, %ecx
    xor     %edx, %edx
    mov     $1, %eax
    round   0xF8, xsetbv
2:  finish  DONE_PLAIN

    begin   sti_shadow                  # an exit in STI's shadow whose instruction is yet to be done: the interrupt comes after it
    hypercall CALL_AT_NEXT 0x20
    vector  0x20 2f
    sti
    movl    $0x5AD0, HOLE               # an EPT violation; the host queues 0x20 and maps the page
    nop
    nop
    cli
    note    0xF0
    finish  DONE_SHADOW
2:  pushl   %eax
    mov     HOLE, %eax
    mov     %eax, SAW(SAW_SHADOW)
    popl    %eax
    note    0x20
    iret

    begin   fault                       # UD2 while an interrupt is held: the fault comes first
    hypercall CALL_QUEUE 0x20
    ud2
    note    0xF0
    sti
    nop
    nop
    cli
    note    0xF1
    finish  DONE_PLAIN

    begin   fault_and_interrupt         # UD2 where an interrupt goes in: its handler returns to UD2, which faults again
    hypercall CALL_AT_NEXT 0x20
    sti
    nop
    ud2
    cli
    note    0xF0
    finish  DONE_PLAIN

    begin   sti_hlt                     # a written event ends HLT
    hypercall CALL_TIMER
    sti
    hlt
    cli
    note    0xF0
    finish  DONE_PLAIN

    begin   sti_hlt_held                # so should the window of a held one; the timer ends it where it does not
    hypercall CALL_QUEUE 0x20
    hypercall CALL_TIMER
    sti
    hlt
    cli
    note    0xF0
    finish  DONE_PLAIN

    begin   nmi_handler                 # an interrupt while an NMI's handler has set IF
    vector  0x02 2f
    hypercall CALL_QUEUE 2
    nop
    nop
    cli
    finish  DONE_PLAIN
2:  note    0x02
    sti
    nop
    hypercall CALL_QUEUE 0x20
    nop
    note    0xF0
    iret

    begin   nmi_return                  # an interrupt after an NMI's handler: its IRET does not end blocking by NMI while NMIs exit
    hypercall CALL_QUEUE 2
    sti
    nop
    hypercall CALL_QUEUE 0x20
    nop
    cli
    note    0xF0
    finish  DONE_PLAIN

    begin   move                        # the VMCS is cleared and loaded again between two entries
    hypercall CALL_MOVE
    hypercall CALL_HERE
    finish  DONE_PLAIN

    begin   another                     # another VMCS between two entries, in protected mode
    protect 0x5FF0
    hypercall CALL_ANOTHER
    hypercall CALL_HERE
    finish  DONE_PLAIN

    begin   xsaves                      # XSAVES of state that IA32_XSS has
    xor     %eax, %eax
    cpuid
    cmp     $0xD, %eax
    jb      2f
    mov     $0xD, %eax
    mov     $1, %ecx
    cpuid
    bt      $3, %eax
    jnc     2f
    mov     %cr4, %eax
    or      $0x40000, %eax              # OSXSAVE
    mov     %eax, %cr4
    mov     $0xDA0, %ecx                # IA32_XSS
    mov     $0x1800, %eax
    xor     %edx, %edx
    wrmsr
    mov     $0x1801, %eax
    mov     $0x7000, %bx
    xsaves  (%bx)
    note    0xF0
    finish  DONE_PLAIN
2:  note    0xEE                        # the processor has no XSAVES
    finish  DONE_PLAIN

    begin   preemption_timer            # a loop that nothing else ends
    hypercall CALL_PREEMPTION
    mov     $0x10000000, %ecx
1:  cmpb    $0, FLAG                    # the host sets it at the timer's exit
    jne     2f
    dec     %ecx
    jnz     1b
2:  finish  DONE_TIMER

    begin   page_fault                  # a page fault without an IDT: a triple fault, or an exit of its own
    paging_on 0x10, PD32, PG_NO_EXIT
    lidtl   no_idt
    mov     $0x10, %ax
    mov     %ax, %ds
    mov     $0x40000000, %ebx
    movb    $0, (%ebx)
    finish  DONE_PLAIN

    begin   xsetbv                      # every bit of XCR0 that CPUID offers, and AVX where it is one of them
    xsave_on no_xsave
    mov     %ecx, SAW(SAW_OSXSAVE)
    mov     $1, %eax
    cpuid
    mov     %ecx, SAW(SAW_OSXSAVE + 1)
    xor     %ecx, %ecx
    xgetbv
    mov     %eax, SAW(SAW_XCR0_FIRST)
    mov     $0xD, %eax
    cpuid
    mov     %ebx, SAW(SAW_AREA)
    mov     %eax, %esi
    xor     %ecx, %ecx
    xsetbv
    xgetbv                              # does not exit
    mov     %eax, SAW(SAW_XCR0)
    mov     %edx, SAW(SAW_XCR0 + 1)
    mov     $0xD, %eax
    cpuid
    mov     %ebx, SAW(SAW_AREA + 1)
    protect 0x5FF0                      # real mode has no AVX
    test    $XCR0_AVX, %esi
    jz      1f
    movl    $AVX_WORD, SAW(SAW_AVX + 1)
    vbroadcastss SAW(SAW_AVX + 1), %ymm0
    hypercall CALL_HERE
    vextractf128 $1, %ymm0, %xmm0
    vmovd   %xmm0, SAW(SAW_AVX)
1:  finish  DONE_XCR0
p06:                                    # #UD in protected mode: XCR0 lacks AVX
    note    0x06
    finish  DONE_XCR0

    begin   xsetbv_more                 # bit 8, which is of IA32_XSS: without a host a general-protection fault
    xsave_on no_xsave
    xor     %ecx, %ecx
    xor     %edx, %edx
    mov     $0x101, %eax
    xsetbv
    finish  DONE_PLAIN
no_xsave:
    note    0xEE                        # the processor has no XSAVE
    finish  DONE_PLAIN
