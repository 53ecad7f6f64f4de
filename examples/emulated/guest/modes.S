# Paging and long mode. The host owns CD, NW and NE of CR0 and VMXE of CR4: a move that changes one of them from what the guest reads exits, another does
# not. After setup the guest reads CD and NW set.
    .set    PG_EXIT, 0x80000031         # PG, NE, ET, PE: changes CD, NW and NE
    .set    PG_NO_EXIT, 0xE0000011      # PG, CD, NW, ET, PE

    .macro  far selector, target
    ljmpl   $\selector, $\target
    .endm

    .macro  long_mode_on cr0            # up to the move to CR0, which exits or not
    mov     $0x20, %eax                 # PAE; VMXE is clear and the read shadow has it: an exit
    mov     %eax, %cr4
    mov     $PML4, %eax
    mov     %eax, %cr3
    mov     $0xC0000080, %ecx           # EFER.LME
    xor     %edx, %edx
    mov     $0x100, %eax
    wrmsr
    lgdtl   gdtr
    mov     $\cr0, %eax
    mov     %eax, %cr0
    .endm

    .macro  each operation
    .set    value, 0x1112131415161718
    .irp    register, rcx, rdx, rbx, rbp, rsi, rdi, r8, r9, r10, r11, r12, r13, r14, r15
    \operation \register
    .set    value, value + 0x1010101010101010
    .endr
    .endm
    .macro  fill register
    movabs  $value, %\register
    .endm
    .macro  compare register
    movabs  $value, %rax
    cmp     %rax, %\register
    jne     2f
    .endm

    begin   long_mode                   # by a move to CR0 that exits
    long_mode_on PG_EXIT
    far     0x18, 1f
    .code64
1:  hypercall CALL_MODE 3 4
    movabs  $ARGUMENT_R8, %r8           # a hypercall of 64-bit mode
    movabs  $ARGUMENT_R9, %r9
    mov     $4, %ecx
    hypercall CALL_ARGUMENTS 1 2 3
    each    fill                        # every register but RAX and RSP over an exit
    mov     $CALL_HERE, %eax
    vmcall
    each    compare
    movabs  $0xFFFFFFFF40000000, %rax   # CPUID clears the upper halves of its four
    mov     %rax, %rcx
    cpuid
    or      %rbx, %rax
    or      %rcx, %rax
    or      %rdx, %rax
    shr     $32, %rax
    jnz     2f
    movl    $1, SAW(SAW_REGISTERS)
2:  finish  DONE_LONG_MODE

    begin   long_mode_no_exit           # without an exit, then a move to CR4 that exits
    long_mode_on PG_NO_EXIT
    far     0x18, 1f
    .code64
1:  hypercall CALL_MODE 3 4
    mov     %cr4, %rax
    xor     $0x2000, %eax               # VMXE
    mov     %rax, %cr4
    hypercall CALL_MODE 3 4
    finish  DONE_PLAIN

    begin   long_mode_twice             # by an exit, off without one, on again by an exit
    long_mode_on PG_EXIT
    far     8, 1f
    .code32
1:  hypercall CALL_MODE 2 4
    mov     %cr0, %eax
    and     $0x7FFFFFFF, %eax
    mov     %eax, %cr0
    hypercall CALL_MODE 1 0
    mov     $0x80000011, %eax           # NE changes
    mov     %eax, %cr0
    hypercall CALL_MODE 2 4
    finish  DONE_PLAIN

    begin   leave_long_mode             # by a move to CR0 that exits
    long_mode_on PG_EXIT
    far     8, 1f
    .code32
1:  hypercall CALL_MODE 2 4
    mov     $0x11, %eax                 # PG and NE off
    mov     %eax, %cr0
    hypercall CALL_MODE 1 0
    finish  DONE_PLAIN

    begin   leave_no_exit               # without an exit, then a move to CR4 that exits
    long_mode_on PG_EXIT
    far     8, 1f
    .code32
1:  hypercall CALL_MODE 2 4
    mov     %cr0, %eax
    and     $0x7FFFFFFF, %eax
    mov     %eax, %cr0
    hypercall CALL_MODE 1 0
    mov     %cr4, %eax
    xor     $0x2000, %eax
    mov     %eax, %cr4
    hypercall CALL_MODE 1 0
    finish  DONE_PLAIN

    .macro  paging_on cr4, cr3, cr0
    mov     %cr4, %eax
    or      $\cr4, %eax                 # PSE or PAE: no exit
    mov     %eax, %cr4
    mov     $\cr3, %eax
    mov     %eax, %cr3
    lgdtl   gdtr
    mov     $\cr0, %eax
    mov     %eax, %cr0
    .endm

    begin   paging                      # 32-bit paging by a move to CR0 that exits
    paging_on 0x10, PD32, 0x80000011
    far     8, paged

    begin   paging_no_exit
    paging_on 0x10, PD32, PG_NO_EXIT
    far     8, paged

    .code32
paged:
    mov     $0x10, %eax
    mov     %eax, %ds
    hypercall CALL_MODE 1 2
    finish  DONE_PLAIN

    begin   pae                         # PAE paging by a move to CR0 that exits
    paging_on 0x20, PDPTES, 0x80000011
    far     8, 1f
    .code32
1:  mov     $0x10, %eax
    mov     %eax, %ds
    hypercall CALL_MODE 1 3
    movl    $0x9AE, SAW(SAW_PAE)        # the other pointers lead to the same page
    mov     0x40000000 + SAW(SAW_PAE), %eax
    mov     %eax, SAW(SAW_PAE + 1)
    mov     0xC0000000 + SAW(SAW_PAE), %eax
    mov     %eax, SAW(SAW_PAE + 3)
    movl    $(PD_PAE | 1), PDPTES + 16  # the third is new, and a move to CR4 that changes PGE loads it; VMXE makes it exit
    mov     %cr4, %eax
    xor     $0x2080, %eax
    mov     %eax, %cr4
    mov     0x80000000 + SAW(SAW_PAE), %eax
    mov     %eax, SAW(SAW_PAE + 2)
    finish  DONE_PAE

    begin   clts_lmsw                   # CLTS and LMSW that change no bit of the host's do not exit; then NE alone does
    clts
    mov     $1, %ax
    lmsw    %ax
    hypercall CALL_HERE
    mov     %cr0, %eax
    or      $0x20, %eax
    mov     %eax, %cr0
    hypercall CALL_HERE
    finish  DONE_PLAIN

    begin   pg_without_pe               # without a host: a general-protection fault
    mov     $0x80000010, %eax
    mov     %eax, %cr0
    finish  DONE_PLAIN

    begin   cr4_reserved                # the same
    mov     $0x80002000, %eax
    mov     %eax, %cr4
    mov     %cr4, %eax
    mov     %eax, SAW(SAW_CR4)
    test    %eax, %eax
    jns     1f
    note    0x31                        # the guest reads bit 31 as set
1:  finish  DONE_PLAIN
