# Accesses to ports and MSRs, each named in ACCESSES before it is made: those on a line of the trap sheet exit, the others do not. What they bring doesn't matter.
    .code16
    past    gp 0x0D                     # RDMSR or WRMSR of an MSR that the processor lacks

in_1:
    in      %dx, %al
    ret
in_2:
    in      %dx, %ax
    ret
in_4:
    in      %dx, %eax
    ret
out_1:
    out     %al, %dx
    ret
read:
    rdmsr
    ret
write:
    xor     %eax, %eax
    xor     %edx, %edx
    wrmsr
    ret
off:
    finish  DONE_ACCESSES

    .macro  accesses_by routine, kind, width, numbers:vararg
    .irp    number, \numbers
    .long   \number
    .byte   \kind, \width
    .word   \routine
    .endr
    .endm
    .balign 4
table:                                  # beside and at the ends of each line; wider ones by one port of theirs; past the last port; outside the ranges of MSRs
    accesses_by in_1, ACCESS_PORT, 1, 0x80, 0xE9, 0x2F7, 0x2F8, 0x2FF, 0x300, 0x603, 0x604, 0x605
    accesses_by in_1, ACCESS_PORT, 1, 0x7FFD, 0x7FFE, 0x7FFF, 0x8000, 0x8001, 0x8002, 0xFFFF
    accesses_by in_2, ACCESS_PORT, 2, 0x2F6, 0x2F7, 0x2FF, 0x300, 0x602, 0x603, 0x605, 0x7FFC, 0x7FFD, 0x8001, 0x8002, 0xFFFE, 0xFFFF
    accesses_by in_4, ACCESS_PORT, 4, 0x2F4, 0x2F5, 0x600, 0x601, 0x7FFA, 0x7FFB, 0x8002, 0xFFFC, 0xFFFD
    accesses_by out_1, ACCESS_PORT, 1, 0x80, 0x2FF
    accesses_by read, ACCESS_READ, 1, 0xE0, 0xE1, 0xE2, 0x174, 0x277, 0x7FF, 0x800, 0x83F, 0x840, 0x1FFE, 0x1FFF, 0x2000, 0x40000000
    accesses_by read, ACCESS_READ, 1, 0xBFFFFFFF, 0xC0000000, 0xC0000001, 0xC000007F, 0xC0000080, 0xC0000081, 0xC0001FFF, 0xC0002000, 0xFFFFFFFF
    accesses_by write, ACCESS_WRITE, 1, 0xE1, 0x174, 0x800, 0x83F, 0x1FFF, 0x2000, 0x40000000, 0xC0000000, 0xC0000080, 0xC0000100, 0xC0002000
    accesses_by off, ACCESS_PORT, 2, 0x604

    begin   accesses
    vector  0x0D gp
    mov     $table, %si
    mov     $ACCESSES, %di
1:  mov     (%si), %edx                 # a port
    mov     %edx, %ecx                  # or an MSR
    mov     6(%si), %bx
    movsl
    movsl
    incb    ACCESS
    call    *%bx
    jmp     1b                          # until the last one, which turns the machine off
