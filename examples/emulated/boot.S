# Boot sector: loads the host from the disk (INT 13h, extended read) to 0x10000 and enters long mode with the first GiB mapped to itself. `run` fills in
# the last words: the guest's first RIP and the probe's options, which the host gets as its two arguments, and the host's length in sectors.
    .code16
    .globl _start
_start:
    cli
    ljmp    $0, $1f
1:  xor     %ax, %ax
    mov     %ax, %ds
    mov     %ax, %es
    mov     %ax, %ss
    mov     $0x7C00, %sp
    sti
    mov     %dl, drive
    movw    sectors, %bx
    mov     $0x1000, %bp                # segment to load to
    mov     $1, %edi                    # block to load from
2:  mov     %bp, packet + 6
    mov     %edi, packet + 8
    mov     $packet, %si
    mov     $0x42, %ah
    mov     drive, %dl
    int     $0x13
    jc      no_disk
    add     $(512 * 16 / 16), %bp
    add     $16, %edi
    sub     $16, %bx
    ja      2b

    mov     $0x80000001, %eax           # long mode?
    cpuid
    bt      $29, %edx
    jnc     no_long

    in      $0x92, %al                  # A20
    or      $2, %al
    and     $0xFE, %al
    out     %al, $0x92
    cli
    mov     $0xFF, %al                  # no interrupts from the two PICs
    out     %al, $0x21
    out     %al, $0xA1

    mov     $0x1000, %edi               # page tables at 0x1000, 0x2000, 0x3000
    mov     %edi, %cr3
    xor     %eax, %eax
    mov     $3072, %ecx
    cld
    rep stosl
    movl    $0x2003, 0x1000
    movl    $0x3003, 0x2000
    mov     $0x3000, %edi
    mov     $0x83, %eax
    mov     $512, %ecx
3:  mov     %eax, (%di)
    add     $0x200000, %eax
    add     $8, %di
    loop    3b

    mov     %cr4, %eax
    or      $0x620, %eax                # PAE, OSFXSR, OSXMMEXCPT
    mov     %eax, %cr4
    mov     $0xC0000080, %ecx
    rdmsr
    or      $0x100, %eax                # LME
    wrmsr
    lgdt    gdtr
    mov     $0x80000033, %eax           # PG, NE, ET, MP, PE; EM clear
    mov     %eax, %cr0
    ljmp    $8, $4f

no_disk:
    mov     $no_disk_text, %si
    jmp     5f
no_long:
    mov     $no_long_text, %si
5:  mov     $0xE9, %dx                  # the port that the emulator prints
6:  lodsb
    out     %al, %dx
    test    %al, %al
    jnz     6b
    mov     $0x8900, %dx                # and the one that ends it
    mov     $shutdown, %si
7:  lodsb
    out     %al, %dx
    jmp     7b

    .code64
4:  mov     $0x10, %eax
    mov     %eax, %ds
    mov     %eax, %es
    mov     %eax, %ss
    xor     %eax, %eax
    mov     %eax, %fs
    mov     %eax, %gs
    mov     0x7C00 + 496, %edi          # guest
    mov     0x7C00 + 500, %rsi          # options
    mov     $0x10000, %eax
    jmp     *%rax

    .align 8
gdt:
    .quad   0, 0x00209B0000000000, 0x0000930000000000
gdtr:
    .word   23
    .long   gdt
packet:
    .byte   16, 0
    .word   16, 0, 0x1000
    .quad   1
drive:
    .byte   0
no_disk_text:
    .asciz  "begin\nending: the disk is not read\nend\n"
no_long_text:
    .asciz  "begin\nending: no long mode\nend\n"
shutdown:
    .ascii  "Shutdown"
    .org    496
guest:
    .long   0
options:
    .quad   0
sectors:
    .word   0
    .org    510
    .word   0xAA55
