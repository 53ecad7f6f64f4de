# The host's first instructions, and where its exceptions go.
    .code64
    .section .text.start, "ax"
    .globl start
start:                                  # EDI and RSI: what the boot sector brings
    mov     %edi, %r12d
    lea     bss_start(%rip), %rdi       # the image on the disk ends before the variables
    lea     bss_end(%rip), %rcx
    sub     %rdi, %rcx
    xor     %eax, %eax
    cld
    rep stosb
    lea     stack_top(%rip), %rsp
    mov     %r12d, %edi
    call    host_main
1:  hlt
    jmp     1b

# Vectors 0 to 31, each 16 bytes long. The host means to take none of them.
    .text
    .globl traps
    .balign 16
traps:
    .set    vector, 0
    .rept   32
    .balign 16
    .if     (vector == 8) || ((vector >= 10) && (vector <= 14)) || (vector == 17)
    .else
    push    $0                          # the others have no code of their own
    .endif
    push    $vector
    jmp     trap
    .set    vector, vector + 1
    .endr
trap:
    pop     %rdi                        # vector
    pop     %rsi                        # code
    pop     %rdx                        # RIP
    call    host_trap
1:  hlt
    jmp     1b

    .bss
    .balign 16
    .skip   16384
stack_top:

    .section .rodata
    .globl guest_image, guest_image_end
guest_image:
    .incbin "guest.bin"
guest_image_end:
    .section .note.GNU-stack, ""
