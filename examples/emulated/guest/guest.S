# The guests, at guest-physical START, each started in real mode at its own label with every segment base 0. A probe names its guest by that label.
#include "guest.h"

    .macro hypercall number, rdi=0, rsi=0, rdx=0
    mov     $\number, %eax
    mov     $\rdi, %edi
    mov     $\rsi, %esi
    mov     $\rdx, %edx
    vmcall
    .endm

    .macro note entry                   # in the log; real and protected mode
    pushw   %bx
    movzbw  LOG, %bx
    movb    $\entry, (LOG + 1)(%bx)
    incb    LOG
    popw    %bx
    .endm

    .macro finish kind                  # SystemDown: all of RAX is 0x2000, to port 0x604
    movl    $\kind, DONE
    mov     $0x2000, %eax
    mov     $0x604, %edx
    out     %ax, %dx
1:  jmp     1b
    .endm

    .macro begin name                   # a guest: its stack, and the vectors of real mode
    .globl  \name
    .code16
\name:
    mov     $0x5FF0, %sp
    call    vectors
    .endm

    .macro protect stack                # protected mode, with this stack
    mov     $0x11, %eax
    mov     %eax, %cr0
    lgdtl   gdtr
    lidtl   idtr
    ljmpl   $8, $.Lprotected\@
    .code32
.Lprotected\@:
    mov     $0x10, %eax
    mov     %eax, %ds
    mov     %eax, %ss
    mov     $\stack, %esp
    .endm

    .macro real                         # back to real mode, by a segment of 16 bits; no exit, since `protect` cleared CD and NW
    ljmpl   $0x20, $.Lsixteen\@
    .code16
.Lsixteen\@:
    mov     $0x10, %eax
    mov     %eax, %cr0
    ljmp    $0, $.Lreal\@
.Lreal\@:
    xor     %eax, %eax
    mov     %eax, %ds
    mov     %eax, %ss
    lidtl   ivtr
    .endm

#include "handlers.S"
#include "main.S"
#include "modes.S"
#include "events.S"
#include "many.S"
#include "accesses.S"

    .balign 8
gdt:                                    # code and data of 4 GByte, code of 64-bit mode, code of 64 KByte
    .quad   0, 0x00CF9B000000FFFF, 0x00CF93000000FFFF, 0x00AF9B000000FFFF, 0x00009B000000FFFF
gdtr:
    .word   39
    .long   gdt
    .macro  gate number, handler
    .org    idt + 8 * \number
    .word   \handler, 8, 0x8E00, 0
    .endm
idt:                                    # vectors 0 to 21 of protected mode
    gate    1 p01
    gate    6 p06
    gate    13 p13
    gate    14 p14
    gate    21 p21
idtr:
    .word   22 * 8 - 1
    .long   idt
ivtr:                                   # the vectors of real mode
    .word   0x3FF
    .long   0
no_idt:
    .word   0
    .long   0
    .org    MANY - START                # the guests end here at the latest
