# Handlers: each writes its vector to the log. Real mode first.
    .code16
    .macro returns name, number         # where does it return to?
\name:
    push    %bp
    mov     %sp, %bp
    pushl   %eax
    movzwl  2(%bp), %eax
    mov     %eax, SAW(SAW_RETURN)
    popl    %eax
    pop     %bp
    note    \number
    iret
    .endm
    returns h03 0x03                    # at START, where the host expects it
    returns h01 0x01
    returns h04 0x04
    returns h0d 0x0D
    returns h15 0x15

    .macro handler name, number
\name:
    pushal
    note    \number
    hypercall CALL_HERE \number
    popal
    iret
    .endm
    handler h02 0x02
    handler h20 0x20
    handler h21 0x21

h22:                                    # what the host queues when its timer has ticked
    pushal
    note    0x22
    movb    $1, FLAG
    hypercall CALL_HERE 0x22
    popal
    iret

    .macro past name, number            # past an instruction of two bytes
\name:
    push    %bp
    mov     %sp, %bp
    addw    $2, 2(%bp)
    pop     %bp
    note    \number
    iret
    .endm
    past    h06 0x06                    # UD2

    .macro vector number, handler
    movl    $\handler, 4 * \number
    .endm
vectors:
    vector  0x01 h01
    vector  0x02 h02
    vector  0x03 h03
    vector  0x04 h04
    vector  0x06 h06
    vector  0x0D h0d
    vector  0x15 h15
    vector  0x20 h20
    vector  0x21 h21
    vector  0x22 h22
    ret

# Protected mode: the error code, where there is one, lies on top of the stack.
    .code32
p01:
    popl    SAW(SAW_RETURN)
    pushl   SAW(SAW_RETURN)
    note    0x01
    iretl

    .macro coded name, number, place
\name:
    popl    SAW(\place)
    note    \number
    iretl
    .endm
    coded   p13 0x0D SAW_CODE_13
    coded   p14 0x0E SAW_CODE_14
    coded   p21 0x15 SAW_CODE_21
