# Random interrupts. The host queues vectors 0x20 to 0x2F at random times; each handler writes its vector to MANY, and the odd ones exit too.
    .set    number, 0x20
    .code16
    .balign 16
stubs:
    .rept   16
    .balign 16
    pushal
    mov     $number, %al
    jmp     arrived
    .set    number, number + 1
    .endr
arrived:
    mov     COUNT, %bx
    mov     %al, MANY(%bx)
    incw    COUNT
    test    $1, %al
    jz      1f
    hypercall CALL_HERE
1:  popal
    iret

    begin   many
    mov     $stubs, %eax
    mov     $(4 * 0x20), %di
    mov     $16, %cx
1:  mov     %eax, (%di)
    add     $16, %ax
    add     $4, %di
    loop    1b
    mov     $1000, %bp
2:  hypercall CALL_SOME
    mov     $0x40000000, %eax
    test    $1, %bp
    jz      3f
    cpuid                               # an exit with IF clear, or set, as the last round left it
3:  sti
    test    $2, %bp
    jz      4f
    mov     $(SERIAL + 7), %dx
    out     %al, %dx                    # an exit with IF set
    nop
    nop
4:  test    $4, %bp
    jz      5f
    cli
5:  dec     %bp
    jnz     2b
6:  sti                                 # until none waits
    nop
    nop
    hypercall CALL_WAITING
    test    %eax, %eax
    jnz     6b
    cli
    finish  DONE_MANY
