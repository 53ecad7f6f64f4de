# int vm_enter(struct guest_area *area, int launched): 0 after an exit, 1 for VMfailInvalid, 2 for VMfailValid.
# The area (host.h): sixteen registers in the order of a record, the host's stack pointer, a pad, then x87 and SSE state of the guest and of the host.
# Host RSP of the VMCS points behind the registers, so that an exit pushes them into their places.
    .code64
    .text
    .set    HOST_RSP, 128
    .set    GUEST_FX, 144
    .set    HOST_FX, 656
    .globl vm_enter
vm_enter:
    push    %rbx
    push    %rbp
    push    %r12
    push    %r13
    push    %r14
    push    %r15
    push    %rdi
    mov     %rsp, HOST_RSP(%rdi)
    fxsave64 HOST_FX(%rdi)
    fxrstor64 GUEST_FX(%rdi)
    test    %esi, %esi
    mov     (%rdi), %rax                # MOV leaves the flags that TEST made
    mov     8(%rdi), %rcx
    mov     16(%rdi), %rdx
    mov     24(%rdi), %rbx
    mov     40(%rdi), %rbp
    mov     48(%rdi), %rsi
    mov     64(%rdi), %r8
    mov     72(%rdi), %r9
    mov     80(%rdi), %r10
    mov     88(%rdi), %r11
    mov     96(%rdi), %r12
    mov     104(%rdi), %r13
    mov     112(%rdi), %r14
    mov     120(%rdi), %r15
    mov     56(%rdi), %rdi
    jnz     1f
    vmlaunch
    jmp     2f
1:  vmresume
2:  mov     $1, %eax                    # VMfail: the registers are the guest's, RSP is still the host's
    jc      3f
    mov     $2, %eax
3:  mov     (%rsp), %rdi
    fxrstor64 HOST_FX(%rdi)
    jmp     4f

    .globl vm_exit
vm_exit:
    push    %r15
    push    %r14
    push    %r13
    push    %r12
    push    %r11
    push    %r10
    push    %r9
    push    %r8
    push    %rdi
    push    %rsi
    push    %rbp
    push    $0                          # the place of RSP
    push    %rbx
    push    %rdx
    push    %rcx
    push    %rax
    mov     %rsp, %rdi
    fxsave64 GUEST_FX(%rdi)
    fxrstor64 HOST_FX(%rdi)
    mov     HOST_RSP(%rdi), %rsp
    xor     %eax, %eax
4:  pop     %rdi
    pop     %r15
    pop     %r14
    pop     %r13
    pop     %r12
    pop     %rbp
    pop     %rbx
    ret
    .section .note.GNU-stack, ""
