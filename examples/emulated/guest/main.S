# The main run: what a guest does at boot, each thing once. SAW and LOG hold what it saw; checks.c has what it should have seen.
    begin   main
    mov     %cr0, %eax                  # CR0 and CR4 by their read shadows
    mov     %eax, SAW(SAW_CR0)
    mov     %cr4, %eax
    mov     %eax, SAW(SAW_CR4)
    or      $0x200, %eax                # OSFXSR: no exit, the guest owns it
    mov     %eax, %cr4
    mov     $0x12345678, %eax           # XMM0, to be found again after all exits
    movd    %eax, %xmm0
    mov     $0xFA17000, %eax            # and CR2, which no field holds
    mov     %eax, %cr2

    mov     $1, %eax                    # CPUID: a leaf that the core masks
    xor     %ecx, %ecx
    cpuid
    mov     %eax, SAW(SAW_CPUID_1)
    mov     %ebx, SAW(SAW_CPUID_1 + 1)
    mov     %ecx, SAW(SAW_CPUID_1 + 2)
    mov     %edx, SAW(SAW_CPUID_1 + 3)
    mov     $0x40000000, %eax           # and the hypervisor's own
    cpuid
    mov     %eax, SAW(SAW_CPUID_VENDOR)
    mov     %ebx, SAW(SAW_CPUID_VENDOR + 1)
    mov     %ecx, SAW(SAW_CPUID_VENDOR + 2)
    mov     %edx, SAW(SAW_CPUID_VENDOR + 3)

    mov     $4, %eax                    # and one with subleaves
    mov     $1, %ecx
    cpuid
    mov     %eax, SAW(SAW_CPUID_4)

    mov     $0x11223341, %eax           # OUT of 1, 2 and 4 bytes to trapped ports
    mov     $SERIAL, %dx
    out     %al, %dx
    inc     %dx
    out     %ax, %dx
    inc     %dx
    out     %eax, %dx
    mov     $SERIAL, %dx                 # IN of 1, 2 and 4 bytes: what becomes of the rest of EAX
    in      %dx, %al
    mov     %eax, SAW(SAW_IN_1)
    mov     $0x11223344, %eax
    in      %dx, %ax
    mov     %eax, SAW(SAW_IN_2)
    in      %dx, %eax
    mov     %eax, SAW(SAW_IN_4)
    xor     %eax, %eax                  # a port that is not trapped: the emulator's own, which reads as its number
    in      $0xE9, %al
    mov     %eax, SAW(SAW_IN_OPEN)
    mov     $5, %ecx                    # REP OUTS: Halt, and RIP is past it; the host sends nothing
    mov     $SAW(0), %si
    rep outsb
    mov     %ecx, SAW(SAW_OUTS_CX)

    mov     $0xC0000080, %ecx           # RDMSR that the host has trapped
    rdmsr
    mov     %eax, SAW(SAW_RDMSR)
    mov     %edx, SAW(SAW_RDMSR + 1)
    mov     $0xE1, %ecx                 # WRMSR that setup traps
    mov     $0x55667788, %eax
    mov     $0x11, %edx
    wrmsr
    mov     $0x277, %ecx                # RDMSR that is not trapped
    rdmsr
    mov     %eax, SAW(SAW_RDMSR_OPEN)
    mov     %edx, SAW(SAW_RDMSR_OPEN + 1)
    mov     $0x802, %ecx                # the local APIC, read and written
    rdmsr
    mov     %eax, SAW(SAW_APIC)
    mov     %edx, SAW(SAW_APIC + 1)
    mov     $0x80B, %ecx
    mov     $9, %eax
    xor     %edx, %edx
    wrmsr

    mov     $4, %ecx                    # a hypercall with arguments
    hypercall CALL_ARGUMENTS 1 2 3
    movd    %xmm0, %eax
    mov     %eax, SAW(SAW_XMM)
    mov     %cr2, %eax
    mov     %eax, SAW(SAW_CR2)

    hypercall CALL_QUEUE 0x20           # two interrupts wait while IF is clear
    hypercall CALL_QUEUE 0x21
    note    0xFE
    sti                                 # and go in, one after the other
    nop
    nop
    nop
    cli
    note    0xFD

    hypercall CALL_TIMER                # an interrupt of the machine: for the host, which queues 0x22
    sti
1:  cmpb    $0, FLAG
    je      1b
    cli
    note    0xFC

    hypercall CALL_QUEUE 2              # NMI
    note    0xFB
    ud2                                 # #UD exits; the host gives it back
    hypercall CALL_QUEUE 3              # a breakpoint goes in where RIP is past VMCALL
after:
    nop
    nop
    nop
    nop
    note    0xFA
    movl    $after, SAW(SAW_RETURN_TO)

    mov     %cr0, %eax                  # PE without an exit, and back
    or      $1, %al
    mov     %eax, %cr0
    mov     %cr0, %eax
    mov     %eax, SAW(SAW_PE_NO_EXIT)
    and     $0xFE, %al
    mov     %eax, %cr0
    hypercall CALL_MODE 0 0
    mov     $0x11, %eax                 # PE with an exit, since CD and NW change
    mov     %eax, %cr0
    mov     %cr0, %eax
    mov     %eax, SAW(SAW_PE_EXIT)
    lgdtl   gdtr
    lidtl   idtr
    ljmpl   $8, $protected

    .code32
protected:
    mov     $0x10, %eax
    mov     %eax, %ds
    mov     %eax, %es
    mov     %eax, %ss
    mov     $0x5FF0, %esp
    mov     $0x40000000, %eax
    cpuid
    mov     %ebx, SAW(SAW_VENDOR_PROTECTED)
    hypercall CALL_MODE 1 0
    hypercall CALL_QUEUE 14 1 2         # a page fault with its code, which the handler finds on its stack
    note    0xF9
    finish  DONE_MAIN
