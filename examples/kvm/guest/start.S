/* The entries of the flat guest: of the first processor, of the second one, and of interrupts. */

        .set    STACK, 16384
        .set    GDT, 0x500              /* as boot.c of the hypervisor makes them */
        .set    TABLES, 0x1000

        .section .start, "ax"
        .globl  start
start:                                  /* in long mode */
        mov     $stacks + STACK, %rsp
        call    first_main
1:      hlt
        jmp     1b

/* The second processor starts in real mode at a copy of this, with CS at the copy. */
        .text
        .code16
        .globl  trampoline, trampoline_end
trampoline:
        cli
        mov     %cs, %ax
        mov     %ax, %ds
        lgdtl   gdt_pointer - trampoline
        mov     $0x20, %eax             /* CR4: physical address extension */
        mov     %eax, %cr4
        mov     $TABLES, %eax
        mov     %eax, %cr3
        mov     $0xc0000080, %ecx       /* EFER: long mode */
        mov     $0x100, %eax
        xor     %edx, %edx
        wrmsr
        mov     $0x80000011, %eax       /* CR0: paging and protection */
        mov     %eax, %cr0
        ljmpl   $0x10, $second_start
gdt_pointer:
        .word   31
        .long   GDT
trampoline_end:

        .code64
second_start:
        mov     $0x18, %eax
        mov     %eax, %ds
        mov     %eax, %es
        mov     %eax, %ss
        mov     $stacks + 2 * STACK, %rsp
        call    second_main
1:      hlt
        jmp     1b

/* An entry of 16 bytes for each vector from 32 on. */
        .globl  entries
        .balign 16
entries:
        .set    vector, 32
        .rept   224
        .balign 16
        push    $vector
        jmp     enter
        .set    vector, vector + 1
        .endr

enter:
        push    %rax
        push    %rcx
        push    %rdx
        push    %rsi
        push    %rdi
        push    %r8
        push    %r9
        push    %r10
        push    %r11
        mov     72(%rsp), %edi          /* the vector */
        call    on_interrupt
        pop     %r11
        pop     %r10
        pop     %r9
        pop     %r8
        pop     %rdi
        pop     %rsi
        pop     %rdx
        pop     %rcx
        pop     %rax
        add     $8, %rsp
        iretq

/* #GP, by RDMSR or WRMSR alone: counts it, and skips the instruction, which has two bytes. */
        .globl  on_protection
on_protection:
        add     $8, %rsp                /* the error code */
        addq    $2, (%rsp)
        incl    faults
        iretq

        .section .note.GNU-stack, "", @progbits
