/* Where the other processors begin, and the entries of interrupts and exceptions. */

/* Copied below 1 MB: real mode, CS at the copy. */
        .text
        .code16
        .globl  trampoline, trampoline_end
trampoline:
        cli
        mov     %cs, %ax
        mov     %ax, %ds
        lgdtl   pointer_copy - trampoline
        mov     $0x11, %eax
        mov     %eax, %cr0
        ljmpl   $0x20, $protected
pointer_copy:
        .word   39
        .long   gdt
trampoline_end:
        .code32
protected:
        mov     $0x18, %eax
        mov     %eax, %ds
        mov     %eax, %es
        mov     %eax, %ss
1:      lock btsl $0, turn              /* one at a time: they share this stack */
        jc      1b
        mov     $small_stack_end, %esp
        call    enter_long
        movl    $0, turn
        ljmpl   $0x10, $ready

        .code64
        .globl  entries, exceptions, on_protection
        .balign 16
entries:
        .set    vector, 16
        .rept   240
        .balign 16
        push    $vector
        jmp     interrupt
        .set    vector, vector + 1
        .endr

/* Exceptions that no case raises end the run. */
        .balign 16
exceptions:
        .set    vector, 0
        .rept   16
        .balign 16
        mov     $vector, %edi
        jmp     exception
        .set    vector, vector + 1
        .endr
exception:
        mov     (%rsp), %rsi
        mov     8(%rsp), %rdx
        call    on_exception

/* Notes the vector and returns with interrupts disabled, so that one is taken at a time. No EOI. */
interrupt:
        push    %rdi
        mov     8(%rsp), %edi
        mov     %edi, %gs:0
        pop     %rdi
        add     $8, %rsp
        andl    $~0x200, 16(%rsp)
        iretq

/* #GP by RDMSR or WRMSR is counted, and the two bytes of the instruction are skipped. */
on_protection:
        push    %rax
        mov     16(%rsp), %rax
        movzwl  (%rax), %eax
        or      $0x0200, %eax           /* 0f 30 and 0f 32 */
        cmp     $0x320f, %eax
        pop     %rax
        jne     1f
        add     $8, %rsp
        addq    $2, (%rsp)
        incl    %gs:4
        iretq
1:      mov     $13, %edi
        jmp     exception

        .data
        .balign 4
turn:   .long   0
        .section .note.GNU-stack, "", @progbits
