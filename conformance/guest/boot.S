/* Entries of the guest: by Multiboot, by PVH, and as a flat image in 32-bit or in 64-bit mode. Then long mode. */
        .set    STACK, 8192
        .set    MOST, 8

        .section .start, "ax"
        .code32
        .globl  start
start:  cli
        mov     %eax, %edi              /* the magic number of Multiboot */
        xor     %eax, %eax
        .byte   0x40, 0x90              /* 32-bit mode: inc %eax, nop; 64-bit mode: a prefix and nop */
        test    %eax, %eax
        jz      1f                      /* the same bytes in both modes */
        jmp     from_32_bits
1:      jmp     ready

        .balign 4
        .long   0x1badb002, 7, -(0x1badb002 + 7)        /* Multiboot; its screen: text, or else a framebuffer */
        .long   0, 0, 0, 0, 0, 1, 0, 0, 0

        .section .note.pvh, "a", @note
        .long   4, 4, 18                /* XEN_ELFNOTE_PHYS32_ENTRY */
        .asciz  "Xen"
        .long   start

        .text
        .code32
from_32_bits:
        mov     %edi, boot_magic
        mov     %ebx, boot_info
        mov     $small_stack_end, %esp
        call    enter_long
        ljmpl   $0x10, $ready

/* The first processor makes the page tables: 4 GB at their own addresses. */
        .globl  enter_long
enter_long:
        cmpl    $0, tables
        jne     3f
        mov     $pointers + 3, %eax
        mov     %eax, tables
        mov     $directories + 3, %eax
        mov     $pointers, %edi
        mov     $4, %ecx
1:      mov     %eax, (%edi)
        add     $4096, %eax
        add     $8, %edi
        loop    1b
        mov     $0x83, %eax
        mov     $directories, %edi
        mov     $2048, %ecx
2:      mov     %eax, (%edi)
        add     $0x200000, %eax
        add     $8, %edi
        loop    2b
3:      lgdtl   gdt_pointer
        mov     $0x20, %eax
        mov     %eax, %cr4
        mov     $tables, %eax
        mov     %eax, %cr3
        mov     $0xc0000080, %ecx
        rdmsr
        or      $0x100, %eax
        wrmsr
        mov     $0x80000011, %eax
        mov     %eax, %cr0
        ret

/* Each processor, in long mode: its number, its stack, and C. */
        .code64
        .globl  ready
ready:  lgdt    gdt_pointer(%rip)
        mov     $0x18, %eax
        mov     %eax, %ds
        mov     %eax, %es
        mov     %eax, %ss
        mov     $1, %eax
        lock xadd %eax, started(%rip)
        cmp     $MOST, %eax
        jae     2f
        mov     %eax, %edi
        inc     %eax
        imul    $STACK, %eax
        lea     stacks(%rip), %rsp
        add     %rax, %rsp
        push    $0x10
        lea     1f(%rip), %rax
        push    %rax
        lretq
1:      call    on_processor
2:      cli
        hlt
        jmp     2b

        .data
        .balign 16
        .globl  gdt, gdt_pointer, started, boot_magic, boot_info
gdt:    .quad   0, 0, 0x00af9b000000ffff, 0x00cf93000000ffff, 0x00cf9b000000ffff
gdt_pointer:
        .word   39
        .quad   gdt
        .balign 4
started:
        .long   0
boot_magic:
        .long   0
boot_info:
        .long   0

        .bss
        .balign 4096
tables: .skip   4096
pointers:
        .skip   4096
directories:
        .skip   4 * 4096
stacks: .skip   MOST * STACK
        .skip   64
        .globl  small_stack_end
small_stack_end:

        .section .rodata
        .globl  suite
suite:  .incbin "suite.txt"
        .byte   0
        .section .note.GNU-stack, "", @progbits
