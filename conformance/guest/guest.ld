/* At 1 MB, with the Multiboot header and the note of PVH in the first pages. */
ENTRY(start)
PHDRS { all PT_LOAD FLAGS(7); note PT_NOTE FLAGS(4); }
SECTIONS
{
    . = 0x100000;
    .text : { *(.start) *(.text*) *(.rodata*) *(.data*) } :all
    .note : { *(.note.pvh) } :all :note
    .bss : { *(.bss*) *(COMMON) } :all
    end = .;
    /DISCARD/ : { *(.eh_frame*) *(.comment) *(.note.gnu*) *(.note.GNU-stack) }
}
