/* One loadable segment at 0x10000: code, constants and data together, readable, writable and executable. */

OUTPUT_ARCH(riscv)
ENTRY(_start)

PHDRS
{
    image PT_LOAD FLAGS(7);
}

SECTIONS
{
    . = 0x10000;
    .image : {
        *(.text.start)
        *(.text .text.*)
        *(.rodata .rodata.* .srodata .srodata.*)
        . = ALIGN(4);
        *(.data .data.* .sdata .sdata.*)
        *(.bss .bss.* .sbss .sbss.* COMMON)
        . = ALIGN(4);
        /* Zeros of .bss stand in the file too, since a file-backed word ends the segment. */
        LONG(0)
    } :image
    /DISCARD/ : { *(.riscv.attributes) *(.comment) *(.note .note.*) *(.eh_frame .eh_frame.*) }
}
