/* One loadable segment at 0x10000: code and constants, readable and executable. */

OUTPUT_ARCH(riscv)
ENTRY(_start)

PHDRS
{
    image PT_LOAD FLAGS(5);
}

SECTIONS
{
    . = 0x10000;
    .image : {
        *(.text .text.*)
        *(.rodata .rodata.*)
    } :image
    /DISCARD/ : { *(.riscv.attributes) *(.comment) *(.note .note.*) *(.data .data.* .bss .bss.*) }
}
