# Builds NAME.elf as the linker lays it out by itself: code and constants in one segment, data and .bss in another,
# and headers of other types, as that of .riscv.attributes, that the simulator passes over. The compiler's library
# has what RV32IMA has no instruction for, as divisions of 64 bits.

ARCH = rv32ima
LAYOUT =
LIBRARIES = -lgcc

include $(dir $(lastword $(MAKEFILE_LIST)))rules.mk
