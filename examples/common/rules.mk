# Builds NAME.elf in the folder of an example: `make` there, with Debian's gcc-riscv64-unknown-elf.
# The folder's Makefile sets NAME and SOURCES; its own link.ld lays the image out. A program for many harts
# also sets ARCH to rv32ia, which adds the atomic instructions. Where LAYOUT is set, it stands for link.ld: empty
# it leaves the layout to the linker.

CC = riscv64-unknown-elf-gcc
ARCH ?= rv32i
COMMON := $(dir $(lastword $(MAKEFILE_LIST)))

# Empty it keeps the symbols, which tools/view tells addresses by.
STRIP ?= -Wl,--strip-all

# GCC is not to make the loop of memset a call of memset.
OWN_LOOPS ?= -fno-tree-loop-distribute-patterns
CFLAGS = -march=$(ARCH) -mabi=ilp32 -std=c11 -O2 -Wall -Wextra -Werror \
	-ffreestanding -fno-builtin $(OWN_LOOPS) -fno-pic -fno-asynchronous-unwind-tables \
	-msmall-data-limit=0 -I$(COMMON)
# -n packs the segment behind the headers; the image has code and data in one segment on purpose.
LAYOUT ?= -T link.ld -Wl,-n -Wl,--no-warn-rwx-segments
LDFLAGS = -nostdlib -static $(LAYOUT) -Wl,--build-id=none $(STRIP)

all: $(NAME).elf

$(NAME).elf: $(SOURCES) $(wildcard link.ld) $(wildcard $(COMMON)*)
	$(CC) $(CFLAGS) $(LDFLAGS) -o $@ $(SOURCES) $(LIBRARIES)

# Runs the same C source on the computer at hand.
native: $(SOURCES)
	cc -std=c11 -O2 -Wall -I$(COMMON) -o $(NAME).native $(filter %.c,$(SOURCES))
	./$(NAME).native
	rm $(NAME).native

clean:
	rm -f $(NAME).elf

.PHONY: all clean native
