# The library for other processors, at the top of the repository:
#
#   make -f library/targets.mk lib TARGET=aarch64-linux-gnu     64-bit ARM
#   make -f library/targets.mk lib TARGET=riscv64-linux-gnu     RISC-V, rv64gc
#
# makes library/out/TARGET/libpocket.a, which is all that a program on board is linked with, but for memcpy, memmove, memset, malloc,
# realloc and free, and with a desk strlen. It takes the gate's libraries, the toolchain's rattle on the path, and Debian's cross compiler of
# the target. `unaligned=1` leaves accesses that are not aligned to the processor. library/retarget.py tells what is done;
# tests/test_processors.py compares.

TARGET ?= riscv64-linux-gnu
CROSS_OUT := library/out/$(TARGET)$(if $(unaligned),-unaligned)
CROSS_CFLAGS ?= -std=c99 -Wall -Wextra -pedantic -Werror -O2 -ffunction-sections
CROSS_OBJECTS := $(CROSS_OUT)/heap.o $(CROSS_OUT)/checked.o $(CROSS_OUT)/checked_desk.o
CROSS_SOURCES := $(wildcard crates/*/src/*.rt crates/*/src/*/*.rt) crates.txt
# Aligned accesses alone in what the cross compiler makes, too.
CROSS_STRICT := $(if $(unaligned),-mno-strict-align,-mstrict-align)

.PHONY: lib
lib: $(CROSS_OUT)/libpocket.a

# The module for aarch64 is what riscv64 is turned from, so that the crate is proved once.
ARM_OUT := library/out/aarch64-linux-gnu$(if $(unaligned),-unaligned)
$(ARM_OUT)/libpocket_c.a: library/retarget.py $(CROSS_SOURCES)
	POCKET_UNALIGNED=$(unaligned) python3 library/retarget.py aarch64-linux-gnu $(ARM_OUT)

library/out/riscv64-linux-gnu$(if $(unaligned),-unaligned)/libpocket_c.a: library/retarget.py $(ARM_OUT)/libpocket_c.a
	POCKET_UNALIGNED=$(unaligned) python3 library/retarget.py riscv64-linux-gnu $(@D) $(ARM_OUT)/module.bc

$(CROSS_OUT)/%.o: library/%.c library/pocket.h
	mkdir -p $(CROSS_OUT)
	$(TARGET)-gcc $(CROSS_CFLAGS) $(CROSS_STRICT) -c -o $@ $<

# The object of the crate is in an archive; an archive that is made anew has no object of an earlier run.
$(CROSS_OUT)/libpocket.a: $(CROSS_OUT)/libpocket_c.a $(CROSS_OBJECTS)
	rm -f $@
	cp $(CROSS_OUT)/libpocket_c.a $@
	$(TARGET)-ar rs $@ $(CROSS_OBJECTS)
