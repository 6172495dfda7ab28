# What the Makefiles of the three boards share; each says what its own are. It takes pocket.c and pocket.h in the folder POCKET.
# make: onboard.elf, the loop on board of library/examples/leon3. make run: runs it by QEMU over the recording INPUT; standard output has its
# Space Packets.
POCKET = ../../../dist
LOOP = ../leon3
INPUT = ../../../crates/pocket/data/hk.rec
CFLAGS = -std=c99 -Wall -Wextra -Os -ffreestanding -ffunction-sections -DPOCKET_NO_HEAP -DPOCKET_NO_RECEIVER
OUT = .

$(OUT)/onboard.elf: $(LOOP)/onboard.c $(LOOP)/loaded.c $(LOOP)/board.h board.c $(SOURCES) link.ld $(POCKET)/pocket.c $(POCKET)/pocket.h
	$(CC) $(CFLAGS) $(MACHINE) -I$(POCKET) -I$(LOOP) $(LINK) -T link.ld -Wl,--gc-sections -o $@ $(filter %.c %.S,$^)

run: $(OUT)/onboard.elf
	@$(QEMU) -display none -monitor none -serial stdio -kernel $< -device loader,addr=$(LOADED),data=$$(stat -c %s $(INPUT)),data-len=4 \
	    -device loader,file=$(INPUT),addr=$$(($(LOADED) + 4)),force-raw=on

.PHONY: run
