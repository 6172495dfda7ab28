/* The serial line of QEMU's machine virt, a 16550, and the register that ends a run. */
#include "board.h"

#define UART ((volatile uint8_t *)0x10000000)
#define END (*(volatile uint32_t *)0x00100000)
enum { DATA = 0, STATUS = 5, CAN_SEND = 0x20, DONE = 0x5555, FAILED = 0x3333 };

void board_write(const uint8_t *bytes, size_t length)
{
    size_t at;
    for (at = 0; at < length; at++) {
        while (!(UART[STATUS] & CAN_SEND))
            ;
        UART[DATA] = bytes[at];
    }
}

void leave(int status)
{
    END = status == 0 ? DONE : (uint32_t)status << 16 | FAILED;
    for (;;)
        ;
}
