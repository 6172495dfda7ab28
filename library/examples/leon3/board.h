/* What the loop on board takes of a board: QEMU puts bytes into its memory, in the place of sensors, and a serial line takes the place of the
 * radio. */
#ifndef BOARD_H
#define BOARD_H

#include <stddef.h>
#include <stdint.h>

/* The next bytes of those that QEMU put in memory; gives how many there were. */
size_t board_read(uint8_t *bytes, size_t length);
/* Sends bytes by the serial line. */
void board_write(const uint8_t *bytes, size_t length);
/* Ends the run. */
void leave(int status);

#endif
