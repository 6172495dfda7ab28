/* What QEMU's loader put at the place `loaded` of link.ld: the number of bytes, the least significant byte first, and the bytes. */
#include "board.h"

extern volatile const uint8_t loaded[];

size_t board_read(uint8_t *bytes, size_t length)
{
    static size_t next;
    const size_t most = loaded[0] | (size_t)loaded[1] << 8 | (size_t)loaded[2] << 16 | (size_t)loaded[3] << 24;
    size_t at;
    for (at = 0; at < length && next < most; at++)
        bytes[at] = loaded[4 + next++];
    return at;
}
