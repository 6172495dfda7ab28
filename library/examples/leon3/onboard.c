/*
 * An on-board loop without an operating system and without a heap: the housekeeping of each second, eight bytes, comes from the board, and its
 * Space Packet (APID 100) goes to a serial line. The sender's memory is a static array. Each 20 seconds the mask is made new; a pass begins at
 * second 30. The bytes are those of `compress` with robust=2 and the schedule of two rows 20,4294967295,20,p and 30,30,1,fr.
 */
#include "board.h"
#include <pocket.h>

enum { BITS = 64, APID = 100, ROBUSTNESS = 2, NEW_MASK_SECONDS = 20, PASS_BEGINS = 30 };

static uint8_t memory[POCKET_SENDER_BYTES(BITS)];
static uint8_t packet[POCKET_HEADER_BYTES + POCKET_PACKET_BYTES(BITS)];

int main(void)
{
    uint8_t housekeeping[POCKET_INPUT_BYTES(BITS)], level;
    pocket_handle sender = POCKET_NOTHING;
    pocket_status status = pocket_sender_open_in(&sender, memory, sizeof memory, BITS, NULL, 0);
    uint32_t second = 0;

    while (status == POCKET_DONE && board_read(housekeeping, sizeof housekeeping) == sizeof housekeeping) {
        bool new_mask = second > 0 && second % NEW_MASK_SECONDS == 0;
        bool begins = second == PASS_BEGINS;
        size_t length;

        status = pocket_send(&sender, housekeeping, sizeof housekeeping, new_mask, begins, begins, ROBUSTNESS, packet + POCKET_HEADER_BYTES,
                             sizeof packet - POCKET_HEADER_BYTES, &length, &level);
        if (status == POCKET_DONE) {
            status = pocket_header(APID, second, length, packet);
            board_write(packet, POCKET_HEADER_BYTES + length);
            second += 1;
        }
    }
    pocket_close(&sender);
    return status == POCKET_DONE ? 0 : 1;
}
