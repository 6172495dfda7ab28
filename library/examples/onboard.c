/*
 * An on-board loop: the housekeeping of each second, eight bytes, comes from standard input, and its Space Packet (APID 100) goes
 * to standard output. Each 20 seconds the mask is made new. A pass begins at second 30: its first packet carries mask and content.
 *
 *     cc -o onboard onboard.c $(pkg-config --cflags --libs pocket)
 *     ./onboard < hk.rec > hk.store
 *
 * The bytes are those of `compress` with robust=2 and the schedule of two rows 20,4294967295,20,p and 30,30,1,fr.
 */
#include <pocket.h>
#include <stdio.h>

enum { BITS = 64, APID = 100, ROBUSTNESS = 2, NEW_MASK_SECONDS = 20, PASS_BEGINS = 30 };

int main(void)
{
    static uint8_t packet[POCKET_HEADER_BYTES + POCKET_PACKET_BYTES(BITS)];
    uint8_t housekeeping[POCKET_INPUT_BYTES(BITS)], level;
    pocket_handle sender = POCKET_NOTHING;
    pocket_status status = pocket_sender_open(&sender, BITS, NULL, 0);
    uint32_t second = 0;

    while (status == POCKET_DONE && fread(housekeeping, sizeof housekeeping, 1, stdin) == 1) {
        bool new_mask = second > 0 && second % NEW_MASK_SECONDS == 0;
        bool begins = second == PASS_BEGINS;
        size_t length;

        status = pocket_send(&sender, housekeeping, sizeof housekeeping, new_mask, begins, begins, ROBUSTNESS, packet + POCKET_HEADER_BYTES,
                             sizeof packet - POCKET_HEADER_BYTES, &length, &level);
        if (status == POCKET_DONE) {
            status = pocket_header(APID, second, length, packet);
            if (fwrite(packet, POCKET_HEADER_BYTES + length, 1, stdout) != 1 || fflush(stdout) != 0)
                return 2;
            second += 1;
        }
    }
    pocket_close(&sender);
    if (status != POCKET_DONE)
        fprintf(stderr, "onboard: refused with status %d\n", (int)status);
    return status == POCKET_DONE ? 0 : 1;
}
