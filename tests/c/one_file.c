/* The one file's own: memory of the caller for every number of bits, the depth of the stack, and a block that was damaged. It takes
 * the file in whole, so that it sees what lies in a block. Its word, `all`, or `some` for valgrind, says for how many numbers of bits. */
#include "pocket.c"
#include "check.h"

/* The names of the header are those of its checks. */
#define pocket_sender_open_in pocket_checked_sender_open_in
#define pocket_send pocket_checked_send
#define pocket_receiver_open_in pocket_checked_receiver_open_in
#define pocket_receive pocket_checked_receive
#define pocket_save pocket_checked_save
#define pocket_load pocket_checked_load
#define pocket_close pocket_checked_close

enum { MARK = 0xA5, BITS = 100, PAINT = 0xC3 };
static uint8_t sender_memory[POCKET_SENDER_BYTES(POCKET_MOST_BITS) + 16], receiver_memory[POCKET_RECEIVER_BYTES(POCKET_MOST_BITS) + 16];
static uint8_t data[POCKET_MOST_DATA], content[POCKET_INPUT_BYTES(POCKET_MOST_BITS)];
static uint8_t input[POCKET_INPUT_BYTES(POCKET_MOST_BITS)], state[POCKET_SENDER_STATE_BYTES(POCKET_MOST_BITS)];

/* A sender and a receiver of so many bits are opened in as much memory as is told, no byte less, and leave all other bytes. */
static void opens(uint32_t bits)
{
    pocket_handle sender = POCKET_NOTHING, receiver = POCKET_NOTHING;
    const size_t of_sender = pocket_sender_bytes(bits), of_receiver = pocket_receiver_bytes(bits), by = 1 + bits % 15;
    check(of_sender == POCKET_SENDER_BYTES(bits) && of_receiver == POCKET_RECEIVER_BYTES(bits), "the macros tell other bytes", bits);
    sender_memory[by - 1] = sender_memory[by + of_sender] = receiver_memory[by - 1] = receiver_memory[by + of_receiver] = MARK;
    check(pocket_sender_open_in(&sender, sender_memory + by, of_sender - 1, bits, NULL, 0) == POCKET_NO_MEMORY, "a byte less for a sender", bits);
    memset(input, 0, sizeof input);
    check(pocket_sender_open_in(&sender, sender_memory, 0, bits, input, POCKET_INPUT_BYTES(bits)) == POCKET_NO_MEMORY, "no memory and a mask", bits);
    check(pocket_sender_open_in(&sender, sender_memory, 0, bits, input, POCKET_INPUT_BYTES(bits) + 1) == POCKET_MASK_LENGTH, "no memory and a longer mask", bits);
    input[POCKET_INPUT_BYTES(bits) - 1] = 1;
    check(pocket_sender_open_in(&sender, sender_memory, 0, bits, input, POCKET_INPUT_BYTES(bits)) == (bits % 8 ? POCKET_MASK_SPARE_BIT : POCKET_NO_MEMORY),
          "no memory and a spare bit", bits);
    input[POCKET_INPUT_BYTES(bits) - 1] = 0;
    check(pocket_receiver_open_in(&receiver, receiver_memory + by, of_receiver - 1, bits) == POCKET_NO_MEMORY, "a byte less for a receiver", bits);
    check(pocket_sender_open_in(&sender, sender_memory + by, of_sender, bits, NULL, 0) == POCKET_DONE, "a sender is not opened", bits);
    check(pocket_receiver_open_in(&receiver, receiver_memory + by, of_receiver, bits) == POCKET_DONE, "a receiver is not opened", bits);
    if (sender.at == NULL || receiver.at == NULL)
        return;
    check(ROUNDED(head_of(block_of(&sender), FREE_AT), 8u) == content_at(SENDER, bits), "a sender's heap is not all taken", bits);
    check(ROUNDED(head_of(block_of(&receiver), FREE_AT), 8u) == content_at(RECEIVER, bits), "a receiver's heap is not all taken", bits);
    check(sender_memory[by - 1] == MARK && sender_memory[by + of_sender] == MARK, "a sender writes beside its memory", bits);
    check(receiver_memory[by - 1] == MARK && receiver_memory[by + of_receiver] == MARK, "a receiver writes beside its memory", bits);
    check(pocket_close(&sender) == POCKET_DONE && pocket_close(&receiver) == POCKET_DONE, "they are not closed", bits);
}

static void paint(pocket_handle *handle)
{
    memset(block_of(handle), PAINT, STACK_BYTES);
}

/* How many bytes of the stack were written since all were these. */
static u32 depth(const pocket_handle *handle, u8 paint)
{
    const u8 *const m = block_of(handle);
    u32 at = 0;
    while (at < STACK_BYTES && m[at] == paint)
        at++;
    return STACK_BYTES - at;
}

static void turn(uint32_t bits, unsigned number)
{
    size_t place;
    for (place = 0; place < POCKET_INPUT_BYTES(bits); place++)
        input[place] ^= (uint8_t)(number % 3 == 0 ? 0xFF : number * 31 + place * 7);
    if (bits % 8)
        input[POCKET_INPUT_BYTES(bits) - 1] &= (uint8_t)(0xFF00u >> bits % 8);
}

/* The deepest stack of calls of so many bits: none goes below what was reckoned. */
static u32 deepest(uint32_t bits)
{
    pocket_handle sender = POCKET_NOTHING, receiver = POCKET_NOTHING;
    pocket_finding finding;
    size_t length;
    uint8_t level;
    unsigned number;
    u32 found = 0;
    pocket_sender_open_in(&sender, sender_memory, sizeof sender_memory, bits, NULL, 0);
    pocket_receiver_open_in(&receiver, receiver_memory, sizeof receiver_memory, bits);
    for (number = 0; number < 12; number++) {
        turn(bits, number);
        paint(&sender);
        paint(&receiver);
        check(pocket_send(&sender, input, POCKET_INPUT_BYTES(bits), number % 2, number % 3 == 0, number % 5 == 0, number % 8, data,
                          sizeof data, &length, &level) == POCKET_DONE, "a send", bits);
        if (number % 4 != 1)
            check(pocket_receive(&receiver, (uint16_t)number, data, length, content, sizeof content, &finding) == POCKET_DONE, "a receive", bits);
        check(pocket_save(&sender, state, sizeof state, &length) == POCKET_DONE && pocket_load(&sender, state, length) == POCKET_DONE &&
              pocket_save(&receiver, state, sizeof state, &length) == POCKET_DONE && pocket_load(&receiver, state, length) == POCKET_DONE, "states", bits);
        found = depth(&sender, PAINT) > found ? depth(&sender, PAINT) : found;
        found = depth(&receiver, PAINT) > found ? depth(&receiver, PAINT) : found;
    }
    check(found <= DEEPEST, "the stack is deeper than was reckoned", bits);
    pocket_close(&sender);
    pocket_close(&receiver);
    return found;
}

/* The deepest stack of an opening: the one that lies in the memory before the first call. */
static u32 deepest_opening(void)
{
    pocket_handle receiver = POCKET_NOTHING;
    u32 found;
    pocket_receiver_open_in(&receiver, receiver_memory, sizeof receiver_memory, BITS);
    found = depth(&receiver, 0);
    pocket_close(&receiver);
    return found;
}

/* A block that was damaged: its handle points outside. The call is ended, and so are all others until it is closed. */
static void breaks(u32 address)
{
    pocket_handle sender = POCKET_NOTHING;
    size_t length = 0;
    uint8_t level = MARK;
    uint64_t next = 5;
    uint32_t bits = 5;
    pocket_tally tally;
    const size_t bytes = pocket_sender_bytes(BITS);
    sender_memory[bytes] = MARK;
    pocket_sender_open_in(&sender, sender_memory, bytes, BITS, NULL, 0);
    memset(input, 0, sizeof input);
    check(pocket_send(&sender, input, POCKET_INPUT_BYTES(BITS), false, false, false, 1, data, sizeof data, &length, &level) == POCKET_DONE, "a send", address);
    length = 0, level = MARK;
    put64(block_of(&sender) + (HANDLE - BASE), address);
    check(pocket_send(&sender, input, POCKET_INPUT_BYTES(BITS), false, false, false, 1, data, sizeof data, &length, &level) == POCKET_BROKEN,
          "a damaged block is not seen", address);
    check(length == 0 && level == MARK && sender_memory[bytes] == MARK, "a damaged block writes", address);
    check(pocket_send(&sender, input, POCKET_INPUT_BYTES(BITS), false, false, false, 1, data, sizeof data, &length, &level) == POCKET_BROKEN,
          "a broken sender sends", address);
    check(pocket_save(&sender, state, sizeof state, &length) == POCKET_BROKEN, "a broken sender is saved", address);
    check(pocket_checked_counts(&sender, &tally) == POCKET_BROKEN, "a broken sender has counts", address);
    check(pocket_checked_sent(&sender, &next) == POCKET_BROKEN && pocket_checked_bits(&sender, &bits) == POCKET_BROKEN && next == 5 && bits == 5,
          "a broken sender tells its number or bits", address);
    check(pocket_close(&sender) == POCKET_DONE && pocket_close(&sender) == POCKET_IS_CLOSED, "a broken sender is not closed", address);
}

int main(int words, char **word)
{
    const uint32_t step = words == 2 && word[1][0] == 's' ? 5003 : 1;
    uint32_t bits, measured[] = { 1, 64, BITS, 1000, 8192, POCKET_MOST_BITS };
    u32 found = 0, one;
    size_t place;
    for (bits = 1; bits <= POCKET_MOST_BITS; bits += step)
        opens(bits);
    check(pocket_sender_bytes(0) == 0 && pocket_receiver_bytes(POCKET_MOST_BITS + 1) == 0, "bytes of no number of bits", 0);
    for (place = 0; place < sizeof measured / sizeof *measured; place++) {
        one = deepest(measured[place]);
        found = one > found ? one : found;
    }
    one = deepest_opening();
    check(one <= DEEPEST, "the stack of an opening is deeper than was reckoned", BITS);
    breaks(0);
    breaks(0xFFFFFFF8u);
    breaks(OUTSIDE);
    breaks(BASE - 16);
    printf("stack %u deepest, of a send or a receive %u, of an opening %u\n", (unsigned)DEEPEST, (unsigned)found, (unsigned)one);
    return counted();
}
