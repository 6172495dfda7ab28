/* Random calls of both ends: packets that are lost, cut, turned in some bits, come with another count or are any bytes, resets of one end or of
 * both, and states. Each call with right arguments is done; as long as each packet arrives as it was sent, its content is its input; and a
 * state that is saved and loaded is saved as the same bytes. What arrives, and its content, lie in blocks of just their bytes, so that
 * AddressSanitizer sees a byte past their end. Its word is how many streams there are. */
#include "pocket.h"
#include "check.h"

enum { MOST = POCKET_MOST_BITS, CALLS = 60, BYTES = POCKET_INPUT_BYTES(MOST), ROOM = POCKET_PACKET_BYTES(MOST), STATE = POCKET_SENDER_STATE_BYTES(MOST) };
static const uint32_t bits_tried[] = { 1, 7, 8, 13, 16, 32, 47, 56, 64, 65, 100, 200, 257, 600, 1024 };
static unsigned long kinds[POCKET_EARLY + 1];

/* Both ends, the number of the next packet, and whether all packets arrived as they were sent since both began. */
static struct {
    pocket_handle sender, receiver;
    uint32_t bits, number;
    bool in_step;
    uint8_t input[BYTES];
} link;

#define check(held, what) check(held, what, link.bits)

static void turn(uint8_t *bytes, size_t count, uint64_t times)
{
    for (; count > 0 && times > 0; times--)
        bytes[drawn(count)] ^= (uint8_t)(drawn(2) ? 1u << drawn(8) : drawn(256));
}

static void move(void)
{
    const size_t bytes = POCKET_INPUT_BYTES(link.bits);
    if (drawn(20) == 0)
        memset(link.input, drawn(2) ? 0xFF : 0, bytes);
    turn(link.input, bytes, drawn(3) ? drawn(4) : 0);
    if (drawn(10) == 0)
        link.input[0] ^= 0x80;
    if (drawn(10) == 0)
        link.input[bytes - 1] ^= (uint8_t)(1u << (7 - (link.bits - 1) % 8));
    if (link.bits % 8)
        link.input[bytes - 1] &= (uint8_t)(0xFF00u >> link.bits % 8);
}

static void arrives(uint32_t count, const uint8_t *data, size_t length, bool is_right)
{
    const size_t bytes = POCKET_INPUT_BYTES(link.bits);
    uint8_t *const came = malloc(length + (length == 0)), *const content = malloc(bytes);
    pocket_finding finding = { 0 };
    if (came == NULL || content == NULL)
        exit(2);
    memcpy(came, data, length);
    check(pocket_receive(&link.receiver, (uint16_t)(count % 16384), came, length, content, bytes, &finding) == POCKET_DONE && finding.kind <= POCKET_EARLY, "an arrival");
    check(finding.kind != POCKET_WRONG || finding.value < 8 * length, "a wrong bit is one of the data");
    check(finding.kind != POCKET_EARLY || finding.value == 8 * length, "an early end names how many bits there are");
    check(finding.kind != POCKET_WRITTEN || link.bits % 8 == 0 || (content[bytes - 1] & (0xFF >> link.bits % 8)) == 0, "a written content has no spare bit");
    kinds[finding.kind % (POCKET_EARLY + 1)] += 1;
    link.in_step = link.in_step && is_right;
    check(!link.in_step || (finding.kind == POCKET_WRITTEN && finding.number == count && memcmp(content, link.input, bytes) == 0), "the content of a packet in step");
    free(came), free(content);
}

static void sends(void)
{
    uint8_t data[ROOM], level;
    size_t length;
    const uint64_t fate = drawn(12), flags = drawn(3) ? 0 : drawn(8);
    move();
    check(pocket_send(&link.sender, link.input, POCKET_INPUT_BYTES(link.bits), flags & 1, flags & 2, flags & 4, (uint8_t)(drawn(4) ? 1 : drawn(8)), data, sizeof data,
                      &length, &level) == POCKET_DONE, "a send");
    link.number++;
    if (fate == 0)
        link.in_step = false;
    if (fate == 1)
        turn(data, length, drawn(3));
    if (fate == 1)
        data[length - 1] ^= (uint8_t)drawn(4);
    if (fate == 2)
        length = drawn(length);
    if (fate > 0)
        arrives(link.number - 1, data, length, fate > 2);
}

static void any_bytes(void)
{
    uint8_t data[400];
    size_t length = drawn(drawn(4) ? 13 : sizeof data + 1), at;
    for (at = 0; at < length; at++)
        data[at] = (uint8_t)drawn(256);
    arrives(link.number++, data, length, false);
}

static void kept(pocket_handle *one)
{
    static uint8_t state[STATE], again[STATE];
    size_t length = 0, other = 1;
    check(pocket_save(one, state, sizeof state, &length) == POCKET_DONE && pocket_load(one, state, length) == POCKET_DONE &&
          pocket_save(one, again, sizeof again, &other) == POCKET_DONE && length == other && memcmp(state, again, length) == 0, "a state");
}

static void begins(uint64_t which)
{
    if (which != 1)
        check(pocket_sender_reset(&link.sender, link.input, drawn(2) ? POCKET_INPUT_BYTES(link.bits) : 0) == POCKET_DONE, "a reset of a sender");
    if (which != 2)
        check(pocket_receiver_reset(&link.receiver) == POCKET_DONE, "a reset of a receiver");
    link.in_step = which == 0;
    link.number = 0;
}

static void calls(void)
{
    const uint64_t kind = drawn(24);
    if (kind < 2)
        any_bytes();
    else if (kind == 2)
        kept(drawn(2) ? &link.sender : &link.receiver);
    else if (kind == 3)
        begins(drawn(3));
    else if (kind == 4)
        link.number += (uint32_t)drawn(40), link.in_step = false;
    else
        sends();
}

int main(int words, char **word)
{
    unsigned long streams = words == 2 ? strtoul(word[1], NULL, 10) : 100;
    unsigned number;
    for (; streams > 0; streams--) {
        const pocket_handle none = POCKET_NOTHING;
        link.sender = link.receiver = none, link.bits = streams % 100 == 1 ? MOST : bits_tried[streams % (sizeof bits_tried / sizeof *bits_tried)];
        check(pocket_sender_open(&link.sender, link.bits, NULL, 0) == POCKET_DONE && pocket_receiver_open(&link.receiver, link.bits) == POCKET_DONE, "two ends");
        memset(link.input, 0, sizeof link.input);
        for (begins(0), number = 0; number < CALLS; number++)
            calls();
        check(pocket_close(&link.sender) == POCKET_DONE && pocket_close(&link.receiver) == POCKET_DONE, "the ends");
    }
    check(kinds[POCKET_WRONG] > 0 && kinds[POCKET_EARLY] > 0, "wrong data and early ends");
    return counted();
}
