/* Upsets of the one file: each single bit of the whole block of a sender and of a receiver is turned, before each kind of call, in memory and
 * with buffers of exactly the bytes that pocket.h asks for. Built with the address sanitizer, an access outside of them ends the run; so does
 * the alarm, if a call has no end. After each turned bit the call gives an answer, and if it is POCKET_BROKEN, so do all that follow, and the
 * handle can be closed. Its words are numbers of bits. */
#include "pocket.h"
#include "check.h"
#include <unistd.h>

enum { PACKETS = 20, SECONDS = 300 };
static unsigned long broken, seen;

/* What a block was before a bit is turned, and the data of the packet that is next. */
typedef struct stage {
    uint8_t *block;
    size_t bytes;
    uint8_t *next;
    size_t next_length;
} stage;

static uint8_t *taken(size_t bytes)
{
    uint8_t *const made = calloc(1, bytes == 0 ? 1 : bytes);
    if (made == NULL)
        exit(2);
    return made;
}

static void turn(uint8_t *input, uint32_t bits, unsigned number)
{
    size_t place;
    for (place = 0; place < POCKET_INPUT_BYTES(bits); place++)
        input[place] ^= (uint8_t)(number % 5 == 0 ? number * 31 + place * 7 : place % 16 == 3);
    if (bits % 8)
        input[POCKET_INPUT_BYTES(bits) - 1] &= (uint8_t)(0xFF00u >> bits % 8);
}

/* The buffers of the calls, of which none has a byte more than is told. */
typedef struct rooms {
    uint8_t *input, *data, *state, *saved, *content, *arrived, *cut;
    size_t state_bytes, saved_length;
} rooms;

static rooms rooms_of(uint32_t bits, const stage *from, uint32_t kind)
{
    pocket_handle handle = { from->block, 1 };
    rooms made;
    made.state_bytes = pocket_state_bytes(bits, kind), made.saved_length = 0;
    made.input = taken(POCKET_INPUT_BYTES(bits)), made.data = taken(POCKET_PACKET_BYTES(bits)), made.state = taken(made.state_bytes);
    check(pocket_save(&handle, made.state, made.state_bytes, &made.saved_length) == POCKET_DONE, "a save", bits);
    made.saved = taken(made.saved_length);
    memcpy(made.saved, made.state, made.saved_length);
    made.content = taken(POCKET_INPUT_BYTES(bits)), made.arrived = taken(from->next_length), made.cut = taken(from->next_length / 2);
    if (from->next != NULL) {
        memcpy(made.arrived, from->next, from->next_length);
        memcpy(made.cut, from->next, from->next_length / 2);
    }
    turn(made.input, bits, 1);
    return made;
}

static void forget(rooms made)
{
    free(made.input), free(made.data), free(made.state), free(made.saved), free(made.content), free(made.arrived), free(made.cut);
}

/* One call of a sender, by its number. */
static uint32_t send_one(pocket_handle *handle, unsigned kind, uint32_t bits, rooms in)
{
    const size_t size = POCKET_INPUT_BYTES(bits), room = POCKET_PACKET_BYTES(bits);
    uint64_t packets;
    uint32_t told, status = 0;
    uint8_t level;
    size_t length = 0, place;
    switch (kind) {
    case 0: status = pocket_send(handle, in.input, size, false, false, false, 2, in.data, room, &length, &level); break;
    case 1: status = pocket_send(handle, in.input, size, true, true, true, 7, in.data, room, &length, &level); break;
    case 2: return pocket_sent(handle, &packets);
    case 3: return pocket_bits(handle, &told);
    case 4: return pocket_sender_reset(handle, in.input, size);
    case 5: return pocket_save(handle, in.state, in.state_bytes, &length);
    case 6: return pocket_load(handle, in.saved, in.saved_length);
    default: return pocket_close(handle);
    }
    for (place = 0; status == POCKET_DONE && place < length; place += 7)
        seen += in.data[place];
    return status;
}

/* One call of a receiver. */
static uint32_t receive_one(pocket_handle *handle, unsigned kind, uint32_t bits, const stage *from, rooms in)
{
    const size_t room = POCKET_INPUT_BYTES(bits);
    pocket_finding finding;
    pocket_tally tally;
    uint32_t told;
    size_t length;
    switch (kind) {
    case 0: return pocket_receive(handle, PACKETS, in.arrived, from->next_length, in.content, room, &finding);
    case 1: return pocket_receive(handle, PACKETS, in.cut, from->next_length / 2, in.content, room, &finding);
    case 2: return pocket_receive(handle, PACKETS + 9, in.arrived, from->next_length, in.content, room, &finding);
    case 3: return pocket_counts(handle, &tally);
    case 4: return pocket_bits(handle, &told);
    case 5: return pocket_receiver_reset(handle);
    case 6: return pocket_save(handle, in.state, in.state_bytes, &length);
    case 7: return pocket_load(handle, in.saved, in.saved_length);
    default: return pocket_close(handle);
    }
}

static uint32_t call_one(bool sends, pocket_handle *handle, unsigned kind, uint32_t bits, const stage *from, rooms in)
{
    return sends ? send_one(handle, kind, bits, in) : receive_one(handle, kind, bits, from, in);
}

/* Turns each bit of a block before a call, and makes two calls more after it. */
static void upset(bool sends, const stage *from, unsigned kind, uint32_t bits)
{
    const unsigned last = sends ? 7 : 8;
    uint8_t *const memory = taken(from->bytes);
    const rooms in = rooms_of(bits, from, sends ? POCKET_OF_SENDER : POCKET_OF_RECEIVER);
    size_t bit;
    for (bit = 0; bit < 8 * from->bytes; bit++) {
        pocket_handle handle = { memory, 1 };
        uint32_t status, after;
        memcpy(memory, from->block, from->bytes);
        memory[bit / 8] ^= (uint8_t)(1u << bit % 8);
        status = call_one(sends, &handle, kind, bits, from, in);
        broken += status == POCKET_BROKEN;
        if (kind == last)
            continue;
        after = call_one(sends, &handle, bit % last, bits, from, in);
        check(status != POCKET_BROKEN || after == POCKET_BROKEN, "a broken end that answers something else", bit);
        check(pocket_close(&handle) == POCKET_DONE && handle.at == NULL, "an end that can't be closed", bit);
    }
    free(memory), forget(in);
}

/* Opens both ends in memory whose block begins at its first byte, sends and receives, and turns the bits of what they then are. */
static void upsets(uint32_t bits, unsigned packets)
{
    stage sender = { NULL, pocket_sender_bytes(bits), NULL, 0 }, receiver = { NULL, pocket_receiver_bytes(bits), NULL, 0 };
    pocket_handle one = POCKET_NOTHING, other = POCKET_NOTHING;
    uint8_t *const input = taken(POCKET_INPUT_BYTES(bits)), *const data = taken(POCKET_PACKET_BYTES(bits));
    uint8_t found;
    pocket_finding finding;
    unsigned number, kind;
    sender.block = taken(sender.bytes), receiver.block = taken(receiver.bytes);
    receiver.next = data;
    check(pocket_sender_open_in(&one, sender.block, sender.bytes, bits, NULL, 0) == POCKET_DONE, "a sender", bits);
    check(pocket_receiver_open_in(&other, receiver.block, receiver.bytes, bits) == POCKET_DONE, "a receiver", bits);
    check(one.at == sender.block && other.at == receiver.block, "their memory", bits);
    for (number = 0; number <= packets; number++) {
        turn(input, bits, number);
        check(pocket_send(&one, input, POCKET_INPUT_BYTES(bits), number % 7 == 6, false, number % 9 == 0, 2, data, POCKET_PACKET_BYTES(bits),
                          &receiver.next_length, &found) == POCKET_DONE, "a send", number);
        if (number < packets)
            check(pocket_receive(&other, (uint16_t)(PACKETS - packets + number), data, receiver.next_length, input, POCKET_INPUT_BYTES(bits),
                                 &finding) == POCKET_DONE, "a receive", number);
    }
    for (kind = 0; kind <= 7; kind++)
        upset(true, &sender, kind, bits);
    for (kind = 0; kind <= 8; kind++)
        upset(false, &receiver, kind, bits);
    free(sender.block), free(receiver.block), free(input), free(data);
}

int main(int count, char **words)
{
    int number;
    alarm(SECONDS);
    for (number = 1; number < count; number++) {
        const uint32_t bits = (uint32_t)strtoul(words[number], NULL, 10);
        upsets(bits, 0);
        upsets(bits, PACKETS);
    }
    check(broken > 0, "none is broken", 0);
    return counted();
}
