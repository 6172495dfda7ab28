/* The calls of pocket.h for a sender and a receiver, each with its checks of null before the proved one; and what needs no handle: the
 * version, the texts of the answers, the header of a Space Packet. Written by hand: tested, not proved. The calls of a desk stand in
 * checked_desk.c, those of the one file in one_file/null_checks.c. */
#define POCKET_PROVED_NAMES
#include "pocket.h"

#define POCKET_BYTES_ARE_NULL(at, length) ((at) == NULL && (length) != 0u)
#define POCKET_NO_BYTES(at) ((at) == NULL ? (const uint8_t *)"" : (at))

/* What stands for null if there is no room: nothing is written to it. A call in which nothing is null is handed on as it came. */
static uint8_t no_room;

#ifndef POCKET_NO_SENDER
#ifndef POCKET_NO_HEAP
pocket_status pocket_checked_sender_open(pocket_handle *handle, uint32_t bits, const uint8_t *mask, size_t mask_length)
{
    if (handle == NULL || POCKET_BYTES_ARE_NULL(mask, mask_length))
        return POCKET_NULL;
    return (pocket_status)pocket_sender_open(handle, bits, POCKET_NO_BYTES(mask), mask_length);
}
#endif

pocket_status pocket_checked_sender_reset(pocket_handle *handle, const uint8_t *mask, size_t mask_length)
{
    if (handle == NULL || POCKET_BYTES_ARE_NULL(mask, mask_length))
        return POCKET_NULL;
    return (pocket_status)pocket_sender_reset(handle, POCKET_NO_BYTES(mask), mask_length);
}

pocket_status pocket_checked_send(pocket_handle *handle, const uint8_t *input, size_t input_length, bool new_mask, bool send_mask,
                                  bool whole, uint8_t robustness, uint8_t *data, size_t room, size_t *length, uint8_t *level)
{
    if (handle != NULL && input != NULL && data != NULL && length != NULL && level != NULL)
        return (pocket_status)pocket_send(handle, input, input_length, new_mask, send_mask, whole, robustness, data, room, length, level);
    if (handle == NULL || length == NULL || level == NULL || POCKET_BYTES_ARE_NULL(input, input_length) ||
        POCKET_BYTES_ARE_NULL(data, room))
        return POCKET_NULL;
    return (pocket_status)pocket_send(handle, POCKET_NO_BYTES(input), input_length, new_mask, send_mask, whole, robustness,
                                      data == NULL ? &no_room : data, room, length, level);
}

pocket_status pocket_checked_sent(pocket_handle *handle, uint64_t *packets)
{
    return handle == NULL || packets == NULL ? POCKET_NULL : (pocket_status)pocket_sent(handle, packets);
}
#endif

#ifndef POCKET_NO_RECEIVER
#ifndef POCKET_NO_HEAP
pocket_status pocket_checked_receiver_open(pocket_handle *handle, uint32_t bits)
{
    return handle == NULL ? POCKET_NULL : (pocket_status)pocket_receiver_open(handle, bits);
}
#endif

pocket_status pocket_checked_receiver_reset(pocket_handle *handle)
{
    return handle == NULL ? POCKET_NULL : (pocket_status)pocket_receiver_reset(handle);
}

pocket_status pocket_checked_receive(pocket_handle *handle, uint16_t count, const uint8_t *data, size_t length, uint8_t *content,
                                     size_t room, pocket_finding *finding)
{
    if (handle != NULL && data != NULL && content != NULL && finding != NULL)
        return (pocket_status)pocket_receive(handle, count, data, length, content, room, finding);
    if (handle == NULL || finding == NULL || POCKET_BYTES_ARE_NULL(data, length) || POCKET_BYTES_ARE_NULL(content, room))
        return POCKET_NULL;
    return (pocket_status)pocket_receive(handle, count, POCKET_NO_BYTES(data), length, content == NULL ? &no_room : content, room,
                                         finding);
}

pocket_status pocket_checked_counts(pocket_handle *handle, pocket_tally *tally)
{
    return handle == NULL || tally == NULL ? POCKET_NULL : (pocket_status)pocket_counts(handle, tally);
}
#endif

#ifndef POCKET_NO_STATES
pocket_status pocket_checked_save(pocket_handle *handle, uint8_t *state, size_t room, size_t *length)
{
    if (handle == NULL || length == NULL || POCKET_BYTES_ARE_NULL(state, room))
        return POCKET_NULL;
    return (pocket_status)pocket_save(handle, state == NULL ? &no_room : state, room, length);
}

pocket_status pocket_checked_load(pocket_handle *handle, const uint8_t *state, size_t length)
{
    if (handle == NULL || POCKET_BYTES_ARE_NULL(state, length))
        return POCKET_NULL;
    return (pocket_status)pocket_load(handle, POCKET_NO_BYTES(state), length);
}
#endif

pocket_status pocket_checked_bits(pocket_handle *handle, uint32_t *bits)
{
    return handle == NULL || bits == NULL ? POCKET_NULL : (pocket_status)pocket_bits(handle, bits);
}

pocket_status pocket_checked_close(pocket_handle *handle)
{
    return handle == NULL ? POCKET_NULL : (pocket_status)pocket_close(handle);
}

const char *pocket_version(void)
{
    return POCKET_VERSION;
}

const char *pocket_status_text(uint32_t status)
{
    switch (status) {
    case POCKET_DONE: return "done";
    case POCKET_NO_MEMORY: return "out of memory";
    case POCKET_IS_CLOSED: return "it is closed";
    case POCKET_IS_OPEN: return "it is open";
    case POCKET_OTHER_KIND: return "it holds something of another kind";
    case POCKET_BITS: return "a vector has 1 to 49152 places";
    case POCKET_MASK_LENGTH: return "the mask has the wrong length";
    case POCKET_MASK_SPARE_BIT: return "the mask has a spare bit set";
    case POCKET_INPUT_LENGTH: return "the input has the wrong length";
    case POCKET_SPARE_BIT: return "the input has a spare bit set";
    case POCKET_ROBUSTNESS: return "the required robustness is above 7";
    case POCKET_NO_ROOM: return "the room is too short";
    case POCKET_TOO_MANY: return "too many packets";
    case POCKET_COUNT: return "the sequence count is above 16383";
    case POCKET_TOO_LONG: return "the packet is too long";
    case POCKET_NO_TEXT: return "it is not UTF-8";
    case POCKET_TOO_MANY_WORDS: return "the command has too many arguments";
    case POCKET_NOT_KEPT: return "no such name is kept";
    case POCKET_APID: return "the APID is above 2046";
    case POCKET_NO_DATA: return "a Space Packet has a byte of data at least";
    case POCKET_NO_STATE: return "it is no state";
    case POCKET_OTHER_STATE: return "it is a state of the other kind or of other bits";
    case POCKET_BROKEN: return "its memory was damaged";
    case POCKET_NULL: return "a pointer is null";
    default: return "no call answers this";
    }
}

pocket_status pocket_header(uint16_t apid, uint64_t number, size_t length, uint8_t *header)
{
    const unsigned count = (unsigned)(number % (POCKET_MOST_COUNT + 1u));
    if (header == NULL)
        return POCKET_NULL;
    if (apid > POCKET_MOST_APID)
        return POCKET_APID;
    if (length == 0u)
        return POCKET_NO_DATA;
    if (length > POCKET_MOST_DATA)
        return POCKET_TOO_LONG;
    header[0] = (uint8_t)(apid >> 8);
    header[1] = (uint8_t)(apid & 0xFFu);
    header[2] = (uint8_t)(0xC0u | count >> 8);
    header[3] = (uint8_t)(count & 0xFFu);
    header[4] = (uint8_t)((length - 1u) >> 8);
    header[5] = (uint8_t)((length - 1u) & 0xFFu);
    return POCKET_DONE;
}
