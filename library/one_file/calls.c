/* The calls of pocket.h, written by hand. From the head on a block has the stack, the constants, the handle of the generated part, what its
 * calls tell, its heap, room for an input or a content, and of a receiver room for the data of a packet. An address from OUTSIDE on is a
 * place in a room of the caller, for a packet or a state. */
#define OUTSIDE 0x80000000u
enum { EITHER = 0, SENDER = 1, RECEIVER = 2 };
enum { HANDLE = (HEAP_BASE + 15) / 16 * 16, TOLD = HANDLE + 16, TOLD_LEVEL = TOLD + 8, FIRST = TOLD + 48 };

/* The stack that pocket.h tells is at least the deepest of the generated part, and at most a quarter of a kilobyte more; and its macros
 * have the room that is taken here. */
typedef char stack_is_deep_enough[DEEPEST <= STACK_BYTES && STACK_BYTES < DEEPEST + 256 ? 1 : -1];
typedef char fixed_bytes_are_told[POCKET_FIXED_BYTES == 15 + HEAD_BYTES + (FIRST - BASE) + SLACK ? 1 : -1];

static u32 content_at(u32 kind, u32 bits) {
    return FIRST + (u32)(kind == SENDER ? POCKET_SENDER_HEAP(bits) : POCKET_RECEIVER_HEAP(bits));
}

static u32 kind_of(const u8 *m) {
    return head_of(m, SHAPE_AT) >> 16;
}

static u32 bits_of(const u8 *m) {
    return head_of(m, SHAPE_AT) & 0xFFFFu;
}

#ifndef POCKET_NO_RECEIVER
static u32 data_at(u32 content, u32 bits) {
    return content + ROUNDED(POCKET_INPUT_BYTES(bits) + 1u, 8u);
}

/* No packet has as many bytes of data. Of more the first are judged: what is found before their end is found of all, and whatever else is
 * told, that they are a packet or end too early, can't be so. */
static u32 data_bytes(u32 bits) {
    return ROUNDED(POCKET_PACKET_BYTES(bits) + 8u, 8u);
}
#endif

/* Memory of the heap, for an opening, which has all that it asks for: the next bytes that are free, since nothing is given back before
 * the handle is closed. */
static u64 heap_place(u8 *m, u32 last, u64 bytes, u64 align) {
    const u32 free_at = ROUNDED(head_of(m, FREE_AT), 8u);
    const u32 end = content_at(kind_of(m), bits_of(m));
    (void)last;
    if (align > 8u || free_at > end || bytes > end - free_at) {
        set_broken(m);
        return 0;
    }
    set_head(m, FREE_AT, free_at + (u32)bytes);
    return free_at;
}

/* Where so many bytes from an address on are: in the block, or in the room of the caller that the head has; NULL if they are in neither. */
static u8 *where(u8 *m, u32 last, u32 address, u32 count) {
    const u32 by = address - OUTSIDE, room = head_of(m, ROOM_AT);
    u8 *out;
    if (lie_in(last, address, count))
        return place(address);
    POCKET_COPY(&out, m - OUT_AT, sizeof out);
    return out == NULL || by > room || count > room - by ? NULL : out + by;
}

/* A copy upon itself is none: the places of all copies lie apart (left_out.py). */
static bool copied(u8 *m, u32 last, u32 to, u32 from, u32 count) {
    u8 *const out = where(m, last, to, count);
    const u8 *const in = where(m, last, from, count);
    if (count == 0)
        return true;
    if (out == NULL || in == NULL || to - from - 1u < count - 1u)
        return false;
    memmove(out, in, count);
    return true;
}

static POCKET_MAYBE_UNUSED bool equal(const u8 *one, const u8 *other, u32 count) {
    while (count > 0 && *one++ == *other++)
        count--;
    return count == 0;
}

#define memory_equal(to, one, other, count) do { \
        const u8 *const first = where(m, last, (u32)(one), (u32)(count)), *const second = where(m, last, (u32)(other), (u32)(count)); \
        if (first == NULL || second == NULL) goto trap; \
        to = equal(first, second, (u32)(count)); \
    } while (0)
/* @generated@ */
/* The block of a handle. */
static u8 *block_of(const pocket_handle *handle) {
    return (u8 *)handle->at + HEAD_BYTES;
}

/* Where the data of a packet go during a send, or where a state is as it is saved or loaded: the addresses from OUTSIDE on. */
static POCKET_MAYBE_UNUSED void set_out(u8 *m, u8 *out, u32 room) {
    POCKET_COPY(m - OUT_AT, &out, sizeof out);
    set_head(m, ROOM_AT, room);
}

/* The block of a handle of this kind, and whether a call of it can begin: POCKET_DONE, or why not. */
static u32 begun(const pocket_handle *handle, u32 kind, u8 **block) {
    u8 *m;
    if (handle->at == NULL)
        return POCKET_IS_CLOSED;
    m = block_of(handle);
    *block = m;
    if (head_of(m, BROKEN_AT) || head_of(m, SHAPE_AT) != ~head_of(m, SHAPE_TURNED_AT) || head_of(m, LAST_AT) != ~head_of(m, LAST_TURNED_AT))
        return POCKET_BROKEN;
    set_head(m, STACK_AT, STACK_TOP);
    return kind != EITHER && kind != kind_of(m) ? POCKET_OTHER_KIND : POCKET_DONE;
}

/* What a call answers that had a status, or was ended. */
static u32 ended(const u8 *m, u32 status) {
    return head_of(m, BROKEN_AT) ? (u32)POCKET_BROKEN : status;
}

/* Gives the caller the length that was told, if it is within a room. */
static POCKET_MAYBE_UNUSED u32 gives_length(u8 *m, u32 room, size_t *length) {
    if (get64(place(TOLD)) > room) {
        set_broken(m);
        return POCKET_BROKEN;
    }
    *length = (size_t)get64(place(TOLD));
    return POCKET_DONE;
}

/* Puts bytes at an address; of more than there is room for, the first. Gives how many the generated part is told: as many as there are, but
 * one more than the room at most. */
static u32 given(u8 *m, u32 at, const u8 *bytes, size_t length, u32 room) {
    const u32 count = length > room ? room : (u32)length;
    memcpy(place(at), bytes, count);
    return length > room ? room + 1u : count;
}

/* Makes a block in memory, of zeros but for its constants, whose generated part has a handle that holds nothing. */
static u8 *made_block(void *memory, u32 kind, u32 bits, size_t bytes) {
    const size_t skip = (16u - ((uintptr_t)memory & 15u)) & 15u;
    u8 *const m = (u8 *)memory + skip + HEAD_BYTES;
    const u32 last = (u32)(bytes - 15u - HEAD_BYTES - SLACK);
    memset(m - HEAD_BYTES, 0, bytes - 15u);
#if CONSTANT_BYTES > 0
    memcpy(place(STACK_TOP), constants, CONSTANT_BYTES);
#endif
    set_head(m, STACK_AT, STACK_TOP);
    set_head(m, FREE_AT, FIRST);
    set_head(m, SHAPE_AT, kind << 16 | bits);
    set_head(m, SHAPE_TURNED_AT, ~(kind << 16 | bits));
    set_head(m, LAST_AT, last);
    set_head(m, LAST_TURNED_AT, ~last);
    return m;
}

/* Gives the handle a block that was opened, or none. The handle's own number tells whose the memory is: OF_CALLER, or by how many bytes
 * more the block lies behind what malloc gave. */
enum { OF_CALLER = 1, OF_MALLOC = 2 };

static u32 opened(pocket_handle *handle, u8 *m, u32 status) {
    status = ended(m, status);
    if (status == POCKET_DONE) {
        handle->at = m - HEAD_BYTES;
        handle->state = OF_CALLER;
    }
    return status;
}

/* What is wrong with an opening, by the bytes that it takes and has, and what is wrong with its mask: it is told before there is memory. */
static u32 opening_fault(const pocket_handle *handle, size_t bytes, size_t size, u32 mask) {
    if (handle->at != NULL)
        return POCKET_IS_OPEN;
    if (bytes == 0)
        return POCKET_BITS;
    if (mask != POCKET_DONE)
        return mask;
    return size < bytes ? POCKET_NO_MEMORY : POCKET_DONE;
}

#ifndef POCKET_NO_HEAP
/* Marks the block of a handle as one that is given back, or gives the memory back now if nothing was opened in it. */
static u32 owned(pocket_handle *handle, void *memory, u32 status) {
    if (status == POCKET_DONE)
        handle->state = OF_MALLOC + (size_t)((u8 *)handle->at - (u8 *)memory);
    else
        free(memory);
    return status;
}
#endif

#ifndef POCKET_NO_SENDER
/* What is wrong with a first mask: POCKET_DONE, or what an opening would answer. */
static u32 mask_fault(uint32_t bits, const uint8_t *mask, size_t length) {
    if (length == 0)
        return POCKET_DONE;
    if (length != POCKET_INPUT_BYTES(bits))
        return POCKET_MASK_LENGTH;
    return bits % 8 && (mask[length - 1] & 0xFFu >> bits % 8) ? POCKET_MASK_SPARE_BIT : POCKET_DONE;
}

size_t pocket_sender_bytes(uint32_t bits) {
    return bits == 0 || bits > POCKET_MOST_BITS ? 0 : POCKET_SENDER_BYTES(bits);
}

uint32_t pocket_sender_open_in(pocket_handle *handle, void *memory, size_t size, uint32_t bits, const uint8_t *mask, size_t mask_length) {
    const size_t bytes = pocket_sender_bytes(bits);
    const u32 fault = opening_fault(handle, bytes, size, mask_fault(bits, mask, mask_length));
    u32 at, length;
    u8 *m;
    if (fault != POCKET_DONE)
        return fault;
    m = made_block(memory, SENDER, bits, bytes);
    at = content_at(SENDER, bits);
    length = given(m, at, mask, mask_length, (u32)POCKET_INPUT_BYTES(bits));
    return opened(handle, m, code_pocket_sender_open(m, head_of(m, LAST_AT), HANDLE, bits, at, length));
}

#ifndef POCKET_NO_HEAP
uint32_t pocket_sender_open(pocket_handle *handle, uint32_t bits, const uint8_t *mask, size_t mask_length) {
    const size_t bytes = pocket_sender_bytes(bits);
    const u32 fault = opening_fault(handle, bytes, 0, mask_fault(bits, mask, mask_length));
    void *const memory = fault == POCKET_NO_MEMORY ? malloc(bytes) : NULL;
    return memory == NULL ? fault : owned(handle, memory, pocket_sender_open_in(handle, memory, bytes, bits, mask, mask_length));
}
#endif

uint32_t pocket_sender_reset(pocket_handle *handle, const uint8_t *mask, size_t mask_length) {
    u8 *m;
    u32 status = begun(handle, SENDER, &m), bits, at, length;
    if (status != POCKET_DONE)
        return status;
    bits = bits_of(m);
    at = content_at(SENDER, bits);
    length = given(m, at, mask, mask_length, (u32)POCKET_INPUT_BYTES(bits));
    return ended(m, code_pocket_sender_reset(m, head_of(m, LAST_AT), HANDLE, at, length));
}

uint32_t pocket_send(pocket_handle *handle, const uint8_t *input, size_t input_length, bool new_mask, bool send_mask, bool whole,
                     uint8_t robustness, uint8_t *data, size_t room, size_t *length, uint8_t *level) {
    const u32 data_room = room > POCKET_MOST_DATA ? POCKET_MOST_DATA : (u32)room;
    u8 *m;
    u32 status = begun(handle, SENDER, &m), bits, at, count;
    if (status != POCKET_DONE)
        return status;
    bits = bits_of(m);
    at = content_at(SENDER, bits);
    count = given(m, at, input, input_length, (u32)POCKET_INPUT_BYTES(bits));
    set_out(m, data, data_room);
    status = ended(m, code_pocket_send(m, head_of(m, LAST_AT), HANDLE, at, count, new_mask, send_mask, whole, robustness, OUTSIDE,
                                       data_room, TOLD, TOLD_LEVEL));
    set_out(m, NULL, 0);
    if (status == POCKET_DONE)
        status = gives_length(m, data_room, length);
    if (status == POCKET_DONE)
        *level = get8(place(TOLD_LEVEL));
    return status;
}

uint32_t pocket_sent(pocket_handle *handle, uint64_t *packets) {
    u8 *m;
    u32 status = begun(handle, SENDER, &m);
    if (status != POCKET_DONE)
        return status;
    status = ended(m, code_pocket_sent(m, head_of(m, LAST_AT), HANDLE, TOLD));
    if (status == POCKET_DONE)
        *packets = get64(place(TOLD));
    return status;
}
#endif

#ifndef POCKET_NO_RECEIVER
size_t pocket_receiver_bytes(uint32_t bits) {
    return bits == 0 || bits > POCKET_MOST_BITS ? 0 : POCKET_RECEIVER_BYTES(bits);
}

uint32_t pocket_receiver_open_in(pocket_handle *handle, void *memory, size_t size, uint32_t bits) {
    const size_t bytes = pocket_receiver_bytes(bits);
    const u32 fault = opening_fault(handle, bytes, size, POCKET_DONE);
    u8 *m;
    if (fault != POCKET_DONE)
        return fault;
    m = made_block(memory, RECEIVER, bits, bytes);
    return opened(handle, m, code_pocket_receiver_open(m, head_of(m, LAST_AT), HANDLE, bits));
}

#ifndef POCKET_NO_HEAP
uint32_t pocket_receiver_open(pocket_handle *handle, uint32_t bits) {
    const size_t bytes = pocket_receiver_bytes(bits);
    const u32 fault = opening_fault(handle, bytes, 0, POCKET_DONE);
    void *const memory = fault == POCKET_NO_MEMORY ? malloc(bytes) : NULL;
    return memory == NULL ? fault : owned(handle, memory, pocket_receiver_open_in(handle, memory, bytes, bits));
}
#endif

uint32_t pocket_receiver_reset(pocket_handle *handle) {
    u8 *m;
    const u32 status = begun(handle, RECEIVER, &m);
    return status != POCKET_DONE ? status : ended(m, code_pocket_receiver_reset(m, head_of(m, LAST_AT), HANDLE));
}

uint32_t pocket_receive(pocket_handle *handle, uint16_t count, const uint8_t *data, size_t length, uint8_t *content, size_t room,
                        pocket_finding *finding) {
    const u32 content_room = room > POCKET_MOST_DATA ? POCKET_MOST_DATA : (u32)room;
    u8 *m;
    u32 status = begun(handle, RECEIVER, &m), bits, at, from, told, most, kind;
    if (status != POCKET_DONE)
        return status;
    bits = bits_of(m);
    at = content_at(RECEIVER, bits);
    from = data_at(at, bits);
    most = data_bytes(bits);
    told = given(m, from, data, length, most);
    if (length > most)
        told = length > POCKET_MOST_DATA ? POCKET_MOST_DATA + 1u : most;
    status = ended(m, code_pocket_receive(m, head_of(m, LAST_AT), HANDLE, count, from, told, at, content_room, TOLD));
    if (status != POCKET_DONE)
        return status;
    kind = get32(place(TOLD) + 24);
    if (kind == POCKET_WRITTEN ? length > most || content_room < POCKET_INPUT_BYTES(bits) : kind == POCKET_EARLY && length > most) {
        set_broken(m);
        return POCKET_BROKEN;
    }
    finding->number = get64(place(TOLD));
    finding->first_lost = get64(place(TOLD) + 8);
    finding->lost = get64(place(TOLD) + 16);
    finding->kind = kind;
    finding->value = get32(place(TOLD) + 28);
    finding->mask_alone = get8(place(TOLD) + 32) != 0;
    if (kind == POCKET_WRITTEN)
        memcpy(content, place(at), POCKET_INPUT_BYTES(bits));
    return POCKET_DONE;
}

uint32_t pocket_counts(pocket_handle *handle, pocket_tally *tally) {
    u8 *m;
    u32 status = begun(handle, RECEIVER, &m);
    if (status != POCKET_DONE)
        return status;
    status = ended(m, code_pocket_counts(m, head_of(m, LAST_AT), HANDLE, TOLD));
    if (status == POCKET_DONE) {
        tally->packets = get64(place(TOLD));
        tally->written = get64(place(TOLD) + 8);
        tally->repeats = get64(place(TOLD) + 16);
        tally->listed = get64(place(TOLD) + 24);
    }
    return status;
}
#endif

uint32_t pocket_bits(pocket_handle *handle, uint32_t *bits) {
    u8 *m;
    const u32 status = begun(handle, EITHER, &m);
    if (status == POCKET_DONE)
        *bits = bits_of(m);
    return status;
}

uint32_t pocket_close(pocket_handle *handle) {
    if (handle->at == NULL)
        return POCKET_IS_CLOSED;
#ifndef POCKET_NO_HEAP
    if (handle->state >= OF_MALLOC)
        free((u8 *)handle->at - (handle->state - OF_MALLOC));
#endif
    handle->at = NULL;
    handle->state = 0;
    return POCKET_DONE;
}
