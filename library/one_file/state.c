/* The calls of states, written by hand: a state is written into the caller's room, and read from it. */
#ifndef POCKET_NO_STATES
#define MOST_STATE ((u32)POCKET_SENDER_STATE_BYTES(POCKET_MOST_BITS))

size_t pocket_state_bytes(uint32_t bits, uint32_t kind) {
    if (bits == 0 || bits > POCKET_MOST_BITS)
        return 0;
    return kind == POCKET_OF_SENDER ? POCKET_SENDER_STATE_BYTES(bits) : kind == POCKET_OF_RECEIVER ? POCKET_RECEIVER_STATE_BYTES(bits) : 0;
}

uint32_t pocket_save(pocket_handle *handle, uint8_t *state, size_t room, size_t *length) {
    const u32 state_room = room > MOST_STATE ? MOST_STATE : (u32)room;
    u8 *m;
    u32 status = begun(handle, EITHER, &m);
    if (status != POCKET_DONE)
        return status;
    set_out(m, state, state_room);
    status = ended(m, state_pocket_save(m, head_of(m, LAST_AT), HANDLE, OUTSIDE, state_room, TOLD));
    set_out(m, NULL, 0);
    return status == POCKET_DONE ? gives_length(m, state_room, length) : status;
}

/* Of more bytes than any state has one more than that is read: these are none. They are read only. */
uint32_t pocket_load(pocket_handle *handle, const uint8_t *state, size_t length) {
    const u32 bytes = length > MOST_STATE ? MOST_STATE + 1u : (u32)length;
    u8 *m;
    u32 status = begun(handle, EITHER, &m);
    if (status != POCKET_DONE)
        return status;
    set_out(m, (u8 *)state, bytes);
    status = ended(m, state_pocket_load(m, head_of(m, LAST_AT), HANDLE, OUTSIDE, bytes));
    set_out(m, NULL, 0);
    return status;
}
#endif
