/* The calls that this file alone has, with their checks of null, written by hand. */
#ifndef POCKET_NO_SENDER
pocket_status pocket_checked_sender_open_in(pocket_handle *handle, void *memory, size_t size, uint32_t bits, const uint8_t *mask,
                                            size_t mask_length)
{
    if (handle == NULL || memory == NULL || POCKET_BYTES_ARE_NULL(mask, mask_length))
        return POCKET_NULL;
    return (pocket_status)pocket_sender_open_in(handle, memory, size, bits, POCKET_NO_BYTES(mask), mask_length);
}
#endif

#ifndef POCKET_NO_RECEIVER
pocket_status pocket_checked_receiver_open_in(pocket_handle *handle, void *memory, size_t size, uint32_t bits)
{
    return handle == NULL || memory == NULL ? POCKET_NULL : (pocket_status)pocket_receiver_open_in(handle, memory, size, bits);
}
#endif
