/* The calls of pocket.h for a desk in memory, each with its checks of null, and with the length of a name or a word, before the proved one.
 * Written by hand: tested, not proved. */
#define POCKET_PROVED_NAMES
#include "pocket.h"
#include <string.h>

pocket_status pocket_checked_desk_open(pocket_handle *handle)
{
    return handle == NULL ? POCKET_NULL : (pocket_status)pocket_desk_open(handle);
}

pocket_status pocket_checked_put(pocket_handle *handle, const char *name, const uint8_t *bytes, size_t length)
{
    if (handle == NULL || name == NULL || (bytes == NULL && length != 0u))
        return POCKET_NULL;
    return (pocket_status)pocket_put(handle, (const uint8_t *)name, strlen(name), bytes == NULL ? (const uint8_t *)"" : bytes, length);
}

pocket_status pocket_checked_word(pocket_handle *handle, const char *word)
{
    return handle == NULL || word == NULL ? POCKET_NULL : (pocket_status)pocket_word(handle, (const uint8_t *)word, strlen(word));
}

pocket_status pocket_checked_run(pocket_handle *handle, char *text, size_t room, size_t *length, uint8_t *exit_number)
{
    if (handle == NULL || text == NULL || length == NULL || exit_number == NULL)
        return POCKET_NULL;
    return (pocket_status)pocket_run(handle, (uint8_t *)text, room, length, exit_number);
}

pocket_status pocket_checked_get(pocket_handle *handle, const char *name, uint8_t *bytes, size_t room, size_t *length)
{
    static uint8_t no_room;
    if (handle == NULL || name == NULL || length == NULL || (bytes == NULL && room != 0u))
        return POCKET_NULL;
    return (pocket_status)pocket_get(handle, (const uint8_t *)name, strlen(name), bytes == NULL ? &no_room : bytes, room, length);
}

pocket_status pocket_checked_remove(pocket_handle *handle, const char *name)
{
    return handle == NULL || name == NULL ? POCKET_NULL : (pocket_status)pocket_remove(handle, (const uint8_t *)name, strlen(name));
}

pocket_status pocket_checked_name_from(pocket_handle *handle, const char *from, size_t from_length, char *name, size_t room, size_t *length)
{
    static uint8_t no_room;
    if (handle == NULL || length == NULL || (from == NULL && from_length != 0u) || (name == NULL && room != 0u))
        return POCKET_NULL;
    return (pocket_status)pocket_name_from(handle, (const uint8_t *)(from == NULL ? "" : from), from_length,
                                           name == NULL ? &no_room : (uint8_t *)name, room, length);
}
