/* The calls of huttavel_entries.h: null pointers and lengths that cannot be are refused, and the rest is done by the
 * proved library.
 */
#include "held.h"

/* Stands for no bytes. */
static uint8_t no_bytes[1] = {0};

/* The greatest position of a capability. */
#define LAST_POSITION 0xffffu

uint32_t huttavel_entry_open(huttavel *handle, const uint8_t *entry, size_t length)
{
    if (handle == NULL)
        return HUTTAVEL_CLOSED;
    if (!is_piece(entry, length))
        return HUTTAVEL_BAD_LENGTH;
    return huttavel_held_entry_open(handle, length == 0 ? no_bytes : entry, length).fault;
}

uint32_t huttavel_entry_flag(huttavel *handle, uint32_t position, bool *flag)
{
    reply answer;

    if (handle == NULL)
        return HUTTAVEL_CLOSED;
    answer = huttavel_held_entry_flag(handle, position > LAST_POSITION ? LAST_POSITION : (uint16_t)position);
    if (answer.fault == HUTTAVEL_OK && flag != NULL)
        *flag = answer.first != 0;
    return answer.fault;
}

uint32_t huttavel_entry_number(huttavel *handle, uint32_t position, uint32_t *number)
{
    if (handle == NULL)
        return HUTTAVEL_CLOSED;
    return give(huttavel_held_entry_number(handle, position > LAST_POSITION ? LAST_POSITION : (uint16_t)position),
                number, NULL);
}

/* Tells the length of a text that was copied. */
static uint32_t tell(length_reply answer, size_t *length)
{
    if (answer.fault == HUTTAVEL_OK && length != NULL)
        *length = answer.count;
    return answer.fault;
}

/* How many bytes there is room for. */
static size_t room_in(const uint8_t *bytes, size_t room)
{
    if (bytes == NULL)
        return 0;
    return room > PTRDIFF_MAX ? PTRDIFF_MAX : room;
}

uint32_t huttavel_entry_text(huttavel *handle, uint32_t position, uint8_t *bytes, size_t room, size_t *length)
{
    if (handle == NULL)
        return HUTTAVEL_CLOSED;
    return tell(huttavel_held_entry_text(handle, position > LAST_POSITION ? LAST_POSITION : (uint16_t)position,
                                         bytes == NULL ? no_bytes : bytes, room_in(bytes, room)),
                length);
}

uint32_t huttavel_entry_names(huttavel *handle, uint8_t *bytes, size_t room, size_t *length)
{
    if (handle == NULL)
        return HUTTAVEL_CLOSED;
    return tell(huttavel_held_entry_names(handle, bytes == NULL ? no_bytes : bytes, room_in(bytes, room)), length);
}

uint32_t huttavel_capability_named(const uint8_t *name, size_t length, huttavel_capability *which)
{
    reply answer;

    if (!is_piece(name, length))
        return HUTTAVEL_BAD_LENGTH;
    answer = huttavel_held_capability(length == 0 ? no_bytes : name, length);
    if (answer.fault == HUTTAVEL_OK && which != NULL) {
        which->kind = answer.first;
        which->position = answer.second;
    }
    return answer.fault;
}

uint32_t huttavel_parameters(huttavel *handle, const uint8_t *text, size_t length, const int32_t numbers[9],
                             uint8_t *bytes, size_t room, size_t *count)
{
    parameters given;

    if (is_closed(handle))
        return HUTTAVEL_CLOSED;
    if (!is_piece(text, length) || numbers == NULL)
        return HUTTAVEL_BAD_LENGTH;
    for (size_t i = 0; i < 9; i++)
        given.numbers[i] = numbers[i];
    return tell(huttavel_held_parameters(handle, length == 0 ? no_bytes : text, length, &given,
                                         bytes == NULL ? no_bytes : bytes, room_in(bytes, room)),
                count);
}
