/* The calls of huttavel.h on a whole screen: null pointers and closed handles are refused, and the rest is done by the
 * proved library.
 */
#include "held.h"

/* Stands for no bytes. */
static const uint8_t no_bytes[1] = {0};

/* What a screen is opened with where nothing is asked for. */
static const huttavel_opening usual = {0, 0, HUTTAVEL_ASCII, 0};

/* The number of an opening: its charset, and 2 more if the terminal may be larger than the screen. */
static uint32_t number_of(const huttavel_opening *opening)
{
    return opening->charset > HUTTAVEL_UTF8 ? UINT32_MAX : opening->charset + (opening->is_larger ? 2 : 0);
}

uint32_t huttavel_open(huttavel *handle, const uint8_t *entry, size_t length, uint32_t rows, uint32_t columns,
                       huttavel_capability *which)
{
    huttavel_opening opening = usual;

    opening.rows = rows;
    opening.columns = columns;
    return huttavel_open_as(handle, entry, length, &opening, which);
}

uint32_t huttavel_open_as(huttavel *handle, const uint8_t *entry, size_t length, const huttavel_opening *opening,
                          huttavel_capability *which)
{
    reply answer;

    if (handle == NULL)
        return HUTTAVEL_CLOSED;
    if (!is_piece(entry, length))
        return HUTTAVEL_BAD_LENGTH;
    if (opening == NULL)
        opening = &usual;
    answer = huttavel_held_open(handle, length == 0 ? no_bytes : entry, length, number_of(opening),
                                opening->rows, opening->columns);
    if (answer.fault >= HUTTAVEL_UNSUITABLE && which != NULL) {
        which->kind = answer.first;
        which->position = answer.second;
    }
    return answer.fault;
}

uint32_t huttavel_open_bundled(huttavel *handle, uint32_t rows, uint32_t columns)
{
    return handle == NULL ? HUTTAVEL_CLOSED : huttavel_held_open_bundled(handle, HUTTAVEL_ASCII, rows, columns).fault;
}

uint32_t huttavel_open_bundled_as(huttavel *handle, const huttavel_opening *opening)
{
    if (handle == NULL)
        return HUTTAVEL_CLOSED;
    if (opening == NULL)
        opening = &usual;
    return huttavel_held_open_bundled(handle, number_of(opening), opening->rows, opening->columns).fault;
}

uint32_t huttavel_close(huttavel *handle)
{
    return handle == NULL ? HUTTAVEL_CLOSED : huttavel_held_close(handle);
}

bool huttavel_is_open(const huttavel *handle)
{
    return !is_closed(handle);
}

uint32_t huttavel_start(huttavel *handle)
{
    return handle == NULL ? HUTTAVEL_CLOSED : huttavel_held_start(handle);
}

uint32_t huttavel_finish(huttavel *handle)
{
    return handle == NULL ? HUTTAVEL_CLOSED : huttavel_held_finish(handle);
}

uint32_t huttavel_doupdate(huttavel *handle)
{
    return handle == NULL ? HUTTAVEL_CLOSED : huttavel_held_doupdate(handle);
}

uint32_t huttavel_failed(huttavel *handle)
{
    return handle == NULL ? HUTTAVEL_CLOSED : huttavel_held_failed(handle);
}

uint32_t huttavel_key_idle(huttavel *handle)
{
    return handle == NULL ? HUTTAVEL_CLOSED : huttavel_held_key_idle(handle);
}

uint32_t huttavel_took(huttavel *handle, size_t count)
{
    return handle == NULL ? HUTTAVEL_CLOSED : huttavel_held_took(handle, count);
}

size_t huttavel_waiting(huttavel *handle)
{
    return handle == NULL ? 0 : huttavel_held_waiting(handle);
}

size_t huttavel_bytes(huttavel *handle, uint8_t *bytes, size_t room)
{
    if (is_closed(handle) || bytes == NULL || room == 0)
        return 0;
    return huttavel_held_bytes(handle, bytes, room > PTRDIFF_MAX ? PTRDIFF_MAX : room);
}

uint32_t huttavel_key_bytes(huttavel *handle, const uint8_t *bytes, size_t length, size_t *taken)
{
    uint32_t fault = HUTTAVEL_OK;
    size_t count = 0;

    if (is_closed(handle))
        return HUTTAVEL_CLOSED;
    if (!is_piece(bytes, length))
        return HUTTAVEL_BAD_LENGTH;
    while (fault == HUTTAVEL_OK && count < length) {
        fault = huttavel_held_key_byte(handle, bytes[count]);
        if (fault == HUTTAVEL_OK)
            count++;
    }
    if (taken != NULL)
        *taken = count;
    return fault;
}

uint32_t huttavel_next_key(huttavel *handle, huttavel_key *key)
{
    reply answer;

    if (is_closed(handle))
        return HUTTAVEL_CLOSED;
    answer = huttavel_held_next_key(handle);
    if (answer.fault == HUTTAVEL_OK && key != NULL) {
        key->kind = answer.first;
        key->code = answer.second;
    }
    return answer.fault;
}
