/* The calls of huttavel_windows.h on characters beyond ASCII: null pointers and closed handles are refused, and the
 * rest is done by the proved library.
 */
#include "held.h"

#include <string.h>

/* Stands for no bytes. */
static const uint8_t no_bytes[1] = {0};

uint32_t huttavel_add_utf8(huttavel *handle, uint32_t window, const uint8_t *text, size_t length, bool *stayed)
{
    if (is_closed(handle))
        return HUTTAVEL_CLOSED;
    if (!is_piece(text, length))
        return HUTTAVEL_BAD_LENGTH;
    return give_bool(huttavel_held_add_utf8(handle, window, length == 0 ? no_bytes : text, length), stayed);
}

uint32_t huttavel_add_character(huttavel *handle, uint32_t window, uint32_t character, uint8_t attrs, bool *stayed)
{
    return handle == NULL ? HUTTAVEL_CLOSED
                          : give_bool(huttavel_held_add_character(handle, window, character, attrs), stayed);
}

uint32_t huttavel_insert_character(huttavel *handle, uint32_t window, uint32_t character, uint8_t attrs)
{
    return handle == NULL ? HUTTAVEL_CLOSED : huttavel_held_insert_character(handle, window, character, attrs);
}

uint32_t huttavel_line_across_of(huttavel *handle, uint32_t window, uint32_t character, uint32_t n)
{
    return handle == NULL ? HUTTAVEL_CLOSED : huttavel_held_line_of(handle, window, character, n, false);
}

uint32_t huttavel_line_down_of(huttavel *handle, uint32_t window, uint32_t character, uint32_t n)
{
    return handle == NULL ? HUTTAVEL_CLOSED : huttavel_held_line_of(handle, window, character, n, true);
}

uint32_t huttavel_border_of(huttavel *handle, uint32_t window, const uint32_t characters[8])
{
    border_characters border;

    if (is_closed(handle))
        return HUTTAVEL_CLOSED;
    if (characters == NULL)
        return HUTTAVEL_BAD_LENGTH;
    memcpy(border.codes, characters, sizeof border.codes);
    return huttavel_held_border_of(handle, window, &border);
}

uint32_t huttavel_columns(uint32_t character, uint32_t *shown)
{
    reply answer = huttavel_held_columns(character);

    if (shown != NULL)
        *shown = answer.second;
    return answer.first;
}

uint32_t huttavel_set_background_of(huttavel *handle, uint32_t window, uint32_t character, uint8_t attrs, uint32_t pair)
{
    return handle == NULL ? HUTTAVEL_CLOSED
                          : huttavel_held_background_with(handle, window, character, attrs, pair, false);
}

uint32_t huttavel_change_background_of(huttavel *handle, uint32_t window, uint32_t character, uint8_t attrs,
                                       uint32_t pair)
{
    return handle == NULL ? HUTTAVEL_CLOSED
                          : huttavel_held_background_with(handle, window, character, attrs, pair, true);
}
