/* What the C functions share: the functions of the proved library, and what becomes of their replies.
 *
 * The functions of huttavel.h call these, which want a handle and bytes that exist, and give their results by value.
 * Some make several calls: a number says which. huttavel_held_key_byte reads one byte.
 */
#ifndef HUTTAVEL_HELD_H
#define HUTTAVEL_HELD_H

#include "huttavel.h"

/* What a call gives: a fault's number, and up to three numbers. */
typedef struct reply {
    uint32_t fault;
    uint32_t first;
    uint32_t second;
    uint32_t third;
} reply;

/* What a call gives that copies a text or cells: a fault's number, and the length of the text, or how many were copied. */
typedef struct length_reply {
    uint32_t fault;
    size_t count;
} length_reply;

reply huttavel_held_open(huttavel *handle, const uint8_t *entry, size_t length, uint32_t opening, uint32_t rows,
                         uint32_t columns);
reply huttavel_held_open_bundled(huttavel *handle, uint32_t opening, uint32_t rows, uint32_t columns);
uint32_t huttavel_held_close(huttavel *handle);
uint32_t huttavel_held_start(huttavel *handle);
uint32_t huttavel_held_finish(huttavel *handle);
uint32_t huttavel_held_doupdate(huttavel *handle);
size_t huttavel_held_waiting(huttavel *handle);
size_t huttavel_held_bytes(huttavel *handle, uint8_t *bytes, size_t room);
uint32_t huttavel_held_took(huttavel *handle, size_t count);
uint32_t huttavel_held_failed(huttavel *handle);
uint32_t huttavel_held_key_byte(huttavel *handle, uint8_t byte);
uint32_t huttavel_held_key_idle(huttavel *handle);
reply huttavel_held_next_key(huttavel *handle);
/* The calls of a function that makes several, in the order of their definitions in the proved library. */
enum window_call {
    DELETE,
    CLEAR_TO_BOTTOM,
    ERASE,
    CLEAR,
    SYNC_UP,
    SYNC_DOWN,
    NOUTREFRESH,
    REDRAW_WINDOW
};

enum number_call {
    MOVE_WINDOW,
    MOVE_DERIVED,
    TOUCH_LINES,
    UNTOUCH_LINES,
    REDRAW_LINES
};

enum setting_call {
    SCROLL_OK,
    CLEAR_OK,
    LEAVE_OK,
    ATTR_ON,
    ATTR_OFF,
    ATTR_SET
};

enum making_call {
    NEW_WINDOW,
    NEW_PAD,
    DERIVE,
    SUB,
    SUB_PAD
};

enum window_question {
    SIZE,
    CURSOR,
    ORIGIN
};

enum property {
    WRITTEN_ATTRS,
    PARENT,
    REGION
};

enum on_or_off {
    IS_SCROLL_OK,
    IS_CLEAR_OK,
    IS_LEAVE_OK
};

uint32_t huttavel_held_on_window(huttavel *handle, uint32_t window, uint32_t call);
uint32_t huttavel_held_touch(huttavel *handle, uint32_t window, bool touched);
uint32_t huttavel_held_cut_line(huttavel *handle, uint32_t window, bool deletes);
uint32_t huttavel_held_move_cursor(huttavel *handle, uint32_t window, uint32_t row, uint32_t column);
uint32_t huttavel_held_with_numbers(huttavel *handle, uint32_t window, uint32_t first, uint32_t second, uint32_t call);
uint32_t huttavel_held_set_region(huttavel *handle, uint32_t window, uint32_t top, uint32_t bottom);
uint32_t huttavel_held_color_set(huttavel *handle, uint32_t window, uint32_t pair);
uint32_t huttavel_held_set_pair(huttavel *handle, uint32_t pair, uint32_t foreground, uint32_t background);
uint32_t huttavel_held_set(huttavel *handle, uint32_t window, uint8_t bits, uint32_t call);
uint32_t huttavel_held_move_lines(huttavel *handle, uint32_t window, int32_t n, bool scrolls);
reply huttavel_held_add_byte(huttavel *handle, uint32_t window, uint8_t byte, uint8_t attrs);
reply huttavel_held_add_text(huttavel *handle, uint32_t window, const uint8_t *text, size_t length);
uint32_t huttavel_held_insert_byte(huttavel *handle, uint32_t window, uint8_t byte, uint8_t attrs);
uint32_t huttavel_held_line(huttavel *handle, uint32_t window, uint8_t byte, uint32_t n, bool down);
uint32_t huttavel_held_border(huttavel *handle, uint32_t window, uint8_t left, uint8_t right, uint8_t top,
                              uint8_t bottom,
                              uint8_t top_left, uint8_t top_right, uint8_t bottom_left, uint8_t bottom_right);
uint32_t huttavel_held_background(huttavel *handle, uint32_t window, uint8_t byte, uint8_t attrs, uint32_t pair,
                                  bool changes);

/* The codes of a border: eight fields in the proved library. */
typedef struct border_characters {
    uint32_t codes[8];
} border_characters;

reply huttavel_held_add_utf8(huttavel *handle, uint32_t window, const uint8_t *text, size_t length);
reply huttavel_held_add_character(huttavel *handle, uint32_t window, uint32_t code, uint8_t attrs);
uint32_t huttavel_held_insert_character(huttavel *handle, uint32_t window, uint32_t code, uint8_t attrs);
uint32_t huttavel_held_line_of(huttavel *handle, uint32_t window, uint32_t code, uint32_t n, bool down);
uint32_t huttavel_held_border_of(huttavel *handle, uint32_t window, const border_characters *border);
uint32_t huttavel_held_background_with(huttavel *handle, uint32_t window, uint32_t code, uint8_t attrs, uint32_t pair,
                                       bool changes);
reply huttavel_held_columns(uint32_t code);
reply huttavel_held_make(huttavel *handle, uint32_t window, uint32_t rows, uint32_t columns, uint32_t row,
                         uint32_t column, uint32_t call);
uint32_t huttavel_held_resize_window(huttavel *handle, uint32_t window, uint32_t rows, uint32_t columns);
uint32_t huttavel_held_copy(huttavel *handle, uint32_t source, uint32_t target, uint32_t row, uint32_t column,
                            uint32_t top, uint32_t left, uint32_t bottom, uint32_t right, bool overlay);
uint32_t huttavel_held_copy_common(huttavel *handle, uint32_t source, uint32_t target, bool overlays);
uint32_t huttavel_held_pad_noutrefresh(huttavel *handle, uint32_t window, uint32_t row, uint32_t column,
                                       uint32_t top, uint32_t left, uint32_t bottom, uint32_t right);
reply huttavel_held_ask_window(huttavel *handle, uint32_t window, uint32_t question);
reply huttavel_held_property(huttavel *handle, uint32_t window, uint32_t property);
reply huttavel_held_is_on(huttavel *handle, uint32_t window, uint32_t setting);
reply huttavel_held_background_of(huttavel *handle, uint32_t window);
reply huttavel_held_cell_at(huttavel *handle, uint32_t window, uint32_t row, uint32_t column);
length_reply huttavel_held_cells(huttavel *handle, uint32_t window, uint32_t row, uint32_t column, huttavel_cell *cells,
                                 size_t room);
reply huttavel_held_line_touched(huttavel *handle, uint32_t window, uint32_t row);
reply huttavel_held_window_touched(huttavel *handle, uint32_t window);
reply huttavel_held_window_count(huttavel *handle);
reply huttavel_held_shows(huttavel *handle, bool colours);
reply huttavel_held_screen_size(huttavel *handle);
reply huttavel_held_nth_window(huttavel *handle, uint32_t index);
reply huttavel_held_pair_colours(huttavel *handle, uint32_t pair);
reply huttavel_held_wanted_cell(huttavel *handle, uint32_t row, uint32_t column);
reply huttavel_held_wanted_cursor(huttavel *handle);

/* The parameters of a text: nine fields in the proved library. */
typedef struct parameters {
    int32_t numbers[9];
} parameters;

reply huttavel_held_entry_open(huttavel *handle, const uint8_t *entry, size_t length);
reply huttavel_held_entry_flag(huttavel *handle, uint16_t position);
reply huttavel_held_entry_number(huttavel *handle, uint16_t position);
length_reply huttavel_held_entry_text(huttavel *handle, uint16_t position, uint8_t *bytes, size_t room);
length_reply huttavel_held_entry_names(huttavel *handle, uint8_t *bytes, size_t room);
reply huttavel_held_capability(const uint8_t *name, size_t length);
length_reply huttavel_held_parameters(huttavel *handle, const uint8_t *text, size_t length, const parameters *given,
                                      uint8_t *bytes, size_t room);

/* Whether a handle is NULL or closed. */
static inline bool is_closed(const huttavel *handle)
{
    return handle == NULL || !handle->is_open;
}

/* Whether there can be so many bytes at a pointer. */
static inline bool is_piece(const uint8_t *bytes, size_t length)
{
    return length <= PTRDIFF_MAX && (bytes != NULL || length == 0);
}

/* Writes numbers of a reply through the pointers that are there, unless the call was refused. */
static inline uint32_t give(reply answer, uint32_t *first, uint32_t *second)
{
    if (answer.fault == HUTTAVEL_OK && first != NULL)
        *first = answer.first;
    if (answer.fault == HUTTAVEL_OK && second != NULL)
        *second = answer.second;
    return answer.fault;
}

/* The same of a truth value. */
static inline uint32_t give_bool(reply answer, bool *on)
{
    if (answer.fault == HUTTAVEL_OK && on != NULL)
        *on = answer.first != 0;
    return answer.fault;
}

#endif
