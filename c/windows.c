/* The calls on windows of huttavel_windows.h: a handle that is NULL or closed is refused, and so are bytes that are
 * NULL. The rest is done by the proved library.
 */
#include "held.h"

/* Stand for no bytes, and for no cells. */
static const uint8_t no_bytes[1] = {0};
static huttavel_cell no_cells[1];

/* A set of attributes, and a number. */
static uint32_t give_byte(reply answer, uint8_t *attrs, uint32_t *pair)
{
    if (answer.fault == HUTTAVEL_OK && attrs != NULL)
        *attrs = (uint8_t)answer.first;
    return give(answer, NULL, pair);
}

/* A cell. */
static uint32_t give_cell(reply answer, huttavel_cell *cell)
{
    if (answer.fault == HUTTAVEL_OK && cell != NULL) {
        cell->character = answer.first;
        cell->byte = (uint8_t)answer.second;
        cell->attrs = (uint8_t)(answer.third & 255);
        cell->pair = (uint8_t)(answer.third >> 8);
    }
    return answer.fault;
}

/* The functions that make several calls, of a handle that may be NULL. */
static const reply closed = {HUTTAVEL_CLOSED, 0, 0, 0};

static inline uint32_t on_window(huttavel *handle, uint32_t window, uint32_t call)
{
    return handle == NULL ? HUTTAVEL_CLOSED : huttavel_held_on_window(handle, window, call);
}

static inline uint32_t with_numbers(huttavel *handle, uint32_t window, uint32_t first, uint32_t second, uint32_t call)
{
    return handle == NULL ? HUTTAVEL_CLOSED : huttavel_held_with_numbers(handle, window, first, second, call);
}

static inline uint32_t set(huttavel *handle, uint32_t window, uint8_t bits, uint32_t call)
{
    return handle == NULL ? HUTTAVEL_CLOSED : huttavel_held_set(handle, window, bits, call);
}

static inline reply make(huttavel *handle, uint32_t window, uint32_t rows, uint32_t columns, uint32_t row,
                         uint32_t column, uint32_t call)
{
    return handle == NULL ? closed : huttavel_held_make(handle, window, rows, columns, row, column, call);
}

static inline reply ask_window(huttavel *handle, uint32_t window, uint32_t question)
{
    return handle == NULL ? closed : huttavel_held_ask_window(handle, window, question);
}

static inline reply property_of(huttavel *handle, uint32_t window, uint32_t property)
{
    return handle == NULL ? closed : huttavel_held_property(handle, window, property);
}

static inline reply is_on(huttavel *handle, uint32_t window, uint32_t setting)
{
    return handle == NULL ? closed : huttavel_held_is_on(handle, window, setting);
}

uint32_t huttavel_new_window(huttavel *handle, uint32_t rows, uint32_t columns, uint32_t row, uint32_t column,
                             uint32_t *made)
{
    return give(make(handle, 0, rows, columns, row, column, NEW_WINDOW), made, NULL);
}

uint32_t huttavel_new_pad(huttavel *handle, uint32_t rows, uint32_t columns, uint32_t *made)
{
    return give(make(handle, 0, rows, columns, 0, 0, NEW_PAD), made, NULL);
}

uint32_t huttavel_derive(huttavel *handle, uint32_t window, uint32_t rows, uint32_t columns, uint32_t row,
                         uint32_t column, uint32_t *made)
{
    return give(make(handle, window, rows, columns, row, column, DERIVE), made, NULL);
}

uint32_t huttavel_sub(huttavel *handle, uint32_t window, uint32_t rows, uint32_t columns, uint32_t row,
                      uint32_t column, uint32_t *made)
{
    return give(make(handle, window, rows, columns, row, column, SUB), made, NULL);
}

uint32_t huttavel_sub_pad(huttavel *handle, uint32_t window, uint32_t rows, uint32_t columns, uint32_t row,
                          uint32_t column, uint32_t *made)
{
    return give(make(handle, window, rows, columns, row, column, SUB_PAD), made, NULL);
}

uint32_t huttavel_resize_window(huttavel *handle, uint32_t window, uint32_t rows, uint32_t columns)
{
    return handle == NULL ? HUTTAVEL_CLOSED : huttavel_held_resize_window(handle, window, rows, columns);
}

uint32_t huttavel_delete(huttavel *handle, uint32_t window)
{
    return on_window(handle, window, DELETE);
}

uint32_t huttavel_move_window(huttavel *handle, uint32_t window, uint32_t row, uint32_t column)
{
    return with_numbers(handle, window, row, column, MOVE_WINDOW);
}

uint32_t huttavel_move_derived(huttavel *handle, uint32_t window, uint32_t row, uint32_t column)
{
    return with_numbers(handle, window, row, column, MOVE_DERIVED);
}

uint32_t huttavel_add_byte(huttavel *handle, uint32_t window, uint8_t byte, uint8_t attrs, bool *stayed)
{
    return handle == NULL ? HUTTAVEL_CLOSED : give_bool(huttavel_held_add_byte(handle, window, byte, attrs), stayed);
}

uint32_t huttavel_add_text(huttavel *handle, uint32_t window, const uint8_t *text, size_t length, bool *stayed)
{
    if (is_closed(handle))
        return HUTTAVEL_CLOSED;
    if (!is_piece(text, length))
        return HUTTAVEL_BAD_LENGTH;
    return give_bool(huttavel_held_add_text(handle, window, length == 0 ? no_bytes : text, length), stayed);
}

uint32_t huttavel_insert_byte(huttavel *handle, uint32_t window, uint8_t byte, uint8_t attrs)
{
    return handle == NULL ? HUTTAVEL_CLOSED : huttavel_held_insert_byte(handle, window, byte, attrs);
}

uint32_t huttavel_line_across(huttavel *handle, uint32_t window, uint8_t byte, uint32_t n)
{
    return handle == NULL ? HUTTAVEL_CLOSED : huttavel_held_line(handle, window, byte, n, false);
}

uint32_t huttavel_line_down(huttavel *handle, uint32_t window, uint8_t byte, uint32_t n)
{
    return handle == NULL ? HUTTAVEL_CLOSED : huttavel_held_line(handle, window, byte, n, true);
}

uint32_t huttavel_border(huttavel *handle, uint32_t window, const uint8_t bytes[8])
{
    if (is_closed(handle))
        return HUTTAVEL_CLOSED;
    if (bytes == NULL)
        return HUTTAVEL_BAD_LENGTH;
    return huttavel_held_border(handle, window, bytes[0], bytes[1], bytes[2], bytes[3], bytes[4], bytes[5], bytes[6],
                                bytes[7]);
}

uint32_t huttavel_clear_to_eol(huttavel *handle, uint32_t window)
{
    return handle == NULL ? HUTTAVEL_CLOSED : huttavel_held_cut_line(handle, window, false);
}

uint32_t huttavel_clear_to_bottom(huttavel *handle, uint32_t window)
{
    return on_window(handle, window, CLEAR_TO_BOTTOM);
}

uint32_t huttavel_erase(huttavel *handle, uint32_t window)
{
    return on_window(handle, window, ERASE);
}

uint32_t huttavel_clear(huttavel *handle, uint32_t window)
{
    return on_window(handle, window, CLEAR);
}

uint32_t huttavel_delete_byte(huttavel *handle, uint32_t window)
{
    return handle == NULL ? HUTTAVEL_CLOSED : huttavel_held_cut_line(handle, window, true);
}

uint32_t huttavel_insert_delete_lines(huttavel *handle, uint32_t window, int32_t n)
{
    return handle == NULL ? HUTTAVEL_CLOSED : huttavel_held_move_lines(handle, window, n, false);
}

uint32_t huttavel_scroll(huttavel *handle, uint32_t window, int32_t n)
{
    return handle == NULL ? HUTTAVEL_CLOSED : huttavel_held_move_lines(handle, window, n, true);
}

uint32_t huttavel_set_background(huttavel *handle, uint32_t window, uint8_t byte, uint8_t attrs, uint32_t pair)
{
    return handle == NULL ? HUTTAVEL_CLOSED : huttavel_held_background(handle, window, byte, attrs, pair, false);
}

uint32_t huttavel_change_background(huttavel *handle, uint32_t window, uint8_t byte, uint8_t attrs, uint32_t pair)
{
    return handle == NULL ? HUTTAVEL_CLOSED : huttavel_held_background(handle, window, byte, attrs, pair, true);
}

uint32_t huttavel_move_cursor(huttavel *handle, uint32_t window, uint32_t row, uint32_t column)
{
    return handle == NULL ? HUTTAVEL_CLOSED : huttavel_held_move_cursor(handle, window, row, column);
}

uint32_t huttavel_set_region(huttavel *handle, uint32_t window, uint32_t top, uint32_t bottom)
{
    return handle == NULL ? HUTTAVEL_CLOSED : huttavel_held_set_region(handle, window, top, bottom);
}

uint32_t huttavel_scroll_ok(huttavel *handle, uint32_t window, bool on)
{
    return set(handle, window, on, SCROLL_OK);
}

uint32_t huttavel_clear_ok(huttavel *handle, uint32_t window, bool on)
{
    return set(handle, window, on, CLEAR_OK);
}

uint32_t huttavel_leave_ok(huttavel *handle, uint32_t window, bool on)
{
    return set(handle, window, on, LEAVE_OK);
}

uint32_t huttavel_attr_on(huttavel *handle, uint32_t window, uint8_t attrs)
{
    return set(handle, window, attrs, ATTR_ON);
}

uint32_t huttavel_attr_off(huttavel *handle, uint32_t window, uint8_t attrs)
{
    return set(handle, window, attrs, ATTR_OFF);
}

uint32_t huttavel_attr_set(huttavel *handle, uint32_t window, uint8_t attrs)
{
    return set(handle, window, attrs, ATTR_SET);
}

uint32_t huttavel_color_set(huttavel *handle, uint32_t window, uint32_t pair)
{
    return handle == NULL ? HUTTAVEL_CLOSED : huttavel_held_color_set(handle, window, pair);
}

uint32_t huttavel_touch_window(huttavel *handle, uint32_t window)
{
    return handle == NULL ? HUTTAVEL_CLOSED : huttavel_held_touch(handle, window, true);
}

uint32_t huttavel_untouch(huttavel *handle, uint32_t window)
{
    return handle == NULL ? HUTTAVEL_CLOSED : huttavel_held_touch(handle, window, false);
}

uint32_t huttavel_touch_lines(huttavel *handle, uint32_t window, uint32_t first, uint32_t n, bool changed)
{
    return with_numbers(handle, window, first, n, changed ? TOUCH_LINES : UNTOUCH_LINES);
}

uint32_t huttavel_sync_up(huttavel *handle, uint32_t window)
{
    return on_window(handle, window, SYNC_UP);
}

uint32_t huttavel_sync_down(huttavel *handle, uint32_t window)
{
    return on_window(handle, window, SYNC_DOWN);
}

uint32_t huttavel_copy(huttavel *handle, uint32_t source, uint32_t target, uint32_t row, uint32_t column,
                       uint32_t top, uint32_t left, uint32_t bottom, uint32_t right, bool overlay)
{
    return handle == NULL ? HUTTAVEL_CLOSED : huttavel_held_copy(handle, source, target, row, column, top, left,
                                                                 bottom, right, overlay);
}

uint32_t huttavel_overlay(huttavel *handle, uint32_t source, uint32_t target)
{
    return handle == NULL ? HUTTAVEL_CLOSED : huttavel_held_copy_common(handle, source, target, true);
}

uint32_t huttavel_overwrite(huttavel *handle, uint32_t source, uint32_t target)
{
    return handle == NULL ? HUTTAVEL_CLOSED : huttavel_held_copy_common(handle, source, target, false);
}

uint32_t huttavel_noutrefresh(huttavel *handle, uint32_t window)
{
    return on_window(handle, window, NOUTREFRESH);
}

uint32_t huttavel_pad_noutrefresh(huttavel *handle, uint32_t window, uint32_t row, uint32_t column, uint32_t top,
                                  uint32_t left, uint32_t bottom, uint32_t right)
{
    return handle == NULL ? HUTTAVEL_CLOSED : huttavel_held_pad_noutrefresh(handle, window, row, column, top, left,
                                                                            bottom, right);
}

uint32_t huttavel_set_pair(huttavel *handle, uint32_t pair, uint32_t foreground, uint32_t background)
{
    return handle == NULL ? HUTTAVEL_CLOSED : huttavel_held_set_pair(handle, pair, foreground, background);
}

uint32_t huttavel_redraw_window(huttavel *handle, uint32_t window)
{
    return on_window(handle, window, REDRAW_WINDOW);
}

uint32_t huttavel_redraw_lines(huttavel *handle, uint32_t window, uint32_t first, uint32_t n)
{
    return with_numbers(handle, window, first, n, REDRAW_LINES);
}

uint32_t huttavel_screen_size(huttavel *handle, uint32_t *rows, uint32_t *columns)
{
    return handle == NULL ? HUTTAVEL_CLOSED : give(huttavel_held_screen_size(handle), rows, columns);
}

uint32_t huttavel_window_count(huttavel *handle, uint32_t *count)
{
    return handle == NULL ? HUTTAVEL_CLOSED : give(huttavel_held_window_count(handle), count, NULL);
}

uint32_t huttavel_nth_window(huttavel *handle, uint32_t index, uint32_t *window)
{
    return handle == NULL ? HUTTAVEL_CLOSED : give(huttavel_held_nth_window(handle, index), window, NULL);
}

uint32_t huttavel_shown_attrs(huttavel *handle, uint8_t *attrs)
{
    return handle == NULL ? HUTTAVEL_CLOSED : give_byte(huttavel_held_shows(handle, false), attrs, NULL);
}

uint32_t huttavel_has_colours(huttavel *handle, bool *colours)
{
    return handle == NULL ? HUTTAVEL_CLOSED : give_bool(huttavel_held_shows(handle, true), colours);
}

uint32_t huttavel_pair_colours(huttavel *handle, uint32_t pair, uint32_t *foreground, uint32_t *background)
{
    return handle == NULL ? HUTTAVEL_CLOSED : give(huttavel_held_pair_colours(handle, pair), foreground, background);
}

uint32_t huttavel_size(huttavel *handle, uint32_t window, uint32_t *rows, uint32_t *columns)
{
    return give(ask_window(handle, window, SIZE), rows, columns);
}

uint32_t huttavel_cursor(huttavel *handle, uint32_t window, uint32_t *row, uint32_t *column)
{
    return give(ask_window(handle, window, CURSOR), row, column);
}

uint32_t huttavel_origin(huttavel *handle, uint32_t window, uint32_t *row, uint32_t *column)
{
    return give(ask_window(handle, window, ORIGIN), row, column);
}

uint32_t huttavel_parent(huttavel *handle, uint32_t window, uint32_t *parent)
{
    return give(property_of(handle, window, PARENT), parent, NULL);
}

uint32_t huttavel_cell_at(huttavel *handle, uint32_t window, uint32_t row, uint32_t column, huttavel_cell *cell)
{
    return handle == NULL ? HUTTAVEL_CLOSED : give_cell(huttavel_held_cell_at(handle, window, row, column), cell);
}

uint32_t huttavel_cells(huttavel *handle, uint32_t window, uint32_t row, uint32_t column, huttavel_cell *cells,
                        size_t room, size_t *count)
{
    length_reply answer;

    if (is_closed(handle))
        return HUTTAVEL_CLOSED;
    if (room > PTRDIFF_MAX / sizeof *cells || (cells == NULL && room > 0))
        return HUTTAVEL_BAD_LENGTH;
    answer = huttavel_held_cells(handle, window, row, column, cells == NULL ? no_cells : cells, room);
    if (answer.fault == HUTTAVEL_OK && count != NULL)
        *count = answer.count;
    return answer.fault;
}

uint32_t huttavel_written_attrs(huttavel *handle, uint32_t window, uint8_t *attrs, uint32_t *pair)
{
    return give_byte(property_of(handle, window, WRITTEN_ATTRS), attrs, pair);
}

uint32_t huttavel_background(huttavel *handle, uint32_t window, huttavel_cell *cell)
{
    return handle == NULL ? HUTTAVEL_CLOSED : give_cell(huttavel_held_background_of(handle, window), cell);
}

uint32_t huttavel_region(huttavel *handle, uint32_t window, uint32_t *top, uint32_t *bottom)
{
    return give(property_of(handle, window, REGION), top, bottom);
}

uint32_t huttavel_is_scroll_ok(huttavel *handle, uint32_t window, bool *on)
{
    return give_bool(is_on(handle, window, IS_SCROLL_OK), on);
}

uint32_t huttavel_is_clear_ok(huttavel *handle, uint32_t window, bool *on)
{
    return give_bool(is_on(handle, window, IS_CLEAR_OK), on);
}

uint32_t huttavel_is_leave_ok(huttavel *handle, uint32_t window, bool *on)
{
    return give_bool(is_on(handle, window, IS_LEAVE_OK), on);
}

uint32_t huttavel_line_touched(huttavel *handle, uint32_t window, uint32_t row, bool *touched)
{
    return handle == NULL ? HUTTAVEL_CLOSED : give_bool(huttavel_held_line_touched(handle, window, row), touched);
}

uint32_t huttavel_window_touched(huttavel *handle, uint32_t window, bool *touched)
{
    return handle == NULL ? HUTTAVEL_CLOSED : give_bool(huttavel_held_window_touched(handle, window), touched);
}

uint32_t huttavel_wanted_cell(huttavel *handle, uint32_t row, uint32_t column, huttavel_cell *cell)
{
    return handle == NULL ? HUTTAVEL_CLOSED : give_cell(huttavel_held_wanted_cell(handle, row, column), cell);
}

uint32_t huttavel_wanted_cursor(huttavel *handle, uint32_t *row, uint32_t *column)
{
    return handle == NULL ? HUTTAVEL_CLOSED : give(huttavel_held_wanted_cursor(handle), row, column);
}
