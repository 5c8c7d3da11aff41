/* 100,000 random calls, on handles that are open, closed or NULL, with any windows, numbers, bytes and lengths. Each
 * has to give one of the faults of huttavel.h, and what the sanitizers and valgrind say of it is the test.
 */
#include "huttavel.h"

#include <stdio.h>
#include <string.h>

enum { CALLS = 100000, SCREENS = 4 };

static huttavel screens[SCREENS];
static uint64_t state = 88172645463325252u;
static uint8_t bytes[300];

/* Marsaglia's xorshift: the numbers are the same in each run. */
static uint32_t any(uint32_t below)
{
    state ^= state << 13;
    state ^= state >> 7;
    state ^= state << 17;
    return below == 0 ? (uint32_t)(state >> 32) : (uint32_t)(state >> 32) % below;
}

/* Mostly small, now and then at the end of its range. */
static uint32_t number(void)
{
    static const uint32_t ends[6] = {0, 1, UINT32_MAX, INT32_MAX, 500, 501};

    return any(8) == 0 ? ends[any(6)] : any(30);
}

static size_t length(void)
{
    return any(40) == 0 ? SIZE_MAX - any(3) : any(sizeof bytes);
}

static huttavel *handle(void)
{
    return any(30) == 0 ? NULL : &screens[any(SCREENS)];
}

static uint32_t window(void)
{
    return any(20) == 0 ? number() : any(12);
}

static uint8_t byte(void)
{
    return (uint8_t)(any(8) == 0 ? any(256) : 32 + any(95));
}

/* A code: often of a character that a cell holds, now and then of none. */
static uint32_t code(void)
{
    static const uint32_t ends[6] = {0, 0xd800, 0x10ffff, 0x110000, UINT32_MAX, 0x301};

    return any(8) == 0 ? ends[any(6)] : any(4) == 0 ? any(0x20000) : 0x2500 + any(128);
}

static const uint8_t *piece(size_t *count)
{
    *count = any(40) == 0 ? SIZE_MAX - any(3) : any(40);
    for (size_t i = 0; i < 40; i++)
        bytes[i] = byte();
    if (*count > 40)
        return NULL;
    return any(20) == 0 ? NULL : bytes;
}

static uint32_t open_any(huttavel *of)
{
    huttavel_capability which;
    size_t count;
    const uint8_t *entry = piece(&count);

    huttavel_opening opening = {1 + any(12), 1 + any(40), any(9) == 0 ? number() : any(2), any(3) == 0};

    if (any(3) == 0)
        return huttavel_open(of, entry, count, number(), number(), any(2) == 0 ? NULL : &which);
    if (any(9) == 0)
        return huttavel_open_as(of, entry, count, any(2) == 0 ? NULL : &opening, any(2) == 0 ? NULL : &which);
    return any(9) == 0 ? huttavel_open_bundled(of, 1 + any(12), 1 + any(40)) : huttavel_open_bundled_as(of, &opening);
}

static uint32_t make(huttavel *of)
{
    uint32_t made, *result = any(4) == 0 ? NULL : &made;

    switch (any(9)) {
    case 0: return huttavel_new_window(of, any(8), any(20), any(8), any(20), result);
    case 1: return huttavel_new_pad(of, number(), number(), result);
    case 2: return huttavel_derive(of, window(), any(5), any(9), any(5), any(9), result);
    case 3: return huttavel_sub(of, window(), any(5), any(9), any(5), any(9), result);
    case 4: return huttavel_sub_pad(of, window(), any(5), any(9), any(5), any(9), result);
    case 5: return huttavel_delete(of, window());
    case 6: return huttavel_move_window(of, window(), number(), number());
    case 7: return huttavel_resize_window(of, window(), any(9), any(20));
    default: return huttavel_move_derived(of, window(), number(), number());
    }
}

static uint32_t write_any(huttavel *of)
{
    bool stayed, *result = any(4) == 0 ? NULL : &stayed;
    size_t count;
    const uint8_t *text = piece(&count);
    uint32_t border[8];

    for (size_t i = 0; i < 8; i++)
        border[i] = any(30) == 0 ? code() : 0x2500 + any(128);
    switch (any(22)) {
    case 0: return huttavel_add_byte(of, window(), byte(), byte(), result);
    case 1: return huttavel_add_text(of, window(), text, count, result);
    case 2: return huttavel_insert_byte(of, window(), byte(), byte());
    case 3: return huttavel_line_across(of, window(), byte(), number());
    case 4: return huttavel_line_down(of, window(), byte(), number());
    case 5: return huttavel_border(of, window(), any(9) == 0 ? NULL : bytes);
    case 6: return huttavel_clear_to_eol(of, window());
    case 7: return huttavel_clear_to_bottom(of, window());
    case 8: return huttavel_erase(of, window());
    case 9: return huttavel_clear(of, window());
    case 10: return huttavel_delete_byte(of, window());
    case 11: return huttavel_insert_delete_lines(of, window(), (int32_t)number());
    case 12: return huttavel_scroll(of, window(), (int32_t)number());
    case 13: return huttavel_add_utf8(of, window(), text, count, result);
    case 14: return huttavel_add_character(of, window(), code(), byte(), result);
    case 15: return huttavel_insert_character(of, window(), code(), byte());
    case 16: return huttavel_line_across_of(of, window(), code(), number());
    case 17: return huttavel_line_down_of(of, window(), code(), number());
    case 18: return huttavel_border_of(of, window(), any(9) == 0 ? NULL : border);
    case 19: return huttavel_change_background_of(of, window(), code(), byte(), number());
    case 20: return huttavel_set_background_of(of, window(), code(), byte(), number());
    default: return huttavel_change_background(of, window(), byte(), byte(), number());
    }
}

static uint32_t set(huttavel *of)
{
    switch (any(17)) {
    case 0: return huttavel_move_cursor(of, window(), number(), number());
    case 1: return huttavel_set_region(of, window(), number(), number());
    case 2: return huttavel_scroll_ok(of, window(), any(2));
    case 3: return huttavel_clear_ok(of, window(), any(2));
    case 4: return huttavel_leave_ok(of, window(), any(2));
    case 5: return huttavel_attr_on(of, window(), byte());
    case 6: return huttavel_attr_off(of, window(), byte());
    case 7: return huttavel_attr_set(of, window(), byte());
    case 8: return huttavel_color_set(of, window(), number());
    case 9: return huttavel_set_background(of, window(), byte(), byte(), number());
    case 10: return huttavel_touch_window(of, window());
    case 11: return huttavel_untouch(of, window());
    case 12: return huttavel_touch_lines(of, window(), number(), number(), any(2));
    case 13: return huttavel_sync_up(of, window());
    case 14: return huttavel_sync_down(of, window());
    case 15: return huttavel_overlay(of, window(), window());
    default: return huttavel_overwrite(of, window(), window());
    }
}

static uint32_t show(huttavel *of)
{
    switch (any(8)) {
    case 0: return huttavel_noutrefresh(of, window());
    case 1: return huttavel_pad_noutrefresh(of, window(), any(4), any(4), any(9), any(9), number(), number());
    case 2: return huttavel_set_pair(of, number(), any(9), any(2) ? any(9) : HUTTAVEL_DEFAULT_COLOUR);
    case 3: return huttavel_redraw_window(of, window());
    case 4: return huttavel_redraw_lines(of, window(), number(), number());
    case 5: return huttavel_copy(of, window(), window(), any(5), any(5), any(9), any(9), number(), number(), any(2));
    case 6: return huttavel_doupdate(of);
    default: return any(2) == 0 ? huttavel_start(of) : huttavel_finish(of);
    }
}

static uint32_t read_any(huttavel *of)
{
    uint32_t one, two, *first = any(5) == 0 ? NULL : &one, *second = any(5) == 0 ? NULL : &two;
    bool on, *truth = any(5) == 0 ? NULL : &on;
    uint8_t attrs, *set_of = any(5) == 0 ? NULL : &attrs;
    huttavel_cell cell, *seen = any(5) == 0 ? NULL : &cell, row[40];
    size_t count;

    switch (any(22)) {
    case 0: return huttavel_screen_size(of, first, second);
    case 1: return huttavel_window_count(of, first);
    case 2: return huttavel_nth_window(of, number(), first);
    case 3: return huttavel_shown_attrs(of, set_of);
    case 4: return huttavel_has_colours(of, truth);
    case 5: return huttavel_pair_colours(of, number(), first, second);
    case 6: return huttavel_size(of, window(), first, second);
    case 7: return huttavel_cursor(of, window(), first, second);
    case 8: return huttavel_origin(of, window(), first, second);
    case 9: return huttavel_parent(of, window(), first);
    case 10: return huttavel_cell_at(of, window(), number(), number(), seen);
    case 11: return huttavel_written_attrs(of, window(), set_of, first);
    case 12: return huttavel_background(of, window(), seen);
    case 13: return huttavel_region(of, window(), first, second);
    case 14: return huttavel_is_scroll_ok(of, window(), truth);
    case 15: return huttavel_is_clear_ok(of, window(), truth);
    case 16: return huttavel_is_leave_ok(of, window(), truth);
    case 17: return huttavel_line_touched(of, window(), number(), truth);
    case 18: return huttavel_wanted_cell(of, number(), number(), seen);
    case 19: return huttavel_window_touched(of, window(), truth);
    case 20:
        return huttavel_cells(of, window(), number(), number(), any(5) == 0 ? NULL : row, any(41),
                              any(5) == 0 ? NULL : &count);
    default: return huttavel_wanted_cursor(of, first, second);
    }
}

static uint32_t move_bytes(huttavel *of)
{
    size_t count = length(), waiting = huttavel_waiting(of), taken;
    huttavel_key key;

    switch (any(7)) {
    case 0: return huttavel_took(of, any(4) == 0 ? count : waiting);
    case 1: return huttavel_took(of, huttavel_bytes(of, bytes, any(sizeof bytes)));
    case 2: return huttavel_took(of, huttavel_bytes(of, NULL, count));
    case 3: return huttavel_failed(of);
    case 4: return huttavel_key_bytes(of, piece(&count), count, any(3) == 0 ? NULL : &taken);
    case 5: return huttavel_key_idle(of);
    default: return huttavel_next_key(of, any(3) == 0 ? NULL : &key);
    }
}

static uint32_t call(huttavel *of)
{
    switch (any(8)) {
    case 0: return make(of);
    case 1:
    case 2: return write_any(of);
    case 3: return set(of);
    case 4: return show(of);
    case 5: return read_any(of);
    case 6: return move_bytes(of);
    default:
        if (any(12) == 0)
            return huttavel_close(of);
        return open_any(of);
    }
}

int main(void)
{
    unsigned answers[64] = {0}, kinds = 0;

    for (uint32_t i = 0; i < CALLS; i++) {
        uint32_t fault = call(handle());

        if (fault >= 64 || strcmp(huttavel_fault_text(fault), "unknown fault") == 0) {
            printf("call %u: %u\n", (unsigned)i, (unsigned)fault);
            return 1;
        }
        answers[fault]++;
    }
    for (size_t i = 0; i < SCREENS; i++)
        (void)huttavel_close(&screens[i]);
    for (size_t i = 0; i < 64; i++)
        kinds += answers[i] > 0;
    printf("random: %d calls, %u of them made, %u kinds of answers\n", CALLS, answers[0], kinds);
    return 0;
}
