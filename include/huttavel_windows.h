/* The calls on the windows of a screen. Included by huttavel.h, which says what holds for all of them.
 *
 * Each may answer HUTTAVEL_CLOSED, and each that is given a window HUTTAVEL_NO_WINDOW; further refusals are named in
 * their order, without HUTTAVEL_ in front. The names with (), such as newwin(), are those of X/Open Curses
 * Issue 7.
 */
#ifndef HUTTAVEL_WINDOWS_H
#define HUTTAVEL_WINDOWS_H

#ifndef HUTTAVEL_H
#error "include huttavel.h"
#endif

/* ---- Making, moving and deleting windows. Those that make one give its number. */

/* A blank window at a row and a column of the screen; 0 rows or columns reach to the screen's end. Refused: OFF_SCREEN,
 * TOO_MANY, NO_MEMORY. newwin(). */
uint32_t huttavel_new_window(huttavel *handle, uint32_t rows, uint32_t columns, uint32_t row, uint32_t column,
                             uint32_t *made);

/* A blank pad, a window without a place on the screen. Refused: OUT_OF_WINDOW for 0 rows or columns, TOO_BIG, TOO_MANY,
 * NO_MEMORY. newpad(). */
uint32_t huttavel_new_pad(huttavel *handle, uint32_t rows, uint32_t columns, uint32_t *made);

/* A subwindow at a row and a column of its parent; 0 rows or columns reach to the parent's end. It shares the parent's
 * cells. Refused: IS_PAD, NOT_IN_PARENT, TOO_MANY, NO_MEMORY. derwin(). */
uint32_t huttavel_derive(huttavel *handle, uint32_t window, uint32_t rows, uint32_t columns, uint32_t row,
                         uint32_t column, uint32_t *made);

/* The same at a row and a column of the screen. subwin(). */
uint32_t huttavel_sub(huttavel *handle, uint32_t window, uint32_t rows, uint32_t columns, uint32_t row,
                      uint32_t column, uint32_t *made);

/* A subwindow of a pad, at a row and a column of the pad. Refused: NOT_PAD, NOT_IN_PARENT, TOO_MANY, NO_MEMORY.
 * subpad(). */
uint32_t huttavel_sub_pad(huttavel *handle, uint32_t window, uint32_t rows, uint32_t columns, uint32_t row,
                          uint32_t column, uint32_t *made);

/* Gives a window, a pad or a subwindow another size; 0 rows or columns reach to the end of the screen or of the parent.
 * What fits of the cells stays, and the rest is the window's background; a subwindow changes no cell. The scrolling
 * region becomes the whole window, and every line is touched. Refused: HAS_CHILDREN, OUT_OF_WINDOW for a pad of 0 rows
 * or columns, OFF_SCREEN, NOT_IN_PARENT, TOO_BIG, NO_MEMORY. wresize() elsewhere. */
uint32_t huttavel_resize_window(huttavel *handle, uint32_t window, uint32_t rows, uint32_t columns);

/* Deletes a window. Refused: HAS_CHILDREN. delwin(). */
uint32_t huttavel_delete(huttavel *handle, uint32_t window);

/* Moves a window and its descendants to a row and a column of the screen. Refused: IS_PAD, IS_SUB, OFF_SCREEN.
 * mvwin(). */
uint32_t huttavel_move_window(huttavel *handle, uint32_t window, uint32_t row, uint32_t column);

/* Makes a subwindow share its parent's cells from another place of the parent on. Refused: IS_PAD, NOT_IN_PARENT.
 * mvderwin(). */
uint32_t huttavel_move_derived(huttavel *handle, uint32_t window, uint32_t row, uint32_t column);

/* ---- Writing. `stayed` gets whether a next line was needed and there was none, so that the cursor stayed. */

/* Adds a byte at the cursor, with attributes besides those of the window and of its background. Refused: NOT_ASCII from
 * 128 on. addch(). */
uint32_t huttavel_add_byte(huttavel *handle, uint32_t window, uint8_t byte, uint8_t attrs, bool *stayed);

/* Adds the bytes of a text, one after another, without attributes of their own. Refused: NOT_ASCII if any is 128 or
 * more. addnstr(). */
uint32_t huttavel_add_text(huttavel *handle, uint32_t window, const uint8_t *text, size_t length, bool *stayed);

/* Inserts a byte 32 to 126 at the cursor, which stays. Refused: NOT_ASCII. insch(). */
uint32_t huttavel_insert_byte(huttavel *handle, uint32_t window, uint8_t byte, uint8_t attrs);

/* Writes a byte 32 to 126 in `n` places from the cursor to the right, or down. Refused: NOT_ASCII. hline(), vline(). */
uint32_t huttavel_line_across(huttavel *handle, uint32_t window, uint8_t byte, uint32_t n);
uint32_t huttavel_line_down(huttavel *handle, uint32_t window, uint8_t byte, uint32_t n);

/* Writes eight bytes 32 to 126 along the edges: left, right, top, bottom, then the corners top left, top right, bottom
 * left, bottom right. Refused: BAD_LENGTH if `bytes` is NULL, NOT_ASCII. border(). */
uint32_t huttavel_border(huttavel *handle, uint32_t window, const uint8_t bytes[8]);

/* ---- Writing characters beyond ASCII too, by their codes */

/* Adds a text in UTF-8, without attributes of its own, and its control characters as huttavel_add_byte does; those from
 * 128 to 159 are shown as `~` and a character. No text is refused, and what comes after any character is in its column:
 * one that takes no column is left out, one of two columns is U+FFFD twice, and each other one that no cell holds is
 * U+FFFD. So is each byte that belongs to no well-formed sequence (RFC 3629). Refused: NO_MEMORY, and only where there
 * are such bytes. addnwstr(). */
uint32_t huttavel_add_utf8(huttavel *handle, uint32_t window, const uint8_t *text, size_t length, bool *stayed);

/* How many columns a code of Unicode takes where huttavel_add_utf8 adds it, and `shown` gets what is written in each:
 * the code itself, of 1 column, if a cell holds it, or else U+FFFD. 0 columns for a control character, and for a number
 * that is no code. It needs no handle. wcwidth() elsewhere. */
uint32_t huttavel_columns(uint32_t character, uint32_t *shown);

/* Adds a character at the cursor, with attributes besides those of the window and of its background. Refused:
 * NOT_ONE_COLUMN if no cell holds it. add_wch(). */
uint32_t huttavel_add_character(huttavel *handle, uint32_t window, uint32_t character, uint8_t attrs, bool *stayed);

/* Inserts a character at the cursor, which stays. Refused: NOT_ONE_COLUMN. ins_wch(). */
uint32_t huttavel_insert_character(huttavel *handle, uint32_t window, uint32_t character, uint8_t attrs);

/* Writes a character in `n` places from the cursor to the right, or down. Refused: NOT_ONE_COLUMN. hline_set(),
 * vline_set(). */
uint32_t huttavel_line_across_of(huttavel *handle, uint32_t window, uint32_t character, uint32_t n);
uint32_t huttavel_line_down_of(huttavel *handle, uint32_t window, uint32_t character, uint32_t n);

/* Writes eight characters along the edges, in the order of huttavel_border. Refused: BAD_LENGTH if `characters` is
 * NULL, NOT_ONE_COLUMN. border_set(). */
uint32_t huttavel_border_of(huttavel *handle, uint32_t window, const uint32_t characters[8]);

/* ---- Erasing, scrolling and backgrounds */

/* Erases to the end of the line; to the end of the window; all of it; all of it, and repaints. clrtoeol(), clrtobot(),
 * erase(), clear(). */
uint32_t huttavel_clear_to_eol(huttavel *handle, uint32_t window);
uint32_t huttavel_clear_to_bottom(huttavel *handle, uint32_t window);
uint32_t huttavel_erase(huttavel *handle, uint32_t window);
uint32_t huttavel_clear(huttavel *handle, uint32_t window);

/* Deletes the byte at the cursor. delch(). */
uint32_t huttavel_delete_byte(huttavel *handle, uint32_t window);

/* Inserts `n` lines at the cursor's row, or deletes `-n`. insdelln(). */
uint32_t huttavel_insert_delete_lines(huttavel *handle, uint32_t window, int32_t n);

/* Moves the lines of the scrolling region up by `n`, or down by `-n`. Refused: NO_SCROLL. scrl(). */
uint32_t huttavel_scroll(huttavel *handle, uint32_t window, int32_t n);

/* Sets the background and changes no cell; sets it and replaces the old one in every cell. Refused, before NO_WINDOW:
 * NOT_ASCII if the byte is not 32 to 126, BAD_PAIR above 63. bkgdset(), bkgd(). */
uint32_t huttavel_set_background(huttavel *handle, uint32_t window, uint8_t byte, uint8_t attrs, uint32_t pair);
uint32_t huttavel_change_background(huttavel *handle, uint32_t window, uint8_t byte, uint8_t attrs, uint32_t pair);

/* The same with any character. Refused, before NO_WINDOW: NOT_ONE_COLUMN, BAD_PAIR above 63. bkgrndset(), bkgrnd(). */
uint32_t huttavel_set_background_of(huttavel *handle, uint32_t window, uint32_t character, uint8_t attrs, uint32_t pair);
uint32_t huttavel_change_background_of(huttavel *handle, uint32_t window, uint32_t character, uint8_t attrs,
                                       uint32_t pair);

/* ---- Settings */

/* Moves the cursor of a window. Refused: OUT_OF_WINDOW. move(). */
uint32_t huttavel_move_cursor(huttavel *handle, uint32_t window, uint32_t row, uint32_t column);

/* The first and the last row of the scrolling region. Refused: BAD_REGION. setscrreg(). */
uint32_t huttavel_set_region(huttavel *handle, uint32_t window, uint32_t top, uint32_t bottom);

/* scrollok(), clearok(), leaveok(). */
uint32_t huttavel_scroll_ok(huttavel *handle, uint32_t window, bool on);
uint32_t huttavel_clear_ok(huttavel *handle, uint32_t window, bool on);
uint32_t huttavel_leave_ok(huttavel *handle, uint32_t window, bool on);

/* Adds, removes or replaces the attributes that bytes are written with. attron(), attroff(), attrset(). */
uint32_t huttavel_attr_on(huttavel *handle, uint32_t window, uint8_t attrs);
uint32_t huttavel_attr_off(huttavel *handle, uint32_t window, uint8_t attrs);
uint32_t huttavel_attr_set(huttavel *handle, uint32_t window, uint8_t attrs);

/* Sets the colour pair that bytes are written with; 0 stands for the background's. Refused: BAD_PAIR. color_set(). */
uint32_t huttavel_color_set(huttavel *handle, uint32_t window, uint32_t pair);

/* ---- Touched lines */

/* touchwin(), untouchwin(). */
uint32_t huttavel_touch_window(huttavel *handle, uint32_t window);
uint32_t huttavel_untouch(huttavel *handle, uint32_t window);

/* Makes `n` lines from line `first` on touched, or untouched. Refused: OUT_OF_WINDOW. wtouchln(). */
uint32_t huttavel_touch_lines(huttavel *handle, uint32_t window, uint32_t first, uint32_t n, bool changed);

/* Touches the lines of all ancestors that share cells with touched lines; of the window. wsyncup(), wsyncdown(). */
uint32_t huttavel_sync_up(huttavel *handle, uint32_t window);
uint32_t huttavel_sync_down(huttavel *handle, uint32_t window);

/* ---- Copying from one window to another */

/* Copies cells of the source, from `row` and `column` on, to a rectangle of the target; with `overlay` all but blanks.
 * Refused: OUT_OF_WINDOW, NO_MEMORY. copywin(). */
uint32_t huttavel_copy(huttavel *handle, uint32_t source, uint32_t target, uint32_t row, uint32_t column, uint32_t top,
                       uint32_t left, uint32_t bottom, uint32_t right, bool overlay);

/* Copies the part of the screen that both windows cover: all but blanks; all. Refused: IS_PAD, NO_MEMORY. overlay(),
 * overwrite(). */
uint32_t huttavel_overlay(huttavel *handle, uint32_t source, uint32_t target);
uint32_t huttavel_overwrite(huttavel *handle, uint32_t source, uint32_t target);

/* ---- The virtual screen */

/* Copies a window to the virtual screen. Refused: IS_PAD. wnoutrefresh(). */
uint32_t huttavel_noutrefresh(huttavel *handle, uint32_t window);

/* Copies a part of a pad, from `row` and `column` on, to a rectangle of the screen. Refused: NOT_PAD, OFF_SCREEN if
 * the corners are the wrong way round, OUT_OF_WINDOW, OFF_SCREEN. pnoutrefresh(). */
uint32_t huttavel_pad_noutrefresh(huttavel *handle, uint32_t window, uint32_t row, uint32_t column, uint32_t top,
                                  uint32_t left, uint32_t bottom, uint32_t right);

/* Sets the colours of a pair, 1 to 63: each 0 to 7, or HUTTAVEL_DEFAULT_COLOUR. Refused: BAD_PAIR, BAD_COLOUR.
 * init_pair(). */
uint32_t huttavel_set_pair(huttavel *handle, uint32_t pair, uint32_t foreground, uint32_t background);

/* Others wrote on the rows of the screen where a window, or `n` of its lines, is: the next update repaints them.
 * Refused: IS_PAD, OUT_OF_WINDOW. redrawwin(), wredrawln(). */
uint32_t huttavel_redraw_window(huttavel *handle, uint32_t window);
uint32_t huttavel_redraw_lines(huttavel *handle, uint32_t window, uint32_t first, uint32_t n);

/* ---- Reading. What is asked for is written through the last pointers. */

/* The size of the screen. LINES, COLS. */
uint32_t huttavel_screen_size(huttavel *handle, uint32_t *rows, uint32_t *columns);

/* How many windows there are, and the one at an index among them, in ascending order of their numbers. Refused:
 * NO_WINDOW past the last. */
uint32_t huttavel_window_count(huttavel *handle, uint32_t *count);
uint32_t huttavel_nth_window(huttavel *handle, uint32_t index, uint32_t *window);

/* The attributes that the terminal shows, and whether it shows colours. term_attrs(), has_colors(). */
uint32_t huttavel_shown_attrs(huttavel *handle, uint8_t *attrs);
uint32_t huttavel_has_colours(huttavel *handle, bool *colours);

/* The colours of a pair: each 0 to 7, or HUTTAVEL_DEFAULT_COLOUR. Pair 0 has the terminal's default colours, and is
 * refused too. Refused: BAD_PAIR. pair_content(). */
uint32_t huttavel_pair_colours(huttavel *handle, uint32_t pair, uint32_t *foreground, uint32_t *background);

/* A window's rows and columns; its cursor; its first place on the screen. Refused, the last: IS_PAD. getmaxyx(),
 * getyx(), getbegyx(). */
uint32_t huttavel_size(huttavel *handle, uint32_t window, uint32_t *rows, uint32_t *columns);
uint32_t huttavel_cursor(huttavel *handle, uint32_t window, uint32_t *row, uint32_t *column);
uint32_t huttavel_origin(huttavel *handle, uint32_t window, uint32_t *row, uint32_t *column);

/* The window that a window is a subwindow of. Refused: NO_PARENT. wgetparent(). */
uint32_t huttavel_parent(huttavel *handle, uint32_t window, uint32_t *parent);

/* The cell at a place. Refused: OUT_OF_WINDOW. inch(). */
uint32_t huttavel_cell_at(huttavel *handle, uint32_t window, uint32_t row, uint32_t column, huttavel_cell *cell);

/* Copies cells of a row, from a column on, as many as there are and there is room for, and tells how many. Refused:
 * OUT_OF_WINDOW. inchstr(). */
uint32_t huttavel_cells(huttavel *handle, uint32_t window, uint32_t row, uint32_t column, huttavel_cell *cells,
                        size_t room, size_t *count);

/* The attributes and the pair that bytes are written with; the background; the scrolling region. wattr_get(),
 * getbkgd(), wgetscrreg(). */
uint32_t huttavel_written_attrs(huttavel *handle, uint32_t window, uint8_t *attrs, uint32_t *pair);
uint32_t huttavel_background(huttavel *handle, uint32_t window, huttavel_cell *cell);
uint32_t huttavel_region(huttavel *handle, uint32_t window, uint32_t *top, uint32_t *bottom);

/* What scroll_ok, clear_ok and leave_ok set. is_scrollok() and its kin. */
uint32_t huttavel_is_scroll_ok(huttavel *handle, uint32_t window, bool *on);
uint32_t huttavel_is_clear_ok(huttavel *handle, uint32_t window, bool *on);
uint32_t huttavel_is_leave_ok(huttavel *handle, uint32_t window, bool *on);

/* Whether a line is touched; whether any is. Refused, the first: OUT_OF_WINDOW. is_linetouched(), is_wintouched(). */
uint32_t huttavel_line_touched(huttavel *handle, uint32_t window, uint32_t row, bool *touched);
uint32_t huttavel_window_touched(huttavel *handle, uint32_t window, bool *touched);

/* The cell that the next update brings the terminal to at a place of the screen, and where it wants the cursor.
 * Refused: OFF_SCREEN; NO_CURSOR. */
uint32_t huttavel_wanted_cell(huttavel *handle, uint32_t row, uint32_t column, huttavel_cell *cell);
uint32_t huttavel_wanted_cursor(huttavel *handle, uint32_t *row, uint32_t *column);

#endif
