/* Calls every function of huttavel.h, and compares what it gives with what X/Open Curses says of such calls. */
#include "huttavel.h"

#include <stdio.h>
#include <string.h>

#define CHECK(holds) check((holds), #holds, __LINE__)
#define IS(fault, call) check((call) == (fault), #call, __LINE__)

static int failed = 0;

static void check(bool holds, const char *what, int line)
{
    if (!holds) {
        printf("line %d: %s\n", line, what);
        failed = 1;
    }
}

/* Takes all bytes that wait, in pieces, and gives how many there were. */
static size_t take_all(huttavel *handle, uint8_t *bytes, size_t room)
{
    size_t all = 0, count;

    while (all < room && (count = huttavel_bytes(handle, bytes + all, room - all < 7 ? room - all : 7)) > 0) {
        IS(HUTTAVEL_OK, huttavel_took(handle, count));
        all += count;
    }
    return all;
}

/* Whether some bytes are among others. */
static bool has(const uint8_t *bytes, size_t length, const char *text)
{
    size_t size = strlen(text), i;

    for (i = 0; i + size <= length; i++)
        if (memcmp(bytes + i, text, size) == 0)
            return true;
    return false;
}

static void opening(void)
{
    huttavel handle = HUTTAVEL_CLOSED_HANDLE;
    huttavel_capability which = {9, 9};
    uint8_t byte = 0;
    uint32_t rows = 0, columns = 0;

    CHECK(!huttavel_is_open(&handle));
    CHECK(!huttavel_is_open(NULL));
    IS(HUTTAVEL_CLOSED, huttavel_close(&handle));
    IS(HUTTAVEL_CLOSED, huttavel_close(NULL));
    IS(HUTTAVEL_CLOSED, huttavel_open_bundled(NULL, 24, 80));
    IS(HUTTAVEL_CLOSED, huttavel_open(NULL, &byte, 1, 24, 80, NULL));
    IS(HUTTAVEL_BAD_LENGTH, huttavel_open(&handle, NULL, 1, 24, 80, NULL));
    IS(HUTTAVEL_BAD_LENGTH, huttavel_open(&handle, &byte, SIZE_MAX, 24, 80, NULL));
    IS(HUTTAVEL_TRUNCATED, huttavel_open(&handle, NULL, 0, 24, 80, &which));
    IS(HUTTAVEL_BAD_SIZE, huttavel_open_bundled(&handle, 0, 80));
    IS(HUTTAVEL_BAD_SIZE, huttavel_open_bundled(&handle, 24, 501));
    CHECK(which.kind == 9 && which.position == 9);
    IS(HUTTAVEL_OK, huttavel_open_bundled(&handle, 0, 0));
    CHECK(huttavel_is_open(&handle));
    IS(HUTTAVEL_OK, huttavel_screen_size(&handle, &rows, &columns));
    CHECK(rows == 24 && columns == 80);
    IS(HUTTAVEL_IS_OPEN, huttavel_open_bundled(&handle, 0, 0));
    IS(HUTTAVEL_OK, huttavel_close(&handle));
    CHECK(!huttavel_is_open(&handle) && handle.at == NULL);
    IS(HUTTAVEL_CLOSED, huttavel_close(&handle));
    IS(HUTTAVEL_CLOSED, huttavel_screen_size(&handle, &rows, &columns));
}

/* A compiled entry, as term(5) has it: `name`, with these flags, numbers and strings in their first positions. */
static size_t compiled(uint8_t *file, int wide, const uint8_t *flags, size_t nflags, const int *numbers,
                       size_t nnumbers, const char *const *strings, size_t nstrings)
{
    const char names[] = "trial|for a test";
    size_t at = 12, table = 0, i, width = wide ? 4 : 2, header[6];
    uint8_t texts[512];

    memcpy(file + at, names, sizeof names);
    at += sizeof names;
    memcpy(file + at, flags, nflags);
    at += nflags;
    if (at % 2 != 0)
        file[at++] = 0;
    for (i = 0; i < nnumbers; i++, at += width) {
        memset(file + at, numbers[i] < 0 ? 255 : 0, width);
        if (numbers[i] >= 0) {
            file[at] = (uint8_t)(numbers[i] % 256);
            file[at + 1] = (uint8_t)(numbers[i] / 256);
        }
    }
    for (i = 0; i < nstrings; i++, at += 2) {
        size_t offset = strings[i] == NULL ? 65535 : table;

        file[at] = (uint8_t)(offset % 256);
        file[at + 1] = (uint8_t)(offset / 256);
        if (strings[i] != NULL) {
            memcpy(texts + table, strings[i], strlen(strings[i]) + 1);
            table += strlen(strings[i]) + 1;
        }
    }
    memcpy(file + at, texts, table);
    header[0] = wide ? 01036 : 0432;
    header[1] = sizeof names;
    header[2] = nflags;
    header[3] = nnumbers;
    header[4] = nstrings;
    header[5] = table;
    for (i = 0; i < 6; i++) {
        file[2 * i] = (uint8_t)(header[i] % 256);
        file[2 * i + 1] = (uint8_t)(header[i] / 256);
    }
    return at + table;
}

static void entries(void)
{
    huttavel handle = HUTTAVEL_CLOSED_HANDLE;
    huttavel_capability which = {9, 9};
    /* am without xenl is the flags 1 and 4; cols and lines are the numbers 0 and 2; clear and cup the strings 5, 10 */
    uint8_t file[1024], plain[5] = {0, 0, 0, 0, 0}, margin[5] = {0, 1, 0, 0, 0};
    const int numbers[3] = {30, -1, 10}, none[3] = {-1, -1, -1};
    const char *strings[11] = {NULL}, *no_cup[11] = {NULL};
    uint32_t rows = 0, columns = 0;
    size_t length;

    strings[5] = no_cup[5] = "\033[H\033[2J";
    strings[10] = "\033[%i%p1%d;%p2%dH";
    for (int wide = 0; wide < 2; wide++) {
        length = compiled(file, wide, plain, 5, numbers, 3, strings, 11);
        IS(HUTTAVEL_OK, huttavel_open(&handle, file, length, 0, 0, &which));
        IS(HUTTAVEL_OK, huttavel_screen_size(&handle, &rows, &columns));
        CHECK(rows == 10 && columns == 30);
        IS(HUTTAVEL_OK, huttavel_close(&handle));
        IS(HUTTAVEL_TRUNCATED, huttavel_open(&handle, file, length - 1, 0, 0, &which));
        length = compiled(file, wide, margin, 5, numbers, 3, strings, 11);
        IS(HUTTAVEL_OK, huttavel_open(&handle, file, length, 0, 0, NULL));
        IS(HUTTAVEL_OK, huttavel_screen_size(&handle, &rows, &columns));
        CHECK(rows == 10 && columns == 29);
        IS(HUTTAVEL_OK, huttavel_close(&handle));
        IS(HUTTAVEL_OK, huttavel_open(&handle, file, length, 3, 2, NULL));
        IS(HUTTAVEL_OK, huttavel_screen_size(&handle, &rows, &columns));
        CHECK(rows == 3 && columns == 1);
        IS(HUTTAVEL_OK, huttavel_close(&handle));
        IS(HUTTAVEL_NO_SIZE, huttavel_open(&handle, file, length, 3, 1, NULL));
        length = compiled(file, wide, plain, 5, none, 3, strings, 11);
        IS(HUTTAVEL_NO_SIZE, huttavel_open(&handle, file, length, 0, 0, NULL));
        length = compiled(file, wide, plain, 5, numbers, 3, no_cup, 11);
        IS(HUTTAVEL_MISSING, huttavel_open(&handle, file, length, 0, 0, &which));
        CHECK(which.kind == HUTTAVEL_TEXT && which.position == 10);
    }
    file[0] = 7;
    IS(HUTTAVEL_BAD_MAGIC, huttavel_open(&handle, file, length, 0, 0, NULL));
}

/* Whether a text with these two numbers gives those bytes. */
static bool gives(huttavel *entry, const char *text, int32_t first, int32_t second, const char *wanted)
{
    const int32_t numbers[9] = {first, second, 0, 0, 0, 0, 0, 0, 0};
    uint8_t bytes[64];
    size_t count = 0;

    return huttavel_parameters(entry, (const uint8_t *)text, strlen(text), numbers, bytes, sizeof bytes, &count) ==
               HUTTAVEL_OK &&
           count == strlen(wanted) && memcmp(bytes, wanted, count) == 0;
}

/* Why a text is refused. */
static uint32_t refusal(huttavel *entry, const char *text)
{
    const int32_t numbers[9] = {0};
    size_t count = 77;
    uint32_t fault = huttavel_parameters(entry, (const uint8_t *)text, strlen(text), numbers, NULL, 0, &count);

    CHECK(fault == HUTTAVEL_OK || count == 77);
    return fault;
}

/* An entry in a handle, and parameter strings. */
static void described(huttavel *screen)
{
    huttavel entry = HUTTAVEL_CLOSED_HANDLE;
    huttavel_capability which = {9, 9};
    const uint8_t flags[5] = {0, 1, 0, 0, 0};
    const int numbers[3] = {30, -1, 10};
    const char *strings[11] = {NULL};
    uint8_t file[1024], bytes[40];
    size_t length, count = 0;
    uint32_t number = 7;
    bool flag = false;

    strings[5] = "\033[H$<5>";
    strings[10] = "\033[%i%p1%d;%p2%dH";
    length = compiled(file, 0, flags, 5, numbers, 3, strings, 11);
    IS(HUTTAVEL_CLOSED, huttavel_entry_open(NULL, file, length));
    IS(HUTTAVEL_CLOSED, huttavel_entry_number(&entry, 0, &number));
    IS(HUTTAVEL_BAD_LENGTH, huttavel_entry_open(&entry, NULL, 1));
    IS(HUTTAVEL_TRUNCATED, huttavel_entry_open(&entry, file, length - 1));
    /* No screen can be opened on it: a flag that is set is `am`. */
    IS(HUTTAVEL_OK, huttavel_entry_open(&entry, file, length));
    IS(HUTTAVEL_IS_OPEN, huttavel_entry_open(&entry, file, length));
    CHECK(huttavel_is_open(&entry));
    IS(HUTTAVEL_OK, huttavel_entry_flag(&entry, 1, &flag));
    CHECK(flag);
    IS(HUTTAVEL_OK, huttavel_entry_flag(&entry, 70000, &flag));
    CHECK(!flag);
    IS(HUTTAVEL_OK, huttavel_entry_number(&entry, 2, &number));
    CHECK(number == 10);
    IS(HUTTAVEL_ABSENT, huttavel_entry_number(&entry, 1, &number));
    IS(HUTTAVEL_ABSENT, huttavel_entry_number(&entry, 65536, &number));
    CHECK(number == 10);
    /* A text with its padding; as much of it as there is room for. */
    memset(bytes, '.', sizeof bytes);
    IS(HUTTAVEL_OK, huttavel_entry_text(&entry, 5, bytes, sizeof bytes, &count));
    CHECK(count == 7 && memcmp(bytes, "\033[H$<5>.", 8) == 0);
    memset(bytes, '.', sizeof bytes);
    IS(HUTTAVEL_OK, huttavel_entry_text(&entry, 5, bytes, 2, NULL));
    CHECK(memcmp(bytes, "\033[.", 3) == 0);
    IS(HUTTAVEL_OK, huttavel_entry_text(&entry, 10, NULL, 9, &count));
    CHECK(count == strlen(strings[10]));
    IS(HUTTAVEL_ABSENT, huttavel_entry_text(&entry, 6, bytes, sizeof bytes, &count));
    IS(HUTTAVEL_OK, huttavel_entry_names(&entry, bytes, sizeof bytes, &count));
    CHECK(count == 16 && memcmp(bytes, "trial|for a test", 16) == 0);
    IS(HUTTAVEL_OK, huttavel_capability_named((const uint8_t *)"cup", 3, &which));
    CHECK(which.kind == HUTTAVEL_TEXT && which.position == 10);
    IS(HUTTAVEL_OK, huttavel_capability_named((const uint8_t *)"lines", 5, &which));
    CHECK(which.kind == HUTTAVEL_NUMBER && which.position == 2);
    IS(HUTTAVEL_OK, huttavel_capability_named((const uint8_t *)"am", 2, &which));
    CHECK(which.kind == HUTTAVEL_FLAG && which.position == 1);
    IS(HUTTAVEL_ABSENT, huttavel_capability_named((const uint8_t *)"nothing", 7, &which));
    IS(HUTTAVEL_BAD_LENGTH, huttavel_capability_named(NULL, 7, &which));
    /* Parameter strings, terminfo(5): a variable of capital letters lasts. */
    CHECK(gives(&entry, strings[10], 4, 9, "\033[5;10H"));
    CHECK(gives(&entry, "%?%p1%{10}%>%tmany%efew%;$<3>", 11, 0, "many$<3>"));
    CHECK(gives(&entry, "%p1%PA%p2%Pb%gb%d", 21, 5, "5"));
    CHECK(gives(&entry, "%gA%d%gb%d", 0, 0, "210"));
    CHECK(gives(&entry, "", 0, 0, ""));
    IS(HUTTAVEL_CUT_DIRECTIVE, refusal(&entry, "ab%p"));
    IS(HUTTAVEL_BAD_DIRECTIVE, refusal(&entry, "%q"));
    IS(HUTTAVEL_STRING_OPERATOR, refusal(&entry, "%p1%s"));
    IS(HUTTAVEL_STACK_FULL, refusal(&entry, "%p1%p1%p1%p1%p1%p1%p1%p1%p1%p1%p1%p1%p1%p1%p1%p1%p1%p1%p1%p1%p1"));
    IS(HUTTAVEL_BAD_LENGTH, huttavel_parameters(&entry, file, 3, NULL, bytes, 1, NULL));
    /* A screen is no entry, and an entry no screen. */
    IS(HUTTAVEL_CLOSED, huttavel_entry_flag(screen, 1, &flag));
    IS(HUTTAVEL_CLOSED, refusal(screen, "a"));
    IS(HUTTAVEL_CLOSED, huttavel_erase(&entry, 0));
    IS(HUTTAVEL_CLOSED, huttavel_doupdate(&entry));
    CHECK(huttavel_waiting(&entry) == 0 && huttavel_bytes(&entry, bytes, sizeof bytes) == 0);
    IS(HUTTAVEL_OK, huttavel_close(&entry));
    IS(HUTTAVEL_CLOSED, refusal(&entry, "a"));
}

static void making(huttavel *handle)
{
    uint32_t window = 9, sub = 9, pad = 9, part = 9, row = 9, column = 9, count = 0, parent = 9;

    IS(HUTTAVEL_OK, huttavel_new_window(handle, 4, 10, 2, 3, &window));
    CHECK(window == 1);
    IS(HUTTAVEL_OFF_SCREEN, huttavel_new_window(handle, 99, 10, 2, 3, &sub));
    CHECK(sub == 9);
    IS(HUTTAVEL_OK, huttavel_derive(handle, window, 2, 5, 1, 1, &sub));
    IS(HUTTAVEL_NOT_IN_PARENT, huttavel_derive(handle, window, 9, 5, 1, 1, NULL));
    IS(HUTTAVEL_OK, huttavel_sub(handle, 0, 0, 0, 0, 0, NULL));
    IS(HUTTAVEL_OK, huttavel_new_pad(handle, 30, 90, &pad));
    IS(HUTTAVEL_TOO_BIG, huttavel_new_pad(handle, 30000, 9000, NULL));
    IS(HUTTAVEL_OK, huttavel_sub_pad(handle, pad, 3, 9, 1, 1, &part));
    IS(HUTTAVEL_NOT_PAD, huttavel_sub_pad(handle, window, 3, 9, 1, 1, NULL));
    IS(HUTTAVEL_OK, huttavel_window_count(handle, &count));
    CHECK(count == 6);
    IS(HUTTAVEL_OK, huttavel_nth_window(handle, 5, &count));
    CHECK(count == part && part == 5);
    IS(HUTTAVEL_NO_WINDOW, huttavel_nth_window(handle, 6, &count));
    IS(HUTTAVEL_HAS_CHILDREN, huttavel_delete(handle, pad));
    IS(HUTTAVEL_OK, huttavel_delete(handle, part));
    IS(HUTTAVEL_NO_WINDOW, huttavel_delete(handle, part));
    IS(HUTTAVEL_OK, huttavel_move_window(handle, window, 5, 6));
    IS(HUTTAVEL_IS_SUB, huttavel_move_window(handle, sub, 5, 6));
    IS(HUTTAVEL_OK, huttavel_origin(handle, sub, &row, &column));
    CHECK(row == 6 && column == 7);
    IS(HUTTAVEL_OK, huttavel_move_derived(handle, sub, 2, 2));
    IS(HUTTAVEL_IS_PAD, huttavel_origin(handle, pad, &row, &column));
    IS(HUTTAVEL_OK, huttavel_size(handle, sub, &row, &column));
    CHECK(row == 2 && column == 5);
    IS(HUTTAVEL_OK, huttavel_parent(handle, sub, &parent));
    CHECK(parent == window);
    IS(HUTTAVEL_NO_PARENT, huttavel_parent(handle, window, &parent));
    IS(HUTTAVEL_NO_WINDOW, huttavel_parent(handle, 77, &parent));
}

/* Whether a window has this in a row and a column. */
static bool shows(huttavel *handle, uint32_t window, uint32_t row, uint32_t column, uint8_t byte, uint8_t attrs)
{
    huttavel_cell cell = {0, 0, 0, 0};

    return huttavel_cell_at(handle, window, row, column, &cell) == HUTTAVEL_OK && cell.byte == byte &&
           cell.attrs == attrs;
}

/* Reads cells side by side, of a first row that begins with `Abcd`. */
static void reading_cells(huttavel *handle)
{
    huttavel_cell cells[6] = {{0, 0, 0, 0}};
    size_t count = 99;

    IS(HUTTAVEL_OK, huttavel_cells(handle, 0, 0, 0, cells, 5, &count));
    CHECK(count == 5 && cells[0].byte == 'A' && cells[0].attrs == (HUTTAVEL_REVERSE | HUTTAVEL_DIM) &&
          cells[0].pair == 3);
    CHECK(cells[3].byte == 'd' && cells[3].attrs == HUTTAVEL_REVERSE && cells[3].pair == 3);
    CHECK(cells[4].byte == ' ' && cells[4].attrs == 0 && cells[4].pair == 0 && cells[5].byte == 0);
    IS(HUTTAVEL_OK, huttavel_cells(handle, 0, 0, 2, cells, 6, NULL));
    CHECK(cells[0].byte == 'c' && cells[1].byte == 'd' && cells[2].byte == ' ');
    IS(HUTTAVEL_OK, huttavel_cells(handle, 0, 23, 78, cells, 6, &count));
    CHECK(count == 2 && cells[1].byte == ' ' && cells[2].byte == ' ');
    IS(HUTTAVEL_OK, huttavel_cells(handle, 0, 0, 0, NULL, 0, &count));
    CHECK(count == 0);
    IS(HUTTAVEL_BAD_LENGTH, huttavel_cells(handle, 77, 0, 0, NULL, 1, &count));
    IS(HUTTAVEL_BAD_LENGTH, huttavel_cells(handle, 0, 0, 0, cells, SIZE_MAX, &count));
    IS(HUTTAVEL_NO_WINDOW, huttavel_cells(handle, 77, 0, 0, cells, 6, &count));
    IS(HUTTAVEL_OUT_OF_WINDOW, huttavel_cells(handle, 0, 24, 0, cells, 6, &count));
    IS(HUTTAVEL_OUT_OF_WINDOW, huttavel_cells(handle, 0, 0, 80, cells, 6, &count));
    IS(HUTTAVEL_CLOSED, huttavel_cells(NULL, 0, 0, 0, cells, 6, &count));
    CHECK(count == 0 && cells[0].byte == ' ');
}

static void resizing(huttavel *handle)
{
    uint32_t window = 9, sub = 9, pad = 9, row = 9, column = 9, top = 9, bottom = 9;
    bool on = false;

    IS(HUTTAVEL_OK, huttavel_new_window(handle, 3, 6, 1, 2, &window));
    IS(HUTTAVEL_OK, huttavel_add_text(handle, window, (const uint8_t *)"abcdefghi", 9, NULL));
    IS(HUTTAVEL_OK, huttavel_set_background(handle, window, '.', HUTTAVEL_DIM, 0));
    IS(HUTTAVEL_OK, huttavel_set_region(handle, window, 1, 1));
    IS(HUTTAVEL_OK, huttavel_untouch(handle, window));
    /* Less: the cursor, after the i, goes to the nearest place inside. */
    IS(HUTTAVEL_OK, huttavel_resize_window(handle, window, 2, 2));
    IS(HUTTAVEL_OK, huttavel_size(handle, window, &row, &column));
    CHECK(row == 2 && column == 2);
    IS(HUTTAVEL_OK, huttavel_cursor(handle, window, &row, &column));
    CHECK(row == 1 && column == 1);
    IS(HUTTAVEL_OK, huttavel_region(handle, window, &top, &bottom));
    CHECK(top == 0 && bottom == 1);
    IS(HUTTAVEL_OK, huttavel_line_touched(handle, window, 1, &on));
    CHECK(on && shows(handle, window, 0, 1, 'b', 0) && shows(handle, window, 1, 1, 'h', 0));
    /* More, to the end of the screen: what fits stays, the rest is the background. */
    IS(HUTTAVEL_OK, huttavel_resize_window(handle, window, 3, 4));
    CHECK(shows(handle, window, 1, 0, 'g', 0) && shows(handle, window, 1, 2, '.', HUTTAVEL_DIM));
    CHECK(shows(handle, window, 2, 0, '.', HUTTAVEL_DIM));
    IS(HUTTAVEL_OFF_SCREEN, huttavel_resize_window(handle, window, 999, 2));
    /* A subwindow changes no cell, and stays in its parent. */
    IS(HUTTAVEL_OK, huttavel_derive(handle, window, 1, 1, 1, 1, &sub));
    IS(HUTTAVEL_HAS_CHILDREN, huttavel_resize_window(handle, window, 1, 1));
    IS(HUTTAVEL_NOT_IN_PARENT, huttavel_resize_window(handle, sub, 3, 1));
    IS(HUTTAVEL_OK, huttavel_resize_window(handle, sub, 0, 0));
    IS(HUTTAVEL_OK, huttavel_size(handle, sub, &row, &column));
    CHECK(row == 2 && column == 3 && shows(handle, window, 1, 1, 'h', 0) && shows(handle, sub, 0, 1, '.', HUTTAVEL_DIM));
    IS(HUTTAVEL_OK, huttavel_new_pad(handle, 2, 2, &pad));
    IS(HUTTAVEL_OUT_OF_WINDOW, huttavel_resize_window(handle, pad, 0, 2));
    IS(HUTTAVEL_TOO_BIG, huttavel_resize_window(handle, pad, 1001, 1000));
    IS(HUTTAVEL_OK, huttavel_resize_window(handle, pad, 1000, 1000));
    IS(HUTTAVEL_NO_WINDOW, huttavel_resize_window(handle, 77, 1, 1));
    IS(HUTTAVEL_CLOSED, huttavel_resize_window(NULL, 0, 1, 1));
    IS(HUTTAVEL_OK, huttavel_delete(handle, sub));
    IS(HUTTAVEL_OK, huttavel_delete(handle, window));
    IS(HUTTAVEL_OK, huttavel_delete(handle, pad));
}

static void writing(huttavel *handle)
{
    huttavel_cell cell = {0, 0, 0, 0};
    uint32_t row = 9, column = 9, pair = 9;
    uint8_t attrs = 0;
    bool stayed = true, on = false;
    const uint8_t edges[] = "||--1234";

    IS(HUTTAVEL_OK, huttavel_attr_set(handle, 0, HUTTAVEL_BOLD));
    IS(HUTTAVEL_OK, huttavel_attr_on(handle, 0, HUTTAVEL_REVERSE));
    IS(HUTTAVEL_OK, huttavel_attr_off(handle, 0, HUTTAVEL_BOLD));
    IS(HUTTAVEL_OK, huttavel_color_set(handle, 0, 3));
    IS(HUTTAVEL_BAD_PAIR, huttavel_color_set(handle, 0, 64));
    IS(HUTTAVEL_OK, huttavel_written_attrs(handle, 0, &attrs, &pair));
    CHECK(attrs == HUTTAVEL_REVERSE && pair == 3);
    IS(HUTTAVEL_OK, huttavel_add_byte(handle, 0, 'A', HUTTAVEL_DIM, &stayed));
    CHECK(!stayed);
    IS(HUTTAVEL_NOT_ASCII, huttavel_add_byte(handle, 0, 200, 0, NULL));
    IS(HUTTAVEL_OK, huttavel_cell_at(handle, 0, 0, 0, &cell));
    CHECK(cell.byte == 'A' && cell.attrs == (HUTTAVEL_REVERSE | HUTTAVEL_DIM) && cell.pair == 3);
    IS(HUTTAVEL_OUT_OF_WINDOW, huttavel_cell_at(handle, 0, 24, 0, &cell));
    IS(HUTTAVEL_OK, huttavel_add_text(handle, 0, (const uint8_t *)"bcd", 3, &stayed));
    IS(HUTTAVEL_OK, huttavel_add_text(handle, 0, NULL, 0, NULL));
    IS(HUTTAVEL_BAD_LENGTH, huttavel_add_text(handle, 0, NULL, 3, NULL));
    IS(HUTTAVEL_OK, huttavel_cursor(handle, 0, &row, &column));
    CHECK(row == 0 && column == 4);
    reading_cells(handle);
    IS(HUTTAVEL_OK, huttavel_move_cursor(handle, 0, 0, 1));
    IS(HUTTAVEL_OUT_OF_WINDOW, huttavel_move_cursor(handle, 0, 0, 80));
    IS(HUTTAVEL_OK, huttavel_insert_byte(handle, 0, 'x', 0));
    IS(HUTTAVEL_OK, huttavel_delete_byte(handle, 0));
    IS(HUTTAVEL_OK, huttavel_cell_at(handle, 0, 0, 1, &cell));
    CHECK(cell.byte == 'b');
    IS(HUTTAVEL_OK, huttavel_line_across(handle, 0, '-', 5));
    IS(HUTTAVEL_OK, huttavel_line_down(handle, 0, '|', 5));
    IS(HUTTAVEL_OK, huttavel_cell_at(handle, 0, 4, 1, &cell));
    CHECK(cell.byte == '|');
    IS(HUTTAVEL_OK, huttavel_border(handle, 0, edges));
    IS(HUTTAVEL_BAD_LENGTH, huttavel_border(handle, 0, NULL));
    IS(HUTTAVEL_OK, huttavel_cell_at(handle, 0, 23, 79, &cell));
    CHECK(cell.byte == '4');
    IS(HUTTAVEL_OK, huttavel_set_background(handle, 0, '.', 0, 0));
    IS(HUTTAVEL_NOT_ASCII, huttavel_set_background(handle, 0, 7, 0, 99));
    IS(HUTTAVEL_BAD_PAIR, huttavel_change_background(handle, 0, ' ', 0, 64));
    IS(HUTTAVEL_OK, huttavel_change_background(handle, 0, ':', HUTTAVEL_BOLD, 2));
    IS(HUTTAVEL_OK, huttavel_background(handle, 0, &cell));
    CHECK(cell.byte == ':' && cell.attrs == HUTTAVEL_BOLD && cell.pair == 2);
    IS(HUTTAVEL_OK, huttavel_set_background(handle, 0, ' ', 0, 0));
    IS(HUTTAVEL_OK, huttavel_clear_to_eol(handle, 0));
    IS(HUTTAVEL_OK, huttavel_clear_to_bottom(handle, 0));
    IS(HUTTAVEL_NO_SCROLL, huttavel_scroll(handle, 0, 1));
    IS(HUTTAVEL_OK, huttavel_scroll_ok(handle, 0, true));
    IS(HUTTAVEL_OK, huttavel_scroll(handle, 0, INT32_MIN));
    IS(HUTTAVEL_OK, huttavel_insert_delete_lines(handle, 0, -1));
    IS(HUTTAVEL_OK, huttavel_is_scroll_ok(handle, 0, &on));
    CHECK(on);
    IS(HUTTAVEL_OK, huttavel_set_region(handle, 0, 2, 5));
    IS(HUTTAVEL_BAD_REGION, huttavel_set_region(handle, 0, 5, 2));
    IS(HUTTAVEL_OK, huttavel_region(handle, 0, &row, &column));
    CHECK(row == 2 && column == 5);
    IS(HUTTAVEL_OK, huttavel_leave_ok(handle, 0, true));
    IS(HUTTAVEL_OK, huttavel_is_leave_ok(handle, 0, &on));
    CHECK(on);
    IS(HUTTAVEL_OK, huttavel_leave_ok(handle, 0, false));
    IS(HUTTAVEL_OK, huttavel_clear(handle, 0));
    IS(HUTTAVEL_OK, huttavel_is_clear_ok(handle, 0, &on));
    CHECK(on);
    IS(HUTTAVEL_OK, huttavel_clear_ok(handle, 0, false));
    IS(HUTTAVEL_OK, huttavel_erase(handle, 0));
}

static void touching(huttavel *handle)
{
    bool touched = true;
    huttavel_cell cell = {0, 0, 0, 0};

    IS(HUTTAVEL_OK, huttavel_untouch(handle, 0));
    IS(HUTTAVEL_OK, huttavel_window_touched(handle, 0, &touched));
    CHECK(!touched);
    IS(HUTTAVEL_OK, huttavel_touch_lines(handle, 0, 2, 1, true));
    IS(HUTTAVEL_OUT_OF_WINDOW, huttavel_touch_lines(handle, 0, 2, UINT32_MAX, true));
    IS(HUTTAVEL_OK, huttavel_line_touched(handle, 0, 2, &touched));
    CHECK(touched);
    IS(HUTTAVEL_OUT_OF_WINDOW, huttavel_line_touched(handle, 0, 24, &touched));
    IS(HUTTAVEL_OK, huttavel_touch_window(handle, 0));
    IS(HUTTAVEL_OK, huttavel_sync_up(handle, 2));
    IS(HUTTAVEL_OK, huttavel_sync_down(handle, 2));
    IS(HUTTAVEL_OK, huttavel_add_text(handle, 1, (const uint8_t *)"\rhello", 6, NULL));
    IS(HUTTAVEL_OK, huttavel_copy(handle, 1, 0, 0, 0, 7, 8, 7, 12, false));
    IS(HUTTAVEL_OUT_OF_WINDOW, huttavel_copy(handle, 1, 0, 0, 0, 8, 8, 7, 12, true));
    IS(HUTTAVEL_OK, huttavel_cell_at(handle, 0, 7, 12, &cell));
    CHECK(cell.byte == 'o');
    IS(HUTTAVEL_OK, huttavel_overlay(handle, 1, 0));
    IS(HUTTAVEL_OK, huttavel_overwrite(handle, 1, 0));
    IS(HUTTAVEL_IS_PAD, huttavel_overwrite(handle, 4, 0));
}

static void sending(huttavel *handle)
{
    static uint8_t bytes[20000];
    huttavel_cell cell = {0, 0, 0, 0};
    uint32_t row = 9, column = 9;
    uint8_t attrs = 0;
    bool colours = false;
    size_t all, again;

    IS(HUTTAVEL_OK, huttavel_start(handle));
    (void)take_all(handle, bytes, sizeof bytes);
    IS(HUTTAVEL_NO_CURSOR, huttavel_wanted_cursor(handle, &row, &column));
    IS(HUTTAVEL_OK, huttavel_set_pair(handle, 2, 1, 4));
    IS(HUTTAVEL_BAD_PAIR, huttavel_set_pair(handle, 0, 1, 4));
    IS(HUTTAVEL_BAD_COLOUR, huttavel_set_pair(handle, 1, 8, 4));
    IS(HUTTAVEL_BAD_COLOUR, huttavel_set_pair(handle, 1, HUTTAVEL_DEFAULT_COLOUR, 8));
    IS(HUTTAVEL_BAD_PAIR, huttavel_set_pair(handle, 64, HUTTAVEL_DEFAULT_COLOUR, 8));
    IS(HUTTAVEL_OK, huttavel_set_pair(handle, 3, HUTTAVEL_DEFAULT_COLOUR, 4));
    IS(HUTTAVEL_OK, huttavel_pair_colours(handle, 3, &row, &column));
    CHECK(row == HUTTAVEL_DEFAULT_COLOUR && column == 4);
    IS(HUTTAVEL_OK, huttavel_pair_colours(handle, 2, &row, &column));
    CHECK(row == 1 && column == 4);
    IS(HUTTAVEL_BAD_PAIR, huttavel_pair_colours(handle, 0, &row, &column));
    IS(HUTTAVEL_OK, huttavel_shown_attrs(handle, &attrs));
    CHECK(attrs == 127);
    IS(HUTTAVEL_OK, huttavel_has_colours(handle, &colours));
    CHECK(colours);
    IS(HUTTAVEL_OK, huttavel_noutrefresh(handle, 0));
    IS(HUTTAVEL_IS_PAD, huttavel_noutrefresh(handle, 4));
    IS(HUTTAVEL_OK, huttavel_pad_noutrefresh(handle, 4, 0, 0, 1, 1, 2, 2));
    IS(HUTTAVEL_NOT_PAD, huttavel_pad_noutrefresh(handle, 0, 0, 0, 1, 1, 2, 2));
    IS(HUTTAVEL_OK, huttavel_move_cursor(handle, 0, 3, 4));
    IS(HUTTAVEL_OK, huttavel_noutrefresh(handle, 0));
    IS(HUTTAVEL_OK, huttavel_wanted_cursor(handle, &row, &column));
    CHECK(row == 3 && column == 4);
    /* overwrite() has put the other window's first line, "hello", where that window is on the screen. */
    IS(HUTTAVEL_OK, huttavel_wanted_cell(handle, 5, 10, &cell));
    CHECK(cell.byte == 'o');
    IS(HUTTAVEL_OFF_SCREEN, huttavel_wanted_cell(handle, 24, 0, &cell));
    CHECK(huttavel_waiting(handle) == 0);
    IS(HUTTAVEL_OK, huttavel_doupdate(handle));
    all = huttavel_waiting(handle);
    CHECK(all > 0);
    IS(HUTTAVEL_NOT_WAITING, huttavel_took(handle, all + 1));
    IS(HUTTAVEL_OK, huttavel_took(handle, 0));
    CHECK(huttavel_bytes(handle, bytes, 3) == 3 && huttavel_waiting(handle) == all);
    CHECK(huttavel_bytes(handle, NULL, 3) == 0);
    CHECK(take_all(handle, bytes, sizeof bytes) == all);
    CHECK(has(bytes, all, "hello"));
    /* Nothing differs now. */
    IS(HUTTAVEL_OK, huttavel_doupdate(handle));
    CHECK(huttavel_waiting(handle) == 0);
    /* After a failed write all is painted anew; what waits goes on waiting. */
    IS(HUTTAVEL_OK, huttavel_failed(handle));
    IS(HUTTAVEL_OK, huttavel_doupdate(handle));
    again = take_all(handle, bytes, sizeof bytes);
    CHECK(has(bytes, again, "hello"));
    IS(HUTTAVEL_OK, huttavel_redraw_lines(handle, 0, 5, 1));
    IS(HUTTAVEL_OUT_OF_WINDOW, huttavel_redraw_lines(handle, 0, 24, 1));
    IS(HUTTAVEL_OK, huttavel_doupdate(handle));
    again = take_all(handle, bytes, sizeof bytes);
    CHECK(has(bytes, again, "hello"));
    IS(HUTTAVEL_OK, huttavel_redraw_window(handle, 0));
    IS(HUTTAVEL_IS_PAD, huttavel_redraw_window(handle, 4));
    IS(HUTTAVEL_OK, huttavel_finish(handle));
    again = take_all(handle, bytes, sizeof bytes);
    /* The cursor goes to the last line: CUP of ECMA-48, line 24. */
    CHECK(has(bytes, again, "\033[24;1H") || has(bytes, again, "\033[24H"));
}

static void pressing(huttavel *handle)
{
    huttavel_key key = {9, 9};
    size_t taken = 0;
    uint8_t many[64];

    IS(HUTTAVEL_NO_KEY, huttavel_next_key(handle, &key));
    CHECK(key.kind == 9 && key.code == 9);
    IS(HUTTAVEL_OK, huttavel_key_bytes(handle, (const uint8_t *)"\033[Aq\033", 5, &taken));
    CHECK(taken == 5);
    IS(HUTTAVEL_OK, huttavel_next_key(handle, &key));
    CHECK(key.kind == HUTTAVEL_KEY_NAMED && key.code == HUTTAVEL_KEY_UP);
    IS(HUTTAVEL_OK, huttavel_next_key(handle, &key));
    CHECK(key.kind == HUTTAVEL_KEY_BYTE && key.code == 'q');
    IS(HUTTAVEL_NO_KEY, huttavel_next_key(handle, NULL));
    IS(HUTTAVEL_OK, huttavel_key_idle(handle));
    IS(HUTTAVEL_OK, huttavel_next_key(handle, &key));
    CHECK(key.kind == HUTTAVEL_KEY_BYTE && key.code == 27);
    memset(many, 'z', sizeof many);
    IS(HUTTAVEL_QUEUE_FULL, huttavel_key_bytes(handle, many, sizeof many, &taken));
    /* 16 keys and as many as the longest key has bytes, 3. */
    CHECK(taken == 19);
    IS(HUTTAVEL_BAD_LENGTH, huttavel_key_bytes(handle, NULL, 1, &taken));
    IS(HUTTAVEL_OK, huttavel_key_bytes(handle, NULL, 0, &taken));
    CHECK(taken == 0);
}

static void texts(void)
{
    CHECK(strcmp(huttavel_fault_text(HUTTAVEL_NO_WINDOW), "no such window") == 0);
    CHECK(strcmp(huttavel_fault_text(999), "unknown fault") == 0);
}

int main(void)
{
    huttavel handle = HUTTAVEL_CLOSED_HANDLE, other = HUTTAVEL_CLOSED_HANDLE;

    opening();
    entries();
    IS(HUTTAVEL_OK, huttavel_open_bundled(&handle, 24, 80));
    IS(HUTTAVEL_OK, huttavel_open_bundled(&other, 3, 4));
    described(&other);
    making(&handle);
    resizing(&handle);
    writing(&handle);
    touching(&handle);
    sending(&handle);
    pressing(&handle);
    texts();
    IS(HUTTAVEL_OK, huttavel_close(&other));
    IS(HUTTAVEL_OK, huttavel_close(&handle));
    if (!failed)
        puts("calls: as wanted");
    return failed;
}
