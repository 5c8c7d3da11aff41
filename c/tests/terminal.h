/* A small terminal for tests: it reads the control functions of ECMA-48 that the bundled entry has, and characters in
 * ASCII or in UTF-8, and shows cells. */
#ifndef HUTTAVEL_TESTS_TERMINAL_H
#define HUTTAVEL_TESTS_TERMINAL_H

#include "huttavel.h"

#include <string.h>

enum { ROWS = 9, COLUMNS = 30 };

/* What a place shows: a character, attributes as in enum huttavel_attr but without standout, and colours, -1 for its
   own. */
typedef struct look {
    uint32_t character;
    uint8_t attrs;
    int foreground;
    int background;
} look;

typedef struct terminal {
    look places[ROWS][COLUMNS];
    look pen;
    int row;
    int column;
    /* A control function that has begun: 0 none, 1 after ESC, 2 after CSI; its parameters so far. */
    int reading;
    int parameters[8];
    int count;
    /* It reads UTF-8: what it has read of a character, and how many bytes of it are still to come. */
    bool is_utf8;
    uint32_t begun;
    int to_come;
    /* A byte came that this terminal does not know. */
    bool is_lost;
} terminal;

static const look blank = {' ', 0, -1, -1};

/* A terminal that shows this byte everywhere. */
static void terminal_begin(terminal *of, uint8_t byte)
{
    memset(of, 0, sizeof *of);
    for (int i = 0; i < ROWS * COLUMNS; i++) {
        of->places[i / COLUMNS][i % COLUMNS] = blank;
        of->places[i / COLUMNS][i % COLUMNS].character = byte;
    }
    of->pen = blank;
}

static int at_most(int n, int most)
{
    return n < 0 ? 0 : n > most ? most : n;
}

static void erase_places(terminal *of, int from, int to)
{
    for (int i = from; i < to; i++)
        of->places[i / COLUMNS][i % COLUMNS] = blank;
}

/* Select graphic rendition. */
static void render(terminal *of, int n)
{
    static const uint8_t attrs[9] = {0, HUTTAVEL_BOLD, HUTTAVEL_DIM, 0, HUTTAVEL_UNDERLINE, HUTTAVEL_BLINK, 0,
                                     HUTTAVEL_REVERSE, HUTTAVEL_INVISIBLE};

    if (n == 0)
        of->pen = blank;
    else if (n < 9 && attrs[n] != 0)
        of->pen.attrs |= attrs[n];
    else if ((n >= 30 && n <= 37) || n == 39)
        of->pen.foreground = n == 39 ? -1 : n - 30;
    else if ((n >= 40 && n <= 47) || n == 49)
        of->pen.background = n == 49 ? -1 : n - 40;
    else
        of->is_lost = true;
}

/* A control function ends. */
static void control(terminal *of, uint8_t final)
{
    int first = of->parameters[0], n = first == 0 ? 1 : first, here = of->row * COLUMNS + of->column;

    switch (final) {
    case 'A': of->row = at_most(of->row - n, ROWS - 1); break;
    case 'B': of->row = at_most(of->row + n, ROWS - 1); break;
    case 'C': of->column = at_most(of->column + n, COLUMNS - 1); break;
    case 'D': of->column = at_most(of->column - n, COLUMNS - 1); break;
    case 'G': of->column = at_most(n - 1, COLUMNS - 1); break;
    case 'd': of->row = at_most(n - 1, ROWS - 1); break;
    case 'H':
        of->row = at_most(n - 1, ROWS - 1);
        of->column = at_most(of->parameters[1] - 1, COLUMNS - 1);
        break;
    case 'J': erase_places(of, first == 2 ? 0 : here, ROWS * COLUMNS); break;
    case 'K': erase_places(of, here, (of->row + 1) * COLUMNS); break;
    case 'X': erase_places(of, here, at_most(here + n, (of->row + 1) * COLUMNS)); break;
    case 'm':
        for (int i = 0; i <= of->count; i++)
            render(of, of->parameters[i]);
        break;
    default: of->is_lost = true;
    }
    of->reading = 0;
}

/* A character is shown, and the cursor moves. */
static void show_character(terminal *of, uint32_t character)
{
    if (of->column >= COLUMNS) {
        of->is_lost = true;
        return;
    }
    of->places[of->row][of->column] = of->pen;
    of->places[of->row][of->column].character = character;
    of->column++;
}

/* A byte from 128 on: the first of a character of two or three, or one of the others. */
static void read_part(terminal *of, uint8_t byte)
{
    bool goes_on = (byte & 0xc0) == 0x80;

    if (!of->is_utf8 || goes_on != (of->to_come > 0) || byte >= 0xf0) {
        of->is_lost = true;
        return;
    }
    if (goes_on) {
        of->begun = of->begun << 6 | (byte & 0x3f);
        of->to_come--;
    } else {
        of->to_come = byte < 0xe0 ? 1 : 2;
        of->begun = byte & (0x7fu >> (of->to_come + 1));
    }
    if (of->to_come == 0 && of->begun >= 160)
        show_character(of, of->begun);
    else if (of->to_come == 0)
        of->is_lost = true;
}

static void read_byte(terminal *of, uint8_t byte)
{
    if (byte < 128 && of->to_come > 0)
        of->is_lost = true;
    if (of->reading == 1) {
        of->is_lost |= byte != '[';
        of->reading = 2;
        of->count = 0;
        memset(of->parameters, 0, sizeof of->parameters);
    } else if (of->reading == 2 && byte >= '0' && byte <= '9') {
        of->parameters[of->count] = 10 * of->parameters[of->count] + byte - '0';
    } else if (of->reading == 2 && byte == ';' && of->count < 7) {
        of->count++;
    } else if (of->reading == 2) {
        control(of, byte);
    } else if (byte == 27) {
        of->reading = 1;
    } else if (byte == '\r') {
        of->column = 0;
    } else if (byte == '\b') {
        of->column = at_most(of->column - 1, COLUMNS - 1);
    } else if (byte >= 32 && byte < 127) {
        show_character(of, byte);
    } else if (byte >= 128) {
        read_part(of, byte);
    } else {
        of->is_lost = true;
    }
}

static void terminal_read(terminal *of, const uint8_t *bytes, size_t count)
{
    for (size_t i = 0; i < count; i++)
        read_byte(of, bytes[i]);
}

/* Whether the terminal shows what the screen wants to be shown, and has its cursor there. */
static bool terminal_shows(const terminal *of, huttavel *handle)
{
    uint32_t row = 0, column = 0;

    if (of->is_lost)
        return false;
    for (uint32_t i = 0; i < ROWS * COLUMNS; i++) {
        const look *seen = &of->places[i / COLUMNS][i % COLUMNS];
        huttavel_cell cell = {0, 0, 0, 0};
        uint32_t foreground = UINT32_MAX, background = UINT32_MAX;
        uint8_t attrs;

        if (huttavel_wanted_cell(handle, i / COLUMNS, i % COLUMNS, &cell) != HUTTAVEL_OK)
            return false;
        (void)huttavel_pair_colours(handle, cell.pair, &foreground, &background);
        attrs = cell.attrs & 127;
        if (attrs & HUTTAVEL_STANDOUT)
            attrs = (attrs & ~HUTTAVEL_STANDOUT) | HUTTAVEL_REVERSE;
        if (seen->character != (of->is_utf8 ? cell.character : cell.byte) || seen->attrs != attrs
            || seen->foreground != (int)foreground || seen->background != (int)background)
            return false;
    }
    return huttavel_wanted_cursor(handle, &row, &column) != HUTTAVEL_OK
        || (of->row == (int)row && of->column == (int)column);
}

#endif
