/* Random calls on characters of one column, in a locale of UTF-8: prints after each call its answer, the cursor and all
   cells of the window. For `try-cells`, which compares what it prints with the curses.h in c/ and with ncurses.

   Usage: cells SEED CALLS. An odd seed is that of a window that scrolls. */
#define _XOPEN_SOURCE 700

#include <curses.h>

#include <locale.h>
#include <stdint.h>
#include <stdlib.h>
#include <string.h>

enum {ROWS = 6, COLUMNS = 17, MOST = 24};

static uint64_t state;

static unsigned any(unsigned below)
{
    state ^= state << 13;
    state ^= state >> 7;
    state ^= state << 17;
    return (unsigned)(state >> 32) % below;
}

/* Latin, Greek, Cyrillic, lines, blocks, braille, signs, a blank that is none, and private use. */
static wchar_t any_character(void)
{
    static const wchar_t beyond[] = {0xe9, 0xdf, 0x3b1, 0x416, 0x2500, 0x2502, 0x250c,
                                     0x2588, 0x28ff, 0x20ac, 0x2022, 0x2190, 0xa0, 0xe000};

    return any(3) ? (wchar_t)('a' + any(26)) : beyond[any(sizeof beyond / sizeof *beyond)];
}

static cchar_t any_wide(attr_t attrs)
{
    wchar_t text[2] = {any_character(), L'\0'};
    cchar_t wide;

    setcchar(&wide, text, any(2) ? attrs : A_NORMAL, 0, NULL);
    return wide;
}

/* A text, here and there with a control character that begins no line, and the same in UTF-8. */
static void any_text(wchar_t *text, char *bytes, size_t room, bool has_controls)
{
    static const wchar_t controls[] = {L'\r', L'\b', 1};
    unsigned length = any(MOST), n;

    for (n = 0; n < length; n++)
        text[n] = has_controls && !any(15) ? controls[any(3)] : any_character();
    text[n] = L'\0';
    if (wcstombs(bytes, text, room) == (size_t)-1)
        exit(1);
}

static int add_each_byte(WINDOW *window, const char *text)
{
    int done = OK;

    for (; *text; text++)
        done = waddch(window, (unsigned char)*text);
    return done;
}

static int add_cells(WINDOW *window)
{
    cchar_t cells[COLUMNS + 1];
    unsigned length = any(COLUMNS), n;

    for (n = 0; n < length; n++)
        cells[n] = any_wide(A_REVERSE);
    memset(&cells[n], 0, sizeof cells[n]);
    return wadd_wchnstr(window, cells, any(2) ? -1 : (int)any(COLUMNS));
}

/* Reads a text, and prints it. The cursor stays. */
static int read_text(WINDOW *window)
{
    char text[4 * COLUMNS + 1];
    int count = winnstr(window, text, (int)any(2 * COLUMNS));

    printf("[%s] ", text);
    return count;
}

/* Makes a call, and gives its answer. */
static int call(WINDOW *window)
{
    wchar_t text[MOST];
    char bytes[4 * MOST];
    unsigned which = any(13);
    cchar_t wide = any_wide(A_BOLD);

    any_text(text, bytes, sizeof bytes, which < 3);
    if (!any(4))
        wmove(window, (int)any(ROWS), (int)any(COLUMNS));
    printf("call %u: ", which);
    switch (which) {
    case 0: return waddstr(window, bytes);
    case 1: return add_each_byte(window, bytes);
    case 2: return waddwstr(window, text);
    case 3: return wadd_wch(window, &wide);
    case 4: return wins_wch(window, &wide);
    case 5: return wins_wstr(window, text);
    case 6: return winsstr(window, bytes);
    case 7: return whline_set(window, &wide, (int)any(COLUMNS + 3));
    case 8: return wvline_set(window, &wide, (int)any(ROWS + 2));
    case 9: return add_cells(window);
    case 10: return any(2) ? wattr_on(window, A_UNDERLINE, NULL) : wattr_off(window, A_UNDERLINE, NULL);
    case 11: return read_text(window);
    default: return wclrtoeol(window);
    }
}

/* Prints the cursor, and each cell: its character, and which attributes it has. */
static void print_cells(WINDOW *window)
{
    int row, column, y, x;
    cchar_t cell;

    getyx(window, y, x);
    printf("%d %d\n", y, x);
    for (row = 0; row < ROWS; row++) {
        for (column = 0; column < COLUMNS; column++) {
            mvwin_wch(window, row, column, &cell);
            printf("%lc%s%s%s", (wint_t)cell.chars[0], cell.attr & A_BOLD ? "*" : "", cell.attr & A_REVERSE ? "!" : "",
                   cell.attr & A_UNDERLINE ? "_" : "");
        }
        putchar('\n');
    }
    wmove(window, y, x);
}

int main(int argc, char **argv)
{
    FILE *nothing = fopen("/dev/null", "r+");
    int seed = argc > 1 ? atoi(argv[1]) : 1, calls = argc > 2 ? atoi(argv[2]) : 1000;
    WINDOW *window;

    state = 88172645463325252u + (uint64_t)seed * 7919;
    setenv("LINES", "24", 1);
    setenv("COLUMNS", "80", 1);
    if (!setlocale(LC_ALL, "C.UTF-8") || !nothing || !newterm("xterm", nothing, nothing))
        return 1;
    window = newwin(ROWS, COLUMNS, 3, 3);
    scrollok(window, seed % 2 == 1);
    for (; calls > 0; calls--) {
        printf("%d at ", call(window));
        print_cells(window);
    }
    endwin();
    return 0;
}
