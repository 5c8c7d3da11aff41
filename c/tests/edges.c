/* Characters that are added and inserted where a line ends, and in the last line: what the call gives, where the
 * cursor is then, and all cells. The rows are worked out by hand from X/Open Curses Issue 7, addch(), addnstr(),
 * insch() and insnstr(); what that leaves open is as in ncurses 6.4, over which this program compiles and passes too.
 * Each row holds of a window, a subwindow, a pad and a window that reaches over the edge of the screen.
 */
#define _XOPEN_SOURCE 700

#include <curses.h>

#include <stdio.h>

enum { ROWS = 4, COLUMNS = 10 };

enum call { ADD, ADD_TEXT, INSERT, INSERT_TEXT };

/* Whether the window scrolls, or only its lines 1 and 2, or both. */
enum { FIXED = 0, SCROLLS = 1, REGION = 2 };

/* A call at a place of a window whose four lines are a to d: a character, or a text. */
struct row {
    int line;                  /* of this file */
    int kind;
    int row, column;
    enum call call;
    const char *text;
    int done, row_after, column_after;
    const char *cells;         /* with a slash between lines */
};

#define A "aaaaaaaaaa/"
#define B "bbbbbbbbbb/"
#define C "cccccccccc/"
#define D "dddddddddd"
#define BLANK "          "

static const struct row rows[] = {
    /* A character in a line's last place begins the next line. In the last line there is none: the cursor stays. */
    {__LINE__, FIXED, 1, 9, ADD, "x", OK, 2, 0, A "bbbbbbbbbx/" C D},
    {__LINE__, FIXED, 3, 9, ADD, "x", ERR, 3, 9, A B C "dddddddddx"},
    {__LINE__, SCROLLS, 3, 9, ADD, "x", OK, 3, 0, B C "dddddddddx/" BLANK},
    {__LINE__, FIXED, 2, 8, ADD_TEXT, "wxyz", OK, 3, 2, A B "ccccccccwx/yzdddddddd"},
    {__LINE__, FIXED, 3, 8, ADD_TEXT, "wxyz", ERR, 3, 9, A B C "ddddddddwx"},
    {__LINE__, SCROLLS, 3, 8, ADD_TEXT, "wxyz", OK, 3, 2, B C "ddddddddwx/yz        "},
    /* A control character is two, of which the second needs a place of its own. */
    {__LINE__, FIXED, 1, 9, ADD, "\001", OK, 2, 1, A "bbbbbbbbb^/Accccccccc/" D},
    {__LINE__, FIXED, 3, 8, ADD, "\001", ERR, 3, 9, A B C "dddddddd^A"},
    {__LINE__, FIXED, 3, 9, ADD, "\001", ERR, 3, 9, A B C "ddddddddd^"},
    {__LINE__, FIXED, 3, 7, ADD, "\177", OK, 3, 9, A B C "ddddddd^?d"},
    {__LINE__, SCROLLS, 3, 9, ADD, "\001", OK, 3, 1, B C "ddddddddd^/A         "},
    {__LINE__, FIXED, 3, 9, ADD_TEXT, "\001\002", ERR, 3, 9, A B C "ddddddddd^"},
    /* A tab is blanks to a multiple of 8; a line feed where the line ends before that, but not in the last line. */
    {__LINE__, FIXED, 0, 0, ADD, "\t", OK, 0, 8, "        aa/" B C D},
    {__LINE__, FIXED, 0, 8, ADD, "\t", OK, 1, 0, "aaaaaaaa  /" B C D},
    {__LINE__, FIXED, 3, 3, ADD, "\t", OK, 3, 8, A B C "ddd     dd"},
    {__LINE__, FIXED, 3, 8, ADD, "\t", ERR, 3, 9, A B C "dddddddd  "},
    {__LINE__, SCROLLS, 3, 8, ADD, "\t", OK, 3, 0, B C "dddddddd  /" BLANK},
    {__LINE__, FIXED, 3, 0, ADD_TEXT, "x\t\ty", ERR, 3, 9, A B C "x         "},
    /* A line feed erases the rest of the line, also where the cursor stays. */
    {__LINE__, FIXED, 0, 4, ADD, "\n", OK, 1, 0, "aaaa      /" B C D},
    {__LINE__, FIXED, 3, 4, ADD, "\n", ERR, 3, 4, A B C "dddd      "},
    {__LINE__, SCROLLS, 3, 4, ADD, "\n", OK, 3, 0, B C "dddd      /" BLANK},
    {__LINE__, FIXED, 2, 4, ADD_TEXT, "x\ny\nz", ERR, 3, 1, A B "ccccx     /y         "},
    /* A backspace and a return. */
    {__LINE__, FIXED, 3, 9, ADD, "\b", OK, 3, 8, A B C D},
    {__LINE__, FIXED, 2, 0, ADD, "\b", OK, 2, 0, A B C D},
    {__LINE__, FIXED, 3, 9, ADD, "\r", OK, 3, 0, A B C D},
    {__LINE__, FIXED, 3, 8, ADD_TEXT, "x\b\by\rz", OK, 3, 1, A B C "zddddddyxd"},
    /* The last of the lines that scroll ends as the last line of a window does. */
    {__LINE__, REGION, 2, 9, ADD, "x", ERR, 2, 9, A B "cccccccccx/" D},
    {__LINE__, REGION, 2, 4, ADD, "\n", ERR, 2, 4, A B "cccc      /" D},
    {__LINE__, REGION, 2, 8, ADD, "\t", ERR, 2, 9, A B "cccccccc  /" D},
    {__LINE__, REGION | SCROLLS, 2, 9, ADD, "x", OK, 2, 0, A "cccccccccx/" BLANK "/" D},
    {__LINE__, REGION | SCROLLS, 2, 4, ADD, "\n", OK, 2, 0, A "cccc      /" BLANK "/" D},
    /* Above them, lines follow each other. Below them, the last line follows itself. */
    {__LINE__, REGION, 0, 9, ADD, "x", OK, 1, 0, "aaaaaaaaax/" B C D},
    {__LINE__, REGION, 3, 9, ADD, "x", OK, 3, 0, A B C "dddddddddx"},
    {__LINE__, REGION | SCROLLS, 3, 9, ADD, "x", OK, 3, 0, A B C "dddddddddx"},
    {__LINE__, REGION, 3, 9, ADD, "\001", OK, 3, 1, A B C "Adddddddd^"},
    {__LINE__, REGION, 3, 8, ADD, "\t", OK, 3, 0, A B C "dddddddd  "},
    {__LINE__, REGION, 3, 4, ADD, "\n", OK, 3, 0, A B C "dddd      "},
    {__LINE__, REGION, 3, 8, ADD_TEXT, "wxyz", OK, 3, 2, A B C "yzddddddwx"},
    /* An inserted character moves the rest of the line, whose end is lost. No line begins, and the cursor stays. */
    {__LINE__, FIXED, 1, 4, INSERT, "x", OK, 1, 4, A "bbbbxbbbbb/" C D},
    {__LINE__, FIXED, 3, 9, INSERT, "x", OK, 3, 9, A B C "dddddddddx"},
    {__LINE__, FIXED, 1, 8, INSERT_TEXT, "wxyz", OK, 1, 8, A "bbbbbbbbwx/" C D},
    {__LINE__, SCROLLS, 3, 8, INSERT_TEXT, "wxyz", OK, 3, 8, A B C "ddddddddwx"},
    {__LINE__, FIXED, 1, 0, INSERT, "\001", OK, 1, 0, A "^Abbbbbbbb/" C D},
    {__LINE__, FIXED, 1, 8, INSERT, "\177", OK, 1, 8, A "bbbbbbbb^?/" C D},
    {__LINE__, SCROLLS, 3, 9, INSERT, "\001", OK, 3, 9, A B C "ddddddddd^"},
    {__LINE__, FIXED, 1, 5, INSERT, "\t", OK, 1, 5, A "bbbbb   bb/" C D},
    {__LINE__, FIXED, 1, 9, INSERT, "\t", OK, 1, 9, A "bbbbbbbbb /" C D},
    {__LINE__, FIXED, 1, 0, INSERT_TEXT, "x\ty", OK, 1, 0, A "x       yb/" C D},
    /* A line feed erases the rest of the line, and what follows it is inserted in the next one. */
    {__LINE__, FIXED, 1, 4, INSERT, "\n", OK, 1, 4, A "bbbb      /" C D},
    {__LINE__, FIXED, 3, 4, INSERT, "\n", OK, 3, 4, A B C "dddd      "},
    {__LINE__, SCROLLS, 3, 4, INSERT, "\n", OK, 3, 4, B C "dddd      /" BLANK},
    {__LINE__, FIXED, 1, 4, INSERT_TEXT, "x\ny", OK, 1, 4, A "bbbbx     /yccccccccc/" D},
    {__LINE__, FIXED, 1, 9, INSERT_TEXT, "x\ny", OK, 1, 9, A "bbbbbbbbbx/yccccccccc/" D},
    {__LINE__, FIXED, 3, 4, INSERT_TEXT, "x\ny", OK, 3, 4, A B C "ddddxy    "},
    {__LINE__, REGION | SCROLLS, 2, 4, INSERT, "\n", OK, 2, 4, A "cccc      /" BLANK "/" D},
    /* A backspace and a return go back in the line. */
    {__LINE__, FIXED, 1, 2, INSERT_TEXT, "xy\bz", OK, 1, 2, A "bbxzybbbbb/" C D},
    {__LINE__, FIXED, 1, 4, INSERT_TEXT, "xy\rz", OK, 1, 4, A "zbbbbxybbb/" C D},
    {__LINE__, FIXED, 1, 0, INSERT, "\b", OK, 1, 0, A B C D},
    {__LINE__, FIXED, 1, 9, INSERT_TEXT, "xyz\bw", OK, 1, 9, A "bbbbbbbbbw/" C D},
};

static int failed = 0;

static void check(bool holds, int line, const char *what)
{
    if (!holds) {
        fprintf(stderr, "edges.c:%d: %s\n", line, what);
        failed = 1;
    }
}

/* Gives all places of a window the letters of their lines. */
static void fill(WINDOW *window)
{
    int row, column;

    for (row = 0; row < ROWS; row++)
        for (column = 0; column < COLUMNS; column++)
            mvwaddch(window, row, column, (chtype)('a' + row));
}

static int made_call(WINDOW *window, const struct row *row)
{
    chtype character = (unsigned char)*row->text;

    switch (row->call) {
    case ADD: return waddch(window, character);
    case ADD_TEXT: return waddstr(window, row->text);
    case INSERT: return winsch(window, character);
    default: return winsstr(window, row->text);
    }
}

/* Whether a window has these cells, in these attributes. */
static bool has_cells(WINDOW *window, const char *cells)
{
    int row, column;

    for (row = 0; row < ROWS; row++)
        for (column = 0; column < COLUMNS; column++)
            if (mvwinch(window, row, column) != (unsigned char)cells[row * (COLUMNS + 1) + column])
                return false;
    return true;
}

/* Makes the call of a row in a window. */
static void try_row(WINDOW *window, const struct row *row, const char *kind)
{
    int after, column_after;

    if (!window) {
        check(false, row->line, kind);
        return;
    }
    fill(window);
    scrollok(window, (row->kind & SCROLLS) != 0);
    if (row->kind & REGION)
        wsetscrreg(window, 1, 2);
    wmove(window, row->row, row->column);
    check(made_call(window, row) == row->done, row->line, kind);
    getyx(window, after, column_after);
    check(after == row->row_after && column_after == row->column_after, row->line, kind);
    check(has_cells(window, row->cells), row->line, kind);
    delwin(window);
}

/* The same in a subwindow: around it nothing changes. */
static void try_in_subwindow(const struct row *row)
{
    WINDOW *around = newwin(ROWS + 2, COLUMNS + 2, 3, 5);
    int line;

    for (line = 0; line < ROWS + 2; line++)
        mvwhline(around, line, 0, '#', COLUMNS + 2);
    try_row(derwin(around, ROWS, COLUMNS, 1, 1), row, "subwindow");
    for (line = 0; line < ROWS + 2; line++)
        check(mvwinch(around, line, 0) == '#' && mvwinch(around, line, COLUMNS + 1) == '#', row->line, "around");
    for (line = 0; line < COLUMNS + 2; line++)
        check(mvwinch(around, 0, line) == '#' && mvwinch(around, ROWS + 1, line) == '#', row->line, "around");
    delwin(around);
}

/* Attributes and backgrounds: both characters of a control character have them, and so do the blanks of a tab. */
static void attributes(void)
{
    WINDOW *window = newwin(ROWS, COLUMNS, 0, 0);

    fill(window);
    wattrset(window, A_REVERSE);
    check(mvwaddch(window, 0, 0, '\001' | A_BOLD) == OK, __LINE__, "addch");
    check(mvwinch(window, 0, 0) == ('^' | A_BOLD | A_REVERSE), __LINE__, "addch");
    check(mvwinch(window, 0, 1) == ('A' | A_BOLD | A_REVERSE), __LINE__, "addch");
    check(mvwinsch(window, 1, 8, '\001' | A_BOLD) == OK, __LINE__, "insch");
    check(mvwinch(window, 1, 8) == ('^' | A_BOLD | A_REVERSE), __LINE__, "insch");
    check(mvwinch(window, 1, 9) == ('A' | A_BOLD | A_REVERSE), __LINE__, "insch");
    check(mvwaddch(window, 3, 8, '\t') == ERR, __LINE__, "addch");
    check(mvwinch(window, 3, 9) == (' ' | A_REVERSE), __LINE__, "addch");
    wattrset(window, A_NORMAL);
    wbkgdset(window, '.' | A_DIM);
    check(mvwinsch(window, 2, 7, '\t') == OK, __LINE__, "insch");
    check(mvwinch(window, 2, 7) == ('.' | A_DIM) && mvwinch(window, 2, 8) == 'c', __LINE__, "insch");
    check(mvwinsch(window, 2, 5, '\n') == OK, __LINE__, "insch");
    check(mvwinch(window, 2, 4) == 'c' && mvwinch(window, 2, 5) == ('.' | A_DIM), __LINE__, "insch");
    delwin(window);
}

/* At most so many characters are inserted; all of them if the number is below 1. */
static void counted(void)
{
    WINDOW *window = newwin(ROWS, COLUMNS, 0, 0);

    fill(window);
    check(mvwinsnstr(window, 0, 0, "xyz", 2) == OK, __LINE__, "insnstr");
    check(mvwinsnstr(window, 1, 0, "xyz", 0) == OK, __LINE__, "insnstr");
    check(mvwinsnstr(window, 2, 0, "xyz", -1) == OK, __LINE__, "insnstr");
    check(mvwinsnstr(window, 3, 0, "xyz", 9) == OK, __LINE__, "insnstr");
    check(has_cells(window, "xyaaaaaaaa/xyzbbbbbbb/xyzccccccc/xyzddddddd"), __LINE__, "insnstr");
    check(winsch(NULL, 'x') == ERR && winsstr(NULL, "x") == ERR, __LINE__, "no window");
    delwin(window);
}

int main(void)
{
    FILE *nothing = fopen("/dev/null", "r+");
    SCREEN *screen = nothing ? newterm("xterm", nothing, nothing) : NULL;
    size_t n;

    if (!screen) {
        puts("edges: no screen on the terminal xterm");
        return 1;
    }
    for (n = 0; n < sizeof rows / sizeof *rows; n++) {
        try_row(newwin(ROWS, COLUMNS, 1, 1), &rows[n], "window");
        try_in_subwindow(&rows[n]);
        try_row(newpad(ROWS, COLUMNS), &rows[n], "pad");
        try_row(newwin(ROWS, COLUMNS, LINES - 2, COLS - 5), &rows[n], "over the edge");
    }
    attributes();
    counted();
    endwin();
    delscreen(screen);
    fclose(nothing);
    printf("edges: %u rows %s\n", (unsigned)n, failed ? "not as wanted" : "as wanted");
    return failed;
}
