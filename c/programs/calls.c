/* A program of random calls on windows, for `compare`: each key makes some of them, and an update. What is shown has to
   be the same over any curses. The row of calls follows from STEPS_SEED. What is random is found before each call, since
   a macro may look at its arguments twice. */
#include <curses.h>
#include <stdlib.h>
#include <string.h>

#define WINDOWS 6

static WINDOW *windows[WINDOWS];
static WINDOW *pad;

static int below(int limit)
{
    return limit > 0 ? (int)(random() % limit) : 0;
}

static int is_one_of(int limit)
{
    return below(limit) == 0;
}

/* A printable character; now and then a blank. */
static chtype printable(void)
{
    return is_one_of(6) ? ' ' : (chtype)('!' + below('~' - '!'));
}

static chtype attributes(void)
{
    static const chtype all[] = {A_NORMAL, A_BOLD, A_UNDERLINE, A_REVERSE, A_DIM, A_STANDOUT};
    chtype attrs = all[below(6)];

    return is_one_of(3) ? attrs | (chtype)COLOR_PAIR(below(8)) : attrs;
}

/* A text of letters, with backspaces and returns now and then. */
static const char *text(void)
{
    static char made[64];
    int length = below(40), n;

    for (n = 0; n < length; n++)
        made[n] = is_one_of(25) ? "\b\r"[below(2)] : (char)('a' + below(26));
    made[length] = '\0';
    return made;
}

static void move_in(WINDOW *window)
{
    int rows = getmaxy(window), columns = getmaxx(window);
    int row = below(rows), column = below(columns);

    wmove(window, row, column);
}

/* Calls that write in a window at its cursor. */
static void write_in(WINDOW *window)
{
    chtype character = printable(), attrs = attributes(), other = printable(), third = printable();
    int number = below(1000), length = below(30);
    const char *words = text();

    switch (below(10)) {
    case 0:
        waddch(window, character | attrs);
        break;
    case 1:
    case 2:
        waddstr(window, words);
        break;
    case 3:
        wprintw(window, "%d of %s", number, words);
        break;
    case 4:
        winsch(window, character | attrs);
        break;
    case 5:
        whline(window, character | attrs, length);
        break;
    case 6:
        wvline(window, character | attrs, length / 3);
        break;
    case 7:
        wborder(window, character | attrs, '|', other, '-', third, '+', '#' | A_BOLD, '+');
        break;
    case 8:
        if (getcurx(window) < getmaxx(window) - 9)
            waddch(window, '\t' | attrs);
        break;
    default:
        waddnstr(window, words, length / 3);
        if (getcury(window) < getmaxy(window) - 1)
            waddch(window, '\n');
        break;
    }
}

/* Calls that erase and move what is in a window. */
static void take_from(WINDOW *window)
{
    int count = below(5) - 2;
    bool is_rare = is_one_of(4);

    switch (below(9)) {
    case 0:
        wdelch(window);
        break;
    case 1:
        winsdelln(window, count);
        break;
    case 2:
    case 3:
        wclrtoeol(window);
        break;
    case 4:
        wclrtobot(window);
        break;
    case 5:
        if (is_rare)
            werase(window);
        break;
    case 6:
        wscrl(window, count);
        break;
    case 7:
        winsertln(window);
        break;
    default:
        wdeleteln(window);
        break;
    }
}

/* Calls that set what later ones do. A region is set for one call: what follows from a place outside differs. */
static void set_in(WINDOW *window)
{
    int rows = getmaxy(window), top = below(rows - 1), bottom = top + 1 + below(rows - top - 1), count = below(5) - 2;
    chtype attrs = attributes();
    short pair = (short)below(8);
    bool is_on = is_one_of(2);

    switch (below(8)) {
    case 0:
        wattron(window, (int)attrs);
        break;
    case 1:
        wattroff(window, (int)attrs);
        break;
    case 2:
    case 3:
        wattrset(window, (int)attrs);
        break;
    case 4:
        /* Others also set what the window's bytes are written with. */
        wbkgdset(windows[4], ' ' | (attrs & ~A_COLOR));
        wattrset(windows[4], A_NORMAL);
        break;
    case 5:
        scrollok(window, is_on);
        break;
    case 6:
        scrollok(window, TRUE);
        wsetscrreg(window, top, bottom);
        wscrl(window, count);
        wsetscrreg(window, 0, rows - 1);
        break;
    default:
        wcolor_set(window, pair, NULL);
        break;
    }
}

/* Calls on two windows, and on where windows are. Some copies differ: onto a background with attributes, and between
   windows that share cells, where others write before all is read. */
static void copy_or_move(WINDOW *window)
{
    WINDOW *other = windows[below(4)];
    int row = below(10), column = below(40);
    bool is_on = is_one_of(2);

    if (window == windows[3] || other == windows[3])
        return;
    switch (below(6)) {
    case 0:
        overlay(window, other);
        break;
    case 1:
        overwrite(window, other);
        break;
    case 2:
        copywin(window, other, 0, 0, 0, 0, 2, 5, is_on);
        break;
    case 3:
        mvwin(windows[2], row, column);
        break;
    case 4:
        touchwin(window);
        break;
    default:
        clearok(window, is_on);
        break;
    }
}

/* What is read is written, so that it is seen. */
static void read_from(WINDOW *window)
{
    char read[12];
    chtype cells[8];
    int row, column, rows, columns, n, line;
    unsigned sum = 0;

    getyx(window, row, column);
    getmaxyx(window, rows, columns);
    line = below(rows);
    winnstr(window, read, 8);
    winchnstr(window, cells, 6);
    for (n = 0; cells[n]; n++)
        sum = sum * 31 + (unsigned)(cells[n] & A_CHARTEXT) + ((cells[n] & A_BOLD) ? 7u : 0u);
    mvwprintw(window, line, 0, "%d,%d/%d,%d [%s] %u %c", row, column, rows, columns, read, sum % 1000,
              (int)(winch(window) & A_CHARTEXT));
}

static void call(void)
{
    WINDOW *window = is_one_of(8) ? pad : windows[below(WINDOWS)];

    switch (below(12)) {
    case 0:
    case 1:
        move_in(window);
        break;
    case 2:
    case 3:
    case 4:
    case 5:
        write_in(window);
        break;
    case 6:
    case 7:
        /* From a place of its own: others wait with the wrap after the last place was written. */
        move_in(window);
        take_from(window);
        break;
    case 8:
        set_in(window);
        break;
    case 9:
        if (window != pad)
            copy_or_move(window);
        break;
    case 10:
        read_from(window);
        break;
    default:
        move_in(window);
        write_in(window);
        break;
    }
}

/* Windows are copied whole: where they overlap, it depends on the library which cells of a changed line are. */
static void update(void)
{
    int n;

    for (n = 0; n < WINDOWS; n++)
        if (!is_one_of(3)) {
            touchwin(windows[n]);
            wnoutrefresh(windows[n]);
        }
    if (is_one_of(3)) {
        int row = below(20), column = below(60), bottom = 4 + below(8), right = 40 + below(30);

        pnoutrefresh(pad, row, column, 4, 40, bottom, right);
    }
    doupdate();
}

int main(void)
{
    const char *seed = getenv("STEPS_SEED");
    short pair;
    int n;

    srandom(seed ? (unsigned)atoi(seed) : 1);
    initscr();
    cbreak();
    noecho();
    keypad(stdscr, TRUE);
    start_color();
#ifdef NCURSES_VERSION
    /* Pair 0 is the terminal's own colours, as with the curses.h in c/. */
    use_default_colors();
#endif
    for (pair = 1; pair < 8; pair++)
        init_pair(pair, pair, (short)(7 - pair));
    windows[0] = stdscr;
    windows[1] = newwin(10, 40, 2, 5);
    windows[2] = newwin(6, 20, 12, 30);
    windows[3] = derwin(windows[1], 5, 20, 2, 4);
    windows[4] = subwin(stdscr, 7, 30, 14, 45);
    windows[5] = newwin(0, 0, 20, 60);
    pad = newpad(40, 100);
    for (;;) {
        int key;

        touchwin(windows[5]);
        key = mvwgetch(windows[5], 0, 0);
        if (key == 'q' || key == ERR)
            break;
        for (n = 0; n < 6; n++)
            call();
        update();
    }
    endwin();
    return 0;
}
