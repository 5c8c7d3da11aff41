/* Makes one small call of curses.h again and again, 60 calls for each time: in a row, as a text is written, or scattered,
   each at another place, with another attribute or on another window than the one before.
   Usage: calls CALL TIMES */
#include <curses.h>
#include <stdio.h>
#include <stdlib.h>
#include <string.h>

/* How many calls one time is. */
#define CALLS 60

static const char forty[] = "The quick brown fox jumps over the dog..";
static volatile int seen;

static void ask_cursor(void)
{
    int row, column, n;

    for (n = 0; n < CALLS; n++) {
        getyx(stdscr, row, column);
        seen = row;
        seen = column;
    }
}

static void set_attributes(void)
{
    int n;

    for (n = 0; n < CALLS; n++)
        attrset(n % 2 ? A_BOLD : A_REVERSE);
}

static void set_pairs(void)
{
    int n;

    for (n = 0; n < CALLS; n++)
        attrset(COLOR_PAIR(1 + n % 2) | A_BOLD);
}

static void read_cell(void)
{
    int n;

    for (n = 0; n < CALLS; n++)
        seen = (int)inch();
}

static void move_cursor(void)
{
    int n;

    for (n = 0; n < CALLS; n++)
        move(n % 16, n);
}

/* The move before what is added, by itself. */
static void begin_line(void)
{
    move(5, 3);
}

static void add_characters(void)
{
    int n;

    begin_line();
    for (n = 0; n < CALLS; n++)
        addch('a' + n % 16);
}

static void add_words(void)
{
    int n;

    for (n = 0; n < CALLS; n++) {
        if (n % 15 == 0)
            begin_line();
        addstr("hello");
    }
}

static void add_texts(void)
{
    int n;

    for (n = 0; n < CALLS; n++) {
        begin_line();
        addstr(forty);
    }
}

/* To a place far from the one before, in both directions. */
static void move_far(int n)
{
    move(n * 7 % 23, n * 11 % 73);
}

static void move_scattered(void)
{
    int n;

    for (n = 0; n < CALLS; n++)
        move_far(n);
}

static void add_scattered(void)
{
    int n;

    for (n = 0; n < CALLS; n++) {
        move_far(n);
        addch('a' + n % 16);
    }
}

static void add_scattered_words(void)
{
    int n;

    for (n = 0; n < CALLS; n++) {
        move_far(n);
        addstr("hello");
    }
}

static void read_scattered(void)
{
    int n;

    for (n = 0; n < CALLS; n++) {
        move_far(n);
        seen = (int)inch();
    }
}

/* Two pens in turn. */
static void take_pen(int n)
{
    attrset(n % 2 ? A_BOLD : A_REVERSE);
}

static void add_in_pens(void)
{
    int n;

    begin_line();
    for (n = 0; n < CALLS; n++) {
        take_pen(n);
        addch('a' + n % 16);
    }
}

static void add_words_in_pens(void)
{
    int n;

    for (n = 0; n < CALLS; n++) {
        if (n % 15 == 0)
            begin_line();
        take_pen(n);
        addstr("hello");
    }
}

static void add_scattered_in_pens(void)
{
    int n;

    for (n = 0; n < CALLS; n++) {
        move_far(n);
        take_pen(n);
        addch('a' + n % 16);
    }
}

/* One of four windows, six lines each. */
static WINDOW *window_of(int n)
{
    static WINDOW *windows[4];

    if (!windows[n % 4])
        windows[n % 4] = newwin(6, 0, n % 4 * 6, 0);
    return windows[n % 4];
}

static void add_on_windows(void)
{
    int n;

    for (n = 0; n < CALLS; n++) {
        if (n < 4)
            wmove(window_of(n), 3, 3);
        waddch(window_of(n), 'a' + n % 16);
    }
}

static void add_words_on_windows(void)
{
    int n;

    for (n = 0; n < CALLS; n++) {
        wmove(window_of(n), n * 7 % 5, n * 11 % 73);
        waddstr(window_of(n), "hello");
    }
}

static void copy_nothing(void)
{
    int n;

    for (n = 0; n < CALLS; n++)
        wnoutrefresh(stdscr);
}

static void copy_in_turn(void)
{
    static WINDOW *other;
    int n;

    if (!other)
        other = newwin(0, 0, 0, 0);
    for (n = 0; n < CALLS; n++)
        wnoutrefresh(n % 2 ? other : stdscr);
}

static void show_nothing(void)
{
    int n;

    for (n = 0; n < CALLS; n++)
        refresh();
}

/* Words in pair 1 on three lines. */
static void draw_in_pair(void)
{
    int row;

    attrset(COLOR_PAIR(1));
    for (row = 4; row < 13; row += 4)
        mvaddstr(row, 30, "in this pair");
    attrset(A_NORMAL);
    move(10, 5);
    refresh();
}

static void change_pair(void)
{
    int n;

    draw_in_pair();
    for (n = 0; n < CALLS; n++) {
        init_pair(1, n % 2 ? COLOR_RED : COLOR_GREEN, COLOR_BLUE);
        refresh();
    }
}

static void leave_and_return(void)
{
    int n;

    for (n = 0; n < CALLS; n++) {
        endwin();
        refresh();
    }
}

static void erase_all(void)
{
    int n;

    for (n = 0; n < CALLS; n++)
        erase();
}

static void draw_box(void)
{
    int n;

    for (n = 0; n < CALLS; n++)
        box(stdscr, 0, 0);
}

static void erase_line(void)
{
    int n;

    for (n = 0; n < CALLS; n++)
        clrtoeol();
}

static const struct {
    const char *name;
    void (*make)(void);
} calls[] = {
    {"getyx", ask_cursor},   {"attrset", set_attributes}, {"pair", set_pairs},      {"inch", read_cell},
    {"move", move_cursor},   {"addch", add_characters},   {"addstr5", add_words},   {"addstr40", add_texts},
    {"begin", begin_line},   {"wnoutrefresh", copy_nothing}, {"turn", copy_in_turn}, {"refresh", show_nothing},
    {"erase", erase_all},    {"box", draw_box},       {"clrtoeol", erase_line},
    {"far", move_scattered}, {"far-addch", add_scattered}, {"far-addstr5", add_scattered_words},
    {"far-inch", read_scattered}, {"pens-addch", add_in_pens}, {"pens-addstr5", add_words_in_pens},
    {"far-pens-addch", add_scattered_in_pens}, {"windows-addch", add_on_windows},
    {"windows-addstr5", add_words_on_windows}, {"init_pair", change_pair}, {"endwin", leave_and_return},
};

int main(int argc, char **argv)
{
    size_t n = 0, count = sizeof calls / sizeof *calls;
    long times;
    int row;

    while (argc == 3 && n < count && strcmp(calls[n].name, argv[1]) != 0)
        n++;
    if (argc != 3 || n == count || !newterm("xterm", fopen("/dev/null", "w"), fopen("/dev/null", "r")))
        return 2;
    /* Nobody types: what can be read of the input ends no update. */
    typeahead(-1);
    start_color();
    init_pair(1, COLOR_RED, COLOR_BLUE);
    init_pair(2, COLOR_GREEN, COLOR_BLUE);
    /* A screen of text: ncurses looks through the blank lines at the end of one in each update. */
    for (row = 0; row < LINES; row++)
        mvaddstr(row, 0, forty);
    move(10, 5);
    refresh();
    for (times = atol(argv[2]); times > 0; times--)
        calls[n].make();
    return 0;
}
