/* Calls every function of panel.h on a screen of 6 rows and 16 columns, and compares what it shows with pictures that
   were worked out by hand. Only public calls of curses.h are made, so that ncurses can test the test:
   cc -iquote . tests/panels.c panel.c -lncurses */
#define _XOPEN_SOURCE 700

#include "panel.h"

#include <stdbool.h>
#include <stdio.h>
#include <stdlib.h>

#define CHECK(holds) check((holds), #holds, __LINE__)
#define SHOWS(...)                                                                                           \
    do {                                                                                                     \
        static const char *const picture[ROWS] = {__VA_ARGS__};                                              \
                                                                                                             \
        compare(picture, __LINE__);                                                                          \
    } while (0)

enum { ROWS = 6, COLUMNS = 16 };

static int failed = 0;

static void check(bool holds, const char *what, int line)
{
    if (!holds) {
        printf("line %d: %s\n", line, what);
        failed = 1;
    }
}

/* What the screen shows at a place. No call names a place of curscr in every curses.h, but winch() reads the one where
   the cursor is, and the cursor goes where that of the window copied last is. */
static char shown_at(int row, int column)
{
    wmove(stdscr, row, column);
    wnoutrefresh(stdscr);
    doupdate();
    return (char)(winch(curscr) & A_CHARTEXT);
}

/* Updates the screen, and compares it with a picture. All windows of panels are untouched then, and so is stdscr. */
static void compare(const char *const *picture, int line)
{
    int row, column;

    update_panels();
    check(!is_wintouched(stdscr), "stdscr is untouched", line);
    for (row = 0; row < ROWS; row++) {
        char shown[COLUMNS + 1] = "";

        for (column = 0; column < COLUMNS; column++)
            shown[column] = shown_at(row, column);
        for (column = 0; column < COLUMNS && shown[column] == picture[row][column]; column++)
            ;
        if (column < COLUMNS || picture[row][COLUMNS] != '\0') {
            printf("line %d: row %d: '%s' in place of '%s'\n", line, row, shown, picture[row]);
            failed = 1;
        }
    }
}

/* A window with a letter everywhere. */
static WINDOW *filled(int rows, int columns, int row, int column, char letter)
{
    WINDOW *window = newwin(rows, columns, row, column);

    CHECK(window != NULL);
    wbkgd(window, (chtype)letter);
    return window;
}

/* Without panels stdscr is copied alone. */
static void none(void)
{
    CHECK(panel_above(NULL) == NULL && panel_below(NULL) == NULL);
    bkgd('.');
    SHOWS("................", "................", "................", "................", "................",
          "................");
}

/* What is written below a panel appears around it. */
static void writing(PANEL *a, PANEL *b, PANEL *c)
{
    CHECK(panel_above(NULL) == a && panel_above(a) == b && panel_above(b) == c && panel_above(c) == NULL);
    CHECK(panel_below(NULL) == c && panel_below(c) == b && panel_below(b) == a && panel_below(a) == NULL);
    SHOWS(".aaaaaa.........", ".aaabbbbbb......", ".aaabbbcccccc...", "....bbbcccccc...", ".......cccccc...",
          "................");
    mvwaddch(panel_window(a), 1, 0, 'A');
    mvwaddch(panel_window(a), 1, 4, 'X');
    SHOWS(".aaaaaa.........", ".Aaabbbbbb......", ".aaabbbcccccc...", "....bbbcccccc...", ".......cccccc...",
          "................");
    mvaddch(2, 15, '#');
    mvaddch(2, 2, '*');
    SHOWS(".aaaaaa.........", ".Aaabbbbbb......", ".aaabbbcccccc..#", "....bbbcccccc...", ".......cccccc...",
          "................");
    /* The cursor is that of the panel at the top, whatever was written on. */
    mvwaddch(panel_window(a), 0, 0, 'a');
    mvwaddch(panel_window(c), 2, 5, 'C');
    wmove(panel_window(c), 2, 5);
    update_panels();
    doupdate();
    CHECK((winch(curscr) & A_CHARTEXT) == 'C');
    mvwaddch(panel_window(c), 2, 5, 'c');
}

/* Panels that leave the stack and come back, at either end. */
static void ordering(PANEL *a, PANEL *b, PANEL *c)
{
    CHECK(panel_hidden(b) == FALSE);
    CHECK(hide_panel(b) == OK && panel_hidden(b) == TRUE);
    CHECK(hide_panel(b) == OK && panel_hidden(b) == TRUE);
    CHECK(panel_above(b) == NULL && panel_below(b) == NULL && panel_above(a) == c && panel_below(c) == a);
    mvwaddch(panel_window(b), 0, 0, 'B');
    SHOWS(".aaaaaa.........", ".AaaaXa.........", ".aaaaaacccccc..#", ".......cccccc...", ".......cccccc...",
          "................");
    CHECK(show_panel(b) == OK && panel_hidden(b) == FALSE);
    CHECK(panel_below(NULL) == b && panel_above(c) == b);
    SHOWS(".aaaaaa.........", ".AaaBbbbbb......", ".aaabbbbbbccc..#", "....bbbbbbccc...", ".......cccccc...",
          "................");
    CHECK(bottom_panel(b) == OK && panel_above(NULL) == b && panel_above(b) == a);
    SHOWS(".aaaaaa.........", ".AaaaXabbb......", ".aaaaaacccccc..#", "....bbbcccccc...", ".......cccccc...",
          "................");
    CHECK(top_panel(a) == OK && panel_below(NULL) == a && panel_below(a) == c && panel_below(c) == b);
    SHOWS(".aaaaaa.........", ".AaaaXabbb......", ".aaaaaacccccc..#", "....bbbcccccc...", ".......cccccc...",
          "................");
    /* A hidden panel comes back at either end, from either call. */
    CHECK(hide_panel(b) == OK && bottom_panel(b) == OK && panel_above(NULL) == b && panel_hidden(b) == FALSE);
    CHECK(hide_panel(a) == OK && top_panel(a) == OK && panel_below(NULL) == a && panel_hidden(a) == FALSE);
}

/* Panels that go elsewhere, and that get another window. */
static void moving(PANEL *a, PANEL *b, PANEL *c)
{
    WINDOW *before = panel_window(a), *other = filled(2, 3, 0, 0, 'd');

    CHECK(move_panel(c, 1, 5) == OK && panel_above(b) == c && panel_above(c) == a);
    SHOWS(".aaaaaa.........", ".AaaaXacccc.....", ".aaaaaacccc....#", "....bcccccc.....", "................",
          "................");
    CHECK(move_panel(c, ROWS - 2, 5) == ERR);
    SHOWS(".aaaaaa.........", ".AaaaXacccc.....", ".aaaaaacccc....#", "....bcccccc.....", "................",
          "................");
    CHECK(replace_panel(a, other) == OK && panel_window(a) == other && panel_above(c) == a);
    SHOWS("ddd.............", "ddd.Bcccccc.....", "..*.bcccccc....#", "....bcccccc.....", "................",
          "................");
    /* A hidden panel moves without being shown, and appears where it is by then. */
    CHECK(hide_panel(c) == OK && move_panel(c, 3, 10) == OK && panel_hidden(c) == TRUE);
    SHOWS("ddd.............", "ddd.Bbbbbb......", "..*.bbbbbb.....#", "....bbbbbb......", "................",
          "................");
    CHECK(show_panel(c) == OK);
    SHOWS("ddd.............", "ddd.Bbbbbb......", "..*.bbbbbb.....#", "....bbbbbbcccccc", "..........cccccc",
          "..........cccccc");
    CHECK(replace_panel(a, before) == OK && delwin(other) == OK);
    SHOWS(".aaaaaa.........", ".AaaaXabbb......", ".aaaaaabbb.....#", "....bbbbbbcccccc", "..........cccccc",
          "..........cccccc");
}

/* A panel for stdscr, and a second panel for a window: each is shown as high as its highest panel is. */
static void sharing(PANEL *a, PANEL *b)
{
    PANEL *standard, *second;

    /* From the bottom: b, a, c. Now b's window lies over both. */
    second = new_panel(panel_window(b));
    CHECK(second != NULL && second != b && panel_below(NULL) == second);
    SHOWS(".aaaaaa.........", ".AaaBbbbbb......", ".aaabbbbbb.....#", "....bbbbbbcccccc", "..........cccccc",
          "..........cccccc");
    mvwaddch(panel_window(a), 2, 0, 'a');
    mvwaddch(panel_window(b), 1, 0, 'W');
    SHOWS(".aaaaaa.........", ".AaaBbbbbb......", ".aaaWbbbbb.....#", "....bbbbbbcccccc", "..........cccccc",
          "..........cccccc");
    CHECK(del_panel(second) == OK);
    standard = new_panel(stdscr);
    CHECK(standard != NULL && panel_window(standard) == stdscr);
    SHOWS("................", "................", "..*............#", "................", "................",
          "................");
    CHECK(del_panel(standard) == OK);
    SHOWS(".aaaaaa.........", ".AaaaXabbb......", ".aaaaaabbb.....#", "....bbbbbbcccccc", "..........cccccc",
          "..........cccccc");
}

static void pointing(PANEL *a, PANEL *b)
{
    static const char mine[] = "mine";

    CHECK(panel_userptr(a) == NULL);
    CHECK(set_panel_userptr(a, mine) == OK && panel_userptr(a) == mine && panel_userptr(b) == NULL);
    CHECK(set_panel_userptr(a, NULL) == OK && panel_userptr(a) == NULL);
}

/* A second screen, which is in use now, has a stack of its own. */
static void screens(SCREEN *first, SCREEN *second, PANEL *lowest, PANEL *highest)
{
    WINDOW *window;
    PANEL *panel;

    CHECK(panel_above(NULL) == NULL && panel_below(NULL) == NULL);
    CHECK(ground_panel(second) == NULL && ceiling_panel(NULL) == NULL);
    CHECK(ground_panel(first) == lowest && ceiling_panel(first) == highest);
    window = filled(2, 2, 0, 0, 'e');
    panel = new_panel(window);
    CHECK(panel_above(NULL) == panel && panel_above(panel) == NULL && panel_below(panel) == NULL);
    CHECK(panel_above(highest) == NULL && panel_below(lowest) == NULL);
    SHOWS("ee              ", "ee              ", "                ", "                ", "                ",
          "                ");
    CHECK(set_term(first) == second);
    CHECK(panel_above(NULL) == lowest && panel_below(NULL) == highest);
    CHECK(ground_panel(NULL) == lowest && ceiling_panel(NULL) == highest);
    CHECK(ground_panel(second) == panel && ceiling_panel(second) == panel);
    SHOWS(".aaaaaa.........", ".AaaaXabbb......", ".aaaaaabbb.....#", "....bbbbbbcccccc", "..........cccccc",
          "..........cccccc");
    /* It may be deleted while the first is in use, and shows so when it is in use again. */
    CHECK(del_panel(panel) == OK && delwin(window) == OK);
    CHECK(set_term(second) == first);
    SHOWS("                ", "                ", "                ", "                ", "                ",
          "                ");
    endwin();
    CHECK(set_term(first) == second);
}

static void refusals(PANEL *a)
{
    CHECK(new_panel(NULL) == NULL && panel_window(NULL) == NULL && panel_userptr(NULL) == NULL);
    CHECK(del_panel(NULL) == ERR && show_panel(NULL) == ERR && top_panel(NULL) == ERR && bottom_panel(NULL) == ERR);
    CHECK(hide_panel(NULL) == ERR && panel_hidden(NULL) == ERR && move_panel(NULL, 0, 0) == ERR);
    CHECK(replace_panel(NULL, panel_window(a)) == ERR && replace_panel(a, NULL) == ERR && panel_window(a) != NULL);
    CHECK(set_panel_userptr(NULL, "none") == ERR);
}

/* What lay below a deleted panel is shown again, also if its window was deleted first. */
static void deleting(PANEL *a, PANEL *b, PANEL *c)
{
    WINDOW *below = panel_window(b), *above = panel_window(c), *last = panel_window(a);

    CHECK(del_panel(b) == OK && delwin(below) == OK);
    SHOWS(".aaaaaa.........", ".AaaaXa.........", ".aaaaaa........#", "..........cccccc", "..........cccccc",
          "..........cccccc");
    CHECK(delwin(above) == OK && del_panel(c) == OK && panel_above(NULL) == a && panel_above(a) == NULL);
    SHOWS(".aaaaaa.........", ".AaaaXa.........", ".aaaaaa........#", "................", "................",
          "................");
    CHECK(del_panel(a) == OK && delwin(last) == OK && panel_above(NULL) == NULL);
    SHOWS("................", "................", "..*............#", "................", "................",
          "................");
}

int main(void)
{
    FILE *output = tmpfile(), *other = tmpfile(), *input = fopen("/dev/null", "r");
    SCREEN *first, *second;
    PANEL *a, *b, *c;

    setenv("LINES", "6", 1);
    setenv("COLUMNS", "16", 1);
    first = output && other && input ? newterm("xterm", output, input) : NULL;
    if (!first) {
        puts("panels: no screen on an entry of xterm");
        return 1;
    }
    none();
    a = new_panel(filled(3, 6, 0, 1, 'a'));
    b = new_panel(filled(3, 6, 1, 4, 'b'));
    c = new_panel(filled(3, 6, 2, 7, 'c'));
    if (!a || !b || !c)
        return 1;
    writing(a, b, c);
    ordering(a, b, c);
    moving(a, b, c);
    sharing(a, b);
    pointing(a, b);
    refusals(a);
    second = newterm("xterm", other, input);
    CHECK(second != NULL);
    if (second)
        screens(first, second, b, c);
    deleting(a, b, c);
    endwin();
    delscreen(first);
    delscreen(second);
    fclose(output);
    fclose(other);
    fclose(input);
    if (!failed)
        puts("panels: as wanted");
    return failed;
}
