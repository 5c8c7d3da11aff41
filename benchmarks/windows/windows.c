/* Calls one of the window calls of curses.h again and again.
   Usage: windows add|feed|erase|copy|scroll|background ROWS COLUMNS COUNT */
#include <curses.h>
#include <stdio.h>
#include <stdlib.h>
#include <string.h>

static const char line[] = "The quick brown fox jumps over the lazy dog, and the dog sleeps on as if nothing";

/* A cell that was read. */
static volatile chtype seen;

int main(int argc, char **argv) {
    if (argc != 5) return 2;
    const char *action = argv[1];
    int rows = atoi(argv[2]), columns = atoi(argv[3]);
    long count = atol(argv[4]);
    if (!newterm("xterm", fopen("/dev/null", "w"), fopen("/dev/null", "r"))) return 1;
    WINDOW *window = newpad(rows, columns);
    WINDOW *other = newpad(rows, columns);
    if (!window || !other) return 1;
    int feed = strcmp(action, "feed") == 0;
    if (feed || strcmp(action, "scroll") == 0) scrollok(window, TRUE);
    if (feed) wmove(window, rows - 1, 0);
    for (long done = 0; done < count; done++) {
        if (feed) {
            waddnstr(window, line, 80);
        } else if (strcmp(action, "add") == 0) {
            wmove(window, 0, 0);
            waddnstr(window, line, 80);
        } else if (strcmp(action, "erase") == 0) {
            werase(window);
        } else if (strcmp(action, "copy") == 0) {
            copywin(window, other, 0, 0, 0, 0, rows - 1, columns - 1, FALSE);
        } else if (strcmp(action, "scroll") == 0) {
            wscrl(window, 1);
        } else if (strcmp(action, "background") == 0) {
            wbkgd(window, done % 2 == 0 ? '.' | A_BOLD : '-' | A_DIM);
        } else {
            return 2;
        }
    }
    /* What was written may be kept until something is asked. */
    seen = winch(window);
    return 0;
}
