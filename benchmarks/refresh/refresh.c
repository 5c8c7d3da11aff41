/* Calls touchline and wnoutrefresh of curses.h again and again, or paints the whole screen, on the entry of TERM.
   Usage: refresh touch|take|take_new|paint ROWS COLUMNS LINES COUNT */
#include <curses.h>
#include <stdio.h>
#include <stdlib.h>
#include <string.h>

int main(int argc, char **argv) {
    if (argc != 6) return 2;
    const char *action = argv[1];
    int lines = atoi(argv[4]);
    long count = atol(argv[5]);
    /* The size of the screen is that of these variables. */
    setenv("LINES", argv[2], 1);
    setenv("COLUMNS", argv[3], 1);
    const char *entry = getenv("TERM");
    if (!entry || !newterm(entry, fopen("/dev/null", "w"), fopen("/dev/null", "r"))) return 1;
    if (LINES != atoi(argv[2]) || COLS != atoi(argv[3])) return 1;
    WINDOW *first = stdscr;
    WINDOW *second = newwin(0, 0, 0, 0);
    if (!second) return 1;
    wbkgdset(first, 'x');
    werase(first);
    wbkgdset(second, 'y');
    werase(second);
    /* No update looks for input. */
    typeahead(-1);
    int takes = strncmp(action, "take", 4) == 0;
    int paints = strcmp(action, "paint") == 0;
    WINDOW *windows[2] = {first, paints || strcmp(action, "take") == 0 ? first : second};
    for (long done = 0; done < count; done++) {
        WINDOW *window = windows[done % 2];
        if (paints)
            redrawwin(window);
        else
            wtouchln(window, 0, lines, 1);
        if ((takes || paints) && wnoutrefresh(window) == ERR) return 1;
        if (paints && doupdate() == ERR) return 1;
    }
    return 0;
}
