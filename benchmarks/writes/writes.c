/* Opens a screen of curses.h on the entry that TERM names, fills it with one character, shows it and closes it, on the
   standard output. Usage: writes ROWS COLUMNS */
#include <curses.h>
#include <stdlib.h>

int main(int argc, char **argv)
{
    const char *entry = getenv("TERM");

    if (argc != 3)
        return 2;
    /* The size of the screen is that of these variables. */
    setenv("LINES", argv[1], 1);
    setenv("COLUMNS", argv[2], 1);
    if (!entry || !newterm(entry, stdout, fopen("/dev/null", "r")))
        return 1;
    wbkgdset(stdscr, 'x');
    werase(stdscr);
    if (wrefresh(stdscr) == ERR)
        return 1;
    return endwin() == ERR;
}
