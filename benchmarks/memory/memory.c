/* Fills a screen with text, and shows it: what a program holds of memory, and how much it held at most.
   Usage: memory ROWS COLUMNS, with TERM set. Prints both in kilobytes, without what it held before it began. */
#include <curses.h>
#include <stdio.h>
#include <stdlib.h>
#include <string.h>

/* A figure of /proc/self/status in kilobytes. */
static long status(const char *name)
{
    FILE *file = fopen("/proc/self/status", "r");
    char line[256];
    long kilobytes = 0;

    while (file && fgets(line, sizeof line, file))
        if (strncmp(line, name, strlen(name)) == 0)
            kilobytes = atol(line + strlen(name));
    if (file)
        fclose(file);
    return kilobytes;
}

int main(int count, char **words)
{
    FILE *nowhere = fopen("/dev/null", "w");
    long before, held, most;
    int row, column;

    if (count != 3 || !nowhere)
        return 2;
    before = status("VmRSS:");
    setenv("LINES", words[1], 1);
    setenv("COLUMNS", words[2], 1);
    if (!newterm(NULL, nowhere, stdin))
        return 1;
    for (row = 0; row < LINES; row++)
        for (column = 0; column < COLS; column++)
            mvaddch(row, column, (chtype)('a' + (row * 7 + column * 3) % 26));
    refresh();
    held = status("VmRSS:");
    most = status("VmHWM:");
    endwin();
    printf("%ld %ld\n", held - before, most - before);
    return 0;
}
