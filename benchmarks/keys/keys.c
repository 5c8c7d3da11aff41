/* Reads keys by ncurses' wgetch again and again, on the entry that TERM names.
   Usage: keys text|keys|broken wgetch|read KEYS COUNT: gives 720 bytes COUNT times by a pipe, and takes all keys that
   they are, or with `read` each byte by read(2) alone, as wgetch reads it. */
#include <curses.h>
#include <stdlib.h>
#include <unistd.h>

#include "stream.h"

int main(int argc, char **argv) {
    if (argc != 5) return 2;
    int by_wgetch = strcmp(argv[2], "wgetch") == 0;
    long count = atol(argv[4]);
    int ends[2];
    if (pipe(ends)) return 1;
    FILE *input = fdopen(ends[0], "r");
    const char *entry = getenv("TERM");
    if (!input || !entry || !newterm(entry, fopen("/dev/null", "w"), input)) return 1;
    noecho();
    keypad(stdscr, TRUE);
    nodelay(stdscr, TRUE);
    char stream[6 * TEXTS + 1] = "";
    write_stream(argv[1], atoi(argv[3]), stream);
    long sum = 0;
    for (long done = 0; done < count; done++) {
        if (write(ends[1], stream, 6 * TEXTS) != 6 * TEXTS) return 1;
        if (!by_wgetch) {
            unsigned char byte;
            for (int i = 0; i < 6 * TEXTS; i++) {
                if (read(ends[0], &byte, 1) != 1) return 1;
                sum += byte;
            }
            continue;
        }
        int bytes = 0;
        while (bytes < 6 * TEXTS) {
            int key = wgetch(stdscr);
            if (key == ERR) return 1;
            bytes += key > 0xff ? 6 : 1;
            sum += key;
        }
    }
    fprintf(stderr, "%ld\n", sum);
    return 0;
}
