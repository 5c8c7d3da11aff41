/* Draws, takes and updates by curses.h again and again, on the entry that TERM names.
   Usage: update draw|take|update character|lines|status|scattered|page|moved|letter ROWS COLUMNS NUMBER COUNT */
#define _GNU_SOURCE
#include <curses.h>
#include <stdint.h>
#include <stdio.h>
#include <stdlib.h>
#include <string.h>
#include <sys/mman.h>
#include <unistd.h>

/* What changes between two updates. */
enum change { CHARACTER, LINES_OF_ONE, STATUS, SCATTERED, PAGE, MOVED, LETTER, CHANGES };
static const char *const names[CHANGES] = {"character", "lines", "status", "scattered", "page", "moved", "letter"};

/* A cell that was read. */
static volatile chtype seen;

/* Letters, each as often as it comes among 64 of an English text. */
static const char letters[] = "eeeeeeeettttttaaaaaoooooiiiinnnnsssshhhhrrrrdddlllccuummwfgypbvk";

/* The next random number, below 65,536. */
static uint32_t next(uint32_t *state) {
    *state = *state * 1103515245u + 12345u;
    return *state >> 16;
}

/* How many columns the next line may take: it lies between two paragraphs, ends one, or goes on to the margin. */
static uint32_t next_width(uint32_t *state) {
    switch (next(state) % 8) {
    case 0: return 0;
    case 1:
    case 2: return next(state) % COLS;
    default: return COLS - 1;
    }
}

/* Writes a line of words, with a blank behind each, and says how long it is. */
static uint32_t write_line(uint32_t *state, uint32_t width, char *line) {
    uint32_t end = 0;
    for (uint32_t word = 0; word < width; word++) {
        uint32_t length = 2 + next(state) % 9;
        if (end + length > width) break;
        for (uint32_t letter = 1; letter < length; letter++) line[end++] = letters[next(state) % 64];
        line[end++] = ' ';
    }
    return end;
}

/* Writes the page of a seed onto a blank window, from one of its lines on. */
static void draw_page(WINDOW *window, uint32_t seed, int first) {
    char line[500];
    for (int row = -first; row < LINES; row++) {
        uint32_t width = next_width(&seed);
        uint32_t length = write_line(&seed, width, line);
        if (row < 0) continue;
        wmove(window, row, 0);
        waddnstr(window, line, length);
    }
    wmove(window, 0, 0);
}

/* Writes a line of words over three quarters of the middle row. */
static void draw_line(WINDOW *window, uint32_t seed) {
    char line[500];
    uint32_t length = write_line(&seed, COLS / 4 * 3, line);
    wmove(window, LINES / 2, 0);
    wclrtoeol(window);
    waddnstr(window, line, length);
}

/* Draws what a window holds before any change. */
static void prepare(enum change change, WINDOW *window) {
    int is_first = window == stdscr;
    if (change == CHARACTER || change == LINES_OF_ONE) {
        wbkgdset(window, is_first ? 'x' : 'y');
        werase(window);
    } else if (change == MOVED)
        draw_page(window, 1, is_first ? 0 : 1);
    else
        draw_page(window, is_first || change == LETTER ? 1 : 2, 0);
    if (change == LETTER) draw_line(window, 2);
}

/* Writes one of two characters in the middle. */
static void draw_character(long done) {
    wmove(stdscr, LINES / 2, COLS / 2);
    waddch(stdscr, done % 2 ? 'x' : 'z');
}

/* Adds a text and the last four digits of a number. */
static void add_number(const char *text, long number) {
    char digits[24];
    snprintf(digits, sizeof digits, "%04ld", number % 10000);
    waddstr(stdscr, text);
    waddstr(stdscr, digits);
}

/* Types a character behind those typed before, as an editor does: the status line is written anew. */
static void draw_status(long done) {
    long column = COLS / 2 + done % (COLS / 2);
    wmove(stdscr, LINES - 1, 0);
    wclrtoeol(stdscr);
    wattrset(stdscr, A_REVERSE);
    add_number("notes.txt  column ", column);
    add_number("  size ", done + 1000);
    add_number("  key ", done);
    wattrset(stdscr, A_NORMAL);
    wmove(stdscr, LINES / 2, column);
    waddch(stdscr, 'A' + done % 26);
}

/* Types a letter behind those typed before. */
static void draw_letter(long done) {
    int column = COLS / 2 + done % (COLS / 2);
    wmove(stdscr, LINES / 2, column);
    winsch(stdscr, 'A' + done % 26);
    wmove(stdscr, LINES / 2, column + 1 < COLS ? column + 1 : column);
}

/* Writes one of two characters in each of so many places, whose pens come in turn. */
static void draw_scattered(int places, long done) {
    static const chtype pens[3] = {A_NORMAL, A_BOLD, A_REVERSE};
    for (int number = 0; number < places; number++) {
        wmove(stdscr, number * 37 % LINES, (number * 61 + 5) % COLS);
        waddch(stdscr, (done % 2 ? 'B' : 'A') | pens[number % 3]);
    }
}

/* Draws a change, and gives the window that it is in. */
static WINDOW *begin(enum change change, WINDOW *const windows[2], int number, long done) {
    switch (change) {
    case CHARACTER: draw_character(done); break;
    case STATUS: draw_status(done); break;
    case SCATTERED: draw_scattered(number, done); break;
    case LETTER: draw_letter(done); break;
    default: wtouchln(windows[done % 2], 0, number, 1); return windows[done % 2];
    }
    return stdscr;
}

/* The same, and reads a cell of it: what was drawn may be kept until something is asked, which is the drawing's then. */
static WINDOW *draw(enum change change, WINDOW *const windows[2], int number, long done) {
    WINDOW *window = begin(change, windows, number, done);
    seen = winch(window);
    return window;
}

int main(int argc, char **argv) {
    if (argc != 7) return 2;
    int takes = strcmp(argv[1], "draw") != 0;
    int updates = strcmp(argv[1], "update") == 0;
    enum change change = 0;
    while (change < CHANGES && strcmp(argv[2], names[change]) != 0) change++;
    if (change == CHANGES) return 2;
    int number = atoi(argv[5]);
    long count = atol(argv[6]);
    /* The size of the screen is that of these variables. */
    setenv("LINES", argv[3], 1);
    setenv("COLUMNS", argv[4], 1);
    /* The output is a file in memory. */
    int memory = memfd_create("output", 0);
    const char *entry = getenv("TERM");
    if (memory < 0 || !entry || !newterm(entry, fdopen(memory, "w"), fopen("/dev/null", "r"))) return 1;
    if (LINES != atoi(argv[3]) || COLS != atoi(argv[4])) return 1;
    /* No update looks for input. */
    typeahead(-1);
    WINDOW *second = newwin(0, 0, 0, 0);
    if (!second) return 1;
    idlok(second, TRUE);
    idlok(stdscr, TRUE);
    WINDOW *const windows[2] = {second, stdscr};
    for (int shown = 0; shown < 2; shown++) {
        prepare(change, windows[shown]);
        wnoutrefresh(windows[shown]);
        doupdate();
    }
    off_t before = lseek(memory, 0, SEEK_END);
    for (long done = 0; done < count; done++) {
        WINDOW *window = draw(change, windows, number, done);
        if (takes && wnoutrefresh(window) == ERR) return 1;
        if (updates && doupdate() == ERR) return 1;
    }
    printf("%ld\n", (long)(lseek(memory, 0, SEEK_END) - before));
    return 0;
}
