/* A pager: a manual that is read forward by the line and by the page, and back; a search jumps, and shows what was
   found in reverse. Headings are bold. */
#include "programs.h"

#define LENGTH 700

enum action { LINE_DOWN, LINE_UP, PAGE_DOWN, PAGE_UP, HALF_DOWN, SEARCH };

static char lines[LENGTH][LONGEST];
static bool is_heading[LENGTH];
static int top, times;
static enum action action;
static const char *wanted;

void begin_pager(void)
{
    int number;

    for (number = 0; number < LENGTH; number++) {
        int indent = 7 + 4 * below(3);

        lines[number][0] = '\0';
        is_heading[number] = is_one_of(18);
        if (is_heading[number])
            write_words(lines[number], 20);
        else if (!is_one_of(5)) {
            memset(lines[number], ' ', (size_t)indent);
            write_words(lines[number] + indent, is_one_of(4) ? below(60) : 70 - indent);
        }
    }
}

static void go(int to)
{
    int last = LENGTH - (LINES - 1);

    top = to < 0 ? 0 : to > last ? last : to;
}

/* Goes to the next line that has the word, from the first again behind the last. */
static void search(void)
{
    int distance;

    for (distance = 1; distance <= LENGTH; distance++) {
        int number = (top + distance) % LENGTH;

        if (strstr(lines[number], wanted)) {
            go(number);
            return;
        }
    }
}

static void choose(void)
{
    static const enum action likely[] = {LINE_DOWN, LINE_DOWN, LINE_DOWN, PAGE_DOWN, PAGE_DOWN,
                                         HALF_DOWN, LINE_UP,   LINE_UP,   PAGE_UP,   SEARCH};

    action = likely[below(10)];
    times = action == LINE_DOWN || action == LINE_UP ? 3 + below(12) : 1 + below(3);
    if (action == SEARCH)
        do
            wanted = random_word();
        while (strlen(wanted) < 5);
}

static void act(void)
{
    switch (action) {
    case LINE_DOWN: go(top + 1); break;
    case LINE_UP: go(top - 1); break;
    case PAGE_DOWN: go(top + LINES - 1); break;
    case PAGE_UP: go(top - (LINES - 1)); break;
    case HALF_DOWN: go(top + LINES / 2); break;
    default: search(); break;
    }
    times--;
}

/* Draws a line, with what was searched for in reverse. */
static void draw_line(int row, int number)
{
    const char *found = lines[number];

    draw_text(row, 0, is_heading[number] ? A_BOLD : A_NORMAL, lines[number]);
    while (wanted && (found = strstr(found, wanted))) {
        draw_text(row, (int)(found - lines[number]), A_REVERSE, wanted);
        found += strlen(wanted);
    }
}

void step_pager(void)
{
    static bool has_begun;
    char status[LONGEST];
    int row;

    if (has_begun) {
        if (times == 0)
            choose();
        act();
    }
    has_begun = true;
    erase();
    for (row = 0; row < LINES - 1; row++)
        draw_line(row, top + row);
    snprintf(status, sizeof status, " Manual page curses(3) line %d/%d (%d%%)", top + 1, LENGTH,
             (top + LINES - 1) * 100 / LENGTH);
    draw_text(LINES - 1, 0, A_REVERSE, status);
    wnoutrefresh(stdscr);
}
