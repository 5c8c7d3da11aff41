/* Windows that are drawn by box(), hline() and ACS_*, as programs do that know of no wide calls: a form whose fields are
   filled in, with a meter, and messages that come and go over it. */
#include "wide.h"

#define FIELDS 6

static int values[FIELDS], done, steps;
static bool is_asked;

void begin_acs(void)
{
    memset(values, 0, sizeof values);
    done = steps = 0;
    is_asked = false;
}

static void draw_message(void)
{
    WINDOW *window = newwin(6, 40, 8, 20);

    if (!window)
        exit(1);
    box(window, 0, 0);
    mvwaddch(window, 3, 0, ACS_LTEE);
    whline(window, ACS_HLINE, 38);
    mvwaddch(window, 3, 39, ACS_RTEE);
    mvwprintw(window, 1, 2, "Step %d: go on?", steps);
    mvwaddstr(window, 4, 8, "< Yes >     < No >");
    wnoutrefresh(window);
    delwin(window);
}

static void draw_field(int number)
{
    int row = 3 + 2 * number;

    mvprintw(row, 4, "Field %d", number + 1);
    mvaddch(row, 13, ACS_VLINE);
    printw(" %-20d ", values[number]);
    addch(ACS_VLINE);
    mvhline(row, 40, ACS_CKBOARD, 1 + values[number] % 30);
}

void step_acs(void)
{
    int number;

    steps++;
    values[below(FIELDS)] = below(100000);
    done = (done + below(3)) % 60;
    if (is_one_of(6))
        is_asked = !is_asked;
    erase();
    box(stdscr, 0, 0);
    mvaddch(2, 0, ACS_LTEE);
    mvhline(2, 1, ACS_HLINE, COLS - 2);
    mvaddch(2, COLS - 1, ACS_RTEE);
    mvprintw(1, 2, "Form, step %d", steps);
    for (number = 0; number < FIELDS; number++)
        draw_field(number);
    mvhline(17, 4, ACS_BLOCK, done);
    mvaddch(20, 4, ACS_DIAMOND);
    addstr(" done ");
    addch(ACS_RARROW);
    printw(" %d", done);
    wnoutrefresh(stdscr);
    if (is_asked)
        draw_message();
}
