/* Lines that are taken off the top and the bottom before a screen is opened, each with a window of its own. */

/* What ripoffline() asked for since a screen was opened last. */
static struct {
    bool is_top;
    int (*init)(WINDOW *, int);
} asked_lines[RIPPED];
static int asked_count;

int ripoffline(int line, int (*init)(WINDOW *, int))
{
    if (line == 0)
        return OK;
    if (asked_count == RIPPED)
        return ERR;
    asked_lines[asked_count].is_top = line > 0;
    asked_lines[asked_count].init = init;
    asked_count++;
    return OK;
}

/* Whether a line was asked for with this. */
static bool is_line_asked(int (*init)(WINDOW *, int))
{
    int n;

    for (n = 0; n < asked_count; n++)
        if (asked_lines[n].init == init)
            return true;
    return false;
}

/* The row of the screen where a window of a line lies, if the screen has so many rows. */
static int ripped_row(int ripped, int rows)
{
    return ripped > 0 ? ripped - 1 : rows + ripped;
}

/* Makes the windows of the lines, and stdscr of what is left, in place of the window that the handle begins with. */
static bool make_ripped(SCREEN *screen)
{
    int rows = screen->rows, columns = screen->columns, n;
    WINDOW *standard;

    for (n = 0; n < asked_count; n++) {
        int ripped = asked_lines[n].is_top ? ++screen->above : -(++screen->below);
        WINDOW *line = new_window(screen, 1, columns, ripped_row(ripped, rows), 0);

        if (!line)
            return false;
        line->ripped = ripped;
    }
    screen->rows = rows - screen->above - screen->below;
    standard = new_window(screen, screen->rows, columns, screen->above, 0);
    if (!standard || delwin(screen->standard) == ERR)
        return false;
    screen->standard = standard;
    return true;
}

/* Takes the lines off a screen that has none taken off. With too few rows for all of them and one more, it keeps its
   lines. False if memory runs out. */
static bool take_lines_off(SCREEN *screen)
{
    if (asked_count == 0 || screen->rows <= asked_count)
        return true;
    return make_ripped(screen);
}

/* Calls what was given with each line, and forgets what was asked for. */
static void begin_lines(SCREEN *screen)
{
    WINDOW *window = screen->windows;
    int n = 0, count = asked_count;

    asked_count = 0;
    for (; window && n < count; window = window->next)
        if (window->ripped) {
            if (asked_lines[n].init)
                asked_lines[n].init(window, window->columns);
            n++;
        }
}
