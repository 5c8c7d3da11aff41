/* Updates, and which lines they copy. */

/* A window over the whole screen that nothing is written on: it moves the terminal's cursor, and names all rows. */
static WINDOW *whole_window(SCREEN *screen)
{
    WINDOW *window = screen->whole;

    if (window)
        return window;
    window = spare_window(screen);
    if (!window)
        return NULL;
    if (huttavel_new_window(&screen->handle, 0, 0, 0, 0, &window->number) != HUTTAVEL_OK) {
        free(window);
        return NULL;
    }
    read_window(window);
    screen->whole = window;
    return window;
}

static void resize(SCREEN *screen);

/* Makes the next update leave the terminal's cursor at a place; anywhere for -1 and -1. Copying a window of which no
   line is touched changes the place of the cursor and nothing else. */
static int set_cursor(SCREEN *screen, int row, int column)
{
    WINDOW *window = whole_window(screen);
    bool is_anywhere = row == -1 && column == -1;
    int done;

    if (!window || untouchwin(window) == ERR || (!is_anywhere && wmove(window, row, column) == ERR))
        return ERR;
    huttavel_leave_ok(handle_of(window), window->number, is_anywhere);
    done = answer(huttavel_noutrefresh(handle_of(window), window->number));
    huttavel_leave_ok(handle_of(window), window->number, false);
    return done;
}

/* Takes over the terminal for updates again, after endwin(), at the size that it has now. */
static void resume(SCREEN *screen)
{
    if (!screen->has_ended)
        return;
    screen->has_ended = 0;
    enter_terminal(screen);
    resize(screen);
    screen->is_disturbed = 0;
    huttavel_failed(&screen->handle);
}

/* Brings the terminal to the virtual screen. No signal's handler runs while the update is made, so that one which draws
   finds the handle in order. */
static int update(SCREEN *screen)
{
    sigset_t all, before;
    uint32_t fault;

    resume(screen);
    if (write_waiting(screen) == ERR)
        return ERR;
    if (screen->is_disturbed) {
        screen->is_disturbed = 0;
        huttavel_failed(&screen->handle);
    }
    sigfillset(&all);
    pthread_sigmask(SIG_SETMASK, &all, &before);
    fault = huttavel_doupdate(&screen->handle);
    pthread_sigmask(SIG_SETMASK, &before, NULL);
    if (write_waiting(screen) == ERR)
        return ERR;
    return answer(fault);
}

int doupdate(void)
{
    return current ? update(current) : ERR;
}

/* Copies the touched lines, as far as they are on the screen, of a window that reaches over its edge. */
static int copy_over_edge(WINDOW *window)
{
    const SCREEN *screen = window->screen;
    int columns = screen->columns - window->column, line;
    int top = window->row + screen->above, left = window->column;
    bool is_anywhere = false;

    columns = columns < window->columns ? columns : window->columns;
    for (line = 0; line < window->rows && line < screen->rows - window->row && columns > 0; line++) {
        struct places places = marked(window, line);
        int last = places.last < columns ? places.last : columns - 1;

        if (is_linetouched(window, line) && places.first <= last &&
            huttavel_pad_noutrefresh(handle_of(window), window->number, (uint32_t)line, (uint32_t)places.first,
                                     (uint32_t)(top + line), (uint32_t)(left + places.first), (uint32_t)(top + line),
                                     (uint32_t)(left + last)) != HUTTAVEL_OK)
            return ERR;
    }
    untouchwin(window);
    huttavel_is_leave_ok(handle_of(window), window->number, &is_anywhere);
    if (is_anywhere)
        return set_cursor(window->screen, -1, -1);
    if (getcury(window) < screen->rows - window->row && getcurx(window) < columns)
        return set_cursor(window->screen, top + getcury(window), left + getcurx(window));
    return OK;
}

/* Copies a window, once the handle was given the rest of it, which marks places. */
static SELDOM int copy_window(WINDOW *window)
{
    bool is_fresh = window->is_fresh;

    window->was_copied = true;
    if (has_rest(window))
        settle(window);
    if (window->is_over)
        return copy_over_edge(window);
    if (!is_fresh && !window->is_whole && has_neighbours(window))
        return copy_marked(window);
    return answer(huttavel_noutrefresh(&window->screen->handle, window->number));
}

/* Copies a window to the virtual screen. For curscr, all rows are repainted. Copying changes no cell, so what was read
   of a window stays. */
int wnoutrefresh(WINDOW *window)
{
    SCREEN *screen;
    int done;

    if (!window)
        return ERR;
    screen = window->screen;
    if (is_shown(window)) {
        screen->is_disturbed = 1;
        return OK;
    }
    if (screen->copied == window && !window->is_moved)
        return OK;
    window->has_moved = false;
    if (window->is_fresh && !window->is_over && !has_rest(window))
        done = answer(huttavel_noutrefresh(&screen->handle, window->number));
    else
        done = copy_window(window);
    if (done == OK) {
        unmark(window);
        window->is_fresh = true;
        screen->copied = window;
    }
    return done;
}

int wrefresh(WINDOW *window)
{
    if (wnoutrefresh(window) == ERR)
        return ERR;
    return update(window->screen);
}

/* Whether a number is from the first to the last. */
static bool is_in(int number, int first, int last)
{
    return first <= number && number <= last;
}

/* Copies a part of a pad. What is outside the pad is left out, and places before its first count as the first. */
int pnoutrefresh(WINDOW *pad, int row, int column, int top, int left, int bottom, int right)
{
    const int part[6] = {row, column, top, left, bottom, right};
    int above = pad ? pad->screen->above : 0;
    uint32_t cursor_row = 0, cursor_column = 0;
    bool is_wanted, is_anywhere = false;

    if (!pad || !pad->is_pad)
        return ERR;
    row = row < 0 ? 0 : row;
    column = column < 0 ? 0 : column;
    top = top < 0 ? 0 : top;
    left = left < 0 ? 0 : left;
    if (row >= pad->rows || column >= pad->columns || bottom < top || right < left)
        return ERR;
    if (bottom - top > pad->rows - 1 - row)
        bottom = top + pad->rows - 1 - row;
    if (right - left > pad->columns - 1 - column)
        right = left + pad->columns - 1 - column;
    is_wanted = huttavel_wanted_cursor(handle_of(pad), &cursor_row, &cursor_column) == HUTTAVEL_OK;
    if (bottom >= pad->screen->rows ||
        huttavel_pad_noutrefresh(handle_of(pad), pad->number, (uint32_t)row, (uint32_t)column, (uint32_t)(top + above),
                                 (uint32_t)left, (uint32_t)(bottom + above), (uint32_t)right) != HUTTAVEL_OK)
        return ERR;
    memcpy(pad->part, part, sizeof part);
    pad->has_part = true;
    huttavel_is_leave_ok(handle_of(pad), pad->number, &is_anywhere);
    /* The cursor of a pad counts where it is seen; otherwise that of the window before. */
    if (!is_anywhere && is_wanted && !(is_in(getcury(pad), row, row + bottom - top) &&
                                       is_in(getcurx(pad), column, column + right - left)))
        return set_cursor(pad->screen, (int)cursor_row, (int)cursor_column);
    return OK;
}

int prefresh(WINDOW *pad, int row, int column, int top, int left, int bottom, int right)
{
    if (pnoutrefresh(pad, row, column, top, left, bottom, right) == ERR)
        return ERR;
    return update(pad->screen);
}

/* Adds a character to a pad, and copies and updates the part of it that was copied last. ERR if none was. */
int pechochar(WINDOW *pad, const chtype character)
{
    const int *part = pad ? pad->part : NULL;

    if (!pad || !pad->has_part || waddch(pad, character) == ERR)
        return ERR;
    return prefresh(pad, part[0], part[1], part[2], part[3], part[4], part[5]);
}

/* What getsyx() calls: where the next update leaves the terminal's cursor, -1 and -1 if it may be anywhere. */
void huttavel_curses_cursor(int *row, int *column)
{
    uint32_t first, second;

    *row = *column = -1;
    if (current && huttavel_wanted_cursor(&current->handle, &first, &second) == HUTTAVEL_OK) {
        *row = (int)first;
        *column = (int)second;
    }
}

/* What setsyx() calls. */
int huttavel_curses_set_cursor(int row, int column)
{
    return current ? set_cursor(current, row, column) : ERR;
}

static int move_after_end(SCREEN *screen, int row, int column);

/* Moves the terminal's cursor now. The place where it was is known, so the first two numbers are not looked at; what
   was copied and is not sent yet goes first, but not after endwin(). */
int mvcur(int old_row, int old_column, int row, int column)
{
    WINDOW *window;

    (void)old_row;
    (void)old_column;
    if (current && current->has_ended)
        return move_after_end(current, row, column);
    window = current ? whole_window(current) : NULL;
    if (!window || wmove(window, row, column) == ERR || untouchwin(window) == ERR)
        return ERR;
    return wrefresh(window);
}

int redrawwin(WINDOW *window)
{
    if (is_shown(window))
        return wnoutrefresh(window);
    return wredrawln(window, 0, getmaxy(window));
}

/* How many of `count` lines from a line on there are; as many as were given where the first is none. */
static uint32_t lines_from(const WINDOW *window, int first, int count)
{
    if (window && first >= 0 && first < window->rows && count > window->rows - first)
        count = window->rows - first;
    return (uint32_t)count;
}

/* Marks rows of the screen where lines of a window lie that reaches over its edge. ERR if the first is outside. */
static int redraw_over_edge(WINDOW *window, int first, int count)
{
    WINDOW *whole = whole_window(window->screen);
    int rows = window->screen->rows - window->row;

    if (!whole || first < 0 || first >= rows || count < 0 || first > window->rows - count)
        return ERR;
    return answer(huttavel_redraw_lines(handle_of(whole), whole->number, (uint32_t)(screen_row_of(window) + first),
                                        (uint32_t)(count < rows - first ? count : rows - first)));
}

int wredrawln(WINDOW *window, int first, int count)
{
    if (window && window->is_over)
        return redraw_over_edge(window, first, (int)lines_from(window, first, count));
    return answer(huttavel_redraw_lines(handle_of(window), number_of(window), (uint32_t)first,
                                        lines_from(window, first, count)));
}

int touchwin(WINDOW *window)
{
    if (is_shown(window))
        return wnoutrefresh(window);
    if (window)
        mark_all(window);
    return answer(huttavel_touch_window(handle_of(window), number_of(window)));
}

int untouchwin(WINDOW *window)
{
    return answer(huttavel_untouch(handle_of(window), number_of(window)));
}

int wtouchln(WINDOW *window, int first, int count, int changed)
{
    uint32_t lines = lines_from(window, first, count);

    if (window && changed)
        mark_lines(window, first, first + (int)lines - 1);
    return answer(huttavel_touch_lines(handle_of(window), number_of(window), (uint32_t)first, lines, changed != 0));
}

int touchline(WINDOW *window, int first, int count)
{
    return wtouchln(window, first, count, true);
}

bool is_linetouched(WINDOW *window, int row)
{
    bool touched = false;

    huttavel_line_touched(handle_of(window), number_of(window), (uint32_t)row, &touched);
    return touched;
}

bool is_wintouched(WINDOW *window)
{
    bool touched = false;

    huttavel_window_touched(handle_of(window), number_of(window), &touched);
    return touched;
}

static int least(int one, int other)
{
    return one < other ? one : other;
}

/* Copies what two windows cover both, one of which reaches over the edge of the screen. */
static int copy_common(const WINDOW *source, WINDOW *target, bool overlaid)
{
    int down = getbegy(target) - getbegy(source), right = getbegx(target) - getbegx(source);
    int top = down < 0 ? -down : 0, left = right < 0 ? -right : 0;
    int bottom = least(target->rows, source->rows - down) - 1, end = least(target->columns, source->columns - right) - 1;

    if (source->is_pad || target->is_pad)
        return ERR;
    if (bottom < top || end < left)
        return OK;
    return copywin(source, target, top + down, left + right, top, left, bottom, end, overlaid);
}

int overlay(const WINDOW *source, WINDOW *target)
{
    if (!source || !target || source->screen != target->screen)
        return ERR;
    if (source->is_over || target->is_over)
        return copy_common(source, target, true);
    return changed(target, answer(huttavel_overlay(handle_of(source), source->number, target->number)));
}

int overwrite(const WINDOW *source, WINDOW *target)
{
    if (!source || !target || source->screen != target->screen)
        return ERR;
    if (source->is_over || target->is_over)
        return copy_common(source, target, false);
    return changed(target, answer(huttavel_overwrite(handle_of(source), source->number, target->number)));
}

int copywin(const WINDOW *source, WINDOW *target, int row, int column, int top, int left, int bottom, int right,
            int overlaid)
{
    if (!source || !target || source->screen != target->screen)
        return ERR;
    return changed(target, answer(huttavel_copy(handle_of(source), source->number, target->number, (uint32_t)row,
                                                (uint32_t)column, (uint32_t)top, (uint32_t)left, (uint32_t)bottom,
                                                (uint32_t)right, overlaid != 0)));
}
