/* A new size of the terminal: a handle of that size with the same windows. */

/* Where a window lies along one direction, and how long it is there. */
struct span {
    int begin, length;
};

/* The span of a window in what holds it, whose length was `before` and is `after`: all of it goes on being all of it;
   otherwise it is moved, and cut off if it is too long. */
static struct span fitted(struct span span, int before, int after)
{
    if (span.begin == 0 && span.length == before)
        span.length = after;
    if (span.length > after)
        span.length = after;
    if (span.begin + span.length > after)
        span.begin = after - span.length;
    return span;
}

/* What a window is to be in the other handle. */
struct plan {
    struct span rows, columns;
};

/* The plan of a window on a screen of this size. Rows of a window of its own count from the first of stdscr. */
static struct plan plan_of(const WINDOW *window, const struct plan *parent, int rows, int columns)
{
    const SCREEN *screen = window->screen;
    int left = rows - screen->above - screen->below;
    struct plan plan = {{0, window->rows}, {0, window->columns}};

    if (window->ripped) {
        plan.rows.begin = ripped_row(window->ripped, rows) - screen->above;
        plan.columns.length = columns;
    } else if (window->parent) {
        plan.rows.begin = window->parent_row;
        plan.columns.begin = window->parent_column;
        plan.rows = fitted(plan.rows, window->parent->rows, parent->rows.length);
        plan.columns = fitted(plan.columns, window->parent->columns, parent->columns.length);
    } else if (!is_held_as_pad(window)) {
        plan.rows.begin = getbegy(window);
        plan.columns.begin = getbegx(window);
        plan.rows = fitted(plan.rows, screen->rows, left);
        plan.columns = fitted(plan.columns, screen->columns, columns);
    }
    return plan;
}

/* Copies the cells of a window that has cells of its own. */
static void copy_cells(WINDOW *window, huttavel *to, uint32_t number, const struct plan *plan)
{
    huttavel_cell cell;
    int row, column;

    for (row = 0; row < window->rows && row < plan->rows.length; row++)
        for (column = 0; column < window->columns && column < plan->columns.length; column++) {
            if (!cell_at(window, row, column, &cell) || (cell.character == ' ' && !cell.attrs && !cell.pair))
                continue;
            huttavel_move_cursor(to, number, (uint32_t)row, (uint32_t)column);
            huttavel_color_set(to, number, cell.pair);
            huttavel_add_character(to, number, cell.character, cell.attrs, NULL);
        }
}

/* Copies what a window has besides cells, and touches it. */
static void copy_settings(WINDOW *window, huttavel *to, uint32_t number, const struct plan *plan)
{
    huttavel *from = handle_of(window);
    huttavel_cell background = {' ', 0, 0, ' '};
    uint32_t top = 0, bottom = 0;
    int row = window->front.cursor.row, column = window->front.cursor.column;
    bool is_on = false;

    huttavel_background(from, window->number, &background);
    huttavel_set_background_of(to, number, background.character, background.attrs, background.pair);
    huttavel_attr_set(to, number, window->attrs);
    huttavel_color_set(to, number, window->pair);
    huttavel_scroll_ok(to, number, window->is_scrolling);
    huttavel_is_leave_ok(from, window->number, &is_on);
    huttavel_leave_ok(to, number, is_on);
    huttavel_region(from, window->number, &top, &bottom);
    if (bottom + 1 < (uint32_t)window->rows || top > 0)
        huttavel_set_region(to, number, top, bottom);
    if (row >= plan->rows.length)
        row = plan->rows.length - 1;
    if (column >= plan->columns.length)
        column = plan->columns.length - 1;
    huttavel_move_cursor(to, number, (uint32_t)row, (uint32_t)column);
    huttavel_touch_window(to, number);
}

/* Makes a window in the other handle: an error, or its number there. */
static uint32_t make_again(const WINDOW *window, huttavel *to, uint32_t parent, const struct plan *plan, uint32_t *made)
{
    uint32_t rows = (uint32_t)plan->rows.length, columns = (uint32_t)plan->columns.length;
    uint32_t row = (uint32_t)plan->rows.begin, column = (uint32_t)plan->columns.begin;

    if (window->number == 0) {
        *made = 0;
        return HUTTAVEL_OK;
    }
    if (window->parent)
        return (is_held_as_pad(window) ? huttavel_sub_pad : huttavel_derive)(to, parent, rows, columns, row, column,
                                                                             made);
    if (is_held_as_pad(window))
        return huttavel_new_pad(to, rows, columns, made);
    return huttavel_new_window(to, rows, columns, row + (uint32_t)window->screen->above, column, made);
}

/* The numbers and plans of a screen's windows in the other handle, in the order of the list. */
struct again {
    uint32_t number;
    struct plan plan;
};

/* Where a window is in the list of its screen. */
static size_t index_of(const WINDOW *window)
{
    const WINDOW *each;
    size_t index = 0;

    for (each = window->screen->windows; each != window; each = each->next)
        index++;
    return index;
}

/* Whether the window that a handle begins with still exists. */
static bool has_first(const SCREEN *screen)
{
    const WINDOW *window;

    for (window = screen->windows; window; window = window->next)
        if (window->number == 0)
            return true;
    return false;
}

/* Makes all windows in the other handle, cells before subwindows. */
static uint32_t make_all_again(SCREEN *screen, huttavel *to, struct again *all, int rows, int columns)
{
    WINDOW *window;
    size_t index = 0;

    for (window = screen->windows; window; window = window->next, index++) {
        const struct again *parent = window->parent ? &all[index_of(window->parent)] : NULL;
        uint32_t fault;

        all[index].plan = plan_of(window, parent ? &parent->plan : NULL, rows, columns);
        fault = make_again(window, to, parent ? parent->number : 0, &all[index].plan, &all[index].number);
        if (fault != HUTTAVEL_OK)
            return fault;
        if (!window->parent)
            copy_cells(window, to, all[index].number, &all[index].plan);
    }
    index = 0;
    for (window = screen->windows; window; window = window->next, index++)
        copy_settings(window, to, all[index].number, &all[index].plan);
    return has_first(screen) ? HUTTAVEL_OK : huttavel_delete(to, 0);
}

/* Copies the colours of all pairs. */
static void copy_pairs(SCREEN *screen, huttavel *to)
{
    uint32_t pair, foreground, background;

    for (pair = 1; pair < 64; pair++)
        if (huttavel_pair_colours(&screen->handle, pair, &foreground, &background) == HUTTAVEL_OK)
            huttavel_set_pair(to, pair, foreground, background);
}

/* Puts another text in the place of the one that handlers write to leave the screen, while none of them runs. */
static void replace_plain(SCREEN *screen, struct text plain)
{
    struct text before = screen->plain;
    sigset_t all, blocked;

    sigfillset(&all);
    pthread_sigmask(SIG_SETMASK, &all, &blocked);
    screen->plain = plain;
    pthread_sigmask(SIG_SETMASK, &blocked, NULL);
    free(before.bytes);
}

/* Copies the lines that are taken off to the virtual screen, with the labels as they fit now. */
static void show_ripped(SCREEN *screen)
{
    WINDOW *window;

    if (screen->labels.is_drawn)
        draw_labels(&screen->labels);
    for (window = screen->windows; window; window = window->next)
        if (window->ripped)
            wnoutrefresh(window);
}

/* Puts the other handle in the screen's place. */
static void take_over(SCREEN *screen, huttavel to, const struct again *all, int rows, int columns)
{
    WINDOW *window;
    size_t index = 0;

    huttavel_close(&screen->handle);
    screen->handle = to;
    screen->copied = NULL;
    screen->seen.window = NULL;
    screen->shown->rows = rows;
    screen->rows = rows - screen->above - screen->below;
    screen->columns = screen->shown->columns = columns;
    screen->reading.in_handle = 0;
    for (window = screen->windows; window; window = window->next, index++) {
        window->number = all[index].number;
        window->parent_row = window->parent ? all[index].plan.rows.begin : -1;
        window->parent_column = window->parent ? all[index].plan.columns.begin : -1;
        read_window(window);
    }
    free(screen->whole);
    screen->whole = NULL;
    screen->has_patch = false;
    show_size(screen->terminal, rows, columns);
    if (screen == current) {
        LINES = screen->rows;
        COLS = screen->columns;
    }
}

/* Copies what the screen shows to the other handle, so that it is there until the program draws anew. */
static uint32_t copy_picture(SCREEN *screen, huttavel *to, int rows, int columns)
{
    uint32_t number, fault = huttavel_new_window(to, 0, 0, 0, 0, &number);
    struct span all_rows = {0, rows}, all_columns = {0, columns};
    struct plan plan = {all_rows, all_columns};

    if (fault != HUTTAVEL_OK)
        return fault;
    copy_cells(screen->shown, to, number, &plan);
    huttavel_noutrefresh(to, number);
    return huttavel_delete(to, number);
}

/* Whether a screen on a terminal of this size has another one than before. */
static bool is_other_size(const SCREEN *screen, int rows, int columns)
{
    return rows != screen->shown->rows || columns - screen->left_out != screen->shown->columns;
}

/* Gives a screen the size that it has on a terminal of this one. ERR, and all stays, if it leaves no place for stdscr
   or memory runs out. */
static int resize_to(SCREEN *screen, int rows, int given)
{
    int columns = given - screen->left_out;
    huttavel to = HUTTAVEL_CLOSED_HANDLE;
    size_t count = 0;
    const WINDOW *window;
    struct again *all;
    struct text plain = {NULL, 0};
    bool is_done = false;

    if (rows <= screen->above + screen->below || columns <= 0 || rows > LARGEST || given > LARGEST)
        return ERR;
    for (window = screen->windows; window; window = window->next)
        count++;
    all = calloc(count + 1, sizeof *all);
    if (all && write_waiting(screen) == OK &&
        open_handle(screen, &to, (uint32_t)rows, (uint32_t)given) == HUTTAVEL_OK)
        plain = plain_text(&to);
    if (plain.bytes && copy_picture(screen, &to, rows, columns) == HUTTAVEL_OK &&
        make_all_again(screen, &to, all, rows, columns) == HUTTAVEL_OK) {
        copy_pairs(screen, &to);
        replace_plain(screen, plain);
        take_over(screen, to, all, rows, columns);
        show_ripped(screen);
        is_done = true;
    } else {
        huttavel_close(&to);
        free(plain.bytes);
    }
    free(all);
    return is_done ? OK : ERR;
}

/* Gives a screen the size that its terminal has now. */
static void resize(SCREEN *screen)
{
    uint32_t rows, columns;

    screen->is_resized = 0;
    ask_size(screen->output, &rows, &columns);
    if (rows && is_other_size(screen, (int)rows, (int)columns) && resize_to(screen, (int)rows, (int)columns) == OK)
        screen->has_new_size = true;
}

bool is_term_resized(int rows, int columns)
{
    return current && rows > 0 && columns > 0 && is_other_size(current, rows, columns);
}

int resize_term(int rows, int columns)
{
    if (!current || rows <= 0 || columns <= 0)
        return ERR;
    return is_other_size(current, rows, columns) ? resize_to(current, rows, columns) : OK;
}

/* The same, and the next key is KEY_RESIZE if the size is another one. */
int resizeterm(int rows, int columns)
{
    bool is_other = is_term_resized(rows, columns);

    if (resize_term(rows, columns) == ERR)
        return ERR;
    if (is_other)
        current->has_new_size = true;
    return OK;
}

/* Whether a window has subwindows. */
static bool has_subwindows(const WINDOW *window)
{
    const WINDOW *each;

    for (each = window->screen->windows; each; each = each->next)
        if (each->parent == window)
            return true;
    return false;
}

/* Makes a window of the handle in the place of one that has cells of its own: a pad, or one on the screen. */
static uint32_t make_in_place(WINDOW *window, int rows, int columns, bool is_over, uint32_t *made)
{
    huttavel *handle = handle_of(window);

    if (is_over)
        return huttavel_new_pad(handle, (uint32_t)rows, (uint32_t)columns, made);
    return huttavel_new_window(handle, (uint32_t)rows, (uint32_t)columns, (uint32_t)screen_row_of(window),
                               (uint32_t)getbegx(window), made);
}

/* Gives a window that begins or ceases to reach over the edge of the screen another size. */
static int make_anew(WINDOW *window, int rows, int columns, bool is_over)
{
    struct plan plan = {{0, rows}, {0, columns}};
    huttavel *handle = handle_of(window);
    huttavel_cell background = {' ', 0, 0, ' '};
    uint32_t made;

    if (make_in_place(window, rows, columns, is_over, &made) != HUTTAVEL_OK)
        return ERR;
    huttavel_background(handle, window->number, &background);
    huttavel_set_background_of(handle, made, background.character, background.attrs, background.pair);
    huttavel_erase(handle, made);
    if (huttavel_copy(handle, window->number, made, 0, 0, 0, 0, (uint32_t)least(rows, window->rows) - 1,
                      (uint32_t)least(columns, window->columns) - 1, false) != HUTTAVEL_OK) {
        huttavel_delete(handle, made);
        return ERR;
    }
    copy_settings(window, handle, made, &plan);
    huttavel_set_region(handle, made, 0, (uint32_t)rows - 1);
    huttavel_delete(handle, window->number);
    window->number = made;
    return OK;
}

/* Gives a window without subwindows another size. What fits stays, the rest is background; the region is the whole
   window again. */
int wresize(WINDOW *window, int rows, int columns)
{
    int row, column;
    bool is_over;

    if (!window || is_shown(window) || window->ripped || rows <= 0 || columns <= 0 || has_subwindows(window))
        return ERR;
    row = window->is_pad ? 0 : getbegy(window);
    column = window->is_pad ? 0 : getbegx(window);
    is_over = window->parent ? window->is_over
                             : !window->is_pad && (rows > window->screen->rows - row ||
                                                   columns > window->screen->columns - column);
    if (is_over != window->is_over) {
        if (make_anew(window, rows, columns, is_over) != OK)
            return ERR;
    } else if (huttavel_resize_window(handle_of(window), window->number, (uint32_t)rows, (uint32_t)columns) !=
               HUTTAVEL_OK)
        return ERR;
    window->is_over = is_over;
    window->row = row;
    window->column = column;
    read_window(window);
    return OK;
}
