/* Making, moving and deleting windows, and their places. */

/* Reads from the handle, which was given all, where a window's cursor is. */
static void read_cursor(WINDOW *window)
{
    uint32_t row = 0, column = 0;

    if (huttavel_cursor(&window->screen->handle, window->number, &row, &column) != HUTTAVEL_OK)
        return;
    window->front.cursor.row = (int)row;
    window->front.cursor.column = (int)column;
    window->is_moved = false;
}

/* Reads from the handle what is kept beside it of a window: its size, its cursor, and what bytes are written with. */
static void read_window(WINDOW *window)
{
    huttavel *handle = &window->screen->handle;
    uint32_t rows = 0, columns = 0;

    huttavel_size(handle, window->number, &rows, &columns);
    huttavel_written_attrs(handle, window->number, &window->attrs, &window->pair);
    read_cursor(window);
    window->rows = (int)rows;
    window->columns = (int)columns;
    window->is_whole = true;
}

/* Gives the handle's window other attributes and another pair to write with. */
static void set_held_pen(WINDOW *window, uint8_t attrs, uint32_t pair)
{
    huttavel *handle = &window->screen->handle;

    if (pair != window->pair && huttavel_color_set(handle, window->number, pair) == HUTTAVEL_OK)
        window->pair = pair;
    if (attrs != window->attrs && huttavel_attr_set(handle, window->number, attrs) == HUTTAVEL_OK)
        window->attrs = attrs;
}

/* Gives the handle the characters that were added, and marks their places. */
static void give_added(SCREEN *screen)
{
    struct added *added = &screen->added;

    if (added->length == 0)
        return;
    (added->beyond ? huttavel_add_utf8 : huttavel_add_text)(&screen->handle, added->window->number, added->bytes,
                                                            added->length, NULL);
    mark(added->window, added->begun.row, added->begun.column,
         added->begun.column + (int)(added->length - added->beyond) - 1);
    added->length = added->room = added->beyond = 0;
}

/* The handle as handle_of() gives it, but its window has this pen. */
static huttavel *handle_with(WINDOW *window, attr_t pen)
{
    huttavel *handle = &window->screen->handle;

    give_added(window->screen);
    if (window->is_moved)
        huttavel_move_cursor(handle, window->number, (uint32_t)window->front.cursor.row,
                             (uint32_t)window->front.cursor.column);
    window->is_moved = false;
    set_held_pen(window, attrs_of(pen), held_pair(window->screen, PAIR_NUMBER(pen)));
    window->front.has_other_pen = pen != window->front.pen;
    note_call(window);
    return handle;
}

static void settle(const WINDOW *window)
{
    handle_with((WINDOW *)window, window->front.pen);
}

/* Makes a place of a window that it has its cursor. */
static void set_place(WINDOW *window, int row, int column)
{
    window->front.cursor.row = row;
    window->front.cursor.column = column;
    window->is_moved = true;
}

/* Memory for a window, not of the list yet; NULL if memory runs out. */
static WINDOW *spare_window(SCREEN *screen)
{
    WINDOW *window = calloc(1, sizeof *window);

    if (!window)
        return NULL;
    window->screen = screen;
    window->number = NO_NUMBER;
    window->parent_row = window->parent_column = -1;
    window->front.cursor.row = window->front.cursor.column = ERR;
    window->delay = -1;
    return window;
}

/* A window after the others of its screen, if one was made of that number; otherwise its memory is freed. */
static WINDOW *kept_window(WINDOW *window, uint32_t fault)
{
    WINDOW **end = &window->screen->windows;

    if (fault != HUTTAVEL_OK) {
        free(window);
        return NULL;
    }
    while (*end)
        end = &(*end)->next;
    *end = window;
    read_window(window);
    window->front.pen = (attr_t)window->attrs << 8 | COLOR_PAIR(named_pair(window->screen, window->pair));
    return window;
}

/* A window at a row and a column of the screen, with the lines that are taken off; NULL if it cannot be made. */
static WINDOW *new_window(SCREEN *screen, int rows, int columns, int row, int column)
{
    WINDOW *window = spare_window(screen);

    if (!window)
        return NULL;
    return kept_window(window, huttavel_new_window(&screen->handle, (uint32_t)rows, (uint32_t)columns, (uint32_t)row,
                                                   (uint32_t)column, &window->number));
}

/* A pad of the handle; NULL if it cannot be made. */
static WINDOW *new_pad(SCREEN *screen, int rows, int columns)
{
    WINDOW *pad = spare_window(screen);

    if (!pad)
        return NULL;
    return kept_window(pad, huttavel_new_pad(&screen->handle, (uint32_t)rows, (uint32_t)columns, &pad->number));
}

/* A window that reaches over the edge of the screen. */
static WINDOW *window_over_edge(SCREEN *screen, int rows, int columns, int row, int column)
{
    WINDOW *window = new_pad(screen, rows, columns);

    if (!window)
        return NULL;
    window->is_over = true;
    window->row = row;
    window->column = column;
    return window;
}

WINDOW *newwin(int rows, int columns, int row, int column)
{
    if (!current || rows < 0 || columns < 0 || row < 0 || column < 0)
        return NULL;
    rows = rows ? rows : current->rows - row;
    columns = columns ? columns : current->columns - column;
    if (rows <= 0 || columns <= 0)
        return NULL;
    if (rows > current->rows - row || columns > current->columns - column)
        return window_over_edge(current, rows, columns, row, column);
    return new_window(current, rows, columns, row + current->above, column);
}

WINDOW *newpad(int rows, int columns)
{
    WINDOW *pad = current && rows > 0 && columns > 0 ? new_pad(current, rows, columns) : NULL;

    if (pad)
        pad->is_pad = true;
    return pad;
}

/* Whether a window is a pad of the handle. */
static bool is_held_as_pad(const WINDOW *window)
{
    return window->is_pad || window->is_over;
}

/* A subwindow at a row and a column of its parent. */
static WINDOW *sub_window(WINDOW *parent, int rows, int columns, int row, int column)
{
    WINDOW *window;
    uint32_t fault;

    if (!parent || is_shown(parent) || rows < 0 || columns < 0 || row < 0 || column < 0)
        return NULL;
    window = spare_window(parent->screen);
    if (!window)
        return NULL;
    window->parent = parent;
    window->parent_row = row;
    window->parent_column = column;
    window->is_pad = parent->is_pad;
    window->is_over = parent->is_over;
    window->row = parent->row + row;
    window->column = parent->column + column;
    fault = (is_held_as_pad(parent) ? huttavel_sub_pad : huttavel_derive)(handle_of(parent), parent->number,
                                                                          (uint32_t)rows, (uint32_t)columns,
                                                                          (uint32_t)row, (uint32_t)column,
                                                                          &window->number);
    return kept_window(window, fault);
}

WINDOW *derwin(WINDOW *window, int rows, int columns, int row, int column)
{
    return sub_window(window, rows, columns, row, column);
}

WINDOW *subwin(WINDOW *window, int rows, int columns, int row, int column)
{
    if (!window || window->is_pad || row < 0 || column < 0)
        return NULL;
    return sub_window(window, rows, columns, row - getbegy(window), column - getbegx(window));
}

WINDOW *subpad(WINDOW *window, int rows, int columns, int row, int column)
{
    return window && window->is_pad ? sub_window(window, rows, columns, row, column) : NULL;
}

int delwin(WINDOW *window)
{
    WINDOW **place;

    if (!window || is_shown(window) || window->ripped ||
        huttavel_delete(handle_of(window), window->number) != HUTTAVEL_OK)
        return ERR;
    for (place = &window->screen->windows; *place != window; place = &(*place)->next)
        ;
    *place = window->next;
    if (window->screen->standard == window)
        window->screen->standard = NULL;
    if (stdscr == window)
        stdscr = NULL;
    free(window);
    return OK;
}

/* Moves a window that reached over the edge, and its subwindows, to a place where all of it is on the screen. */
static int move_over_edge(WINDOW *window, int row, int column)
{
    int down = row - window->row, right = column - window->column;
    WINDOW *each;
    const WINDOW *above;

    if (window->parent || column < 0 || column > window->screen->columns - window->columns)
        return ERR;
    for (each = window->screen->windows; each; each = each->next) {
        for (above = each; above && above != window; above = above->parent)
            ;
        if (above) {
            each->row += down;
            each->column += right;
        }
    }
    return touchwin(window);
}

int mvwin(WINDOW *window, int row, int column)
{
    if (!window || is_shown(window) || window->ripped || row < 0 || row > window->screen->rows - window->rows)
        return ERR;
    if (window->is_over)
        return move_over_edge(window, row, column);
    return answer(huttavel_move_window(handle_of(window), window->number, (uint32_t)(row + window->screen->above),
                                       (uint32_t)column));
}

int mvderwin(WINDOW *window, int row, int column)
{
    uint32_t fault = huttavel_move_derived(handle_of(window), number_of(window), (uint32_t)row, (uint32_t)column);

    if (fault == HUTTAVEL_OK) {
        window->parent_row = row;
        window->parent_column = column;
    }
    return answer(fault);
}

/* One of a window's two numbers, or ERR. */
static int number_read(uint32_t (*read)(huttavel *, uint32_t, uint32_t *, uint32_t *), const WINDOW *window,
                       bool is_second)
{
    uint32_t first = 0, second = 0;

    if (read(handle_of(window), number_of(window), &first, &second) != HUTTAVEL_OK)
        return ERR;
    return (int)(is_second ? second : first);
}

int getcury(const WINDOW *window)
{
    return window ? window->front.cursor.row : ERR;
}

int getcurx(const WINDOW *window)
{
    return window ? window->front.cursor.column : ERR;
}

/* The row of the screen where a window begins, with the lines that are taken off; ERR of a pad. */
static int screen_row_of(const WINDOW *window)
{
    if (window && window->is_over)
        return window->row + window->screen->above;
    return is_shown(window) ? 0 : number_read(huttavel_origin, window, false);
}

int getbegy(const WINDOW *window)
{
    int row = screen_row_of(window);

    return row == ERR || is_shown(window) ? row : row - window->screen->above;
}

int getbegx(const WINDOW *window)
{
    if (window && window->is_over)
        return window->column;
    return is_shown(window) ? 0 : number_read(huttavel_origin, window, true);
}

int getmaxy(const WINDOW *window)
{
    return window ? window->rows : ERR;
}

int getmaxx(const WINDOW *window)
{
    return window ? window->columns : ERR;
}

int getpary(const WINDOW *window)
{
    return window ? window->parent_row : ERR;
}

int getparx(const WINDOW *window)
{
    return window ? window->parent_column : ERR;
}

void wsyncup(WINDOW *window)
{
    WINDOW *each;

    for (each = window ? window->parent : NULL; each; each = each->parent)
        mark_all(each);
    huttavel_sync_up(handle_of(window), number_of(window));
}

void wsyncdown(WINDOW *window)
{
    if (window)
        mark_all(window);
    huttavel_sync_down(handle_of(window), number_of(window));
}

void wcursyncup(WINDOW *window)
{
    for (; window && window->parent; window = window->parent)
        wmove(window->parent, getcury(window) + window->parent_row, getcurx(window) + window->parent_column);
}

WINDOW *dupwin(WINDOW *window)
{
    WINDOW *copy;
    huttavel_cell background;
    uint32_t top = 0, bottom = 0;
    bool is_on = false;

    if (!window || is_shown(window))
        return NULL;
    copy = window->is_pad ? newpad(window->rows, window->columns)
                          : newwin(window->rows, window->columns, getbegy(window), getbegx(window));
    if (!copy)
        return NULL;
    if (copywin(window, copy, 0, 0, 0, 0, window->rows - 1, window->columns - 1, false) == ERR) {
        delwin(copy);
        return NULL;
    }
    huttavel_background(handle_of(window), window->number, &background);
    huttavel_set_background_of(handle_of(copy), copy->number, background.character, background.attrs,
                               background.pair);
    wattrset(copy, (int)window->front.pen);
    huttavel_region(handle_of(window), window->number, &top, &bottom);
    huttavel_set_region(handle_of(copy), copy->number, top, bottom);
    scrollok(copy, window->is_scrolling);
    huttavel_is_leave_ok(handle_of(window), window->number, &is_on);
    leaveok(copy, is_on);
    wmove(copy, getcury(window), getcurx(window));
    copy->is_immediate = window->is_immediate;
    copy->is_synced = window->is_synced;
    copy->is_keypad = window->is_keypad;
    copy->is_untimed = window->is_untimed;
    copy->delay = window->delay;
    return copy;
}
