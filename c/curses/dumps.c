/* Windows and screens in files. A file begins with a line that tells its kind and the version of this format; numbers
   follow, each after a blank or at the beginning of a line: what the window or the screen is, and its cells, line by
   line. A file of any other form is refused. */

static const char window_begin[] = "huttavel window 1\n", screen_begin[] = "huttavel screen 1\n", file_end[] = "end\n";

/* The numbers of a window, in the order of the file. */
enum {
    SAVED_ROWS, SAVED_COLUMNS, SAVED_ROW, SAVED_COLUMN, SAVED_PAD, SAVED_CURSOR_ROW, SAVED_CURSOR_COLUMN, SAVED_ATTRS,
    SAVED_BACKGROUND, SAVED_TOP, SAVED_BOTTOM, SAVED_SCROLLS, SAVED_LEAVES, SAVED_KEYPAD, SAVED_UNTIMED,
    SAVED_DELAY,     /* one more than the window's, which may be -1 */
    SAVED_IMMEDIATE, SAVED_SYNCED, SAVED_COUNT
};

/* The largest number of each kind. */
static const long saved_most[SAVED_COUNT] = {
    LARGEST_PAD, LARGEST_PAD, LARGEST, LARGEST, 1, LARGEST_PAD, LARGEST_PAD, LARGEST_ATTRIBUTES, LARGEST_CELL,
    LARGEST_PAD, LARGEST_PAD, 1, 1, 1, 1, INT_MAX, 1, 1
};

/* The numbers of a screen: its size, and one more than the place of its cursor, or 0 and 0. */
static const long screen_most[4] = {LARGEST, LARGEST, LARGEST, LARGEST};

/* Tells the numbers of a window. */
static void save_window(WINDOW *window, long *saved)
{
    huttavel *handle = handle_of(window);
    uint32_t top = 0, bottom = 0;
    bool leaves = false;
    huttavel_cell background = {' ', 0, 0, ' '};
    attr_t attrs = 0;

    huttavel_background(handle, window->number, &background);
    huttavel_region(handle, window->number, &top, &bottom);
    huttavel_is_leave_ok(handle, window->number, &leaves);
    wattr_get(window, &attrs, NULL, NULL);
    saved[SAVED_ROWS] = window->rows;
    saved[SAVED_COLUMNS] = window->columns;
    saved[SAVED_ROW] = window->is_pad ? 0 : getbegy(window);
    saved[SAVED_COLUMN] = window->is_pad ? 0 : getbegx(window);
    saved[SAVED_PAD] = window->is_pad;
    saved[SAVED_CURSOR_ROW] = getcury(window);
    saved[SAVED_CURSOR_COLUMN] = getcurx(window);
    saved[SAVED_ATTRS] = (long)attrs;
    saved[SAVED_BACKGROUND] = number_of_cell(window->screen, background);
    saved[SAVED_TOP] = (long)top;
    saved[SAVED_BOTTOM] = (long)bottom;
    saved[SAVED_SCROLLS] = window->is_scrolling;
    saved[SAVED_LEAVES] = leaves;
    saved[SAVED_KEYPAD] = window->is_keypad;
    saved[SAVED_UNTIMED] = window->is_untimed;
    saved[SAVED_DELAY] = window->delay == INT_MAX ? INT_MAX : window->delay + 1;
    saved[SAVED_IMMEDIATE] = window->is_immediate;
    saved[SAVED_SYNCED] = window->is_synced;
}

int putwin(WINDOW *window, FILE *file)
{
    long saved[SAVED_COUNT];

    if (!window || !file || is_shown(window) || window->ripped)
        return ERR;
    save_window(window, saved);
    return fputs(window_begin, file) >= 0 && write_numbers(file, saved, SAVED_COUNT) && write_cells(file, window) &&
                   fputs(file_end, file) >= 0
               ? OK
               : ERR;
}

/* Gives a window the numbers and cells that were read. False if one of them cannot be its own. */
static bool restore_window(WINDOW *window, const long *saved, const huttavel_cell *cells)
{
    chtype attrs = (chtype)saved[SAVED_ATTRS];
    huttavel_cell background;

    if (!is_cell(window->screen, saved[SAVED_BACKGROUND], &background) ||
        wmove(window, (int)saved[SAVED_CURSOR_ROW], (int)saved[SAVED_CURSOR_COLUMN]) == ERR ||
        wsetscrreg(window, (int)saved[SAVED_TOP], (int)saved[SAVED_BOTTOM]) == ERR)
        return false;
    put_all(window, cells);
    huttavel_set_background_of(handle_of(window), window->number, background.character, background.attrs,
                               background.pair);
    wattr_set(window, attrs, (short)PAIR_NUMBER(attrs), NULL);
    scrollok(window, saved[SAVED_SCROLLS] != 0);
    leaveok(window, saved[SAVED_LEAVES] != 0);
    window->is_keypad = saved[SAVED_KEYPAD] != 0;
    window->is_untimed = saved[SAVED_UNTIMED] != 0;
    window->delay = (int)saved[SAVED_DELAY] - 1;
    window->is_immediate = saved[SAVED_IMMEDIATE] != 0;
    window->is_synced = saved[SAVED_SYNCED] != 0;
    return true;
}

/* Reads a window that putwin() wrote. NULL, and nothing was made, if it is of another form or has no place here. */
WINDOW *getwin(FILE *file)
{
    long saved[SAVED_COUNT];
    huttavel_cell *cells;
    WINDOW *window = NULL;

    if (!current || !file || !read_exactly(file, window_begin) || !read_numbers(file, saved_most, saved, SAVED_COUNT) ||
        saved[SAVED_ROWS] == 0 || saved[SAVED_COLUMNS] == 0 || saved[SAVED_ROWS] > LARGEST_PAD / saved[SAVED_COLUMNS])
        return NULL;
    cells = read_cells(file, (int)saved[SAVED_ROWS], (int)saved[SAVED_COLUMNS]);
    if (cells && read_exactly(file, file_end))
        window = saved[SAVED_PAD] ? newpad((int)saved[SAVED_ROWS], (int)saved[SAVED_COLUMNS])
                                  : newwin((int)saved[SAVED_ROWS], (int)saved[SAVED_COLUMNS], (int)saved[SAVED_ROW],
                                           (int)saved[SAVED_COLUMN]);
    if (window && !restore_window(window, saved, cells)) {
        delwin(window);
        window = NULL;
    }
    free(cells);
    return window;
}

/* Writes what the next update brings the terminal to. */
int scr_dump(const char *name)
{
    FILE *file = current && name ? fopen(name, "w") : NULL;
    long numbers[4];
    int row, column;
    bool is_written;

    if (!file)
        return ERR;
    huttavel_curses_cursor(&row, &column);
    numbers[0] = current->shown->rows;
    numbers[1] = current->shown->columns;
    numbers[2] = row + 1;
    numbers[3] = column + 1;
    is_written = fputs(screen_begin, file) >= 0 && write_numbers(file, numbers, 4) &&
                 write_cells(file, current->shown) && fputs(file_end, file) >= 0;
    return fclose(file) == 0 && is_written ? OK : ERR;
}

/* Reads the cells of a screen of this size, and where its cursor is; NULL if the file has none. */
static huttavel_cell *read_screen(const char *name, int *row, int *column)
{
    FILE *file = current && name ? fopen(name, "r") : NULL;
    huttavel_cell *cells = NULL;
    long numbers[4];

    if (!file)
        return NULL;
    if (read_exactly(file, screen_begin) && read_numbers(file, screen_most, numbers, 4) &&
        numbers[0] == current->shown->rows && numbers[1] == current->shown->columns && numbers[2] <= numbers[0] &&
        numbers[3] <= numbers[1] && !numbers[2] == !numbers[3])
        cells = read_cells(file, (int)numbers[0], (int)numbers[1]);
    if (cells && (!read_exactly(file, file_end) || fgetc(file) != EOF)) {
        free(cells);
        cells = NULL;
    }
    if (cells) {
        *row = (int)numbers[2] - 1;
        *column = (int)numbers[3] - 1;
    }
    fclose(file);
    return cells;
}

/* Makes the next update bring the terminal to what was dumped. */
int scr_restore(const char *name)
{
    int row, column, done = ERR;
    huttavel_cell *cells = read_screen(name, &row, &column);
    WINDOW *window = cells ? new_window(current, current->shown->rows, current->shown->columns, 0, 0) : NULL;

    if (window) {
        put_all(window, cells);
        touchwin(window);
        done = wnoutrefresh(window);
        delwin(window);
        huttavel_curses_set_cursor(row, column);
    }
    free(cells);
    return done;
}

/* Others left on the terminal what the file has. None of it is relied on: the next update repaints all. */
int scr_init(const char *name)
{
    int row, column;
    huttavel_cell *cells = read_screen(name, &row, &column);

    if (!cells)
        return ERR;
    free(cells);
    current->is_disturbed = 1;
    return OK;
}

int scr_set(const char *name)
{
    return scr_init(name) == ERR ? ERR : scr_restore(name);
}
