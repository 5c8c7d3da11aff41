/* Which places of a window's lines were changed since it was copied: an update copies these alone, so that what other
   windows show beside them stays. The changes of most calls count as those of whole lines. */

static int screen_row_of(const WINDOW *window);

/* All touched lines are copied whole from now on, until the window was copied. */
static void mark_all(WINDOW *window)
{
    window->is_whole = true;
}

/* Marks places of a line, as far as the window has them. */
static void mark(WINDOW *window, int row, int first, int last)
{
    struct places *places;

    last = last < window->columns ? last : window->columns - 1;
    if (row < 0 || row >= window->rows || row >= LARGEST || first > last)
        return;
    window->is_marked = true;
    places = &window->marks[row];
    if (places->first > places->last) {
        places->first = (short)first;
        places->last = (short)last;
    }
    places->first = (short)(first < places->first ? first : places->first);
    places->last = (short)(last > places->last ? last : places->last);
}

static void mark_lines(WINDOW *window, int first, int last)
{
    int row;

    for (row = first; row <= last && row < window->rows; row++)
        mark(window, row, 0, window->columns - 1);
}

/* Nothing is marked from now on. */
static SELDOM void unmark_all(WINDOW *window)
{
    int row;

    window->is_whole = window->is_marked = false;
    for (row = 0; row < window->rows && row < LARGEST; row++) {
        window->marks[row].first = 1;
        window->marks[row].last = 0;
    }
}

/* The same, of a window in which something may be marked. */
static inline void unmark(WINDOW *window)
{
    if (window->is_whole || window->is_marked)
        unmark_all(window);
}

/* Marks what was written from a place on, so many places if all of it is printable: the cursor is at its end. Where it
   is elsewhere, the window may have scrolled. */
static void mark_written(WINDOW *window, const struct huttavel_curses_place *begun, size_t length, bool is_printable)
{
    int row = begun->row, column = begun->column;
    int end_row = window->front.cursor.row, end_column = window->front.cursor.column;
    size_t end = (size_t)column + length;

    if (is_printable && end_row == row && end == (size_t)end_column) {
        mark(window, row, column, end_column - 1);
        return;
    }
    if (window->is_scrolling && (!is_printable || end / (size_t)window->columns != (size_t)(end_row - row) ||
                                 end % (size_t)window->columns != (size_t)end_column)) {
        mark_all(window);
        return;
    }
    if (!is_printable) {
        mark_lines(window, row < end_row ? row : end_row, end_row);
        return;
    }
    mark(window, row, column, end_row > row ? window->columns - 1 : (int)end - 1);
    mark_lines(window, row + 1, end_row - 1);
    if (end_row > row)
        mark(window, end_row, 0,
             end % (size_t)window->columns == (size_t)end_column ? end_column - 1 : window->columns - 1);
}

/* The places of a line that are copied if it is touched. */
static struct places marked(const WINDOW *window, int row)
{
    struct places whole = {0, (short)(window->columns - 1)};

    if (window->is_whole || row >= LARGEST || window->marks[row].first > window->marks[row].last)
        return whole;
    return window->marks[row];
}

/* Whether other windows may show something beside what is marked of this one. */
static bool has_neighbours(const WINDOW *window)
{
    const WINDOW *each;

    for (each = window->screen->windows; each; each = each->next)
        if (each != window && !(each == window->screen->standard && !each->was_copied))
            return true;
    return false;
}

/* The pad of one line by which parts of lines are copied; NO_NUMBER if memory runs out. */
static uint32_t patch_of(SCREEN *screen)
{
    if (!screen->has_patch &&
        huttavel_new_pad(&screen->handle, 1, LARGEST, &screen->patch) == HUTTAVEL_OK)
        screen->has_patch = true;
    return screen->has_patch ? screen->patch : NO_NUMBER;
}

/* Copies what is marked of a window that lies on the screen. */
static int copy_marked(WINDOW *window)
{
    huttavel *handle = handle_of(window);
    uint32_t patch = patch_of(window->screen), top = (uint32_t)screen_row_of(window), left = (uint32_t)getbegx(window);
    int row;

    for (row = 0; row < window->rows && patch != NO_NUMBER; row++) {
        struct places places = marked(window, row);
        uint32_t first = (uint32_t)places.first, last = (uint32_t)places.last, line = (uint32_t)row;

        if (is_linetouched(window, row) &&
            (huttavel_copy(handle, window->number, patch, line, first, 0, 0, 0, last - first, false) != HUTTAVEL_OK ||
             huttavel_pad_noutrefresh(handle, patch, 0, 0, top + line, left + first, top + line, left + last) !=
                 HUTTAVEL_OK))
            return ERR;
    }
    /* Then there is only the cursor left to copy. */
    if (patch != NO_NUMBER)
        huttavel_untouch(handle, window->number);
    return answer(huttavel_noutrefresh(handle, window->number));
}
