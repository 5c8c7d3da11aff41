/* Calls that read cells. */

/* The cell at a place of a window; of curscr, what the last update brought the terminal to. False if there is none. */
static bool cell_at(WINDOW *window, int row, int column, huttavel_cell *cell)
{
    if (is_shown(window))
        return huttavel_wanted_cell(handle_of(window), (uint32_t)row, (uint32_t)column, cell) == HUTTAVEL_OK;
    return huttavel_cell_at(handle_of(window), number_of(window), (uint32_t)row, (uint32_t)column, cell) == HUTTAVEL_OK;
}

/* Copies cells of a line of a window, from a column on, at most so many: how many; 0 where there are none. The handle
   need not know where the cursor is for that, and nothing changes by it. */
static int cells_at(const WINDOW *window, int row, int column, huttavel_cell *cells, int most)
{
    size_t count = 0;

    if (window->screen->added.length > 0)
        settle(window);
    huttavel_cells(&window->screen->handle, window->number, (uint32_t)row, (uint32_t)column, cells, (size_t)most, &count);
    return (int)count;
}

/* The character at the cursor of curscr. */
static chtype shown_character(WINDOW *window)
{
    huttavel_cell cell;
    uint32_t row = 0, column = 0;

    huttavel_wanted_cursor(handle_of(window), &row, &column);
    return cell_at(window, (int)row, (int)column, &cell) ? character_of(window->screen, cell) : (chtype)ERR;
}

/* Reads the character at the cursor of a window; also those around it, if the one that was read last is in the same
   line. */
static SELDOM chtype read_character(WINDOW *window)
{
    const struct huttavel_curses_place *cursor = &window->front.cursor;
    struct seen *seen = &window->screen->seen;
    int before = 0, most = 1, n;
    huttavel_cell cells[CELLS_READ];

    if (is_shown(window))
        return shown_character(window);
    if (seen->window == window && seen->row == cursor->row) {
        before = cursor->column % CELLS_READ;
        most = CELLS_READ;
    }
    seen->row = cursor->row;
    seen->column = cursor->column - before;
    seen->count = cells_at(window, seen->row, seen->column, cells, most);
    seen->window = window;
    for (n = 0; n < seen->count; n++)
        seen->characters[n] = character_of(window->screen, cells[n]);
    return before < seen->count ? seen->characters[before] : (chtype)ERR;
}

/* Most characters were read with one beside them, while nothing else was asked about a window. */
chtype winch(WINDOW *window)
{
    const struct seen *seen;
    unsigned ahead;

    if (!window)
        return (chtype)ERR;
    seen = &window->screen->seen;
    ahead = (unsigned)window->front.cursor.column - (unsigned)seen->column;
    if (seen->window == window && seen->row == window->front.cursor.row && ahead < (unsigned)seen->count)
        return seen->characters[ahead];
    return read_character(window);
}

/* Where cells that are read go: as chtypes, as cells of wide characters, or as a text; how many there are, and how many
   there may be. */
struct read {
    chtype *characters;
    cchar_t *wide;
    wchar_t *wide_text;
    char *text;
    int count, most;
};

/* The cell of a wide character. */
static cchar_t wide_of(const SCREEN *screen, huttavel_cell cell)
{
    cchar_t wide = {(attr_t)cell.attrs << 8 | COLOR_PAIR(named_pair(screen, cell.pair)), {0}};

    wide.chars[0] = (wchar_t)cell.character;
    return wide;
}

/* Puts the character of a cell behind a text: its bytes in UTF-8, or the byte that stands for it. False if there is no
   room for all of them. */
static bool read_text(const SCREEN *screen, struct read *read, const huttavel_cell *cell)
{
    uint8_t bytes[LONGEST_SEQUENCE] = {cell->byte};
    int size = screen->is_utf8 ? (int)encode(cell->character, bytes) : 1;

    if (size > read->most - read->count)
        return false;
    memcpy(read->text + read->count, bytes, (size_t)size);
    read->count += size;
    return true;
}

/* Takes a cell over. False if there is no room for it. */
static bool read_cell(const SCREEN *screen, struct read *read, const huttavel_cell *cell)
{
    if (read->text)
        return read_text(screen, read, cell);
    if (read->count == read->most)
        return false;
    if (read->characters)
        read->characters[read->count] = character_of(screen, *cell);
    else if (read->wide)
        read->wide[read->count] = wide_of(screen, *cell);
    else
        read->wide_text[read->count] = (wchar_t)cell->character;
    read->count++;
    return true;
}

/* Reads from the cursor to the end of the line, at most so much if `most` is not negative. How much there was. */
static int read_from_cursor(WINDOW *window, struct read read, int most)
{
    int row = window->front.cursor.row, column = window->front.cursor.column, count, n;
    huttavel_cell cells[LONGEST_READ];

    read.most = most < 0 ? INT_MAX : most;
    do {
        count = read.most - read.count > LONGEST_READ ? LONGEST_READ : read.most - read.count;
        count = cells_at(window, row, column, cells, count);
        column += count;
        for (n = 0; n < count && read_cell(window->screen, &read, &cells[n]); n++)
            ;
    } while (count > 0 && n == count);
    return read.count;
}

int winchnstr(WINDOW *window, chtype *cells, int most)
{
    struct read read = {.characters = cells};

    if (!window || !cells || is_shown(window))
        return ERR;
    cells[read_from_cursor(window, read, most)] = 0;
    return OK;
}

int winchstr(WINDOW *window, chtype *cells)
{
    return winchnstr(window, cells, -1);
}

/* How many bytes were read. */
int winnstr(WINDOW *window, char *text, int most)
{
    struct read read = {.text = text};
    int count;

    if (!window || !text || is_shown(window))
        return ERR;
    count = read_from_cursor(window, read, most);
    text[count] = '\0';
    return count;
}

int winstr(WINDOW *window, char *text)
{
    return winnstr(window, text, -1) == ERR ? ERR : OK;
}
