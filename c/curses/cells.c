/* Calls that write cells as they are: without the window's attributes and background, and the cursor stays. */

/* How many cells are written at a time. */
#define PIECE 128

/* What is put aside of a window meanwhile. */
struct aside {
    huttavel_cell background;
    struct huttavel_curses_place cursor;
};

static void begin_cells(WINDOW *window, struct aside *aside)
{
    huttavel *handle = handle_of(window);

    huttavel_background(handle, window->number, &aside->background);
    aside->cursor = window->front.cursor;
    huttavel_set_background(handle, window->number, ' ', 0, 0);
    window->unended.count = 0;
}

static void end_cells(WINDOW *window, const struct aside *aside)
{
    huttavel *handle = handle_of(window);
    const huttavel_cell *background = &aside->background;

    huttavel_set_background_of(handle, window->number, background->character, background->attrs, background->pair);
    set_pen(window, window->front.pen);
    set_place(window, aside->cursor.row, aside->cursor.column);
}

/* Writes cells side by side that have the same attributes and pair. The last place of a line is written as a line of
   length 1, after which no next line is begun. */
static void put_alike(WINDOW *window, int row, int column, const huttavel_cell *cells, int count)
{
    huttavel *handle = handle_of(window);
    int inner = column + count < window->columns ? count : count - 1, n;
    uint8_t bytes[PIECE * LONGEST_SEQUENCE];
    size_t length = 0;

    for (n = 0; n < inner; n++)
        length += encode(cells[n].character, bytes + length);
    set_held_pen(window, cells->attrs, cells->pair);
    huttavel_move_cursor(handle, window->number, (uint32_t)row, (uint32_t)column);
    huttavel_add_utf8(handle, window->number, bytes, length, NULL);
    if (inner < count)
        huttavel_line_across_of(handle, window->number, cells[inner].character, 1);
}

/* Writes at most PIECE cells, of characters that cells can hold, side by side in a line that has room for them. */
static void put_cells(WINDOW *window, int row, int column, const huttavel_cell *cells, int count)
{
    while (count > 0) {
        int alike = 1;

        while (alike < count && cells[alike].attrs == cells->attrs && cells[alike].pair == cells->pair)
            alike++;
        put_alike(window, row, column, cells, alike);
        column += alike;
        cells += alike;
        count -= alike;
    }
}

/* Cells that are written from the cursor of a window on: how many were, and those that come next. */
struct row {
    WINDOW *window;
    struct aside aside;
    int written, count;
    huttavel_cell cells[PIECE];
};

static void begin_row(struct row *row, WINDOW *window)
{
    row->window = window;
    row->written = row->count = 0;
    begin_cells(window, &row->aside);
}

static void write_row(struct row *row)
{
    const struct huttavel_curses_place *cursor = &row->aside.cursor;

    put_cells(row->window, cursor->row, cursor->column + row->written, row->cells, row->count);
    row->written += row->count;
    row->count = 0;
}

static void put_cell(struct row *row, huttavel_cell cell)
{
    if (row->count == PIECE)
        write_row(row);
    row->cells[row->count++] = cell;
}

/* Gives the answer of the call. */
static int end_row(struct row *row)
{
    const struct huttavel_curses_place *cursor = &row->aside.cursor;

    write_row(row);
    end_cells(row->window, &row->aside);
    mark(row->window, cursor->row, cursor->column, cursor->column + row->written - 1);
    return changed_marked(row->window, OK);
}

/* How many places there are from the cursor to the end of the line, at most `most` if that is not negative. */
static int places_left(const WINDOW *window, int most)
{
    int left = window->columns - window->front.cursor.column;

    return most < 0 || most > left ? left : most;
}

/* How many of the characters are written, where there is room for so many; -1 if no cell can hold one of them. They end
   before one whose byte is 0. */
static int characters_in(const WINDOW *window, const chtype *characters, int most)
{
    int count;

    for (count = 0; count < most && byte_of(characters[count]); count++)
        if (!has_cell(drawn(window->screen, characters[count]).code))
            return -1;
    return count;
}

int waddchnstr(WINDOW *window, const chtype *characters, int most)
{
    struct row row;
    int count, n;

    if (!window || !characters || is_shown(window))
        return ERR;
    count = characters_in(window, characters, places_left(window, most));
    if (count < 0)
        return ERR;
    begin_row(&row, window);
    for (n = 0; n < count; n++)
        put_cell(&row, cell_of(drawn(window->screen, characters[n])));
    return end_row(&row);
}

int waddchstr(WINDOW *window, const chtype *characters)
{
    return waddchnstr(window, characters, -1);
}

/* Gives cells from the cursor on other attributes and another pair. Their characters stay. */
int wchgat(WINDOW *window, int count, attr_t attrs, short pair, const void *options)
{
    const struct huttavel_curses_place *cursor;
    huttavel_cell cell;
    struct row row;
    uint8_t held;
    int n;

    (void)options;
    if (!window || is_shown(window) || pair < 0 || pair >= pair_limit(window->screen))
        return ERR;
    held = (uint8_t)held_pair(window->screen, pair);
    count = places_left(window, count);
    begin_row(&row, window);
    cursor = &row.aside.cursor;
    for (n = 0; n < count; n++) {
        cell_at(window, cursor->row, cursor->column + n, &cell);
        cell.attrs = attrs_of(attrs);
        cell.pair = held;
        put_cell(&row, cell);
    }
    return end_row(&row);
}
