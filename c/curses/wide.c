/* Wide characters, each with its attributes and pair. A cell holds one, of one column: what comes after the first is
   left out where a cchar_t is made, as ncurses leaves out what comes after the last combining one that it keeps. */

/* Makes a wide character of the first one of a text. */
int setcchar(cchar_t *character, const wchar_t *text, const attr_t attrs, short pair, const void *options)
{
    (void)options;
    if (!character || !text || pair < 0 || pair >= PAIRS)
        return ERR;
    if (text[0] && text[1] && is_control((uint32_t)text[0]))
        return ERR;
    memset(character, 0, sizeof *character);
    character->attr = (attrs & A_ATTRIBUTES & ~A_COLOR) | COLOR_PAIR(pair);
    character->chars[0] = text[0];
    return OK;
}

/* What a wide character is made of; or, without a text, how long that is with its end. */
int getcchar(const cchar_t *character, wchar_t *text, attr_t *attrs, short *pair, void *options)
{
    size_t length = 0, n;

    (void)options;
    if (!character)
        return ERR;
    while (length < CCHARW_MAX && character->chars[length])
        length++;
    if (!text)
        return (int)length + 1;
    if (!attrs || !pair)
        return ERR;
    for (n = 0; n < length; n++)
        text[n] = character->chars[n];
    text[length] = L'\0';
    *attrs = character->attr & A_ATTRIBUTES & ~A_COLOR;
    *pair = (short)PAIR_NUMBER(character->attr);
    return OK;
}

/* What is written for a wide character in a window. */
static struct rendered drawn_wide(const WINDOW *window, const cchar_t *character)
{
    return drawn_on(window->screen, (uint32_t)character->chars[0],
                    character->attr | (window->front.pen & A_ALTCHARSET));
}

/* The same of one that may be left out; `letter` of the VT100's graphic set stands for it. */
static struct rendered drawn_wide_or(const WINDOW *window, const cchar_t *character, char letter)
{
    return drawn_wide(window, character && character->chars[0] ? character
                                                               : &huttavel_curses_wacs[(int)letter]);
}

int wadd_wch(WINDOW *window, const cchar_t *character)
{
    struct written written = {0, true};
    struct huttavel_curses_place begun;
    int done;

    if (!window || !character)
        return ERR;
    begun = window->front.cursor;
    done = add_drawn(window, drawn_wide(window, character), &written);
    mark_written(window, &begun, written.places, written.is_plain);
    return changed_marked(window, done);
}

int wecho_wchar(WINDOW *window, const cchar_t *character)
{
    return wadd_wch(window, character) == ERR ? ERR : wrefresh(window);
}

int pecho_wchar(WINDOW *pad, const cchar_t *character)
{
    const int *part = pad ? pad->part : NULL;

    if (!pad || !pad->has_part || wadd_wch(pad, character) == ERR)
        return ERR;
    return prefresh(pad, part[0], part[1], part[2], part[3], part[4], part[5]);
}

/* The cell that is written for a character: with the attributes and the pair of the window and of its background, and a
   blank as the background's character, as where it is added. */
static huttavel_cell cell_in(const WINDOW *window, const huttavel_cell *background, struct rendered character)
{
    huttavel_cell cell = cell_of(character);

    cell.attrs |= attrs_of(window->front.pen) | background->attrs;
    if (!cell.pair)
        cell.pair = (uint8_t)pair_of(window->front.pen);
    if (!cell.pair)
        cell.pair = background->pair;
    if (cell.character == ' ')
        cell.character = background->character;
    return cell;
}

/* Writes characters side by side. The cursor stays. They end before one without a character. One that no cell holds is
   U+FFFD, as where it is added; control characters are refused, and nothing is written then. As in ncurses, and unlike
   where it writes chtypes, the attributes of the window count too. */
int wadd_wchnstr(WINDOW *window, const cchar_t *characters, int most)
{
    struct row row;
    int left, count, n;

    if (!window || !characters || is_shown(window))
        return ERR;
    left = places_left(window, -1);
    for (count = 0; count != most && count < left && characters[count].chars[0]; count++)
        if (is_control((uint32_t)characters[count].chars[0]))
            return ERR;
    begin_row(&row, window);
    for (n = 0; n < count && left > 0; n++) {
        struct rendered character = drawn_wide(window, &characters[n]);
        uint32_t columns = fit(&character.code);

        for (; columns > 0 && left > 0; columns--, left--)
            put_cell(&row, cell_in(window, &row.aside.background, character));
    }
    return end_row(&row);
}

int wadd_wchstr(WINDOW *window, const cchar_t *characters)
{
    return wadd_wchnstr(window, characters, -1);
}

int wins_wch(WINDOW *window, const cchar_t *character)
{
    struct huttavel_curses_place begun, at;

    if (!window || is_shown(window) || !character)
        return ERR;
    begun = at = window->front.cursor;
    return end_insertion(window, &begun, insert_drawn(window, &at, drawn_wide(window, character)));
}

int whline_set(WINDOW *window, const cchar_t *character, int count)
{
    return window ? draw_across(window, drawn_wide_or(window, character, 'q'), count) : ERR;
}

int wvline_set(WINDOW *window, const cchar_t *character, int count)
{
    return window ? draw_down(window, drawn_wide_or(window, character, 'x'), count) : ERR;
}

int wborder_set(WINDOW *window, const cchar_t *left, const cchar_t *right, const cchar_t *top, const cchar_t *bottom,
                const cchar_t *top_left, const cchar_t *top_right, const cchar_t *bottom_left,
                const cchar_t *bottom_right)
{
    const cchar_t *given[8] = {left, right, top, bottom, top_left, top_right, bottom_left, bottom_right};
    struct rendered pieces[8];
    int n;

    if (!window || is_shown(window))
        return ERR;
    for (n = 0; n < 8; n++)
        pieces[n] = drawn_wide_or(window, given[n], border_letters[n]);
    return draw_border(window, pieces);
}

int box_set(WINDOW *window, const cchar_t *vertical, const cchar_t *horizontal)
{
    return wborder_set(window, vertical, vertical, horizontal, horizontal, NULL, NULL, NULL, NULL);
}

/* A background without a character is blank. */
static struct rendered wide_background(const WINDOW *window, const cchar_t *background)
{
    uint32_t code = (uint32_t)background->chars[0];

    return drawn_on(window->screen, code ? code : ' ', background->attr);
}

int wbkgrnd(WINDOW *window, const cchar_t *background)
{
    if (!window || !background)
        return ERR;
    return changed(window, set_background(huttavel_change_background_of, window, wide_background(window, background)));
}

void wbkgrndset(WINDOW *window, const cchar_t *background)
{
    if (window && background)
        set_background(huttavel_set_background_of, window, wide_background(window, background));
}

int wgetbkgrnd(WINDOW *window, cchar_t *background)
{
    huttavel_cell cell;

    if (!background || huttavel_background(handle_of(window), number_of(window), &cell) != HUTTAVEL_OK)
        return ERR;
    *background = wide_of(window->screen, cell);
    return OK;
}

/* The cell at the cursor of a window; of curscr, that of the place where the next update wants the terminal's. */
int win_wch(WINDOW *window, cchar_t *character)
{
    uint32_t row, column;
    huttavel_cell cell;

    if (!window || !character)
        return ERR;
    row = (uint32_t)window->front.cursor.row;
    column = (uint32_t)window->front.cursor.column;
    if (is_shown(window)) {
        row = column = 0;
        huttavel_wanted_cursor(handle_of(window), &row, &column);
    }
    if (!cell_at(window, (int)row, (int)column, &cell))
        return ERR;
    *character = wide_of(window->screen, cell);
    return OK;
}

int win_wchnstr(WINDOW *window, cchar_t *cells, int most)
{
    struct read read = {.wide = cells};

    if (!window || !cells || is_shown(window))
        return ERR;
    memset(&cells[read_from_cursor(window, read, most)], 0, sizeof *cells);
    return OK;
}

int win_wchstr(WINDOW *window, cchar_t *cells)
{
    return win_wchnstr(window, cells, -1);
}
