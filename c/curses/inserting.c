/* Calls that insert characters: the rest of the line moves to the right, and its end is lost. Control characters do
   what they do where they are added (X/Open Curses Issue 7, insch()), but no line is begun where one ends. */

/* Inserts a character that a cell can hold, and says where the next one goes. Behind the last column it stays there:
   what is inserted is lost. */
static int insert_cell(WINDOW *window, struct huttavel_curses_place *at, struct rendered character)
{
    if (at->column == window->columns)
        return OK;
    set_place(window, at->row, at->column);
    at->column++;
    return answer(huttavel_insert_character(handle_with(window, pen_for(window, character.rendition)), window->number,
                                            character.code, attrs_of(character.rendition)));
}

/* Inserts the same one so many times. */
static int insert_cells(WINDOW *window, struct huttavel_curses_place *at, struct rendered character, int count)
{
    int done = OK;

    for (; count > 0 && done == OK; count--)
        done = insert_cell(window, at, character);
    return done;
}

/* Erases the rest of the line and goes to the next one; stays where there is none that the window may scroll to. */
static int insert_line_feed(WINDOW *window, struct huttavel_curses_place *at)
{
    uint32_t top = 0, bottom = 0;

    if (at->column < window->columns) {
        set_place(window, at->row, at->column);
        huttavel_clear_to_eol(handle_of(window), window->number);
    }
    huttavel_region(handle_of(window), window->number, &top, &bottom);
    if (at->row == (int)bottom) {
        if (huttavel_scroll(handle_of(window), window->number, 1) != HUTTAVEL_OK)
            return OK;
    } else if (at->row < window->rows - 1) {
        at->row++;
    }
    at->column = 0;
    return OK;
}

/* Inserts a control character as two, as it is added. */
static int insert_two(WINDOW *window, struct huttavel_curses_place *at, struct rendered control)
{
    uint32_t code = control.code;

    if (insert_cell(window, at, with_code(control, code < 128 ? '^' : '~')) == ERR)
        return ERR;
    return insert_cell(window, at, with_code(control, code < 128 ? code ^ 64 : code - 64));
}

/* Inserts a character, or does what it says. What comes after it is in its column, as where it is added. */
static int insert_drawn(WINDOW *window, struct huttavel_curses_place *at, struct rendered character)
{
    uint32_t columns = 1;

    switch (character.code) {
    case '\t': return insert_cells(window, at, with_code(character, ' '), 8 - at->column % 8);
    case '\n': return insert_line_feed(window, at);
    case '\r': at->column = 0; return OK;
    case '\b': at->column -= at->column > 0; return OK;
    }
    if (is_shown_as_two(character.code))
        return insert_two(window, at, character);
    if (character.code >= 160)
        columns = fit(&character.code);
    return insert_cells(window, at, character, (int)columns);
}

/* Puts the cursor where the insertion began. */
static int end_insertion(WINDOW *window, const struct huttavel_curses_place *begun, int done)
{
    set_place(window, begun->row, begun->column);
    return changed(window, done);
}

/* Inserts a byte of a character in UTF-8, which is inserted with the last of them: then those that were inserted before
   are bytes in the same place. */
static int insert_part(WINDOW *window, struct huttavel_curses_place *at, chtype character)
{
    uint32_t codes[LONGEST_SEQUENCE];
    size_t count, n;
    int done = OK;

    if (window->unended_at.row != at->row || window->unended_at.column != at->column)
        window->unended.count = 0;
    window->unended_at = *at;
    count = join(&window->unended, byte_of(character), codes);
    for (n = 0; n < count && done == OK; n++)
        done = insert_drawn(window, at, drawn_on(window->screen, codes[n], character));
    return done;
}

int winsch(WINDOW *window, chtype character)
{
    struct huttavel_curses_place begun, at;
    uint8_t byte = byte_of(character);
    bool is_alone = byte < 128 || character & A_ALTCHARSET;

    if (!window || is_shown(window) || (byte >= 128 && !window->screen->is_utf8))
        return ERR;
    begun = at = window->front.cursor;
    if (is_alone)
        return end_insertion(window, &begun, insert_drawn(window, &at, drawn_in(window, character)));
    return end_insertion(window, &begun, insert_part(window, &at, character));
}

/* Inserts the character that bytes begin with, and gives how many of them it has; 0 if it is refused. */
static size_t insert_first(WINDOW *window, struct huttavel_curses_place *at, const uint8_t *bytes, size_t count)
{
    uint32_t code = bytes[0];
    int length = window->screen->is_utf8 ? decode(bytes, count, &code) : code < 128;

    if (length <= 0) {
        if (!window->screen->is_utf8)
            return 0;
        code = REPLACEMENT;
        length = 1;
    }
    return insert_drawn(window, at, drawn_on(window->screen, code, window->front.pen & A_ALTCHARSET)) == OK
               ? (size_t)length
               : 0;
}

/* Inserts a text up to the first byte that is refused; all of it where `most` is below 1. */
int winsnstr(WINDOW *window, const char *text, int most)
{
    struct huttavel_curses_place begun, at;
    size_t length, taken = 1;

    if (!window || is_shown(window) || !text)
        return ERR;
    begun = at = window->front.cursor;
    for (length = length_of(text, most < 1 ? -1 : most); length > 0 && taken > 0; length -= taken, text += taken)
        taken = insert_first(window, &at, (const uint8_t *)text, length);
    return end_insertion(window, &begun, taken > 0 ? OK : ERR);
}

int winsstr(WINDOW *window, const char *text)
{
    return winsnstr(window, text, -1);
}
