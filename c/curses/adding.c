/* Calls that write characters: one by one, and texts of them. */

int wmove(WINDOW *window, int row, int column)
{
    if (!window || window->number == NO_NUMBER || (unsigned)row >= (unsigned)window->rows ||
        (unsigned)column >= (unsigned)window->columns)
        return ERR;
    set_place(window, row, column);
    window->has_moved = true;
    return OK;
}

/* The pen of a window with a character's pair, if it has one. */
static attr_t pen_for(const WINDOW *window, chtype character)
{
    attr_t pair = pair_in(character);

    return pair ? (window->front.pen & ~A_COLOR) | pair : window->front.pen;
}

/* The same with its attributes, too. */
static attr_t pen_of(const WINDOW *window, chtype character)
{
    return character <= A_CHARTEXT ? window->front.pen
                                   : pen_for(window, character) | (character & A_ATTRIBUTES & ~A_COLOR);
}

/* Adds a character with its attributes and pair; whether it needed a next line and there was none. */
static uint32_t add_code(WINDOW *window, struct rendered character, bool *stayed)
{
    huttavel *handle = handle_with(window, pen_for(window, character.rendition));
    uint8_t attrs = attrs_of(character.rendition);
    uint32_t fault = character.code < 128
                         ? huttavel_add_byte(handle, window->number, (uint8_t)character.code, attrs, stayed)
                         : huttavel_add_character(handle, window->number, character.code, attrs, stayed);

    read_cursor(window);
    return fault;
}

/* Whether characters are written before the last place of a line. None is on curscr. */
static inline bool has_place(const WINDOW *window)
{
    return (unsigned)window->front.cursor.column < (unsigned)window->columns - 1;
}

/* Whether a character is written as it is there. */
static inline bool is_simple(const WINDOW *window, chtype character)
{
    return is_printable(byte_of(character)) && !((character | window->front.pen) & A_ALTCHARSET) &&
           has_place(window) && window->unended.count == 0;
}

/* Whether there is room for a character that a window writes with a pen behind those that were added last. */
static inline bool follows(const WINDOW *window, attr_t pen)
{
    const struct added *added = &window->screen->added;

    return added->window == window && added->pen == pen && !window->is_moved && added->length < added->room;
}

/* Where characters that a window writes with a pen are put: at least one, of so many bytes. */
static struct added *added_to(WINDOW *window, attr_t pen, size_t size)
{
    struct added *added = &window->screen->added;
    int left = window->columns - 1 - window->front.cursor.column;

    if (follows(window, pen) && added->length + size <= ADDED)
        return added;
    handle_with(window, pen);
    added->window = window;
    added->pen = pen;
    added->begun = window->front.cursor;
    added->room = left < ADDED ? (size_t)left : ADDED;
    return added;
}

static inline void put_behind(WINDOW *window, struct added *added, chtype character)
{
    added->bytes[added->length++] = byte_of(character);
    window->front.cursor.column++;
}

/* Adds a simple character. */
static void add_simple(WINDOW *window, chtype character)
{
    put_behind(window, added_to(window, pen_of(window, character), 1), character);
}

/* Adds a character before the last place of a line, in UTF-8. */
static void add_encoded(WINDOW *window, struct rendered character)
{
    uint8_t bytes[LONGEST_SEQUENCE];
    size_t size = encode(character.code, bytes);
    struct added *added = added_to(window, pen_of(window, character.rendition) & ~A_ALTCHARSET, size);

    memcpy(added->bytes + added->length, bytes, size);
    added->length += size;
    added->beyond += size - 1;
    added->room = added->room + size - 1 < ADDED ? added->room + size - 1 : ADDED;
    window->front.cursor.column++;
}

/* Adds so many simple characters. */
static void add_all_simple(WINDOW *window, const char *text, size_t length)
{
    while (length > 0) {
        struct added *added = added_to(window, window->front.pen, 1);
        size_t left = added->room - added->length, count = left < length ? left : length;

        memcpy(added->bytes + added->length, text, count);
        added->length += count;
        window->front.cursor.column += (int)count;
        text += count;
        length -= count;
    }
}

/* Whether the cursor, which found no next line, is in a last line below the lines that scroll: then it goes to the
   beginning of that line. */
static bool begins_again(WINDOW *window)
{
    uint32_t top = 0, bottom = 0;

    huttavel_region(handle_of(window), window->number, &top, &bottom);
    if (window->front.cursor.row == (int)bottom)
        return false;
    set_place(window, window->front.cursor.row, 0);
    return true;
}

/* Adds a character, `count` times. */
static int add_character(WINDOW *window, struct rendered character, int count)
{
    bool stayed = false;
    uint32_t fault = HUTTAVEL_OK;

    for (; count > 0 && !stayed && fault == HUTTAVEL_OK; count--) {
        fault = add_code(window, character, &stayed);
        stayed = stayed && !begins_again(window);
    }
    return stayed ? ERR : answer(fault);
}

/* Whether the cursor is in the last line that scrolls, of a window that may not scroll. */
static bool is_at_end(const WINDOW *window)
{
    uint32_t top = 0, bottom = 0;

    huttavel_region(handle_of(window), window->number, &top, &bottom);
    return !window->is_scrolling && window->front.cursor.row == (int)bottom;
}

/* The same attributes and pair with another character. */
static struct rendered with_code(struct rendered character, uint32_t code)
{
    character.code = code;
    return character;
}

/* Adds a tab: blanks with the window's attributes, which the library's tab has not. One that leaves its line is a line
   feed if there is a next line, and blanks to the end if there is none. */
static int add_tab(WINDOW *window, struct rendered tab)
{
    int count = 8 - getcurx(window) % 8;

    if (getcurx(window) + count >= window->columns && !is_at_end(window))
        return add_character(window, tab, 1);
    return add_character(window, with_code(tab, ' '), count);
}

/* Whether a control character is written as two characters: `^` and its code with one bit turned or, from 128 on, `~`
   and its code less 64. */
static bool is_shown_as_two(uint32_t code)
{
    return is_control(code) && code != '\b' && code != '\t' && code != '\n' && code != '\r';
}

static int add_control(WINDOW *window, struct rendered control)
{
    uint32_t code = control.code;

    if (code == '\t')
        return add_tab(window, control);
    if (!is_shown_as_two(code))
        return add_character(window, control, 1);
    if (add_character(window, with_code(control, code < 128 ? '^' : '~'), 1) == ERR)
        return ERR;
    return add_character(window, with_code(control, code < 128 ? code ^ 64 : code - 64), 1);
}

/* What was written: how many places, if it was nothing but characters that cells hold. */
struct written {
    size_t places;
    bool is_plain;
};

/* Adds a character, in a window. What comes after it is in its column: U+FFFD stands in all places of one that no cell
   holds, and one without a place is left out. */
static int add_drawn(WINDOW *window, struct rendered character, struct written *written)
{
    uint32_t columns = 1;

    if (is_control(character.code)) {
        written->is_plain = false;
        return add_control(window, character);
    }
    if (character.code >= 160)
        columns = fit(&character.code);
    written->places += columns;
    for (; columns > 0; columns--) {
        if (has_place(window))
            add_encoded(window, character);
        else if (add_character(window, character, 1) == ERR)
            return ERR;
    }
    return OK;
}

/* Adds a byte that is one of a character's in UTF-8, or ends what was begun of one in the same place. */
static int add_part(WINDOW *window, chtype character, struct written *written)
{
    uint32_t codes[LONGEST_SEQUENCE];
    const struct huttavel_curses_place *at = &window->unended_at;
    size_t count, n;
    int done = OK;

    if (at->row != window->front.cursor.row || at->column != window->front.cursor.column)
        window->unended.count = 0;
    count = join(&window->unended, byte_of(character), codes);
    for (n = 0; n < count && done == OK; n++)
        done = add_drawn(window, drawn_on(window->screen, codes[n], character | (window->front.pen & A_ALTCHARSET)),
                         written);
    window->unended_at = window->front.cursor;
    /* So that no character is put behind those that were added last. */
    if (window->unended.count > 0)
        window->screen->added.room = window->screen->added.length;
    return done;
}

/* Adds a character, in a window. */
static int add_one(WINDOW *window, chtype character, struct written *written)
{
    uint8_t byte = byte_of(character);

    if (is_simple(window, character)) {
        written->places++;
        add_simple(window, character);
        return OK;
    }
    if (byte >= 128 && !window->screen->is_utf8)
        return ERR;
    if (window->screen->is_utf8 && !(character & A_ALTCHARSET) && (byte >= 128 || window->unended.count > 0))
        return add_part(window, character, written);
    return add_drawn(window, drawn_in(window, character), written);
}

/* Adds a character, in a window, and marks its place. */
static int add_marked(WINDOW *window, chtype character)
{
    struct written written = {0, true};
    struct huttavel_curses_place begun;
    int done;

    if (!window)
        return ERR;
    begun = window->front.cursor;
    done = add_one(window, character, &written);
    mark_written(window, &begun, written.places, written.is_plain);
    return changed_marked(window, done);
}

/* Most characters follow another one, and take no more than this. None follows in a window whose changes are shown or
   synchronized at once, which has the handle given them. */
int waddch(WINDOW *window, const chtype character)
{
    if (!window || character & A_COLOR || !is_printable(byte_of(character)) ||
        !follows(window, window->front.pen | (character & A_ATTRIBUTES)))
        return add_marked(window, character);
    put_behind(window, &window->screen->added, character);
    return OK;
}

int wechochar(WINDOW *window, const chtype character)
{
    return add_marked(window, character) == ERR ? ERR : wrefresh(window);
}

/* How many characters of a text, which begins with so many that are printable, can be written together: those that lie
   side by side before the end of the window's line, its last place left out, where they are written as they are. */
static size_t side_by_side(const WINDOW *window, size_t printable)
{
    int room = window->columns - 1 - window->front.cursor.column;

    if (room <= 0 || window->front.pen & A_ALTCHARSET || window->unended.count > 0 || is_shown(window))
        return 0;
    return (size_t)room < printable ? (size_t)room : printable;
}

static size_t count_printable(const char *text, size_t length)
{
    size_t count = 0;

    while (count < length && is_printable((uint8_t)text[count]))
        count++;
    return count;
}

/* Adds the bytes of a text, which begins with so many that are printable, up to the first byte that is refused or finds
   no next line. */
static int add_bytes(WINDOW *window, const char *text, size_t length, size_t printable, struct written *written)
{
    while (length > 0) {
        size_t count = side_by_side(window, printable);

        if (count > 0) {
            add_all_simple(window, text, count);
            written->places += count;
        } else {
            if (add_one(window, (unsigned char)*text, written) == ERR)
                return ERR;
            count = 1;
        }
        text += count;
        length -= count;
        printable = count < printable ? printable - count : count_printable(text, length);
    }
    return OK;
}

/* The length of a text, at most `most` if that is not negative. */
static size_t length_of(const char *text, int most)
{
    return most < 0 ? strlen(text) : strnlen(text, (size_t)most);
}

int waddnstr(WINDOW *window, const char *text, int most)
{
    struct written written = {0, true};
    struct huttavel_curses_place begun;
    size_t length, printable;
    int done;

    if (!window || !text)
        return ERR;
    length = length_of(text, most);
    printable = count_printable(text, length);
    if (side_by_side(window, printable) == length) {
        add_all_simple(window, text, length);
        return changed_marked(window, OK);
    }
    begun = window->front.cursor;
    done = add_bytes(window, text, length, printable, &written);
    mark_written(window, &begun, written.places, written.is_plain);
    return changed_marked(window, done);
}

int waddstr(WINDOW *window, const char *text)
{
    return waddnstr(window, text, -1);
}
