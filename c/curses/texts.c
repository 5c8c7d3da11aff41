/* Formatted texts, and lines that are typed. */

int vw_printw(WINDOW *window, const char *format, va_list values)
{
    char text[512], *larger;
    va_list again;
    int length, sent;

    va_copy(again, values);
    length = vsnprintf(text, sizeof text, format, values);
    if (length < 0 || (size_t)length < sizeof text) {
        va_end(again);
        return length < 0 ? ERR : waddstr(window, text);
    }
    larger = malloc((size_t)length + 1);
    if (larger)
        vsnprintf(larger, (size_t)length + 1, format, again);
    va_end(again);
    sent = larger ? waddstr(window, larger) : ERR;
    free(larger);
    return sent;
}

int vwprintw(WINDOW *window, const char *format, va_list values)
{
    return vw_printw(window, format, values);
}

/* A call of the two that take a va_list with the values after `last`. */
#define WITH_VALUES(call, window, format)                                                                    \
    va_list values;                                                                                          \
    int done;                                                                                                \
                                                                                                             \
    va_start(values, format);                                                                                \
    done = call(window, format, values);                                                                     \
    va_end(values);                                                                                          \
    return done

int printw(const char *format, ...)
{
    WITH_VALUES(vw_printw, stdscr, format);
}

int wprintw(WINDOW *window, const char *format, ...)
{
    WITH_VALUES(vw_printw, window, format);
}

int mvprintw(int row, int column, const char *format, ...)
{
    WITH_VALUES(wmove(stdscr, row, column) == ERR ? ERR : vw_printw, stdscr, format);
}

int mvwprintw(WINDOW *window, int row, int column, const char *format, ...)
{
    WITH_VALUES(wmove(window, row, column) == ERR ? ERR : vw_printw, window, format);
}

int vw_scanw(WINDOW *window, const char *format, va_list values)
{
    char text[1024];

    if (wgetnstr(window, text, (int)sizeof text - 1) == ERR)
        return ERR;
    return vsscanf(text, format, values);
}

int vwscanw(WINDOW *window, const char *format, va_list values)
{
    return vw_scanw(window, format, values);
}

int scanw(const char *format, ...)
{
    WITH_VALUES(vw_scanw, stdscr, format);
}

int wscanw(WINDOW *window, const char *format, ...)
{
    WITH_VALUES(vw_scanw, window, format);
}

int mvscanw(int row, int column, const char *format, ...)
{
    WITH_VALUES(wmove(stdscr, row, column) == ERR ? ERR : vw_scanw, stdscr, format);
}

int mvwscanw(WINDOW *window, int row, int column, const char *format, ...)
{
    WITH_VALUES(wmove(window, row, column) == ERR ? ERR : vw_scanw, window, format);
}

/* How much of a line is read: so many bytes, and so many characters. */
struct limit {
    size_t bytes, characters;
};

/* Whether a byte is one of a character in UTF-8, but not the first. */
static bool continues(const WINDOW *window, int byte)
{
    return window->screen->is_utf8 && goes_on((uint8_t)byte);
}

/* The length of a line without its last character. */
static size_t length_before(const WINDOW *window, const char *line, size_t length)
{
    do
        length--;
    while (length > 0 && continues(window, line[length]));
    return length;
}

/* The length of a line without what was begun of a character at its end. */
static size_t length_of_whole(const WINDOW *window, const char *line, size_t length)
{
    size_t before = length > 0 ? length_before(window, line, length) : 0;
    uint32_t code;

    return window->screen->is_utf8 && before < length &&
                   decode((const uint8_t *)line + before, length - before, &code) == 0
               ? before
               : length;
}

/* Whether there is room for a byte behind those of a line: it is one of a character that was begun, or of another. */
static bool has_room(const WINDOW *window, const char *line, size_t length, struct limit limit)
{
    size_t characters = 0, n;

    for (n = 0; n < length; n++)
        characters += !continues(window, line[n]);
    return length < limit.bytes &&
           (characters < limit.characters || length_of_whole(window, line, length) < length);
}

/* Takes the last character of a typed line away, and what is shown of it. */
static size_t drop_last(WINDOW *window, const char *line, size_t length, int row, int column, bool is_shown_too)
{
    size_t n;

    if (length == 0)
        return 0;
    length = length_before(window, line, length);
    if (!is_shown_too)
        return length;
    wmove(window, row, column);
    for (n = 0; n < length; n++)
        waddch(window, (unsigned char)line[n]);
    wclrtoeol(window);
    return length;
}

/* Moves the cursor to the next line: a window that scrolls does so if its last line is shown. */
static void end_line(WINDOW *window, bool may_scroll)
{
    int row = getcury(window);

    if (row < window->rows - 1)
        wmove(window, row + 1, 0);
    else if (may_scroll && window->is_scrolling)
        waddch(window, '\n');
    else
        wmove(window, row, 0);
    wrefresh(window);
}

/* Reads a line with echo() off, and shows it if it was on. */
static int read_line(WINDOW *window, char *line, struct limit limit, bool is_echoed)
{
    int row = getcury(window), column = getcurx(window);
    size_t length = 0;

    for (;;) {
        int key = wgetch(window);

        if (key == ERR || key == '\n' || key == '\r' || key == KEY_ENTER || key == KEY_DOWN || key == KEY_RESIZE) {
            line[length_of_whole(window, line, length)] = '\0';
            end_line(window, is_echoed && key != ERR && key != KEY_RESIZE);
            return key == ERR || key == KEY_RESIZE ? key : OK;
        }
        if (key == KEY_BACKSPACE || key == KEY_LEFT || key == (unsigned char)erasechar() || key == '\b') {
            length = drop_last(window, line, length, row, column, is_echoed);
        } else if (key == (unsigned char)killchar()) {
            while (length > 0)
                length = drop_last(window, line, length, row, column, is_echoed);
        } else if (key < KEY_MIN && has_room(window, line, length, limit)) {
            line[length++] = (char)key;
            if (is_echoed)
                waddch(window, (chtype)key);
        } else {
            beep();
        }
        if (is_echoed)
            wrefresh(window);
    }
}

/* The same, with the modes and echo() as they are. */
static int get_line(WINDOW *window, char *line, struct limit limit)
{
    SCREEN *screen = window ? window->screen : NULL;
    struct termios before;
    bool is_echo;
    int done;

    if (!window || is_shown(window))
        return ERR;
    before = screen->line.program;
    is_echo = screen->is_echo;
    screen->is_echo = false;
    if (screen == current && before.c_lflag & ICANON)
        change_modes(0, ICANON, 0, 0);
    done = read_line(window, line, limit, is_echo);
    if (screen == current && before.c_lflag & ICANON)
        set_program(&screen->line, &before);
    screen->is_echo = is_echo;
    return done;
}

int wgetnstr(WINDOW *window, char *text, int most)
{
    struct limit limit = {most < 0 ? INT_MAX : (size_t)most, INT_MAX};

    return text ? get_line(window, text, limit) : ERR;
}

int wgetstr(WINDOW *window, char *text)
{
    return wgetnstr(window, text, -1);
}
