/* Texts of wide characters. */

/* The length of a text, at most `most` if that is not negative. */
static size_t wide_length_of(const wchar_t *text, int most)
{
    size_t length = 0;

    while ((most < 0 || length < (size_t)most) && text[length])
        length++;
    return length;
}

/* A wide character of a text, as it is written in a window. */
static struct rendered drawn_alone(const WINDOW *window, wchar_t character)
{
    return drawn_on(window->screen, (uint32_t)character, window->front.pen & A_ALTCHARSET);
}

/* Adds a text, up to the first character that finds no next line. */
int waddnwstr(WINDOW *window, const wchar_t *text, int most)
{
    struct written written = {0, true};
    struct huttavel_curses_place begun;
    int done = OK;
    size_t length;

    if (!window || !text)
        return ERR;
    begun = window->front.cursor;
    for (length = wide_length_of(text, most); length > 0 && done == OK; length--)
        done = add_drawn(window, drawn_alone(window, *text++), &written);
    mark_written(window, &begun, written.places, written.is_plain);
    return changed_marked(window, done);
}

int waddwstr(WINDOW *window, const wchar_t *text)
{
    return waddnwstr(window, text, -1);
}

/* Inserts a text; all of it where `most` is below 1. */
int wins_nwstr(WINDOW *window, const wchar_t *text, int most)
{
    struct huttavel_curses_place begun, at;
    size_t length;
    int done = OK;

    if (!window || is_shown(window) || !text)
        return ERR;
    begun = at = window->front.cursor;
    for (length = wide_length_of(text, most < 1 ? -1 : most); length > 0 && done == OK; length--)
        done = insert_drawn(window, &at, drawn_alone(window, *text++));
    return end_insertion(window, &begun, done);
}

int wins_wstr(WINDOW *window, const wchar_t *text)
{
    return wins_nwstr(window, text, -1);
}

/* How many characters were read. */
int winnwstr(WINDOW *window, wchar_t *text, int most)
{
    struct read read = {.wide_text = text};
    int count;

    if (!window || !text || is_shown(window))
        return ERR;
    count = read_from_cursor(window, read, most);
    text[count] = L'\0';
    return count;
}

int winwstr(WINDOW *window, wchar_t *text)
{
    return winnwstr(window, text, -1) == ERR ? ERR : OK;
}

/* What shows a character: `^` and a second one for a control character, `~` and one for those from 128 on. */
wchar_t *wunctrl(cchar_t *character)
{
    static wchar_t text[3];
    uint32_t code;

    if (!character)
        return NULL;
    code = (uint32_t)character->chars[0];
    text[0] = (wchar_t)code;
    text[1] = text[2] = L'\0';
    if (is_control(code)) {
        text[0] = code < 128 ? L'^' : L'~';
        text[1] = (wchar_t)(code < 128 ? code ^ 64 : code - 64);
    }
    return text;
}

/* The name of a character in UTF-8; NULL if the locale has another charset and it is not of ASCII, or if it is none. */
char *key_name(wchar_t character)
{
    static char name[2 * LONGEST_SEQUENCE + 1];
    uint32_t code = (uint32_t)character;
    cchar_t whole = {0, {0}};
    const wchar_t *text;
    size_t length = 0;

    if (!is_scalar(code) || (code >= 128 && !has_utf8()))
        return NULL;
    whole.chars[0] = character;
    for (text = wunctrl(&whole); *text; text++)
        length += encode((uint32_t)*text, (uint8_t *)name + length);
    name[length] = '\0';
    return name;
}
