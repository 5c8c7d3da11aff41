/* Characters that are typed: of a terminal in UTF-8, those that its bytes are. A byte of none is U+FFFD. */

/* The longest line of wide characters that is read. */
#define LONGEST_WIDE_LINE 1024

/* The next byte of a character, which follows the one before it soon. */
static int next_of_character(WINDOW *window)
{
    int delay = window->delay, key;

    window->delay = ESCDELAY;
    key = wgetch(window);
    window->delay = delay;
    return key;
}

/* Puts a key back, also where ungetch() has no room left. */
static void put_back(SCREEN *screen, int key)
{
    if (screen->pushed_count < (int)COUNT(screen->pushed))
        screen->pushed[screen->pushed_count++] = key;
}

/* The character that begins with a byte. What follows and is none of its bytes is put back. */
static wint_t rest_of_character(WINDOW *window, uint8_t first)
{
    uint8_t bytes[LONGEST_SEQUENCE] = {first};
    size_t count = 1;
    uint32_t code;
    int length, key;

    while ((length = decode(bytes, count, &code)) == 0) {
        key = next_of_character(window);
        if (key >= 0 && key < KEY_MIN) {
            bytes[count++] = (uint8_t)key;
            continue;
        }
        if (key != ERR)
            put_back(window->screen, key);
        break;
    }
    if (length > 0)
        return (wint_t)code;
    while (count > 1)
        put_back(window->screen, bytes[--count]);
    return REPLACEMENT;
}

/* The next key, with KEY_CODE_YES, or the next character. */
int wget_wch(WINDOW *window, wint_t *character)
{
    int key = wgetch(window);

    if (key == ERR || !character)
        return ERR;
    *character = (wint_t)key;
    if (key >= KEY_MIN)
        return KEY_CODE_YES;
    if (key >= 128 && window->screen->is_utf8)
        *character = rest_of_character(window, (uint8_t)key);
    return OK;
}

/* Makes a character the next one: its bytes, as they are typed. */
int unget_wch(const wchar_t character)
{
    uint8_t bytes[LONGEST_SEQUENCE] = {(uint8_t)character};
    size_t count = 1;

    if (!current || !is_scalar((uint32_t)character) || (!current->is_utf8 && character > 255))
        return ERR;
    if (current->is_utf8)
        count = encode((uint32_t)character, bytes);
    if (current->pushed_count + (int)count > PUSHED)
        return ERR;
    while (count > 0)
        ungetch(bytes[--count]);
    return OK;
}

/* Reads a line, at most so many characters of it if `most` is not negative. */
int wgetn_wstr(WINDOW *window, wint_t *text, int most)
{
    char line[LONGEST_WIDE_LINE * LONGEST_SEQUENCE + 1];
    struct limit limit = {sizeof line - 1, most < 0 || most > LONGEST_WIDE_LINE ? LONGEST_WIDE_LINE : (size_t)most};
    const char *at = line;
    int done;

    if (!text)
        return ERR;
    done = get_line(window, line, limit);
    if (done == ERR)
        return ERR;
    while (*at) {
        uint32_t code = (uint8_t)*at;
        int length = window->screen->is_utf8 ? decode((const uint8_t *)at, strnlen(at, LONGEST_SEQUENCE), &code) : 1;

        *text++ = length > 0 ? (wint_t)code : REPLACEMENT;
        at += length > 0 ? length : 1;
    }
    *text = 0;
    return done;
}

int wget_wstr(WINDOW *window, wint_t *text)
{
    return wgetn_wstr(window, text, -1);
}

/* The characters of the line that erase and kill. */
int erasewchar(wchar_t *character)
{
    if (!character || !line_in_use())
        return ERR;
    *character = (unsigned char)erasechar();
    return OK;
}

int killwchar(wchar_t *character)
{
    if (!character || !line_in_use())
        return ERR;
    *character = (unsigned char)killchar();
    return OK;
}
