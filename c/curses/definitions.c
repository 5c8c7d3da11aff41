/* Which keys there are: those of the entry, and those that the program defines. */

/* Where the keys are among the strings of an entry: rows of positions. */
static const struct {
    unsigned first, last;
} key_positions[] = {{55, 87}, {139, 143}, {148, 148}, {158, 214}, {216, 268}, {MOUSE_KEY, MOUSE_KEY}};

/* The key of a capability's position. */
static int key_of(uint32_t position)
{
    if (position >= HUTTAVEL_KEY_F11 && position <= HUTTAVEL_KEY_F63)
        return KEY_F(11 + (int)(position - HUTTAVEL_KEY_F11));
    if (position == HUTTAVEL_KEY_F0 || position == HUTTAVEL_KEY_F1)
        return KEY_F((int)(position - HUTTAVEL_KEY_F0));
    if (position == HUTTAVEL_KEY_F10)
        return KEY_F(10);
    if (position >= HUTTAVEL_KEY_F2 && position <= HUTTAVEL_KEY_F9)
        return KEY_F(2 + (int)(position - HUTTAVEL_KEY_F2));
    return KEY_MIN + (int)position;
}

/* Looks through the keys of the entry for the first that a question holds of: its number, or ERR. */
static int find_key(const SCREEN *screen, bool (*holds)(int key, const char *text, const void *asked),
                    const void *asked)
{
    size_t n;
    unsigned position;

    for (n = 0; n < COUNT(key_positions); n++)
        for (position = key_positions[n].first; position <= key_positions[n].last; position++) {
            const char *text = string_of(screen, position);

            if (text && *text && holds(key_of(position), text, asked))
                return key_of(position);
        }
    return ERR;
}

static bool is_key(int key, const char *text, const void *asked)
{
    (void)text;
    return key == *(const int *)asked;
}

static bool is_text(int key, const char *text, const void *asked)
{
    (void)key;
    return !strcmp(text, asked);
}

static bool is_longer(int key, const char *text, const void *asked)
{
    (void)key;
    return strlen(text) > strlen(asked) && !strncmp(text, asked, strlen(asked));
}

int has_key(int key)
{
    const struct definition *each;

    if (!current)
        return false;
    for (each = current->definitions; each; each = each->next)
        if (each->key == key)
            return true;
    return find_key(current, is_key, &key) != ERR;
}

/* Turns a key off, or on again: ERR if there is none, or it is so already. */
int keyok(int key, bool on)
{
    struct definition *each;
    int done = ERR;

    if (!current || key <= 0)
        return ERR;
    for (each = current->definitions; each; each = each->next)
        if (each->key == key && each->is_off == on) {
            each->is_off = !on;
            done = OK;
        }
    if (find_key(current, is_key, &key) != ERR && current->is_off[key] == on) {
        current->is_off[key] = !on;
        done = OK;
    }
    return done;
}

/* Defines a text; if it is defined already, as another key. */
static int add_definition(SCREEN *screen, const char *text, int key)
{
    size_t length = strlen(text);
    struct definition *each = screen->definitions;

    if (length == 0 || length > LONGEST_KEY)
        return ERR;
    while (each && (each->length != length || memcmp(each->text, text, length)))
        each = each->next;
    if (!each) {
        each = calloc(1, sizeof *each);
        if (!each)
            return ERR;
        memcpy(each->text, text, length);
        each->length = length;
        each->next = screen->definitions;
        screen->definitions = each;
    }
    each->key = key;
    each->is_off = false;
    return OK;
}

/* Forgets the definitions of a text or, without one, of a key: OK if there was one. */
static int drop_definitions(SCREEN *screen, const char *text, int key)
{
    struct definition **place = &screen->definitions;
    int done = ERR;

    while (*place) {
        struct definition *each = *place;

        if (text ? each->length == strlen(text) && !memcmp(each->text, text, each->length) : each->key == key) {
            *place = each->next;
            free(each);
            done = OK;
        } else {
            place = &each->next;
        }
    }
    return done;
}

/* Makes a text a key. Without a text the key is none any more, and with a key of 0 or less neither is the text: what
   the program defined is forgotten, and what the entry has is turned off. */
int define_key(const char *text, int key)
{
    int done, found;

    if (!current || (!text && key <= 0))
        return ERR;
    if (text && key > 0)
        return add_definition(current, text, key);
    done = drop_definitions(current, text, key);
    found = text ? find_key(current, is_text, text) : find_key(current, is_key, &key);
    if (found == ERR || current->is_off[found])
        return done;
    current->is_off[found] = true;
    return OK;
}

/* The key of a text; 0 without one, and -1 if the text only begins that of a key. */
int key_defined(const char *text)
{
    const struct definition *each;
    bool is_beginning = false;
    int found;

    if (!current || !text)
        return ERR;
    for (each = current->definitions; each; each = each->next) {
        size_t length = strlen(text);

        if (each->is_off || each->length < length || memcmp(each->text, text, length))
            continue;
        if (each->length == length)
            return each->key;
        is_beginning = true;
    }
    found = find_key(current, is_text, text);
    if (found != ERR && !current->is_off[found])
        return found;
    return is_beginning || find_key(current, is_longer, text) != ERR ? -1 : 0;
}

/* Frees what the program defined. */
static void free_definitions(SCREEN *screen)
{
    struct definition *each, *next;

    for (each = screen->definitions; each; each = next) {
        next = each->next;
        free(each);
    }
}
