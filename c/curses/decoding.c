/* From bytes of the keyboard to keys. Bytes are held while they may become a key that the program defined or a report
   of the mouse; otherwise they are given to the keys of the handle, in order. */

/* Stands for no key where bytes wait for more. */
#define WAITS INT_MIN

/* Takes a key that the handle decided; ERR if there is none. One that is turned off is the bytes of its text. */
static int queued_key(SCREEN *screen)
{
    struct reading *reading = &screen->reading;
    huttavel_key key;
    const char *text;
    size_t length = 1;

    if (reading->spelled && *reading->spelled)
        return (unsigned char)*reading->spelled++;
    if (huttavel_next_key(&screen->handle, &key) != HUTTAVEL_OK)
        return ERR;
    text = key.kind == HUTTAVEL_KEY_NAMED ? string_of(screen, key.code) : NULL;
    if (text)
        length = strlen(text);
    reading->in_handle -= length < reading->in_handle ? length : reading->in_handle;
    if (!text)
        return (int)key.code;
    if (!screen->is_off[key_of(key.code)])
        return key_of(key.code);
    reading->spelled = text + 1;
    return (unsigned char)*text;
}

/* Drops the first of the bytes that are held. */
static void drop_held(struct reading *reading, size_t count)
{
    reading->held_count -= count;
    memmove(reading->held, reading->held + count, reading->held_count);
}

/* The longest defined text that the held bytes begin with, or NULL; and whether more bytes may make a longer one. */
static const struct definition *find_definition(const SCREEN *screen, bool *may_grow)
{
    const struct reading *reading = &screen->reading;
    const struct definition *each, *longest = NULL;

    for (each = screen->definitions; each; each = each->next) {
        bool is_longer_text = each->length > reading->held_count;
        size_t length = is_longer_text ? reading->held_count : each->length;

        if (each->is_off || memcmp(each->text, reading->held, length))
            continue;
        if (is_longer_text)
            *may_grow = true;
        else if (!longest || each->length > longest->length)
            longest = each;
    }
    return longest;
}

/* Reads the first of the held bytes: a key, ERR if they make none, or WAITS. In the middle of what the handle reads
   nothing else begins. */
static int read_held(SCREEN *screen)
{
    struct reading *reading = &screen->reading;
    const struct definition *found = NULL;
    struct report report = {0, 0, 0, false};
    bool may_grow = false;
    int length = 0;

    if (reading->in_handle == 0) {
        found = find_definition(screen, &may_grow);
        if (screen->is_reporting)
            length = read_report(reading->held, reading->held_count, &report);
        if ((may_grow || length < 0) && !reading->is_idle)
            return WAITS;
    }
    if (found && (int)found->length >= length) {
        drop_held(reading, found->length);
        return found->key;
    }
    if (length > 0) {
        if (screen->mouse.pressed && !is_click(&screen->mouse, &report))
            return tell_press(&screen->mouse);
        drop_held(reading, (size_t)length);
        return mouse_key(&screen->mouse, &report);
    }
    huttavel_key_bytes(&screen->handle, reading->held, 1, NULL);
    reading->in_handle++;
    drop_held(reading, 1);
    return queued_key(screen);
}

/* The next key of the bytes that were read; ERR if there is none yet. */
static int decoded_key(SCREEN *screen)
{
    struct reading *reading = &screen->reading;
    int key = queued_key(screen);

    while (key == ERR && reading->held_count > 0) {
        key = read_held(screen);
        if (key == WAITS)
            return ERR;
    }
    if (key == ERR && reading->is_idle) {
        reading->is_idle = false;
        huttavel_key_idle(&screen->handle);
        key = queued_key(screen);
    }
    /* Once all bytes are keys, no wait is shortened. */
    if (reading->held_count == 0 && reading->in_handle == 0)
        reading->is_undecided = false;
    return key;
}

/* Holds a byte that was read. */
static void hold(struct reading *reading, uint8_t byte)
{
    reading->held[reading->held_count++] = byte;
    reading->is_undecided = true;
    reading->decided_at = now() + ESCDELAY;
}

/* No byte came for a while: all that waits for more becomes the keys that it is. */
static void decide(struct reading *reading)
{
    reading->is_idle = true;
    reading->is_undecided = false;
}

/* Forgets all bytes that were read, and the events of the mouse. */
static void forget_typed(SCREEN *screen)
{
    huttavel_key key;

    huttavel_key_idle(&screen->handle);
    while (huttavel_next_key(&screen->handle, &key) == HUTTAVEL_OK)
        ;
    memset(&screen->reading, 0, sizeof screen->reading);
    screen->mouse.count = 0;
    screen->mouse.pressed = 0;
}

int set_escdelay(int milliseconds)
{
    if (milliseconds < 0)
        return ERR;
    ESCDELAY = milliseconds;
    return OK;
}

int get_escdelay(void)
{
    return ESCDELAY;
}
