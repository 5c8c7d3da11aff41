/* What is written to the terminal. */

int napms(int milliseconds)
{
    struct timespec rest;

    if (milliseconds <= 0)
        return OK;
    rest.tv_sec = milliseconds / 1000;
    rest.tv_nsec = milliseconds % 1000 * 1000000L;
    while (nanosleep(&rest, &rest) < 0 && errno == EINTR)
        ;
    return OK;
}

int delay_output(int milliseconds)
{
    return napms(milliseconds);
}

/* Waits until a descriptor accepts bytes. */
static void wait_for_room(int descriptor)
{
    struct pollfd asked;

    asked.fd = descriptor;
    asked.events = POLLOUT;
    asked.revents = 0;
    poll(&asked, 1, -1);
}

/* Writes at most so many bytes: how many were accepted, 0 if none are accepted now, -1 if none ever will be. */
static ssize_t write_some(int descriptor, const uint8_t *bytes, size_t count)
{
    ssize_t taken = write(descriptor, bytes, count);

    if (taken >= 0)
        return taken;
    if (errno == EAGAIN || errno == EWOULDBLOCK)
        wait_for_room(descriptor);
    else if (errno != EINTR)
        return -1;
    return 0;
}

/* Writes all of some bytes that no update made. */
static int write_all(int descriptor, const uint8_t *bytes, size_t count)
{
    while (count > 0) {
        ssize_t taken = write_some(descriptor, bytes, count);

        if (taken < 0)
            return ERR;
        bytes += taken;
        count -= (size_t)taken;
    }
    return OK;
}

/* Makes room for this many of the bytes that wait. Where there is no memory, those that fit are written at a time. */
static void make_room(struct text *text, size_t count)
{
    uint8_t *larger;

    if (count <= text->length)
        return;
    larger = realloc(text->bytes, count);
    if (larger) {
        text->bytes = larger;
        text->length = count;
    }
}

/* Writes the bytes that wait, in one call if the terminal accepts them all. ERR if a write failed: they still wait. */
static int write_waiting(SCREEN *screen)
{
    struct text *text = &screen->waiting;
    size_t count;

    make_room(text, huttavel_waiting(&screen->handle));
    while ((count = huttavel_bytes(&screen->handle, text->bytes, text->length)) > 0) {
        ssize_t taken = write_some(screen->output, text->bytes, count);

        if (taken < 0) {
            huttavel_failed(&screen->handle);
            return ERR;
        }
        huttavel_took(&screen->handle, (size_t)taken);
    }
    return huttavel_waiting(&screen->handle) ? ERR : OK;
}

/* Writes a string of the entry after all that waits. Its padding is time that passes. ERR without a string. */
static int write_string(SCREEN *screen, const char *text)
{
    if (!text || write_waiting(screen) == ERR)
        return ERR;
    while (*text) {
        struct padding padding;
        size_t length = 0, skipped = 0;

        while (text[length] && (skipped = padding_at(text + length, &padding)) == 0)
            length++;
        if (write_all(screen->output, (const uint8_t *)text, length) == ERR)
            return ERR;
        if (skipped)
            napms((int)(padding.tenths + 9) / 10);
        text += length + skipped;
    }
    return OK;
}

/* Writes a text after all that waits. */
static int write_text(SCREEN *screen, const struct text *text)
{
    return write_waiting(screen) == ERR ? ERR : write_all(screen->output, text->bytes, text->length);
}

/* Makes the terminal's keypad transmit, or work as the terminal's own (terminfo(5), 'Keypad and Function Keys'). */
static int set_transmitting(SCREEN *screen, bool on)
{
    if (on == screen->is_transmitting)
        return OK;
    screen->is_transmitting = on;
    return write_text(screen, on ? &screen->transmit : &screen->local);
}

/* What makes the terminal report the buttons of its mouse, in xterm's mode 1006, and what ends it. */
static const char reports_on[] = "\033[?1000h\033[?1006h", reports_off[] = "\033[?1006l\033[?1000l";

/* Writes one of the two after all that waits. */
static int write_reporting(SCREEN *screen, bool on)
{
    return write_string(screen, on ? reports_on : reports_off);
}

/* Makes the terminal report its mouse or end that; after endwin(), from when it is taken over again. */
static int set_reporting(SCREEN *screen, bool on)
{
    if (on == screen->is_reporting)
        return OK;
    screen->is_reporting = on;
    return screen->has_ended ? OK : write_reporting(screen, on);
}

int beep(void)
{
    const char *text = current ? string_of(current, BELL) : NULL;

    return current ? write_string(current, text ? text : string_of(current, FLASH)) : ERR;
}

int flash(void)
{
    const char *text = current ? string_of(current, FLASH) : NULL;

    return current ? write_string(current, text ? text : string_of(current, BELL)) : ERR;
}

/* The string that makes the cursor that visible, or NULL. */
static const char *visibility_string(const SCREEN *screen, int visibility)
{
    static const unsigned positions[] = {CURSOR_INVISIBLE, CURSOR_NORMAL, CURSOR_VISIBLE};

    return string_of(screen, positions[visibility]);
}

int curs_set(int visibility)
{
    int before;

    if (!current || visibility < 0 || visibility > 2 || !visibility_string(current, visibility))
        return ERR;
    before = current->visibility;
    if (visibility != before && write_string(current, visibility_string(current, visibility)) == ERR)
        return ERR;
    current->visibility = visibility;
    return before;
}
