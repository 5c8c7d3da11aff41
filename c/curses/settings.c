/* Settings of windows: how they are updated and scrolled, what bytes are written with, backgrounds. */

int clearok(WINDOW *window, bool on)
{
    if (is_shown(window)) {
        window->screen->is_disturbed = on;
        return OK;
    }
    if (window)
        mark_all(window);
    return answer(huttavel_clear_ok(handle_of(window), number_of(window), on));
}

int idlok(WINDOW *window, bool on)
{
    (void)on;
    return window ? OK : ERR;
}

void idcok(WINDOW *window, bool on)
{
    (void)window;
    (void)on;
}

int leaveok(WINDOW *window, bool on)
{
    return answer(huttavel_leave_ok(handle_of(window), number_of(window), on));
}

int scrollok(WINDOW *window, bool on)
{
    if (huttavel_scroll_ok(handle_of(window), number_of(window), on) != HUTTAVEL_OK)
        return ERR;
    window->is_scrolling = on;
    return OK;
}

int wsetscrreg(WINDOW *window, int top, int bottom)
{
    return answer(huttavel_set_region(handle_of(window), number_of(window), (uint32_t)top, (uint32_t)bottom));
}

int keypad(WINDOW *window, bool on)
{
    if (!window)
        return ERR;
    window->is_keypad = on;
    return window->screen->has_ended ? OK : set_transmitting(window->screen, on);
}

int nodelay(WINDOW *window, bool on)
{
    if (!window)
        return ERR;
    window->delay = on ? 0 : -1;
    return OK;
}

int notimeout(WINDOW *window, bool on)
{
    if (!window)
        return ERR;
    window->is_untimed = on;
    return OK;
}

void wtimeout(WINDOW *window, int milliseconds)
{
    if (window)
        window->delay = milliseconds < 0 ? -1 : milliseconds;
}

void timeout(int milliseconds)
{
    wtimeout(stdscr, milliseconds);
}

/* Sets what characters are written with. */
static int set_pen(WINDOW *window, attr_t pen)
{
    window->front.pen = pen;
    window->front.has_other_pen = true;
    return OK;
}

/* Whether a window can write with a pair. */
static bool has_pair(const WINDOW *window, int pair)
{
    return pair >= 0 && (pair < HELD_PAIRS || pair < pair_limit(window->screen));
}

int wattr_on(WINDOW *window, attr_t attrs, void *options)
{
    attr_t pair = pair_in(attrs);

    (void)options;
    if (!window)
        return ERR;
    return set_pen(window, (pair ? window->front.pen & ~A_COLOR : window->front.pen) | (attrs & ~A_COLOR) | pair);
}

int wattr_off(WINDOW *window, attr_t attrs, void *options)
{
    (void)options;
    if (!window)
        return ERR;
    return set_pen(window, window->front.pen & ~(pair_in(attrs) ? attrs | A_COLOR : attrs & ~A_COLOR));
}

int wattr_set(WINDOW *window, attr_t attrs, short pair, void *options)
{
    (void)options;
    return window && has_pair(window, pair) ? set_pen(window, (attrs & ~A_COLOR) | COLOR_PAIR(pair)) : ERR;
}

int wattr_get(WINDOW *window, attr_t *attrs, short *pair, void *options)
{
    (void)options;
    if (!window)
        return ERR;
    if (attrs)
        *attrs = window->front.pen & PEN;
    if (pair)
        *pair = (short)PAIR_NUMBER(window->front.pen);
    return OK;
}

int getattrs(const WINDOW *window)
{
    attr_t attrs = A_NORMAL;

    return wattr_get((WINDOW *)window, &attrs, NULL, NULL) == ERR ? ERR : (int)attrs;
}

int wattron(WINDOW *window, int attrs)
{
    return wattr_on(window, (attr_t)attrs, NULL);
}

int wattroff(WINDOW *window, int attrs)
{
    return wattr_off(window, (attr_t)attrs, NULL);
}

int wattrset(WINDOW *window, int attrs)
{
    if (!window || ((attr_t)attrs & HUTTAVEL_LATE_PAIRS && !has_pair(window, PAIR_NUMBER(attrs))))
        return ERR;
    return set_pen(window, (attr_t)attrs);
}

int wcolor_set(WINDOW *window, short pair, void *options)
{
    return window ? wattr_set(window, window->front.pen, pair, options) : ERR;
}

int wstandout(WINDOW *window)
{
    return wattr_on(window, A_STANDOUT, NULL);
}

int wstandend(WINDOW *window)
{
    return wattr_set(window, A_NORMAL, 0, NULL);
}

/* Sets a background by one of the two calls. */
static int set_background(uint32_t (*set)(huttavel *, uint32_t, uint32_t, uint8_t, uint32_t), WINDOW *window,
                          struct rendered background)
{
    return answer(set(handle_of(window), number_of(window), background.code, attrs_of(background.rendition),
                      pair_of(background.rendition)));
}

/* A background without a byte is blank. */
static struct rendered drawn_background(const WINDOW *window, chtype background)
{
    return drawn(window->screen, byte_of(background) ? background : background | ' ');
}

int wbkgd(WINDOW *window, chtype background)
{
    if (!window)
        return ERR;
    return changed(window, set_background(huttavel_change_background_of, window, drawn_background(window, background)));
}

void wbkgdset(WINDOW *window, chtype background)
{
    if (window)
        set_background(huttavel_set_background_of, window, drawn_background(window, background));
}

chtype getbkgd(WINDOW *window)
{
    huttavel_cell cell;

    if (huttavel_background(handle_of(window), number_of(window), &cell) != HUTTAVEL_OK)
        return (chtype)ERR;
    return character_of(window->screen, cell);
}
