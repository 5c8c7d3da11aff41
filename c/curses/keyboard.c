/* The keyboard: bytes are read one at a time, so that what a program reads by itself stays in the line. */

/* The shorter of two times to wait; -1 is for ever. */
static int shorter(int one, int other)
{
    if (one < 0 || other < 0)
        return one < 0 ? other : one;
    return one < other ? one : other;
}

/* How long there is to wait until a time. */
static int left_until(long long end)
{
    long long left = end - now();

    return left <= 0 ? 0 : left > INT_MAX ? INT_MAX : (int)left;
}

/* Waits for a byte of the keyboard: 1 if there may be one, 0 if not in time, -1 if a signal came. For ever, the read
   itself waits: it goes on after a signal whose handler was set with SA_RESTART, as signal() does. */
static int wait_for_byte(const SCREEN *screen, int milliseconds)
{
    struct pollfd asked;

    if (milliseconds < 0 && !(fcntl(screen->line.input, F_GETFL) & O_NONBLOCK))
        return 1;
    asked.fd = screen->line.input;
    asked.events = POLLIN;
    asked.revents = 0;
    return poll(&asked, 1, milliseconds);
}

/* What others did to the terminal meanwhile: a new size is a key, and a terminal that was given back is repainted. */
static int news(SCREEN *screen)
{
    if (screen->is_resized)
        resize(screen);
    if (screen->has_new_size) {
        screen->has_new_size = false;
        return KEY_RESIZE;
    }
    if (screen->is_disturbed && !screen->has_ended)
        update(screen);
    return ERR;
}

/* What a wait gives that a signal ended: it goes on after a signal of the terminal, which is news, and ends with ERR
   after one that the program handles. */
static int after_signal(const SCREEN *screen)
{
    return screen->is_resized || screen->is_disturbed || screen->has_new_size ? KEY_MAX : ERR;
}

/* Waits for a byte as long as `end` says, -1 for ever, and reads it. A byte without keypad() is a key at once;
   otherwise it is held. ERR at the end of the input, or in time; KEY_MAX to go on. */
static int read_byte(WINDOW *window, long long end)
{
    SCREEN *screen = window->screen;
    struct reading *reading = &screen->reading;
    bool is_short = reading->is_undecided && !window->is_untimed;
    int wait = end < 0 ? -1 : left_until(end), found;
    uint8_t byte;
    ssize_t count;

    if (is_short)
        wait = shorter(wait, left_until(reading->decided_at));
    if (screen->mouse.pressed)
        wait = shorter(wait, left_until(screen->mouse.clicked_until));
    found = wait_for_byte(screen, wait);

    if (found < 0)
        return errno == EINTR ? after_signal(screen) : ERR;
    if (found == 0) {
        if (is_short && left_until(reading->decided_at) == 0) {
            decide(reading);
            return KEY_MAX;
        }
        return end >= 0 && left_until(end) == 0 ? ERR : KEY_MAX;
    }
    count = read(screen->line.input, &byte, 1);
    if (count < 0 && errno == EINTR)
        return after_signal(screen);
    if (count < 0 && errno == EAGAIN)
        return KEY_MAX;
    if (count <= 0)
        return ERR;
    if (!window->is_keypad)
        return byte;
    hold(reading, byte);
    return KEY_MAX;
}

/* The next key. It is waited for as the window says, where nodelay() or timeout() set that, or else as halfdelay(). */
static int next_key(WINDOW *window)
{
    SCREEN *screen = window->screen;
    int wait = window->delay < 0 && screen->half_delay ? 100 * screen->half_delay : window->delay;
    long long end = wait < 0 ? -1 : now() + wait;

    for (;;) {
        int key = news(screen);

        if (key == ERR)
            key = late_press(screen);
        if (key == ERR)
            key = decoded_key(screen);
        if (key != ERR)
            return key;
        key = read_byte(window, end);
        if (key != KEY_MAX)
            return key;
    }
}

/* The next byte of a line that is read whole, and shown as it is typed if echo() is on. If the size changes meanwhile,
   what was typed of the line comes first. */
static int next_of_line(WINDOW *window)
{
    SCREEN *screen = window->screen;
    struct typed *typed = &screen->typed;
    int done;

    if (typed->taken == typed->length) {
        typed->is_reading = true;
        done = wgetnstr(window, typed->text, LONGEST_LINE - 2);
        typed->is_reading = false;
        typed->length = strlen(typed->text);
        typed->taken = 0;
        if (done == OK)
            typed->text[typed->length++] = '\n';
        else if (typed->length == 0)
            return done;
        else if (done == KEY_RESIZE)
            screen->has_new_size = true;
    }
    return (unsigned char)typed->text[typed->taken++];
}

/* Whether the terminal is read line by line. */
static bool is_by_lines(const SCREEN *screen)
{
    return screen == current && screen->line.is_terminal && screen->line.program.c_lflag & ICANON &&
           !screen->typed.is_reading;
}

int wgetch(WINDOW *window)
{
    SCREEN *screen;
    int key;

    if (!window || is_shown(window))
        return ERR;
    screen = window->screen;
    if (!window->is_pad && (window->has_moved || is_wintouched(window)))
        wrefresh(window);
    if (!screen->has_ended)
        set_transmitting(screen, window->is_keypad);
    if (screen->pushed_count)
        return screen->pushed[--screen->pushed_count];
    if (is_by_lines(screen))
        return next_of_line(window);
    key = next_key(window);
    if (key == '\r' && screen->is_newline)
        key = '\n';
    if (screen->is_echo && !window->is_pad && key >= 0 && key < KEY_MIN)
        wechochar(window, (chtype)key);
    return key;
}

int ungetch(int key)
{
    if (!current || current->pushed_count == PUSHED)
        return ERR;
    current->pushed[current->pushed_count++] = key;
    return OK;
}

int flushinp(void)
{
    if (!current)
        return ERR;
    if (current->line.is_terminal)
        tcflush(current->line.input, TCIFLUSH);
    current->pushed_count = 0;
    current->typed.taken = current->typed.length;
    forget_typed(current);
    return OK;
}
