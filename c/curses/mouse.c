/* The mouse: what the terminal reports of it, and the events that getmouse() gives. */

/* How long a click takes at most, in milliseconds, unless mouseinterval() says otherwise. */
#define CLICK_INTERVAL 166

/* An event of each of the five buttons. */
#define OF_EACH_BUTTON(event)                                                                                \
    (NCURSES_MOUSE_MASK(1, event) | NCURSES_MOUSE_MASK(2, event) | NCURSES_MOUSE_MASK(3, event) |            \
     NCURSES_MOUSE_MASK(4, event) | NCURSES_MOUSE_MASK(5, event))

#define MODIFIERS (BUTTON_SHIFT | BUTTON_CTRL | BUTTON_ALT)

/* The events that there are: no double clicks, and no motion. */
#define REPORTED                                                                                             \
    (OF_EACH_BUTTON(NCURSES_BUTTON_RELEASED | NCURSES_BUTTON_PRESSED | NCURSES_BUTTON_CLICKED) | MODIFIERS)

/* A report: ESC [ < code ; column ; row M, or m at the end where a button is released (xterm's mode 1006). */
struct report {
    unsigned code, column, row;
    bool is_release;
};

#define LONGEST_REPORT 24

/* Reads a report that bytes begin with: how many it has; 0 if they are none, and -1 if more may make them one. */
static int read_report(const uint8_t *bytes, size_t count, struct report *report)
{
    unsigned numbers[3] = {0, 0, 0};
    size_t n, which = 0;

    if (memcmp(bytes, "\033[<", count < 3 ? count : 3))
        return 0;
    for (n = 3; n < count && n < LONGEST_REPORT; n++) {
        if (bytes[n] >= '0' && bytes[n] <= '9' && numbers[which] < 10000) {
            numbers[which] = 10 * numbers[which] + bytes[n] - '0';
        } else if (bytes[n] == ';' && which < 2) {
            which++;
        } else if (which == 2 && (bytes[n] == 'M' || bytes[n] == 'm')) {
            report->code = numbers[0];
            report->column = numbers[1];
            report->row = numbers[2];
            report->is_release = bytes[n] == 'm';
            return (int)n + 1;
        } else {
            return 0;
        }
    }
    return count < LONGEST_REPORT ? -1 : 0;
}

/* The button of a report, 1 to 5, or 0: the wheel is 4 and 5, motion and further buttons are none. */
static int button_of(unsigned code)
{
    unsigned low = code & 3;

    if (code & ~0x5fu)
        return 0;
    if (code & 64)
        return low < 2 ? 4 + (int)low : 0;
    return low < 3 ? 1 + (int)low : 0;
}

/* The place of a report, with the keys that were held down. */
static MEVENT event_at(const struct report *report)
{
    MEVENT event = {0, (int)report->column - 1, (int)report->row - 1, 0, 0};

    event.bstate = (report->code & 4 ? BUTTON_SHIFT : 0) | (report->code & 8 ? BUTTON_ALT : 0) |
                   (report->code & 16 ? BUTTON_CTRL : 0);
    return event;
}

/* Adds an event for getmouse(); the oldest is dropped if there are too many. */
static void push_event(struct mouse *mouse, const MEVENT *event)
{
    if (mouse->count == EVENTS) {
        mouse->count--;
        memmove(mouse->events, mouse->events + 1, sizeof *mouse->events * (EVENTS - 1));
    }
    mouse->events[mouse->count++] = *event;
}

/* Tells what a button did: KEY_MOUSE, or ERR if mousemask() did not ask for it. */
static int tell(struct mouse *mouse, MEVENT event, mmask_t what)
{
    if (!(what & mouse->mask))
        return ERR;
    event.bstate = (event.bstate | what) & mouse->mask;
    push_event(mouse, &event);
    return KEY_MOUSE;
}

/* Tells of the press that waited. */
static int tell_press(struct mouse *mouse)
{
    int button = mouse->pressed;

    mouse->pressed = 0;
    return tell(mouse, mouse->press, NCURSES_MOUSE_MASK(button, NCURSES_BUTTON_PRESSED));
}

/* The press that waited too long for its release; ERR if there is none. */
static int late_press(SCREEN *screen)
{
    struct mouse *mouse = &screen->mouse;

    return mouse->pressed && now() >= mouse->clicked_until ? tell_press(mouse) : ERR;
}

/* Whether a report makes a click of the press that waits. */
static bool is_click(const struct mouse *mouse, const struct report *report)
{
    return report->is_release && button_of(report->code) == mouse->pressed && now() < mouse->clicked_until;
}

/* Tells what a report says: KEY_MOUSE, or ERR if there is nothing to tell yet. A press that waits is one of which the
   report makes a click. The wheel is never released, so its presses don't wait. */
static int mouse_key(struct mouse *mouse, const struct report *report)
{
    int button = button_of(report->code);
    MEVENT event = event_at(report);
    mmask_t click;

    if (!button)
        return ERR;
    click = NCURSES_MOUSE_MASK(button, NCURSES_BUTTON_CLICKED);
    if (mouse->pressed) {
        mouse->pressed = 0;
        return tell(mouse, event, click);
    }
    if (report->is_release)
        return tell(mouse, event, NCURSES_MOUSE_MASK(button, NCURSES_BUTTON_RELEASED));
    if (button > 3 || mouse->interval == 0 || !(mouse->mask & click))
        return tell(mouse, event, NCURSES_MOUSE_MASK(button, NCURSES_BUTTON_PRESSED));
    mouse->press = event;
    mouse->pressed = button;
    mouse->clicked_until = now() + mouse->interval;
    return ERR;
}

/* Whether the terminal is known to report the mouse: its entry has the beginning of xterm's reports as a key, or its
   name is that of such a terminal. The entry of the Linux console has this key too, but the console reports nothing. */
static bool can_report(const SCREEN *screen)
{
    static const char *const names[] = {"xterm", "screen", "tmux", "rxvt"};
    const char *text = string_of(screen, MOUSE_KEY);
    size_t n;

    if (text && strncmp(screen->name, "linux", 5) && (!strncmp(text, "\033[M", 3) || !strncmp(text, "\033[<", 3)))
        return true;
    for (n = 0; n < COUNT(names); n++)
        if (!strncmp(screen->name, names[n], strlen(names[n])))
            return true;
    return false;
}

bool has_mouse(void)
{
    return current && can_report(current);
}

mmask_t mousemask(mmask_t mask, mmask_t *before)
{
    if (before)
        *before = current ? current->mouse.mask : 0;
    if (!has_mouse())
        return 0;
    current->mouse.mask = mask & REPORTED;
    set_reporting(current, current->mouse.mask != 0);
    return current->mouse.mask;
}

int mouseinterval(int milliseconds)
{
    int before = current ? current->mouse.interval : CLICK_INTERVAL;

    if (current && milliseconds >= 0)
        current->mouse.interval = milliseconds;
    return before;
}

/* Gives the newest event. */
int getmouse(MEVENT *event)
{
    if (!current || !event || !current->mouse.mask || current->mouse.count == 0)
        return ERR;
    *event = current->mouse.events[--current->mouse.count];
    return OK;
}

int ungetmouse(MEVENT *event)
{
    if (!current || !event || current->mouse.count == EVENTS || ungetch(KEY_MOUSE) == ERR)
        return ERR;
    push_event(&current->mouse, event);
    return OK;
}

bool wenclose(const WINDOW *window, int row, int column)
{
    int top = screen_row_of(window), left = getbegx(window);

    return window && top != ERR && row >= top && row < top + window->rows && column >= left &&
           column < left + window->columns;
}

bool wmouse_trafo(const WINDOW *window, int *row, int *column, bool to_screen)
{
    int top = screen_row_of(window), left = getbegx(window);

    if (!window || !row || !column || top == ERR)
        return false;
    if (!wenclose(window, *row + (to_screen ? top : 0), *column + (to_screen ? left : 0)))
        return false;
    *row += to_screen ? top : -top;
    *column += to_screen ? left : -left;
    return true;
}

bool mouse_trafo(int *row, int *column, bool to_screen)
{
    return wmouse_trafo(stdscr, row, column, to_screen);
}
