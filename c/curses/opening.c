/* Opening, choosing and closing screens. */

/* The positions of the flags that are asked for here. */
#define AUTO_RIGHT_MARGIN 1
#define EAT_NEWLINE_GLITCH 4

/* How many of its last columns a terminal's screen leaves out: one, where a character there would scroll. */
static int columns_left_out(const struct text *entry)
{
    return entry->bytes && has_flag(entry, AUTO_RIGHT_MARGIN) && !has_flag(entry, EAT_NEWLINE_GLITCH) ? 1 : 0;
}

/* Opens a handle on the screen's entry and a terminal of this size, without the strings which are sent here. A terminal
   whose size nothing says has 24 rows of 80 columns. */
static uint32_t open_handle(const SCREEN *screen, huttavel *handle, uint32_t rows, uint32_t columns)
{
    struct text entry = entry_of_updates(&screen->entry);
    huttavel_opening opening = {rows, columns, screen->is_utf8 ? HUTTAVEL_UTF8 : HUTTAVEL_ASCII,
                                may_be_larger(screen->output, rows, columns)};
    uint32_t fault = HUTTAVEL_NO_MEMORY;

    if (entry.bytes)
        fault = huttavel_open_as(handle, entry.bytes, entry.length, &opening, NULL);
    if (fault == HUTTAVEL_NO_SIZE) {
        opening.rows = 24;
        opening.columns = 80;
        fault = huttavel_open_as(handle, entry.bytes, entry.length, &opening, NULL);
    }
    free(entry.bytes);
    return fault;
}

/* What turns attributes off and moves the cursor to the last line, of a handle that nothing was updated on yet. NULL
   bytes if memory runs out. */
static struct text plain_text(huttavel *handle)
{
    struct text text = {NULL, 0};

    if (huttavel_finish(handle) == HUTTAVEL_OK)
        text.bytes = malloc(huttavel_waiting(handle) + 1);
    if (text.bytes)
        text.length = huttavel_bytes(handle, text.bytes, huttavel_waiting(handle));
    huttavel_took(handle, huttavel_waiting(handle));
    return text;
}

/* Makes the texts that are sent here. False if memory runs out. */
static bool make_texts(SCREEN *screen)
{
    screen->enter = sent_text(screen, ENTER_SCREEN);
    screen->leave = sent_text(screen, EXIT_SCREEN);
    screen->transmit = sent_text(screen, KEYPAD_TRANSMIT);
    screen->local = sent_text(screen, KEYPAD_LOCAL);
    screen->plain = plain_text(&screen->handle);
    return screen->enter.bytes && screen->leave.bytes && screen->transmit.bytes && screen->local.bytes &&
           screen->plain.bytes;
}

/* Frees all memory of a screen. */
static void free_screen(SCREEN *screen)
{
    WINDOW *window, *next;

    for (window = screen->windows; window; window = next) {
        next = window->next;
        free(window);
    }
    free_definitions(screen);
    huttavel_close(&screen->handle);
    free(screen->whole);
    free(screen->shown);
    free(screen->entry.bytes);
    free(screen->name);
    del_curterm(screen->terminal);
    free(screen->waiting.bytes);
    free(screen->enter.bytes);
    free(screen->leave.bytes);
    free(screen->transmit.bytes);
    free(screen->local.bytes);
    free(screen->plain.bytes);
    free(screen);
}

/* Makes the two windows that a screen begins with. */
static bool make_windows(SCREEN *screen)
{
    WINDOW *standard = spare_window(screen), *shown = spare_window(screen);

    screen->shown = shown;
    if (!standard || !shown) {
        free(standard);
        return false;
    }
    standard->number = 0;
    screen->standard = kept_window(standard, HUTTAVEL_OK);
    shown->rows = screen->rows = standard->rows;
    shown->columns = screen->columns = standard->columns;
    return take_lines_off(screen);
}

/* A screen that is not in use yet; NULL, and why, if the entry makes none. */
static SCREEN *made_screen(const char *type, int output, int input, const char **reason)
{
    SCREEN *screen = calloc(1, sizeof *screen);
    struct search search = {type, false, false};
    struct terminal *terminal;
    uint32_t rows, columns, fault;

    *reason = "out of memory";
    if (!screen)
        return NULL;
    screen->line.input = input;
    screen->output = output;
    screen->visibility = 1;
    screen->mouse.interval = CLICK_INTERVAL;
    screen->is_utf8 = has_utf8();
    begin_pairs(&screen->all_pairs);
    screen->entry = find_entry(&search);
    screen->left_out = columns_left_out(&screen->entry);
    screen->name = calloc(strlen(type) + 1, 1);
    screen->waiting.bytes = malloc(4096);
    screen->waiting.length = screen->waiting.bytes ? 4096 : 0;
    ask_size(output, &rows, &columns);
    fault = screen->entry.bytes ? open_handle(screen, &screen->handle, rows, columns) : HUTTAVEL_OK;
    if (!screen->entry.bytes || fault != HUTTAVEL_OK || !screen->name || !screen->waiting.bytes) {
        *reason = screen->entry.bytes ? huttavel_fault_text(fault) : why_none(&search);
        free_screen(screen);
        return NULL;
    }
    strcpy(screen->name, type);
    terminal = made_terminal(&screen->entry, type, output);
    screen->terminal = terminal ? &terminal->seen : NULL;
    if (!terminal || !make_windows(screen) || !make_texts(screen)) {
        free_screen(screen);
        return NULL;
    }
    show_size(screen->terminal, screen->shown->rows, screen->shown->columns);
    return screen;
}

SCREEN *set_term(SCREEN *screen)
{
    SCREEN *before = current;

    if (before)
        before->standard = stdscr;
    current = screen;
    stdscr = screen ? screen->standard : NULL;
    curscr = screen ? screen->shown : NULL;
    LINES = screen ? screen->rows : 0;
    COLS = screen ? screen->columns : 0;
    COLORS = screen ? screen->colors : 0;
    COLOR_PAIRS = screen ? screen->pairs : 0;
    if (screen)
        show_lines(screen);
    set_curterm(screen ? screen->terminal : NULL);
    return before;
}

/* Takes over the terminal: its modes, and its screen. False, and why, if it allows neither; it is as it was then. */
static bool take_terminal(SCREEN *screen, const char **reason)
{
    open_line(&screen->line, screen->line.input);
    *reason = "the modes of its line cannot be set";
    if (begin_modes(screen) == ERR)
        return false;
    *reason = "it cannot be written to";
    if (write_text(screen, &screen->enter) == OK)
        return true;
    if (screen->line.is_terminal)
        tcsetattr(screen->line.input, TCSADRAIN, &screen->line.shell);
    return false;
}

/* Opens a screen, takes over the terminal, and chooses the screen. */
static SCREEN *opened_screen(const char *type, FILE *output, FILE *input, const char **reason)
{
    const char *delay = getenv("ESCDELAY");
    SCREEN *screen;

    *reason = "TERM is not set";
    if (!type || !*type)
        return NULL;
    screen = made_screen(type, fileno(output), fileno(input), reason);
    if (!screen)
        return NULL;
    if (!take_terminal(screen, reason)) {
        free_screen(screen);
        return NULL;
    }
    if (delay && atoi(delay) > 0)
        ESCDELAY = atoi(delay);
    screen->next = screens;
    screens = screen;
    set_term(screen);
    handle_signals();
    begin_lines(screen);
    return screen;
}

SCREEN *newterm(const char *type, FILE *output, FILE *input)
{
    const char *reason;

    return opened_screen(type ? type : getenv("TERM"), output, input, &reason);
}

/* The screen that initscr() opened, which it does once. */
static SCREEN *initial;

WINDOW *initscr(void)
{
    const char *type = getenv("TERM"), *reason;

    if (initial)
        return stdscr;
    initial = opened_screen(type, stdout, stdin, &reason);
    if (!initial) {
        fprintf(stderr, "Error opening terminal: %s: %s.\n", type ? type : "", reason);
        exit(EXIT_FAILURE);
    }
    return stdscr;
}

int endwin(void)
{
    int done = OK;

    if (!current || current->has_ended)
        return ERR;
    if (current->visibility != 1 && visibility_string(current, 1))
        done = write_string(current, visibility_string(current, 1));
    huttavel_finish(&current->handle);
    if (current->is_transmitting && write_text(current, &current->local) == ERR)
        done = ERR;
    if (current->is_reporting && write_reporting(current, false) == ERR)
        done = ERR;
    if (write_text(current, &current->leave) == ERR)
        done = ERR;
    current->has_ended = 1;
    if (current->line.is_terminal && tcsetattr(current->line.input, TCSADRAIN, &current->line.shell) < 0)
        done = ERR;
    return done;
}

bool isendwin(void)
{
    return current && current->has_ended;
}

void delscreen(SCREEN *screen)
{
    SCREEN **place;

    if (!screen)
        return;
    for (place = &screens; *place && *place != screen; place = &(*place)->next)
        ;
    if (*place)
        *place = screen->next;
    if (current == screen)
        set_term(NULL);
    if (initial == screen)
        initial = NULL;
    free_screen(screen);
}

const char *curses_version(void)
{
    return "huttavel " HUTTAVEL_VERSION;
}

/* Whether capabilities that terminfo does not name may be read. None is. */
int use_extended_names(bool on)
{
    static bool is_on = true;
    bool before = is_on;

    is_on = on;
    return before;
}

bool has_ic(void)
{
    if (!current)
        return false;
    return string_of(current, INSERT_CHARACTER) || string_of(current, INSERT_CHARACTERS) ||
           (string_of(current, ENTER_INSERT) && string_of(current, EXIT_INSERT));
}

bool has_il(void)
{
    return current && (string_of(current, INSERT_LINE) || string_of(current, CHANGE_REGION));
}
