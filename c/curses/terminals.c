/* The terminals of term.h: entries that are open, with their capabilities in arrays. */

#define COUNT_OF(array) (sizeof(array) / sizeof *(array))

/* The positions of the flags and numbers that are asked for here. */
enum {
    GENERIC_TYPE = 6,
    HARD_COPY = 7,
    XON_XOFF = 20,
    COLUMNS = 0,
    ROWS = 2,
    PADDING_BAUD_RATE = 5,
    NO_COLOR_VIDEO = 15
};

char ttytype[TYPE_LENGTH];

/* All terminals, the last made first. */
static struct terminal *terminals;

/* Shows the strings of a terminal, which are in its file. */
static void show_strings(struct terminal *terminal)
{
    const struct strings strings = strings_of(&terminal->file);
    uint8_t *bytes = terminal->file.bytes, *offset = bytes + strings.offsets;
    size_t table = strings.offsets + 2 * strings.count, position;

    /* An absent string has an offset from 0x8000 on, which is beyond the end of every file. */
    for (position = 0; position < strings.count && position < COUNT_OF(terminal->seen.strings); position++, offset += 2) {
        size_t place = table + (offset[0] | (size_t)offset[1] << 8);

        terminal->seen.strings[position] = place < strings.end ? (char *)bytes + place : NULL;
    }
}

/* The number at a place of a file, of so many bytes: -1 if it is absent. As in the library, a greater one than 32,767
   counts as this. */
static int number_at(const struct text *file, size_t place, size_t width)
{
    unsigned low = short_at(file, place), high = width == 4 ? short_at(file, place + 2) : 0;

    if (high > 0x7fff || (width == 2 && low > 0x7fff))
        return -1;
    return high > 0 || low > 0x7fff ? 0x7fff : (int)low;
}

/* Shows the flags and the numbers. */
static void show_flags_and_numbers(struct terminal *terminal)
{
    const struct text *file = &terminal->file;
    const uint8_t *flag = file->bytes + flags_of(file);
    size_t flags = short_at(file, 4), numbers = short_at(file, 6), position;
    size_t place = numbers_of(file), width = width_of_numbers(file);

    for (position = 0; position < flags && position < COUNT_OF(terminal->seen.flags); position++)
        terminal->seen.flags[position] = flag[position] == 1;
    for (position = 0; position < COUNT_OF(terminal->seen.numbers); position++, place += width)
        terminal->seen.numbers[position] = position < numbers ? number_at(file, place, width) : -1;
}

/* Takes all that a compiled entry has, which the library can open. False if memory runs out. */
static bool take_entry(struct terminal *terminal, const struct text *entry, const char *type)
{
    terminal->type = malloc(strlen(type) + 1);
    terminal->file.bytes = malloc(entry->length);
    if (!terminal->type || !terminal->file.bytes)
        return false;
    strcpy(terminal->type, type);
    memcpy(terminal->file.bytes, entry->bytes, entry->length);
    terminal->file.length = entry->length;
    terminal->names = (char *)terminal->file.bytes + NAMES;
    show_strings(terminal);
    show_flags_and_numbers(terminal);
    return true;
}

static void free_terminal(struct terminal *terminal)
{
    huttavel_close(&terminal->entry);
    free(terminal->type);
    free(terminal->file.bytes);
    free(terminal->result);
    free(terminal);
}

/* The handle of a terminal's entry; it stays closed if memory runs out. */
static huttavel *entry_of(struct terminal *terminal)
{
    if (!huttavel_is_open(&terminal->entry))
        huttavel_entry_open(&terminal->entry, terminal->file.bytes, terminal->file.length);
    return &terminal->entry;
}

/* A terminal of a compiled entry that the library can open, for a descriptor. NULL if memory runs out. */
static struct terminal *made_terminal(const struct text *entry, const char *type, int output)
{
    struct terminal *terminal = calloc(1, sizeof *terminal);

    if (terminal && !take_entry(terminal, entry, type)) {
        free_terminal(terminal);
        return NULL;
    }
    if (terminal) {
        open_line(&terminal->line, output);
        terminal->next = terminals;
        terminals = terminal;
    }
    return terminal;
}

/* The same of an entry that is read first. NULL, and why, also if it is none. */
static TERMINAL *checked_terminal(const struct text *entry, const char *type, int output, uint32_t *fault)
{
    huttavel handle = HUTTAVEL_CLOSED_HANDLE;
    struct terminal *terminal = NULL;

    *fault = huttavel_entry_open(&handle, entry->bytes, entry->length);
    if (*fault == HUTTAVEL_OK) {
        terminal = made_terminal(entry, type, output);
        *fault = terminal ? HUTTAVEL_OK : HUTTAVEL_NO_MEMORY;
    }
    if (!terminal) {
        huttavel_close(&handle);
        return NULL;
    }
    terminal->entry = handle;
    return &terminal->seen;
}

/* Makes `lines` and `columns` what they are. */
static void show_size(TERMINAL *terminal, int rows, int columns)
{
    if (!terminal)
        return;
    terminal->numbers[ROWS] = rows;
    terminal->numbers[COLUMNS] = columns;
}

/* cur_term, if it is a terminal of this name and descriptor; or else a new one. NULL, and setupterm()'s status and why,
   if there is none. */
static TERMINAL *opened_terminal(const char *type, int output, int *status, const char **reason)
{
    struct search search = {type, false, false};
    struct text entry;
    TERMINAL *terminal;
    uint32_t fault;

    *status = 1;
    if (cur_term && whole_of(cur_term)->line.input == output && !strcmp(whole_of(cur_term)->type, type))
        return cur_term;
    entry = find_entry(&search);
    if (!entry.bytes) {
        *status = search.has_folder && !search.is_short ? 0 : -1;
        *reason = why_none(&search);
        return NULL;
    }
    terminal = checked_terminal(&entry, type, output, &fault);
    free(entry.bytes);
    if (!terminal) {
        *status = fault == HUTTAVEL_NO_MEMORY ? -1 : 0;
        *reason = huttavel_fault_text(fault);
    }
    return terminal;
}

/* The same, but NULL also for a terminal that no program of curses can use. */
static TERMINAL *usable_terminal(const char *type, int output, int *status, const char **reason)
{
    TERMINAL *terminal;

    *status = -1;
    *reason = "TERM is not set";
    terminal = type ? opened_terminal(type, output, status, reason) : NULL;
    if (!terminal || !(terminal->flags[GENERIC_TYPE] || terminal->flags[HARD_COPY]))
        return terminal;
    *status = terminal->flags[HARD_COPY];
    *reason = terminal->flags[HARD_COPY] ? "it prints on paper" : "its type is generic";
    if (terminal != cur_term)
        del_curterm(terminal);
    return NULL;
}

/* Makes a terminal cur_term, with the size that it has now. */
static void use_terminal(TERMINAL *terminal)
{
    uint32_t rows, columns;

    set_curterm(terminal);
    ask_size(whole_of(terminal)->line.input, &rows, &columns);
    if (rows)
        show_size(terminal, (int)rows, (int)columns);
}

int setupterm(const char *type, int descriptor, int *status)
{
    const char *name = type ? type : getenv("TERM"), *reason;
    int state;
    TERMINAL *terminal = usable_terminal(name, descriptor, &state, &reason);

    if (status)
        *status = state;
    if (!terminal && !status) {
        fprintf(stderr, "Error opening terminal: %s: %s.\n", name ? name : "", reason);
        exit(EXIT_FAILURE);
    }
    if (!terminal)
        return ERR;
    whole_of(terminal)->is_of_termcap = false;
    use_terminal(terminal);
    return OK;
}

int restartterm(const char *type, int descriptor, int *status)
{
    if (setupterm(type, descriptor, status) == ERR)
        return ERR;
    if (current)
        reset_prog_mode();
    return OK;
}

TERMINAL *set_curterm(TERMINAL *terminal)
{
    TERMINAL *before = cur_term;

    cur_term = terminal;
    memset(ttytype, 0, sizeof ttytype);
    if (terminal)
        strncpy(ttytype, whole_of(terminal)->names, sizeof ttytype - 1);
    return before;
}

int del_curterm(TERMINAL *terminal)
{
    struct terminal **place = &terminals, *found;
    SCREEN *screen;

    while (*place && &(*place)->seen != terminal)
        place = &(*place)->next;
    found = *place;
    if (!found)
        return ERR;
    *place = found->next;
    if (cur_term == terminal)
        set_curterm(NULL);
    for (screen = screens; screen; screen = screen->next)
        if (screen->terminal == terminal)
            screen->terminal = NULL;
    free_terminal(found);
    return OK;
}

char *termname(void)
{
    return cur_term ? whole_of(cur_term)->type : NULL;
}

/* The last of the names, which describes the terminal. */
char *longname(void)
{
    char *bar = cur_term ? strrchr(whole_of(cur_term)->names, '|') : NULL;

    if (bar)
        return bar + 1;
    return cur_term ? whole_of(cur_term)->names : NULL;
}
