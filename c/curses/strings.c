/* What strings of an entry give, and how they are sent. */

/* More than a byte of a string gives on average: no number has a width above 99, and the four bytes of `%99d` give at
   most 101. */
#define GIVEN_BYTES 26

/* What a string gives with nine parameters, in memory of cur_term, which the next call frees. NULL without cur_term, or
   if the string is wrong, or memory runs out. */
static char *given_text(const char *text, const int32_t numbers[9])
{
    struct terminal *terminal = whole_of(cur_term);
    size_t length = text ? strlen(text) : 0, room, count;
    char *result;

    if (!terminal || !text || length > PTRDIFF_MAX / GIVEN_BYTES - 1)
        return NULL;
    room = GIVEN_BYTES * length;
    result = malloc(room + 1);
    if (!result || huttavel_parameters(entry_of(terminal), (const uint8_t *)text, length, numbers, (uint8_t *)result,
                                       room, &count) != HUTTAVEL_OK) {
        free(result);
        return NULL;
    }
    result[count] = '\0';
    /* Only now, since the text may be in it. */
    free(terminal->result);
    terminal->result = result;
    return result;
}

/* The greatest number of a parameter that a string asks for, `%p1` to `%p9`. */
static int parameters_of(const char *text)
{
    int greatest = 0;

    while ((text = strchr(text, '%')) != NULL && text[1]) {
        if (text[1] == 'p' && text[2] > '0' && text[2] <= '9' && text[2] - '0' > greatest)
            greatest = text[2] - '0';
        /* The character of `%'%'` begins nothing. */
        text += text[1] == '\'' && text[2] ? 3 : 2;
    }
    return greatest;
}

char *tparm(const char *text, ...)
{
    int32_t numbers[9] = {0};
    int count = text ? parameters_of(text) : 0, n;
    va_list values;

    va_start(values, text);
    for (n = 0; n < count; n++)
        numbers[n] = (int32_t)va_arg(values, long);
    va_end(values);
    return given_text(text, numbers);
}

char *tiparm(const char *text, ...)
{
    int32_t numbers[9] = {0};
    int count = text ? parameters_of(text) : 0, n;
    va_list values;

    va_start(values, text);
    for (n = 0; n < count; n++)
        numbers[n] = va_arg(values, int);
    va_end(values);
    return given_text(text, numbers);
}

/* Whether a padding of cur_term's strings is obeyed: a terminal that stops the line by itself (`xon`) needs it only
   where it is mandatory, and so does one whose line is slower than `pb`. A speed that is unknown counts as slower than
   any `pb`, and `pb` is -1 where the entry has none. */
static bool is_obeyed(const struct padding *padding)
{
    if (padding->is_mandatory || !cur_term)
        return padding->is_mandatory;
    return !cur_term->flags[XON_XOFF] && bauds_of(&whole_of(cur_term)->line) >= cur_term->numbers[PADDING_BAUD_RATE];
}

/* Lets the time of a padding pass. What was written with putchar() is on its way before. */
static void pass(const struct padding *padding, int affected)
{
    long long tenths = padding->tenths;

    if (padding->is_proportional)
        tenths *= affected > 0 ? affected : 0;
    if (tenths > 10LL * LONGEST_PADDING)
        tenths = 10LL * LONGEST_PADDING;
    if (tenths == 0 || !is_obeyed(padding))
        return;
    fflush(stdout);
    napms((int)(tenths + 9) / 10);
}

int tputs(const char *text, int affected, int (*put)(int))
{
    if (!text || !put)
        return ERR;
    while (*text) {
        struct padding padding;
        size_t length = padding_at(text, &padding);

        if (length > 0)
            pass(&padding, affected);
        else
            put((unsigned char)*text++);
        text += length;
    }
    return OK;
}

int putp(const char *text)
{
    return tputs(text, 1, putchar);
}

/* Moves the cursor of a terminal that endwin() gave back, by the entry's `cup` alone: nothing else is sent, and the
   modes of the line stay. ERR outside of the screen, and where the entry has no such string. */
static int move_after_end(SCREEN *screen, int row, int column)
{
    int32_t numbers[9] = {0};

    if (!is_in(row, 0, screen->shown->rows - 1) || !is_in(column, 0, screen->shown->columns - 1))
        return ERR;
    numbers[0] = row;
    numbers[1] = column;
    return write_string(screen, given_text(string_of(screen, CURSOR_ADDRESS), numbers));
}
