/* The size of the terminal. */

/* What use_env() and use_tioctl() set. */
static bool is_environment_used = true, is_line_preferred = false;

void use_env(bool on)
{
    is_environment_used = on;
}

void use_tioctl(bool on)
{
    is_line_preferred = on;
}

/* A size that the environment says, or 0. */
static uint32_t size_in(const char *variable)
{
    const char *text = is_environment_used ? getenv(variable) : NULL;
    long size = text ? strtol(text, NULL, 10) : 0;

    return size > 0 ? (uint32_t)(size > LARGEST ? LARGEST : size) : 0;
}

/* Takes over a size that the line says: where none is known, and also in place of the environment's, which follows it
   then, after use_tioctl(). */
static void take_size(uint32_t *size, const char *variable, unsigned short said)
{
    char text[8];

    if (*size && !is_line_preferred)
        return;
    if (*size) {
        snprintf(text, sizeof text, "%u", (unsigned)said);
        setenv(variable, text, 1);
    }
    *size = said > LARGEST ? LARGEST : said;
}

/* The size of the terminal that a descriptor writes to: that of LINES and COLUMNS, or else the line's; 0 and 0 if
   neither says one. Without the environment, the line counts only after use_tioctl(). */
static void ask_size(int output, uint32_t *rows, uint32_t *columns)
{
    struct winsize size;

    *rows = size_in("LINES");
    *columns = size_in("COLUMNS");
    if ((is_environment_used || is_line_preferred) && ioctl(output, TIOCGWINSZ, &size) == 0 &&
        size.ws_row > 0 && size.ws_col > 0) {
        take_size(rows, "LINES", size.ws_row);
        take_size(columns, "COLUMNS", size.ws_col);
    }
    if (!*rows || !*columns)
        *rows = *columns = 0;
}

/* Whether the terminal that a descriptor writes to may have more rows or columns than a screen of this size, or of the
   entry's own if that is 0 and 0: the line says so, whatever LINES and COLUMNS say. */
static bool may_be_larger(int output, uint32_t rows, uint32_t columns)
{
    struct winsize size;

    return ioctl(output, TIOCGWINSZ, &size) == 0 && (size.ws_row > rows || size.ws_col > columns);
}

/* Have no effect: a screen moves the cursor by rows as well as by columns, and needs all of the terminal. */
void filter(void)
{
}

void nofilter(void)
{
}
