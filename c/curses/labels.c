/* Soft labels: eight of them in a line that is taken off the bottom of the screen. The strings with which some old
   terminals show labels of their own are not used. */

/* How the labels of the next screen are arranged. */
static int asked_format;

/* Takes over the line of the labels. */
static int begin_labels(WINDOW *line, int columns)
{
    struct labels *labels = &line->screen->labels;

    (void)columns;
    labels->line = line;
    labels->format = asked_format;
    return wattr_set(line, A_STANDOUT, 0, NULL);
}

int slk_init(int format)
{
    if (format < 0 || format > 1 || (!is_line_asked(begin_labels) && ripoffline(-1, begin_labels) == ERR))
        return ERR;
    asked_format = format;
    return OK;
}

/* The labels of the screen, or NULL. */
static struct labels *labels_of(SCREEN *screen)
{
    return screen && screen->labels.line ? &screen->labels : NULL;
}

/* The window whose attributes labels are shown with, or NULL. */
static WINDOW *label_line(void)
{
    return current ? current->labels.line : NULL;
}

/* Writes a label of that width. */
static void draw_label(const struct labels *labels, int which, int column, int width)
{
    const uint32_t *codes = labels->all[which].codes;
    int length = labels->all[which].length, blanks;
    struct rendered character = {' ', (attr_t)getattrs(labels->line)};
    struct row row;
    int n;

    if (length > width)
        length = width;
    blanks = (width - length) * labels->all[which].justify / 2;
    if (wmove(labels->line, 0, column) == ERR)
        return;
    begin_row(&row, labels->line);
    for (n = 0; n < width; n++) {
        bool is_blank = n < blanks || n >= blanks + length;

        put_cell(&row, cell_of(with_code(character, is_blank ? ' ' : codes[n - blanks])));
    }
    end_row(&row);
}

/* Writes all labels. One blank is between two of a group; what room is left is between the groups: 3, 2 and 3 labels,
   or 4 and 4. */
static void draw_labels(const struct labels *labels)
{
    int columns = labels->line->columns, gaps = labels->format ? 1 : 2;
    int width = (columns - LABELS + 1) / LABELS, gap, column = 0, n;

    if (width > LABEL_WIDTH)
        width = LABEL_WIDTH;
    gap = (columns - LABELS * width - (LABELS - 1 - gaps)) / gaps;
    werase(labels->line);
    for (n = 0; n < LABELS && width > 0 && !labels->is_hidden; n++) {
        bool is_last = labels->format ? n == 3 : n == 2 || n == 4;

        draw_label(labels, n, column, width);
        column += width + (is_last ? gap : 1);
    }
}

/* Copies the labels to the virtual screen. The cursor stays where it is wanted. */
int slk_noutrefresh(void)
{
    struct labels *labels = labels_of(current);
    int row, column, done;

    if (!labels)
        return ERR;
    draw_labels(labels);
    labels->is_drawn = true;
    huttavel_curses_cursor(&row, &column);
    done = wnoutrefresh(labels->line);
    huttavel_curses_set_cursor(row, column);
    return done;
}

int slk_refresh(void)
{
    return slk_noutrefresh() == ERR ? ERR : doupdate();
}

int slk_clear(void)
{
    struct labels *labels = labels_of(current);

    if (!labels)
        return ERR;
    labels->is_hidden = true;
    return slk_refresh();
}

int slk_restore(void)
{
    struct labels *labels = labels_of(current);

    if (!labels)
        return ERR;
    labels->is_hidden = false;
    return slk_refresh();
}

int slk_touch(void)
{
    return touchwin(label_line());
}

/* Takes over the characters of a label: at most eight, without blanks before and after them. */
static void take_label(struct labels *labels, int which, const uint32_t *codes, int length)
{
    char *text = labels->all[which].text;
    int n;

    while (length > 0 && codes[length - 1] == ' ')
        length--;
    labels->all[which].length = length;
    for (n = 0; n < length; n++) {
        labels->all[which].codes[n] = codes[n];
        text += encode(codes[n], (uint8_t *)text);
    }
    *text = '\0';
}

/* Whether there is such a label, and such a place where it stands: 0 left, 1 centred, 2 right. */
static bool is_label(const struct labels *labels, int number, int justify)
{
    return labels && number >= 1 && number <= LABELS && justify >= 0 && justify <= 2;
}

/* Sets a label, 1 to 8, and where it stands. It is cut off after eight characters, and before one that no cell holds;
   blanks before and after it don't count. */
int slk_set(int number, const char *text, int justify)
{
    struct labels *labels = labels_of(current);
    uint32_t codes[LABEL_WIDTH];
    int length = 0, size = 1;

    if (!is_label(labels, number, justify))
        return ERR;
    while (text && *text == ' ')
        text++;
    for (; text && *text && length < LABEL_WIDTH; text += size, length++) {
        size = decode((const uint8_t *)text, strnlen(text, LONGEST_SEQUENCE), &codes[length]);
        if (size <= 0 || (size > 1 && !current->is_utf8) || !has_cell(codes[length]))
            break;
    }
    take_label(labels, number - 1, codes, length);
    labels->all[number - 1].justify = justify;
    return OK;
}

int slk_wset(int number, const wchar_t *text, int justify)
{
    struct labels *labels = labels_of(current);
    uint32_t codes[LABEL_WIDTH];
    int length = 0;

    if (!is_label(labels, number, justify))
        return ERR;
    while (text && *text == L' ')
        text++;
    for (; text && length < LABEL_WIDTH && has_cell((uint32_t)text[length]); length++)
        codes[length] = (uint32_t)text[length];
    take_label(labels, number - 1, codes, length);
    labels->all[number - 1].justify = justify;
    return OK;
}

char *slk_label(int number)
{
    struct labels *labels = labels_of(current);

    return labels && number >= 1 && number <= LABELS ? labels->all[number - 1].text : NULL;
}

int slk_attron(const chtype attrs)
{
    return wattr_on(label_line(), attrs, NULL);
}

int slk_attroff(const chtype attrs)
{
    return wattr_off(label_line(), attrs, NULL);
}

int slk_attrset(const chtype attrs)
{
    return wattr_set(label_line(), attrs, (short)PAIR_NUMBER(attrs), NULL);
}

int slk_attr_on(const attr_t attrs, void *options)
{
    return wattr_on(label_line(), attrs, options);
}

int slk_attr_off(const attr_t attrs, void *options)
{
    return wattr_off(label_line(), attrs, options);
}

int slk_attr_set(const attr_t attrs, short pair, void *options)
{
    return wattr_set(label_line(), attrs, pair, options);
}

int slk_color(short pair)
{
    return wcolor_set(label_line(), pair, NULL);
}

/* The attributes and the pair of the labels; none without labels. */
attr_t slk_attr(void)
{
    attr_t attrs = A_NORMAL;

    wattr_get(label_line(), &attrs, NULL, NULL);
    return attrs;
}
