/* Attributes and colours that are sent by the program itself, with strings of the entry. */

/* The positions of these strings. */
enum {
    EXIT_ALTERNATE = 38,
    EXIT_ATTRIBUTES = 39,
    EXIT_STANDOUT = 43,
    EXIT_UNDERLINE = 44,
    SET_ATTRIBUTES = 131,
    ORIGINAL_PAIR = 297,
    SET_FOREGROUND = 359,
    SET_BACKGROUND = 360
};

/* Attributes, and the position of the string that turns each on. The first nine are the parameters of `sgr` and the
   bits of `ncv`, in order. */
static const struct {
    attr_t attr;
    unsigned position;
} renditions[] = {{A_STANDOUT, 35},     {A_UNDERLINE, 36}, {A_REVERSE, 34}, {A_BLINK, 26},
                  {A_DIM, 30},          {A_BOLD, 27},      {A_INVIS, 32},   {A_PROTECT, 33},
                  {A_ALTCHARSET, 25},   {A_ITALIC, 311},   {A_LEFT, 387},   {A_LOW, 388},
                  {A_HORIZONTAL, 386},  {A_RIGHT, 389},    {A_TOP, 390},    {A_VERTICAL, 391}};

/* The string of a position, of cur_term, if it has one. */
static void put_string(unsigned position, int (*put)(int))
{
    tputs(cur_term->strings[position], 1, put);
}

/* The same, with a parameter. */
static void put_colour(unsigned position, uint32_t colour, int (*put)(int))
{
    int32_t numbers[9] = {0};

    numbers[0] = (int32_t)colour;
    tputs(given_text(cur_term->strings[position], numbers), 1, put);
}

/* Sends what sets the attributes of `sgr`. False if the entry has no such string, or it is wrong. */
static bool set_attributes(attr_t attrs, int (*put)(int))
{
    int32_t numbers[9];
    size_t n;

    for (n = 0; n < 9; n++)
        numbers[n] = (attrs & renditions[n].attr) != 0;
    return tputs(given_text(cur_term->strings[SET_ATTRIBUTES], numbers), 1, put) == OK;
}

/* Turns all attributes off. */
static void clear_attributes(int (*put)(int))
{
    if (cur_term->strings[EXIT_ATTRIBUTES]) {
        put_string(EXIT_ATTRIBUTES, put);
        return;
    }
    put_string(EXIT_STANDOUT, put);
    put_string(EXIT_UNDERLINE, put);
    put_string(EXIT_ALTERNATE, put);
}

/* Turns exactly these attributes on. */
static void put_attributes(attr_t attrs, int (*put)(int))
{
    size_t n = 9;

    if (!set_attributes(attrs, put)) {
        clear_attributes(put);
        n = 0;
    }
    for (; n < COUNT_OF(renditions); n++)
        if (attrs & renditions[n].attr)
            put_string(renditions[n].position, put);
}

/* Attributes that the terminal can show with colours. */
static attr_t with_colours(attr_t attrs)
{
    int without = cur_term->numbers[NO_COLOR_VIDEO];
    size_t n;

    for (n = 0; without > 0 && n < 9; n++)
        if (without >> n & 1)
            attrs &= ~renditions[n].attr;
    return attrs;
}

/* The colours of a pair other than 0, of the screen in use. False without one, or where the entry has no colours. */
static bool has_pair_colours(short pair, uint32_t *foreground, uint32_t *background)
{
    return pair > 0 && current && cur_term->strings[SET_FOREGROUND] && cur_term->strings[SET_BACKGROUND] &&
           find_colours(current, pair, foreground, background);
}

int vid_puts(attr_t attrs, short pair, void *options, int (*put)(int))
{
    uint32_t foreground = HUTTAVEL_DEFAULT_COLOUR, background = HUTTAVEL_DEFAULT_COLOUR;
    bool is_coloured;

    (void)options;
    if (!cur_term || !put || pair < 0 || pair > 63)
        return ERR;
    is_coloured = has_pair_colours(pair, &foreground, &background);
    /* Before the attributes, which this string turns off too on some terminals. */
    if (whole_of(cur_term)->pair && (foreground == HUTTAVEL_DEFAULT_COLOUR || background == HUTTAVEL_DEFAULT_COLOUR))
        put_string(ORIGINAL_PAIR, put);
    put_attributes((is_coloured ? with_colours(attrs) : attrs) & ~A_COLOR, put);
    if (foreground != HUTTAVEL_DEFAULT_COLOUR)
        put_colour(SET_FOREGROUND, foreground, put);
    if (background != HUTTAVEL_DEFAULT_COLOUR)
        put_colour(SET_BACKGROUND, background, put);
    whole_of(cur_term)->pair = is_coloured ? pair : 0;
    return OK;
}

int vidputs(chtype attrs, int (*put)(int))
{
    return vid_puts(attrs, (short)PAIR_NUMBER(attrs), NULL, put);
}

int vid_attr(attr_t attrs, short pair, void *options)
{
    return vid_puts(attrs, pair, options, putchar);
}

int vidattr(chtype attrs)
{
    return vidputs(attrs, putchar);
}
