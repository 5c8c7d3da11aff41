/* Colours, and the attributes that the terminal shows. */

/* A number that no colour has. */
#define NO_COLOUR 8u

bool has_colors(void)
{
    bool colours = false;

    return current && huttavel_has_colours(&current->handle, &colours) == HUTTAVEL_OK && colours;
}

bool can_change_color(void)
{
    return false;
}

int start_color(void)
{
    if (!has_colors())
        return ERR;
    COLORS = current->colors = 8;
    COLOR_PAIRS = current->pairs = 64;
    return OK;
}

/* Makes -1 a colour of pairs: the terminal's default, which pair 0 has always. */
int use_default_colors(void)
{
    if (!has_colors())
        return ERR;
    current->has_defaults = true;
    return OK;
}

/* The same. ERR for other colours of pair 0, which has the terminal's own. */
int assume_default_colors(int foreground, int background)
{
    return foreground == -1 && background == -1 ? use_default_colors() : ERR;
}

/* The number of a colour in the handle. One that is refused there, if it is none here. */
static uint32_t number_of_colour(short colour)
{
    if (colour == -1 && current->has_defaults)
        return HUTTAVEL_DEFAULT_COLOUR;
    return colour < 0 ? NO_COLOUR : (uint32_t)colour;
}

/* Whether a number of the handle is that of a colour. */
static bool is_colour(uint32_t number)
{
    return number < NO_COLOUR || number == HUTTAVEL_DEFAULT_COLOUR;
}

int init_pair(short pair, short foreground, short background)
{
    uint32_t first, second, held;

    if (!current || !current->pairs || pair < 0 || pair >= pair_limit(current))
        return ERR;
    held = current->all_pairs.held[pair];
    first = number_of_colour(foreground);
    second = number_of_colour(background);
    if (pair == 0 || held)
        return answer(huttavel_set_pair(&current->handle, held, first, second));
    if (!is_colour(first) || !is_colour(second))
        return ERR;
    current->all_pairs.colours[pair][0] = first;
    current->all_pairs.colours[pair][1] = second;
    return OK;
}

/* The colours of a pair other than 0, by their numbers in the handle. False where there is no such pair. */
static bool find_colours(SCREEN *screen, int pair, uint32_t *foreground, uint32_t *background)
{
    if (pair >= pair_limit(screen))
        return false;
    if (screen->all_pairs.held[pair])
        return huttavel_pair_colours(&screen->handle, screen->all_pairs.held[pair], foreground, background) ==
               HUTTAVEL_OK;
    *foreground = screen->all_pairs.colours[pair][0];
    *background = screen->all_pairs.colours[pair][1];
    return true;
}

/* A colour by its number in the handle. */
static short colour_of(uint32_t number)
{
    return number == HUTTAVEL_DEFAULT_COLOUR ? -1 : (short)number;
}

/* Pair 0 has the terminal's own colours, whatever they are: they count as white on black, unless -1 is a colour. */
int pair_content(short pair, short *foreground, short *background)
{
    uint32_t first = COLOR_WHITE, second = COLOR_BLACK;

    if (!current || !current->pairs || pair < 0)
        return ERR;
    if (pair == 0 && current->has_defaults)
        first = second = HUTTAVEL_DEFAULT_COLOUR;
    if (pair > 0 && !find_colours(current, pair, &first, &second))
        return ERR;
    if (foreground)
        *foreground = colour_of(first);
    if (background)
        *background = colour_of(second);
    return OK;
}

/* Always ERR: colours are not changed here, as can_change_color() says. */
int init_color(short color, short red, short green, short blue)
{
    (void)color;
    (void)red;
    (void)green;
    (void)blue;
    return ERR;
}

/* The parts of a colour, in thousandths: red, green and blue are the bits of its number. */
int color_content(short color, short *red, short *green, short *blue)
{
    short *parts[3];
    int n;

    if (!has_colors() || color < 0 || color > 7)
        return ERR;
    parts[0] = red;
    parts[1] = green;
    parts[2] = blue;
    for (n = 0; n < 3; n++)
        if (parts[n])
            *parts[n] = color >> n & 1 ? 680 : 0;
    return OK;
}

chtype termattrs(void)
{
    uint8_t attrs = 0;

    if (!current || huttavel_shown_attrs(&current->handle, &attrs) != HUTTAVEL_OK)
        return A_NORMAL;
    return (chtype)attrs << 8;
}

attr_t term_attrs(void)
{
    return termattrs();
}
