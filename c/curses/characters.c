/* The parts of a chtype, the characters of line drawing, and characters in UTF-8. */

/* A character as it is written: its code, and attributes and a pair as in a chtype. */
struct rendered {
    uint32_t code;
    attr_t rendition;
};

#define LINE(letter, code) [letter] = {0, {code}}

/* The characters for the letters of the VT100's graphic set. */
const cchar_t huttavel_curses_wacs[128] = {
    LINE('l', 0x250c), LINE('m', 0x2514), LINE('k', 0x2510), LINE('j', 0x2518), LINE('u', 0x2524), LINE('t', 0x251c),
    LINE('v', 0x2534), LINE('w', 0x252c), LINE('q', 0x2500), LINE('x', 0x2502), LINE('n', 0x253c), LINE('o', 0x23ba),
    LINE('p', 0x23bb), LINE('r', 0x23bc), LINE('s', 0x23bd), LINE('`', 0x25c6), LINE('a', 0x2592), LINE('f', 0x00b0),
    LINE('g', 0x00b1), LINE('~', 0x00b7), LINE(',', 0x2190), LINE('+', 0x2192), LINE('.', 0x2193), LINE('-', 0x2191),
    LINE('h', 0x2592), LINE('i', 0x2603), LINE('0', 0x25ae), LINE('y', 0x2264), LINE('z', 0x2265), LINE('{', 0x03c0),
    LINE('|', 0x2260), LINE('}', 0x00a3),
};

/* Their ASCII stand-ins (X/Open Curses Issue 7, 'Line Graphics'). A program may put others into it. */
chtype acs_map[128] = {
    ['l'] = '+', ['m'] = '+', ['k'] = '+', ['j'] = '+',  ['u'] = '+', ['t'] = '+', ['v'] = '+', ['w'] = '+',
    ['q'] = '-', ['x'] = '|', ['n'] = '+', ['o'] = '-',  ['p'] = '-', ['r'] = '-', ['s'] = '_', ['`'] = '+',
    ['a'] = ':', ['f'] = '\'', ['g'] = '#', ['~'] = 'o', [','] = '<', ['+'] = '>', ['.'] = 'v', ['-'] = '^',
    ['h'] = '#', ['i'] = '#', ['0'] = '#', ['y'] = '<',  ['z'] = '>', ['{'] = '*', ['|'] = '!', ['}'] = 'f',
};

/* Those in ASCII, while acs_map is that of a screen in UTF-8. */
static chtype stand_ins[COUNT(acs_map)];
static bool is_map_utf8;

/* Makes acs_map that of a screen. In UTF-8 each character is its letter with A_ALTCHARSET. */
static void show_lines(const SCREEN *screen)
{
    size_t n;

    if (screen->is_utf8 == is_map_utf8)
        return;
    is_map_utf8 = screen->is_utf8;
    if (is_map_utf8)
        memcpy(stand_ins, acs_map, sizeof acs_map);
    else
        memcpy(acs_map, stand_ins, sizeof acs_map);
    for (n = 0; is_map_utf8 && n < COUNT(acs_map); n++)
        if (acs_map[n])
            acs_map[n] = (chtype)n | A_ALTCHARSET;
}

static uint8_t byte_of(chtype character)
{
    return (uint8_t)(character & A_CHARTEXT);
}

static uint8_t attrs_of(chtype character)
{
    return (uint8_t)(character >> 8 & 0x7f);
}

static void begin_pairs(struct pairs *all)
{
    int pair;

    for (pair = 1; pair < HELD_PAIRS; pair++)
        all->held[pair] = all->of_held[pair] = (uint8_t)pair;
}

/* How many pairs there are: more than COLOR_PAIRS with use_default_colors(), as in ncurses. */
static int pair_limit(const SCREEN *screen)
{
    return screen->has_defaults ? PAIRS : HELD_PAIRS;
}

/* Gives one of the handle's pairs to another pair of the program. */
static void give_pair(SCREEN *screen, int held, int pair)
{
    struct pairs *all = &screen->all_pairs;
    uint32_t *before = all->colours[all->of_held[held]];
    const uint32_t *colours = all->colours[pair];

    huttavel_pair_colours(&screen->handle, (uint32_t)held, &before[0], &before[1]);
    all->held[all->of_held[held]] = 0;
    all->of_held[held] = (uint8_t)pair;
    all->held[pair] = (uint8_t)held;
    huttavel_set_pair(&screen->handle, (uint32_t)held, colours[0], colours[1]);
}

/* The handle's pair of a program's pair that is used from now on. Where all are used by others it is 0. */
static uint32_t held_pair(SCREEN *screen, int pair)
{
    struct pairs *all = &screen->all_pairs;
    int held = HELD_PAIRS;

    if (pair <= 0 || pair >= pair_limit(screen))
        return (uint32_t)pair;
    while (!all->held[pair] && --held > 0)
        if (!all->is_used[held])
            give_pair(screen, held, pair);
    all->is_used[all->held[pair]] = true;
    return all->held[pair];
}

/* The program's pair of one of the handle's. */
static chtype named_pair(const SCREEN *screen, uint32_t held)
{
    return screen ? screen->all_pairs.of_held[held] : held;
}

/* The handle's pair of a character: 0 where there is none of its number, as before start_color(). */
static uint32_t pair_of(chtype character)
{
    int pair = PAIR_NUMBER(character);

    return current && current->pairs && pair < pair_limit(current) ? held_pair(current, pair) : 0;
}

/* The pair of a character, as it stands there, if it has one that can be used. */
static attr_t pair_in(chtype character)
{
    return character & A_COLOR && pair_of(character) ? character & A_COLOR : 0;
}

/* Whether a cell can hold a byte. */
static bool is_printable(uint8_t byte)
{
    return byte >= ' ' && byte <= '~';
}

/* The letter of a character of line drawing; 0 if it is none. */
static uint8_t letter_of(uint32_t code)
{
    uint8_t n;

    for (n = '+'; n <= '~'; n++)
        if ((uint32_t)huttavel_curses_wacs[n].chars[0] == code)
            return n;
    return 0;
}

/* The byte of a chtype, and A_ALTCHARSET with it, that shows a cell's character beyond ASCII when it is written again:
   on a screen in UTF-8 its letter if it is of line drawing, or its code below 256; otherwise its ASCII stand-in. */
static SELDOM chtype text_of(const SCREEN *screen, uint32_t code, uint8_t stand_in)
{
    uint8_t letter;

    if (!screen || !screen->is_utf8)
        return stand_in;
    letter = letter_of(code);
    if (letter)
        return letter | A_ALTCHARSET;
    return code < 256 ? code | A_ALTCHARSET : stand_in;
}

/* A cell of a screen's windows as a chtype. */
static inline chtype character_of(const SCREEN *screen, huttavel_cell cell)
{
    chtype text = cell.character < 128 ? cell.byte : text_of(screen, cell.character, cell.byte);

    return text | (chtype)cell.attrs << 8 | COLOR_PAIR(named_pair(screen, cell.pair));
}

/* What is written for a character: with A_ALTCHARSET, a letter of line drawing is the line. */
static struct rendered drawn_on(const SCREEN *screen, uint32_t code, attr_t attrs)
{
    struct rendered result = {code, attrs & A_ATTRIBUTES & ~A_ALTCHARSET};
    chtype line;

    if (!(attrs & A_ALTCHARSET) || code >= COUNT(acs_map) || !acs_map[code])
        return result;
    if (screen->is_utf8 && huttavel_curses_wacs[code].chars[0]) {
        result.code = (uint32_t)huttavel_curses_wacs[code].chars[0];
    } else {
        line = is_map_utf8 ? stand_ins[code] : acs_map[code];
        result.code = byte_of(line);
        result.rendition |= line & A_ATTRIBUTES & ~A_ALTCHARSET;
    }
    return result;
}

/* The same of a chtype. Its byte is a code from 128 on too, but on a screen in ASCII it is that of none, 0. */
static struct rendered drawn(const SCREEN *screen, chtype character)
{
    uint32_t code = byte_of(character);

    return drawn_on(screen, code < 128 || screen->is_utf8 ? code : 0, character);
}

/* The same where the window has A_ALTCHARSET on. */
static struct rendered drawn_in(const WINDOW *window, chtype character)
{
    return drawn(window->screen, character | (window->front.pen & A_ALTCHARSET));
}

/* A character that may be left out; a letter of the VT100's graphic set stands for it. */
static struct rendered drawn_or(const WINDOW *window, chtype character, char letter)
{
    chtype otherwise = character | A_ALTCHARSET | (chtype)letter;

    return byte_of(character) ? drawn_in(window, character) : drawn(window->screen, otherwise);
}

/* A character as a cell. */
static huttavel_cell cell_of(struct rendered character)
{
    huttavel_cell cell = {0, attrs_of(character.rendition), (uint8_t)pair_of(character.rendition), character.code};

    return cell;
}

/* Whether a cell can hold a character. */
static bool has_cell(uint32_t code)
{
    uint32_t shown;

    return code < 128 ? is_printable((uint8_t)code) : huttavel_columns(code, &shown) == 1 && shown == code;
}
