/* Calls that draw lines and borders of characters. */

/* Writes a character so many times, to the right or down, in the window of this number. */
typedef uint32_t (*line_call)(huttavel *, uint32_t, uint32_t, uint32_t);

/* Draws a line of a character, with its attributes and pair besides those of the window. */
static int draw_line(line_call draw, WINDOW *window, struct rendered character, int count)
{
    if (count <= 0)
        return OK;
    return answer(draw(handle_with(window, pen_of(window, character.rendition)), window->number, character.code,
                       (uint32_t)count));
}

static int draw_across(WINDOW *window, struct rendered character, int count)
{
    mark(window, getcury(window), getcurx(window), getcurx(window) + count - 1);
    return changed_marked(window, draw_line(huttavel_line_across_of, window, character, count));
}

static int draw_down(WINDOW *window, struct rendered character, int count)
{
    int row;

    for (row = getcury(window); row - getcury(window) < count && row < window->rows; row++)
        mark(window, row, getcurx(window), getcurx(window));
    return changed_marked(window, draw_line(huttavel_line_down_of, window, character, count));
}

int whline(WINDOW *window, chtype character, int count)
{
    return window ? draw_across(window, drawn_or(window, character, 'q'), count) : ERR;
}

int wvline(WINDOW *window, chtype character, int count)
{
    return window ? draw_down(window, drawn_or(window, character, 'x'), count) : ERR;
}

/* Draws a border piece by piece, each with its attributes. The cursor stays. */
static int draw_pieces(WINDOW *window, const struct rendered pieces[8])
{
    int row = getcury(window), column = getcurx(window), n;
    const int last_row = window->rows - 1, last_column = window->columns - 1;
    const struct {
        int row, column, count;
        line_call draw;
    } lines[8] = {{0, 0, window->rows, huttavel_line_down_of},
                  {0, last_column, window->rows, huttavel_line_down_of},
                  {0, 0, window->columns, huttavel_line_across_of},
                  {last_row, 0, window->columns, huttavel_line_across_of},
                  {0, 0, 1, huttavel_line_across_of},
                  {0, last_column, 1, huttavel_line_across_of},
                  {last_row, 0, 1, huttavel_line_across_of},
                  {last_row, last_column, 1, huttavel_line_across_of}};

    for (n = 0; n < 8; n++) {
        set_place(window, lines[n].row, lines[n].column);
        if (draw_line(lines[n].draw, window, pieces[n], lines[n].count) == ERR)
            break;
    }
    set_place(window, row, column);
    return n == 8 ? OK : ERR;
}

/* Draws a border: in one call, if no piece has attributes of its own. */
static int draw_border(WINDOW *window, const struct rendered pieces[8])
{
    uint32_t codes[8];
    attr_t all = 0;
    int n;

    for (n = 0; n < 8; n++) {
        codes[n] = pieces[n].code;
        all |= pieces[n].rendition;
    }
    return changed(window, all ? draw_pieces(window, pieces)
                               : answer(huttavel_border_of(handle_of(window), window->number, codes)));
}

/* The letters of the VT100's set for the pieces of a border, in the order of wborder(). */
static const char border_letters[] = "xxqqlkmj";

int wborder(WINDOW *window, chtype left, chtype right, chtype top, chtype bottom, chtype top_left, chtype top_right,
            chtype bottom_left, chtype bottom_right)
{
    chtype given[8] = {left, right, top, bottom, top_left, top_right, bottom_left, bottom_right};
    struct rendered pieces[8];
    int n;

    if (!window || is_shown(window))
        return ERR;
    for (n = 0; n < 8; n++)
        pieces[n] = drawn_or(window, given[n], border_letters[n]);
    return draw_border(window, pieces);
}

int box(WINDOW *window, chtype vertical, chtype horizontal)
{
    return wborder(window, vertical, vertical, horizontal, horizontal, 0, 0, 0, 0);
}
