/* The forms for stdscr, and those that move first. */

/* A form for stdscr; one that moves there first; one that moves in a window first. */
#define STANDARD(kind, name, parameters, ...)                                                                \
    kind name parameters                                                                                     \
    {                                                                                                        \
        return w##name(__VA_ARGS__);                                                                         \
    }
#define MOVED(kind, name, parameters, ...)                                                                   \
    kind mv##name parameters                                                                                 \
    {                                                                                                        \
        return wmove(stdscr, row, column) == ERR ? (kind)ERR : w##name(__VA_ARGS__);                         \
    }
#define MOVED_IN_WINDOW(kind, name, parameters, ...)                                                         \
    kind mvw##name parameters                                                                                \
    {                                                                                                        \
        return wmove(window, row, column) == ERR ? (kind)ERR : w##name(__VA_ARGS__);                         \
    }

/* All three of a call without further parameters, of one with one, and of one with two. */
#define FORMS0(kind, name)                                                                                   \
    STANDARD(kind, name, (void), stdscr)                                                                     \
    MOVED(kind, name, (int row, int column), stdscr)                                                         \
    MOVED_IN_WINDOW(kind, name, (WINDOW * window, int row, int column), window)
#define FORMS1(kind, name, type)                                                                             \
    STANDARD(kind, name, (type first), stdscr, first)                                                        \
    MOVED(kind, name, (int row, int column, type first), stdscr, first)                                      \
    MOVED_IN_WINDOW(kind, name, (WINDOW * window, int row, int column, type first), window, first)
#define FORMS2(kind, name, type)                                                                             \
    STANDARD(kind, name, (type first, int second), stdscr, first, second)                                    \
    MOVED(kind, name, (int row, int column, type first, int second), stdscr, first, second)                  \
    MOVED_IN_WINDOW(kind, name, (WINDOW * window, int row, int column, type first, int second), window, first, second)

FORMS1(int, addch, const chtype)
FORMS1(int, addstr, const char *)
FORMS2(int, addnstr, const char *)
FORMS1(int, addchstr, const chtype *)
FORMS2(int, addchnstr, const chtype *)
FORMS1(int, insch, chtype)
FORMS1(int, insstr, const char *)
FORMS2(int, insnstr, const char *)
FORMS2(int, hline, chtype)
FORMS2(int, vline, chtype)
FORMS0(int, delch)
FORMS0(chtype, inch)
FORMS1(int, inchstr, chtype *)
FORMS2(int, inchnstr, chtype *)
FORMS1(int, instr, char *)
FORMS2(int, innstr, char *)
FORMS0(int, getch)
FORMS1(int, getstr, char *)
FORMS2(int, getnstr, char *)

FORMS1(int, add_wch, const cchar_t *)
FORMS1(int, addwstr, const wchar_t *)
FORMS2(int, addnwstr, const wchar_t *)
FORMS1(int, add_wchstr, const cchar_t *)
FORMS2(int, add_wchnstr, const cchar_t *)
FORMS1(int, ins_wch, const cchar_t *)
FORMS1(int, ins_wstr, const wchar_t *)
FORMS2(int, ins_nwstr, const wchar_t *)
FORMS2(int, hline_set, const cchar_t *)
FORMS2(int, vline_set, const cchar_t *)
FORMS1(int, in_wch, cchar_t *)
FORMS1(int, in_wchstr, cchar_t *)
FORMS2(int, in_wchnstr, cchar_t *)
FORMS1(int, inwstr, wchar_t *)
FORMS2(int, innwstr, wchar_t *)
FORMS1(int, get_wch, wint_t *)
FORMS1(int, get_wstr, wint_t *)
FORMS2(int, getn_wstr, wint_t *)

STANDARD(int, chgat, (int count, attr_t attrs, short pair, const void *options), stdscr, count, attrs, pair, options)
MOVED(int, chgat, (int row, int column, int count, attr_t attrs, short pair, const void *options), stdscr, count, attrs,
      pair, options)
MOVED_IN_WINDOW(int, chgat,
                (WINDOW * window, int row, int column, int count, attr_t attrs, short pair, const void *options), window,
                count, attrs, pair, options)

STANDARD(int, move, (int row, int column), stdscr, row, column)
STANDARD(int, refresh, (void), stdscr)
STANDARD(int, setscrreg, (int top, int bottom), stdscr, top, bottom)
STANDARD(int, attron, (int attrs), stdscr, attrs)
STANDARD(int, attroff, (int attrs), stdscr, attrs)
STANDARD(int, attrset, (int attrs), stdscr, attrs)
STANDARD(int, attr_on, (attr_t attrs, void *options), stdscr, attrs, options)
STANDARD(int, attr_off, (attr_t attrs, void *options), stdscr, attrs, options)
STANDARD(int, attr_set, (attr_t attrs, short pair, void *options), stdscr, attrs, pair, options)
STANDARD(int, attr_get, (attr_t * attrs, short *pair, void *options), stdscr, attrs, pair, options)
STANDARD(int, color_set, (short pair, void *options), stdscr, pair, options)
STANDARD(int, standout, (void), stdscr)
STANDARD(int, standend, (void), stdscr)
STANDARD(int, bkgd, (chtype background), stdscr, background)
STANDARD(int, echochar, (const chtype character), stdscr, character)
STANDARD(int, erase, (void), stdscr)
STANDARD(int, clear, (void), stdscr)
STANDARD(int, clrtoeol, (void), stdscr)
STANDARD(int, clrtobot, (void), stdscr)
STANDARD(int, deleteln, (void), stdscr)
STANDARD(int, insertln, (void), stdscr)
STANDARD(int, insdelln, (int count), stdscr, count)
STANDARD(int, scrl, (int count), stdscr, count)
STANDARD(int, border, (chtype left, chtype right, chtype top, chtype bottom, chtype top_left, chtype top_right,
                       chtype bottom_left, chtype bottom_right),
         stdscr, left, right, top, bottom, top_left, top_right, bottom_left, bottom_right)

STANDARD(int, echo_wchar, (const cchar_t *character), stdscr, character)
STANDARD(int, bkgrnd, (const cchar_t *background), stdscr, background)
STANDARD(int, getbkgrnd, (cchar_t * background), stdscr, background)
STANDARD(int, border_set, (const cchar_t *left, const cchar_t *right, const cchar_t *top, const cchar_t *bottom,
                           const cchar_t *top_left, const cchar_t *top_right, const cchar_t *bottom_left,
                           const cchar_t *bottom_right),
         stdscr, left, right, top, bottom, top_left, top_right, bottom_left, bottom_right)

void bkgrndset(const cchar_t *background)
{
    wbkgrndset(stdscr, background);
}

void bkgdset(chtype background)
{
    wbkgdset(stdscr, background);
}
