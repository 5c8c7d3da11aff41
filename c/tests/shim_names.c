/* Calls of curses.h that other programs seldom make, and compares what they give with what X/Open Curses Issue 7 says
 * of them, or, of the names that only ncurses has, its manual pages. The keyboard is a pipe, and the screen a file. */
#define _XOPEN_SOURCE 700

#include <curses.h>

#include <stdlib.h>
#include <string.h>
#include <unistd.h>

#define CHECK(holds) check((holds), #holds, __LINE__)
#define IS(wanted, call) check((call) == (wanted), #call, __LINE__)

static int failed = 0;

static void check(bool holds, const char *what, int line)
{
    if (!holds) {
        printf("line %d: %s\n", line, what);
        failed = 1;
    }
}

/* Where the program types, and where it looks at what is sent. */
static int keyboard;
static FILE *typed, *sent;

/* A screen of 24 rows and 80 columns. */
static SCREEN *open_screen(void)
{
    int ends[2];
    SCREEN *screen;

    sent = tmpfile();
    if (!sent || pipe(ends) < 0) {
        puts("no file or no pipe");
        exit(1);
    }
    typed = fdopen(ends[0], "r");
    keyboard = ends[1];
    screen = newterm("xterm", sent, typed);
    if (!screen) {
        puts("no screen on the terminal xterm");
        exit(1);
    }
    /* Before it a character has no pair, and a pair no colours. */
    CHECK(init_pair(1, COLOR_RED, COLOR_BLUE) == ERR && addch('a' | COLOR_PAIR(1)) == OK);
    CHECK(mvinch(0, 0) == 'a' && clear() == OK && move(0, 0) == OK);
    IS(OK, start_color());
    return screen;
}

static void close_screen(SCREEN *screen)
{
    delscreen(screen);
    fclose(typed);
    fclose(sent);
    close(keyboard);
}

static void type(const char *text)
{
    IS((ssize_t)strlen(text), write(keyboard, text, strlen(text)));
}

/* Whether a text was sent since this was asked last. */
static bool was_sent(const char *text)
{
    static char bytes[65536];
    static long before;
    size_t length;

    /* The file of another screen is read from its beginning. */
    fseek(sent, 0, SEEK_END);
    if (ftell(sent) < before)
        before = 0;
    fseek(sent, before, SEEK_SET);
    length = fread(bytes, 1, sizeof bytes - 1, sent);
    bytes[length] = '\0';
    before += (long)length;
    fseek(sent, 0, SEEK_END);
    return strstr(bytes, text) != NULL;
}

/* What the next update shows at a place of the screen. */
static chtype shown(int row, int column)
{
    setsyx(row, column);
    return winch(curscr);
}

/* Whether a line of a window begins with a text, in these attributes. */
static bool has_text(WINDOW *window, int row, int column, const char *text, attr_t attrs)
{
    for (; *text; text++, column++)
        if (mvwinch(window, row, column) != ((unsigned char)*text | attrs))
            return false;
    return true;
}

/* Cells are read several at a time: each is as the last change of any window left it. */
static void reading_between_changes(void)
{
    static const char forty[] = "abcdefghijklmnopqrstuvwxyzABCDEFGHIJKLMN";
    WINDOW *window = newwin(3, 40, 0, 0), *part = derwin(window, 1, 5, 1, 14), *other = newwin(3, 40, 0, 0);
    chtype cells[41];
    char text[41];

    IS(OK, mvwaddstr(window, 1, 0, forty));
    IS('k', mvwinch(window, 1, 10));
    IS('l', mvwinch(window, 1, 11));
    IS(OK, waddch(window, 'X'));
    IS('X', mvwinch(window, 1, 11));
    IS('m', mvwinch(window, 1, 12));
    IS('o', mvwinch(part, 0, 0));
    IS(OK, waddch(part, 'P'));
    IS('P', mvwinch(window, 1, 14));
    IS('p', mvwinch(window, 1, 15));
    IS('q', mvwinch(window, 1, 16));
    IS('N', mvwinch(window, 1, 39));
    IS(' ', mvwinch(window, 2, 39));
    IS(' ', mvwinch(other, 1, 39));
    IS(OK, wnoutrefresh(window));
    IS('N', mvwinch(window, 1, 39));
    IS(OK, mvwdelch(window, 1, 38));
    IS('N', mvwinch(window, 1, 38));
    IS(' ', mvwinch(window, 1, 39));
    IS(OK, werase(window));
    IS(' ', mvwinch(window, 1, 38));
    IS((chtype)ERR, mvwinch(window, 1, 40));
    IS((chtype)ERR, winch(NULL));
    /* More than are read at a time, up to the end of the line. */
    IS(OK, mvwaddnstr(window, 0, 0, forty, 39));
    IS(OK, mvwaddch(window, 0, 39, 'N' | A_BOLD));
    IS(40, mvwinnstr(window, 0, 0, text, -1));
    CHECK(strcmp(text, forty) == 0);
    IS(17, mvwinnstr(window, 0, 3, text, 17));
    CHECK(strcmp(text, "defghijklmnopqrst") == 0);
    IS(OK, mvwinchstr(window, 0, 7, cells));
    CHECK(cells[0] == 'h' && cells[31] == 'M' && cells[32] == ('N' | A_BOLD) && cells[33] == 0);
    IS(OK, mvwinchnstr(window, 0, 0, cells, 16));
    CHECK(cells[15] == 'p' && cells[16] == 0);
    IS(OK, mvwinchnstr(window, 0, 0, cells, 0));
    CHECK(cells[0] == 0);
    IS(OK, delwin(other));
    IS(OK, delwin(part));
    IS(OK, delwin(window));
}

static void writing_cells(void)
{
    const chtype cells[] = {'a' | A_BOLD, 'b', 'c' | COLOR_PAIR(3) | A_UNDERLINE, 0};
    const chtype control[] = {'a', '\n', 0};
    WINDOW *window = newwin(3, 10, 2, 2);
    int row, column;

    wbkgdset(window, '.' | A_REVERSE);
    wattr_set(window, A_DIM, 2, NULL);
    IS(OK, mvwaddchstr(window, 1, 2, cells));
    getyx(window, row, column);
    CHECK(row == 1 && column == 2);
    IS(('a' | A_BOLD), mvwinch(window, 1, 2));
    IS('b', mvwinch(window, 1, 3));
    IS(('c' | COLOR_PAIR(3) | A_UNDERLINE), mvwinch(window, 1, 4));
    /* The background and the window's attributes are as before. */
    IS(('.' | A_REVERSE), getbkgd(window));
    IS((int)(A_DIM | COLOR_PAIR(2)), getattrs(window));
    IS(OK, mvwaddch(window, 0, 0, ' '));
    IS(('.' | A_REVERSE | A_DIM | COLOR_PAIR(2)), mvwinch(window, 0, 0));
    /* At most so many, and no further than the line: also the last line's last place. */
    IS(OK, mvwaddchnstr(window, 0, 5, cells, 1));
    IS(('a' | A_BOLD), mvwinch(window, 0, 5));
    IS(' ', mvwinch(window, 0, 6));
    scrollok(window, TRUE);
    IS(OK, mvwaddchstr(window, 2, 8, cells));
    IS('b', mvwinch(window, 2, 9));
    IS(('a' | A_BOLD), mvwinch(window, 2, 8));
    IS(('a' | A_BOLD), mvwinch(window, 1, 2));
    IS(ERR, mvwaddchstr(window, 0, 0, control));
    IS(ERR, mvwaddchstr(window, 3, 0, cells));
    IS(ERR, waddchnstr(NULL, cells, 1));
    IS(('.' | A_REVERSE | A_DIM | COLOR_PAIR(2)), mvwinch(window, 0, 0));
    IS(OK, delwin(window));
    IS(OK, mvaddchnstr(23, 79, cells, -1));
    IS(('a' | A_BOLD), mvinch(23, 79));
    IS(OK, clear());
}

static void changing_attributes(void)
{
    IS(OK, bkgd(':'));
    IS(OK, mvaddstr(4, 0, "abc def"));
    IS(OK, mvchgat(4, 1, 4, A_BOLD, 5, NULL));
    IS(1, getcurx(stdscr));
    CHECK(has_text(stdscr, 4, 0, "a", 0));
    CHECK(has_text(stdscr, 4, 1, "bc:d", A_BOLD | COLOR_PAIR(5)));
    CHECK(has_text(stdscr, 4, 5, "ef:", 0));
    IS(OK, mvchgat(4, 6, -1, A_REVERSE, 0, NULL));
    CHECK(has_text(stdscr, 4, 6, "f:::", A_REVERSE));
    IS((':' | A_REVERSE), mvinch(4, 79));
    IS(':', mvinch(5, 0));
    IS(OK, mvchgat(4, 79, 500, 0, 0, NULL));
    IS(':', mvinch(4, 79));
    IS(OK, mvwchgat(stdscr, 4, 0, 0, A_BOLD, 0, NULL));
    CHECK(has_text(stdscr, 4, 0, "a", 0));
    IS(ERR, mvchgat(4, 0, -1, A_BOLD, 64, NULL));
    IS(ERR, mvchgat(24, 0, -1, A_BOLD, 1, NULL));
    IS(ERR, wchgat(NULL, -1, A_BOLD, 1, NULL));
    CHECK(has_text(stdscr, 4, 0, "a", 0));
    IS(':', getbkgd(stdscr));
    bkgdset(' ');
    clear();
}

static void drawing(void)
{
    attr_t attrs = 0;
    short pair = 0;

    CHECK(ACS_ULCORNER == '+' && ACS_HLINE == '-' && ACS_VLINE == '|' && ACS_DEGREE == '\'' && ACS_BSSB == '+');
    CHECK(ACS_LEQUAL == '<' && ACS_PI == '*' && ACS_STERLING == 'f' && acs_map['A'] == 0);
    IS(OK, mvaddch(0, 0, 'q' | A_ALTCHARSET | A_BOLD));
    IS(('-' | A_BOLD), mvinch(0, 0));
    IS(OK, mvaddch(0, 1, 'A' | A_ALTCHARSET));
    IS('A', mvinch(0, 1));
    IS(OK, attron(A_ALTCHARSET));
    IS(OK, attr_get(&attrs, &pair, NULL));
    CHECK(attrs == A_ALTCHARSET);
    IS(OK, mvaddstr(1, 0, "lqk"));
    CHECK(has_text(stdscr, 1, 0, "+-+", 0));
    IS(OK, mvhline(2, 0, 'q', 3));
    CHECK(has_text(stdscr, 2, 0, "---", 0));
    IS(OK, mvinsch(2, 0, 'x'));
    CHECK(has_text(stdscr, 2, 0, "|---", 0));
    IS(OK, attroff(A_ALTCHARSET));
    IS(0, getattrs(stdscr));
    IS(OK, mvaddstr(1, 0, "lqk"));
    CHECK(has_text(stdscr, 1, 0, "lqk", 0));
    IS(OK, border('x' | A_ALTCHARSET, 0, 0, 0, 0, 0, 0, 0));
    IS('|', mvinch(5, 0));
    IS(OK, attrset(A_ALTCHARSET));
    IS(OK, standend());
    IS(0, getattrs(stdscr));
    /* Attributes that no terminal shows are dropped. */
    IS(OK, mvaddch(3, 3, 'x' | A_PROTECT | A_ITALIC));
    IS('x', mvinch(3, 3));
    clear();
}

static void following_changes(void)
{
    WINDOW *window = newwin(4, 10, 5, 5), *sub = derwin(window, 2, 4, 1, 1);

    untouchwin(window);
    untouchwin(sub);
    IS(OK, waddch(sub, 'a'));
    CHECK(!is_linetouched(window, 1));
    untouchwin(sub);
    IS(OK, syncok(sub, TRUE));
    IS(OK, mvwaddch(sub, 1, 0, 'b'));
    CHECK(is_linetouched(window, 2) && !is_linetouched(window, 3));
    immedok(window, TRUE);
    IS(OK, mvwaddstr(window, 0, 0, "shown"));
    CHECK(!is_wintouched(window));
    IS('s', shown(5, 5));
    IS('n', shown(5, 9));
    immedok(window, FALSE);
    IS(OK, werase(window));
    CHECK(is_wintouched(window));
    IS('s', shown(5, 5));
    IS(ERR, syncok(NULL, TRUE));
    IS(OK, delwin(sub));
    IS(OK, delwin(window));
}

/* Of a line that changed in some places only these are copied: what another window shows beside them stays. */
static void copying_what_changed(void)
{
    WINDOW *lower = newwin(4, 20, 10, 10), *upper = newwin(2, 6, 11, 20);
    int row;

    for (row = 0; row < 4; row++)
        mvwhline(lower, row, 0, '.', 20);
    IS(OK, wnoutrefresh(lower));
    IS(OK, mvwaddstr(upper, 0, 0, "upper"));
    IS(OK, mvwaddstr(upper, 1, 0, "again"));
    IS(OK, wnoutrefresh(upper));
    IS(OK, mvwaddstr(lower, 1, 0, "ab"));
    IS(OK, mvwaddch(lower, 1, 4, 'c'));
    IS(OK, wnoutrefresh(lower));
    CHECK(shown(11, 10) == 'a' && shown(11, 14) == 'c' && shown(11, 20) == 'u' && shown(11, 24) == 'r');
    /* A text that goes on in the next line; the line's end; a line that was touched. */
    IS(OK, mvwaddstr(lower, 1, 17, "defghi"));
    IS(OK, wnoutrefresh(lower));
    CHECK(shown(11, 24) == 'r' && shown(11, 29) == 'f' && shown(12, 12) == 'i' && shown(12, 20) == 'a');
    IS(OK, wmove(lower, 1, 12));
    IS(OK, wclrtoeol(lower));
    IS(OK, wnoutrefresh(lower));
    CHECK(shown(11, 21) == 'p' && shown(11, 22) == ' ' && shown(11, 29) == ' ');
    IS(OK, touchline(lower, 2, 1));
    IS(OK, wnoutrefresh(lower));
    CHECK(shown(11, 21) == 'p' && shown(12, 20) == '.');
    IS(OK, touchwin(upper));
    IS(OK, wnoutrefresh(upper));
    IS(OK, werase(lower));
    IS(OK, wnoutrefresh(lower));
    CHECK(shown(11, 20) == ' ' && shown(12, 24) == ' ');
    /* Also at another size. */
    IS(OK, resizeterm(30, 90));
    IS(OK, wnoutrefresh(lower));
    IS(OK, mvwaddch(upper, 0, 0, 'U'));
    IS(OK, wnoutrefresh(upper));
    IS(OK, mvwaddch(lower, 1, 0, 'L'));
    IS(OK, wnoutrefresh(lower));
    CHECK(shown(11, 10) == 'L' && shown(11, 20) == 'U');
    IS(OK, resizeterm(24, 80));
    IS(KEY_RESIZE, getch());
    IS(OK, delwin(upper));
    IS(OK, delwin(lower));
}

/* What was written is there for every other call at once: a window that shares it, a copy, a longer text, another pen. */
static void writing_side_by_side(void)
{
    WINDOW *window = newwin(3, 12, 10, 10), *part = derwin(window, 1, 6, 1, 3);
    int row, column, n;

    IS(OK, wmove(window, 1, 2));
    for (n = 0; n < 6; n++)
        IS(OK, waddch(window, (chtype)('a' + n)));
    getyx(window, row, column);
    CHECK(row == 1 && column == 8 && getcury(window) == 1 && getcurx(window) == 8);
    IS('b', mvwinch(part, 0, 0));
    IS(OK, mvwaddstr(part, 0, 1, "xy"));
    IS('x', mvwinch(window, 1, 4));
    /* It is written where the cursor was, with the pen that there was. */
    IS(OK, wmove(window, 0, 0));
    IS(OK, waddch(window, 'p'));
    IS(OK, wattrset(window, A_BOLD | COLOR_PAIR(2)));
    IS(OK, waddch(window, 'q'));
    IS(OK, waddch(window, 'r' | A_UNDERLINE));
    IS(OK, waddch(window, 's' | COLOR_PAIR(3)));
    IS(OK, wattrset(window, A_NORMAL));
    IS(OK, waddch(window, 't'));
    CHECK(has_text(window, 0, 0, "p", 0) && has_text(window, 0, 1, "q", A_BOLD | COLOR_PAIR(2)));
    CHECK(has_text(window, 0, 2, "r", A_BOLD | A_UNDERLINE | COLOR_PAIR(2)));
    CHECK(has_text(window, 0, 3, "s", A_BOLD | COLOR_PAIR(3)) && has_text(window, 0, 4, "t", 0));
    IS(ERR, wattrset(window, COLOR_PAIR(64)));
    IS(ERR, wattrset(NULL, A_BOLD));
    /* The functions, which are macros besides. */
    IS(OK, (wattrset)(window, A_DIM));
    IS((int)A_DIM, getattrs(window));
    IS(ERR, (wattrset)(window, COLOR_PAIR(64)));
    IS(OK, (attrset)(A_REVERSE));
    IS((int)A_REVERSE, getattrs(stdscr));
    IS(OK, attrset(A_NORMAL));
    IS((int)A_NORMAL, getattrs(stdscr));
    IS(OK, wattrset(window, A_NORMAL));
    IS(OK, touchwin(window));
    IS(OK, wnoutrefresh(window));
    /* A window is copied as it is, also when it was copied before; its cursor is that of the next update. */
    IS(OK, mvwaddstr(window, 0, 4, "uv"));
    IS(OK, wnoutrefresh(window));
    getsyx(row, column);
    CHECK(row == 10 && column == 16 && shown(10, 15) == 'v');
    IS(OK, wmove(window, 2, 5));
    IS(OK, wnoutrefresh(window));
    IS(OK, wnoutrefresh(window));
    getsyx(row, column);
    CHECK(row == 12 && column == 15);
    /* In a last line below the lines that scroll, a text begins the line again. */
    IS(OK, wsetscrreg(window, 0, 1));
    IS(OK, mvwaddstr(window, 2, 9, "ABCDE"));
    IS(OK, wnoutrefresh(window));
    CHECK(shown(12, 10) == 'D' && shown(12, 11) == 'E' && shown(12, 12) == ' ' && shown(12, 21) == 'C');
    IS(OK, delwin(part));
    IS(OK, delwin(window));
}

static void placing_the_cursor(void)
{
    int row = 7, column = 7;

    IS(OK, setsyx(3, 4));
    getsyx(row, column);
    CHECK(row == 3 && column == 4);
    IS(ERR, setsyx(24, 0));
    getsyx(row, column);
    CHECK(row == 3 && column == 4);
    setsyx(-1, -1);
    getsyx(row, column);
    CHECK(row == -1 && column == -1);
    move(9, 8);
    wnoutrefresh(stdscr);
    getsyx(row, column);
    CHECK(row == 9 && column == 8);
}

static void echoing_in_pads(void)
{
    WINDOW *pad = newpad(10, 10);

    IS(ERR, pechochar(pad, 'a'));
    IS(ERR, pechochar(stdscr, 'a'));
    IS(ERR, pechochar(NULL, 'a'));
    IS(OK, prefresh(pad, 0, 0, 10, 20, 12, 29));
    IS(OK, pechochar(pad, 'p'));
    IS('p', shown(10, 20));
    IS(ERR, prefresh(pad, 0, 0, 23, 0, 24, 9));
    IS(OK, pechochar(pad, 'q'));
    IS('q', shown(10, 21));
    IS(OK, delwin(pad));
}

static void naming_keys(void)
{
    CHECK(strcmp(keyname(KEY_SLEFT), "KEY_SLEFT") == 0 && strcmp(keyname(KEY_SELECT), "KEY_SELECT") == 0);
    CHECK(strcmp(keyname(KEY_MOUSE), "KEY_MOUSE") == 0 && strcmp(keyname(KEY_F(7)), "KEY_F(7)") == 0);
    CHECK(strcmp(keyname(KEY_SUNDO), "KEY_SUNDO") == 0 && keyname(2000) == NULL);
    CHECK(has_key(KEY_UP) && has_key(KEY_F(5)) && has_key(KEY_SLEFT) && !has_key(KEY_CLOSE) && !has_key(1000));
    IS(KEY_UP, key_defined("\033OA"));
    IS(KEY_SLEFT, key_defined("\033[1;2D"));
    IS(-1, key_defined("\033O"));
    IS(0, key_defined("zz"));
    IS(ERR, keyok(KEY_CLOSE, FALSE));
    IS(ERR, keyok(KEY_UP, TRUE));
    IS(ERR, keyok(0, FALSE));
}

static void defining_keys(void)
{
    IS(OK, set_escdelay(20));
    IS(ERR, set_escdelay(-1));
    IS(20, get_escdelay());
    IS(OK, define_key("ab", 1000));
    IS(OK, define_key("abcd", 1001));
    IS(1000, key_defined("ab"));
    IS(-1, key_defined("abc"));
    CHECK(has_key(1001));
    type("abcd");
    IS(1001, getch());
    /* What follows decides, or else time. */
    type("abcxaxab");
    IS(1000, getch());
    IS('c', getch());
    IS('x', getch());
    IS('a', getch());
    IS('x', getch());
    IS(1000, getch());
    type("\033OA\033OAab\033");
    IS(KEY_UP, getch());
    IS(KEY_UP, getch());
    IS(1000, getch());
    IS(27, getch());
    /* Keys with shift are keys too. */
    type("\033[1;2D\033[1;2C\033[3;2~");
    IS(KEY_SLEFT, getch());
    IS(KEY_SRIGHT, getch());
    IS(KEY_SDC, getch());
    /* Without keypad() bytes are what they are. */
    keypad(stdscr, FALSE);
    type("ab");
    IS('a', getch());
    IS('b', getch());
    keypad(stdscr, TRUE);
    IS(OK, keyok(1000, FALSE));
    IS(ERR, keyok(1000, FALSE));
    type("abab");
    IS('a', getch());
    IS('b', getch());
    IS(OK, keyok(1000, TRUE));
    IS(1000, getch());
    IS(OK, define_key("ab", 1002));
    type("ab");
    IS(1002, getch());
    IS(OK, define_key(NULL, 1002));
    IS(ERR, define_key(NULL, 1002));
    IS(OK, define_key("abcd", 0));
    IS(0, key_defined("ab"));
    IS(ERR, define_key("", 1000));
    IS(ERR, define_key(NULL, 0));
}

static void redefining_keys(void)
{
    /* A key of the program counts before the terminal's, but not in the middle of one. */
    IS(OK, define_key("\033OA", 1003));
    IS(OK, define_key("B", 1004));
    IS(1003, key_defined("\033OA"));
    type("\033OA\033OBB");
    IS(1003, getch());
    IS(KEY_DOWN, getch());
    IS(1004, getch());
    IS(OK, define_key("B", -1));
    IS(OK, define_key(NULL, 1003));
    type("\033OA");
    IS(KEY_UP, getch());
    IS(OK, keyok(KEY_UP, FALSE));
    IS(0, key_defined("\033OA"));
    type("\033OA\033OB");
    IS(27, getch());
    IS('O', getch());
    IS('A', getch());
    IS(KEY_DOWN, getch());
    IS(OK, keyok(KEY_UP, TRUE));
    IS(OK, define_key(NULL, KEY_UP));
    IS(ERR, keyok(KEY_UP, FALSE));
    IS(OK, keyok(KEY_UP, TRUE));
    IS(OK, define_key("\033OA", 0));
    IS(ERR, define_key("\033OA", 0));
    IS(OK, keyok(KEY_UP, TRUE));
    type("\033OA");
    IS(KEY_UP, getch());
    type("abc");
    IS(OK, flushinp());
    IS('a', getch());
    IS(OK, ungetch('z'));
    IS(OK, flushinp());
    IS('b', getch());
    IS('c', getch());
}

/* Whether the next key is an event of the mouse, this one, at this place. */
static bool is_event(mmask_t state, int row, int column)
{
    MEVENT event;

    return getch() == KEY_MOUSE && getmouse(&event) == OK && event.bstate == state && event.y == row &&
           event.x == column;
}

static void using_the_mouse(void)
{
    const mmask_t all = BUTTON1_PRESSED | BUTTON1_RELEASED | BUTTON1_CLICKED | BUTTON4_PRESSED | BUTTON_SHIFT;
    MEVENT event = {0, 5, 6, 0, BUTTON2_PRESSED};
    mmask_t before = 1;

    CHECK(has_mouse());
    CHECK(NCURSES_RESERVED_EVENT == 32u);
    IS(ERR, getmouse(&event));
    IS(BUTTON1_PRESSED, mousemask(BUTTON1_PRESSED | BUTTON1_DOUBLE_CLICKED, &before));
    IS(0u, before);
    CHECK(was_sent("\033[?1000h\033[?1006h"));
    type("\033[<0;5;3M\033[<0;5;3m\033[<1;5;3Mx\033[y");
    CHECK(is_event(BUTTON1_PRESSED, 2, 4));
    IS('x', getch());
    IS(27, getch());
    CHECK(getch() == '[' && getch() == 'y');
    IS(all, mousemask(all, &before));
    IS(BUTTON1_PRESSED, before);
    IS(166, mouseinterval(60));
    IS(60, mouseinterval(-1));
    type("\033[<4;80;24M\033[<4;80;24m\033[<0;1;1M");
    CHECK(is_event(BUTTON1_CLICKED | BUTTON_SHIFT, 23, 79));
    CHECK(is_event(BUTTON1_PRESSED, 0, 0));
    type("\033[<0;2;1m\033[<64;7;8M");
    CHECK(is_event(BUTTON1_RELEASED, 0, 1));
    CHECK(is_event(BUTTON4_PRESSED, 7, 6));
    IS(ERR, getmouse(&event));
    /* The longest text counts: here that of a report. */
    IS(OK, define_key("\033", 1005));
    type("\033[<0;2;1m");
    CHECK(is_event(BUTTON1_RELEASED, 0, 1));
    IS(OK, define_key(NULL, 1005));
    event.x = 5;
    event.bstate = BUTTON2_PRESSED;
    IS(OK, ungetmouse(&event));
    IS(KEY_MOUSE, getch());
    IS(OK, getmouse(&event));
    CHECK(event.x == 5 && event.bstate == BUTTON2_PRESSED);
    IS(0u, mousemask(0, NULL));
    CHECK(was_sent("\033[?1006l\033[?1000l"));
    /* Nothing reads reports now. */
    type("\033[<0;5;3M");
    while (getch() != 'M')
        ;
    IS(ERR, getmouse(&event));
}

static void finding_places(void)
{
    WINDOW *window = newwin(4, 10, 5, 6);
    int row = 5, column = 15;

    CHECK(wenclose(window, 5, 6) && wenclose(window, 8, 15) && !wenclose(window, 9, 6) && !wenclose(window, 5, 16));
    CHECK(!wenclose(NULL, 0, 0));
    CHECK(wmouse_trafo(window, &row, &column, FALSE) && row == 0 && column == 9);
    CHECK(wmouse_trafo(window, &row, &column, TRUE) && row == 5 && column == 15);
    CHECK(!wmouse_trafo(window, &row, &column, TRUE) && row == 5 && column == 15);
    CHECK(mouse_trafo(&row, &column, TRUE) && row == 5 && column == 15 && !mouse_trafo(NULL, &column, TRUE));
    IS(OK, delwin(window));
}

/* A window that reaches over the right and the lower edge: what lies outside of the screen is not shown. */
static void reaching_over_the_edge(void)
{
    WINDOW *window = newwin(6, 12, 20, 74), *inner = derwin(window, 2, 4, 1, 1), *copied = newwin(2, 6, 20, 74);
    int row, column;

    erase();
    wnoutrefresh(stdscr);
    CHECK(window && inner && getmaxy(window) == 6 && getmaxx(window) == 12);
    CHECK(getbegy(window) == 20 && getbegx(window) == 74 && getbegy(inner) == 21 && getbegx(inner) == 75);
    for (row = 0; row < 6; row++)
        IS(OK, mvwaddstr(window, row, 0, "abcdefghijk"));
    IS(OK, mvwaddstr(inner, 0, 0, "xy"));
    touchwin(window);
    wmove(window, 2, 3);
    IS(OK, wnoutrefresh(window));
    CHECK(!is_wintouched(window));
    getsyx(row, column);
    CHECK(row == 22 && column == 77);
    CHECK(shown(20, 74) == 'a' && shown(20, 79) == 'f' && shown(23, 79) == 'f' && shown(20, 73) == ' ');
    CHECK(shown(21, 75) == 'x' && shown(21, 76) == 'y' && shown(22, 75) == 'b');
    /* Only touched lines are copied, and the cursor may lie outside. */
    IS(OK, mvaddch(20, 74, 'S'));
    wnoutrefresh(stdscr);
    IS(OK, mvwaddch(window, 1, 0, 'Z'));
    wmove(window, 5, 11);
    IS(OK, wnoutrefresh(window));
    CHECK(shown(20, 74) == 'S' && shown(21, 74) == 'Z');
    IS(OK, overwrite(window, copied));
    CHECK(mvwinch(copied, 0, 0) == 'a' && mvwinch(copied, 0, 5) == 'f' && mvwinch(copied, 1, 0) == 'Z');
    IS(OK, redrawwin(window));
    IS(ERR, mvwin(window, 19, 74));
    IS(ERR, mvwin(window, 0, -1));
    IS(OK, mvwin(window, 1, 2));
    CHECK(getbegy(window) == 1 && getbegx(inner) == 3);
    IS(OK, wnoutrefresh(window));
    CHECK(shown(1, 2) == 'a' && shown(6, 12) == 'k' && shown(2, 3) == 'x');
    IS(OK, delwin(inner));
    IS(OK, delwin(window));
    IS(OK, delwin(copied));
    /* All of it may lie outside, as where the screen has become smaller. */
    window = newwin(2, 2, 24, 0);
    CHECK(window && wrefresh(window) == OK && delwin(window) == OK);
    clear();
}

static void resizing_windows(void)
{
    WINDOW *window = newwin(3, 6, 2, 4), *inner, *pad = newpad(2, 3);
    int row, column;

    wbkgd(window, '.' | A_BOLD);
    scrollok(window, TRUE);
    wsetscrreg(window, 1, 2);
    wattrset(window, A_DIM);
    mvwaddstr(window, 0, 0, "abcdef");
    wmove(window, 2, 5);
    IS(OK, wresize(window, 2, 8));
    CHECK(getmaxy(window) == 2 && getmaxx(window) == 8 && getbegy(window) == 2 && getbegx(window) == 4);
    getyx(window, row, column);
    CHECK(row == 1 && column == 5);
    CHECK(is_linetouched(window, 0) && is_linetouched(window, 1));
    CHECK(mvwinch(window, 0, 5) == ('f' | A_DIM | A_BOLD) && mvwinch(window, 0, 6) == ('.' | A_BOLD));
    IS((int)A_DIM, getattrs(window));
    IS(('.' | A_BOLD), getbkgd(window));
    /* The region is the whole window: the first line goes. */
    IS(OK, wscrl(window, 1));
    IS(('.' | A_BOLD), mvwinch(window, 0, 0));
    /* A subwindow changes no cell, and keeps the size of its parent. */
    inner = derwin(window, 1, 2, 1, 1);
    IS(ERR, wresize(window, 4, 4));
    IS(ERR, wresize(inner, 2, 2));
    IS(OK, wresize(inner, 1, 7));
    mvwaddch(inner, 0, 6, 'z');
    CHECK(mvwinch(window, 1, 7) == ('z' | A_DIM | A_BOLD));
    IS(OK, delwin(inner));
    /* Over the edge and back, and a pad. */
    IS(OK, wresize(window, 30, 90));
    CHECK(getmaxy(window) == 30 && getbegy(window) == 2 && mvwinch(window, 1, 7) == ('z' | A_DIM | A_BOLD));
    IS(OK, mvwaddch(window, 29, 88, 'e'));
    IS(OK, wresize(window, 2, 2));
    IS(OK, mvwin(window, 22, 78));
    IS(ERR, wresize(window, 0, 2));
    IS(ERR, wresize(NULL, 2, 2));
    mvwaddstr(pad, 1, 0, "pq");
    IS(OK, wresize(pad, 40, 100));
    CHECK(mvwinch(pad, 1, 1) == 'q' && mvwinch(pad, 39, 99) == ' ');
    IS(ERR, wresize(pad, 2000, 2000));
    IS(OK, delwin(pad));
    IS(OK, delwin(window));
}

static void telling_colours(void)
{
    short red = 1, green = 1, blue = 1;

    IS(OK, start_color());
    IS(OK, color_content(COLOR_YELLOW, &red, &green, &blue));
    CHECK(red == 680 && green == 680 && blue == 0);
    IS(OK, color_content(COLOR_BLUE, &red, &green, &blue));
    CHECK(red == 0 && green == 0 && blue == 680);
    IS(ERR, color_content(8, &red, &green, &blue));
    IS(ERR, color_content(-1, &red, &green, &blue));
    IS(ERR, init_color(1, 0, 0, 0));
    CHECK(!can_change_color());
}

/* -1 is a colour once the program says so. */
static void default_colours(void)
{
    short foreground = 5, background = 5;

    IS(ERR, init_pair(5, COLOR_RED, -1));
    IS(ERR, assume_default_colors(COLOR_RED, -1));
    IS(ERR, init_pair(5, -1, COLOR_RED));
    IS(OK, use_default_colors());
    IS(OK, init_pair(5, COLOR_RED, -1));
    IS(OK, pair_content(5, &foreground, &background));
    CHECK(foreground == COLOR_RED && background == -1);
    IS(OK, init_pair(6, -1, -1));
    IS(OK, pair_content(6, &foreground, &background));
    CHECK(foreground == -1 && background == -1);
    IS(OK, pair_content(0, &foreground, &background));
    CHECK(foreground == -1 && background == -1);
    IS(ERR, init_pair(5, -2, COLOR_RED));
    IS(ERR, init_pair(5, 8, COLOR_RED));
    IS(ERR, init_pair(256, -1, -1));
    IS(ERR, init_pair(0, -1, -1));
}

static void telling_names(void)
{
    CHECK(strncmp(curses_version(), "huttavel ", 9) == 0);
    CHECK(strncmp(ttytype, "xterm|", 6) == 0 && strcmp(longname(), strrchr(ttytype, '|') + 1) == 0);
    IS(TRUE, use_extended_names(FALSE));
    IS(FALSE, use_extended_names(TRUE));
    filter();
    nofilter();
    IS(24, LINES);
}

/* The window of a file with this text, or NULL. */
static WINDOW *window_of(const char *text)
{
    FILE *file = tmpfile();
    WINDOW *window;

    fputs(text, file);
    rewind(file);
    window = getwin(file);
    fclose(file);
    return window;
}

static void refusing_windows(void)
{
    WINDOW *window = window_of("huttavel window 1\n1 1 0 0 0 0 0 0 32 0 0 0 0 0 0 0 0 0\n65\nend\n");

    CHECK(window != NULL && mvwinch(window, 0, 0) == 'A');
    IS(OK, delwin(window));
    /* Another version, a byte that no cell holds, a setting of 5, a cursor outside, two cells, and no end. */
    CHECK(!window_of("huttavel window 2\n1 1 0 0 0 0 0 0 32 0 0 0 0 0 0 0 0 0\n65\nend\n"));
    CHECK(!window_of("huttavel window 1\n1 1 0 0 0 0 0 0 32 0 0 0 0 0 0 0 0 0\n10\nend\n"));
    CHECK(!window_of("huttavel window 1\n1 1 0 0 5 0 0 0 32 0 0 0 0 0 0 0 0 0\n65\nend\n"));
    CHECK(!window_of("huttavel window 1\n1 1 0 0 0 1 0 0 32 0 0 0 0 0 0 0 0 0\n65\nend\n"));
    CHECK(!window_of("huttavel window 1\n1 1 0 0 0 0 0 0 32 0 0 0 0 0 0 0 0 0\n65 65\nend\n"));
    CHECK(!window_of("huttavel window 1\n1 1 0 0 0 0 0 0 32 0 0 0 0 0 0 0 0 0\n65\n"));
    /* No cell at all, and more cells than a window has. */
    CHECK(!window_of("huttavel window 1\n0 1 0 0 0 0 0 0 32 0 0 0 0 0 0 0 0 0\nend\n"));
    CHECK(!window_of("huttavel window 1\n1000 1001 0 0 1 0 0 0 32 0 0 0 0 0 0 0 0 0\n"));
    CHECK(!window_of("huttavel window 1\n99999999999999999999 1 0 0 1 0 0 0 32 0 0 0 0 0 0 0 0 0\n") && !window_of(""));
}

static void keeping_windows(void)
{
    FILE *file = tmpfile();
    WINDOW *window = newwin(4, 10, 5, 6), *pad = newpad(30, 100), *read;

    init_pair(3, COLOR_RED, COLOR_BLUE);
    wbkgdset(window, '.' | A_BOLD);
    wattr_set(window, A_REVERSE, 3, NULL);
    mvwaddstr(window, 3, 5, "hello");
    wsetscrreg(window, 1, 2);
    wmove(window, 2, 1);
    wtimeout(window, 50);
    mvwaddstr(pad, 29, 90, "far away");
    IS(OK, putwin(window, file));
    IS(OK, putwin(pad, file));
    IS(ERR, putwin(NULL, file));
    rewind(file);
    read = getwin(file);
    CHECK(read != NULL && getmaxy(read) == 4 && getmaxx(read) == 10 && getbegy(read) == 5 && getbegx(read) == 6);
    CHECK(getcury(read) == 2 && getcurx(read) == 1 && getbkgd(read) == ('.' | A_BOLD));
    IS((int)(A_REVERSE | COLOR_PAIR(3)), getattrs(read));
    CHECK(has_text(read, 3, 5, "hello", A_REVERSE | A_BOLD | COLOR_PAIR(3)));
    IS(' ', mvwinch(read, 0, 0));
    IS(OK, delwin(read));
    read = getwin(file);
    CHECK(read != NULL && getmaxy(read) == 30 && getmaxx(read) == 100 && has_text(read, 29, 90, "far away", 0));
    IS(OK, delwin(read));
    CHECK(getwin(file) == NULL && getwin(NULL) == NULL);
    IS(OK, delwin(pad));
    IS(OK, delwin(window));
    fclose(file);
}

static void keeping_screens(void)
{
    char name[] = "/tmp/shim_namesXXXXXX";
    int file = mkstemp(name), row, column;

    CHECK(file >= 0);
    clear();
    mvaddstr(3, 3, "kept");
    move(8, 9);
    wnoutrefresh(stdscr);
    IS(OK, scr_dump(name));
    mvaddstr(3, 3, "gone");
    IS(OK, refresh());
    IS('g', shown(3, 3));
    IS(OK, scr_restore(name));
    getsyx(row, column);
    CHECK(row == 8 && column == 9);
    CHECK(shown(3, 3) == 'k' && shown(3, 6) == 't');
    IS(OK, doupdate());
    IS(OK, scr_init(name));
    IS(OK, scr_set(name));
    IS((ssize_t)1, write(file, "x", 1));
    IS(ERR, scr_restore(name));
    IS(ERR, scr_init(name));
    close(file);
    unlink(name);
    IS(ERR, scr_restore(name));
    IS(ERR, scr_dump("/nowhere/at all"));
}

static void resizing(void)
{
    WINDOW *window = newwin(2, 2, 22, 70);

    mvwaddstr(window, 0, 0, "ab");
    CHECK(!is_term_resized(24, 80) && is_term_resized(24, 81) && !is_term_resized(0, 81));
    IS(OK, resizeterm(24, 80));
    IS(OK, resizeterm(20, 60));
    CHECK(LINES == 20 && COLS == 60 && getmaxy(stdscr) == 20 && getmaxx(stdscr) == 60);
    CHECK(getbegy(window) == 18 && getbegx(window) == 58 && mvwinch(window, 0, 1) == 'b');
    type("k");
    IS(KEY_RESIZE, getch());
    IS('k', getch());
    IS(OK, resize_term(24, 80));
    type("k");
    IS('k', getch());
    IS(ERR, resize_term(0, 80));
    IS(ERR, resizeterm(24, 501));
    IS(24, LINES);
    IS(OK, delwin(window));
}

/* Writes on a line that was taken off. */
static int begin_line(WINDOW *window, int columns)
{
    IS(80, columns);
    mvwaddstr(window, 0, 0, "line");
    return wnoutrefresh(window);
}

static void taking_lines_off(void)
{
    WINDOW *window;
    int row = 1, column = 0, n;
    SCREEN *screen;

    for (n = 0; n < 4; n++)
        IS(OK, ripoffline(n % 2 ? -1 : 1, begin_line));
    IS(ERR, slk_init(2));
    IS(OK, slk_init(0));
    IS(OK, slk_init(1));
    IS(ERR, ripoffline(1, begin_line));
    IS(ERR, slk_set(1, "one", 0));
    screen = open_screen();
    CHECK(LINES == 19 && getmaxy(stdscr) == 19 && getbegy(stdscr) == 0);
    CHECK(shown(0, 0) == 'l' && shown(1, 3) == 'e' && shown(22, 0) == 'l' && shown(21, 0) == ' ');
    mvaddch(0, 0, 'x');
    mvaddch(18, 0, 'y');
    wnoutrefresh(stdscr);
    CHECK(shown(2, 0) == 'x' && shown(20, 0) == 'y');
    window = newwin(0, 0, 3, 0);
    CHECK(window != NULL && getmaxy(window) == 16 && getbegy(window) == 3);
    IS(OK, mvwin(window, 0, 0));
    IS(ERR, mvwin(window, 4, 0));
    CHECK(wenclose(window, 2, 0) && !wenclose(window, 1, 0));
    CHECK(!wmouse_trafo(stdscr, &row, &column, FALSE) && wmouse_trafo(stdscr, &row, &column, TRUE) && row == 3);
    IS(OK, delwin(window));
    IS(OK, resizeterm(30, 80));
    CHECK(LINES == 25 && shown(0, 0) == 'l' && shown(28, 0) == 'l' && shown(29, 3) == 'e' && shown(27, 0) == ' ');
    wnoutrefresh(stdscr);
    CHECK(shown(2, 0) == 'x' && shown(20, 0) == 'y' && shown(22, 0) == ' ' && shown(23, 0) == ' ');
    IS(OK, resizeterm(24, 80));
    IS(ERR, resizeterm(5, 80));
    IS(OK, endwin());
    close_screen(screen);
}

static void labelling(void)
{
    SCREEN *screen;
    int row, column;

    IS(OK, slk_init(0));
    screen = open_screen();
    IS(23, LINES);
    IS(OK, slk_set(1, "  Help ", 0));
    IS(OK, slk_set(4, "mid", 1));
    IS(OK, slk_set(8, "far too long", 2));
    IS(OK, slk_set(2, NULL, 0));
    IS(ERR, slk_set(9, "x", 0));
    IS(ERR, slk_set(0, "x", 0));
    IS(ERR, slk_set(3, "x", 3));
    CHECK(strcmp(slk_label(1), "Help") == 0 && strcmp(slk_label(8), "far too ") != 0 && *slk_label(2) == '\0');
    CHECK(slk_label(9) == NULL && slk_attr() == A_STANDOUT);
    setsyx(4, 5);
    IS(OK, slk_noutrefresh());
    getsyx(row, column);
    CHECK(row == 4 && column == 5);
    /* Three labels of 8 columns and a blank, a gap of 5, two labels, a gap, and three. */
    CHECK(shown(23, 0) == ('H' | A_STANDOUT) && shown(23, 7) == (' ' | A_STANDOUT) && shown(23, 8) == ' ');
    CHECK(shown(23, 30) == ' ' && shown(23, 31) == (' ' | A_STANDOUT) && shown(23, 33) == ('m' | A_STANDOUT));
    CHECK(shown(23, 72) == ('f' | A_STANDOUT) && shown(23, 78) == ('o' | A_STANDOUT) && shown(23, 79) == ' ');
    IS(OK, slk_clear());
    IS(' ', shown(23, 0));
    IS(OK, slk_attrset(A_BOLD));
    IS(OK, slk_attron(A_UNDERLINE));
    IS(OK, slk_attroff(A_BOLD));
    IS(OK, slk_color(2));
    IS(A_UNDERLINE | COLOR_PAIR(2), slk_attr());
    IS(OK, slk_restore());
    IS(('H' | A_UNDERLINE | COLOR_PAIR(2)), shown(23, 0));
    IS(OK, slk_attr_set(A_DIM, 0, NULL));
    IS(OK, slk_attr_on(A_BOLD, NULL));
    IS(OK, slk_attr_off(A_DIM, NULL));
    IS(OK, slk_touch());
    IS(OK, slk_refresh());
    IS(('H' | A_BOLD), shown(23, 0));
    IS(OK, endwin());
    close_screen(screen);
}

/* A size in the environment, and another in the entry, which is 24 rows of 80 columns. */
static void choosing_sizes(void)
{
    SCREEN *screen;

    setenv("LINES", "30", 1);
    screen = open_screen();
    IS(30, LINES);
    close_screen(screen);
    use_env(FALSE);
    screen = open_screen();
    CHECK(LINES == 24 && COLS == 80);
    close_screen(screen);
    use_tioctl(TRUE);
    use_env(TRUE);
    screen = open_screen();
    IS(30, LINES);
    close_screen(screen);
    use_tioctl(FALSE);
    setenv("LINES", "24", 1);
}

/* After use_default_colors() there are pairs up to 255, of which 63 can be used. */
static void using_many_pairs(void)
{
    SCREEN *screen = open_screen();
    const chtype green = 'g' | COLOR_PAIR(70), red = 'r' | COLOR_PAIR(63);
    short front = 0, back = 0, pair = 0;
    attr_t attrs;

    IS(OK, init_pair(63, COLOR_RED, COLOR_BLUE));
    IS(ERR, init_pair(64, COLOR_RED, COLOR_BLUE));
    IS(OK, use_default_colors());
    IS(OK, init_pair(70, COLOR_GREEN, -1));
    IS(ERR, init_pair(71, 8, -1));
    IS(ERR, init_pair(256, COLOR_GREEN, -1));
    IS(OK, pair_content(70, &front, &back));
    CHECK(front == COLOR_GREEN && back == -1);
    clear();
    IS(OK, mvaddch(2, 0, green));
    /* The pair that gave way to it is there again when it is used. */
    IS(OK, mvaddch(2, 1, red));
    IS(OK, mvaddch(2, 2, green));
    CHECK(mvinch(2, 0) == green && mvinch(2, 1) == red && mvinch(2, 2) == green);
    IS(OK, pair_content(63, &front, &back));
    CHECK(front == COLOR_RED && back == COLOR_BLUE);
    IS(OK, refresh());
    CHECK(was_sent("\033[32mg\033[Cg\b\b\033[31m\033[44mr"));
    IS(OK, wattr_set(stdscr, A_BOLD, 70, NULL));
    IS(OK, attr_get(&attrs, &pair, NULL));
    CHECK(pair == 70 && attrs == (A_BOLD | COLOR_PAIR(70)));
    IS(OK, init_pair(70, COLOR_CYAN, COLOR_BLACK));
    IS(OK, pair_content(70, &front, &back));
    CHECK(front == COLOR_CYAN && back == COLOR_BLACK);
    IS(OK, mvchgat(2, 0, 1, A_NORMAL, 200, NULL));
    IS(('g' | COLOR_PAIR(200)), mvinch(2, 0));
    endwin();
    close_screen(screen);
}

int main(void)
{
    SCREEN *screen;

    setenv("LINES", "24", 1);
    setenv("COLUMNS", "80", 1);
    CHECK(!has_mouse() && mousemask(1, NULL) == 0 && getmouse(NULL) == ERR && define_key("a", 1000) == ERR);
    CHECK(color_content(1, NULL, NULL, NULL) == ERR && slk_refresh() == ERR && getwin(stdin) == NULL);
    choosing_sizes();
    taking_lines_off();
    labelling();
    screen = open_screen();
    noecho();
    keypad(stdscr, TRUE);
    timeout(2000);
    writing_cells();
    reading_between_changes();
    changing_attributes();
    drawing();
    following_changes();
    copying_what_changed();
    writing_side_by_side();
    placing_the_cursor();
    echoing_in_pads();
    naming_keys();
    defining_keys();
    redefining_keys();
    using_the_mouse();
    finding_places();
    reaching_over_the_edge();
    resizing_windows();
    telling_colours();
    default_colours();
    telling_names();
    keeping_windows();
    refusing_windows();
    keeping_screens();
    resizing();
    IS(OK, endwin());
    close_screen(screen);
    using_many_pairs();
    if (!failed)
        puts("shim_names: as wanted");
    return failed;
}
