/* The calls of curses.h on wide characters, and what calls on bytes do in a locale of UTF-8 and in one of ASCII, with
 * what X/Open Curses Issue 7 says of them and, where it leaves that open, with what ncurses does. The keyboard is a
 * pipe, and the screen a file.
 */
#define _XOPEN_SOURCE 700

#include <curses.h>

#include <locale.h>
#include <stdlib.h>
#include <string.h>
#include <unistd.h>

#define CHECK(holds) check((holds), #holds, __LINE__)
#define IS(wanted, call) check((call) == (wanted), #call, __LINE__)

static int failed = 0;

static void check(bool holds, const char *what, int line)
{
    if (!holds) {
        printf("line %d: %s\n", line, what);
        failed = 1;
    }
}

static int keyboard;
static FILE *typed, *sent;

static SCREEN *open_screen(const char *locale)
{
    int ends[2];
    SCREEN *screen;

    sent = tmpfile();
    if (!setlocale(LC_ALL, locale) || !sent || pipe(ends) < 0) {
        printf("no locale %s, no file or no pipe\n", locale);
        exit(1);
    }
    typed = fdopen(ends[0], "r");
    keyboard = ends[1];
    slk_init(0);
    screen = newterm("xterm", sent, typed);
    if (!screen) {
        puts("no screen on the terminal xterm");
        exit(1);
    }
    start_color();
    noecho();
    keypad(stdscr, TRUE);
    return screen;
}

static void close_screen(SCREEN *screen)
{
    endwin();
    delscreen(screen);
    fclose(typed);
    fclose(sent);
    close(keyboard);
}

static void type(const char *text)
{
    IS((ssize_t)strlen(text), write(keyboard, text, strlen(text)));
}

/* Whether a text was sent since this was asked last. */
static bool was_sent(const char *text)
{
    static char bytes[65536];
    static long before;
    size_t length;

    fseek(sent, 0, SEEK_END);
    if (ftell(sent) < before)
        before = 0;
    fseek(sent, before, SEEK_SET);
    length = fread(bytes, 1, sizeof bytes - 1, sent);
    bytes[length] = '\0';
    before += (long)length;
    fseek(sent, 0, SEEK_END);
    return strstr(bytes, text) != NULL;
}

/* The wide character of one code. */
static const cchar_t *wide(wchar_t code, attr_t attrs, short pair)
{
    static cchar_t characters[8];
    static int next;
    cchar_t *character = &characters[next++ % 8];
    const wchar_t text[2] = {code, L'\0'};

    IS(OK, setcchar(character, text, attrs, pair, NULL));
    return character;
}

/* The code at a place of stdscr. */
static wchar_t code_at(int row, int column)
{
    cchar_t character = {0, {0}};

    IS(OK, mvin_wch(row, column, &character));
    return character.chars[0];
}

/* Whether a line of stdscr begins with these characters. */
static bool begins(int row, const wchar_t *text)
{
    wchar_t found[100];

    return mvinnwstr(row, 0, found, (int)wcslen(text)) == (int)wcslen(text) && wcscmp(found, text) == 0;
}

static void making_characters(void)
{
    cchar_t character;
    wchar_t text[CCHARW_MAX + 1];
    attr_t attrs = 9;
    short pair = 9;

    IS(OK, setcchar(&character, L"\u00e9", A_BOLD | A_UNDERLINE, 5, NULL));
    IS(2, getcchar(&character, NULL, NULL, NULL, NULL));
    IS(OK, getcchar(&character, text, &attrs, &pair, NULL));
    CHECK(wcscmp(text, L"\u00e9") == 0 && attrs == (A_BOLD | A_UNDERLINE) && pair == 5);
    /* What comes after the first character is left out, and nothing comes after a control character. */
    IS(OK, setcchar(&character, L"e\u0301", A_NORMAL, 0, NULL));
    IS(OK, getcchar(&character, text, &attrs, &pair, NULL));
    CHECK(wcscmp(text, L"e") == 0 && attrs == A_NORMAL && pair == 0);
    IS(OK, setcchar(&character, L"ab", A_NORMAL, 0, NULL));
    IS(2, getcchar(&character, NULL, NULL, NULL, NULL));
    IS(ERR, setcchar(&character, L"\n\u0301", A_NORMAL, 0, NULL));
    IS(ERR, setcchar(&character, L"a", A_NORMAL, -1, NULL));
    IS(ERR, setcchar(NULL, L"a", A_NORMAL, 0, NULL));
    IS(ERR, setcchar(&character, NULL, A_NORMAL, 0, NULL));
    IS(OK, setcchar(&character, L"\n", A_NORMAL, 0, NULL));
    IS(OK, setcchar(&character, L"", A_NORMAL, 0, NULL));
    IS(1, getcchar(&character, NULL, NULL, NULL, NULL));
    IS(ERR, getcchar(NULL, text, &attrs, &pair, NULL));
    IS(ERR, getcchar(&character, text, NULL, &pair, NULL));
}

static void adding_characters(void)
{
    cchar_t found;

    erase();
    IS(OK, mvadd_wch(0, 0, wide(0x3b1, A_BOLD, 3)));
    IS(OK, add_wch(WACS_HLINE));
    IS(OK, mvin_wch(0, 0, &found));
    CHECK(found.chars[0] == 0x3b1 && found.chars[1] == 0 && found.attr == (A_BOLD | COLOR_PAIR(3)));
    CHECK(code_at(0, 1) == 0x2500);
    IS(OK, attron(A_REVERSE));
    IS(OK, mvwadd_wch(stdscr, 0, 2, wide(0xe9, A_BOLD, 0)));
    IS(OK, attroff(A_REVERSE));
    IS(OK, in_wch(&found));
    IS(OK, mvwin_wch(stdscr, 0, 2, &found));
    CHECK(found.chars[0] == 0xe9 && found.attr == (A_BOLD | A_REVERSE));
    /* One of two columns takes both, and control characters do what they do as bytes. */
    IS(OK, mvadd_wch(1, 0, wide(0x4e2d, 0, 0)));
    IS(OK, add_wch(wide(L'\t', 0, 0)));
    IS(OK, add_wch(wide(1, 0, 0)));
    IS(OK, add_wch(wide(0x85, 0, 0)));
    CHECK(begins(1, L"\ufffd\ufffd      ^A~E "));
    IS(OK, mvadd_wch(1, 79, wide(0x2588, 0, 0)));
    CHECK(code_at(1, 79) == 0x2588 && getcury(stdscr) == 1);
    IS(OK, move(2, 0));
    IS(OK, addwstr(L"\u043f\u0440e\u0301\u0438\nnext"));
    CHECK(begins(2, L"\u043f\u0440e\u0438 ") && begins(3, L"next"));
    IS(OK, mvaddnwstr(3, 2, L"\u2502\u2502\u2502", 2));
    CHECK(begins(3, L"ne\u2502\u2502 "));
    IS(OK, mvwaddwstr(stdscr, 4, 78, L"ab\u00e9"));
    CHECK(code_at(4, 78) == 'a' && code_at(4, 79) == 'b' && code_at(5, 0) == 0xe9);
    IS(ERR, mvaddwstr(24, 0, L"a"));
    IS(ERR, waddnwstr(NULL, L"a", 1));
    IS(ERR, wadd_wch(stdscr, NULL));
    IS(OK, waddnwstr(stdscr, L"", -1));
    IS(ERR, mvaddwstr(23, 79, L"ab"));
    CHECK(code_at(23, 79) == 'b' || code_at(23, 79) == 'a');
}

static void inserting(void)
{
    erase();
    IS(OK, mvaddwstr(0, 0, L"\u03b1\u03b2"));
    IS(OK, mvins_wch(0, 1, wide(0x2022, 0, 0)));
    IS(1, getcurx(stdscr));
    CHECK(begins(0, L"\u03b1\u2022\u03b2 "));
    IS(OK, mvins_wstr(0, 1, L"\u4e2de\u0301"));
    CHECK(begins(0, L"\u03b1\ufffd\ufffde\u2022\u03b2 "));
    IS(OK, mvwins_nwstr(stdscr, 0, 0, L"xyz", 2));
    CHECK(begins(0, L"xy\u03b1\ufffd"));
    IS(OK, ins_nwstr(L"\x85", -1));
    CHECK(begins(0, L"~Exy"));
    IS(ERR, wins_wch(stdscr, NULL));
    IS(ERR, wins_wstr(NULL, L"a"));
}

static void writing_cells(void)
{
    cchar_t line[4], read[81];

    erase();
    setcchar(&line[0], L"\u250c", A_DIM, 1, NULL);
    setcchar(&line[1], L"\u4e2d", A_BOLD, 0, NULL);
    setcchar(&line[2], L"z", 0, 0, NULL);
    setcchar(&line[3], L"", 0, 0, NULL);
    IS(OK, bkgd('.' | A_UNDERLINE));
    IS(OK, mvadd_wchstr(0, 1, line));
    IS(1, getcurx(stdscr));
    IS(OK, mvin_wchnstr(0, 0, read, 6));
    CHECK(read[0].chars[0] == '.' && read[0].attr == A_UNDERLINE);
    CHECK(read[1].chars[0] == 0x250c && read[1].attr == (A_UNDERLINE | A_DIM | COLOR_PAIR(1)));
    CHECK(read[2].chars[0] == 0xfffd && read[3].chars[0] == 0xfffd && read[3].attr == (A_UNDERLINE | A_BOLD));
    CHECK(read[4].chars[0] == 'z' && read[4].attr == A_UNDERLINE && read[5].chars[0] == '.' && !read[6].chars[0]);
    IS(OK, mvwadd_wchnstr(stdscr, 23, 79, line, 2));
    CHECK(code_at(23, 79) == 0x250c);
    setcchar(&line[1], L"\n", 0, 0, NULL);
    IS(ERR, mvadd_wchstr(2, 0, line));
    CHECK(code_at(2, 0) == '.');
    IS(OK, mvin_wchstr(0, 0, read));
    CHECK(read[79].chars[0] == '.' && read[80].chars[0] == 0);
    IS(ERR, wadd_wchnstr(NULL, line, 1));
    IS(ERR, win_wchnstr(stdscr, NULL, 1));
    bkgdset(' ');
}

static void drawing(void)
{
    WINDOW *window = newwin(4, 6, 10, 10);
    cchar_t found;

    erase();
    IS(OK, mvhline_set(0, 0, wide(0x2550, A_BOLD, 0), 3));
    IS(OK, mvhline_set(1, 0, NULL, 2));
    IS(OK, mvvline_set(2, 0, wide(0x2551, 0, 0), 2));
    IS(OK, mvwvline_set(stdscr, 2, 1, NULL, 2));
    CHECK(begins(0, L"\u2550\u2550\u2550 ") && begins(1, L"\u2500\u2500 ") && begins(3, L"\u2551\u2502 "));
    IS(OK, mvin_wch(0, 2, &found));
    CHECK(found.attr == A_BOLD);
    IS(ERR, hline_set(wide(0x4e2d, 0, 0), 3));
    IS(ERR, whline_set(NULL, NULL, 3));
    IS(OK, box_set(window, NULL, wide(0x2550, 0, 0)));
    IS(OK, mvwin_wch(window, 0, 0, &found));
    CHECK(found.chars[0] == 0x250c);
    IS(OK, mvwin_wch(window, 3, 2, &found));
    CHECK(found.chars[0] == 0x2550);
    IS(OK, wborder_set(window, NULL, NULL, NULL, NULL, wide(0x256d, A_REVERSE, 0), NULL, NULL, WACS_DIAMOND));
    IS(OK, mvwin_wch(window, 0, 0, &found));
    CHECK(found.chars[0] == 0x256d && found.attr == A_REVERSE);
    IS(OK, mvwin_wch(window, 3, 5, &found));
    CHECK(found.chars[0] == 0x25c6);
    IS(OK, border_set(NULL, NULL, NULL, NULL, NULL, NULL, NULL, NULL));
    CHECK(code_at(23, 0) == 0x2514 && code_at(12, 79) == 0x2502);
    IS(OK, wbkgrnd(window, wide(0x2591, A_DIM, 2)));
    IS(OK, mvwin_wch(window, 1, 1, &found));
    CHECK(found.chars[0] == 0x2591 && found.attr == (A_DIM | COLOR_PAIR(2)));
    IS(OK, wgetbkgrnd(window, &found));
    CHECK(found.chars[0] == 0x2591 && found.attr == (A_DIM | COLOR_PAIR(2)));
    bkgrndset(wide(0xb7, 0, 0));
    IS(OK, getbkgrnd(&found));
    CHECK(found.chars[0] == 0xb7);
    IS(OK, bkgrnd(wide(L' ', 0, 0)));
    IS(ERR, wbkgrnd(NULL, wide(L' ', 0, 0)));
    IS(ERR, getbkgrnd(NULL));
    IS(OK, delwin(window));
}

/* Calls on bytes, on a screen in UTF-8. */
static void bytes_of_utf8(void)
{
    static const chtype control[] = {0x85, 0};
    static const char accents[] = "\xc3\xa9\xe2\x94\x80\xf0\x9f\x98\x80 \xe4\xb8\xad|";
    char text[100];
    chtype cells[81];
    int n;

    erase();
    CHECK(ACS_HLINE == ('q' | A_ALTCHARSET) && acs_map['A'] == 0);
    IS(OK, mvaddstr(0, 0, accents));
    CHECK(getcurx(stdscr) == 8 && begins(0, L"\u00e9\u2500\ufffd\ufffd \ufffd\ufffd| "));
    IS(OK, mvinnstr(0, 0, text, 6) == ERR ? ERR : OK);
    CHECK(strcmp(text, "\xc3\xa9\xe2\x94\x80") == 0);
    /* Successive bytes of a character are joined, until the cursor is moved. */
    move(1, 0);
    for (n = 0; accents[n]; n++)
        IS(OK, addch((unsigned char)accents[n]));
    CHECK(begins(1, L"\u00e9\u2500\ufffd\ufffd \ufffd\ufffd| "));
    move(2, 0);
    IS(OK, addch(0xe2));
    IS(OK, addstr("\x94"));
    CHECK(code_at(2, 0) == ' ');
    IS(OK, mvaddstr(2, 5, "\x80" "a"));
    CHECK(begins(2, L"     \ufffda "));
    move(3, 0);
    IS(OK, addstr("\xe2\x94"));
    IS(OK, addch('b'));
    IS(OK, addstr("\xe2"));
    IS(OK, printw("\x94%s", "\x82"));
    CHECK(begins(3, L"\ufffd\ufffdb\u2502 "));
    move(3, 10);
    IS(OK, addch(0xc3));
    IS(OK, addch(ACS_VLINE));
    CHECK(code_at(3, 10) == 0x2502);
    /* Lines are lines, and what inch() gives shows the same when it is added again. */
    IS(OK, mvaddch(4, 0, ACS_ULCORNER | A_BOLD));
    IS(OK, hline(0, 2));
    IS(OK, mvaddstr(4, 3, "\xc3\xa9\xd0\x96"));
    IS((ACS_ULCORNER | A_BOLD), mvinch(4, 0));
    IS(OK, mvinchnstr(4, 0, cells, 5));
    IS(OK, mvaddchstr(5, 0, cells));
    move(6, 0);
    for (n = 0; n < 5; n++)
        IS(OK, addch(cells[n]));
    CHECK(begins(4, L"\u250c\u2500\u2500\u00e9\u0416 "));
    CHECK(begins(5, L"\u250c\u2500\u2500\u00e9? ") && begins(6, L"\u250c\u2500\u2500\u00e9? "));
    IS(OK, attron(A_ALTCHARSET));
    IS(OK, mvaddstr(7, 0, "lqk A"));
    IS(OK, attroff(A_ALTCHARSET));
    CHECK(begins(7, L"\u250c\u2500\u2510 A"));
    IS(OK, mvinsstr(7, 1, "\xc3\xa9\xe2"));
    CHECK(begins(7, L"\u250c\u00e9\ufffd\u2500\u2510 A"));
    IS(OK, mvinsch(7, 0, 0xc3));
    IS(OK, insch(0xa9));
    IS(OK, insch(ACS_DIAMOND));
    CHECK(begins(7, L"\u25c6\u00e9\u250c\u00e9"));
    IS(OK, border(0, 0, 0, 0, 0, 0, 0, 0));
    CHECK(code_at(0, 0) == 0x250c && code_at(23, 79) == 0x2518 && code_at(9, 0) == 0x2502);
    IS(OK, bkgd(ACS_CKBOARD));
    IS(ACS_CKBOARD, getbkgd(stdscr));
    CHECK(code_at(10, 10) == 0x2592);
    IS(OK, bkgd(' '));
    IS(ERR, mvaddchnstr(8, 0, control, 1));
    /* At the end of a line, and of the window. */
    IS(OK, mvaddstr(8, 79, "\xc3\xa9\xc3\xa8"));
    CHECK(code_at(8, 79) == 0xe9 && code_at(9, 0) == 0xe8);
    IS(ERR, mvaddstr(23, 79, "\xc3\xa9\xc3\xa8"));
    was_sent("");
    IS(OK, refresh());
    CHECK(was_sent("\xe2\x94\x90"));
}

static void typing(void)
{
    wint_t character = 0, line[10];
    char text[10];

    timeout(2000);
    type("\xc3\xa9" "a\033OA\xf0\x9f\x98\x80");
    IS(OK, get_wch(&character));
    CHECK(character == 0xe9);
    IS(OK, wget_wch(stdscr, &character));
    CHECK(character == 'a');
    IS(KEY_CODE_YES, mvget_wch(0, 0, &character));
    CHECK(character == KEY_UP);
    IS(OK, mvwget_wch(stdscr, 0, 0, &character));
    CHECK(character == 0x1f600);
    /* What is no character comes byte by byte, and nothing is lost behind it. */
    type("\xe4\xb8" "b\xff\xc3\033OB");
    IS(OK, get_wch(&character));
    CHECK(character == 0xfffd);
    IS(OK, get_wch(&character));
    CHECK(character == 0xfffd);
    IS(OK, get_wch(&character));
    CHECK(character == 'b');
    IS(OK, get_wch(&character));
    CHECK(character == 0xfffd);
    IS(OK, get_wch(&character));
    CHECK(character == 0xfffd);
    IS(KEY_CODE_YES, get_wch(&character));
    CHECK(character == KEY_DOWN);
    /* The bytes of one that is put back are those of getch(). */
    IS(OK, unget_wch(0x2500));
    IS(0xe2, getch());
    IS(0x94, getch());
    IS(0x80, getch());
    IS(OK, unget_wch(0x2500));
    IS(OK, get_wch(&character));
    CHECK(character == 0x2500);
    IS(ERR, unget_wch((wchar_t)0xd800));
    IS(OK, nodelay(stdscr, TRUE) == OK ? OK : ERR);
    IS(ERR, get_wch(&character));
    IS(ERR, get_wch(NULL));
    timeout(2000);
    type("\xd0\x96\xd0\xb0\b\xe2\x82\xac\n");
    IS(OK, mvgetn_wstr(0, 0, line, 5));
    CHECK(line[0] == 0x416 && line[1] == 0x20ac && line[2] == 0);
    type("\xd0\x96\xd0\xb0\xd0\xb1\n");
    IS(OK, wgetn_wstr(stdscr, line, 2));
    CHECK(line[0] == 0x416 && line[1] == 0x430 && line[2] == 0);
    type("ab\n");
    IS(OK, get_wstr(line));
    CHECK(line[0] == 'a' && line[1] == 'b' && line[2] == 0);
    echo();
    type("\xd0\x96\xd0\xb0\b\n");
    IS(OK, mvgetnstr(1, 0, text, 9));
    CHECK(strcmp(text, "\xd0\x96") == 0 && begins(1, L"\u0416 "));
    type("\xc3\xa9");
    move(2, 0);
    IS(OK, get_wch(&character));
    CHECK(character == 0xe9 && begins(2, L"\u00e9"));
    noecho();
    IS(ERR, wget_wch(NULL, &character));
    IS(ERR, wget_wstr(NULL, line));
}

static void naming(void)
{
    cchar_t character;
    wchar_t erase_one = 0;

    setcchar(&character, L"\u00e9", 0, 0, NULL);
    CHECK(wcscmp(wunctrl(&character), L"\u00e9") == 0);
    setcchar(&character, L"\x1b", 0, 0, NULL);
    CHECK(wcscmp(wunctrl(&character), L"^[") == 0);
    setcchar(&character, L"\x80", 0, 0, NULL);
    CHECK(wcscmp(wunctrl(&character), L"~@") == 0);
    CHECK(strcmp(key_name(0xe9), "\xc3\xa9") == 0 && strcmp(key_name(1), "^A") == 0 && !key_name((wchar_t)0xdfff));
    CHECK(erasewchar(&erase_one) == OK && killwchar(&erase_one) == OK);
    IS(ERR, erasewchar(NULL));
    IS(OK, slk_wset(1, L"  \u043f\u0440\u0438\u0432\u0435\u0442 ", 0));
    CHECK(strcmp(slk_label(1), "\xd0\xbf\xd1\x80\xd0\xb8\xd0\xb2\xd0\xb5\xd1\x82") == 0);
    IS(OK, slk_set(2, "\xc3\xa9t\xc3\xa9 123456", 2));
    CHECK(strcmp(slk_label(2), "\xc3\xa9t\xc3\xa9 1234") == 0);
    IS(OK, slk_set(3, "a\xff", 0));
    CHECK(strcmp(slk_label(3), "a") == 0);
    IS(ERR, slk_wset(9, L"a", 0));
    was_sent("");
    IS(OK, slk_refresh());
    CHECK(was_sent("\xd0\xbf\xd1\x80"));
}

/* Windows in files, and another size, keep characters. */
static void keeping(void)
{
    FILE *file = tmpfile();
    WINDOW *window = newwin(3, 10, 2, 2), *again;
    WINDOW *pad = newpad(3, 5);
    cchar_t found;

    IS(OK, wbkgrnd(window, wide(0x2591, 0, 0)));
    IS(OK, mvwaddwstr(window, 1, 1, L"\u043f\u2500\u00e9"));
    IS(OK, putwin(window, file));
    rewind(file);
    again = getwin(file);
    CHECK(again && mvwin_wch(again, 1, 3, &found) == OK && found.chars[0] == 0xe9);
    CHECK(again && wgetbkgrnd(again, &found) == OK && found.chars[0] == 0x2591);
    IS(OK, delwin(again));
    again = dupwin(window);
    CHECK(again && mvwin_wch(again, 1, 1, &found) == OK && found.chars[0] == 0x43f);
    CHECK(again && wgetbkgrnd(again, &found) == OK && found.chars[0] == 0x2591);
    IS(OK, resizeterm(20, 60));
    IS(OK, mvwin_wch(window, 1, 1, &found));
    CHECK(found.chars[0] == 0x43f);
    IS(OK, wgetbkgrnd(window, &found));
    CHECK(found.chars[0] == 0x2591);
    IS(KEY_RESIZE, getch());
    IS(ERR, pecho_wchar(pad, wide(0x416, 0, 0)));
    IS(OK, prefresh(pad, 0, 0, 5, 5, 7, 9));
    was_sent("");
    IS(OK, pecho_wchar(pad, wide(0x416, 0, 0)));
    CHECK(was_sent("\xd0\x96"));
    IS(OK, wecho_wchar(window, wide(0x417, 0, 0)));
    CHECK(was_sent("\xd0\x97"));
    IS(OK, echo_wchar(wide(0x418, 0, 0)));
    CHECK(was_sent("\xd0\x98"));
    IS(OK, delwin(pad));
    IS(OK, delwin(again));
    IS(OK, delwin(window));
    fclose(file);
}

/* On a screen in ASCII wide characters are shown by their stand-ins, and bytes are ASCII. */
static void in_ascii(void)
{
    static const chtype accent[] = {0xe9, 0};
    wint_t character = 0;
    char text[10];

    CHECK(ACS_HLINE == '-' && ACS_ULCORNER == '+');
    IS(OK, mvaddwstr(0, 0, L"\u00e9\u2500\u4e2d"));
    CHECK(begins(0, L"\u00e9\u2500\ufffd\ufffd"));
    IS(4, mvinnstr(0, 0, text, 4));
    CHECK(strcmp(text, "e-\?\?") == 0);
    IS('e', mvinch(0, 0));
    IS('-', mvinch(0, 1));
    IS(ERR, mvaddstr(1, 0, "a\xc3\xa9"));
    CHECK(code_at(1, 0) == 'a' && code_at(1, 1) == ' ');
    IS(ERR, addch(0xe9));
    IS(ERR, addch(0xe9 | A_ALTCHARSET));
    IS(ERR, insch(0xe9));
    IS(ERR, insstr("\xc3\xa9"));
    IS(ERR, hline(0xe9, 3));
    IS(ERR, mvaddchnstr(2, 0, accent, 1));
    IS(OK, mvadd_wch(3, 0, WACS_VLINE));
    IS(OK, slk_set(1, "a\xc3\xa9", 0));
    CHECK(strcmp(slk_label(1), "a") == 0 && !key_name(0xe9) && strcmp(key_name('a'), "a") == 0);
    was_sent("");
    IS(OK, refresh());
    CHECK(!was_sent("\xc3"));
    timeout(2000);
    type("\xc3\xa9");
    IS(OK, get_wch(&character));
    CHECK(character == 0xc3);
    IS(0xa9, getch());
    IS(OK, unget_wch(0xe9));
    IS(0xe9, getch());
    IS(ERR, unget_wch(0x100));
}

/* Two screens at once, in locales of their own: each window has lines of its screen. */
static void on_two_screens(void)
{
    SCREEN *first = open_screen("C.UTF-8"), *second;
    FILE *was_typed = typed, *was_sent_to = sent;
    WINDOW *wide_one = stdscr;
    int was_keyboard = keyboard;
    cchar_t found;

    second = open_screen("C");
    IS(OK, box(wide_one, 0, 0));
    IS(OK, mvwin_wch(wide_one, 0, 0, &found));
    CHECK(found.chars[0] == 0x250c);
    IS(OK, box(stdscr, 0, 0));
    CHECK(code_at(0, 0) == '+' && ACS_HLINE == '-');
    CHECK(set_term(first) == second && ACS_HLINE == ('q' | A_ALTCHARSET));
    set_term(second);
    IS(OK, mvaddch(1, 1, 'q' | A_ALTCHARSET));
    CHECK(code_at(1, 1) == '-');
    set_term(first);
    IS(ACS_ULCORNER, mvwinch(wide_one, 0, 0));
    set_term(second);
    close_screen(second);
    typed = was_typed;
    sent = was_sent_to;
    keyboard = was_keyboard;
    set_term(first);
    close_screen(first);
}

int main(void)
{
    SCREEN *screen;

    setenv("LINES", "25", 1);
    setenv("COLUMNS", "80", 1);
    making_characters();
    screen = open_screen("C.UTF-8");
    adding_characters();
    inserting();
    writing_cells();
    drawing();
    bytes_of_utf8();
    typing();
    naming();
    keeping();
    close_screen(screen);
    screen = open_screen("C");
    in_ascii();
    close_screen(screen);
    on_two_screens();
    if (!failed)
        puts("wide: as wanted");
    return failed;
}
