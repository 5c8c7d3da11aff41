/* Wide characters of curses.h, which includes this: X/Open Curses Issue 7, 'Enhanced Curses'. They are there without a
   macro that asks for them.

   A cell holds one character of one column. One of two columns is shown as U+FFFD in both, and one of none, as an
   accent that is combined with the character before it, is left out. */
#ifndef HUTTAVEL_CURSES_WIDE_H
#define HUTTAVEL_CURSES_WIDE_H

#ifndef NCURSES_WIDECHAR
#define NCURSES_WIDECHAR 1
#endif

/* A character with its attributes and pair, as in a chtype. It ends before a null character; only the first one counts,
   and setcchar() keeps no other. */
#define CCHARW_MAX 5
typedef struct {
    attr_t attr;
    wchar_t chars[CCHARW_MAX];
} cchar_t;

int setcchar(cchar_t *character, const wchar_t *text, const attr_t attrs, short pair, const void *options);
int getcchar(const cchar_t *character, wchar_t *text, attr_t *attrs, short *pair, void *options);

/* The characters for the letters of the VT100's graphic set. */
extern const cchar_t huttavel_curses_wacs[128];

int add_wch(const cchar_t *character);
int wadd_wch(WINDOW *window, const cchar_t *character);
int mvadd_wch(int row, int column, const cchar_t *character);
int mvwadd_wch(WINDOW *window, int row, int column, const cchar_t *character);
int echo_wchar(const cchar_t *character);
int wecho_wchar(WINDOW *window, const cchar_t *character);
int pecho_wchar(WINDOW *pad, const cchar_t *character);
int addwstr(const wchar_t *text);
int waddwstr(WINDOW *window, const wchar_t *text);
int mvaddwstr(int row, int column, const wchar_t *text);
int mvwaddwstr(WINDOW *window, int row, int column, const wchar_t *text);
int addnwstr(const wchar_t *text, int most);
int waddnwstr(WINDOW *window, const wchar_t *text, int most);
int mvaddnwstr(int row, int column, const wchar_t *text, int most);
int mvwaddnwstr(WINDOW *window, int row, int column, const wchar_t *text, int most);
int add_wchstr(const cchar_t *characters);
int wadd_wchstr(WINDOW *window, const cchar_t *characters);
int mvadd_wchstr(int row, int column, const cchar_t *characters);
int mvwadd_wchstr(WINDOW *window, int row, int column, const cchar_t *characters);
int add_wchnstr(const cchar_t *characters, int most);
int wadd_wchnstr(WINDOW *window, const cchar_t *characters, int most);
int mvadd_wchnstr(int row, int column, const cchar_t *characters, int most);
int mvwadd_wchnstr(WINDOW *window, int row, int column, const cchar_t *characters, int most);
int ins_wch(const cchar_t *character);
int wins_wch(WINDOW *window, const cchar_t *character);
int mvins_wch(int row, int column, const cchar_t *character);
int mvwins_wch(WINDOW *window, int row, int column, const cchar_t *character);
int ins_wstr(const wchar_t *text);
int wins_wstr(WINDOW *window, const wchar_t *text);
int mvins_wstr(int row, int column, const wchar_t *text);
int mvwins_wstr(WINDOW *window, int row, int column, const wchar_t *text);
int ins_nwstr(const wchar_t *text, int most);
int wins_nwstr(WINDOW *window, const wchar_t *text, int most);
int mvins_nwstr(int row, int column, const wchar_t *text, int most);
int mvwins_nwstr(WINDOW *window, int row, int column, const wchar_t *text, int most);

int hline_set(const cchar_t *character, int count);
int whline_set(WINDOW *window, const cchar_t *character, int count);
int mvhline_set(int row, int column, const cchar_t *character, int count);
int mvwhline_set(WINDOW *window, int row, int column, const cchar_t *character, int count);
int vline_set(const cchar_t *character, int count);
int wvline_set(WINDOW *window, const cchar_t *character, int count);
int mvvline_set(int row, int column, const cchar_t *character, int count);
int mvwvline_set(WINDOW *window, int row, int column, const cchar_t *character, int count);
int border_set(const cchar_t *left, const cchar_t *right, const cchar_t *top, const cchar_t *bottom,
               const cchar_t *top_left, const cchar_t *top_right, const cchar_t *bottom_left,
               const cchar_t *bottom_right);
int wborder_set(WINDOW *window, const cchar_t *left, const cchar_t *right, const cchar_t *top, const cchar_t *bottom,
                const cchar_t *top_left, const cchar_t *top_right, const cchar_t *bottom_left,
                const cchar_t *bottom_right);
int box_set(WINDOW *window, const cchar_t *vertical, const cchar_t *horizontal);

int bkgrnd(const cchar_t *background);
int wbkgrnd(WINDOW *window, const cchar_t *background);
void bkgrndset(const cchar_t *background);
void wbkgrndset(WINDOW *window, const cchar_t *background);
int getbkgrnd(cchar_t *background);
int wgetbkgrnd(WINDOW *window, cchar_t *background);

int in_wch(cchar_t *character);
int win_wch(WINDOW *window, cchar_t *character);
int mvin_wch(int row, int column, cchar_t *character);
int mvwin_wch(WINDOW *window, int row, int column, cchar_t *character);
int in_wchstr(cchar_t *cells);
int win_wchstr(WINDOW *window, cchar_t *cells);
int mvin_wchstr(int row, int column, cchar_t *cells);
int mvwin_wchstr(WINDOW *window, int row, int column, cchar_t *cells);
int in_wchnstr(cchar_t *cells, int most);
int win_wchnstr(WINDOW *window, cchar_t *cells, int most);
int mvin_wchnstr(int row, int column, cchar_t *cells, int most);
int mvwin_wchnstr(WINDOW *window, int row, int column, cchar_t *cells, int most);
int inwstr(wchar_t *text);
int winwstr(WINDOW *window, wchar_t *text);
int mvinwstr(int row, int column, wchar_t *text);
int mvwinwstr(WINDOW *window, int row, int column, wchar_t *text);
int innwstr(wchar_t *text, int most);
int winnwstr(WINDOW *window, wchar_t *text, int most);
int mvinnwstr(int row, int column, wchar_t *text, int most);
int mvwinnwstr(WINDOW *window, int row, int column, wchar_t *text, int most);

/* get_wch() gives KEY_CODE_YES for a key, and OK for a character. */
int get_wch(wint_t *character);
int wget_wch(WINDOW *window, wint_t *character);
int mvget_wch(int row, int column, wint_t *character);
int mvwget_wch(WINDOW *window, int row, int column, wint_t *character);
int unget_wch(const wchar_t character);
int get_wstr(wint_t *text);
int wget_wstr(WINDOW *window, wint_t *text);
int mvget_wstr(int row, int column, wint_t *text);
int mvwget_wstr(WINDOW *window, int row, int column, wint_t *text);
int getn_wstr(wint_t *text, int most);
int wgetn_wstr(WINDOW *window, wint_t *text, int most);
int mvgetn_wstr(int row, int column, wint_t *text, int most);
int mvwgetn_wstr(WINDOW *window, int row, int column, wint_t *text, int most);

int erasewchar(wchar_t *character);
int killwchar(wchar_t *character);
char *key_name(wchar_t character);
wchar_t *wunctrl(cchar_t *character);
int slk_wset(int number, const wchar_t *text, int justify);

/* Line drawing. */
#define HUTTAVEL_WACS(letter) (&huttavel_curses_wacs[(unsigned char)(letter)])
#define WACS_ULCORNER HUTTAVEL_WACS('l')
#define WACS_LLCORNER HUTTAVEL_WACS('m')
#define WACS_URCORNER HUTTAVEL_WACS('k')
#define WACS_LRCORNER HUTTAVEL_WACS('j')
#define WACS_RTEE HUTTAVEL_WACS('u')
#define WACS_LTEE HUTTAVEL_WACS('t')
#define WACS_BTEE HUTTAVEL_WACS('v')
#define WACS_TTEE HUTTAVEL_WACS('w')
#define WACS_HLINE HUTTAVEL_WACS('q')
#define WACS_VLINE HUTTAVEL_WACS('x')
#define WACS_PLUS HUTTAVEL_WACS('n')
#define WACS_S1 HUTTAVEL_WACS('o')
#define WACS_S3 HUTTAVEL_WACS('p')
#define WACS_S7 HUTTAVEL_WACS('r')
#define WACS_S9 HUTTAVEL_WACS('s')
#define WACS_DIAMOND HUTTAVEL_WACS('`')
#define WACS_CKBOARD HUTTAVEL_WACS('a')
#define WACS_DEGREE HUTTAVEL_WACS('f')
#define WACS_PLMINUS HUTTAVEL_WACS('g')
#define WACS_BULLET HUTTAVEL_WACS('~')
#define WACS_LARROW HUTTAVEL_WACS(',')
#define WACS_RARROW HUTTAVEL_WACS('+')
#define WACS_DARROW HUTTAVEL_WACS('.')
#define WACS_UARROW HUTTAVEL_WACS('-')
#define WACS_BOARD HUTTAVEL_WACS('h')
#define WACS_LANTERN HUTTAVEL_WACS('i')
#define WACS_BLOCK HUTTAVEL_WACS('0')
#define WACS_LEQUAL HUTTAVEL_WACS('y')
#define WACS_GEQUAL HUTTAVEL_WACS('z')
#define WACS_PI HUTTAVEL_WACS('{')
#define WACS_NEQUAL HUTTAVEL_WACS('|')
#define WACS_STERLING HUTTAVEL_WACS('}')

#endif
