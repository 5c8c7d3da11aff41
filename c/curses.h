/* The names of X/Open Curses Issue 7 over huttavel.h, so that programs that exist compile unchanged.
 *
 * Each call does what the standard says unless docs/C.md says otherwise, and gives ERR, NULL or (chtype)ERR where it is
 * refused. Windows hold characters of one column. A screen shows and reads them in UTF-8 if the locale has it when the
 * screen is opened: a program calls setlocale(LC_ALL, "") before. Otherwise their ASCII stand-ins are shown, and
 * a byte from 128 on is refused. Calls come from one thread. Only a call that waits for a key may be interrupted by a
 * signal handler that makes calls of its own.
 *
 * LEFT OUT, so that a program which wants one of these fails when it is compiled, with the name: what only ncurses has,
 * but for the mouse, keys, sizes and default colours. So there is no init_extended_pair(), is_keypad(), is_scrollok()
 * and their kin, wgetparent(), use_window(), newscr, TABSIZE, boolnames, WACS_D_HLINE and so on.
 */
#ifndef HUTTAVEL_CURSES_H
#define HUTTAVEL_CURSES_H

#include <stdarg.h>
#include <stdbool.h>
#include <stddef.h>
#include <stdio.h>
#include <wchar.h>

#ifdef __cplusplus
extern "C" {
#endif

typedef unsigned int chtype;
typedef chtype attr_t;
typedef struct huttavel_curses_screen SCREEN;
typedef struct huttavel_curses_window WINDOW;

/* A set of events of the mouse, and one of them with its place on the screen; `id` and `z` are 0. */
typedef unsigned int mmask_t;
typedef struct {
    short id;
    int x, y, z;
    mmask_t bstate;
} MEVENT;

#include "curses_codes.h"

#define ERR (-1)
#define OK 0
#ifndef TRUE
#define TRUE 1
#endif
#ifndef FALSE
#define FALSE 0
#endif

#ifdef __GNUC__
#define HUTTAVEL_PRINTS(text, values) __attribute__((__format__(__printf__, text, values)))
#define HUTTAVEL_SCANS(text, values) __attribute__((__format__(__scanf__, text, values)))
#else
#define HUTTAVEL_PRINTS(text, values)
#define HUTTAVEL_SCANS(text, values)
#endif

/* The window over the whole screen, what the terminal shows, and the sizes of the screen that set_term() chose last.
 * curscr may be given to clearok(), redrawwin(), touchwin(), winch(), wnoutrefresh() and wrefresh(), and nowhere else.
 * ESCDELAY is how many milliseconds a lone escape waits to be the beginning of a key. */
extern WINDOW *stdscr, *curscr;
extern int LINES, COLS, COLORS, COLOR_PAIRS, ESCDELAY;

/* The characters for the letters of the VT100's graphic set, 0 where there is none; and all names of the terminal. */
extern chtype acs_map[];
extern char ttytype[];

/* Screens. initscr() ends the program with a message where it fails. */
WINDOW *initscr(void);
SCREEN *newterm(const char *type, FILE *output, FILE *input);
SCREEN *set_term(SCREEN *screen);
void delscreen(SCREEN *screen);
void filter(void);
void nofilter(void);
void use_env(bool on);
void use_tioctl(bool on);
int use_extended_names(bool on);
int ripoffline(int line, int (*init)(WINDOW *window, int columns));
int resizeterm(int rows, int columns);
int resize_term(int rows, int columns);
bool is_term_resized(int rows, int columns);
int endwin(void);
bool isendwin(void);
char *termname(void);
char *longname(void);
const char *curses_version(void);
int baudrate(void);
char erasechar(void);
char killchar(void);
bool has_ic(void);
bool has_il(void);
chtype termattrs(void);
attr_t term_attrs(void);

/* The terminal's line. */
int cbreak(void);
int nocbreak(void);
int raw(void);
int noraw(void);
int echo(void);
int noecho(void);
int nl(void);
int nonl(void);
int halfdelay(int tenths);
int intrflush(WINDOW *window, bool on);
void qiflush(void);
void noqiflush(void);
int meta(WINDOW *window, bool on);
int typeahead(int descriptor);
int def_prog_mode(void);
int def_shell_mode(void);
int reset_prog_mode(void);
int reset_shell_mode(void);
int savetty(void);
int resetty(void);
int curs_set(int visibility);
int beep(void);
int flash(void);
int napms(int milliseconds);
int delay_output(int milliseconds);
int mvcur(int old_row, int old_column, int row, int column);

/* Keys. */
int keypad(WINDOW *window, bool on);
int nodelay(WINDOW *window, bool on);
int notimeout(WINDOW *window, bool on);
void timeout(int milliseconds);
void wtimeout(WINDOW *window, int milliseconds);
int ungetch(int key);
int flushinp(void);
char *keyname(int key);
char *unctrl(chtype character);
int has_key(int key);
int keyok(int key, bool on);
int define_key(const char *text, int key);
int key_defined(const char *text);
int set_escdelay(int milliseconds);
int get_escdelay(void);

/* The mouse. Places are on the screen, with the lines that ripoffline() takes off. */
bool has_mouse(void);
mmask_t mousemask(mmask_t mask, mmask_t *before);
int mouseinterval(int milliseconds);
int getmouse(MEVENT *event);
int ungetmouse(MEVENT *event);
bool wenclose(const WINDOW *window, int row, int column);
bool wmouse_trafo(const WINDOW *window, int *row, int *column, bool to_screen);
bool mouse_trafo(int *row, int *column, bool to_screen);

/* The entry of the terminal, and its strings. These also work without a screen, after setupterm(): term.h has the rest.
 *
 * tigetflag() gives -1, tigetnum() -2 and tigetstr() (char *)-1 if there is no capability of this name and kind; and 0,
 * -1 and NULL if the entry does not have it. */
int tigetflag(const char *name);
int tigetnum(const char *name);
char *tigetstr(const char *name);

/* What a string of the entry gives with up to nine parameters: longs to tparm(), ints to tiparm(). It is valid until
 * the next call of either. NULL if the string is wrong, has `%s` or `%l`, or memory runs out. */
char *tparm(const char *text, ...);
char *tiparm(const char *text, ...);

/* Writes a string of the entry with putchar(), as tputs() of term.h does. */
int putp(const char *text);

/* Write what gives the terminal exactly these attributes, and the colours of this pair: with `put`, or with putchar().
 * A pair has the colours of the screen in use; without one, only pair 0 counts. */
int vidattr(chtype attrs);
int vidputs(chtype attrs, int (*put)(int));
int vid_attr(attr_t attrs, short pair, void *options);
int vid_puts(attr_t attrs, short pair, void *options, int (*put)(int));

/* Soft labels. */
int slk_init(int format);
int slk_set(int number, const char *text, int justify);
char *slk_label(int number);
int slk_refresh(void);
int slk_noutrefresh(void);
int slk_clear(void);
int slk_restore(void);
int slk_touch(void);
int slk_attron(const chtype attrs);
int slk_attroff(const chtype attrs);
int slk_attrset(const chtype attrs);
int slk_attr_on(const attr_t attrs, void *options);
int slk_attr_off(const attr_t attrs, void *options);
int slk_attr_set(const attr_t attrs, short pair, void *options);
attr_t slk_attr(void);
int slk_color(short pair);

/* Colours. */
int start_color(void);
bool has_colors(void);
bool can_change_color(void);
int use_default_colors(void);
int assume_default_colors(int foreground, int background);
int init_pair(short pair, short foreground, short background);
int pair_content(short pair, short *foreground, short *background);
int init_color(short color, short red, short green, short blue);
int color_content(short color, short *red, short *green, short *blue);

/* Making and moving windows. */
WINDOW *newwin(int rows, int columns, int row, int column);
WINDOW *subwin(WINDOW *window, int rows, int columns, int row, int column);
WINDOW *derwin(WINDOW *window, int rows, int columns, int row, int column);
WINDOW *newpad(int rows, int columns);
WINDOW *subpad(WINDOW *window, int rows, int columns, int row, int column);
WINDOW *dupwin(WINDOW *window);
int delwin(WINDOW *window);
int wresize(WINDOW *window, int rows, int columns);
int mvwin(WINDOW *window, int row, int column);
int mvderwin(WINDOW *window, int row, int column);

/* Windows and screens in files. */
int putwin(WINDOW *window, FILE *file);
WINDOW *getwin(FILE *file);
int scr_dump(const char *name);
int scr_restore(const char *name);
int scr_init(const char *name);
int scr_set(const char *name);

/* Places and sizes. */
struct huttavel_curses_place {
    int row, column;
};
/* What a WINDOW begins with, which macros read and write there: its cursor; what characters are written with, of its
 * bits those of attributes and the colour pair; and whether the library is still to be told of that. */
struct huttavel_curses_front {
    struct huttavel_curses_place cursor;
    attr_t pen;
    bool has_other_pen;
};
#define huttavel_curses_place(window) (&((const struct huttavel_curses_front *)(window))->cursor)
int getcury(const WINDOW *window);
int getcurx(const WINDOW *window);
int getbegy(const WINDOW *window);
int getbegx(const WINDOW *window);
int getmaxy(const WINDOW *window);
int getmaxx(const WINDOW *window);
int getpary(const WINDOW *window);
int getparx(const WINDOW *window);
#define getyx(window, y, x)                                     \
    ((y) = (window) ? huttavel_curses_place(window)->row : ERR, \
     (x) = (window) ? huttavel_curses_place(window)->column : ERR)
#define getbegyx(window, row, column) ((row) = getbegy(window), (column) = getbegx(window))
#define getmaxyx(window, row, column) ((row) = getmaxy(window), (column) = getmaxx(window))
#define getparyx(window, row, column) ((row) = getpary(window), (column) = getparx(window))

/* Settings of a window. idlok() and idcok() are accepted: updates choose by bytes whatever they say. */
int clearok(WINDOW *window, bool on);
int idlok(WINDOW *window, bool on);
void idcok(WINDOW *window, bool on);
int leaveok(WINDOW *window, bool on);
void immedok(WINDOW *window, bool on);
int syncok(WINDOW *window, bool on);
int scrollok(WINDOW *window, bool on);
int wsetscrreg(WINDOW *window, int top, int bottom);
int setscrreg(int top, int bottom);

/* Updates, and what they take. */
int refresh(void);
int wrefresh(WINDOW *window);
int wnoutrefresh(WINDOW *window);
int doupdate(void);
int prefresh(WINDOW *pad, int row, int column, int top, int left, int bottom, int right);
int pnoutrefresh(WINDOW *pad, int row, int column, int top, int left, int bottom, int right);
int pechochar(WINDOW *pad, const chtype character);
int redrawwin(WINDOW *window);
int wredrawln(WINDOW *window, int first, int count);
int touchwin(WINDOW *window);
int untouchwin(WINDOW *window);
int touchline(WINDOW *window, int first, int count);
int wtouchln(WINDOW *window, int first, int count, int changed);
bool is_linetouched(WINDOW *window, int row);
bool is_wintouched(WINDOW *window);
void wsyncup(WINDOW *window);
void wsyncdown(WINDOW *window);
void wcursyncup(WINDOW *window);
int overlay(const WINDOW *source, WINDOW *target);
int overwrite(const WINDOW *source, WINDOW *target);
int copywin(const WINDOW *source, WINDOW *target, int row, int column, int top, int left, int bottom, int right,
            int overlaid);
void huttavel_curses_cursor(int *row, int *column);
int huttavel_curses_set_cursor(int row, int column);
#define getsyx(row, column) huttavel_curses_cursor(&(row), &(column))
#define setsyx(row, column) huttavel_curses_set_cursor((row), (column))

/* Attributes and backgrounds. */
int getattrs(const WINDOW *window);
int attron(int attrs);
int attroff(int attrs);
int attrset(int attrs);
int wattron(WINDOW *window, int attrs);
int wattroff(WINDOW *window, int attrs);
int wattrset(WINDOW *window, int attrs);
int attr_on(attr_t attrs, void *options);
int attr_off(attr_t attrs, void *options);
int attr_set(attr_t attrs, short pair, void *options);
int attr_get(attr_t *attrs, short *pair, void *options);
int wattr_on(WINDOW *window, attr_t attrs, void *options);
int wattr_off(WINDOW *window, attr_t attrs, void *options);
int wattr_set(WINDOW *window, attr_t attrs, short pair, void *options);
int wattr_get(WINDOW *window, attr_t *attrs, short *pair, void *options);
int color_set(short pair, void *options);
int wcolor_set(WINDOW *window, short pair, void *options);
int standout(void);
int standend(void);
int wstandout(WINDOW *window);
int wstandend(WINDOW *window);
int bkgd(chtype background);
void bkgdset(chtype background);
int wbkgd(WINDOW *window, chtype background);
void wbkgdset(WINDOW *window, chtype background);
chtype getbkgd(WINDOW *window);

/* What follows has a form for stdscr, one for a window, and forms that move there first, except where there is none. */
int move(int row, int column);
int wmove(WINDOW *window, int row, int column);

int addch(const chtype character);
int waddch(WINDOW *window, const chtype character);
int mvaddch(int row, int column, const chtype character);
int mvwaddch(WINDOW *window, int row, int column, const chtype character);
int echochar(const chtype character);
int wechochar(WINDOW *window, const chtype character);
int addstr(const char *text);
int waddstr(WINDOW *window, const char *text);
int mvaddstr(int row, int column, const char *text);
int mvwaddstr(WINDOW *window, int row, int column, const char *text);
int addnstr(const char *text, int most);
int waddnstr(WINDOW *window, const char *text, int most);
int mvaddnstr(int row, int column, const char *text, int most);
int mvwaddnstr(WINDOW *window, int row, int column, const char *text, int most);
int addchstr(const chtype *characters);
int waddchstr(WINDOW *window, const chtype *characters);
int mvaddchstr(int row, int column, const chtype *characters);
int mvwaddchstr(WINDOW *window, int row, int column, const chtype *characters);
int addchnstr(const chtype *characters, int most);
int waddchnstr(WINDOW *window, const chtype *characters, int most);
int mvaddchnstr(int row, int column, const chtype *characters, int most);
int mvwaddchnstr(WINDOW *window, int row, int column, const chtype *characters, int most);
int chgat(int count, attr_t attrs, short pair, const void *options);
int wchgat(WINDOW *window, int count, attr_t attrs, short pair, const void *options);
int mvchgat(int row, int column, int count, attr_t attrs, short pair, const void *options);
int mvwchgat(WINDOW *window, int row, int column, int count, attr_t attrs, short pair, const void *options);
int insch(chtype character);
int winsch(WINDOW *window, chtype character);
int mvinsch(int row, int column, chtype character);
int mvwinsch(WINDOW *window, int row, int column, chtype character);
int insstr(const char *text);
int winsstr(WINDOW *window, const char *text);
int mvinsstr(int row, int column, const char *text);
int mvwinsstr(WINDOW *window, int row, int column, const char *text);
int insnstr(const char *text, int most);
int winsnstr(WINDOW *window, const char *text, int most);
int mvinsnstr(int row, int column, const char *text, int most);
int mvwinsnstr(WINDOW *window, int row, int column, const char *text, int most);

int printw(const char *format, ...) HUTTAVEL_PRINTS(1, 2);
int wprintw(WINDOW *window, const char *format, ...) HUTTAVEL_PRINTS(2, 3);
int mvprintw(int row, int column, const char *format, ...) HUTTAVEL_PRINTS(3, 4);
int mvwprintw(WINDOW *window, int row, int column, const char *format, ...) HUTTAVEL_PRINTS(4, 5);
int vw_printw(WINDOW *window, const char *format, va_list values) HUTTAVEL_PRINTS(2, 0);
int vwprintw(WINDOW *window, const char *format, va_list values) HUTTAVEL_PRINTS(2, 0);
int scanw(const char *format, ...) HUTTAVEL_SCANS(1, 2);
int wscanw(WINDOW *window, const char *format, ...) HUTTAVEL_SCANS(2, 3);
int mvscanw(int row, int column, const char *format, ...) HUTTAVEL_SCANS(3, 4);
int mvwscanw(WINDOW *window, int row, int column, const char *format, ...) HUTTAVEL_SCANS(4, 5);
int vw_scanw(WINDOW *window, const char *format, va_list values) HUTTAVEL_SCANS(2, 0);
int vwscanw(WINDOW *window, const char *format, va_list values) HUTTAVEL_SCANS(2, 0);

int hline(chtype character, int count);
int whline(WINDOW *window, chtype character, int count);
int mvhline(int row, int column, chtype character, int count);
int mvwhline(WINDOW *window, int row, int column, chtype character, int count);
int vline(chtype character, int count);
int wvline(WINDOW *window, chtype character, int count);
int mvvline(int row, int column, chtype character, int count);
int mvwvline(WINDOW *window, int row, int column, chtype character, int count);
int border(chtype left, chtype right, chtype top, chtype bottom, chtype top_left, chtype top_right,
           chtype bottom_left, chtype bottom_right);
int wborder(WINDOW *window, chtype left, chtype right, chtype top, chtype bottom, chtype top_left, chtype top_right,
            chtype bottom_left, chtype bottom_right);
int box(WINDOW *window, chtype vertical, chtype horizontal);

int erase(void);
int werase(WINDOW *window);
int clear(void);
int wclear(WINDOW *window);
int clrtoeol(void);
int wclrtoeol(WINDOW *window);
int clrtobot(void);
int wclrtobot(WINDOW *window);
int delch(void);
int wdelch(WINDOW *window);
int mvdelch(int row, int column);
int mvwdelch(WINDOW *window, int row, int column);
int deleteln(void);
int wdeleteln(WINDOW *window);
int insertln(void);
int winsertln(WINDOW *window);
int insdelln(int count);
int winsdelln(WINDOW *window, int count);
int scroll(WINDOW *window);
int scrl(int count);
int wscrl(WINDOW *window, int count);

chtype inch(void);
chtype winch(WINDOW *window);
chtype mvinch(int row, int column);
chtype mvwinch(WINDOW *window, int row, int column);
int inchstr(chtype *cells);
int winchstr(WINDOW *window, chtype *cells);
int mvinchstr(int row, int column, chtype *cells);
int mvwinchstr(WINDOW *window, int row, int column, chtype *cells);
int inchnstr(chtype *cells, int most);
int winchnstr(WINDOW *window, chtype *cells, int most);
int mvinchnstr(int row, int column, chtype *cells, int most);
int mvwinchnstr(WINDOW *window, int row, int column, chtype *cells, int most);
int instr(char *text);
int winstr(WINDOW *window, char *text);
int mvinstr(int row, int column, char *text);
int mvwinstr(WINDOW *window, int row, int column, char *text);
int innstr(char *text, int most);
int winnstr(WINDOW *window, char *text, int most);
int mvinnstr(int row, int column, char *text, int most);
int mvwinnstr(WINDOW *window, int row, int column, char *text, int most);

int getch(void);
int wgetch(WINDOW *window);
int mvgetch(int row, int column);
int mvwgetch(WINDOW *window, int row, int column);
int getstr(char *text);
int wgetstr(WINDOW *window, char *text);
int mvgetstr(int row, int column, char *text);
int mvwgetstr(WINDOW *window, int row, int column, char *text);
int getnstr(char *text, int most);
int wgetnstr(WINDOW *window, char *text, int most);
int mvgetnstr(int row, int column, char *text, int most);
int mvwgetnstr(WINDOW *window, int row, int column, char *text, int most);

#include "curses_wide.h"
#include "curses_macros.h"

#ifdef __cplusplus
}
#endif

#endif
