/* Calls of curses.h and panel.h with each of their allocations refused in turn: a call is done all the same, or fails
 * and is done when it is made again, and what windows held they go on to hold. tests/lossless.c has the calls about
 * entries.
 */
#define _XOPEN_SOURCE 700

#include <panel.h>

#include "refuse.h"

#include <stdio.h>
#include <string.h>
#include <unistd.h>

/* The call that was made last, and how many allocations there were before it. */
static const char *last;
static unsigned long before;

/* Whether a call is done: at once, or when it is made again after an allocation of it was refused. It gives ERR or NULL
   then. */
#define BEGIN(call) (last = #call, before = allocations)
#define DONE(call) (BEGIN(call), (call) != ERR || (was_refused(before) && (call) != ERR))
#define MADE(result, call) (BEGIN(call), ((result) = (call)) || (was_refused(before) && ((result) = (call))))

static WINDOW *window, *part, *pad, *copy, *over, *again;
static PANEL *panel;

/* Whether a window has a text at a place. */
static bool has(WINDOW *of, int row, int column, const char *text)
{
    char found[32];

    last = text;
    return mvwinnstr(of, row, column, found, (int)strlen(text)) == (int)strlen(text) && strcmp(found, text) == 0;
}

/* Windows of each kind, with texts; one text is longer than what printw() has room for without memory. */
static bool makes(void)
{
    return MADE(window, newwin(6, 20, 2, 3)) && DONE(mvwaddstr(window, 1, 2, "in a window")) &&
           MADE(copy, dupwin(window)) && has(copy, 1, 2, "in a window") && MADE(part, derwin(window, 2, 8, 1, 2)) &&
           has(part, 0, 0, "in a win") && MADE(pad, newpad(30, 90)) && DONE(mvwprintw(pad, 0, 0, "%600s", "right")) &&
           has(pad, 6, 55, "right") && MADE(over, newwin(5, 10, LINES - 2, COLS - 5)) &&
           DONE(mvwaddstr(over, 0, 0, "over"));
}

static bool changes(void)
{
    return DONE(wresize(copy, 4, 30)) && has(copy, 1, 2, "in a window") && DONE(wresize(over, 5, 12)) &&
           has(over, 0, 0, "over") && DONE(copywin(window, copy, 1, 2, 2, 0, 2, 10, FALSE)) &&
           has(copy, 2, 0, "in a windo") && DONE(overlay(part, window)) && DONE(overwrite(over, stdscr)) &&
           DONE(define_key("\033[A~", KEY_F(60))) && key_defined("\033[A~") == KEY_F(60) &&
           DONE(slk_set(1, "label", 1)) && strcmp(slk_label(1), "label") == 0;
}

static bool shows(void)
{
    if (!MADE(panel, new_panel(window)))
        return false;
    update_panels();
    return DONE(doupdate()) && DONE(wrefresh(over)) && DONE(prefresh(pad, 5, 50, 5, 5, 9, 20)) &&
           DONE(slk_refresh()) && DONE(mvcur(0, 0, 3, 3)) && DONE(setsyx(1, 1)) && DONE(doupdate());
}

/* Writes a window and the screen to files, and reads them. */
static bool files(FILE *file, const char *name)
{
    return DONE((rewind(file), putwin(copy, file))) && MADE(again, (rewind(file), getwin(file))) &&
           has(again, 1, 2, "in a window") && DONE(scr_dump(name)) && DONE(scr_restore(name)) && DONE(doupdate());
}

/* Gives the screen another size, with which all windows are made again. */
static bool resizes(void)
{
    return DONE(resizeterm(20, 70)) && LINES == 19 && COLS == 70 && has(window, 1, 2, "in a window") &&
           has(part, 0, 0, "in a win") && has(again, 1, 2, "in a window") && has(pad, 6, 55, "right") &&
           has(over, 0, 0, "over") && DONE(doupdate());
}

static bool with_refused(unsigned long number)
{
    FILE *nothing = fopen("/dev/null", "r+"), *file = tmpfile();
    SCREEN *screen = NULL;
    char name[] = "/tmp/huttavel-refused-XXXXXX";
    int dumped = mkstemp(name);
    bool kept;

    panel = NULL;
    slk_init(0);
    refuse(number);
    kept = nothing && file && dumped >= 0 && MADE(screen, newterm("xterm", nothing, nothing)) && DONE(start_color()) &&
           DONE(init_pair(1, COLOR_RED, COLOR_BLUE)) && makes() && changes() && shows() && files(file, name) &&
           resizes();
    if (!kept)
        printf("refused: %s, allocation %lu\n", last, number);
    if (panel)
        del_panel(panel);
    endwin();
    delscreen(screen);
    close(dumped);
    remove(name);
    if (nothing)
        fclose(nothing);
    if (file)
        fclose(file);
    return kept;
}

int main(void)
{
    unsigned long all = each_refused(with_refused);

    if (!all)
        return 1;
    printf("refused: each of %lu allocations\n", all);
    return 0;
}
