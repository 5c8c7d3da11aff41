/* The entries of terminals, by the names of X/Open Curses Issue 7, over huttavel_entries.h; and the calls of termcap.h,
 * without its variables.
 *
 * setupterm() opens an entry, and so do initscr(), newterm() and tgetent(): cur_term is the one in use. Each capability
 * has a name that stands for its place in cur_term, as `cursor_address` or `columns`, so cur_term has to be open where
 * one is used. These names are macros: include this header after those that might use them for something else.
 * A program that wants none of them defines HUTTAVEL_NO_TERM_NAMES.
 *
 * curses.h has the calls tigetflag(), tigetnum(), tigetstr(), tparm(), tiparm(), putp(), vidattr() and their kin.
 */
#ifndef HUTTAVEL_TERM_H
#define HUTTAVEL_TERM_H

#include "curses.h"

#ifdef __cplusplus
extern "C" {
#endif

/* The capabilities of an open entry, in the order of term(5). A program reads them, and changes none. */
typedef struct huttavel_curses_terminal {
    bool flags[44];
    int numbers[39];    /* -1 where the entry has none; `lines` and `columns` are those of the terminal */
    char *strings[414]; /* with padding; NULL where the entry has none */
} TERMINAL;

/* The terminal in use; NULL without one. */
extern TERMINAL *cur_term;

/* Opens the entry of this name, or of TERM without one, for a terminal that is written to with this descriptor, and
 * makes it cur_term. Nothing is sent. Opens nothing again that cur_term is already. ERR if that fails: `status` gets -1
 * if there are no entries at all, TERM is not set or memory runs out, 0 if there is none of this name or its type is
 * generic, and 1 if the terminal prints on paper. Without a `status`, the program ends with a message then. */
int setupterm(const char *type, int descriptor, int *status);

/* The same, and then reset_prog_mode() if a screen is in use. The screen goes on with its own entry. */
int restartterm(const char *type, int descriptor, int *status);

/* Makes a terminal cur_term, and gives the one that was. */
TERMINAL *set_curterm(TERMINAL *terminal);

/* Closes a terminal and frees its memory. ERR if it is not an open one. */
int del_curterm(TERMINAL *terminal);

/* Calls `put` with each byte of a string of an entry, and makes a pause for its padding, terminfo(5), 'Delays and
 * Padding'. The number of lines that the string affects is 1 where it does not matter. ERR without a string. */
int tputs(const char *text, int affected, int (*put)(int));

/* As in termcap.h. */
int tgetent(char *buffer, const char *type);
int tgetflag(const char *code);
int tgetnum(const char *code);
char *tgetstr(const char *code, char **area);
char *tgoto(const char *text, int column, int row);

#ifdef __cplusplus
}
#endif

#ifndef HUTTAVEL_NO_TERM_NAMES
#include "term_names.h"
#endif

#endif
