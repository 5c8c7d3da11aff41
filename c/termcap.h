/* The calls of termcap, over the entries of terminfo: there is no file of termcap here. A capability has a code of two
 * characters, as `cm`; what follows them does not matter. Strings are in the form of terminfo(5): their parameters go
 * in by tgoto() or tparm(), their padding is obeyed by tputs().
 */
#ifndef HUTTAVEL_TERMCAP_H
#define HUTTAVEL_TERMCAP_H

#ifdef __cplusplus
extern "C" {
#endif

/* What tgetent() sets, and no call here reads: the first byte of the code `pc`, and the strings of `bc` and `up`. A
 * program may define these itself, and ospeed too. */
extern char PC, *BC, *UP;

/* The speed of the terminal that tgetent() opened, in codes: 1 is 50 bauds, 13 is 9,600, 15 is 38,400 or more, 0 is
 * unknown. */
extern short ospeed;

/* Opens the entry of a terminal's name, for standard output: 1. 0 if there is none of this name, and -1 if there are no
 * entries at all or memory runs out. The terminal that it opened before is closed if it is another one. The buffer may
 * be NULL, and gets an empty text. */
int tgetent(char *buffer, const char *type);

/* Whether the entry has a flag; a number, or -1; a string, or NULL. Where there is an area, the string is copied to it
 * with a NUL at its end, and the area then begins behind that; otherwise it is valid while the entry is open. */
int tgetflag(const char *code);
int tgetnum(const char *code);
char *tgetstr(const char *code, char **area);

/* The text of a string for a column and a row, in this order; for a string of one parameter that is the row. Valid
 * until the next call of it or of tparm(). NULL if the string is wrong. */
char *tgoto(const char *text, int column, int row);

/* Calls `put` with each byte of a string, and makes a pause for its padding. ERR without a string. */
int tputs(const char *text, int affected, int (*put)(int));

#ifdef __cplusplus
}
#endif

#endif
