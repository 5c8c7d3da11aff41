/* Programs whose updates are counted. Each makes the same steps in each run, without any input, and draws by calls of
   X/Open Curses alone, so that it compiles over ncurses and over curses.h of here. */
#ifndef PROGRAMS_H
#define PROGRAMS_H

#include <curses.h>
#include <stdbool.h>
#include <stdio.h>
#include <stdlib.h>
#include <string.h>

#define LONGEST 100

/* A program: what it begins with, and its next step, which it takes by wnoutrefresh(). */
struct program {
    const char *name;
    void (*begin)(void);
    void (*step)(void);
    int steps;
};

/* All programs, and after them one without a name. */
extern const struct program programs[];

/* Chooses the locale of the programs. */
void begin_locale(void);

/* The next random number, from 0 to a limit less 1. */
int below(int limit);

/* Whether one of so many cases comes. */
bool is_one_of(int cases);

/* A random word, and a text of random words of at most this length. */
const char *random_word(void);
void write_words(char *text, int length);

/* Writes over a whole row with attributes. */
void draw_bar(int row, chtype attrs, const char *format, ...);

/* Writes a text at a place, cut off at the margin. */
void draw_text(int row, int column, chtype attrs, const char *text);

/* The attributes of a colour, from 1 to 7; others where no colours are shown. */
chtype in_color(int color, chtype others);

/* The programs in ASCII. */
void begin_editor(void);
void step_editor(void);
void begin_pager(void);
void step_pager(void);
void begin_mail(void);
void step_mail(void);
void begin_log(void);
void step_log(void);
void begin_installer(void);
void step_installer(void);
void begin_monitor(void);
void step_monitor(void);

#endif
