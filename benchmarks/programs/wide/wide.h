/* Programs in UTF-8 whose updates are counted: they draw by the wide calls of X/Open Curses, so that both libraries send
   the same characters. */
#ifndef WIDE_H
#define WIDE_H

#include "../programs.h"

#include <wchar.h>

/* Writes a text at a place, cut off at the margin. */
void draw_wide(int row, int column, chtype attrs, const wchar_t *text);

/* Writes over a whole row with attributes. */
void draw_wide_bar(int row, chtype attrs, const wchar_t *text);

/* A character without attributes, for calls that take such. */
cchar_t single(wchar_t character);

/* A random word of a language. */
const wchar_t *random_french(void);
const wchar_t *random_greek(void);
const wchar_t *random_russian(void);

/* Each program. */
void begin_borders(void);
void step_borders(void);
void begin_table(void);
void step_table(void);
void begin_chart(void);
void step_chart(void);
void begin_french(void);
void step_french(void);
void begin_index(void);
void step_index(void);
void begin_acs(void);
void step_acs(void);

#endif
