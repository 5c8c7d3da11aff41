/* Calls of curses.h that macros make without a call. Included by curses.h alone. A program that wants none of them
   defines NCURSES_NOMACROS before; C++, and C before C99, have none. */
#ifndef HUTTAVEL_CURSES_MACROS_H
#define HUTTAVEL_CURSES_MACROS_H

#if !defined NCURSES_NOMACROS && defined __STDC_VERSION__ && __STDC_VERSION__ >= 199901L

/* wattrset(): its own function looks at pairs that there are only after use_default_colors(). */
static inline int huttavel_curses_attrset(WINDOW *window, int attrs)
{
    struct huttavel_curses_front *front = (struct huttavel_curses_front *)window;

    if (!window || (attr_t)attrs & HUTTAVEL_LATE_PAIRS)
        return wattrset(window, attrs);
    front->pen = (attr_t)attrs;
    front->has_other_pen = true;
    return OK;
}
#define attrset(attrs) huttavel_curses_attrset(stdscr, (attrs))
#define wattrset(window, attrs) huttavel_curses_attrset((window), (attrs))

#endif

#endif
