/* unctrl(), which curses.h declares with chtype. */
#include "curses.h"
