/* Another name of curses.h. */
#include "curses.h"
