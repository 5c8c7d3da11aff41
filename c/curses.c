/* curses.h over huttavel.h: one unit, in parts that lie in the folder `curses`, from the lowest to the highest. */
#define _XOPEN_SOURCE 700
#define _DEFAULT_SOURCE

/* The names of capabilities are those of variables here, and those of calls are those of functions. */
#define HUTTAVEL_NO_TERM_NAMES
#define NCURSES_NOMACROS
#include "term.h"
#include "termcap.h"

#include <errno.h>
#include <fcntl.h>
#include <langinfo.h>
#include <limits.h>
#include <poll.h>
#include <signal.h>
#include <stdint.h>
#include <stdlib.h>
#include <string.h>
#include <sys/ioctl.h>
#include <termios.h>
#include <time.h>
#include <unistd.h>

#include "huttavel.h"

#include "curses/screens.h"

#include "curses/entries.c"
#include "curses/output.c"
#include "curses/line.c"
#include "curses/signals.c"
#include "curses/encoding.c"
#include "curses/characters.c"
#include "curses/marks.c"
#include "curses/windows.c"
#include "curses/changes.c"
#include "curses/settings.c"
#include "curses/colours.c"
#include "curses/refreshing.c"
#include "curses/adding.c"
#include "curses/lines.c"
#include "curses/inserting.c"
#include "curses/erasing.c"
#include "curses/reading.c"
#include "curses/cells.c"
#include "curses/wide.c"
#include "curses/wide_texts.c"
#include "curses/ripped.c"
#include "curses/labels.c"
#include "curses/mouse.c"
#include "curses/definitions.c"
#include "curses/sizes.c"
#include "curses/terminals.c"
#include "curses/names.c"
#include "curses/strings.c"
#include "curses/renditions.c"
#include "curses/termcap.c"
#include "curses/opening.c"
#include "curses/resizing.c"
#include "curses/files.c"
#include "curses/dumps.c"
#include "curses/decoding.c"
#include "curses/keyboard.c"
#include "curses/keys.c"
#include "curses/texts.c"
#include "curses/wide_keys.c"
#include "curses/forms.c"
