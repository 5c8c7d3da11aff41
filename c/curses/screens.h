/* What a screen and a window of curses.h are, and what every part needs of them. */

/* The number of no window of a handle: that of curscr. */
#define NO_NUMBER UINT32_MAX

/* How many colour pairs a chtype can name, and a cell of the handle. */
#define PAIRS 256
#define HELD_PAIRS 64

/* How many bytes of characters are added before the handle is given them. */
#define ADDED 128

/* How many cells of a line are read at a time for winch(), and for a call that reads all of it. */
#define CELLS_READ 16
#define LONGEST_READ 128

/* How many keys ungetch() keeps, and the most bytes of a character in UTF-8. */
#define PUSHED 64
#define LONGEST_SEQUENCE 4

/* The longest line that getch() reads whole, with its end. */
#define LONGEST_LINE 256

/* The greatest number of rows and columns of a screen. */
#define LARGEST 500

/* The greatest number of lines that ripoffline() takes off, and of labels. */
#define RIPPED 5
#define LABELS 8

/* How many columns a label has at most. */
#define LABEL_WIDTH 8

/* How many mouse events wait for getmouse(). */
#define EVENTS 8

/* The bits of a chtype that are those of a pen. */
#define PEN (A_COLOR | A_ALTCHARSET | 0x7f00u)

/* The longest text of a key. A report of the mouse is shorter. */
#define LONGEST_KEY 64

/* The length of ttytype. */
#define TYPE_LENGTH 256

/* A function that a short one calls seldom, which would save registers for it where it was part of it. */
#ifdef __GNUC__
#define SELDOM __attribute__((__noinline__))
#else
#define SELDOM
#endif

/* Bytes of memory, and how many of them there are. */
struct text {
    uint8_t *bytes;
    size_t length;
};

/* The line of a terminal (POSIX, 'General Terminal Interface'). */
struct line {
    int input;                 /* the descriptor that its modes are set by, and keys are read from */
    bool is_terminal;          /* whether `shell` could be read */
    struct termios shell, program, saved;
};

/* A text of the keyboard that define_key() made a key. */
struct definition {
    struct definition *next;
    int key;
    bool is_off;               /* keyok() */
    size_t length;
    char text[LONGEST_KEY];
};

/* Bytes of the keyboard that were read and are no key yet. */
struct reading {
    uint8_t held[LONGEST_KEY]; /* they may become a defined key, or a report of the mouse */
    size_t held_count;
    size_t in_handle;          /* how many the handle was given whose keys were not taken yet */
    const char *spelled;       /* what is left of the text of a key that keyok() turned off; NULL without */
    bool is_idle;              /* no byte came for a while: what is held waits for no more */
    bool is_undecided;         /* bytes may wait for more, until `decided_at` */
    long long decided_at;
};

/* A line that getch() read whole, where the terminal is read line by line, and how many bytes of it were taken. */
struct typed {
    char text[LONGEST_LINE];
    size_t length, taken;
    bool is_reading;           /* the line is being read, byte by byte */
};

/* The mouse. A press may wait for its release: then both are a click. */
struct mouse {
    mmask_t mask;              /* mousemask() */
    int interval;              /* mouseinterval() */
    MEVENT events[EVENTS];     /* for getmouse(), the newest last */
    int count;
    int pressed;               /* the button whose press waits, or 0 */
    MEVENT press;
    long long clicked_until;   /* when it is too late for a click */
};

/* The soft labels, if slk_init() asked for them: the line is NULL otherwise. */
struct labels {
    WINDOW *line;
    int format;                /* of slk_init() */
    bool is_drawn;             /* slk_noutrefresh() was called */
    bool is_hidden;            /* slk_clear() */
    struct {
        uint32_t codes[LABEL_WIDTH];
        int length;
        int justify;
        char text[LABEL_WIDTH * LONGEST_SEQUENCE + 1]; /* the same, for slk_label() */
    } all[LABELS];
};

/* An open entry of term.h. */
struct terminal {
    TERMINAL seen;             /* what term.h shows: the first member, so that a pointer to it is one to all of this */
    struct terminal *next;
    struct text file;          /* the compiled file, where its names and its strings are */
    huttavel entry;            /* for its strings with parameters; of a screen's entry opened by the first of these */
    char *type;                /* the name that it was opened by: termname() */
    char *names;               /* all its names, with `|` between them */
    char *result;              /* of tparm() */
    struct line line;          /* of its descriptor */
    short pair;                /* the one that vid_puts() set last */
    bool is_of_termcap;        /* only tgetent() opened it, which closes it */
};

/* Bytes of a character in UTF-8 that are not all of it yet. */
struct unended {
    uint8_t bytes[LONGEST_SEQUENCE];
    size_t count;
};

/* Places of a line; none where the first is greater than the last. */
struct places {
    short first, last;
};

struct huttavel_curses_window {
    struct huttavel_curses_front front; /* what macros read and write; the cursor of curscr is ERR and ERR */
    SCREEN *screen;
    WINDOW *next;              /* in the order in which they were made */
    WINDOW *parent;            /* NULL of a window of its own */
    uint32_t number;           /* of the handle */
    int rows, columns;
    int parent_row, parent_column; /* where it begins in its parent; -1 without one */
    uint8_t attrs;             /* what the handle's window writes with */
    uint32_t pair;
    bool is_moved;             /* the handle's window was not given the cursor yet */
    bool has_moved;            /* the cursor was moved since the window was copied last */
    bool is_scrolling;         /* scrollok() */
    int ripped;                /* ripoffline(): 1 is the topmost line, 2 the next; -1 is the lowest; 0 otherwise */
    bool is_immediate;         /* immedok() */
    bool is_synced;            /* syncok() */
    bool is_pad;
    bool is_over;              /* it reaches over the edge of the screen: a pad of the handle, at this place of stdscr */
    int row, column;
    bool has_part;             /* of a pad: a part of it was copied to the virtual screen */
    int part[6];               /* the last arguments of pnoutrefresh() */
    bool is_keypad;
    bool is_untimed;           /* notimeout() */
    int delay;                 /* how long getch() waits: milliseconds, or -1 */
    bool was_copied;           /* by an update */
    bool is_fresh;             /* it was copied, and the handle was asked for nothing about it since */
    bool is_marked;            /* one of the marks was set */
    bool is_whole;             /* all places of lines that are touched count as changed */
    struct unended unended;    /* what was added of a character, */
    struct huttavel_curses_place unended_at; /* and where: it is dropped if the cursor was moved since */
    struct places marks[LARGEST]; /* otherwise the places of each line that were changed since it was copied */
};

/* Characters that cells can hold, which were added to a window side by side, before the last place of a line and with
   one pen, and that the handle was not given yet. Their places are not marked yet, either. */
struct added {
    WINDOW *window;
    attr_t pen;
    struct huttavel_curses_place begun;
    size_t length, room;       /* how many bytes there are, and may be */
    size_t beyond;             /* how many of the bytes are not the first of a character */
    uint8_t bytes[ADDED];
};

/* Characters of a line of a window, from a column on, as they were read last. */
struct seen {
    const WINDOW *window;      /* NULL once the handle was asked for any other thing about a window */
    int row, column, count;
    chtype characters[CELLS_READ];
};

/* The colour pairs of a program, and those of the handle, of which there are fewer. They have the same numbers until a
   pair above 63 is used: it takes one that was not used yet, whose own pair takes another when it is used. */
struct pairs {
    uint8_t held[PAIRS];       /* the handle's pair of each of the program's; 0 without */
    uint8_t of_held[HELD_PAIRS]; /* the program's pair of each of the handle's */
    bool is_used[HELD_PAIRS];
    uint32_t colours[PAIRS][2]; /* of those that have none of the handle, by its numbers */
};

struct huttavel_curses_screen {
    huttavel handle;
    SCREEN *next;
    struct text entry;         /* the compiled file */
    char *name;
    TERMINAL *terminal;        /* the entry for term.h; NULL after del_curterm() */
    struct line line;
    int output;                /* a descriptor */
    WINDOW *windows;           /* all but curscr, the first made first */
    WINDOW *standard, *shown;  /* stdscr and curscr */
    const WINDOW *copied;      /* the window that was copied last; NULL once the handle was asked for any other thing
                                  about a window, so that this one may have to be copied again */
    struct added added;
    struct seen seen;
    bool has_patch;
    uint32_t patch;            /* a pad of the handle of one line, by which parts of lines are copied */
    WINDOW *whole;             /* a window over the whole screen that nothing is written on, or NULL */
    bool is_utf8;              /* the terminal is sent UTF-8, and bytes are those of characters in it */
    int rows, columns;         /* without the lines that are taken off */
    int left_out;              /* how many columns of the terminal the screen does not have */
    int above, below;          /* how many lines are taken off the top, and the bottom */
    struct labels labels;
    int colors, pairs;         /* COLORS, COLOR_PAIRS: 0 before start_color() */
    bool has_defaults;         /* use_default_colors() */
    struct pairs all_pairs;
    bool is_echo, is_newline;  /* echo(), nl() */
    int half_delay;            /* halfdelay(), in tenths of a second; 0 without */
    int visibility;            /* curs_set() */
    int pushed[PUSHED + LONGEST_SEQUENCE]; /* ungetch(), and bytes of what is no character */
    int pushed_count;
    struct typed typed;
    struct reading reading;
    struct definition *definitions; /* define_key() */
    bool is_off[KEY_MAX + 1];  /* the keys of the entry that keyok() turned off */
    struct mouse mouse;
    struct text waiting;       /* where bytes are copied that wait */
    bool is_transmitting;      /* the terminal's keypad transmits: `smkx` was sent */
    bool is_reporting;         /* the terminal reports its mouse */
    /* What signal handlers read, made before it is needed: the texts of `smcup`, `rmcup`, `smkx` and `rmkx`, and what
       turns attributes off and moves the cursor to the last line. */
    struct text enter, leave, transmit, local, plain;
    volatile sig_atomic_t has_ended;      /* endwin() was called, and no update since */
    volatile sig_atomic_t is_disturbed;   /* others had the terminal: the next update repaints all of it */
    volatile sig_atomic_t is_resized;     /* the size may have changed */
    bool has_new_size;         /* the next key is KEY_RESIZE */
};

WINDOW *stdscr, *curscr;
int LINES, COLS, COLORS, COLOR_PAIRS, ESCDELAY = 100;

/* The screen that calls without a window are about. */
static SCREEN *current;

/* All screens, the last made first. */
static SCREEN *screens;

TERMINAL *cur_term;

/* All of a terminal that term.h shows; NULL without one. */
static struct terminal *whole_of(TERMINAL *terminal)
{
    return (struct terminal *)terminal;
}

/* OK, or ERR for a refusal. */
static int answer(uint32_t fault)
{
    return fault == HUTTAVEL_OK ? OK : ERR;
}

static void settle(const WINDOW *window);

/* The handle is asked for something about a window, which may have to be copied again then, and read. */
static inline void note_call(const WINDOW *window)
{
    ((WINDOW *)window)->is_fresh = false;
    window->screen->copied = NULL;
    window->screen->seen.window = NULL;
}

/* Whether the handle was not given something yet: characters that were added to any window, or this one's cursor or
   pen. */
static inline bool has_rest(const WINDOW *window)
{
    return window->is_moved || window->front.has_other_pen || window->screen->added.length > 0;
}

/* The handle that a window is of, which is given the rest. NULL, which each call refuses, without a window. */
static huttavel *handle_of(const WINDOW *window)
{
    if (!window)
        return NULL;
    if (has_rest(window))
        settle(window);
    note_call(window);
    return &window->screen->handle;
}

/* The number of a window; one that each call refuses, without a window. */
static uint32_t number_of(const WINDOW *window)
{
    return window ? window->number : NO_NUMBER;
}

/* Whether a window is curscr. */
static bool is_shown(const WINDOW *window)
{
    return window && window == window->screen->shown;
}

/* Now, in milliseconds. */
static long long now(void)
{
    struct timespec time;

    clock_gettime(CLOCK_MONOTONIC, &time);
    return (long long)time.tv_sec * 1000 + time.tv_nsec / 1000000;
}
