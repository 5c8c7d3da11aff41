/* Huttavel: curses screens for C programs.
 *
 * A handle holds one screen: windows, a virtual screen, the terminal that updates bring to it, and its keyboard's keys.
 * A program may have any number of handles. There is no global state, and no call reads, writes, waits or ends the
 * program: the program writes to the terminal and reads the keyboard itself.
 *
 *     huttavel screen = HUTTAVEL_CLOSED_HANDLE;
 *     uint8_t bytes[4096];
 *     size_t count;
 *
 *     if (huttavel_open_bundled(&screen, 24, 80) != HUTTAVEL_OK)
 *         return 1;
 *     huttavel_start(&screen);
 *     huttavel_add_text(&screen, 0, (const uint8_t *)"hello", 5, NULL);
 *     huttavel_noutrefresh(&screen, 0);
 *     huttavel_doupdate(&screen);
 *     while ((count = huttavel_bytes(&screen, bytes, sizeof bytes)) > 0 && fwrite(bytes, 1, count, stdout) == count)
 *         huttavel_took(&screen, count);
 *     huttavel_close(&screen);
 *
 * ANSWERS. Each call that gives a uint32_t gives HUTTAVEL_OK, which is 0, or another of `enum huttavel_fault`. A call
 * that is refused changes nothing, and writes nothing through the pointers that it was given, unless it says otherwise.
 * Where several refusals hold, the first of these is given: HUTTAVEL_CLOSED; HUTTAVEL_BAD_LENGTH; then those that the
 * call names, in that order. HUTTAVEL_NO_MEMORY is an ordinary refusal too: nothing is lost by it.
 *
 * WHAT A PROGRAM KEEPS TO. A handle that is all zero bytes is closed. A handle is changed by these calls alone. Of two
 * copies of an open handle only one is used from then on, and closed. One call at a time uses a handle, and all of its
 * calls come from one thread, none of them from a signal handler. A handle may be NULL, and so may each pointer for a
 * result. A pointer to bytes may be NULL if their number is 0. No two pointers of a call point into the same memory.
 * What is NULL otherwise, closed, or a number of no window is refused.
 *
 * PLACES. Rows and columns are counted from 0, from the window's first place unless the call says otherwise. Both
 * corners of a rectangle are inside it. A window is a number: 0 is the first one, over the whole screen.
 *
 * CHARACTERS. A cell holds a character, a set of attributes, and the number of a colour pair, 0 to 63. A character is
 * given by its code: 32 to 126, or a code of Unicode from 160 to 65,535 that is assigned and takes one column, and so
 * no control or combining character. A screen that was opened with HUTTAVEL_UTF8 shows it, on a terminal that shows each
 * of these in one column; any other screen shows a byte in its place, a letter without its accent, `-`, `|` and `+` for
 * lines, `?` and so on. Where a call has a byte or bytes in its name, they are ASCII.
 */
#ifndef HUTTAVEL_H
#define HUTTAVEL_H

#include <stdbool.h>
#include <stddef.h>
#include <stdint.h>

#include "huttavel_keys.h"

#ifdef __cplusplus
extern "C" {
#endif

/* The version, which is that of the programs too. */
#define HUTTAVEL_VERSION "0.1.0"

/* A handle of a screen. Its members belong to the library. */
typedef struct huttavel {
    void *at;
    bool is_open;
} huttavel;

/* A handle that holds no screen. */
#define HUTTAVEL_CLOSED_HANDLE {NULL, false}

/* What a window holds in one place: its character, and the byte that stands for it where there is ASCII alone. */
typedef struct huttavel_cell {
    uint8_t byte;
    uint8_t attrs;
    uint8_t pair;
    uint32_t character;
} huttavel_cell;

/* The characters that a terminal is sent. */
enum huttavel_charset {
    HUTTAVEL_ASCII = 0, /* a byte each */
    HUTTAVEL_UTF8 = 1   /* all, in UTF-8 */
};

/* How a screen is opened. All of it may be 0: with 0 rows and 0 columns the screen has the entry's own size. */
typedef struct huttavel_opening {
    uint32_t rows;
    uint32_t columns;
    uint32_t charset; /* one of enum huttavel_charset */
    /* Not 0 if the terminal may have more rows or columns than the screen. Nothing is inserted, deleted or scrolled then,
     * since that would bring in what is beyond the screen. */
    uint32_t is_larger;
} huttavel_opening;

/* Video attributes: a set is the sum of some of these. */
enum huttavel_attr {
    HUTTAVEL_STANDOUT = 1,
    HUTTAVEL_UNDERLINE = 2,
    HUTTAVEL_REVERSE = 4,
    HUTTAVEL_BLINK = 8,
    HUTTAVEL_DIM = 16,
    HUTTAVEL_BOLD = 32,
    HUTTAVEL_INVISIBLE = 64
};

/* The terminal's default colour, where a colour of a pair is meant. */
#define HUTTAVEL_DEFAULT_COLOUR UINT32_MAX

/* Why a call was refused. huttavel_fault_text gives the text of each. */
enum huttavel_fault {
    HUTTAVEL_OK = 0,
    /* Of the handle and of what was given with it. */
    HUTTAVEL_CLOSED = 1,     /* the handle is NULL or closed */
    HUTTAVEL_IS_OPEN = 2,    /* the handle holds a screen already */
    HUTTAVEL_BAD_LENGTH = 3, /* bytes are NULL and their number is not 0, or there cannot be so many bytes */
    HUTTAVEL_NO_MEMORY = 4,  /* memory ran out */
    HUTTAVEL_BAD_CHARSET = 5, /* a number that no charset has */
    /* Of windows. */
    HUTTAVEL_NO_WINDOW = 10,     /* there is no window of this number */
    HUTTAVEL_IS_PAD = 11,        /* the window is a pad */
    HUTTAVEL_NOT_PAD = 12,       /* the window is not a pad */
    HUTTAVEL_IS_SUB = 13,        /* the window is a subwindow */
    HUTTAVEL_HAS_CHILDREN = 14,  /* the window has subwindows */
    HUTTAVEL_NOT_ASCII = 15,     /* a byte that cannot be written */
    HUTTAVEL_OUT_OF_WINDOW = 16, /* a place outside the window */
    HUTTAVEL_OFF_SCREEN = 17,    /* a rectangle that is empty, or not wholly on the screen */
    HUTTAVEL_NOT_IN_PARENT = 18, /* a rectangle that is empty, or not wholly in the parent */
    HUTTAVEL_BAD_REGION = 19,    /* a scrolling region that ends before it begins, or is not inside the window */
    HUTTAVEL_NO_SCROLL = 20,     /* the window may not scroll */
    HUTTAVEL_TOO_BIG = 21,       /* a pad of more than 1,000,000 cells */
    HUTTAVEL_TOO_MANY = 22,      /* there are 1,000 windows, or 4,294,967,295 were made after the first */
    HUTTAVEL_BAD_PAIR = 23,      /* a number that no colour pair has */
    HUTTAVEL_BAD_COLOUR = 24,    /* a number that no colour has */
    HUTTAVEL_NO_PARENT = 25,     /* the window is not a subwindow */
    HUTTAVEL_NO_CURSOR = 26,     /* the terminal's cursor is not wanted anywhere in particular */
    HUTTAVEL_NOT_ONE_COLUMN = 27, /* a character that does not take one column */
    /* Of keys and of bytes that wait. */
    HUTTAVEL_QUEUE_FULL = 30,   /* too many keys are queued */
    HUTTAVEL_NO_KEY = 31,       /* no key is queued */
    HUTTAVEL_WRITE_FAILED = 32, /* memory ran out for the bytes of an update, a start or a finish */
    HUTTAVEL_NOT_WAITING = 33,  /* fewer bytes wait than were said to be accepted */
    /* Of a compiled entry that cannot be read. */
    HUTTAVEL_TOO_LARGE = 40,       /* there are more than 32,768 bytes */
    HUTTAVEL_TRUNCATED = 41,       /* the bytes end before the file does */
    HUTTAVEL_BAD_MAGIC = 42,       /* the bytes are not a compiled entry */
    HUTTAVEL_BAD_COUNT = 43,       /* the header has a count that no file can have */
    HUTTAVEL_BAD_NAMES = 44,       /* the names have no end, or break the rule for names */
    HUTTAVEL_BAD_OFFSET = 45,      /* a string begins outside the string table */
    HUTTAVEL_UNENDED_STRING = 46,  /* a string has no end in the string table */
    /* Of an entry that no screen can be opened on. UNSUITABLE, MISSING, and the last three are about a capability. */
    HUTTAVEL_UNSUITABLE = 50,   /* the terminal prints, overstrikes, or cannot show cells independently */
    HUTTAVEL_AUTO_MARGIN = 51,  /* of no call here: `am` without `xenl` takes the last column from the screen */
    HUTTAVEL_MISSING = 52,      /* `cup` or `clear` is absent, or only padding */
    HUTTAVEL_NO_SIZE = 53,      /* no size is given, and `lines` or `cols` is absent */
    HUTTAVEL_BAD_SIZE = 54,     /* the rows or the columns are not 1 to 500 */
    HUTTAVEL_BAD_STRING = 55,   /* a text is not a parameter string, or needs a stack of more than 20 values */
    HUTTAVEL_LONG_STRING = 56,  /* a text may give more than 1,024 bytes */
    HUTTAVEL_KEY_TOO_LONG = 57, /* a key's text has more than 64 bytes */
    /* Of an entry and of parameter strings. */
    HUTTAVEL_ABSENT = 58,          /* the entry has no such capability, or there is none of this name */
    HUTTAVEL_STACK_FULL = 59,      /* the text pushes a 21st value */
    HUTTAVEL_CUT_DIRECTIVE = 60,   /* the text ends inside a directive */
    HUTTAVEL_BAD_DIRECTIVE = 61,   /* there is no such directive, or it cannot be there */
    HUTTAVEL_STRING_OPERATOR = 62, /* `%s` or `%l`: no parameter is a text */
    HUTTAVEL_TOO_DEEP = 63         /* a 33rd conditional is open at once */
};

/* A capability of an entry: its kind, and its position in the table of term(5). */
enum huttavel_kind { HUTTAVEL_FLAG = 0, HUTTAVEL_NUMBER = 1, HUTTAVEL_TEXT = 2 };

typedef struct huttavel_capability {
    uint32_t kind;
    uint32_t position;
} huttavel_capability;

/* What was pressed: a byte that belongs to no key, or a key of the entry, by all names of terminfo(5): one of `enum
 * huttavel_key_code`. */
enum huttavel_key_kind { HUTTAVEL_KEY_BYTE = 0, HUTTAVEL_KEY_NAMED = 1 };

typedef struct huttavel_key {
    uint32_t kind;
    uint32_t code;
} huttavel_key;

/* The text of an error, without an end of line. It is valid for as long as the program runs. For a number that is not
 * in `enum huttavel_fault` it is "unknown fault". */
const char *huttavel_fault_text(uint32_t fault);

/* ---- Opening and closing */

/* Opens a screen on the terminal of a compiled entry, term(5), with 16-bit or 32-bit numbers. With 0 rows and 0 columns
 * it has the entry's own size, `lines` and `cols`. Nothing is sent. It has one blank window over the whole screen, and
 * nothing is known of what the terminal shows.
 * Colours come before the attributes that the entry excludes beside them (`ncv`). Where a character in the last column
 * would scroll (`am` without `xenl`), the screen has one column less than is given here; none is left of one column,
 * which is HUTTAVEL_NO_SIZE.
 * Refused: HUTTAVEL_CLOSED only if the handle is NULL; HUTTAVEL_BAD_LENGTH; HUTTAVEL_IS_OPEN; HUTTAVEL_BAD_SIZE if
 * only one of both is 0, or one is above 500; the errors of a compiled entry; those of an entry, and `which`, if it is
 * not NULL, gets the capability that they are about; HUTTAVEL_NO_MEMORY. X/Open Curses Issue 7, newterm(). */
uint32_t huttavel_open(huttavel *handle, const uint8_t *entry, size_t length, uint32_t rows, uint32_t columns,
                       huttavel_capability *which);

/* The same on the bundled entry, a terminal of ECMA-48 with eight colours, whose own size is 24 rows of 80 columns. */
uint32_t huttavel_open_bundled(huttavel *handle, uint32_t rows, uint32_t columns);

/* Opens a screen with these options; as huttavel_open with 0 rows and 0 columns, if `opening` is NULL. Refused, after
 * HUTTAVEL_IS_OPEN: HUTTAVEL_BAD_CHARSET; the rest as huttavel_open. */
uint32_t huttavel_open_as(huttavel *handle, const uint8_t *entry, size_t length, const huttavel_opening *opening,
                          huttavel_capability *which);

/* The same on the bundled entry. */
uint32_t huttavel_open_bundled_as(huttavel *handle, const huttavel_opening *opening);

/* Closes a screen and frees its memory. Bytes that wait are lost. X/Open Curses Issue 7, delscreen(). */
uint32_t huttavel_close(huttavel *handle);

/* Whether a handle holds a screen. */
bool huttavel_is_open(const huttavel *handle);

/* ---- Bytes for the terminal
 *
 * Starts, updates and finishes make bytes, and these wait inside, in order, until the program has written them. A
 * program asks for them with huttavel_bytes, writes as many as the descriptor accepts, and says how many with
 * huttavel_took. If the descriptor would block, it goes on later: nothing is lost, and there may be updates before. */

/* The opening text of the entry, `smcup` and `smkx`. After it nothing is known of the terminal, so the next update
 * repaints everything. Refused: HUTTAVEL_WRITE_FAILED as by huttavel_doupdate. X/Open Curses Issue 7, initscr(). */
uint32_t huttavel_start(huttavel *handle);

/* What turns all attributes off and moves the cursor to the last line, then the closing text of the entry, `rmkx` and
 * `rmcup`. The screen stays open, and may be started again. Refused: HUTTAVEL_WRITE_FAILED as by huttavel_doupdate.
 * X/Open Curses Issue 7, endwin(). */
uint32_t huttavel_finish(huttavel *handle);

/* What brings the terminal from what is known of it to the virtual screen. Nothing if nothing differs.
 * HUTTAVEL_NO_MEMORY: memory ran out before anything was made, and nothing changed. HUTTAVEL_WRITE_FAILED: memory ran
 * out for the bytes; those that were made wait, the rest of the text that was cut comes first in the next call that
 * makes bytes, and the next update repaints everything. curs_refresh(3X), doupdate(). */
uint32_t huttavel_doupdate(huttavel *handle);

/* How many bytes wait; 0 of a closed handle. */
size_t huttavel_waiting(huttavel *handle);

/* Copies bytes that wait, from the first on, at most `room` of them, and gives how many it copied. They go on waiting.
 * 0 of a closed handle, or if `bytes` is NULL. */
size_t huttavel_bytes(huttavel *handle, uint8_t *bytes, size_t room);

/* The terminal accepted this many of the bytes that wait; the rest goes on waiting. Refused: HUTTAVEL_NOT_WAITING. */
uint32_t huttavel_took(huttavel *handle, size_t count);

/* A write failed, or others wrote to the terminal: nothing is known of what it shows, so the next update repaints
 * everything. Bytes that wait go on waiting, since the terminal may have accepted the beginning of a text. */
uint32_t huttavel_failed(huttavel *handle);

/* ---- Keys */

/* Reads bytes of the keyboard. The keys that they decide are queued; bytes that could still become a key wait for more.
 * `taken` gets how many bytes were read, also if the answer is HUTTAVEL_QUEUE_FULL: take keys then, and give the rest.
 * X/Open Curses Issue 7, getch(), keypad(). */
uint32_t huttavel_key_bytes(huttavel *handle, const uint8_t *bytes, size_t length, size_t *taken);

/* No byte came for a while: the bytes that wait for more become the keys that they are, as a lone escape.
 * Refused: HUTTAVEL_QUEUE_FULL. X/Open Curses Issue 7, notimeout(). */
uint32_t huttavel_key_idle(huttavel *handle);

/* Takes the first key of the queue. The bytes of a character beyond ASCII come one after the other, each as a key.
 * Refused: HUTTAVEL_NO_KEY, which is not the end of the input. */
uint32_t huttavel_next_key(huttavel *handle, huttavel_key *key);

/* The calls on windows, and those on entries. */
#include "huttavel_windows.h"
#include "huttavel_entries.h"

#ifdef __cplusplus
}
#endif

#endif
