/* The texts of errors: the library's own, and those that only a C program can make. */
#include "huttavel.h"

/* What is said of one number. */
typedef struct saying {
    uint32_t fault;
    const char *text;
} saying;

static const saying sayings[] = {
    {HUTTAVEL_OK, "no fault"},
    {HUTTAVEL_CLOSED, "the handle is closed"},
    {HUTTAVEL_IS_OPEN, "the handle is open already"},
    {HUTTAVEL_BAD_LENGTH, "bad length"},
    {HUTTAVEL_NO_MEMORY, "out of memory"},
    {HUTTAVEL_BAD_CHARSET, "no such charset"},
    {HUTTAVEL_NO_WINDOW, "no such window"},
    {HUTTAVEL_IS_PAD, "the window is a pad"},
    {HUTTAVEL_NOT_PAD, "the window is not a pad"},
    {HUTTAVEL_IS_SUB, "the window is a subwindow"},
    {HUTTAVEL_HAS_CHILDREN, "the window has subwindows"},
    {HUTTAVEL_NOT_ASCII, "not an ASCII character"},
    {HUTTAVEL_OUT_OF_WINDOW, "outside the window"},
    {HUTTAVEL_OFF_SCREEN, "outside the screen"},
    {HUTTAVEL_NOT_IN_PARENT, "outside the parent"},
    {HUTTAVEL_BAD_REGION, "bad scrolling region"},
    {HUTTAVEL_NO_SCROLL, "the window does not scroll"},
    {HUTTAVEL_TOO_BIG, "the pad is too big"},
    {HUTTAVEL_TOO_MANY, "too many windows"},
    {HUTTAVEL_BAD_PAIR, "bad colour pair"},
    {HUTTAVEL_BAD_COLOUR, "bad colour"},
    {HUTTAVEL_NO_PARENT, "the window is not a subwindow"},
    {HUTTAVEL_NO_CURSOR, "the cursor is wanted nowhere"},
    {HUTTAVEL_NOT_ONE_COLUMN, "not a character of one column"},
    {HUTTAVEL_QUEUE_FULL, "too many keys wait"},
    {HUTTAVEL_NO_KEY, "no key waits"},
    {HUTTAVEL_WRITE_FAILED, "write failed"},
    {HUTTAVEL_NOT_WAITING, "fewer bytes wait"},
    {HUTTAVEL_TOO_LARGE, "too large"},
    {HUTTAVEL_TRUNCATED, "truncated"},
    {HUTTAVEL_BAD_MAGIC, "bad magic"},
    {HUTTAVEL_BAD_COUNT, "bad count"},
    {HUTTAVEL_BAD_NAMES, "bad names"},
    {HUTTAVEL_BAD_OFFSET, "bad offset"},
    {HUTTAVEL_UNENDED_STRING, "unended string"},
    {HUTTAVEL_UNSUITABLE, "unsuitable capability"},
    {HUTTAVEL_AUTO_MARGIN, "am without xenl"},
    {HUTTAVEL_MISSING, "missing capability"},
    {HUTTAVEL_NO_SIZE, "no size"},
    {HUTTAVEL_BAD_SIZE, "bad size"},
    {HUTTAVEL_BAD_STRING, "bad string"},
    {HUTTAVEL_LONG_STRING, "long string"},
    {HUTTAVEL_KEY_TOO_LONG, "a key's text is too long"},
    {HUTTAVEL_ABSENT, "no such capability"},
    {HUTTAVEL_CUT_DIRECTIVE, "truncated directive"},
    {HUTTAVEL_BAD_DIRECTIVE, "bad directive"},
    {HUTTAVEL_STRING_OPERATOR, "string operator"},
    {HUTTAVEL_TOO_DEEP, "conditionals nested too deep"},
    {HUTTAVEL_STACK_FULL, "stack full"},
};

const char *huttavel_fault_text(uint32_t fault)
{
    for (size_t i = 0; i < sizeof sayings / sizeof sayings[0]; i++)
        if (sayings[i].fault == fault)
            return sayings[i].text;
    return "unknown fault";
}
