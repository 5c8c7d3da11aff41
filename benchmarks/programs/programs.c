/* Runs one of the programs, and says after each update how long the output is by then: programs NAME OUTPUT [colors],
   with the terminal's name in TERM and its size in LINES and COLUMNS. The output is a file. What comes before the first
   line is not counted: it takes the terminal, and clears it. */
#define _POSIX_C_SOURCE 200809L
#include "programs.h"

#include <stdarg.h>
#include <unistd.h>

static bool has_pairs;

int below(int limit)
{
    static unsigned state = 1;

    state = state * 1103515245u + 12345u;
    return limit > 0 ? (int)((state >> 16 & 0x7fff) % (unsigned)limit) : 0;
}

bool is_one_of(int cases)
{
    return below(cases) == 0;
}

const char *random_word(void)
{
    static const char *const all[] = {
        "the",    "of",      "and",    "to",       "a",     "in",      "is",    "that",   "it",     "for",
        "was",    "on",      "are",    "as",       "with",  "at",      "be",    "this",   "from",   "have",
        "or",     "by",      "one",    "had",      "not",   "but",     "what",  "all",    "were",   "when",
        "there",  "can",     "an",     "your",     "which", "their",   "said",  "if",     "will",   "way",
        "about",  "many",    "then",   "them",     "write", "would",   "like",  "so",     "these",  "her",
        "long",   "make",    "thing",  "see",      "him",   "two",     "has",   "look",   "more",   "day",
        "window", "column",  "screen", "terminal", "cursor", "reader", "order", "paper",  "letter", "number",
        "machine", "between", "always", "morning", "travel", "another", "behind", "second", "answer", "describe",
    };

    return all[below(is_one_of(3) ? 80 : 50)];
}

void write_words(char *text, int length)
{
    int end = 0;

    text[0] = '\0';
    for (;;) {
        const char *word = random_word();
        int next = end + (int)strlen(word) + (end > 0);

        if (next > length)
            return;
        sprintf(text + end, "%s%s", end > 0 ? " " : "", word);
        end = next;
    }
}

void draw_text(int row, int column, chtype attrs, const char *text)
{
    attrset((int)attrs);
    mvaddnstr(row, column, text, COLS - column);
    attrset((int)A_NORMAL);
}

void draw_bar(int row, chtype attrs, const char *format, ...)
{
    char text[LONGEST], whole[LONGEST];
    va_list values;

    va_start(values, format);
    vsnprintf(text, sizeof text, format, values);
    va_end(values);
    snprintf(whole, sizeof whole, "%-*.*s", COLS, COLS, text);
    draw_text(row, 0, attrs, whole);
}

chtype in_color(int color, chtype others)
{
    return has_pairs ? (chtype)COLOR_PAIR(color) : others;
}

/* Colours on black; pair 0 is the terminal's own colours on both sides. */
static void begin_colors(void)
{
    short color;

    has_pairs = true;
    start_color();
#ifdef NCURSES_VERSION
    use_default_colors();
#endif
    for (color = 1; color < 8; color++)
        init_pair(color, color, COLOR_BLACK);
}

int main(int argc, char **argv)
{
    const struct program *program = programs;
    int step;
    FILE *output, *input = fopen("/dev/null", "r");

    while (argc >= 3 && program->name && strcmp(argv[1], program->name) != 0)
        program++;
    if (argc < 3 || !program->name)
        return 2;
    begin_locale();
    output = fopen(argv[2], "w");
    if (!output || !input || !newterm(NULL, output, input))
        return 1;
    typeahead(-1);
    idlok(stdscr, TRUE);
    if (argc == 4 && has_colors())
        begin_colors();
    refresh();
    printf("%ld\n", (long)lseek(fileno(output), 0, SEEK_END));
    program->begin();
    for (step = 0; step < program->steps; step++) {
        program->step();
        doupdate();
        printf("%ld\n", (long)lseek(fileno(output), 0, SEEK_END));
    }
    endwin();
    return 0;
}
