/* An editor: pages of text that scroll by a line and by half a page, words that are typed letter by letter, lines that
   are split and joined, and a status line in reverse that counts. */
#include "programs.h"

#define MOST 500

enum action { TYPE, RUB, SPLIT, JOIN, DOWN, UP, RIGHT, HALF_DOWN, HALF_UP, ACTIONS };

static char lines[MOST][LONGEST];
static int count, top, line, column, keys;
static enum action action;
static int times;
static const char *typed;

/* Moves the lines from one on by one, and leaves a line that is to be written. */
static void open_line(int from)
{
    memmove(lines[from + 1], lines[from], (size_t)(count - from) * LONGEST);
    count++;
}

static void close_line(int from)
{
    count--;
    memmove(lines[from], lines[from + 1], (size_t)(count - from) * LONGEST);
}

static void split(void)
{
    if (count == MOST)
        return;
    open_line(line + 1);
    memmove(lines[line + 1], lines[line] + column, strlen(lines[line] + column) + 1);
    lines[line][column] = '\0';
    line++;
    column = 0;
}

/* Joins a line with the one before it, if both have room in one. */
static void join(void)
{
    if (line == 0 || (int)(strlen(lines[line - 1]) + strlen(lines[line])) >= COLS)
        return;
    column = (int)strlen(lines[line - 1]);
    memmove(lines[line - 1] + column, lines[line], strlen(lines[line]) + 1);
    close_line(line);
    line--;
}

static void rub_out(void)
{
    char *text = lines[line];

    if (column == 0)
        return;
    memmove(text + column - 1, text + column, strlen(text + column) + 1);
    column--;
}

/* Types a letter; a line that is full is split first. */
static void type(char letter)
{
    char *text;

    if ((int)strlen(lines[line]) >= COLS - 1) {
        if (column > COLS * 3 / 4)
            split();
        else
            return;
    }
    text = lines[line];
    memmove(text + column + 1, text + column, strlen(text + column) + 1);
    text[column++] = letter;
}

/* Goes to another line, as near to the column as it is long. */
static void go(int to)
{
    line = to < 0 ? 0 : to >= count ? count - 1 : to;
    if (column > (int)strlen(lines[line]))
        column = (int)strlen(lines[line]);
}

/* Goes by lines with the page. */
static void go_by(int distance)
{
    top += distance;
    if (top > count - LINES)
        top = count - LINES;
    if (top < 0)
        top = 0;
    go(line + distance);
}

/* What the keys do next, and how often. */
static void choose(void)
{
    static const enum action likely[] = {TYPE, TYPE, TYPE, TYPE,  TYPE, RUB,  SPLIT,     JOIN,
                                         DOWN, DOWN, UP,   RIGHT, TYPE, DOWN, HALF_DOWN, HALF_UP};

    action = likely[below(16)];
    times = 1 + below(2);
    if (action == TYPE) {
        typed = random_word();
        times = (int)strlen(typed) + 1;
    } else if (action == DOWN || action == UP)
        times = 2 + below(14);
    else if (action == RIGHT || action == RUB)
        times = 1 + below(5);
}

static void act(void)
{
    switch (action) {
    case TYPE: type(times > 1 ? *typed++ : ' '); break;
    case RUB: rub_out(); break;
    case SPLIT: split(); break;
    case JOIN: column = 0, join(); break;
    case DOWN: go(line + 1); break;
    case UP: go(line - 1); break;
    case RIGHT: column = (column + 7) % ((int)strlen(lines[line]) + 1); break;
    case HALF_DOWN: go_by(LINES / 2); break;
    default: go_by(-(LINES / 2)); break;
    }
    times--;
    keys++;
}

void begin_editor(void)
{
    for (count = 0; count < 300; count++) {
        lines[count][0] = '\0';
        if (!is_one_of(6))
            write_words(lines[count], is_one_of(4) ? below(COLS - 10) : COLS - 10);
    }
    go(4);
}

void step_editor(void)
{
    int row;

    if (keys > 0) {
        if (times == 0)
            choose();
        act();
    } else
        keys = 1;
    if (line < top)
        top = line;
    if (line > top + LINES - 2)
        top = line - (LINES - 2);
    erase();
    for (row = 0; row < LINES - 1 && top + row < count; row++)
        draw_text(row, 0, A_NORMAL, lines[top + row]);
    draw_bar(LINES - 1, A_REVERSE, " notes.txt   line %d of %d   column %d   %d keys", line + 1, count, column + 1,
             keys);
    move(line - top, column);
    wnoutrefresh(stdscr);
}
