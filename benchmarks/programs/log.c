/* A log on the full screen: lines come in at the bottom, one or several at a time, with some words in bold or in
   reverse, and some in colours where the terminal has them. */
#include "programs.h"

#define MOST 64

struct line {
    char stamp[12], level[8], source[16], text[LONGEST];
};

static struct line lines[MOST];
static int count, seconds;

static const struct {
    const char *name;
    int color;
    chtype others;
} levels[] = {{"debug", 6, A_NORMAL}, {"info", 2, A_NORMAL}, {"warn", 3, A_BOLD}, {"error", 1, A_REVERSE}};

static const char *const sources[] = {"kernel", "sshd[812]", "cron[77]", "postfix[1431]", "dhclient", "systemd[1]"};

/* A line of the log; most are of level info. */
static struct line new_line(void)
{
    struct line line;
    int level = is_one_of(3) ? below(4) : 1;

    seconds += below(3);
    snprintf(line.stamp, sizeof line.stamp, "%02d:%02d:%02d", 9 + seconds / 3600 % 10, seconds / 60 % 60, seconds % 60);
    strcpy(line.level, levels[level].name);
    strcpy(line.source, sources[below(6)]);
    write_words(line.text, is_one_of(5) ? 90 : 12 + below(45));
    return line;
}

static void add_line(void)
{
    if (count == LINES - 1) {
        memmove(lines, lines + 1, (size_t)(count - 1) * sizeof *lines);
        count--;
    }
    lines[count++] = new_line();
}

static void draw_line(int row, const struct line *line)
{
    int column = 0, level = 0;
    const char *number = strstr(line->text, "number");

    while (strcmp(levels[level].name, line->level) != 0)
        level++;
    draw_text(row, column, A_NORMAL, line->stamp);
    column += (int)strlen(line->stamp) + 1;
    draw_text(row, column, in_color(levels[level].color, levels[level].others), line->level);
    column += 6;
    draw_text(row, column, A_BOLD, line->source);
    column += (int)strlen(line->source);
    draw_text(row, column, A_NORMAL, ": ");
    column += 2;
    draw_text(row, column, A_NORMAL, line->text);
    if (number && column + (int)(number - line->text) < COLS)
        draw_text(row, column + (int)(number - line->text), A_REVERSE, "number");
}

void begin_log(void)
{
    while (count < LINES / 2)
        add_line();
}

void step_log(void)
{
    int more = is_one_of(3) ? 1 + below(6) : 1, row;

    while (more-- > 0)
        add_line();
    erase();
    for (row = 0; row < count; row++)
        draw_line(row, lines + row);
    move(count < LINES ? count : LINES - 1, 0);
    wnoutrefresh(stdscr);
}
