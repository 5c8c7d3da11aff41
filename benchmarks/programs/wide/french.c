/* An editor of a French text: words are typed and removed, lines are opened and joined, and the text scrolls. */
#include "wide.h"

#define MOST_LINES 200

static wchar_t lines[MOST_LINES][LONGEST];
static int count, top, row, column;

static void write_french(wchar_t *text, int length)
{
    text[0] = L'\0';
    for (;;) {
        const wchar_t *word = random_french();

        if ((int)(wcslen(text) + wcslen(word)) + 1 > length)
            return;
        if (text[0])
            wcscat(text, L" ");
        wcscat(text, word);
    }
}

void begin_french(void)
{
    int number;

    count = 120;
    for (number = 0; number < count; number++)
        write_french(lines[number], is_one_of(6) ? 0 : 20 + below(55));
    top = row = column = 0;
}

static void type(void)
{
    wchar_t *line = lines[row];
    const wchar_t *word = random_french();
    int length = (int)wcslen(line), more = (int)wcslen(word);

    if (length + more > 76)
        return;
    memmove(line + column + more, line + column, (size_t)(length - column + 1) * sizeof *line);
    memcpy(line + column, word, (size_t)more * sizeof *line);
    column += more;
}

static void remove_characters(void)
{
    wchar_t *line = lines[row];
    int length = (int)wcslen(line), some = 1 + below(4);

    if (some > length - column)
        some = length - column;
    memmove(line + column, line + column + some, (size_t)(length - column - some + 1) * sizeof *line);
}

static void open_line(void)
{
    if (count == MOST_LINES)
        return;
    memmove(lines[row + 1], lines[row], (size_t)(count - row) * sizeof lines[0]);
    wcscpy(lines[row + 1], lines[row] + column);
    lines[row][column] = L'\0';
    count++;
    row++;
    column = 0;
}

static void remove_line(void)
{
    if (count < 40)
        return;
    memmove(lines[row], lines[row + 1], (size_t)(count - row - 1) * sizeof lines[0]);
    count--;
}

static void go(int by)
{
    row += by;
    row = row < 0 ? 0 : row > count - 1 ? count - 1 : row;
}

static void change(void)
{
    switch (below(12)) {
    case 0:
        open_line();
        break;
    case 1:
        remove_line();
        break;
    case 2:
        go(LINES - 2);
        break;
    case 3:
        go(is_one_of(2) ? -(LINES - 2) : -1);
        break;
    case 4:
    case 5:
        go(1);
        break;
    case 6:
    case 7:
        remove_characters();
        break;
    default:
        type();
    }
    if (row > count - 1)
        row = count - 1;
    if (column > (int)wcslen(lines[row]) || is_one_of(4))
        column = below((int)wcslen(lines[row]) + 1);
    if (row < top)
        top = row;
    if (row > top + LINES - 2)
        top = row - (LINES - 2);
}

void step_french(void)
{
    wchar_t text[LONGEST];
    int shown;

    change();
    erase();
    for (shown = 0; shown < LINES - 1 && top + shown < count; shown++)
        draw_wide(shown, 0, A_NORMAL, lines[top + shown]);
    swprintf(text, LONGEST, L" «forêt.txt»  ligne %d, colonne %d — %d lignes", row + 1, column + 1, count);
    draw_wide_bar(LINES - 1, A_REVERSE, text);
    move(row - top, column);
    wnoutrefresh(stdscr);
}
