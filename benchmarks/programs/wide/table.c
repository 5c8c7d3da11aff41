/* A table with columns in Latin, Greek and Cyrillic between lines: it scrolls by a line or a page, is sorted anew, and
   its numbers change. */
#include "wide.h"

#define ROWS_OF_TABLE 120

struct row {
    const wchar_t *latin, *greek, *russian;
    int number;
};

static struct row rows[ROWS_OF_TABLE];
static int top, selected;

void begin_table(void)
{
    int number;

    for (number = 0; number < ROWS_OF_TABLE; number++) {
        rows[number].latin = random_french();
        rows[number].greek = random_greek();
        rows[number].russian = random_russian();
        rows[number].number = below(10000);
    }
    top = selected = 0;
}

static int by_number(const void *one, const void *other)
{
    return ((const struct row *)one)->number - ((const struct row *)other)->number;
}

static int by_greek(const void *one, const void *other)
{
    return wcscmp(((const struct row *)one)->greek, ((const struct row *)other)->greek);
}

static void change(void)
{
    int room = LINES - 4, by = is_one_of(6) ? room : 1;

    if (is_one_of(40))
        qsort(rows, ROWS_OF_TABLE, sizeof *rows, is_one_of(2) ? by_number : by_greek);
    if (is_one_of(3))
        rows[top + below(room)].number += below(9) - 4;
    selected += is_one_of(4) ? -by : by;
    if (selected < 0 || selected >= ROWS_OF_TABLE)
        selected = below(ROWS_OF_TABLE);
    if (selected < top)
        top = selected;
    if (selected >= top + room)
        top = selected - room + 1;
    if (top > ROWS_OF_TABLE - room)
        top = ROWS_OF_TABLE - room;
}

void step_table(void)
{
    cchar_t line = single(L'─');
    wchar_t text[LONGEST];
    int row;

    change();
    erase();
    draw_wide(0, 0, A_BOLD, L" N°   │ Français     │ Ελληνικά     │ Русский      │ Nombre");
    mvhline_set(1, 0, &line, COLS);
    for (row = 0; row < LINES - 4; row++) {
        const struct row *shown = rows + top + row;

        swprintf(text, LONGEST, L" %4d │ %-12ls │ %-12ls │ %-12ls │ %6d", top + row + 1, shown->latin, shown->greek,
                 shown->russian, shown->number);
        if (top + row == selected)
            draw_wide_bar(row + 2, A_REVERSE, text);
        else
            draw_wide(row + 2, 0, A_NORMAL, text);
    }
    mvhline_set(LINES - 2, 0, &line, COLS);
    swprintf(text, LONGEST, L"Ligne %d / %d — sélection: %ls", selected + 1, ROWS_OF_TABLE, rows[selected].russian);
    draw_wide(LINES - 1, 0, A_NORMAL, text);
    move(selected - top + 2, 0);
    wnoutrefresh(stdscr);
}
