/* Windows with borders of several kinds: they come up over each other, move, and go, and lines divide what they show. */
#include "wide.h"

#define MOST 6

struct panel {
    int rows, columns, row, column, kind;
    bool is_open;
};

static struct panel panels[MOST];
static int steps;

void begin_borders(void)
{
    memset(panels, 0, sizeof panels);
    steps = 0;
}

static void place(struct panel *panel)
{
    panel->rows = 5 + below(8);
    panel->columns = 16 + below(30);
    panel->row = 1 + below(LINES - 1 - panel->rows);
    panel->column = below(COLS - panel->columns);
    panel->kind = below(3);
    panel->is_open = true;
}

static void move_panel(struct panel *panel)
{
    int row = panel->row + below(3) - 1, column = panel->column + below(5) - 2;

    if (row >= 1 && row + panel->rows <= LINES)
        panel->row = row;
    if (column >= 0 && column + panel->columns <= COLS)
        panel->column = column;
}

static void draw_border(WINDOW *window, int kind)
{
    static const wchar_t *const kinds[] = {L"││──┌┐└┘", L"║║══╔╗╚╝", L"││──╭╮╰╯"};
    cchar_t all[8];
    int each;

    for (each = 0; each < 8; each++)
        all[each] = single(kinds[kind][each]);
    if (kind == 0)
        box_set(window, &all[0], &all[2]);
    else
        wborder_set(window, &all[0], &all[1], &all[2], &all[3], &all[4], &all[5], &all[6], &all[7]);
}

static void draw_panel(int number, const struct panel *panel)
{
    WINDOW *window = newwin(panel->rows, panel->columns, panel->row, panel->column);
    cchar_t line = single(L'─'), left = single(L'├'), right = single(L'┤');
    wchar_t text[LONGEST];

    if (!window)
        exit(1);
    werase(window);
    draw_border(window, panel->kind);
    if (panel->kind != 1) {
        mvwadd_wch(window, 2, 0, &left);
        mvwhline_set(window, 2, 1, &line, panel->columns - 2);
        mvwadd_wch(window, 2, panel->columns - 1, &right);
    }
    swprintf(text, LONGEST, L"Fenêtre %d", number);
    mvwaddnwstr(window, 1, 2, text, panel->columns - 4);
    swprintf(text, LONGEST, L"%d × %d, étape %d", panel->rows, panel->columns, steps);
    mvwaddnwstr(window, 3, 2, text, panel->columns - 4);
    wnoutrefresh(window);
    delwin(window);
}

void step_borders(void)
{
    int number;

    steps++;
    number = below(MOST);
    if (!panels[number].is_open)
        place(&panels[number]);
    else if (is_one_of(5))
        panels[number].is_open = false;
    else
        move_panel(&panels[number]);
    erase();
    draw_wide_bar(0, A_REVERSE, L" Fenêtres │ Édition │ Aide");
    wnoutrefresh(stdscr);
    for (number = 0; number < MOST; number++)
        if (panels[number].is_open)
            draw_panel(number, &panels[number]);
}
