/* Panels, over public calls of curses.h alone. */
#include "panel.h"

#include <stdbool.h>
#include <stdlib.h>

struct panel {
    WINDOW *window;
    WINDOW *ground;    /* stdscr of its screen */
    PANEL *above;      /* the next one up, of any screen; NULL of a hidden panel */
    const void *user;
    int row, rows;     /* the rows of the screen that it covered at the last update; none after uncover() */
};

/* The shown panels of all screens, the lowest first. The stack of a screen is those on its stdscr, in this order. */
static PANEL *lowest;

/* The link to a panel; the NULL at the end, if the panel is hidden or NULL. */
static PANEL **link_to(const PANEL *panel)
{
    PANEL **link = &lowest;

    while (*link && *link != panel)
        link = &(*link)->above;
    return link;
}

/* Touches the line of a window that lies in a row of the screen, if there is one. */
static void touch_row(WINDOW *window, int row)
{
    int line = row - getbegy(window);

    if (line >= 0 && line < getmaxy(window))
        touchline(window, line, 1);
}

/* Makes the next update show what lies below a panel: it copies stdscr in these rows, and so every panel over them. */
static void uncover(PANEL *panel)
{
    for (; panel->rows > 0; panel->rows--)
        touch_row(panel->ground, panel->row + panel->rows - 1);
}

static void take_out(PANEL *panel)
{
    PANEL **link = link_to(panel);

    if (!*link)
        return;
    uncover(panel);
    *link = panel->above;
    panel->above = NULL;
}

/* Puts a panel that is not in the stack there, and shows it whole. */
static int put_in(PANEL *panel, PANEL **link)
{
    panel->above = *link;
    *link = panel;
    return touchwin(panel->window);
}

int top_panel(PANEL *panel)
{
    if (!panel)
        return ERR;
    take_out(panel);
    return put_in(panel, link_to(NULL));
}

int show_panel(PANEL *panel)
{
    return top_panel(panel);
}

int bottom_panel(PANEL *panel)
{
    if (!panel)
        return ERR;
    take_out(panel);
    return put_in(panel, &lowest);
}

int hide_panel(PANEL *panel)
{
    if (!panel)
        return ERR;
    take_out(panel);
    return OK;
}

int panel_hidden(const PANEL *panel)
{
    if (!panel)
        return ERR;
    return *link_to(panel) ? FALSE : TRUE;
}

PANEL *new_panel(WINDOW *window)
{
    PANEL *panel = window && stdscr ? calloc(1, sizeof *panel) : NULL;

    if (!panel)
        return NULL;
    panel->window = window;
    panel->ground = stdscr;
    top_panel(panel);
    return panel;
}

int del_panel(PANEL *panel)
{
    if (hide_panel(panel) == ERR)
        return ERR;
    free(panel);
    return OK;
}

int move_panel(PANEL *panel, int row, int column)
{
    if (!panel || mvwin(panel->window, row, column) == ERR)
        return ERR;
    uncover(panel);
    return touchwin(panel->window);
}

int replace_panel(PANEL *panel, WINDOW *window)
{
    if (!panel || !window)
        return ERR;
    uncover(panel);
    panel->window = window;
    return touchwin(window);
}

PANEL *panel_above(const PANEL *panel)
{
    const WINDOW *ground = panel ? panel->ground : stdscr;
    PANEL *above = panel ? panel->above : lowest;

    while (above && above->ground != ground)
        above = above->above;
    return above;
}

PANEL *panel_below(const PANEL *panel)
{
    const WINDOW *ground = panel ? panel->ground : stdscr;
    PANEL *below = NULL, *each;

    if (panel && !*link_to(panel))
        return NULL;
    for (each = lowest; each != panel; each = each->above)
        if (each->ground == ground)
            below = each;
    return below;
}

/* What a call gives without a panel while another screen is in use. */
static PANEL *end_of(SCREEN *screen, PANEL *(*call)(const PANEL *))
{
    SCREEN *before;
    PANEL *end;

    if (!screen)
        return call(NULL);
    before = set_term(screen);
    end = call(NULL);
    set_term(before);
    return end;
}

PANEL *ground_panel(SCREEN *screen)
{
    return end_of(screen, panel_above);
}

PANEL *ceiling_panel(SCREEN *screen)
{
    return end_of(screen, panel_below);
}

/* Touches the lines of a window that lie over touched lines of a lower one: these are copied whole. */
static void touch_over(WINDOW *lower, WINDOW *upper)
{
    int line;

    if (getbegx(lower) >= getbegx(upper) + getmaxx(upper) || getbegx(upper) >= getbegx(lower) + getmaxx(lower))
        return;
    for (line = 0; line < getmaxy(lower); line++)
        if (is_linetouched(lower, line))
            touch_row(upper, getbegy(lower) + line);
}

/* Copies a window to the virtual screen, which covers the panels from `above` on up where its lines are touched. */
static void copy(WINDOW *window, PANEL *above)
{
    if (is_wintouched(window))
        for (; above; above = panel_above(above))
            touch_over(window, above->window);
    wnoutrefresh(window);
}

void update_panels(void)
{
    PANEL *panel = panel_above(NULL);

    copy(stdscr, panel);
    for (; panel; panel = panel_above(panel)) {
        copy(panel->window, panel_above(panel));
        panel->row = getbegy(panel->window);
        panel->rows = getmaxy(panel->window);
    }
}

WINDOW *panel_window(const PANEL *panel)
{
    return panel ? panel->window : NULL;
}

int set_panel_userptr(PANEL *panel, const void *user)
{
    if (!panel)
        return ERR;
    panel->user = user;
    return OK;
}

const void *panel_userptr(const PANEL *panel)
{
    return panel ? panel->user : NULL;
}
