/* Panels: windows in an order, over curses.h. The panels that are shown are the stack: a higher one covers a lower one
 * where they overlap, and stdscr lies below all of them.
 *
 * Each screen has its own stack. A panel belongs for good to the screen that was in use when it was made (initscr(),
 * newterm(), set_term()), which has to be that of its window. A call without a panel is about the screen in use now.
 *
 * A call gives ERR or NULL, and changes nothing, where a panel or a window is NULL that it needs. Delete a panel before
 * its screen; its window may be deleted first if del_panel() is the next call about the panel.
 */
#ifndef HUTTAVEL_PANEL_H
#define HUTTAVEL_PANEL_H

#include <curses.h>

#ifdef __cplusplus
extern "C" {
#endif

typedef struct panel PANEL;

/* A new panel is at the top of the stack. NULL also if memory runs out, or no screen is in use. del_panel() leaves the
 * window as it is. */
PANEL *new_panel(WINDOW *window);
int del_panel(PANEL *panel);

/* Each puts a panel, hidden or shown, into the stack: at the top, at the top, and at the bottom. */
int show_panel(PANEL *panel);
int top_panel(PANEL *panel);
int bottom_panel(PANEL *panel);

/* Takes a panel out of the stack. panel_hidden() is TRUE of a panel that is not in the stack. */
int hide_panel(PANEL *panel);
int panel_hidden(const PANEL *panel);

/* These keep the place in the stack. A panel's window is moved by move_panel(), not by mvwin(); ERR also if mvwin()
 * refuses the place. */
int move_panel(PANEL *panel, int row, int column);
int replace_panel(PANEL *panel, WINDOW *window);

/* Copies stdscr and all shown panels of the screen in use to the virtual screen, for doupdate(). The cursor goes to the
 * panel at the top. With panels, it takes the place of wnoutrefresh() and wrefresh(). */
void update_panels(void);

/* The next panel up and down in the stack; NULL at its end, and of a hidden panel. Of NULL, the lowest and the highest
 * panel of the screen in use. */
PANEL *panel_above(const PANEL *panel);
PANEL *panel_below(const PANEL *panel);

/* The lowest and the highest panel of a screen; of the one in use, if it is NULL. */
PANEL *ground_panel(SCREEN *screen);
PANEL *ceiling_panel(SCREEN *screen);

WINDOW *panel_window(const PANEL *panel);

/* A pointer that the program may keep with a panel; NULL at first. */
int set_panel_userptr(PANEL *panel, const void *user);
const void *panel_userptr(const PANEL *panel);

#ifdef __cplusplus
}
#endif

#endif
