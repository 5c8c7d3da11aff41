/* The least that a program of curses.h does: it opens a screen, writes a text, shows it and ends. */
#include <curses.h>

int main(void)
{
    initscr();
    addstr("hello");
    refresh();
    endwin();
    return 0;
}
