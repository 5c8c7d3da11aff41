/* Shows the size of the terminal and the name of each key, in a box; ends at q. For `signals`. */
#include <curses.h>

int main(void)
{
    int key = 0, count = 0;

    initscr();
    cbreak();
    noecho();
    keypad(stdscr, TRUE);
    while (key != 'q') {
        erase();
        box(stdscr, 0, 0);
        mvprintw(1, 2, "%d rows, %d columns", LINES, COLS);
        mvprintw(2, 2, "key %d: %s", count, key ? keyname(key) : "none");
        key = getch();
        count++;
    }
    endwin();
    printf("ended\n");
    return 0;
}
