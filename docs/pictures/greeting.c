#include <curses.h>
#include <locale.h>

int main(void)
{
        setlocale(LC_ALL, "");
        initscr();
        addstr("hello");
        refresh();
        getch();
        endwin();
        return 0;
}
