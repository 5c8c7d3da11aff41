/* A program that wants the calls of termcap.h alone, and has functions of its own by the names of other calls, as
 * `less` has. It is linked with the archive that is installed. */
#include <stdio.h>
#include <termcap.h>

static int cleared;

void clear(void);
void winch(int signal);
int wmove(int by);
int add_wch(int by);

void clear(void)
{
    cleared++;
}

void winch(int signal)
{
    cleared += signal;
}

int wmove(int by)
{
    return cleared += by;
}

int add_wch(int by)
{
    return cleared += by;
}

int main(void)
{
    int was_opened = tgetent(NULL, "xterm");

    if (was_opened != 1 || !tgetflag("am") || !tgetstr("cm", NULL) || cleared != 0) {
        puts("not the calls of termcap.h");
        return 1;
    }
    clear();
    winch(2);
    if (wmove(3) != 6 || add_wch(4) != 10) {
        puts("not the program's own functions");
        return 1;
    }
    puts("own names: both are called");
    return 0;
}
