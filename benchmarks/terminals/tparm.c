/* Runs one parameter string again and again by ncurses' tparm: tparm cup|sgr|clear|status COUNT */
#include <curses.h>
#include <stdio.h>
#include <stdlib.h>
#include <string.h>
#include <term.h>

int main(int argc, char **argv)
{
    static char cup[] = "\033[%i%p1%d;%p2%dH";
    static char sgr[] = "\033[0%?%p1%p3%|%t;7%;%?%p2%t;4%;%?%p4%t;5%;%?%p5%t;2%;%?%p6%t;1%;%?%p7%t;8%;m";
    static char clear_text[] = "\033[H\033[2J";
    static char status[] = "\033[?1049h\033[22;0;0t\033[?1h\033=\033[?7h\033[4l\033>\033[?1000l\033[?25h\033(B\033[m";
    char *fixed = argc == 3 && strcmp(argv[1], "clear") == 0 ? clear_text : status;
    int error;
    size_t sum = 0;

    if (argc != 3)
        return 2;
    setupterm("ansi", 1, &error);
    for (long left = atol(argv[2]); left > 0; left--) {
        if (strcmp(argv[1], "cup") == 0)
            sum += strlen(tparm(cup, 23L, 79L, 0L, 0L, 0L, 0L, 0L, 0L, 0L));
        else if (strcmp(argv[1], "sgr") == 0)
            sum += strlen(tparm(sgr, 0L, 1L, 1L, 0L, 0L, 1L, 0L, 0L, 0L));
        else
            sum += strlen(tparm(fixed, 0L, 0L, 0L, 0L, 0L, 0L, 0L, 0L, 0L));
    }
    printf("%zu\n", sum);
    return 0;
}
