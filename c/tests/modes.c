/* What curses.h does to the line of a terminal, and what it sends besides updates: on a pseudoterminal, with entries of
 * the machine. Each check is of what X/Open Curses Issue 7 says, or else of what docs/C.md does. */
#define _XOPEN_SOURCE 700
#define _DEFAULT_SOURCE

#include <curses.h>

#include <fcntl.h>
#include <poll.h>
#include <signal.h>
#include <stdlib.h>
#include <string.h>
#include <sys/ioctl.h>
#include <sys/wait.h>
#include <termios.h>
#include <time.h>
#include <unistd.h>

#define CHECK(holds) check((holds), #holds, __LINE__)

static int failed = 0;

static void check(bool holds, const char *what, int line)
{
    if (!holds) {
        fprintf(stderr, "modes.c:%d: %s\n", line, what);
        failed = 1;
    }
}

/* The two ends of a pseudoterminal, and what came out of it that was not asked for yet. */
static int keyboard, line;
static char sent[65536];
static size_t sent_count;

/* Reads what was sent, and forgets it before the next call. */
static const char *all_sent(void)
{
    struct pollfd asked = {keyboard, POLLIN, 0};
    ssize_t count;

    sent_count = 0;
    while (sent_count < sizeof sent - 1 && poll(&asked, 1, 30) > 0 &&
           (count = read(keyboard, sent + sent_count, sizeof sent - 1 - sent_count)) > 0)
        sent_count += (size_t)count;
    sent[sent_count] = '\0';
    return sent;
}

static void type(const char *keys)
{
    size_t length = strlen(keys);

    CHECK(write(keyboard, keys, length) == (ssize_t)length);
}

static struct termios modes(void)
{
    struct termios now;

    CHECK(tcgetattr(line, &now) == 0);
    return now;
}

static void set_size(int rows, int columns)
{
    struct winsize size = {(unsigned short)rows, (unsigned short)columns, 0, 0};

    CHECK(ioctl(keyboard, TIOCSWINSZ, &size) == 0);
}

/* Milliseconds that getch() takes, and the key. */
static int timed_key(int *key)
{
    struct timespec begin, end;

    clock_gettime(CLOCK_MONOTONIC, &begin);
    *key = getch();
    clock_gettime(CLOCK_MONOTONIC, &end);
    return (int)((end.tv_sec - begin.tv_sec) * 1000 + (end.tv_nsec - begin.tv_nsec) / 1000000);
}

/* Types a key after so many milliseconds, in another process. */
static void type_later(const char *key, int milliseconds)
{
    if (fork() == 0) {
        usleep((useconds_t)milliseconds * 1000);
        _exit(write(keyboard, key, strlen(key)) < 0);
    }
}

static void be_alarmed(int number)
{
    (void)number;
}

/* A signal that the program handles ends getch(), unless its handler was set so that calls go on. */
static void waiting_through_signals(void)
{
    struct sigaction action;
    int key;

    memset(&action, 0, sizeof action);
    action.sa_handler = be_alarmed;
    sigaction(SIGALRM, &action, NULL);
    ualarm(50000, 0);
    CHECK(getch() == ERR);
    action.sa_flags = SA_RESTART;
    sigaction(SIGALRM, &action, NULL);
    ualarm(50000, 0);
    type_later("r", 200);
    CHECK(timed_key(&key) >= 100 && key == 'r');
    signal(SIGALRM, SIG_DFL);
}

static void input_modes(void)
{
    int key;

    /* As after cbreak(): a key at a time, and a return is a line feed. */
    CHECK(!(modes().c_lflag & (ICANON | ECHO)) && !(modes().c_iflag & ICRNL));
    type("a\r");
    CHECK(getch() == 'a' && getch() == '\n');
    nonl();
    type("\r");
    CHECK(getch() == '\r');
    nl();
    /* A line at a time. */
    CHECK(nocbreak() == OK && modes().c_lflag & ICANON && modes().c_iflag & ICRNL);
    type("b\r");
    CHECK(getch() == 'b' && getch() == '\n');
    /* It is shown while it is typed, if echo() is on, and what is taken away of it never comes. */
    echo();
    move(5, 0);
    type("xy\177z\r");
    CHECK(getch() == 'x' && mvinch(5, 1) == 'z' && mvinch(5, 2) == ' ' && getch() == 'z' && getch() == '\n');
    CHECK(ungetch('u') == OK && move(6, 0) == OK && getch() == 'u' && mvinch(6, 0) == ' ');
    noecho();
    CHECK(modes().c_lflag & ICANON && noraw() == OK && modes().c_iflag & ICRNL);
    type("c\r");
    CHECK(getch() == 'c' && getch() == '\n');
    /* What is typed without waiting, and with. */
    CHECK(halfdelay(3) == OK && !(modes().c_lflag & ICANON));
    CHECK(timed_key(&key) >= 250 && key == ERR);
    nodelay(stdscr, TRUE);
    CHECK(timed_key(&key) < 100 && key == ERR);
    nodelay(stdscr, FALSE);
    CHECK(halfdelay(1) == OK && raw() == OK);
    type_later("d", 300);
    CHECK(timed_key(&key) >= 250 && key == 'd');
    CHECK(halfdelay(1) == OK && cbreak() == OK);
    type_later("e", 300);
    CHECK(timed_key(&key) >= 250 && key == 'e');
    wait(NULL);
    wait(NULL);
}

static void keypad_texts(const char *opened)
{
    /* Those of an xterm. */
    CHECK(strstr(opened, "\033[?1049h") && !strstr(opened, "\033[?1h"));
    keypad(stdscr, TRUE);
    CHECK(strstr(all_sent(), "\033[?1h\033="));
    keypad(stdscr, TRUE);
    CHECK(!*all_sent());
    keypad(stdscr, FALSE);
    CHECK(strstr(all_sent(), "\033[?1l\033>"));
    keypad(stdscr, TRUE);
    type("\033OA");
    CHECK(getch() == KEY_UP);
}

static void ends(const struct termios *shell)
{
    struct termios now;

    all_sent();
    CHECK(endwin() == OK && isendwin());
    CHECK(strstr(all_sent(), "\033[?1l\033>") && strstr(sent, "\033[?1049l"));
    now = modes();
    CHECK(now.c_lflag == shell->c_lflag && now.c_iflag == shell->c_iflag && now.c_oflag == shell->c_oflag);
    /* The terminal is the shell's until the next update: a motion is sent, and nothing else. */
    CHECK(mvcur(0, 0, 5, 6) == OK && isendwin() && !strcmp(all_sent(), "\033[6;7H"));
    CHECK(mvcur(0, 0, 24, 0) == ERR && mvcur(0, 0, 0, 80) == ERR && mvcur(0, 0, -1, 0) == ERR && !*all_sent());
    now = modes();
    CHECK(now.c_lflag == shell->c_lflag);
    CHECK(endwin() == ERR);
}

/* An update after endwin() follows a new size, and shows again what was shown. */
static void comes_back(void)
{
    mvaddstr(2, 3, "kept");
    set_size(20, 60);
    CHECK(refresh() == OK && !isendwin());
    CHECK(LINES == 20 && COLS == 60 && getmaxy(stdscr) == 20 && getmaxx(stdscr) == 60);
    CHECK(strstr(all_sent(), "\033[?1049h") && strstr(sent, "kept"));
    CHECK(!(modes().c_lflag & ICANON));
    CHECK(getch() == KEY_RESIZE);
    CHECK(mvinch(2, 3) == 'k');
}

static void one_screen(void)
{
    WINDOW *first = initscr();

    CHECK(first && initscr() == first && stdscr == first);
}

static void refusals(void)
{
    FILE *full = fopen("/dev/full", "w"), *input = fdopen(dup(line), "r");

    CHECK(full && input && !newterm("xterm", full, input));
    CHECK(!newterm("no-such-terminal", stdout, stdin));
    if (full)
        fclose(full);
    if (input)
        fclose(input);
}

/* An entry without a size, on a terminal that has none. */
static void no_size(void)
{
    SCREEN *before = set_term(NULL), *other;

    set_size(0, 0);
    other = newterm("linux", stdout, stdin);
    CHECK(other && LINES == 24 && COLS == 80);
    endwin();
    delscreen(other);
    set_term(before);
}

static void names(void)
{
    short foreground = -5, background = -5;

    CHECK(start_color() == OK && pair_content(0, &foreground, &background) == OK);
    CHECK(foreground == COLOR_WHITE && background == COLOR_BLACK);
    CHECK(!strcmp(keyname(-1), "-1") && !strcmp(keyname('a'), "a") && !strcmp(keyname(KEY_UP), "KEY_UP"));
}

int main(void)
{
    struct termios shell;
    char *name;

    unsetenv("LINES");
    unsetenv("COLUMNS");
    setenv("TERM", "xterm", 1);
    keyboard = posix_openpt(O_RDWR | O_NOCTTY);
    name = keyboard >= 0 && grantpt(keyboard) == 0 && unlockpt(keyboard) == 0 ? ptsname(keyboard) : NULL;
    line = name ? open(name, O_RDWR | O_NOCTTY) : -1;
    if (line < 0 || dup2(line, 0) < 0 || dup2(line, 1) < 0) {
        perror("modes.c: no pseudoterminal");
        return 1;
    }
    set_size(24, 80);
    shell = modes();
    one_screen();
    keypad_texts(all_sent());
    names();
    noecho();
    input_modes();
    waiting_through_signals();
    ends(&shell);
    comes_back();
    refusals();
    endwin();
    no_size();
    fprintf(stderr, failed ? "modes: not as wanted\n" : "modes: as wanted\n");
    delscreen(set_term(NULL));
    return failed;
}
