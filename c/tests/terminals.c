/* The calls of term.h and termcap.h, on the entries `xterm` and `linux` of the machine and on small ones that are made
 * here. The results are worked out by hand from infocmp(1), terminfo(5) and X/Open Curses Issue 7. */
#define _XOPEN_SOURCE 700
#define _DEFAULT_SOURCE

#include <fcntl.h>
#include <stdint.h>
#include <stdlib.h>
#include <string.h>
#include <sys/ioctl.h>
#include <sys/stat.h>
#include <sys/wait.h>
#include <termios.h>
#include <time.h>
#include <unistd.h>

#include <termcap.h>
#include <term.h>

#define CHECK(holds) check((holds), #holds, __LINE__)

static int failed = 0;

static void check(bool holds, const char *what, int at)
{
    if (!holds) {
        fprintf(stderr, "terminals.c:%d: %s\n", at, what);
        failed = 1;
    }
}

/* Whether two texts are the same; NULL is none. */
static bool same(const char *text, const char *wanted)
{
    return text && !strcmp(text, wanted);
}

/* What was sent through `keep`. */
static char sent[4096];
static size_t sent_count;

static int keep(int byte)
{
    if (sent_count < sizeof sent - 1)
        sent[sent_count++] = (char)byte;
    return byte;
}

/* What was sent since the last call. */
static const char *all_sent(void)
{
    sent[sent_count] = '\0';
    sent_count = 0;
    return sent;
}

/* The file that is standard output, and what was written to it since the last call. */
static FILE *written;

static const char *all_written(void)
{
    static char text[4096];
    static off_t place = 0;
    ssize_t count;

    fflush(stdout);
    count = pread(fileno(written), text, sizeof text - 1, place);
    text[count > 0 ? count : 0] = '\0';
    place += count > 0 ? count : 0;
    return text;
}

/* A folder for entries that are made here. */
static char folder[] = "/tmp/huttavel-terminals-XXXXXX";

/* Where the entry of a name is in it. */
static const char *path_of(const char *name, bool is_whole)
{
    static char path[128];

    snprintf(path, sizeof path, is_whole ? "%s/%c/%s" : "%s/%c", folder, name[0], name);
    return path;
}

static void put_short(FILE *file, int number)
{
    putc(number & 255, file);
    putc(number >> 8 & 255, file);
}

/* Makes an entry, term(5): one flag, without numbers, and one string at each of three positions, in their order. */
static void make_entry(const char *name, int flag, const int positions[3], const char *const strings[3])
{
    int n, place = 0, string = 0, table = 0;
    FILE *file;

    mkdir(path_of(name, false), 0700);
    file = fopen(path_of(name, true), "wb");
    CHECK(file != NULL);
    if (!file)
        exit(1);
    for (n = 0; n < 3; n++)
        table += (int)strlen(strings[n]) + 1;
    put_short(file, 0x011a);
    put_short(file, (int)strlen(name) + 1);
    put_short(file, flag + 1);
    put_short(file, 0);
    put_short(file, positions[2] + 1);
    put_short(file, table);
    fwrite(name, 1, strlen(name) + 1, file);
    for (n = 0; n <= flag; n++)
        putc(n == flag, file);
    if ((strlen(name) + 1 + (size_t)flag + 1) % 2)
        putc(0, file);
    for (n = 0; n <= positions[2]; n++) {
        put_short(file, n == positions[string] ? place : -1);
        if (n == positions[string])
            place += (int)strlen(strings[string++]) + 1;
    }
    for (n = 0; n < 3; n++)
        fwrite(strings[n], 1, strlen(strings[n]) + 1, file);
    fclose(file);
}

static const char *const made[] = {"general", "paper", "bare"};

static void make_entries(void)
{
    /* bold, sgr0, sitm; and cub1, pad, rs2. */
    static const int positions[3] = {27, 39, 311}, padded[3] = {14, 104, 123};
    static const char *const strings[3] = {"<b>", "<0>", "<i>"};

    if (!mkdtemp(folder)) {
        perror("terminals.c: no folder");
        exit(1);
    }
    setenv("TERMINFO", folder, 1);
    make_entry(made[0], 6, positions, strings);
    make_entry(made[1], 7, padded, strings);
    make_entry(made[2], 1, positions, strings);
}

static void remove_entries(void)
{
    size_t n;

    for (n = 0; n < sizeof made / sizeof *made; n++) {
        remove(path_of(made[n], true));
        remove(path_of(made[n], false));
    }
    remove(folder);
}

/* Opens a terminal that is there. */
static void open_on(const char *type)
{
    int status = 5;

    CHECK(setupterm(type, 1, &status) == OK && status == 1 && cur_term);
    if (!cur_term)
        exit(1);
}

static void refusals(void)
{
    int status = 5, ended = 0;

    CHECK(setupterm("no-such-terminal", 1, &status) == ERR && status == 0);
    status = 5;
    CHECK(setupterm("../x/xterm", 1, &status) == ERR && status == 0);
    CHECK(setupterm("general", 1, &status) == ERR && status == 0);
    CHECK(setupterm("paper", 1, &status) == ERR && status == 1);
    unsetenv("TERM");
    CHECK(setupterm(NULL, 1, &status) == ERR && status == -1);
    CHECK(restartterm("no-such-terminal", 1, &status) == ERR && status == 0);
    CHECK(!cur_term && !*ttytype && !termname() && !longname());
    if (fork() == 0) {
        fclose(stderr);
        setupterm("no-such-terminal", 1, NULL);
        _exit(0);
    }
    wait(&ended);
    CHECK(WIFEXITED(ended) && WEXITSTATUS(ended) != 0);
}

/* Without a terminal in use, nothing has a value. */
static void no_terminal(void)
{
    CHECK(!cur_term && tigetflag("am") == 0 && tigetnum("cols") == -1 && !tigetstr("cup"));
    CHECK(tigetflag("cols") == -1 && tigetnum("am") == -2 && tigetstr("am") == (char *)-1);
    CHECK(!tparm("a") && !tiparm("a") && !tgoto("a", 1, 2));
    CHECK(vidputs(A_BOLD, keep) == ERR && !*all_sent());
    CHECK(tgetflag("am") == 0 && tgetnum("co") == -1 && !tgetstr("cm", NULL));
    CHECK(tputs("a$<1/>b", 1, keep) == OK && same(all_sent(), "ab"));
    CHECK(baudrate() == ERR);
}

static void capabilities(void)
{
    TERMINAL *first;

    open_on("xterm");
    first = cur_term;
    CHECK(auto_right_margin && eat_newline_glitch && !xon_xoff && !hard_copy);
    CHECK(columns == 80 && lines == 24 && max_colors == 8 && max_pairs == 64 && init_tabs == 8);
    CHECK(label_width == -1 && width_status_line == -1);
    CHECK(same(cursor_address, "\033[%i%p1%d;%p2%dH") && same(bell, "\007"));
    CHECK(same(flash_screen, "\033[?5h$<100/>\033[?5l"));
    CHECK(same(key_f63, "\033[1;4R") && same(memory_lock, "\033l") && !dis_status_line && !box_chars_1);
    CHECK(tigetflag("am") == 1 && tigetflag("xon") == 0 && tigetflag("cup") == -1 && tigetflag("nonsense") == -1);
    CHECK(tigetflag(NULL) == -1);
    CHECK(tigetnum("cols") == 80 && tigetnum("lw") == -1 && tigetnum("am") == -2);
    CHECK(same(tigetstr("kDC"), "\033[3;2~") && same(tigetstr("sitm"), "\033[3m") && tigetstr("meml") == memory_lock);
    CHECK(tigetflag("OTbs") == 1 && tigetflag("OTxr") == 0 && tigetnum("OTug") == -1 && tigetnum("OTbs") == -2);
    CHECK(!tigetstr("OTbc"));
    CHECK(tigetstr("cup") == cursor_address && !tigetstr("dsl") && tigetstr("cols") == (char *)-1);
    CHECK(same(termname(), "xterm") && !strncmp(ttytype, "xterm|", 6) && *longname() && !strchr(longname(), '|'));
    open_on("xterm");
    CHECK(cur_term == first);
}

/* The size is the environment's, unless use_env() says otherwise. */
static void sizes(void)
{
    setenv("LINES", "30", 1);
    setenv("COLUMNS", "90", 1);
    open_on("xterm");
    CHECK(lines == 30 && columns == 90 && tigetnum("lines") == 30);
    CHECK(del_curterm(cur_term) == OK);
    use_env(FALSE);
    open_on("xterm");
    CHECK(lines == 24 && columns == 80);
    CHECK(del_curterm(cur_term) == OK);
    use_env(TRUE);
    unsetenv("LINES");
    unsetenv("COLUMNS");
}

static void two_terminals(void)
{
    TERMINAL *xterm, *console;
    int status = 5;

    open_on("xterm");
    xterm = cur_term;
    setenv("TERM", "linux", 1);
    open_on(NULL);
    console = cur_term;
    CHECK(console != xterm && xon_xoff && columns == -1 && same(termname(), "linux"));
    CHECK(set_curterm(xterm) == console && cur_term == xterm && !xon_xoff && same(termname(), "xterm"));
    CHECK(restartterm("xterm", 1, &status) == OK && status == 1 && cur_term == xterm);
    CHECK(del_curterm(console) == OK && cur_term == xterm);
    CHECK(del_curterm(console) == ERR && del_curterm(NULL) == ERR);
    CHECK(del_curterm(xterm) == OK && !cur_term && !*ttytype);
}

/* What echoes on a line. */
static bool is_echoing(int line)
{
    struct termios modes;

    CHECK(tcgetattr(line, &modes) == 0);
    return (modes.c_lflag & ECHO) != 0;
}

/* The modes, the size and the speed of a pseudoterminal, without a screen. */
static void modes(void)
{
    int keyboard = posix_openpt(O_RDWR | O_NOCTTY), status = 5, output = dup(1), line;
    struct winsize size = {20, 60, 0, 0};
    struct termios silent;

    CHECK(keyboard >= 0 && grantpt(keyboard) == 0 && unlockpt(keyboard) == 0);
    line = open(ptsname(keyboard), O_RDWR | O_NOCTTY);
    CHECK(line >= 0 && ioctl(keyboard, TIOCSWINSZ, &size) == 0 && tcgetattr(line, &silent) == 0);
    silent.c_lflag &= ~(tcflag_t)ECHO;
    cfsetospeed(&silent, B9600);
    CHECK(setupterm("xterm", line, &status) == OK && lines == 20 && columns == 60);
    CHECK(erasechar() == '\177' && killchar() == '\025' && resetty() == ERR && savetty() == OK);
    CHECK(tcsetattr(line, TCSANOW, &silent) == 0 && def_prog_mode() == OK);
    CHECK(reset_shell_mode() == OK && is_echoing(line) && reset_prog_mode() == OK && !is_echoing(line));
    CHECK(resetty() == OK && is_echoing(line) && reset_prog_mode() == OK && is_echoing(line));
    CHECK(tcsetattr(line, TCSANOW, &silent) == 0 && def_shell_mode() == OK && baudrate() == 9600);
    CHECK(del_curterm(cur_term) == OK);
    /* The same speed, of standard output. */
    CHECK(dup2(line, 1) == 1 && tgetent(NULL, "xterm") == 1 && ospeed == 13 && baudrate() == 9600);
    CHECK(tgetnum("li") == 20 && del_curterm(cur_term) == OK && dup2(output, 1) == 1);
    close(line);
    close(output);
    close(keyboard);
}

static void parameters(void)
{
    char long_text[3001], *again;

    open_on("xterm");
    CHECK(same(tparm(cursor_address, 4L, 9L), "\033[5;10H"));
    CHECK(same(tiparm(cursor_address, 4, 9), "\033[5;10H"));
    CHECK(same(tparm("%p1%d%p9%d", 1L, 2L, 3L, 4L, 5L, 6L, 7L, 8L, -9L), "1-9"));
    CHECK(same(tiparm("%?%p1%t%p1%{2}%*%d%eno%;", 21), "42") && same(tiparm("%?%p1%tyes%eno%;", 0), "no"));
    CHECK(same(tparm("%'%'%c%%p1$<5>"), "%%p1$<5>"));
    /* Static variables last, as many calls as there are; the others do not. */
    CHECK(same(tiparm("%p1%PA%p1%Pa", 65), "") && same(tiparm("%gA%c%ga%d"), "A0"));
    CHECK(same(tiparm("%gA%{1}%+%PA"), "") && same(tiparm("%gA%c"), "B"));
    /* The longest numbers that there are room for. */
    CHECK(tiparm("%p1%99d%p1%:+.99d", 7) && strlen(tiparm("%p1%99d%p1%:+.99d", 7)) == 199);
    memset(long_text, 'a', 3000);
    long_text[3000] = '\0';
    CHECK(same(tparm(long_text), long_text));
    /* A text that is a result. */
    again = tiparm("%%p1%%d%p1%c", 'x');
    CHECK(same(again, "%p1%dx") && same(tiparm(again, 7), "7x"));
    CHECK(!tparm("%p1%s", 0L) && !tparm("%p1%l%d", 0L) && !tparm("%") && !tparm("%z") && !tparm(NULL) && !tiparm(NULL));
    CHECK(same(tiparm(""), ""));
    CHECK(del_curterm(cur_term) == OK);
}

/* Milliseconds that a string takes. */
static int time_of(const char *text, int affected)
{
    struct timespec begin, end;

    clock_gettime(CLOCK_MONOTONIC, &begin);
    CHECK(tputs(text, affected, keep) == OK);
    clock_gettime(CLOCK_MONOTONIC, &end);
    return (int)((end.tv_sec - begin.tv_sec) * 1000 + (end.tv_nsec - begin.tv_nsec) / 1000000);
}

static void padding(void)
{
    /* An xterm has no flow control: each padding counts. */
    open_on("xterm");
    CHECK(time_of("a$<60>b", 1) >= 60 && same(all_sent(), "ab"));
    CHECK(time_of("$<20.5*>a", 3) >= 61 && time_of("$<20/*>", 3) >= 60 && time_of("$<20*/>", 3) >= 60);
    CHECK(same(all_sent(), "a"));
    CHECK(tputs("$<5$<x>$<5.>$<5**>$<1>", 1, keep) == OK && same(all_sent(), "$<5$<x>$<5.>$<5**>"));
    CHECK(tputs(NULL, 1, keep) == ERR && tputs("a", 1, NULL) == ERR && putp(NULL) == ERR);
    CHECK(putp("p\351$<1>q") == OK && same(all_written(), "p\351q"));
    CHECK(del_curterm(cur_term) == OK);
    /* A Linux console stops the line by itself: only what is mandatory does. */
    open_on("linux");
    CHECK(time_of("a$<2000>b", 1) < 1000 && time_of("$<60/>c", 1) >= 60 && same(all_sent(), "abc"));
    CHECK(del_curterm(cur_term) == OK);
}

static void attributes(void)
{
    open_on("xterm");
    CHECK(vidputs(A_BOLD, keep) == OK && same(all_sent(), "\033(B\033[0;1m"));
    CHECK(vidputs(A_UNDERLINE | A_REVERSE, keep) == OK && same(all_sent(), "\033(B\033[0;4;7m"));
    CHECK(vidputs(A_ALTCHARSET, keep) == OK && same(all_sent(), "\033(0\033[0m"));
    CHECK(vid_puts(WA_ITALIC, 0, NULL, keep) == OK && same(all_sent(), "\033(B\033[0m\033[3m"));
    CHECK(vid_puts(WA_BOLD, -1, NULL, keep) == ERR && vid_puts(WA_BOLD, 64, NULL, keep) == ERR);
    CHECK(vidputs(A_BOLD, NULL) == ERR && !*all_sent());
    /* Without a screen no pair has colours. */
    CHECK(vid_puts(WA_DIM, 1, NULL, keep) == OK && same(all_sent(), "\033(B\033[0;2m"));
    CHECK(vidattr(A_BLINK) == OK && same(all_written(), "\033(B\033[0;5m"));
    CHECK(vid_attr(WA_INVIS, 0, NULL) == OK && same(all_written(), "\033(B\033[0;8m"));
    CHECK(del_curterm(cur_term) == OK);
    /* Without `sgr`. */
    open_on("bare");
    CHECK(vidputs(A_BOLD | A_REVERSE | A_ITALIC, keep) == OK && same(all_sent(), "<0><b><i>"));
    CHECK(vidputs(A_NORMAL, keep) == OK && same(all_sent(), "<0>"));
    CHECK(del_curterm(cur_term) == OK);
}

/* A screen on a file, whose entry is cur_term. */
static SCREEN *screen_on(const char *type, FILE *output, FILE *input)
{
    SCREEN *screen = newterm(type, output, input);

    CHECK(screen && cur_term && same(termname(), type));
    if (!screen)
        exit(1);
    return screen;
}

static void colours(FILE *output, FILE *input)
{
    SCREEN *screen = screen_on("xterm", output, input);

    CHECK(start_color() == OK && use_default_colors() == OK);
    CHECK(init_pair(1, COLOR_RED, COLOR_BLUE) == OK && init_pair(2, COLOR_GREEN, -1) == OK);
    CHECK(vid_puts(WA_BOLD, 1, NULL, keep) == OK && same(all_sent(), "\033(B\033[0;1m\033[31m\033[44m"));
    CHECK(vidputs(A_NORMAL, keep) == OK && same(all_sent(), "\033[39;49m\033(B\033[0m"));
    CHECK(vidputs(COLOR_PAIR(2) | A_UNDERLINE, keep) == OK && same(all_sent(), "\033(B\033[0;4m\033[32m"));
    CHECK(vidputs(COLOR_PAIR(1), keep) == OK && same(all_sent(), "\033(B\033[0m\033[31m\033[44m"));
    CHECK(vidputs(COLOR_PAIR(2), keep) == OK && same(all_sent(), "\033[39;49m\033(B\033[0m\033[32m"));
    /* `ncv` of a Linux console: no underlines and no dim characters with colours. */
    open_on("linux");
    CHECK(vid_puts(WA_UNDERLINE | WA_BOLD, 1, NULL, keep) == OK);
    CHECK(same(all_sent(), "\033[0;10;1m\017\033[31m\033[44m"));
    CHECK(vid_puts(WA_UNDERLINE, 0, NULL, keep) == OK && same(all_sent(), "\033[39;49m\033[0;10;4m\017"));
    CHECK(del_curterm(cur_term) == OK);
    endwin();
    delscreen(screen);
    CHECK(!cur_term && !termname());
}

static void screens(FILE *output, FILE *input)
{
    SCREEN *screen = screen_on("linux", output, input);
    TERMINAL *terminal = cur_term, *other;

    /* The size that a screen has where nothing says one, and a new one. */
    CHECK(lines == 24 && columns == 80);
    CHECK(resizeterm(20, 60) == OK && lines == 20 && columns == 60 && tigetnum("cols") == 60);
    open_on("xterm");
    other = cur_term;
    CHECK(other != terminal && set_term(screen) == screen && cur_term == terminal && del_curterm(other) == OK);
    /* A screen goes on without its terminal. */
    CHECK(del_curterm(terminal) == OK && !cur_term && del_curterm(terminal) == ERR);
    CHECK(addstr("still") == OK && refresh() == OK && resizeterm(24, 80) == OK && beep() == OK);
    endwin();
    delscreen(screen);
    open_on("xterm");
    CHECK(del_curterm(cur_term) == OK);
    setenv("TERM", "xterm", 1);
    CHECK(initscr() && same(termname(), "xterm") && same(tigetstr("cuu1"), "\033[A"));
    endwin();
    delscreen(set_term(NULL));
    CHECK(!cur_term);
    all_written();
}

static void termcap(void)
{
    char buffer[2048] = "none", memory[64], *area = memory, *string;

    CHECK(tgetent(buffer, "linux") == 1 && !*buffer && same(termname(), "linux"));
    CHECK(tgetflag("am") == 1 && tgetflag("xo") == 1 && tgetflag("hc") == 0);
    CHECK(tgetflag("bs") == 1 && tgetflag("co") == 0 && tgetflag("b") == 0 && tgetflag(NULL) == 0);
    CHECK(tgetnum("Co") == 8 && tgetnum("co") == -1 && tgetnum("am") == -1 && tgetnum(NULL) == -1);
    string = tgetstr("cm", &area);
    CHECK(string == memory && same(string, "\033[%i%p1%d;%p2%dH") && area == memory + strlen(string) + 1);
    CHECK(tgetstr("cm and more", NULL) == cursor_address && !tgetstr("ds", &area) && !tgetstr("?", NULL));
    CHECK(area == memory + strlen(string) + 1);
    CHECK(same(tgoto(string, 9, 4), "\033[5;10H") && same(tgoto(tgetstr("DO", NULL), 0, 3), "\033[3B"));
    CHECK(!tgoto("%p1%s", 1, 2) && !tgoto(NULL, 1, 2));
    CHECK(same(UP, "\033[A") && !BC && PC == 0 && ospeed == 0);
    /* Another entry, also one of a terminal that curses does not use. */
    CHECK(tgetent(NULL, "xterm") == 1 && same(termname(), "xterm") && tgetnum("co") == 80 && tgetflag("xo") == 0);
    CHECK(tgetent(NULL, "xterm") == 1 && tgetnum("li") == 24);
    CHECK(same(tgetstr("r1", NULL), "\033c") && !tgetstr("rs", NULL));
    CHECK(tgetent(NULL, "paper") == 1 && tgetflag("hc") == 1 && PC == '<' && !UP);
    CHECK(same(BC, "<b>") && BC == tgetstr("bc", NULL) && tgetflag("bs") == 0);
    CHECK(!tgetstr("r1", NULL) && same(tgetstr("rs", NULL), "<i>"));
    CHECK(tgetent(buffer, "no-such-terminal") == 0 && tgetent(buffer, "") == 0 && tgetent(buffer, NULL) == 0);
    CHECK(same(termname(), "paper"));
    CHECK(del_curterm(cur_term) == OK);
}

int main(void)
{
    FILE *output = tmpfile(), *input = fopen("/dev/null", "r");

    written = tmpfile();
    if (!output || !input || !written || dup2(fileno(written), 1) < 0) {
        perror("terminals.c: no files");
        return 1;
    }
    unsetenv("LINES");
    unsetenv("COLUMNS");
    make_entries();
    refusals();
    no_terminal();
    capabilities();
    CHECK(del_curterm(cur_term) == OK);
    no_terminal();
    sizes();
    two_terminals();
    modes();
    parameters();
    padding();
    attributes();
    colours(output, input);
    screens(output, input);
    termcap();
    remove_entries();
    fclose(output);
    fclose(input);
    fclose(written);
    fprintf(stderr, failed ? "terminals: not as wanted\n" : "terminals: as wanted\n");
    return failed;
}
