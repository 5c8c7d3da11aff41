/* Boxes as `dialog` shows them: each key opens one. The calls are all those that Debian's `dialog` imports of curses,
   less the six of wide characters: setcchar, wadd_wch, wget_wch, win_wch, wunctrl and wvline_set. With a word after
   its name the screen is opened by newterm(). For `try`. */
#include <curses.h>
#include <stdlib.h>
#include <string.h>
#include <term.h>

enum {BACK = 1, BOX, TITLE, CHOSEN, SHADOW};
#define LENGTH 40

static const char *const items[] = {"first", "second", "third", "fourth", "fifth", "sixth", "seventh", "eighth"};
#define ITEMS 8

static chtype coloured(int pair, chtype without)
{
    return has_colors() ? (chtype)COLOR_PAIR(pair) : without;
}

static void open_colours(void)
{
    short front = 0, back = 0;

    if (!has_colors())
        return;
    start_color();
    use_default_colors();
    init_pair(BACK, COLOR_CYAN, COLOR_BLUE);
    init_pair(BOX, COLOR_BLACK, COLOR_WHITE);
    pair_content(BOX, &front, &back);
    init_pair(TITLE, COLOR_BLUE, back);
    init_pair(CHOSEN, back, COLOR_BLUE);
    init_pair(SHADOW, COLOR_BLACK, front);
}

/* The edge of a box: two sides are lighter than the other two. */
static void draw_edge(WINDOW *window)
{
    int rows = getmaxy(window), width = getmaxx(window);

    wattrset(window, coloured(BOX, A_NORMAL) | A_BOLD);
    wmove(window, 0, 0);
    waddch(window, ACS_ULCORNER);
    whline(window, ACS_HLINE, width - 2);
    wmove(window, 1, 0);
    wvline(window, ACS_VLINE, rows - 2);
    wmove(window, rows - 1, 0);
    waddch(window, ACS_LLCORNER);
    wattrset(window, coloured(BOX, A_NORMAL));
    whline(window, ACS_HLINE, width - 2);
    wmove(window, 1, width - 1);
    wvline(window, ACS_VLINE, rows - 2);
    wmove(window, 0, width - 1);
    waddch(window, ACS_URCORNER);
    wmove(window, rows - 1, width - 1);
    waddch(window, ACS_LRCORNER);
}

/* The shadow of a box, on what is below it: characters stay, and their colours change. */
static void draw_shadow(WINDOW *window)
{
    int bottom = getbegy(window) + getmaxy(window), right = getbegx(window) + getmaxx(window), row;

    wmove(stdscr, bottom, getbegx(window) + 2);
    wchgat(stdscr, getmaxx(window), A_NORMAL, SHADOW, NULL);
    for (row = getbegy(window) + 1; row < bottom; row++) {
        chtype below;

        wmove(stdscr, row, right);
        below = winch(stdscr) & A_CHARTEXT;
        waddch(stdscr, below | coloured(SHADOW, A_NORMAL));
    }
}

static WINDOW *open_box(int rows, int width, const char *title)
{
    WINDOW *window = newwin(rows, width, (LINES - rows) / 2, (COLS - width) / 2);

    if (!window)
        return NULL;
    keypad(window, TRUE);
    draw_shadow(window);
    wnoutrefresh(stdscr);
    wbkgdset(window, ' ' | coloured(BOX, A_NORMAL));
    werase(window);
    draw_edge(window);
    wattr_on(window, coloured(TITLE, A_BOLD), NULL);
    mvwprintw(window, 0, (width - (int)strlen(title)) / 2 - 1, " %s ", title);
    wattr_off(window, coloured(TITLE, A_BOLD), NULL);
    wattrset(window, coloured(BOX, A_NORMAL));
    return window;
}

static void draw_back(void)
{
    wbkgdset(stdscr, ' ' | coloured(BACK, A_NORMAL));
    werase(stdscr);
    wattrset(stdscr, coloured(BACK, A_NORMAL));
    wmove(stdscr, 0, 1);
    wprintw(stdscr, "%d rows, %d columns: m y i l t g w k q", LINES, COLS);
    wmove(stdscr, 1, 1);
    whline(stdscr, ACS_HLINE, COLS - 2);
}

static void close_box(WINDOW *window)
{
    delwin(window);
    draw_back();
    wtouchln(stdscr, 0, LINES, 1);
    wrefresh(stdscr);
}

static void draw_button(WINDOW *window, int row, int column, const char *text, int is_chosen)
{
    wattrset(window, is_chosen ? coloured(CHOSEN, A_REVERSE) | A_BOLD : coloured(BOX, A_NORMAL));
    wmove(window, row, column);
    waddnstr(window, "<", 1);
    waddnstr(window, text, LENGTH);
    waddnstr(window, ">", 1);
    wattrset(window, coloured(BOX, A_NORMAL));
}

/* A text and two buttons; one for a message. */
static void ask(WINDOW *window, int choices)
{
    int chosen = 0, key;

    wmove(window, 2, 3);
    wprintw(window, "%s", choices == 1 ? "A message that waits for a key." : "Shall it be done?");
    do {
        draw_button(window, 5, 8, choices == 1 ? " OK " : " Yes ", chosen == 0);
        if (choices > 1)
            draw_button(window, 5, 24, " No ", chosen == 1);
        wmove(window, 5, chosen == 0 ? 9 : 25);
        wrefresh(window);
        key = wgetch(window);
        if (key == '\t' || key == KEY_LEFT || key == KEY_RIGHT)
            chosen = choices - 1 - chosen;
        else if (key != '\n' && key != ' ' && key != 'q')
            beep();
    } while (choices > 1 && key != '\n' && key != 'q');
}

/* A line that is typed, in a window of its own in the box. */
static void input(WINDOW *box)
{
    WINDOW *line = derwin(box, 1, 30, 3, 4);
    char text[LENGTH] = "";
    int length = 0, key;

    if (!line)
        return;
    keypad(line, TRUE);
    do {
        wmove(line, 0, 0);
        wattrset(line, coloured(CHOSEN, A_REVERSE));
        waddnstr(line, text, length);
        wclrtoeol(line);
        wmove(line, 0, length);
        wsyncup(line);
        wcursyncup(line);
        wrefresh(line);
        key = wgetch(line);
        if (key == KEY_BACKSPACE || key == erasechar())
            length -= length > 0;
        else if (key == killchar())
            length = 0;
        else if (key >= ' ' && key < 127 && length < 29)
            text[length++] = (char)key;
        else if (key != '\n')
            flash();
    } while (key != '\n');
    delwin(line);
}

/* A list, of which three rows are shown. The wheel of the mouse moves through it, too. */
static void list(WINDOW *box)
{
    WINDOW *rows = subwin(box, 3, 20, getbegy(box) + 2, getbegx(box) + 4);
    int first = 0, chosen = 0, key, n;
    MEVENT event;

    if (!rows)
        return;
    mousemask(BUTTON1_CLICKED | BUTTON4_PRESSED, NULL);
    do {
        first = chosen < first ? chosen : chosen > first + 2 ? chosen - 2 : first;
        for (n = first; n < first + 3; n++) {
            wattrset(rows, n == chosen ? coloured(CHOSEN, A_REVERSE) : coloured(BOX, A_NORMAL));
            wmove(rows, n - first, 0);
            wprintw(rows, "%d %-16s", n, items[n]);
        }
        wmove(box, 2 + chosen - first, 4);
        wsyncup(rows);
        wrefresh(box);
        key = wgetch(box);
        if (key == KEY_MOUSE && getmouse(&event) == OK)
            key = event.bstate & BUTTON4_PRESSED ? KEY_UP : KEY_DOWN;
        chosen += key == KEY_DOWN && chosen < ITEMS - 1 ? 1 : key == KEY_UP && chosen > 0 ? -1 : 0;
    } while (key != '\n');
    mousemask(0, NULL);
    delwin(rows);
}

/* A text that scrolls up and down. */
static void view(WINDOW *box)
{
    WINDOW *text = derwin(box, getmaxy(box) - 2, getmaxx(box) - 2, 1, 1);
    int first = 0, rows = getmaxy(box) - 2, key = KEY_HOME, n;

    if (!text)
        return;
    scrollok(text, TRUE);
    while (key != '\n') {
        int by = key == KEY_DOWN ? 1 : key == KEY_UP && first > 0 ? -1 : 0;

        wscrl(text, by);
        first += by;
        scrollok(text, FALSE);
        for (n = 0; n < rows; n++) {
            if (key != KEY_HOME && n != (by > 0 ? rows - 1 : 0))
                continue;
            wmove(text, n, 1);
            wprintw(text, "line %d of the text, %s", first + n, items[(first + n) % ITEMS]);
            wclrtoeol(text);
        }
        scrollok(text, TRUE);
        wmove(text, 0, 0);
        wrefresh(text);
        key = wgetch(box);
    }
    wclrtobot(text);
    wrefresh(text);
    delwin(text);
}

/* A bar that grows with time, or at a key. */
static void gauge(WINDOW *box)
{
    int part, key = ERR;

    wtimeout(box, 500);
    curs_set(0);
    for (part = 0; part <= 100 && key != 'q'; part += 20) {
        wmove(box, 3, 3);
        wattrset(box, coloured(CHOSEN, A_REVERSE));
        wprintw(box, "%*s", 34 * part / 100, "");
        wattrset(box, coloured(BOX, A_NORMAL));
        wmove(box, 5, 17);
        wprintw(box, "%3d%%", part);
        wrefresh(box);
        key = wgetch(box);
    }
    napms(200);
    nodelay(box, TRUE);
    key = wgetch(box);
    if (key != ERR)
        ungetch(key);
    nodelay(box, FALSE);
    curs_set(1);
}

/* Arrows move the box, `+` and `-` change its width, and `c` copies the first line of the screen into it. */
static void travel(WINDOW *box)
{
    int key;

    do {
        draw_edge(box);
        wmove(box, 1, 1);
        wnoutrefresh(box);
        doupdate();
        key = wgetch(box);
        draw_back();
        wtouchln(stdscr, 0, LINES, 1);
        if (key == KEY_UP || key == KEY_DOWN)
            mvwin(box, getbegy(box) + (key == KEY_UP ? -1 : 1), getbegx(box));
        if (key == KEY_LEFT || key == KEY_RIGHT)
            mvwin(box, getbegy(box), getbegx(box) + (key == KEY_LEFT ? -3 : 3));
        if (key == '+' || key == '-') {
            wresize(box, getmaxy(box), getmaxx(box) + (key == '+' ? 2 : -2));
            werase(box);
        }
        if (key == 'c')
            copywin(stdscr, box, 0, 1, 2, 2, 2, 20, FALSE);
        draw_shadow(box);
        wnoutrefresh(stdscr);
        wtouchln(box, 0, getmaxy(box), 1);
    } while (key != '\n');
}

/* The names of keys. */
static void names(WINDOW *box)
{
    int key;

    do {
        wmove(box, 3, 3);
        wrefresh(box);
        key = wgetch(box);
        wprintw(box, "%-14s %-8s", keyname(key), key < 128 ? unctrl((chtype)key) : "-");
    } while (key != '\n');
}

static void open_one(int key)
{
    WINDOW *box = open_box(key == 't' ? 12 : 8, 42, "A box");

    if (!box)
        return;
    if (key == 'm' || key == 'y')
        ask(box, key == 'm' ? 1 : 2);
    else if (key == 'i')
        input(box);
    else if (key == 'l')
        list(box);
    else if (key == 't')
        view(box);
    else if (key == 'g')
        gauge(box);
    else if (key == 'w')
        travel(box);
    else
        names(box);
    close_box(box);
}

int main(int count, char **words)
{
    int key;

    if (count > 1 ? !newterm(NULL, stdout, stdin) : !initscr())
        return 1;
    cbreak();
    noecho();
    keypad(stdscr, TRUE);
    open_colours();
    (void)words;
    draw_back();
    do {
        wmove(stdscr, LINES - 1, 0);
        wrefresh(stdscr);
        key = wgetch(stdscr);
        flushinp();
        if (key == KEY_RESIZE)
            draw_back();
        else if (key < 128 && strchr("myiltgwk", key))
            open_one(key);
    } while (key != 'q');
    wmove(stdscr, LINES - 1, 0);
    wrefresh(stdscr);
    endwin();
    reset_shell_mode();
    if (exit_attribute_mode)
        tputs(exit_attribute_mode, 1, putchar);
    return 0;
}
