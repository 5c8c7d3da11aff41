/* An installer's dialogs: a window with a list of packages to choose from, one with a bar that says how far it is, and
   windows over them that ask and go away. */
#include "programs.h"

#define PACKAGES 40

enum stage { CHOOSE, ASK, INSTALL, WARN, DONE };

struct package {
    char name[24], about[40];
    bool is_wanted;
};

static struct package packages[PACKAGES];
static WINDOW *list, *progress, *over;
static enum stage stage;
static int top, chosen, times, button, done, installed, rounds;

void begin_installer(void)
{
    int number;

    for (number = 0; number < PACKAGES; number++) {
        snprintf(packages[number].name, sizeof packages[number].name, "%s-%s", random_word(), random_word());
        write_words(packages[number].about, 30);
        packages[number].is_wanted = is_one_of(4);
    }
    list = newwin(17, 66, 3, 7);
    progress = newwin(8, 56, 8, 12);
    over = newwin(7, 40, 9, 20);
    idlok(list, TRUE);
    idlok(progress, TRUE);
    idlok(over, TRUE);
}

/* A window's border and title. */
static void draw_frame(WINDOW *window, const char *title)
{
    werase(window);
    wborder(window, '|', '|', '-', '-', '+', '+', '+', '+');
    mvwprintw(window, 0, (getmaxx(window) - (int)strlen(title) - 2) / 2, " %s ", title);
}

static void draw_buttons(WINDOW *window, const char *first, const char *second)
{
    int row = getmaxy(window) - 2, columns = getmaxx(window);

    wattrset(window, button == 0 ? (int)A_REVERSE : (int)A_NORMAL);
    mvwprintw(window, row, columns / 4, "<%s>", first);
    wattrset(window, button == 1 ? (int)A_REVERSE : (int)A_NORMAL);
    mvwprintw(window, row, columns * 5 / 8, "<%s>", second);
    wattrset(window, (int)A_NORMAL);
}

static void draw_list(void)
{
    int row, rows = getmaxy(list) - 6;

    draw_frame(list, "Software selection");
    mvwaddstr(list, 1, 2, "Choose the packages that are to be installed.");
    for (row = 0; row < rows; row++) {
        const struct package *package = packages + top + row;

        if (top + row == chosen)
            wattrset(list, (int)A_REVERSE);
        mvwprintw(list, 3 + row, 4, "[%c] %-18.18s %-30.30s", package->is_wanted ? '*' : ' ', package->name,
                  package->about);
        wattrset(list, (int)A_NORMAL);
    }
    draw_buttons(list, "Continue", "Go back");
    wmove(list, 3 + chosen - top, 5);
    wnoutrefresh(list);
}

static void draw_progress(void)
{
    int columns = getmaxx(progress) - 6, filled = done * columns / 100;

    draw_frame(progress, "Installing");
    mvwprintw(progress, 2, 3, "Unpacking %s ...", packages[installed % PACKAGES].name);
    wattrset(progress, (int)(A_REVERSE | in_color(4, A_NORMAL)));
    mvwhline(progress, 4, 3, ' ', filled);
    wattrset(progress, (int)A_NORMAL);
    mvwhline(progress, 4, 3 + filled, '.', columns - filled);
    mvwprintw(progress, 5, 3, "%3d%%   %d files", done, installed * 37 + done);
    wnoutrefresh(progress);
}

static void draw_over(const char *title, const char *text)
{
    draw_frame(over, title);
    mvwaddstr(over, 2, 3, text);
    draw_buttons(over, "Yes", "No");
    wnoutrefresh(over);
}

/* The next key in the list: the highlight moves, and the list with it; a package is marked. */
static void step_list(void)
{
    int rows = getmaxy(list) - 6;

    if (is_one_of(3))
        packages[chosen].is_wanted = !packages[chosen].is_wanted;
    else if (chosen + 1 < PACKAGES && !is_one_of(5))
        chosen++;
    else if (chosen > 0)
        chosen--;
    if (chosen < top)
        top = chosen;
    if (chosen >= top + rows)
        top = chosen - rows + 1;
}

/* Goes on to a stage, for so many steps. */
static void enter(enum stage next, int steps)
{
    stage = next;
    times = steps;
    button = 0;
}

/* What comes behind a stage. */
static void go_on(void)
{
    switch (stage) {
    case CHOOSE: enter(ASK, 3); break;
    case ASK:
        if (++rounds % 2 == 1)
            enter(CHOOSE, 25);
        else
            done = 0, enter(INSTALL, 20);
        break;
    case INSTALL: enter(WARN, 3); break;
    case WARN:
        if (done < 100)
            enter(INSTALL, 20);
        else
            enter(DONE, 2);
        break;
    default: enter(CHOOSE, 25); break;
    }
}

static void act(void)
{
    if (stage == CHOOSE)
        step_list();
    else if (stage == INSTALL) {
        done += done < 100 ? 1 + below(4) : 0;
        done = done > 100 ? 100 : done;
        installed += is_one_of(2);
    } else
        button = 1 - button;
}

/* Draws the windows that are there, from the lowest up. */
static void draw_windows(void)
{
    erase();
    draw_bar(0, A_REVERSE, " System installation");
    draw_bar(LINES - 1, A_REVERSE, " <Tab> moves   <Space> selects   <Enter> goes on");
    wnoutrefresh(stdscr);
    if (stage == CHOOSE || stage == ASK) {
        touchwin(list);
        draw_list();
    } else {
        touchwin(progress);
        draw_progress();
    }
    touchwin(over);
    if (stage == ASK)
        draw_over("Question", "Install what was chosen now?");
    else if (stage == WARN)
        draw_over("Warning", "A file is there already. Keep it?");
    else if (stage == DONE)
        draw_over("Done", "Everything is installed. Again?");
}

void step_installer(void)
{
    static bool has_begun;

    if (!has_begun)
        enter(CHOOSE, 25);
    else {
        if (times == 0)
            go_on();
        else
            act();
        times -= times > 0;
    }
    has_begun = true;
    draw_windows();
}
