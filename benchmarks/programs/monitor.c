/* A monitor: bars, and a table of processes whose numbers change at each step and whose rows are in the order of one of
   them. */
#include "programs.h"

#define PROCESSES 60

struct process {
    int number, load, memory, time;
    const char *user, *command;
};

static struct process processes[PROCESSES];
static int processors[4], seconds;

void begin_monitor(void)
{
    static const char *const users[] = {"root", "anna", "www-data", "postgres", "boris"};
    static const char *const commands[] = {"postgres: writer", "/usr/sbin/sshd -D",  "nginx: worker",  "make -j4",
                                           "cc1 -O2 main.c",   "python3 serve.py",   "[kworker/0:1]",  "bash",
                                           "vi notes.txt",     "/usr/lib/systemd",   "rsync --server", "top"};
    int number;

    for (number = 0; number < PROCESSES; number++) {
        struct process *process = processes + number;

        process->number = 300 + number * 37 + below(30);
        process->load = is_one_of(4) ? 1 + below(300) : 0;
        process->memory = below(90);
        process->time = below(60000);
        process->user = users[below(5)];
        process->command = commands[below(12)];
    }
    for (number = 0; number < 4; number++)
        processors[number] = 100 + below(600);
}

/* A number that goes up or down by a bit, from 0 to a limit. */
static int varied(int number, int by, int limit)
{
    int next = number + below(2 * by + 1) - by;

    return next < 0 ? 0 : next > limit ? limit : next;
}

/* One second passes: what works has other loads, and now and then a process begins or stops to work. */
static void pass(void)
{
    int number;

    for (number = 0; number < PROCESSES; number++) {
        struct process *process = processes + number;

        if (process->load > 0)
            process->load = varied(process->load, 1 + process->load / 16, 999);
        else if (is_one_of(100))
            process->load = 1 + below(60);
        process->time += process->load / 10;
        if (is_one_of(10))
            process->memory = varied(process->memory, 2, 400);
    }
    for (number = 0; number < 4; number++)
        processors[number] = varied(processors[number], 60, 1000);
    seconds++;
}

/* By load, and by number where it is the same. */
static int compare(const void *one, const void *other)
{
    const struct process *first = one, *second = other;

    if (first->load != second->load)
        return second->load - first->load;
    return first->number - second->number;
}

/* A bar of a part of a thousand, with its number. */
static void draw_meter(int row, int column, const char *name, int part)
{
    char text[16];
    int filled = part * 24 / 1000;

    draw_text(row, column, A_BOLD, name);
    draw_text(row, column + 4, A_NORMAL, "[");
    attrset((int)in_color(part > 700 ? 1 : 2, A_NORMAL));
    mvhline(row, column + 5, '|', filled);
    attrset((int)A_NORMAL);
    snprintf(text, sizeof text, "%3d.%d%%]", part / 10, part % 10);
    draw_text(row, column + 29, A_NORMAL, text);
}

static void draw_process(int row, const struct process *process)
{
    char text[LONGEST];

    snprintf(text, sizeof text, "%6d %-9s %3d.%d %3d.%d %4d:%02d.%02d  %s", process->number, process->user,
             process->load / 10, process->load % 10, process->memory / 10, process->memory % 10, process->time / 6000,
             process->time / 100 % 60, process->time % 100, process->command);
    draw_text(row, 0, process->load >= 100 ? A_BOLD : A_NORMAL, text);
}

void step_monitor(void)
{
    char text[LONGEST];
    int row, working = 0, memory = 0;

    if (seconds > 0)
        pass();
    else
        seconds = 1;
    qsort(processes, PROCESSES, sizeof *processes, compare);
    for (row = 0; row < PROCESSES; row++) {
        working += processes[row].load > 0;
        memory += processes[row].memory;
    }
    erase();
    for (row = 0; row < 4; row++) {
        char name[8];

        snprintf(name, sizeof name, "%d", row);
        draw_meter(row / 2, row % 2 * 40, name, processors[row]);
    }
    draw_meter(2, 0, "Mem", memory / 8 > 1000 ? 1000 : memory / 8);
    snprintf(text, sizeof text, "Tasks: %d, %d running", PROCESSES, working);
    draw_text(2, 40, A_NORMAL, text);
    snprintf(text, sizeof text, "Uptime: 12 days, %02d:%02d:%02d", 4 + seconds / 3600, seconds / 60 % 60, seconds % 60);
    draw_text(3, 40, A_NORMAL, text);
    draw_bar(4, A_REVERSE, "   PID USER       CPU%%  MEM%%      TIME+  COMMAND");
    for (row = 5; row < LINES && row - 5 < PROCESSES; row++)
        draw_process(row, processes + row - 5);
    move(4, 0);
    wnoutrefresh(stdscr);
}
