/* A mail index: a list with a highlight that moves and scrolls it, new mail that comes in at the top, messages that are
   marked, read and deleted, and lines at both ends that say what there is. */
#include "programs.h"

#define MOST 200

enum action { NEXT, BEFORE, PAGE_DOWN, PAGE_UP, MARK, READ, DELETE, ARRIVE };

struct message {
    char mark, state, sender[24], subject[60];
    int day, size;
};

static struct message messages[MOST];
static int count, top, chosen, times, arrived;
static enum action action;

static struct message new_message(void)
{
    static const char *const senders[] = {"Anna Bell",     "Boris Ivanov",  "Carla Diaz", "David Chen",   "Elena Rossi",
                                          "Farid Nouri",   "Greta Lund",    "Ines Costa", "Jan de Vries", "Kofi Asante",
                                          "build@example", "lists@example", "Omar Haddad"};
    struct message message = {' ', 'N', "", "", 0, 0};

    strcpy(message.sender, senders[below(13)]);
    strcpy(message.subject, is_one_of(3) ? "Re: " : "");
    write_words(message.subject + strlen(message.subject), 8 + below(36));
    message.day = 1 + arrived / 9;
    message.size = 300 + below(30000);
    arrived++;
    return message;
}

/* Puts a message at the top: the highlight stays with the message that it is on. */
static void arrive(void)
{
    if (count == MOST)
        return;
    memmove(messages + 1, messages, (size_t)count * sizeof *messages);
    messages[0] = new_message();
    count++;
    chosen++;
    if (top > 0)
        top++;
}

static void delete(void)
{
    if (count < 2)
        return;
    count--;
    memmove(messages + chosen, messages + chosen + 1, (size_t)(count - chosen) * sizeof *messages);
    if (chosen == count)
        chosen--;
}

static void go(int to)
{
    chosen = to < 0 ? 0 : to >= count ? count - 1 : to;
}

void begin_mail(void)
{
    while (count < 90) {
        arrive();
        if (!is_one_of(4))
            messages[0].state = ' ';
    }
    chosen = top = 0;
}

static void choose(void)
{
    static const enum action likely[] = {NEXT, NEXT, NEXT, NEXT, BEFORE, PAGE_DOWN, PAGE_UP,
                                         MARK, READ, READ, DELETE, DELETE, ARRIVE, ARRIVE};

    action = likely[below(14)];
    times = action == NEXT ? 2 + below(12) : action == BEFORE ? 2 + below(6) : 1 + below(2);
}

static void act(int rows)
{
    struct message *message = messages + chosen;

    switch (action) {
    case NEXT: go(chosen + 1); break;
    case BEFORE: go(chosen - 1); break;
    case PAGE_DOWN: top += rows, go(chosen + rows); break;
    case PAGE_UP: top -= rows, go(chosen - rows); break;
    case MARK: message->mark = message->mark == ' ' ? '*' : ' ', go(chosen + 1); break;
    case READ: message->state = ' ', go(chosen + 1); break;
    case DELETE: delete(); break;
    default: arrive(); break;
    }
    times--;
}

/* Keeps the highlight on the page, and the page on the list. */
static void settle(int rows)
{
    if (top > count - rows)
        top = count - rows;
    if (top < 0)
        top = 0;
    if (chosen < top)
        top = chosen;
    if (chosen >= top + rows)
        top = chosen - rows + 1;
}

static void draw_message(int row, int number)
{
    const struct message *message = messages + number;
    chtype attrs = number == chosen ? A_REVERSE : message->state == 'N' ? A_BOLD : A_NORMAL;
    char size[24];

    snprintf(size, sizeof size, "%d.%dK", message->size / 1000, message->size / 100 % 10);
    draw_bar(row, attrs, " %c%c  Nov %02d  %-15s %6s  %s", message->state, message->mark, message->day, message->sender,
             size, message->subject);
}

void step_mail(void)
{
    static bool has_begun;
    int rows = LINES - 3, row, unread = 0, number;

    if (has_begun) {
        if (times == 0)
            choose();
        act(rows);
    }
    has_begun = true;
    settle(rows);
    erase();
    draw_bar(0, A_REVERSE, "q:Quit  d:Delete  m:Mail  r:Reply  t:Tag  g:Group  ?:Help");
    for (row = 0; row < rows && top + row < count; row++)
        draw_message(1 + row, top + row);
    for (number = 0; number < count; number++)
        unread += messages[number].state == 'N';
    draw_bar(LINES - 2, A_REVERSE, "---Inbox [%d messages, %d new]---(%d%%)", count, unread,
             (chosen + 1) * 100 / count);
    if (has_begun && action == ARRIVE)
        draw_text(LINES - 1, 0, A_NORMAL, "New mail in Inbox.");
    move(1 + chosen - top, 0);
    wnoutrefresh(stdscr);
}
