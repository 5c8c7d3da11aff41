/* Nothing is lost: not by an allocation that fails, whichever it is, nor by a descriptor that accepts a few bytes at a
 * time or fails. At the end a terminal that was sent all of it shows what the screen wants. And where an allocation
 * fails in a call about an entry, of huttavel.h or of term.h, or in newterm(), the call fails, changes nothing, and
 * works when it is made again.
 */
#define _XOPEN_SOURCE 700

#include "refuse.h"
#include "terminal.h"

#define HUTTAVEL_NO_TERM_NAMES
#include <term.h>

#include <stdio.h>
#include <stdlib.h>

static uint64_t state = 88172645463325252u;

static uint32_t any(uint32_t below)
{
    state ^= state << 13;
    state ^= state >> 7;
    state ^= state << 17;
    return (uint32_t)(state >> 32) % below;
}

/* A call, made again if memory ran out in it. */
#define DO(call)                                                                                                       \
    do {                                                                                                               \
        uint32_t fault = (call);                                                                                       \
        if (fault == HUTTAVEL_NO_MEMORY || fault == HUTTAVEL_WRITE_FAILED)                                             \
            fault = (call);                                                                                            \
        if (fault != HUTTAVEL_OK)                                                                                      \
            return fail(#call, fault);                                                                                 \
    } while (0)

static bool fail(const char *call, uint32_t fault)
{
    printf("%s: %s, allocation %lu\n", call, huttavel_fault_text(fault), refused);
    return false;
}

/* Writes what waits to a terminal: all of it, or a few bytes. */
static void write_some(huttavel *handle, terminal *to, size_t most)
{
    uint8_t bytes[100];
    size_t count;

    while (most > 0 && (count = huttavel_bytes(handle, bytes, most < sizeof bytes ? most : sizeof bytes)) > 0) {
        terminal_read(to, bytes, count);
        (void)huttavel_took(handle, count);
        most -= count;
    }
}

static bool draw(huttavel *handle, terminal *to)
{
    uint32_t window = 0, pad = 0, sub = 0;

    DO(huttavel_start(handle));
    DO(huttavel_new_window(handle, 4, 12, 2, 3, &window));
    DO(huttavel_derive(handle, window, 2, 6, 1, 1, &sub));
    DO(huttavel_new_pad(handle, 20, 40, &pad));
    DO(huttavel_set_pair(handle, 5, 1, 6));
    DO(huttavel_change_background(handle, window, '.', HUTTAVEL_DIM, 5));
    DO(huttavel_add_text(handle, 0, (const uint8_t *)"the first window\n\tand a tab", 27, NULL));
    DO(huttavel_add_text(handle, sub, (const uint8_t *)"below", 5, NULL));
    /* Only a text that is not well formed takes memory. */
    DO(huttavel_add_utf8(handle, sub, (const uint8_t *)"\xc3\xa9\xff", 3, NULL));
    DO(huttavel_add_text(handle, pad, (const uint8_t *)"on a pad", 8, NULL));
    DO(huttavel_copy(handle, pad, window, 0, 0, 3, 0, 3, 7, false));
    DO(huttavel_noutrefresh(handle, 0));
    DO(huttavel_noutrefresh(handle, window));
    DO(huttavel_pad_noutrefresh(handle, pad, 0, 0, 7, 20, 8, 29));
    DO(huttavel_doupdate(handle));
    write_some(handle, to, SIZE_MAX);
    if (!terminal_shows(to, handle))
        return fail("first update", 0);
    DO(huttavel_overwrite(handle, window, 0));
    DO(huttavel_attr_set(handle, 0, HUTTAVEL_STANDOUT | HUTTAVEL_BOLD));
    DO(huttavel_add_text(handle, 0, (const uint8_t *)"more", 4, NULL));
    DO(huttavel_noutrefresh(handle, 0));
    DO(huttavel_doupdate(handle));
    write_some(handle, to, SIZE_MAX);
    return terminal_shows(to, handle) || fail("second update", 0);
}

/* Opens, draws and closes, with one allocation refused. */
static bool with_refused(unsigned long number)
{
    huttavel handle = HUTTAVEL_CLOSED_HANDLE;
    terminal to;
    bool drawn;

    refuse(number);
    terminal_begin(&to, '?');
    DO(huttavel_open_bundled(&handle, ROWS, COLUMNS));
    drawn = draw(&handle, &to);
    DO(huttavel_finish(&handle));
    write_some(&handle, &to, SIZE_MAX);
    drawn = drawn && to.row == ROWS - 1 && to.column == 0 && to.pen.attrs == 0;
    return huttavel_close(&handle) == HUTTAVEL_OK && drawn;
}

/* Updates of random texts, of which the terminal accepts some; now and then it fails, and then it shows anything. */
static bool in_pieces(void)
{
    huttavel handle = HUTTAVEL_CLOSED_HANDLE;
    terminal to;
    uint8_t text[40];

    refuse(0);
    terminal_begin(&to, '?');
    DO(huttavel_open_bundled(&handle, ROWS, COLUMNS));
    DO(huttavel_set_pair(&handle, 9, 2, 3));
    DO(huttavel_scroll_ok(&handle, 0, true));
    for (int i = 0; i < 3000; i++) {
        for (size_t k = 0; k < sizeof text; k++)
            text[k] = (uint8_t)(any(12) == 0 ? '\n' : 32 + any(95));
        DO(huttavel_attr_set(&handle, 0, (uint8_t)(any(2) * any(128))));
        DO(huttavel_color_set(&handle, 0, any(2) * 9));
        DO(huttavel_move_cursor(&handle, 0, any(ROWS), any(COLUMNS)));
        DO(huttavel_add_text(&handle, 0, text, 1 + any(sizeof text), NULL));
        DO(huttavel_noutrefresh(&handle, 0));
        DO(huttavel_doupdate(&handle));
        write_some(&handle, &to, any(60));
        if (any(10) == 0) {
            int reading = to.reading, count = to.count, parameters[8];

            memcpy(parameters, to.parameters, sizeof parameters);
            terminal_begin(&to, (uint8_t)(33 + any(90)));
            to.reading = reading;
            to.count = count;
            memcpy(to.parameters, parameters, sizeof parameters);
            to.row = (int)any(ROWS);
            DO(huttavel_failed(&handle));
            DO(huttavel_doupdate(&handle));
        }
        if (any(5) == 0) {
            write_some(&handle, &to, SIZE_MAX);
            if (!terminal_shows(&to, &handle))
                return fail("an update in pieces", 0);
        }
    }
    return huttavel_close(&handle) == HUTTAVEL_OK;
}

/* An entry, term(5): its name, no flags and numbers, and of the strings the eleventh, `cup`. */
static const uint8_t compiled[] =
    "\032\001\006\0\0\0\0\0\013\0\021\0trial\0"
    "\377\377\377\377\377\377\377\377\377\377\377\377\377\377\377\377\377\377\377\377\0\0"
    "\033[%i%p1%d;%p2%dH";

/* Whether a text gives these bytes with two numbers. If memory runs out, nothing is copied, the static variable A has
   the number that it had, and the text gives them then. */
static bool gives(huttavel *entry, const char *text, int32_t first, int32_t second, const char *wanted, const char *a)
{
    const int32_t numbers[9] = {first, second, 0, 0, 0, 0, 0, 0, 0};
    const uint8_t *given = (const uint8_t *)text;
    uint8_t bytes[20] = "unchanged";
    unsigned long before = allocations;
    size_t count = 77;
    uint32_t fault = huttavel_parameters(entry, given, strlen(text), numbers, bytes, sizeof bytes, &count);

    if ((fault == HUTTAVEL_NO_MEMORY) != was_refused(before))
        return fail(text, fault);
    if (fault == HUTTAVEL_NO_MEMORY) {
        if (memcmp(bytes, "unchanged", 10) != 0 || count != 77 || !gives(entry, "%gA%d", 0, 0, a, a))
            return fail("a text that was refused", fault);
        fault = huttavel_parameters(entry, given, strlen(text), numbers, bytes, sizeof bytes, &count);
    }
    return (fault == HUTTAVEL_OK && count == strlen(wanted) && memcmp(bytes, wanted, count) == 0) || fail(text, fault);
}

/* The calls of huttavel.h about an entry, with one allocation refused. */
static bool entry_with_refused(unsigned long number)
{
    huttavel entry = HUTTAVEL_CLOSED_HANDLE;
    huttavel_capability which = {9, 9};
    uint8_t names[8] = "";
    uint8_t text[24] = "";
    size_t count = 0;
    uint32_t fault;
    bool kept;

    refuse(number);
    fault = huttavel_entry_open(&entry, compiled, sizeof compiled);
    if ((fault == HUTTAVEL_NO_MEMORY) != was_refused(0) || (fault == HUTTAVEL_NO_MEMORY && huttavel_is_open(&entry)))
        return fail("opening an entry", fault);
    if (fault == HUTTAVEL_NO_MEMORY)
        fault = huttavel_entry_open(&entry, compiled, sizeof compiled);
    if (fault != HUTTAVEL_OK)
        return fail("opening an entry again", fault);
    DO(huttavel_capability_named((const uint8_t *)"cup", 3, &which));
    DO(huttavel_entry_names(&entry, names, sizeof names, &count));
    kept = which.position == 10 && count == 5 && memcmp(names, "trial", 5) == 0;
    DO(huttavel_entry_text(&entry, 10, text, sizeof text - 1, &count));
    kept = kept && count == 16 && gives(&entry, (const char *)text, 4, 9, "\033[5;10H", "0") &&
           gives(&entry, "%p1%PA%gA%d", 21, 0, "21", "0") && gives(&entry, "%p1%PA%p2%PB", 22, 5, "", "21") &&
           gives(&entry, "%gA%d,%gB%d", 0, 0, "22,5", "22");
    return huttavel_close(&entry) == HUTTAVEL_OK && kept;
}

/* Whether a terminal is opened, by setupterm() or by tgetent(). If memory runs out, the one in use stays, and it is
   opened then. */
static bool opens(const char *type, bool is_by_code)
{
    TERMINAL *former = cur_term;
    const char *name = termname();
    unsigned long before = allocations;
    int status = 7, done = is_by_code ? tgetent(NULL, type) : setupterm(type, 1, &status);

    if (was_refused(before)) {
        if (done != -1 || (!is_by_code && status != -1) || cur_term != former || termname() != name)
            return fail("a terminal that was not opened", 0);
        done = is_by_code ? tgetent(NULL, type) : setupterm(type, 1, &status);
    }
    return (done == (is_by_code ? 1 : OK) && strcmp(termname(), type) == 0) || fail(type, 0);
}

/* Whether tparm() gives a text. If memory runs out, the one that it gave before stays. */
static bool prints(const char *text, long number, const char *wanted)
{
    const char *former = tparm("%p1%{1}%+%d", number - 1), *given;
    unsigned long before = allocations;

    if (!former)
        former = tparm("%p1%{1}%+%d", number - 1);
    given = tparm(text, number);
    if (was_refused(before)) {
        if (given || !former || atol(former) != number)
            return fail("a text that was given before", 0);
        given = tparm(text, number);
    }
    return (given && strcmp(given, wanted) == 0) || fail(text, 0);
}

/* Whether a screen is opened, and closes it. If memory runs out, no screen is in use, and it is opened then. */
static bool is_screen_opened(FILE *file)
{
    TERMINAL *former = cur_term;
    unsigned long before = allocations;
    SCREEN *screen = newterm("xterm", file, file);

    if (was_refused(before)) {
        if (screen || cur_term != former || stdscr)
            return fail("a screen that was not opened", 0);
        screen = newterm("xterm", file, file);
    }
    if (!screen || !stdscr)
        return fail("newterm", 0);
    endwin();
    delscreen(screen);
    set_curterm(former);
    return true;
}

/* The calls of curses.h and of term.h that open entries and run their texts, with one allocation refused. */
static bool names_with_refused(unsigned long number)
{
    FILE *file = fopen("/dev/null", "r+");
    TERMINAL *first, *second;
    bool kept;

    setenv("HOME", "/", 1);
    unsetenv("TERMINFO");
    setenv("TERMINFO_DIRS", "/:", 1);
    refuse(number);
    kept = file && opens("xterm", false) && prints("%p1%d", 8, "8");
    first = cur_term;
    /* tgetent() closes what it opened before, and nothing else. */
    kept = kept && opens("linux", true) && opens("xterm", true);
    second = cur_term;
    kept = kept && opens("linux", false) && is_screen_opened(file);
    if (file)
        fclose(file);
    return kept && del_curterm(first) == OK && del_curterm(second) == OK && del_curterm(cur_term) == OK && !cur_term;
}

int main(void)
{
    unsigned long drawing = each_refused(with_refused), entries = each_refused(entry_with_refused);
    unsigned long terminals = each_refused(names_with_refused);

    if (!drawing || !entries || !terminals || !in_pieces())
        return 1;
    printf("lossless: each of %lu allocations refused, %lu of entries, %lu of terminals, 3000 updates in pieces\n",
           drawing, entries, terminals);
    return 0;
}
