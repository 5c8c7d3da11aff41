/* A C program with an event loop of its own: the arrows move a box, `q` ends. It waits for the keyboard and, while
 * bytes for the terminal wait, for the terminal as well. The terminal has to have 24 rows of 80 columns, and speak
 * ECMA-48.
 *
 *     cc examples/boxes.c $(pkg-config --cflags --libs huttavel) -o boxes && ./boxes
 */
#define _POSIX_C_SOURCE 200809L

#include <huttavel.h>

#include <errno.h>
#include <poll.h>
#include <stdio.h>
#include <termios.h>
#include <unistd.h>

enum { ROWS = 24, COLUMNS = 80, TALL = 4, WIDE = 12 };

static const uint8_t edges[8] = {'|', '|', '-', '-', '+', '+', '+', '+'};

/* Writes as many of the bytes that wait as the terminal takes; false if the terminal is gone. */
static bool write_waiting(huttavel *screen)
{
    uint8_t bytes[4096];
    size_t count = huttavel_bytes(screen, bytes, sizeof bytes);
    ssize_t taken = write(STDOUT_FILENO, bytes, count);

    if (taken > 0)
        (void)huttavel_took(screen, (size_t)taken);
    return taken > 0 || errno == EAGAIN || errno == EINTR;
}

/* Draws the screen with the box at a place. */
static uint32_t draw(huttavel *screen, uint32_t box, uint32_t row, uint32_t column)
{
    uint32_t fault = huttavel_move_window(screen, box, row, column);

    if (fault == HUTTAVEL_OK)
        fault = huttavel_touch_window(screen, 0);
    if (fault == HUTTAVEL_OK)
        fault = huttavel_noutrefresh(screen, 0);
    if (fault == HUTTAVEL_OK)
        fault = huttavel_noutrefresh(screen, box);
    return fault == HUTTAVEL_OK ? huttavel_doupdate(screen) : fault;
}

/* Moves the place of the box by a key; false if the key ends the program. */
static bool move(huttavel_key key, uint32_t *row, uint32_t *column)
{
    if (key.kind == HUTTAVEL_KEY_BYTE)
        return key.code != 'q';
    if (key.code == HUTTAVEL_KEY_UP && *row > 1)
        --*row;
    else if (key.code == HUTTAVEL_KEY_DOWN && *row < ROWS - TALL)
        ++*row;
    else if (key.code == HUTTAVEL_KEY_LEFT && *column > 0)
        --*column;
    else if (key.code == HUTTAVEL_KEY_RIGHT && *column < COLUMNS - WIDE)
        ++*column;
    return true;
}

/* Reads the keyboard and takes its keys; false if the program ends. */
static bool read_keys(huttavel *screen, uint32_t *row, uint32_t *column)
{
    uint8_t bytes[16];
    ssize_t count = read(STDIN_FILENO, bytes, sizeof bytes);
    huttavel_key key;

    if (count <= 0 || huttavel_key_bytes(screen, bytes, (size_t)count, NULL) != HUTTAVEL_OK)
        return false;
    while (huttavel_next_key(screen, &key) == HUTTAVEL_OK)
        if (!move(key, row, column))
            return false;
    return true;
}

static uint32_t run(huttavel *screen)
{
    static const char title[] = "arrows move the box, q ends";
    uint32_t box = 0, row = 10, column = 30, fault;
    bool goes_on = true;

    if ((fault = huttavel_new_window(screen, TALL, WIDE, row, column, &box)) != HUTTAVEL_OK
        || (fault = huttavel_border(screen, box, edges)) != HUTTAVEL_OK
        || (fault = huttavel_leave_ok(screen, box, true)) != HUTTAVEL_OK
        || (fault = huttavel_add_text(screen, 0, (const uint8_t *)title, sizeof title - 1, NULL)) != HUTTAVEL_OK)
        return fault;
    while (goes_on && (fault = draw(screen, box, row, column)) == HUTTAVEL_OK) {
        struct pollfd waits[2] = {{STDIN_FILENO, POLLIN, 0}, {STDOUT_FILENO, POLLOUT, 0}};

        if (poll(waits, huttavel_waiting(screen) > 0 ? 2 : 1, -1) < 0)
            break;
        if (waits[1].revents != 0)
            goes_on = write_waiting(screen);
        if (goes_on && waits[0].revents != 0)
            goes_on = read_keys(screen, &row, &column);
    }
    return fault;
}

int main(void)
{
    huttavel screen = HUTTAVEL_CLOSED_HANDLE;
    struct termios line, raw;
    uint32_t fault;

    if (tcgetattr(STDIN_FILENO, &line) != 0)
        return 1;
    raw = line;
    raw.c_lflag &= ~(tcflag_t)(ICANON | ECHO);
    fault = huttavel_open_bundled(&screen, ROWS, COLUMNS);
    if (fault == HUTTAVEL_OK) {
        (void)tcsetattr(STDIN_FILENO, TCSANOW, &raw);
        (void)huttavel_start(&screen);
        fault = run(&screen);
        (void)huttavel_finish(&screen);
        while (huttavel_waiting(&screen) > 0 && write_waiting(&screen))
            continue;
        (void)tcsetattr(STDIN_FILENO, TCSANOW, &line);
        (void)huttavel_close(&screen);
    }
    if (fault != HUTTAVEL_OK)
        fprintf(stderr, "boxes: %s\n", huttavel_fault_text(fault));
    return fault != HUTTAVEL_OK;
}
