/* Charts of what changes with time: bars of blocks that go on to the left, meters, and a line of braille dots. */
#include "wide.h"

#define PLACES 76
#define HEIGHT 6
#define METERS 5

static int history[PLACES], meters[METERS], dots[2 * PLACES];

void begin_chart(void)
{
    int number;

    for (number = 0; number < PLACES; number++)
        history[number] = below(HEIGHT * 8);
    for (number = 0; number < METERS; number++)
        meters[number] = below(400);
    for (number = 0; number < 2 * PLACES; number++)
        dots[number] = 16;
}

static int varied(int value, int by, int limit)
{
    int next = value + below(2 * by + 1) - by;

    return next < 0 ? 0 : next > limit ? limit : next;
}

static void change(void)
{
    int number;

    memmove(history, history + 1, sizeof history - sizeof *history);
    history[PLACES - 1] = varied(history[PLACES - 2], 6, HEIGHT * 8);
    for (number = 0; number < METERS; number++)
        meters[number] = varied(meters[number], 12, 400);
    memmove(dots, dots + 2, sizeof dots - 2 * sizeof *dots);
    dots[2 * PLACES - 2] = varied(dots[2 * PLACES - 3], 3, 31);
    dots[2 * PLACES - 1] = varied(dots[2 * PLACES - 2], 3, 31);
}

/* A row of the bars: blocks that are filled by eighths. */
static void draw_bars(int row)
{
    wchar_t text[PLACES + 1];
    int place, base = (HEIGHT - 1 - row) * 8;

    for (place = 0; place < PLACES; place++) {
        int eighths = history[place] - base;

        text[place] = eighths <= 0 ? L' ' : (wchar_t)(0x2580 + (eighths > 8 ? 8 : eighths));
    }
    text[PLACES] = L'\0';
    draw_wide(1 + row, 2, in_color(2, A_NORMAL), text);
}

/* A row of the line: two columns and four rows of dots in each place. */
static void draw_dots(int row)
{
    static const int bits[2][4] = {{0x40, 0x04, 0x02, 0x01}, {0x80, 0x20, 0x10, 0x08}};
    wchar_t text[PLACES + 1];
    int place, side, base = (7 - row) * 4;

    for (place = 0; place < PLACES; place++) {
        int pattern = 0;

        for (side = 0; side < 2; side++) {
            int dot = dots[2 * place + side] - base;

            if (dot >= 0 && dot < 4)
                pattern |= bits[side][dot];
        }
        text[place] = pattern ? (wchar_t)(0x2800 + pattern) : L' ';
    }
    text[PLACES] = L'\0';
    draw_wide(15 + row, 2, in_color(6, A_NORMAL), text);
}

static void draw_meter(int row, int value)
{
    wchar_t text[LONGEST];
    int place, full = value / 8, rest = value % 8;

    for (place = 0; place < 50; place++)
        text[place] = place < full ? L'█' : place == full && rest > 0 ? (wchar_t)(0x2590 - rest) : L'░';
    text[50] = L'\0';
    draw_wide(row, 12, in_color(value > 300 ? 1 : 4, A_NORMAL), text);
    swprintf(text, LONGEST, L"%3d,%d %%", value / 4, value % 4 * 25 / 10);
    draw_wide(row, 64, A_NORMAL, text);
}

void step_chart(void)
{
    static const wchar_t *const names[] = {L"Mémoire", L"Réseau", L"Disque", L"Écran", L"Α–Ω"};
    int row;

    change();
    erase();
    draw_wide_bar(0, A_REVERSE, L" Charge du système");
    for (row = 0; row < HEIGHT; row++)
        draw_bars(row);
    for (row = 0; row < METERS; row++) {
        draw_wide(8 + row, 2, A_BOLD, names[row]);
        draw_meter(8 + row, meters[row]);
    }
    for (row = 0; row < 8 && 15 + row < LINES; row++)
        draw_dots(row);
    move(0, 0);
    wnoutrefresh(stdscr);
}
