/* A program of random changes for `tests/moved_rows`: rows and characters that move, texts, attributes. It changes a
   picture of its own, draws it, says in a file what is to be shown, and waits for a byte: moved SEED SHOWN ARRIVED
   RELEASED, of which the last two are FIFOs. Compiled with WIDE it draws characters beyond ASCII, by the wide calls, and
   the file is in UTF-8. */
#define _XOPEN_SOURCE 700
#ifdef WIDE
#define _XOPEN_SOURCE_EXTENDED
#endif
#include <curses.h>
#include <fcntl.h>
#include <locale.h>
#include <stdlib.h>
#include <string.h>
#include <unistd.h>
#include <wchar.h>

#define ROWS 24
#define COLUMNS 80

/* A place of the picture. */
struct place {
    wchar_t character;
    chtype attrs;
};

static struct place picture[ROWS][COLUMNS];
static int cursor_row, cursor_column;
static unsigned state;
static bool has_pairs;

static int below(int limit)
{
    state = state * 1103515245u + 12345u;
    return limit > 0 ? (int)((state >> 16 & 0x7fff) % (unsigned)limit) : 0;
}

static bool is_one_of(int cases)
{
    return below(cases) == 0;
}

/* Mostly none. */
static chtype attributes(void)
{
    static const chtype all[] = {A_BOLD, A_UNDERLINE, A_REVERSE, A_BOLD | A_REVERSE};
    chtype attrs = is_one_of(3) ? all[below(4)] : A_NORMAL;
    int pair = 1 + below(7);

    return has_pairs && is_one_of(6) ? attrs | (chtype)COLOR_PAIR(pair) : attrs;
}

/* A letter; with WIDE one of Latin, Greek or Cyrillic, a line, a block or a pattern of dots as often. */
static wchar_t letter(void)
{
#ifdef WIDE
    static const wchar_t latin[] = L"äéîõùçñøåžșğ";

    switch (below(12)) {
    case 0: return latin[below(12)];
    case 1: return L'\u03b1' + below(24);
    case 2: return L'\u0430' + below(32);
    case 3: return L'\u2500' + below(128);
    case 4: return L'\u2580' + below(32);
    case 5: return L'\u2801' + below(255);
    default: break;
    }
#endif
    return L'a' + below(26);
}

/* Writes words from a place on, at most so many columns. */
static void write_words(int row, int column, int columns)
{
    chtype attrs = attributes();
    int end = column + columns < COLUMNS ? column + columns : COLUMNS;

    for (; column < end; column++) {
        picture[row][column].character = is_one_of(6) ? L' ' : letter();
        picture[row][column].attrs = attrs;
        if (is_one_of(12))
            attrs = attributes();
    }
}

static void clear_places(int row, int column, int end)
{
    for (; column < end; column++) {
        picture[row][column].character = L' ';
        picture[row][column].attrs = A_NORMAL;
    }
}

/* A row that comes in: blank, or of words. */
static void renew(int row)
{
    int column = below(8), columns = below(COLUMNS);

    clear_places(row, 0, COLUMNS);
    if (!is_one_of(4))
        write_words(row, column, columns);
}

/* Moves the rows from one to another up or down. */
static void move_rows(void)
{
    int top = below(ROWS - 1), height = 2 + below(ROWS - top - 1), count = 1 + below(is_one_of(3) ? height - 1 : 2), n;
    size_t kept;

    if (is_one_of(3)) {
        top = 0;
        height = is_one_of(2) ? ROWS : ROWS - 1;
    }
    count = count < height ? count : height - 1;
    kept = (size_t)(height - count) * sizeof picture[0];
    if (is_one_of(2)) {
        memmove(picture[top], picture[top + count], kept);
        for (n = height - count; n < height; n++)
            renew(top + n);
    } else {
        memmove(picture[top + count], picture[top], kept);
        for (n = 0; n < count; n++)
            renew(top + n);
    }
}

/* Moves the end of a row to the right or to the left. */
static void move_places(void)
{
    int row = below(ROWS), column = below(COLUMNS - 1), count = 1 + below(is_one_of(3) ? COLUMNS - column : 2);
    size_t kept;

    count = count < COLUMNS - column ? count : COLUMNS - column;
    kept = (size_t)(COLUMNS - column - count) * sizeof picture[0][0];
    if (is_one_of(2)) {
        memmove(picture[row] + column + count, picture[row] + column, kept);
        clear_places(row, column, column + count);
        write_words(row, column, 1 + below(count));
    } else {
        memmove(picture[row] + column, picture[row] + column + count, kept);
        clear_places(row, COLUMNS - count, COLUMNS);
    }
}

/* Other attributes for what is somewhere. */
static void restyle(void)
{
    int row = below(ROWS), column = below(COLUMNS), end = column + below(COLUMNS - column);
    chtype attrs = attributes();

    for (; column < end; column++)
        picture[row][column].attrs = attrs;
}

static void change(void)
{
    int row = below(ROWS), column = below(COLUMNS), columns = 1 + below(30);

    switch (below(10)) {
    case 0:
    case 1:
    case 2:
    case 3: move_rows(); break;
    case 4:
    case 5:
    case 6: move_places(); break;
    case 7: restyle(); break;
    case 8: write_words(row, column, columns); break;
    default:
        for (row = 0; row < ROWS && is_one_of(8); row++)
            renew(row);
        break;
    }
}

static void draw_place(int row, int column, const struct place *place)
{
#ifdef WIDE
    wchar_t text[2] = {place->character, L'\0'};
    cchar_t cell;

    setcchar(&cell, text, (attr_t)(place->attrs & A_ATTRIBUTES & ~A_COLOR), (short)PAIR_NUMBER(place->attrs), NULL);
    mvadd_wch(row, column, &cell);
#else
    mvaddch(row, column, (chtype)place->character | place->attrs);
#endif
}

static void draw(void)
{
    int row, column;

    for (row = 0; row < ROWS; row++)
        for (column = 0; column < COLUMNS; column++)
            draw_place(row, column, &picture[row][column]);
    cursor_row = below(ROWS);
    cursor_column = below(COLUMNS);
    move(cursor_row, cursor_column);
    refresh();
}

/* The letter of a place's attributes: A, and 1 letter on for bold, 2 for underlined, 4 for reverse. */
static int letter_of(chtype attrs)
{
    return 'A' + ((attrs & A_BOLD) ? 1 : 0) + ((attrs & A_UNDERLINE) ? 2 : 0) + ((attrs & A_REVERSE) ? 4 : 0);
}

/* Says what is to be shown: of each row the characters, the letters of their attributes, and the digits of their pairs;
   and the cursor's place. */
static bool tell(const char *path)
{
    FILE *file = fopen(path, "w");
    int row, column;

    if (!file)
        return false;
    for (row = 0; row < ROWS; row++) {
        for (column = 0; column < COLUMNS; column++)
            fprintf(file, "%lc", (wint_t)picture[row][column].character);
        fputc('\n', file);
        for (column = 0; column < COLUMNS; column++)
            fputc(letter_of(picture[row][column].attrs), file);
        fputc('\n', file);
        for (column = 0; column < COLUMNS; column++)
            fputc('0' + (int)PAIR_NUMBER(picture[row][column].attrs), file);
        fputc('\n', file);
    }
    fprintf(file, "%d %d\n", cursor_row, cursor_column);
    return fclose(file) == 0;
}

#ifdef WIDE
/* Every line, and the letters and signs of Latin-1 but the soft hyphen, which the first update shows. */
static void fill_with_all(void)
{
    int place = 0;
    wchar_t code;

    for (code = L'\u00a1'; code <= L'\u257f'; code++) {
        if (code == L'\u0100')
            code = L'\u2500';
        if (code == L'\u00ad')
            continue;
        picture[place / COLUMNS][place % COLUMNS].character = code;
        picture[place / COLUMNS][place % COLUMNS].attrs = A_NORMAL;
        place++;
    }
}
#endif

/* The screen, with pairs of each colour on black. */
static void begin(void)
{
    short color;
    int row;

#ifdef WIDE
    if (!setlocale(LC_ALL, "C.UTF-8"))
        exit(1);
#endif
    initscr();
    cbreak();
    noecho();
    idlok(stdscr, TRUE);
    has_pairs = has_colors();
    if (has_pairs) {
        start_color();
#ifdef NCURSES_VERSION
        /* Pair 0 is the terminal's own colours, as with the curses.h in c/. */
        use_default_colors();
#endif
        for (color = 1; color < 8; color++)
            init_pair(color, color, COLOR_BLACK);
    }
    for (row = 0; row < ROWS; row++)
        renew(row);
#ifdef WIDE
    fill_with_all();
#endif
}

int main(int argc, char **argv)
{
    int arrived, released, changes;
    char byte = 'a';

    if (argc != 5)
        return 2;
    state = (unsigned)atoi(argv[1]);
    arrived = open(argv[3], O_RDWR);
    released = open(argv[4], O_RDWR);
    begin();
    if (LINES != ROWS || COLS != COLUMNS) {
        endwin();
        return 1;
    }
    do {
        draw();
        if (!tell(argv[2]) || write(arrived, &byte, 1) != 1 || read(released, &byte, 1) != 1)
            break;
        for (changes = 1 + below(3); changes > 0; changes--)
            change();
    } while (byte != 'q');
    endwin();
    return 0;
}
