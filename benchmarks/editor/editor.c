/* A small editor over ncurses, to count what it sends for each key beside what crates/edit sends: the same screen for the
 * same keys. The text of a file from a top line on, on all rows but the last; on the last row, in reverse and in the same
 * colours, the file's name, a star if the text was changed, and `line L column C`, from 1. A longer line than the row is
 * shown around the cursor. Keys: characters, the arrows, Enter, Delete, Backspace, and ctrl-Q, which quits at once.
 * Nothing is saved. The end of input ends it, so that keys can come from a file.
 * Usage: editor FILE < KEYS, with LINES and COLUMNS for the size */
#include <curses.h>
#include <stdio.h>
#include <string.h>

#define MOST_LINES 10000
#define MOST_COLUMNS 1000

static char lines[MOST_LINES][MOST_COLUMNS + 1];
static int count = 1, line, column, top, changed;
static const char *name;

static void load(void) {
    FILE *file = fopen(name, "r");
    if (!file) return;
    for (count = 0; count < MOST_LINES && fgets(lines[count], MOST_COLUMNS, file); count++)
        lines[count][strcspn(lines[count], "\n")] = 0;
    if (count == 0) count = 1;
    fclose(file);
}

static int length(int of) { return (int)strlen(lines[of]); }

static void draw_status(int row) {
    char said[MOST_COLUMNS], filled[MOST_COLUMNS];
    snprintf(said, sizeof said, "%s%s  line %d column %d", name, changed ? "*" : "", line + 1, column + 1);
    snprintf(filled, sizeof filled, "%-*.*s", COLS, COLS, said);
    attron(A_REVERSE | COLOR_PAIR(1));
    mvaddstr(row, 0, filled);
    attrset(A_NORMAL);
}

/* Draws everything again: what of it is sent is for the library to find out. */
static void draw(void) {
    int rows = LINES - 1;
    int first = column < COLS ? 0 : (column / (COLS / 2) - 1) * (COLS / 2);
    if (top < line + 1 - rows) top = line + 1 - rows;
    if (top > line) top = line;
    for (int row = 0; row < rows; row++) {
        int shown = top + row;
        move(row, 0);
        if (shown < count && (shown != line || first < length(line))) addnstr(lines[shown] + (shown == line ? first : 0), COLS);
        if (shown >= count || length(shown) - (shown == line ? first : 0) < COLS) clrtoeol();
    }
    draw_status(rows);
    move(line - top, column - first);
    refresh();
}

static void insert(int byte) {
    char *text = lines[line];
    if (length(line) == MOST_COLUMNS - 1) return;
    memmove(text + column + 1, text + column, strlen(text + column) + 1);
    text[column++] = (char)byte;
    changed = 1;
}

static void split(void) {
    if (count + 1 >= MOST_LINES) return;
    memmove(lines[line + 2], lines[line + 1], (size_t)(count - line - 1) * sizeof lines[0]);
    memmove(lines[line + 1], lines[line] + column, strlen(lines[line] + column) + 1);
    lines[line][column] = 0;
    count++, line++, column = 0, changed = 1;
}

/* Deletes at the cursor: a character, or the end of the line. */
static void delete(void) {
    char *text = lines[line];
    if (text[column]) {
        memmove(text + column, text + column + 1, strlen(text + column));
        changed = 1;
    } else if (line + 1 < count && column + length(line + 1) < MOST_COLUMNS) {
        memmove(text + column, lines[line + 1], strlen(lines[line + 1]) + 1);
        memmove(lines[line + 1], lines[line + 2], (size_t)(count - line - 2) * sizeof lines[0]);
        count--, changed = 1;
    }
}

static void go_left(void) {
    if (column > 0) column--;
    else if (line > 0) line--, column = length(line);
}

static void go_right(void) {
    if (column < length(line)) column++;
    else if (line + 1 < count) line++, column = 0;
}

static void obey(int key) {
    int inside = line > 0 || column > 0;
    if (key == KEY_LEFT) go_left();
    else if (key == KEY_RIGHT) go_right();
    else if (key == KEY_UP && line > 0) line--;
    else if (key == KEY_DOWN && line + 1 < count) line++;
    else if (key == '\r' || key == '\n' || key == KEY_ENTER) split();
    else if (key == KEY_DC) delete();
    else if ((key == KEY_BACKSPACE || key == 127 || key == 8) && inside) go_left(), delete();
    else if (key >= 32 && key < 127) insert(key);
    if (column > length(line)) column = length(line);
}

int main(int words, char **word) {
    int key = 0;
    if (words != 2) return fprintf(stderr, "usage: editor FILE < KEYS\n"), 2;
    name = word[1];
    load();
    initscr(), raw(), noecho(), nonl(), keypad(stdscr, TRUE), set_escdelay(25), typeahead(-1);
    if (has_colors()) start_color(), use_default_colors(), init_pair(1, COLOR_BLUE, COLOR_WHITE);
    do {
        draw();
        key = getch();
        if (key != ERR) obey(key);
    } while (key != ERR && key != 17);
    endwin();
    return 0;
}
