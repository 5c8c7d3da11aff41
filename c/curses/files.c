/* Numbers and cells in files. */

/* The greatest number of cells of a window, the largest set of attributes with a pair, and the largest cell. */
#define LARGEST_PAD 1000000
#define LARGEST_ATTRIBUTES 0xffff00L
#define LARGEST_CELL 0xffffffffL

/* A cell as a number: a chtype, with what is beyond a byte of its character's code above it. */
static long number_of_cell(const SCREEN *screen, huttavel_cell cell)
{
    return (long)(cell.character & 255) | (long)cell.attrs << 8 | (long)COLOR_PAIR(named_pair(screen, cell.pair)) |
           (long)(cell.character >> 8) << 24;
}

/* The cell of a number. False if a screen's cells hold no such one. */
static bool is_cell(const SCREEN *screen, long number, huttavel_cell *cell)
{
    struct rendered character = {(uint32_t)(number & 255) | (uint32_t)(number >> 24) << 8, (attr_t)number & 0xffff00u};

    *cell = cell_of(character);
    return has_cell(character.code) && number_of_cell(screen, *cell) == number;
}

/* Writes a line of numbers. */
static bool write_numbers(FILE *file, const long *numbers, int count)
{
    int n;

    for (n = 0; n < count; n++)
        if (fprintf(file, "%s%ld", n ? " " : "", numbers[n]) < 0)
            return false;
    return fputc('\n', file) != EOF;
}

/* Reads a text. */
static bool read_exactly(FILE *file, const char *text)
{
    while (*text && fgetc(file) == (unsigned char)*text)
        text++;
    return !*text;
}

/* Reads a number up to `most`, and the byte after it. */
static bool read_number(FILE *file, long most, char after, long *number)
{
    int byte = fgetc(file);

    *number = 0;
    if (byte < '0' || byte > '9')
        return false;
    for (; byte >= '0' && byte <= '9'; byte = fgetc(file)) {
        if (*number > most / 10 || byte - '0' > most - 10 * *number)
            return false;
        *number = 10 * *number + (byte - '0');
    }
    return byte == after;
}

/* Reads a line of numbers, each up to its greatest. */
static bool read_numbers(FILE *file, const long *most, long *numbers, int count)
{
    int n;

    for (n = 0; n < count; n++)
        if (!read_number(file, most[n], n == count - 1 ? '\n' : ' ', &numbers[n]))
            return false;
    return true;
}

/* Writes the cells of a window. */
static bool write_cells(FILE *file, WINDOW *window)
{
    int row, column;
    huttavel_cell cell;

    for (row = 0; row < window->rows; row++)
        for (column = 0; column < window->columns; column++)
            if (!cell_at(window, row, column, &cell) ||
                fprintf(file, "%ld%c", number_of_cell(window->screen, cell),
                        column == window->columns - 1 ? '\n' : ' ') < 0)
                return false;
    return true;
}

/* Reads so many cells, in memory of their own; NULL if there are others, or memory runs out. */
static huttavel_cell *read_cells(FILE *file, int rows, int columns)
{
    huttavel_cell *cells = malloc((size_t)rows * (size_t)columns * sizeof *cells);
    long number;
    int n;

    for (n = 0; cells && n < rows * columns; n++) {
        char after = n % columns == columns - 1 ? '\n' : ' ';

        if (!read_number(file, LARGEST_CELL, after, &number) || !is_cell(current, number, &cells[n])) {
            free(cells);
            return NULL;
        }
    }
    return cells;
}

/* Writes cells over all of a window. */
static void put_all(WINDOW *window, const huttavel_cell *cells)
{
    struct aside aside;
    int row, column;

    begin_cells(window, &aside);
    for (row = 0; row < window->rows; row++)
        for (column = 0; column < window->columns; column += PIECE) {
            int left = window->columns - column;

            put_cells(window, row, column, cells + (size_t)row * (size_t)window->columns + column,
                      left < PIECE ? left : PIECE);
        }
    end_cells(window, &aside);
}
