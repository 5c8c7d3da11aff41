/* The calls of huttavel.h on characters beyond ASCII: each of them, with results worked out by hand; random texts in
 * UTF-8 that are broken here and there, which no column and no byte is lost of; and updates of such texts, which a
 * terminal in UTF-8 shows, and one in ASCII by their stand-ins.
 */
#include "terminal.h"

#include <stdio.h>

#define CHECK(holds) check((holds), #holds, __LINE__)
#define IS(fault, call) check((call) == (fault), #call, __LINE__)

static int failed = 0;

static void check(bool holds, const char *what, int line)
{
    if (!holds) {
        printf("line %d: %s\n", line, what);
        failed = 1;
    }
}

static uint64_t state = 88172645463325252u;

static uint32_t any(uint32_t below)
{
    state ^= state << 13;
    state ^= state >> 7;
    state ^= state << 17;
    return (uint32_t)(state >> 32) % below;
}

static huttavel_cell cell_of(huttavel *handle, uint32_t window, uint32_t row, uint32_t column)
{
    huttavel_cell cell = {0, 0, 0, 0};

    IS(HUTTAVEL_OK, huttavel_cell_at(handle, window, row, column, &cell));
    return cell;
}

/* The character at a place. */
static uint32_t at(huttavel *handle, uint32_t row, uint32_t column)
{
    return cell_of(handle, 0, row, column).character;
}

static uint32_t add(huttavel *handle, const char *text)
{
    return huttavel_add_utf8(handle, 0, (const uint8_t *)text, strlen(text), NULL);
}

/* A screen of 4 rows and 20 columns. */
static huttavel open_screen(uint32_t charset)
{
    huttavel handle = HUTTAVEL_CLOSED_HANDLE;
    huttavel_opening opening = {4, 20, 0, 0};

    opening.charset = charset;
    IS(HUTTAVEL_OK, huttavel_open_bundled_as(&handle, &opening));
    return handle;
}

static void opening(void)
{
    huttavel handle = HUTTAVEL_CLOSED_HANDLE;
    huttavel_opening other = {0, 1, 2, 0};
    uint32_t rows = 0, columns = 0;

    IS(HUTTAVEL_CLOSED, huttavel_open_bundled_as(NULL, &other));
    IS(HUTTAVEL_BAD_CHARSET, huttavel_open_bundled_as(&handle, &other));
    IS(HUTTAVEL_BAD_CHARSET, huttavel_open_as(&handle, NULL, 0, &other, NULL));
    IS(HUTTAVEL_BAD_LENGTH, huttavel_open_as(&handle, NULL, 1, &other, NULL));
    other.charset = HUTTAVEL_UTF8;
    IS(HUTTAVEL_BAD_SIZE, huttavel_open_bundled_as(&handle, &other));
    CHECK(!huttavel_is_open(&handle));
    IS(HUTTAVEL_TRUNCATED, huttavel_open_as(&handle, NULL, 0, NULL, NULL));
    IS(HUTTAVEL_OK, huttavel_open_bundled_as(&handle, NULL));
    IS(HUTTAVEL_OK, huttavel_screen_size(&handle, &rows, &columns));
    CHECK(rows == 24 && columns == 80);
    other.charset = UINT32_MAX;
    IS(HUTTAVEL_IS_OPEN, huttavel_open_bundled_as(&handle, &other));
    IS(HUTTAVEL_OK, huttavel_close(&handle));
    CHECK(strcmp(huttavel_fault_text(HUTTAVEL_BAD_CHARSET), "no such charset") == 0);
}

/* A code, how many columns it takes, and what is shown of it. */
static void measuring(void)
{
    static const uint32_t known[][3] = {
        {'a', 1, 'a'},           {0xe9, 1, 0xe9},         {0x2500, 1, 0x2500},   {0x4e2d, 2, 0xfffd},
        {0x301, 0, 0xfffd},      {0x200b, 0, 0xfffd},     {0x1f600, 2, 0xfffd},  {0x10400, 1, 0xfffd},
        {0xe000, 1, 0xe000},     {0xfffd, 1, 0xfffd},     {0xffff, 1, 0xfffd},   {0xd800, 0, 0xfffd},
        {0x110000, 0, 0xfffd},   {UINT32_MAX, 0, 0xfffd}, {10, 0, 0xfffd},       {0x85, 0, 0xfffd},
        {0x7f, 0, 0xfffd},       {0xa0, 1, 0xa0},         {0x2603, 1, 0x2603},   {0x28ff, 1, 0x28ff},
    };

    for (size_t n = 0; n < sizeof known / sizeof *known; n++) {
        uint32_t shown = 0;

        if (huttavel_columns(known[n][0], &shown) != known[n][1] || shown != known[n][2]) {
            printf("U+%04x: %u columns of U+%04x\n", (unsigned)known[n][0],
                   (unsigned)huttavel_columns(known[n][0], NULL), (unsigned)shown);
            failed = 1;
        }
    }
    /* curses.h does not ask for lines and blocks. */
    for (uint32_t code = 0x2500; code < 0x25a0; code++) {
        uint32_t shown = 0;

        CHECK(huttavel_columns(code, &shown) == 1 && shown == code);
    }
}

static void adding(void)
{
    huttavel handle = open_screen(HUTTAVEL_UTF8);
    static const uint32_t none[] = {0, 10, 127, 159, 0xad, 0x301, 0x4e2d, 0xd800, 0x10000, 0x110000, UINT32_MAX};
    huttavel_cell cell;
    bool stayed = true;

    IS(HUTTAVEL_OK, huttavel_add_character(&handle, 0, 0xe9, HUTTAVEL_BOLD, &stayed));
    CHECK(!stayed);
    cell = cell_of(&handle, 0, 0, 0);
    CHECK(cell.character == 0xe9 && cell.byte == 'e' && cell.attrs == HUTTAVEL_BOLD && cell.pair == 0);
    for (size_t n = 0; n < sizeof none / sizeof *none; n++) {
        IS(HUTTAVEL_NOT_ONE_COLUMN, huttavel_add_character(&handle, 0, none[n], 0, &stayed));
        IS(HUTTAVEL_NO_WINDOW, huttavel_add_character(&handle, 9, none[n], 0, &stayed));
        IS(HUTTAVEL_NOT_ONE_COLUMN, huttavel_insert_character(&handle, 0, none[n], 0));
        IS(HUTTAVEL_NOT_ONE_COLUMN, huttavel_line_across_of(&handle, 0, none[n], 3));
        IS(HUTTAVEL_NOT_ONE_COLUMN, huttavel_line_down_of(&handle, 0, none[n], 3));
        IS(HUTTAVEL_NOT_ONE_COLUMN, huttavel_set_background_of(&handle, 9, none[n], 0, 99));
    }
    CHECK(at(&handle, 0, 1) == ' ');
    IS(HUTTAVEL_OK, add(&handle, "\xe2\x94\x80 x"));
    CHECK(at(&handle, 0, 1) == 0x2500 && at(&handle, 0, 2) == ' ' && at(&handle, 0, 3) == 'x');
    CHECK(cell_of(&handle, 0, 0, 1).byte == '-');
    /* One of two columns, an accent, two broken bytes, one that is cut off, and a control character from 128 on. */
    IS(HUTTAVEL_OK, huttavel_move_cursor(&handle, 0, 1, 0));
    IS(HUTTAVEL_OK, add(&handle, "a\xe4\xb8\xad" "be\xcc\x81\xc0\x80" "c\xe2\x94" "d\xc2\x85\xf0\x9f"));
    static const uint32_t line[] = {'a', 0xfffd, 0xfffd, 'b', 'e', 0xfffd, 0xfffd, 'c',
                                    0xfffd, 0xfffd, 'd', '~', 'E', 0xfffd, 0xfffd, ' '};
    for (uint32_t n = 0; n < sizeof line / sizeof *line; n++)
        check(at(&handle, 1, n) == line[n], "a line of a broken text", (int)n);
    IS(HUTTAVEL_OK, huttavel_move_cursor(&handle, 0, 3, 19));
    IS(HUTTAVEL_OK, huttavel_add_utf8(&handle, 0, (const uint8_t *)"\xc3\xa9", 2, &stayed));
    CHECK(stayed && at(&handle, 3, 19) == 0xe9);
    IS(HUTTAVEL_OK, huttavel_add_utf8(&handle, 0, NULL, 0, &stayed));
    CHECK(!stayed);
    IS(HUTTAVEL_BAD_LENGTH, huttavel_add_utf8(&handle, 0, NULL, 1, NULL));
    IS(HUTTAVEL_NO_WINDOW, huttavel_add_utf8(&handle, 9, (const uint8_t *)"\xff", 1, NULL));
    IS(HUTTAVEL_CLOSED, huttavel_add_utf8(NULL, 0, NULL, 0, NULL));
    IS(HUTTAVEL_OK, huttavel_close(&handle));
    IS(HUTTAVEL_CLOSED, huttavel_add_utf8(&handle, 0, NULL, 0, NULL));
    IS(HUTTAVEL_CLOSED, huttavel_add_character(&handle, 0, 'a', 0, NULL));
}

static void drawing(void)
{
    static const uint32_t box[8] = {0x2502, 0x2502, 0x2500, 0x2500, 0x256d, 0x256e, 0x2570, 0x256f};
    uint32_t broken[8];
    huttavel handle = open_screen(HUTTAVEL_UTF8);
    huttavel_cell cell = {0, 0, 0, 0};

    memcpy(broken, box, sizeof box);
    broken[7] = 7;
    IS(HUTTAVEL_OK, huttavel_border_of(&handle, 0, box));
    CHECK(at(&handle, 0, 0) == 0x256d && at(&handle, 0, 19) == 0x256e && at(&handle, 3, 0) == 0x2570);
    CHECK(at(&handle, 3, 19) == 0x256f && at(&handle, 1, 0) == 0x2502 && at(&handle, 3, 7) == 0x2500);
    IS(HUTTAVEL_NOT_ONE_COLUMN, huttavel_border_of(&handle, 0, broken));
    IS(HUTTAVEL_BAD_LENGTH, huttavel_border_of(&handle, 9, NULL));
    IS(HUTTAVEL_NO_WINDOW, huttavel_border_of(&handle, 9, broken));
    IS(HUTTAVEL_CLOSED, huttavel_border_of(NULL, 0, box));
    IS(HUTTAVEL_OK, huttavel_move_cursor(&handle, 0, 1, 1));
    IS(HUTTAVEL_OK, huttavel_line_across_of(&handle, 0, 0x2588, 500));
    IS(HUTTAVEL_OK, huttavel_line_down_of(&handle, 0, 0x2551, 2));
    CHECK(at(&handle, 1, 1) == 0x2551 && at(&handle, 2, 1) == 0x2551 && at(&handle, 1, 19) == 0x2588);
    IS(HUTTAVEL_OK, huttavel_insert_character(&handle, 0, 0x3b1, HUTTAVEL_DIM));
    CHECK(at(&handle, 1, 1) == 0x3b1 && at(&handle, 1, 2) == 0x2551 && at(&handle, 1, 3) == 0x2588);
    IS(HUTTAVEL_NO_WINDOW, huttavel_line_across_of(&handle, 9, 'a', 1));
    IS(HUTTAVEL_NO_WINDOW, huttavel_line_down_of(&handle, 9, 'a', 1));
    IS(HUTTAVEL_NO_WINDOW, huttavel_insert_character(&handle, 9, 'a', 1));
    IS(HUTTAVEL_BAD_PAIR, huttavel_change_background_of(&handle, 9, 0xb7, 0, 64));
    IS(HUTTAVEL_NO_WINDOW, huttavel_change_background_of(&handle, 9, 0xb7, 0, 63));
    IS(HUTTAVEL_OK, huttavel_change_background_of(&handle, 0, 0xb7, HUTTAVEL_REVERSE, 63));
    IS(HUTTAVEL_OK, huttavel_background(&handle, 0, &cell));
    CHECK(cell.character == 0xb7 && cell.attrs == HUTTAVEL_REVERSE && cell.pair == 63 && cell.byte == '.');
    CHECK(at(&handle, 2, 2) == 0xb7 && at(&handle, 2, 1) == 0x2551);
    IS(HUTTAVEL_OK, huttavel_set_background_of(&handle, 0, 'z', 0, 0));
    IS(HUTTAVEL_OK, huttavel_erase(&handle, 0));
    CHECK(at(&handle, 3, 3) == 'z');
    IS(HUTTAVEL_OK, huttavel_close(&handle));
}

/* A text and what is read of it, one scalar value or broken byte after the other. */
typedef struct sample {
    uint8_t bytes[400];
    size_t length;
    uint32_t codes[400];
    size_t count;
} sample;

/* A scalar value of any plane that is no control character: often one of the first, which have most that is shown. */
static uint32_t any_code(void)
{
    static const uint32_t ends[6] = {127, 256, 0x800, 0x3000, 0x10000, 0x110000};
    uint32_t code;

    do
        code = any(ends[any(6)]);
    while (code < 32 || (code >= 127 && code < 160) || (code >= 0xd800 && code < 0xe000));
    return code;
}

static void put_code(sample *of, uint32_t code)
{
    uint8_t *to = of->bytes + of->length;

    if (code < 0x80) {
        to[0] = (uint8_t)code;
        of->length += 1;
    } else if (code < 0x800) {
        to[0] = (uint8_t)(0xc0 | code >> 6);
        to[1] = (uint8_t)(0x80 | (code & 63));
        of->length += 2;
    } else if (code < 0x10000) {
        to[0] = (uint8_t)(0xe0 | code >> 12);
        to[1] = (uint8_t)(0x80 | (code >> 6 & 63));
        to[2] = (uint8_t)(0x80 | (code & 63));
        of->length += 3;
    } else {
        to[0] = (uint8_t)(0xf0 | code >> 18);
        to[1] = (uint8_t)(0x80 | (code >> 12 & 63));
        to[2] = (uint8_t)(0x80 | (code >> 6 & 63));
        to[3] = (uint8_t)(0x80 | (code & 63));
        of->length += 4;
    }
}

/* Bytes that are scalar values, or broken. */
static sample any_text(size_t parts)
{
    sample text = {{0}, 0, {0}, 0};

    for (size_t n = 0; n < parts; n++) {
        size_t before = text.length;

        switch (any(4)) {
        case 0: text.bytes[text.length++] = (uint8_t)(160 + any(96)); break;
        case 1: /* The beginning of one, or one that is too long for its code. */
            put_code(&text, any_code());
            if (text.length - before > 1)
                text.length--;
            break;
        default: put_code(&text, any_code());
        }
    }
    return text;
}

/* Reads a text by RFC 3629: a sequence of the shortest form of a scalar value is that one, and each other byte is
   broken by itself. */
static void read_text(sample *of)
{
    static const uint32_t least[5] = {0, 0, 0x80, 0x800, 0x10000};
    size_t i = 0;

    for (of->count = 0; i < of->length; of->count++) {
        uint8_t first = of->bytes[i];
        size_t length = first < 0x80   ? 1
                        : first < 0xc0 ? 0
                        : first < 0xe0 ? 2
                        : first < 0xf0 ? 3
                        : first < 0xf8 ? 4
                                       : 0;
        uint32_t code = length == 1 ? first : length == 0 ? 0 : first & (0x7fu >> length);
        bool is_whole = length > 0 && length <= of->length - i;

        for (size_t n = 1; is_whole && n < length; n++) {
            is_whole = (of->bytes[i + n] & 0xc0) == 0x80;
            code = code << 6 | (of->bytes[i + n] & 63);
        }
        is_whole = is_whole && code >= least[length] && code <= 0x10ffff && (code < 0xd800 || code > 0xdfff);
        of->codes[of->count] = is_whole ? code : 0xfffd;
        i += is_whole ? length : 1;
    }
}

/* A text in one line of a pad, from a column on: each scalar value takes its columns, and each broken byte one. */
static void no_column_is_lost(void)
{
    enum { WIDTH = 700, TEXTS = 3000 };
    huttavel handle = open_screen(HUTTAVEL_UTF8);
    unsigned columns = 0, broken = 0;
    uint32_t pad = 0;

    IS(HUTTAVEL_OK, huttavel_new_pad(&handle, 1, WIDTH, &pad));
    for (unsigned n = 0; n < TEXTS && !failed; n++) {
        sample text = any_text(any(40));
        uint32_t column = 0, row = 9, end = 9;

        read_text(&text);
        IS(HUTTAVEL_OK, huttavel_erase(&handle, pad));
        IS(HUTTAVEL_OK, huttavel_add_utf8(&handle, pad, text.bytes, text.length, NULL));
        for (size_t i = 0; i < text.count; i++) {
            uint32_t shown = 0, many = huttavel_columns(text.codes[i], &shown);

            for (; many > 0; many--)
                CHECK(cell_of(&handle, pad, 0, column++).character == shown);
            broken += text.codes[i] == 0xfffd;
        }
        IS(HUTTAVEL_OK, huttavel_cursor(&handle, pad, &row, &end));
        CHECK(row == 0 && end == column && cell_of(&handle, pad, 0, column).character == ' ');
        columns += column;
    }
    printf("characters: %d texts, %u columns, %u broken bytes\n", TEXTS, columns, broken);
    IS(HUTTAVEL_OK, huttavel_close(&handle));
}

/* What waits is sent to a terminal, in pieces. */
static void send(huttavel *handle, terminal *to)
{
    uint8_t bytes[7];
    size_t count;

    while ((count = huttavel_bytes(handle, bytes, 1 + any(sizeof bytes))) > 0) {
        terminal_read(to, bytes, count);
        IS(HUTTAVEL_OK, huttavel_took(handle, count));
    }
}

/* Updates of random texts with attributes, scrolled and erased now and then. */
static void terminals_show_it(uint32_t charset)
{
    huttavel handle = HUTTAVEL_CLOSED_HANDLE;
    huttavel_opening opening = {ROWS, COLUMNS, charset, 0};
    terminal to;

    terminal_begin(&to, '?');
    to.is_utf8 = charset == HUTTAVEL_UTF8;
    IS(HUTTAVEL_OK, huttavel_open_bundled_as(&handle, &opening));
    IS(HUTTAVEL_OK, huttavel_scroll_ok(&handle, 0, true));
    IS(HUTTAVEL_OK, huttavel_start(&handle));
    for (unsigned n = 0; n < 500 && !failed; n++) {
        sample text = any_text(any(30));

        IS(HUTTAVEL_OK, huttavel_move_cursor(&handle, 0, any(ROWS), any(COLUMNS)));
        IS(HUTTAVEL_OK, huttavel_attr_set(&handle, 0, (uint8_t)any(128)));
        IS(HUTTAVEL_OK, huttavel_add_utf8(&handle, 0, text.bytes, text.length, NULL));
        IS(HUTTAVEL_OK, huttavel_line_across_of(&handle, 0, 0x2500 + any(128), any(COLUMNS)));
        switch (any(6)) {
        case 0: IS(HUTTAVEL_OK, huttavel_scroll(&handle, 0, (int32_t)any(5) - 2)); break;
        case 1: IS(HUTTAVEL_OK, huttavel_clear_to_eol(&handle, 0)); break;
        case 2: IS(HUTTAVEL_OK, huttavel_change_background_of(&handle, 0, any(2) ? ' ' : 0x2591, 0, 0)); break;
        }
        IS(HUTTAVEL_OK, huttavel_noutrefresh(&handle, 0));
        IS(HUTTAVEL_OK, huttavel_doupdate(&handle));
        send(&handle, &to);
        CHECK(terminal_shows(&to, &handle));
    }
    IS(HUTTAVEL_OK, huttavel_close(&handle));
}

int main(void)
{
    opening();
    measuring();
    adding();
    drawing();
    no_column_is_lost();
    terminals_show_it(HUTTAVEL_ASCII);
    terminals_show_it(HUTTAVEL_UTF8);
    if (!failed)
        puts("characters: as wanted");
    return failed;
}
