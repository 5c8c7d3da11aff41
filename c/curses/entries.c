/* The compiled entry of a terminal's name: where it is, and what the shim itself reads of it (terminfo(5), 'Fetching
   Compiled Descriptions'; term(5)). */

/* The positions of the strings that are sent here and by no update, and of those that are asked for here. */
enum {
    BELL = 1,
    CHANGE_REGION = 3,
    CURSOR_ADDRESS = 10,
    CURSOR_INVISIBLE = 13,
    CURSOR_NORMAL = 16,
    CURSOR_VISIBLE = 20,
    ENTER_SCREEN = 28,
    ENTER_INSERT = 31,
    EXIT_SCREEN = 40,
    EXIT_INSERT = 42,
    FLASH = 45,
    INSERT_CHARACTER = 52,
    INSERT_LINE = 53,
    KEYPAD_LOCAL = 88,
    KEYPAD_TRANSMIT = 89,
    INSERT_CHARACTERS = 108,
    MOUSE_KEY = 355
};

/* The size of a file of an entry that is not read to its end. */
#define LONGEST_ENTRY 32769

#define SYSTEM_FOLDERS "/etc/terminfo:/lib/terminfo:/usr/share/terminfo"

/* The name of an entry that is looked for, and what was found out meanwhile. */
struct search {
    const char *name;
    bool has_folder;           /* there is a folder of entries */
    bool is_short;             /* memory ran out */
};

/* Reads a file whole. NULL bytes if it cannot be read, or memory runs out. */
static struct text read_file(const char *path, struct search *search)
{
    struct text text = {NULL, 0};
    int file = open(path, O_RDONLY | O_CLOEXEC);
    ssize_t count;

    if (file < 0)
        return text;
    text.bytes = malloc(LONGEST_ENTRY);
    search->is_short |= !text.bytes;
    while (text.bytes && (count = read(file, text.bytes + text.length, LONGEST_ENTRY - text.length)) != 0)
        if (count > 0) {
            text.length += (size_t)count;
        } else if (errno != EINTR) {
            free(text.bytes);
            text.bytes = NULL;
        }
    close(file);
    return text;
}

/* Reads the entry of a name from a folder: it is in the subfolder of its first letter, or of the letter's code. */
static struct text read_in(const char *folder, size_t length, struct search *search)
{
    static const char digits[] = "0123456789abcdef";
    const char *name = search->name;
    const char letter[] = {'/', *name, '/', '\0'}, code[] = {'/', digits[*name / 16], digits[*name % 16], '/', '\0'};
    struct text text = {NULL, 0};
    char *path = malloc(length + sizeof code + strlen(name));

    search->is_short |= !path;
    if (!path)
        return text;
    memcpy(path, folder, length);
    path[length] = '\0';
    if (access(path, F_OK) == 0) {
        search->has_folder = true;
        strcat(strcpy(path + length, letter), name);
        text = read_file(path, search);
        if (!text.bytes && !search->is_short) {
            strcat(strcpy(path + length, code), name);
            text = read_file(path, search);
        }
    }
    free(path);
    return text;
}

/* Reads the entry of a name in the first of these folders that has one, between colons. An empty one stands for the
   system's. */
static struct text read_among(const char *folders, struct search *search)
{
    struct text text = {NULL, 0};

    while (!text.bytes && !search->is_short) {
        size_t length = strcspn(folders, ":");

        text = length ? read_in(folders, length, search) : read_among(SYSTEM_FOLDERS, search);
        if (!folders[length])
            break;
        folders += length + 1;
    }
    return text;
}

/* Whether a name can be that of an entry. */
static bool is_terminal_name(const char *name)
{
    if (!*name || !strcmp(name, ".") || !strcmp(name, ".."))
        return false;
    for (; *name; name++)
        if (*name <= ' ' || *name > '~' || *name == '/')
            return false;
    return true;
}

/* Reads the entry that is looked for from the folder of the user's own. */
static struct text read_at_home(const char *home, struct search *search)
{
    struct text text = {NULL, 0};
    char *folder = malloc(strlen(home) + sizeof "/.terminfo");

    search->is_short |= !folder;
    if (!folder)
        return text;
    strcpy(folder, home);
    strcat(folder, "/.terminfo");
    text = read_in(folder, strlen(folder), search);
    free(folder);
    return text;
}

/* Finds and reads the entry that is looked for. NULL bytes if there is none. The search ends where memory runs out:
   another folder may have another entry of the name. */
static struct text find_entry(struct search *search)
{
    struct text text = {NULL, 0};
    const char *given = getenv("TERMINFO"), *home = getenv("HOME"), *listed = getenv("TERMINFO_DIRS");

    if (!is_terminal_name(search->name)) {
        search->has_folder = true;
        return text;
    }
    if (given && *given)
        text = read_in(given, strlen(given), search);
    if (!text.bytes && !search->is_short && home && *home)
        text = read_at_home(home, search);
    if (!text.bytes && listed && *listed)
        text = read_among(listed, search);
    return text.bytes ? text : read_among(SYSTEM_FOLDERS, search);
}

/* Why none was found. */
static const char *why_none(const struct search *search)
{
    if (search->is_short)
        return "out of memory";
    return search->has_folder ? "no entry of this name" : "no folder of entries";
}

/* A number of 16 bits of an entry; 0xffff past its end. */
static unsigned short_at(const struct text *entry, size_t place)
{
    if (place + 2 > entry->length)
        return 0xffff;
    return entry->bytes[place] | (unsigned)entry->bytes[place + 1] << 8;
}

/* The parts of an entry lie one behind the other: the names, the flags, a byte if these end at an odd place, the
   numbers, and the offsets of the strings, each of two bytes. */
#define NAMES 12

static size_t flags_of(const struct text *entry)
{
    return NAMES + short_at(entry, 2);
}

/* Whether an entry has the flag at a position. */
static bool has_flag(const struct text *entry, size_t position)
{
    size_t place = flags_of(entry) + position;

    return position < short_at(entry, 4) && place < entry->length && entry->bytes[place] == 1;
}

static size_t numbers_of(const struct text *entry)
{
    size_t end = flags_of(entry) + short_at(entry, 4);

    return end + end % 2;
}

/* How many bytes a number has. */
static size_t width_of_numbers(const struct text *entry)
{
    return short_at(entry, 0) == 0x021e ? 4 : 2;
}

static size_t offsets_of(const struct text *entry)
{
    return numbers_of(entry) + width_of_numbers(entry) * short_at(entry, 6);
}

/* Where the strings of an entry are: behind their offsets, of which there are so many. Each ends at a NUL, so it begins
   before the last one. */
struct strings {
    const struct text *entry;
    size_t offsets, count, end;
};

static struct strings strings_of(const struct text *entry)
{
    struct strings strings = {entry, offsets_of(entry), short_at(entry, 8), entry->length};

    while (strings.end > 0 && entry->bytes[strings.end - 1])
        strings.end--;
    return strings;
}

/* The string at a position, or NULL. */
static char *string_at(const struct strings *strings, size_t position)
{
    size_t begin = position < strings->count ? short_at(strings->entry, strings->offsets + 2 * position) : 0xffff;
    size_t place = strings->offsets + 2 * strings->count + begin;

    return begin > 0x7fff || place >= strings->end ? NULL : (char *)strings->entry->bytes + place;
}

/* The string at a position of a screen's entry, or NULL. */
static const char *string_of(const SCREEN *screen, unsigned position)
{
    const struct strings strings = strings_of(&screen->entry);

    return string_at(&strings, position);
}

/* A padding, as `$<5.5*>`: a pause between bytes of a string (terminfo(5), 'Delays and Padding'). */
struct padding {
    long tenths;               /* of a millisecond */
    bool is_proportional;      /* it is for each line that the string affects */
    bool is_mandatory;
};

/* The longest padding, in milliseconds. */
#define LONGEST_PADDING 100000

/* Whether a character of the text is there, which is gone over then. */
static bool skips(const char **text, char character)
{
    if (**text != character)
        return false;
    ++*text;
    return true;
}

/* Reads a padding: its length in the text, 0 if none begins there. */
static size_t padding_at(const char *text, struct padding *padding)
{
    const char *place = text;
    char *end;
    long whole;

    if (!skips(&place, '$') || !skips(&place, '<') || *place < '0' || *place > '9')
        return 0;
    whole = strtol(place, &end, 10);
    place = end;
    padding->tenths = 10 * (whole < LONGEST_PADDING ? whole : LONGEST_PADDING);
    if (skips(&place, '.')) {
        if (*place < '0' || *place > '9')
            return 0;
        padding->tenths += *place++ - '0';
    }
    padding->is_proportional = skips(&place, '*');
    padding->is_mandatory = skips(&place, '/');
    if (!padding->is_proportional)
        padding->is_proportional = skips(&place, '*');
    return skips(&place, '>') ? (size_t)(place - text) : 0;
}

/* A string of the entry as it is sent, without padding, in memory of its own; empty where the entry has none. NULL
   bytes if memory runs out. */
static struct text sent_text(const SCREEN *screen, unsigned position)
{
    const char *string = string_of(screen, position);
    struct text text = {NULL, 0};

    text.bytes = malloc(string ? strlen(string) + 1 : 1);
    while (text.bytes && string && *string) {
        struct padding padding;
        size_t length = padding_at(string, &padding);

        if (length == 0)
            text.bytes[text.length++] = (uint8_t)*string++;
        string += length;
    }
    return text;
}

/* A copy of an entry that has none of the strings which are sent here, at the two ends and for the keypad. */
static struct text entry_of_updates(const struct text *entry)
{
    static const unsigned sent_here[] = {ENTER_SCREEN, EXIT_SCREEN, KEYPAD_LOCAL, KEYPAD_TRANSMIT};
    struct text copy = {malloc(entry->length + 1), entry->length};
    size_t n;

    if (!copy.bytes)
        return copy;
    memcpy(copy.bytes, entry->bytes, entry->length);
    for (n = 0; n < sizeof sent_here / sizeof *sent_here; n++) {
        size_t place = offsets_of(entry) + 2 * sent_here[n];

        if (sent_here[n] < short_at(entry, 8) && place + 2 <= copy.length)
            copy.bytes[place] = copy.bytes[place + 1] = 0xff;
    }
    return copy;
}
