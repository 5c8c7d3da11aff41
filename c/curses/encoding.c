/* Characters in UTF-8 (RFC 3629, section 3). */

/* The code of a character that is shown for bytes of none. */
#define REPLACEMENT 0xfffd

/* Writes the bytes of a character, and gives how many. */
static size_t encode(uint32_t code, uint8_t *bytes)
{
    size_t count = code < 0x80 ? 1 : code < 0x800 ? 2 : code < 0x10000 ? 3 : 4, n;

    for (n = count - 1; n > 0; n--, code >>= 6)
        bytes[n] = (uint8_t)(0x80 | (code & 0x3f));
    bytes[0] = (uint8_t)(count == 1 ? code : (0xf00u >> count & 0xf0) | code);
    return count;
}

static bool goes_on(uint8_t byte)
{
    return (byte & 0xc0) == 0x80;
}

/* How many bytes a character has that begins with this one; 0 if none does. */
static size_t sequence_length(uint8_t byte)
{
    return byte < 0x80 ? 1 : byte < 0xc2 ? 0 : byte < 0xe0 ? 2 : byte < 0xf0 ? 3 : byte < 0xf5 ? 4 : 0;
}

/* Whether a second byte can follow a first one: a character has its shortest form, is no surrogate, and none is above
   0x10ffff. */
static bool can_follow(uint8_t first, uint8_t second)
{
    switch (first) {
    case 0xe0: return second >= 0xa0;
    case 0xed: return second < 0xa0;
    case 0xf0: return second >= 0x90;
    case 0xf4: return second < 0x90;
    }
    return true;
}

/* The character that bytes begin with, at least one of them: how many are its own, 0 if the rest of them is not there
   yet, and -1 if no character begins so. */
static int decode(const uint8_t *bytes, size_t count, uint32_t *code)
{
    size_t length = sequence_length(bytes[0]), n;

    if (length == 0)
        return -1;
    *code = length == 1 ? bytes[0] : bytes[0] & 0x7fu >> length;
    for (n = 1; n < length && n < count; n++) {
        if (!goes_on(bytes[n]) || (n == 1 && !can_follow(bytes[0], bytes[1])))
            return -1;
        *code = *code << 6 | (bytes[n] & 0x3f);
    }
    return n == length ? (int)length : 0;
}

/* Whether a code is that of a control character. */
static bool is_control(uint32_t code)
{
    return code < ' ' || (code >= 127 && code < 160);
}

/* Whether a code is that of a character of Unicode. */
static bool is_scalar(uint32_t code)
{
    return code < 0xd800 || (code >= 0xe000 && code <= 0x10ffff);
}

/* How many columns a character takes, and its code becomes that of what is shown in them. Lines and blocks, which most
   are beyond ASCII, take one. */
static uint32_t fit(uint32_t *code)
{
    return *code >= 0x2500 && *code < 0x25a0 ? 1 : huttavel_columns(*code, code);
}

/* Whether the locale has characters in UTF-8: that of the program, which calls setlocale() before it opens a screen. */
static bool has_utf8(void)
{
    return !strcmp(nl_langinfo(CODESET), "UTF-8");
}

/* Joins a byte to those that are there, and gives how many characters are decided by it. A byte that no character
   begins with is one of its own. */
static size_t join(struct unended *unended, uint8_t byte, uint32_t codes[LONGEST_SEQUENCE])
{
    size_t done = 0;

    unended->bytes[unended->count++] = byte;
    while (unended->count > 0) {
        int length = decode(unended->bytes, unended->count, &codes[done]);

        if (length == 0)
            break;
        if (length < 0) {
            codes[done] = REPLACEMENT;
            length = 1;
        }
        done++;
        unended->count -= (size_t)length;
        memmove(unended->bytes, unended->bytes + length, unended->count);
    }
    return done;
}
