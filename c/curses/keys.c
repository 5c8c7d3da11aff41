/* Names of keys and characters. */

char *unctrl(chtype character)
{
    static char texts[256][5];
    uint8_t byte = byte_of(character), plain = byte & 127;
    const char *prefix = byte >= 128 ? "M-" : "";
    char *text = texts[byte];

    if (plain < ' ' || plain == 127)
        snprintf(text, sizeof texts[byte], "%s^%c", prefix, plain ^ 64);
    else
        snprintf(text, sizeof texts[byte], "%s%c", prefix, plain);
    return text;
}

/* The names of keys, but function keys. */
static struct {
    int key;
    char name[16];
} key_names[] = {
#define NAMED(name) {name, #name}
    NAMED(KEY_BACKSPACE), NAMED(KEY_CATAB), NAMED(KEY_CLEAR), NAMED(KEY_CTAB), NAMED(KEY_DC), NAMED(KEY_DL),
    NAMED(KEY_DOWN), NAMED(KEY_EIC), NAMED(KEY_EOL), NAMED(KEY_EOS), NAMED(KEY_HOME), NAMED(KEY_IC), NAMED(KEY_IL),
    NAMED(KEY_LEFT), NAMED(KEY_LL), NAMED(KEY_NPAGE), NAMED(KEY_PPAGE), NAMED(KEY_RIGHT), NAMED(KEY_SF),
    NAMED(KEY_SR), NAMED(KEY_STAB), NAMED(KEY_UP), NAMED(KEY_A1), NAMED(KEY_A3), NAMED(KEY_B2), NAMED(KEY_C1),
    NAMED(KEY_C3), NAMED(KEY_BTAB), NAMED(KEY_BEG), NAMED(KEY_CANCEL), NAMED(KEY_CLOSE), NAMED(KEY_COMMAND),
    NAMED(KEY_COPY), NAMED(KEY_CREATE), NAMED(KEY_END), NAMED(KEY_ENTER), NAMED(KEY_EXIT), NAMED(KEY_FIND),
    NAMED(KEY_HELP), NAMED(KEY_MARK), NAMED(KEY_MESSAGE), NAMED(KEY_MOVE), NAMED(KEY_NEXT), NAMED(KEY_OPEN),
    NAMED(KEY_OPTIONS), NAMED(KEY_PREVIOUS), NAMED(KEY_PRINT), NAMED(KEY_REDO), NAMED(KEY_REFERENCE),
    NAMED(KEY_REFRESH), NAMED(KEY_REPLACE), NAMED(KEY_RESTART), NAMED(KEY_RESUME), NAMED(KEY_SAVE),
    NAMED(KEY_SUSPEND), NAMED(KEY_UNDO), NAMED(KEY_SBEG), NAMED(KEY_SCANCEL), NAMED(KEY_SCOMMAND), NAMED(KEY_SCOPY),
    NAMED(KEY_SCREATE), NAMED(KEY_SDC), NAMED(KEY_SDL), NAMED(KEY_SELECT), NAMED(KEY_SEND), NAMED(KEY_SEOL),
    NAMED(KEY_SEXIT), NAMED(KEY_SFIND), NAMED(KEY_SHELP), NAMED(KEY_SHOME), NAMED(KEY_SIC), NAMED(KEY_SLEFT),
    NAMED(KEY_SMESSAGE), NAMED(KEY_SMOVE), NAMED(KEY_SNEXT), NAMED(KEY_SOPTIONS), NAMED(KEY_SPREVIOUS),
    NAMED(KEY_SPRINT), NAMED(KEY_SREDO), NAMED(KEY_SREPLACE), NAMED(KEY_SRIGHT), NAMED(KEY_SRSUME), NAMED(KEY_SSAVE),
    NAMED(KEY_SSUSPEND), NAMED(KEY_SUNDO), NAMED(KEY_MOUSE), NAMED(KEY_BREAK), NAMED(KEY_SRESET), NAMED(KEY_RESET),
    NAMED(KEY_RESIZE), NAMED(KEY_EVENT),
#undef NAMED
};

char *keyname(int key)
{
    static char functions[64][12];
    static char none[] = "-1";
    size_t n;

    if (key == ERR)
        return none;
    if (key >= 0 && key < KEY_MIN)
        return unctrl((chtype)key);
    if (key >= KEY_F0 && key <= KEY_F(63)) {
        snprintf(functions[key - KEY_F0], sizeof *functions, "KEY_F(%d)", key - KEY_F0);
        return functions[key - KEY_F0];
    }
    for (n = 0; n < COUNT(key_names); n++)
        if (key_names[n].key == key)
            return key_names[n].name;
    return NULL;
}
