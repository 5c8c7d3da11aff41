/* The calls of termcap.h. */

/* The codes of capabilities, in the order of term(5). Where one stands twice, the first counts that the entry has. */
static const char flag_codes[][3] = {
    "bw", "am", "xb", "xs", "xn", "eo", "gn", "hc", "km", "hs", "in", "da", "db", "mi", "ms", "os", "es", "xt",
    "hz", "ul", "xo", "nx", "5i", "HC", "NR", "NP", "ND", "cc", "ut", "hl", "YA", "YB", "YC", "YD", "YE", "YF",
    "YG", "bs", "ns", "nc", "MT", "NL", "pt", "xr"
};

static const char number_codes[][3] = {
    "co", "it", "li", "lm", "sg", "pb", "vt", "ws", "Nl", "lh", "lw", "ma", "MW", "Co", "pa", "NC", "Ya", "Yb",
    "Yc", "Yd", "Ye", "Yf", "Yg", "Yh", "Yi", "Yj", "Yk", "Yl", "Ym", "Yn", "BT", "Yo", "Yp", "ug", "dC", "dN",
    "dB", "dT", "kn"
};

static const char string_codes[][3] = {
    "bt", "bl", "cr", "cs", "ct", "cl", "ce", "cd", "ch", "CC", "cm", "do", "ho", "vi", "le", "CM", "ve", "nd",
    "ll", "up", "vs", "dc", "dl", "ds", "hd", "as", "mb", "md", "ti", "dm", "mh", "im", "mk", "mp", "mr", "so",
    "us", "ec", "ae", "me", "te", "ed", "ei", "se", "ue", "vb", "ff", "fs", "i1", "is", "i3", "if", "ic", "al",
    "ip", "kb", "ka", "kC", "kt", "kD", "kL", "kd", "kM", "kE", "kS", "k0", "k1", "k;", "k2", "k3", "k4", "k5",
    "k6", "k7", "k8", "k9", "kh", "kI", "kA", "kl", "kH", "kN", "kP", "kr", "kF", "kR", "kT", "ku", "ke", "ks",
    "l0", "l1", "la", "l2", "l3", "l4", "l5", "l6", "l7", "l8", "l9", "mo", "mm", "nw", "pc", "DC", "DL", "DO",
    "IC", "SF", "AL", "LE", "RI", "SR", "UP", "pk", "pl", "px", "ps", "pf", "po", "rp", "r1", "r2", "r3", "rf",
    "rc", "cv", "sc", "sf", "sr", "sa", "st", "wi", "ta", "ts", "uc", "hu", "iP", "K1", "K3", "K2", "K4", "K5",
    "pO", "rP", "ac", "pn", "kB", "SX", "RX", "SA", "RA", "XN", "XF", "eA", "LO", "LF", "@1", "@2", "@3", "@4",
    "@5", "@6", "@7", "@8", "@9", "@0", "%1", "%2", "%3", "%4", "%5", "%6", "%7", "%8", "%9", "%0", "&1", "&2",
    "&3", "&4", "&5", "&6", "&7", "&8", "&9", "&0", "*1", "*2", "*3", "*4", "*5", "*6", "*7", "*8", "*9", "*0",
    "#1", "#2", "#3", "#4", "%a", "%b", "%c", "%d", "%e", "%f", "%g", "%h", "%i", "%j", "!1", "!2", "!3", "RF",
    "F1", "F2", "F3", "F4", "F5", "F6", "F7", "F8", "F9", "FA", "FB", "FC", "FD", "FE", "FF", "FG", "FH", "FI",
    "FJ", "FK", "FL", "FM", "FN", "FO", "FP", "FQ", "FR", "FS", "FT", "FU", "FV", "FW", "FX", "FY", "FZ", "Fa",
    "Fb", "Fc", "Fd", "Fe", "Ff", "Fg", "Fh", "Fi", "Fj", "Fk", "Fl", "Fm", "Fn", "Fo", "Fp", "Fq", "Fr", "cb",
    "MC", "ML", "MR", "Lf", "SC", "DK", "RC", "CW", "WG", "HU", "DI", "QD", "TO", "PU", "fh", "PA", "WA", "u0",
    "u1", "u2", "u3", "u4", "u5", "u6", "u7", "u8", "u9", "op", "oc", "Ic", "Ip", "sp", "Sf", "Sb", "ZA", "ZB",
    "ZC", "ZD", "ZE", "ZF", "ZG", "ZH", "ZI", "ZJ", "ZK", "ZL", "ZM", "ZN", "ZO", "ZP", "ZQ", "ZR", "ZS", "ZT",
    "ZU", "ZV", "ZW", "ZX", "ZY", "ZZ", "Za", "Zb", "Zc", "Zd", "Ze", "Zf", "Zg", "Zh", "Zi", "Zj", "Zk", "Zl",
    "Zm", "Zn", "Zo", "Zp", "Zq", "Zr", "Zs", "Zt", "Zu", "Zv", "Zw", "Zx", "Zy", "Km", "Mi", "RQ", "Gm", "AF",
    "AB", "xl", "dv", "ci", "s0", "s1", "s2", "s3", "ML", "MT", "Xy", "Zz", "Yv", "Yw", "Yx", "Yy", "Yz", "YZ",
    "S1", "S2", "S3", "S4", "S5", "S6", "S7", "S8", "Xh", "Xl", "Xo", "Xr", "Xt", "Xv", "sA", "YI", "i2", "rs",
    "nl", "bc", "ko", "ma", "G2", "G3", "G1", "G4", "GR", "GL", "GU", "GD", "GH", "GV", "GC", "ml", "mu", "bx"
};

/* The positions of the flag and the strings that are asked for here. */
enum { BACKSPACES = 37, CURSOR_LEFT = 14, CURSOR_UP = 19, PAD_CHARACTER = 104 };

/* A program may define variables of these names itself, as programs for termcap do: then they are meant. */
#ifdef __GNUC__
#define OR_OF_PROGRAM __attribute__((__weak__))
#else
#define OR_OF_PROGRAM
#endif

OR_OF_PROGRAM char PC;
OR_OF_PROGRAM char *BC, *UP;
OR_OF_PROGRAM short ospeed;

/* The position of a code; -1 without one. */
static int position_of(const char *code, const char (*codes)[3], size_t count)
{
    size_t n;

    for (n = 0; code && n < count; n++)
        if (!strncmp(code, codes[n], 2))
            return (int)n;
    return -1;
}

/* Whether the cursor goes left by a backspace. */
static bool is_backspacing(void)
{
    const char *left = cur_term ? cur_term->strings[CURSOR_LEFT] : NULL;

    return left && !strcmp(left, "\b");
}

/* The first string of a code that the entry has, or NULL. */
static char *first_string(const char *code)
{
    size_t n;

    for (n = 0; cur_term && code && n < COUNT_OF(string_codes); n++)
        if (cur_term->strings[n] && !strncmp(code, string_codes[n], 2))
            return cur_term->strings[n];
    return NULL;
}

/* The same, but where an entry of terminfo has no such string, it is another one: termcap has fewer strings that begin
   and reset, and one that goes left if that is not a backspace. */
static char *string_of_code(const char *code)
{
    char *string = first_string(code);

    if (string || !code)
        return string;
    if (!strncmp(code, "rs", 2))
        return first_string("r1") ? NULL : first_string("r2");
    if (!strncmp(code, "i2", 2))
        return first_string("i3");
    return !strncmp(code, "bc", 2) && !is_backspacing() ? first_string("le") : NULL;
}

/* The code of a speed; 0 if it is unknown. */
static short code_of_speed(int bauds)
{
    short code;

    for (code = 0; code < 15 && bauds >= speeds[code].bauds; code++)
        ;
    return code;
}

/* Closes what tgetent() opened before, if it is another terminal. */
static void close_former(const TERMINAL *terminal)
{
    struct terminal *each, *next;

    for (each = terminals; each; each = next) {
        next = each->next;
        if (each->is_of_termcap && &each->seen != terminal)
            del_curterm(&each->seen);
    }
}

int tgetent(char *buffer, const char *type)
{
    const char *reason;
    TERMINAL *terminal;
    int status;

    if (buffer)
        *buffer = '\0';
    terminal = type ? opened_terminal(type, STDOUT_FILENO, &status, &reason) : NULL;
    if (!terminal)
        return type ? status : 0;
    if (terminal != cur_term)
        whole_of(terminal)->is_of_termcap = true;
    close_former(terminal);
    use_terminal(terminal);
    PC = terminal->strings[PAD_CHARACTER] ? *terminal->strings[PAD_CHARACTER] : '\0';
    BC = string_of_code("bc");
    UP = terminal->strings[CURSOR_UP];
    ospeed = code_of_speed(bauds_of(&whole_of(terminal)->line));
    return 1;
}

int tgetflag(const char *code)
{
    int position = position_of(code, flag_codes, COUNT_OF(flag_codes));

    if (position == BACKSPACES && is_backspacing())
        return true;
    return cur_term && position >= 0 && cur_term->flags[position];
}

int tgetnum(const char *code)
{
    int position = position_of(code, number_codes, COUNT_OF(number_codes));

    return cur_term && position >= 0 ? cur_term->numbers[position] : -1;
}

char *tgetstr(const char *code, char **area)
{
    char *string = string_of_code(code), *copy;

    if (!string || !area || !*area)
        return string;
    copy = *area;
    strcpy(copy, string);
    *area += strlen(copy) + 1;
    return copy;
}

char *tgoto(const char *text, int column, int row)
{
    return tiparm(text, row, column);
}
