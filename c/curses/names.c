/* Capabilities by their names of terminfo: the library knows those that screens need, and the shim the others. Names
   that begin with OT are those of old entries of termcap. */

static const char *const flags_from_37[] = {
    "OTbs", "OTns", "OTnc", "OTMT", "OTNL", "OTpt", "OTxr"};

static const char *const numbers_from_33[] = {
    "OTug", "OTdC", "OTdN", "OTdB", "OTdT", "OTkn"};

static const char *const strings_from_186[] = {
    "kBEG", "kCAN", "kCMD", "kCPY", "kCRT", "kDC", "kDL", "kslt", "kEND", "kEOL", "kEXT", "kFND", "kHLP", "kHOM",
    "kIC", "kLFT", "kMSG", "kMOV", "kNXT", "kOPT", "kPRV", "kPRT", "kRDO", "kRPL", "kRIT", "kRES", "kSAV", "kSPD",
    "kUND", "rfi"};

static const char *const strings_from_270[] = {
    "mgc", "smgl", "smgr", "fln", "sclk", "dclk", "rmclk", "cwin", "wingo", "hup", "dial", "qdial", "tone", "pulse",
    "hook", "pause", "wait", "u0", "u1", "u2", "u3", "u4", "u5", "u6", "u7", "u8", "u9"};

static const char *const strings_from_298[] = {
    "oc", "initc", "initp", "scp", "setf", "setb", "cpi", "lpi", "chr", "cvr", "defc", "swidm", "sdrfq", "sitm",
    "slm", "smicm", "snlq", "snrmq", "sshm", "ssubm", "ssupm", "sum", "rwidm", "ritm", "rlm", "rmicm", "rshm",
    "rsubm", "rsupm", "rum", "mhpa", "mcud1", "mcub1", "mcuf1", "mvpa", "mcuu1", "porder", "mcud", "mcub", "mcuf",
    "mcuu", "scs", "smgb", "smgbp", "smglp", "smgrp", "smgt", "smgtp", "sbim", "scsd", "rbim", "rcsd", "subcs",
    "supcs", "docr", "zerom", "csnm", "kmous", "minfo", "reqmp", "getm"};

static const char *const strings_from_361[] = {
    "pfxl", "devt", "csin", "s0ds", "s1ds", "s2ds", "s3ds", "smglr", "smgtb", "birep", "binel", "bicr", "colornm",
    "defbi", "endbi", "setcolor", "slines", "dispc", "smpch", "rmpch", "smsc", "rmsc", "pctrm", "scesc", "scesa",
    "ehhlm", "elhlm", "elohlm", "erhlm", "ethlm", "evhlm", "sgr1", "slength", "OTi2", "OTrs", "OTnl", "OTbc",
    "OTko", "OTma", "OTG2", "OTG3", "OTG1", "OTG4", "OTGR", "OTGL", "OTGU", "OTGD", "OTGH", "OTGV", "OTGC", "meml",
    "memu", "box1"};

/* The kind and the first position of each of these, in the order of term(5). */
static const struct {
    uint32_t kind, first;
    size_t count;
    const char *const *names;
} runs[] = {
    {HUTTAVEL_FLAG, 37, COUNT_OF(flags_from_37), flags_from_37},
    {HUTTAVEL_NUMBER, 33, COUNT_OF(numbers_from_33), numbers_from_33},
    {HUTTAVEL_TEXT, 186, COUNT_OF(strings_from_186), strings_from_186},
    {HUTTAVEL_TEXT, 270, COUNT_OF(strings_from_270), strings_from_270},
    {HUTTAVEL_TEXT, 298, COUNT_OF(strings_from_298), strings_from_298},
    {HUTTAVEL_TEXT, 361, COUNT_OF(strings_from_361), strings_from_361}};

/* Finds one of these. False if the name is none of them. */
static bool find_in_runs(const char *name, huttavel_capability *which)
{
    size_t run, n;

    for (run = 0; run < COUNT_OF(runs); run++)
        for (n = 0; n < runs[run].count; n++)
            if (!strcmp(name, runs[run].names[n])) {
                which->kind = runs[run].kind;
                which->position = runs[run].first + (uint32_t)n;
                return true;
            }
    return false;
}

/* Whether there is a capability of this name and kind, and its position. */
static bool is_named(const char *name, uint32_t kind, uint32_t *position)
{
    huttavel_capability which;

    if (!name || (huttavel_capability_named((const uint8_t *)name, strlen(name), &which) != HUTTAVEL_OK &&
                  !find_in_runs(name, &which)))
        return false;
    *position = which.position;
    return which.kind == kind;
}

int tigetflag(const char *name)
{
    uint32_t position;

    if (!is_named(name, HUTTAVEL_FLAG, &position))
        return -1;
    return cur_term && cur_term->flags[position];
}

int tigetnum(const char *name)
{
    uint32_t position;

    if (!is_named(name, HUTTAVEL_NUMBER, &position))
        return -2;
    return cur_term ? cur_term->numbers[position] : -1;
}

char *tigetstr(const char *name)
{
    uint32_t position;

    if (!is_named(name, HUTTAVEL_TEXT, &position))
        return (char *)-1;
    return cur_term ? cur_term->strings[position] : NULL;
}
