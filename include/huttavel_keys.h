/* The keys that a terminfo entry may have (terminfo(5), "Predefined Capabilities"; X/Open Curses Issue 7, "Key Codes").
 *
 * Each is the `code` of a huttavel_key whose `kind` is HUTTAVEL_KEY_NAMED: the position of its text among the string
 * capabilities. Included by huttavel.h.
 */
#ifndef HUTTAVEL_KEYS_H
#define HUTTAVEL_KEYS_H

enum huttavel_key_code {
    /* Backspace: kbs */
    HUTTAVEL_KEY_BACKSPACE = 55,
    /* Clear all tab stops: ktbc */
    HUTTAVEL_KEY_CLEAR_ALL_TABS = 56,
    /* Clear the screen, or erase: kclr */
    HUTTAVEL_KEY_CLEAR = 57,
    /* Clear a tab stop: kctab */
    HUTTAVEL_KEY_CLEAR_TAB = 58,
    /* Delete a character: kdch1 */
    HUTTAVEL_KEY_DELETE = 59,
    /* Delete a line: kdl1 */
    HUTTAVEL_KEY_DELETE_LINE = 60,
    /* Down arrow: kcud1 */
    HUTTAVEL_KEY_DOWN = 61,
    /* Leave insert mode: krmir */
    HUTTAVEL_KEY_EXIT_INSERT = 62,
    /* Clear to the line's end: kel */
    HUTTAVEL_KEY_CLEAR_TO_EOL = 63,
    /* Clear to the screen's end: ked */
    HUTTAVEL_KEY_CLEAR_TO_BOTTOM = 64,
    /* Home: khome */
    HUTTAVEL_KEY_HOME = 76,
    /* Insert a character, or enter insert mode: kich1 */
    HUTTAVEL_KEY_INSERT = 77,
    /* Insert a line: kil1 */
    HUTTAVEL_KEY_INSERT_LINE = 78,
    /* Left arrow: kcub1 */
    HUTTAVEL_KEY_LEFT = 79,
    /* Home down, the lower left corner: kll */
    HUTTAVEL_KEY_HOME_DOWN = 80,
    /* Next page: knp */
    HUTTAVEL_KEY_PAGE_DOWN = 81,
    /* Previous page: kpp */
    HUTTAVEL_KEY_PAGE_UP = 82,
    /* Right arrow: kcuf1 */
    HUTTAVEL_KEY_RIGHT = 83,
    /* Scroll forward a line: kind */
    HUTTAVEL_KEY_SCROLL_FORWARD = 84,
    /* Scroll backward a line: kri */
    HUTTAVEL_KEY_SCROLL_BACKWARD = 85,
    /* Set a tab stop: khts */
    HUTTAVEL_KEY_SET_TAB = 86,
    /* Up arrow: kcuu1 */
    HUTTAVEL_KEY_UP = 87,
    /* Upper left of the keypad: ka1 */
    HUTTAVEL_KEY_UPPER_LEFT = 139,
    /* Upper right of the keypad: ka3 */
    HUTTAVEL_KEY_UPPER_RIGHT = 140,
    /* Center of the keypad: kb2 */
    HUTTAVEL_KEY_CENTER = 141,
    /* Lower left of the keypad: kc1 */
    HUTTAVEL_KEY_LOWER_LEFT = 142,
    /* Lower right of the keypad: kc3 */
    HUTTAVEL_KEY_LOWER_RIGHT = 143,
    /* Back tab: kcbt */
    HUTTAVEL_KEY_BACK_TAB = 148,
    /* Beginning: kbeg */
    HUTTAVEL_KEY_BEGIN = 158,
    /* Cancel: kcan */
    HUTTAVEL_KEY_CANCEL = 159,
    /* Close: kclo */
    HUTTAVEL_KEY_CLOSE = 160,
    /* Command: kcmd */
    HUTTAVEL_KEY_COMMAND = 161,
    /* Copy: kcpy */
    HUTTAVEL_KEY_COPY = 162,
    /* Create: kcrt */
    HUTTAVEL_KEY_CREATE = 163,
    /* End: kend */
    HUTTAVEL_KEY_END = 164,
    /* Enter, or send: kent */
    HUTTAVEL_KEY_ENTER = 165,
    /* Exit: kext */
    HUTTAVEL_KEY_EXIT = 166,
    /* Find: kfnd */
    HUTTAVEL_KEY_FIND = 167,
    /* Help: khlp */
    HUTTAVEL_KEY_HELP = 168,
    /* Mark: kmrk */
    HUTTAVEL_KEY_MARK = 169,
    /* Message: kmsg */
    HUTTAVEL_KEY_MESSAGE = 170,
    /* Move: kmov */
    HUTTAVEL_KEY_MOVE = 171,
    /* Next object: knxt */
    HUTTAVEL_KEY_NEXT = 172,
    /* Open: kopn */
    HUTTAVEL_KEY_OPEN = 173,
    /* Options: kopt */
    HUTTAVEL_KEY_OPTIONS = 174,
    /* Previous object: kprv */
    HUTTAVEL_KEY_PREVIOUS = 175,
    /* Print, or copy: kprt */
    HUTTAVEL_KEY_PRINT = 176,
    /* Redo: krdo */
    HUTTAVEL_KEY_REDO = 177,
    /* Reference: kref */
    HUTTAVEL_KEY_REFERENCE = 178,
    /* Refresh: krfr */
    HUTTAVEL_KEY_REFRESH = 179,
    /* Replace: krpl */
    HUTTAVEL_KEY_REPLACE = 180,
    /* Restart: krst */
    HUTTAVEL_KEY_RESTART = 181,
    /* Resume: kres */
    HUTTAVEL_KEY_RESUME = 182,
    /* Save: ksav */
    HUTTAVEL_KEY_SAVE = 183,
    /* Suspend: kspd */
    HUTTAVEL_KEY_SUSPEND = 184,
    /* Undo: kund */
    HUTTAVEL_KEY_UNDO = 185,
    /* Shifted beginning: kBEG */
    HUTTAVEL_KEY_SHIFT_BEGIN = 186,
    /* Shifted cancel: kCAN */
    HUTTAVEL_KEY_SHIFT_CANCEL = 187,
    /* Shifted command: kCMD */
    HUTTAVEL_KEY_SHIFT_COMMAND = 188,
    /* Shifted copy: kCPY */
    HUTTAVEL_KEY_SHIFT_COPY = 189,
    /* Shifted create: kCRT */
    HUTTAVEL_KEY_SHIFT_CREATE = 190,
    /* Shifted delete-character: kDC */
    HUTTAVEL_KEY_SHIFT_DELETE = 191,
    /* Shifted delete-line: kDL */
    HUTTAVEL_KEY_SHIFT_DELETE_LINE = 192,
    /* Select: kslt */
    HUTTAVEL_KEY_SELECT = 193,
    /* Shifted end: kEND */
    HUTTAVEL_KEY_SHIFT_END = 194,
    /* Shifted clear to the line's end: kEOL */
    HUTTAVEL_KEY_SHIFT_CLEAR_TO_EOL = 195,
    /* Shifted exit: kEXT */
    HUTTAVEL_KEY_SHIFT_EXIT = 196,
    /* Shifted find: kFND */
    HUTTAVEL_KEY_SHIFT_FIND = 197,
    /* Shifted help: kHLP */
    HUTTAVEL_KEY_SHIFT_HELP = 198,
    /* Shifted home: kHOM */
    HUTTAVEL_KEY_SHIFT_HOME = 199,
    /* Shifted insert-character: kIC */
    HUTTAVEL_KEY_SHIFT_INSERT = 200,
    /* Shifted left arrow: kLFT */
    HUTTAVEL_KEY_SHIFT_LEFT = 201,
    /* Shifted message: kMSG */
    HUTTAVEL_KEY_SHIFT_MESSAGE = 202,
    /* Shifted move: kMOV */
    HUTTAVEL_KEY_SHIFT_MOVE = 203,
    /* Shifted next object; on most keyboards next page: kNXT */
    HUTTAVEL_KEY_SHIFT_NEXT = 204,
    /* Shifted options: kOPT */
    HUTTAVEL_KEY_SHIFT_OPTIONS = 205,
    /* Shifted previous object; on most keyboards previous page: kPRV */
    HUTTAVEL_KEY_SHIFT_PREVIOUS = 206,
    /* Shifted print: kPRT */
    HUTTAVEL_KEY_SHIFT_PRINT = 207,
    /* Shifted redo: kRDO */
    HUTTAVEL_KEY_SHIFT_REDO = 208,
    /* Shifted replace: kRPL */
    HUTTAVEL_KEY_SHIFT_REPLACE = 209,
    /* Shifted right arrow: kRIT */
    HUTTAVEL_KEY_SHIFT_RIGHT = 210,
    /* Shifted resume: kRES */
    HUTTAVEL_KEY_SHIFT_RESUME = 211,
    /* Shifted save: kSAV */
    HUTTAVEL_KEY_SHIFT_SAVE = 212,
    /* Shifted suspend: kSPD */
    HUTTAVEL_KEY_SHIFT_SUSPEND = 213,
    /* Shifted undo: kUND */
    HUTTAVEL_KEY_SHIFT_UNDO = 214,
    /* What begins a report of the mouse: kmous */
    HUTTAVEL_KEY_MOUSE = 355,
    /* Function keys 0 to 63: kf0 to kf63 */
    HUTTAVEL_KEY_F0 = 65,
    HUTTAVEL_KEY_F1 = 66,
    HUTTAVEL_KEY_F2 = 68,
    HUTTAVEL_KEY_F3 = 69,
    HUTTAVEL_KEY_F4 = 70,
    HUTTAVEL_KEY_F5 = 71,
    HUTTAVEL_KEY_F6 = 72,
    HUTTAVEL_KEY_F7 = 73,
    HUTTAVEL_KEY_F8 = 74,
    HUTTAVEL_KEY_F9 = 75,
    HUTTAVEL_KEY_F10 = 67,
    HUTTAVEL_KEY_F11 = 216,
    HUTTAVEL_KEY_F12 = 217,
    HUTTAVEL_KEY_F13 = 218,
    HUTTAVEL_KEY_F14 = 219,
    HUTTAVEL_KEY_F15 = 220,
    HUTTAVEL_KEY_F16 = 221,
    HUTTAVEL_KEY_F17 = 222,
    HUTTAVEL_KEY_F18 = 223,
    HUTTAVEL_KEY_F19 = 224,
    HUTTAVEL_KEY_F20 = 225,
    HUTTAVEL_KEY_F21 = 226,
    HUTTAVEL_KEY_F22 = 227,
    HUTTAVEL_KEY_F23 = 228,
    HUTTAVEL_KEY_F24 = 229,
    HUTTAVEL_KEY_F25 = 230,
    HUTTAVEL_KEY_F26 = 231,
    HUTTAVEL_KEY_F27 = 232,
    HUTTAVEL_KEY_F28 = 233,
    HUTTAVEL_KEY_F29 = 234,
    HUTTAVEL_KEY_F30 = 235,
    HUTTAVEL_KEY_F31 = 236,
    HUTTAVEL_KEY_F32 = 237,
    HUTTAVEL_KEY_F33 = 238,
    HUTTAVEL_KEY_F34 = 239,
    HUTTAVEL_KEY_F35 = 240,
    HUTTAVEL_KEY_F36 = 241,
    HUTTAVEL_KEY_F37 = 242,
    HUTTAVEL_KEY_F38 = 243,
    HUTTAVEL_KEY_F39 = 244,
    HUTTAVEL_KEY_F40 = 245,
    HUTTAVEL_KEY_F41 = 246,
    HUTTAVEL_KEY_F42 = 247,
    HUTTAVEL_KEY_F43 = 248,
    HUTTAVEL_KEY_F44 = 249,
    HUTTAVEL_KEY_F45 = 250,
    HUTTAVEL_KEY_F46 = 251,
    HUTTAVEL_KEY_F47 = 252,
    HUTTAVEL_KEY_F48 = 253,
    HUTTAVEL_KEY_F49 = 254,
    HUTTAVEL_KEY_F50 = 255,
    HUTTAVEL_KEY_F51 = 256,
    HUTTAVEL_KEY_F52 = 257,
    HUTTAVEL_KEY_F53 = 258,
    HUTTAVEL_KEY_F54 = 259,
    HUTTAVEL_KEY_F55 = 260,
    HUTTAVEL_KEY_F56 = 261,
    HUTTAVEL_KEY_F57 = 262,
    HUTTAVEL_KEY_F58 = 263,
    HUTTAVEL_KEY_F59 = 264,
    HUTTAVEL_KEY_F60 = 265,
    HUTTAVEL_KEY_F61 = 266,
    HUTTAVEL_KEY_F62 = 267,
    HUTTAVEL_KEY_F63 = 268
};

#endif
