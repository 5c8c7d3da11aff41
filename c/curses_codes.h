/* The codes of curses.h: attributes, colours, line drawing, keys and buttons. Included by curses.h alone. */
#ifndef HUTTAVEL_CURSES_CODES_H
#define HUTTAVEL_CURSES_CODES_H

/* A chtype is one unsigned int: the byte in bits 0 to 7, the attributes in 8 to 15, the colour pair in 16 to 23. With
   A_ALTCHARSET the byte is a letter of the VT100's graphic set or, from 160 on, the code of a character. */
#define A_NORMAL 0x000000u
#define A_STANDOUT 0x000100u
#define A_UNDERLINE 0x000200u
#define A_REVERSE 0x000400u
#define A_BLINK 0x000800u
#define A_DIM 0x001000u
#define A_BOLD 0x002000u
#define A_INVIS 0x004000u
#define A_ALTCHARSET 0x008000u
/* No terminal shows these here: they are accepted, and no cell keeps them. */
#define A_PROTECT 0x01000000u
#define A_HORIZONTAL 0x02000000u
#define A_LEFT 0x04000000u
#define A_LOW 0x08000000u
#define A_RIGHT 0x10000000u
#define A_TOP 0x20000000u
#define A_VERTICAL 0x40000000u
#define A_ITALIC 0x80000000u
#define A_CHARTEXT 0x0000ffu
#define A_COLOR 0xff0000u
#define A_ATTRIBUTES 0xffffff00u

#define WA_NORMAL A_NORMAL
#define WA_ATTRIBUTES A_ATTRIBUTES
#define WA_STANDOUT A_STANDOUT
#define WA_UNDERLINE A_UNDERLINE
#define WA_REVERSE A_REVERSE
#define WA_BLINK A_BLINK
#define WA_DIM A_DIM
#define WA_BOLD A_BOLD
#define WA_INVIS A_INVIS
#define WA_ALTCHARSET A_ALTCHARSET
#define WA_PROTECT A_PROTECT
#define WA_HORIZONTAL A_HORIZONTAL
#define WA_LEFT A_LEFT
#define WA_LOW A_LOW
#define WA_RIGHT A_RIGHT
#define WA_TOP A_TOP
#define WA_VERTICAL A_VERTICAL
#define WA_ITALIC A_ITALIC

#define COLOR_BLACK 0
#define COLOR_RED 1
#define COLOR_GREEN 2
#define COLOR_YELLOW 3
#define COLOR_BLUE 4
#define COLOR_MAGENTA 5
#define COLOR_CYAN 6
#define COLOR_WHITE 7

/* Pairs are 0 to 63. Pair 0 is the terminal's own colours. */
#define COLOR_PAIR(n) (((chtype)(n) & 255u) << 16)
#define PAIR_NUMBER(a) ((int)(((chtype)(a) & A_COLOR) >> 16))
/* The bits of pairs that there are only after use_default_colors(). */
#define HUTTAVEL_LATE_PAIRS (A_COLOR & ~COLOR_PAIR(63))

/* Line drawing, by the letters of the VT100's graphic set. On a screen in UTF-8, acs_map has these letters with
   A_ALTCHARSET; on one in ASCII, the stand-ins of X/Open Curses Issue 7, 'Line Graphics'. */
#define HUTTAVEL_ACS(letter) (acs_map[(unsigned char)(letter)])
#define ACS_ULCORNER HUTTAVEL_ACS('l')
#define ACS_LLCORNER HUTTAVEL_ACS('m')
#define ACS_URCORNER HUTTAVEL_ACS('k')
#define ACS_LRCORNER HUTTAVEL_ACS('j')
#define ACS_RTEE HUTTAVEL_ACS('u')
#define ACS_LTEE HUTTAVEL_ACS('t')
#define ACS_BTEE HUTTAVEL_ACS('v')
#define ACS_TTEE HUTTAVEL_ACS('w')
#define ACS_HLINE HUTTAVEL_ACS('q')
#define ACS_VLINE HUTTAVEL_ACS('x')
#define ACS_PLUS HUTTAVEL_ACS('n')
#define ACS_S1 HUTTAVEL_ACS('o')
#define ACS_S3 HUTTAVEL_ACS('p')
#define ACS_S7 HUTTAVEL_ACS('r')
#define ACS_S9 HUTTAVEL_ACS('s')
#define ACS_DIAMOND HUTTAVEL_ACS('`')
#define ACS_CKBOARD HUTTAVEL_ACS('a')
#define ACS_DEGREE HUTTAVEL_ACS('f')
#define ACS_PLMINUS HUTTAVEL_ACS('g')
#define ACS_BULLET HUTTAVEL_ACS('~')
#define ACS_LARROW HUTTAVEL_ACS(',')
#define ACS_RARROW HUTTAVEL_ACS('+')
#define ACS_DARROW HUTTAVEL_ACS('.')
#define ACS_UARROW HUTTAVEL_ACS('-')
#define ACS_BOARD HUTTAVEL_ACS('h')
#define ACS_LANTERN HUTTAVEL_ACS('i')
#define ACS_BLOCK HUTTAVEL_ACS('0')
#define ACS_LEQUAL HUTTAVEL_ACS('y')
#define ACS_GEQUAL HUTTAVEL_ACS('z')
#define ACS_PI HUTTAVEL_ACS('{')
#define ACS_NEQUAL HUTTAVEL_ACS('|')
#define ACS_STERLING HUTTAVEL_ACS('}')
/* The same by their four arms, from the top clockwise: S is a single line, B is blank. */
#define ACS_BSSB ACS_ULCORNER
#define ACS_SSBB ACS_LLCORNER
#define ACS_BBSS ACS_URCORNER
#define ACS_SBBS ACS_LRCORNER
#define ACS_SBSS ACS_RTEE
#define ACS_SSSB ACS_LTEE
#define ACS_SSBS ACS_BTEE
#define ACS_BSSS ACS_TTEE
#define ACS_BSBS ACS_HLINE
#define ACS_SBSB ACS_VLINE
#define ACS_SSSS ACS_PLUS

/* A key is KEY_MIN and the position of its capability among the strings of a compiled entry, as term(5) orders them;
   function keys are in a row of their own. KEY_BREAK, KEY_SRESET and KEY_RESET have no capability, and never come; nor
   does KEY_EVENT. */
#define KEY_MIN 0x100
#define KEY_CODE_YES 0x100
#define KEY_BACKSPACE (KEY_MIN + 55)
#define KEY_CATAB (KEY_MIN + 56)
#define KEY_CLEAR (KEY_MIN + 57)
#define KEY_CTAB (KEY_MIN + 58)
#define KEY_DC (KEY_MIN + 59)
#define KEY_DL (KEY_MIN + 60)
#define KEY_DOWN (KEY_MIN + 61)
#define KEY_EIC (KEY_MIN + 62)
#define KEY_EOL (KEY_MIN + 63)
#define KEY_EOS (KEY_MIN + 64)
#define KEY_HOME (KEY_MIN + 76)
#define KEY_IC (KEY_MIN + 77)
#define KEY_IL (KEY_MIN + 78)
#define KEY_LEFT (KEY_MIN + 79)
#define KEY_LL (KEY_MIN + 80)
#define KEY_NPAGE (KEY_MIN + 81)
#define KEY_PPAGE (KEY_MIN + 82)
#define KEY_RIGHT (KEY_MIN + 83)
#define KEY_SF (KEY_MIN + 84)
#define KEY_SR (KEY_MIN + 85)
#define KEY_STAB (KEY_MIN + 86)
#define KEY_UP (KEY_MIN + 87)
#define KEY_A1 (KEY_MIN + 139)
#define KEY_A3 (KEY_MIN + 140)
#define KEY_B2 (KEY_MIN + 141)
#define KEY_C1 (KEY_MIN + 142)
#define KEY_C3 (KEY_MIN + 143)
#define KEY_BTAB (KEY_MIN + 148)
#define KEY_BEG (KEY_MIN + 158)
#define KEY_CANCEL (KEY_MIN + 159)
#define KEY_CLOSE (KEY_MIN + 160)
#define KEY_COMMAND (KEY_MIN + 161)
#define KEY_COPY (KEY_MIN + 162)
#define KEY_CREATE (KEY_MIN + 163)
#define KEY_END (KEY_MIN + 164)
#define KEY_ENTER (KEY_MIN + 165)
#define KEY_EXIT (KEY_MIN + 166)
#define KEY_FIND (KEY_MIN + 167)
#define KEY_HELP (KEY_MIN + 168)
#define KEY_MARK (KEY_MIN + 169)
#define KEY_MESSAGE (KEY_MIN + 170)
#define KEY_MOVE (KEY_MIN + 171)
#define KEY_NEXT (KEY_MIN + 172)
#define KEY_OPEN (KEY_MIN + 173)
#define KEY_OPTIONS (KEY_MIN + 174)
#define KEY_PREVIOUS (KEY_MIN + 175)
#define KEY_PRINT (KEY_MIN + 176)
#define KEY_REDO (KEY_MIN + 177)
#define KEY_REFERENCE (KEY_MIN + 178)
#define KEY_REFRESH (KEY_MIN + 179)
#define KEY_REPLACE (KEY_MIN + 180)
#define KEY_RESTART (KEY_MIN + 181)
#define KEY_RESUME (KEY_MIN + 182)
#define KEY_SAVE (KEY_MIN + 183)
#define KEY_SUSPEND (KEY_MIN + 184)
#define KEY_UNDO (KEY_MIN + 185)
/* With shift, but KEY_SELECT. */
#define KEY_SBEG (KEY_MIN + 186)
#define KEY_SCANCEL (KEY_MIN + 187)
#define KEY_SCOMMAND (KEY_MIN + 188)
#define KEY_SCOPY (KEY_MIN + 189)
#define KEY_SCREATE (KEY_MIN + 190)
#define KEY_SDC (KEY_MIN + 191)
#define KEY_SDL (KEY_MIN + 192)
#define KEY_SELECT (KEY_MIN + 193)
#define KEY_SEND (KEY_MIN + 194)
#define KEY_SEOL (KEY_MIN + 195)
#define KEY_SEXIT (KEY_MIN + 196)
#define KEY_SFIND (KEY_MIN + 197)
#define KEY_SHELP (KEY_MIN + 198)
#define KEY_SHOME (KEY_MIN + 199)
#define KEY_SIC (KEY_MIN + 200)
#define KEY_SLEFT (KEY_MIN + 201)
#define KEY_SMESSAGE (KEY_MIN + 202)
#define KEY_SMOVE (KEY_MIN + 203)
#define KEY_SNEXT (KEY_MIN + 204)
#define KEY_SOPTIONS (KEY_MIN + 205)
#define KEY_SPREVIOUS (KEY_MIN + 206)
#define KEY_SPRINT (KEY_MIN + 207)
#define KEY_SREDO (KEY_MIN + 208)
#define KEY_SREPLACE (KEY_MIN + 209)
#define KEY_SRIGHT (KEY_MIN + 210)
#define KEY_SRSUME (KEY_MIN + 211)
#define KEY_SSAVE (KEY_MIN + 212)
#define KEY_SSUSPEND (KEY_MIN + 213)
#define KEY_SUNDO (KEY_MIN + 214)
/* The mouse did what mousemask() asked for: getmouse() tells what. */
#define KEY_MOUSE (KEY_MIN + 355)
#define KEY_F0 0x300
#define KEY_F(n) (KEY_F0 + (n))
#define KEY_BREAK 0x340
#define KEY_SRESET 0x341
#define KEY_RESET 0x342
/* The terminal has another size now: LINES, COLS and all windows are of the new one. */
#define KEY_RESIZE 0x343
#define KEY_EVENT 0x344
#define KEY_MAX 0x3ff

/* What a button of the mouse did: five events of each of five buttons. */
#define NCURSES_MOUSE_VERSION 2
#define NCURSES_BUTTON_RELEASED 1u
#define NCURSES_BUTTON_PRESSED 2u
#define NCURSES_BUTTON_CLICKED 4u
#define NCURSES_DOUBLE_CLICKED 8u
#define NCURSES_TRIPLE_CLICKED 16u
/* None, but a name that programs ask for. */
#define NCURSES_RESERVED_EVENT 32u
#define NCURSES_MOUSE_MASK(button, event) ((mmask_t)(event) << ((button) - 1) * 5)
#define BUTTON1_RELEASED NCURSES_MOUSE_MASK(1, NCURSES_BUTTON_RELEASED)
#define BUTTON1_PRESSED NCURSES_MOUSE_MASK(1, NCURSES_BUTTON_PRESSED)
#define BUTTON1_CLICKED NCURSES_MOUSE_MASK(1, NCURSES_BUTTON_CLICKED)
#define BUTTON1_DOUBLE_CLICKED NCURSES_MOUSE_MASK(1, NCURSES_DOUBLE_CLICKED)
#define BUTTON1_TRIPLE_CLICKED NCURSES_MOUSE_MASK(1, NCURSES_TRIPLE_CLICKED)
#define BUTTON2_RELEASED NCURSES_MOUSE_MASK(2, NCURSES_BUTTON_RELEASED)
#define BUTTON2_PRESSED NCURSES_MOUSE_MASK(2, NCURSES_BUTTON_PRESSED)
#define BUTTON2_CLICKED NCURSES_MOUSE_MASK(2, NCURSES_BUTTON_CLICKED)
#define BUTTON2_DOUBLE_CLICKED NCURSES_MOUSE_MASK(2, NCURSES_DOUBLE_CLICKED)
#define BUTTON2_TRIPLE_CLICKED NCURSES_MOUSE_MASK(2, NCURSES_TRIPLE_CLICKED)
#define BUTTON3_RELEASED NCURSES_MOUSE_MASK(3, NCURSES_BUTTON_RELEASED)
#define BUTTON3_PRESSED NCURSES_MOUSE_MASK(3, NCURSES_BUTTON_PRESSED)
#define BUTTON3_CLICKED NCURSES_MOUSE_MASK(3, NCURSES_BUTTON_CLICKED)
#define BUTTON3_DOUBLE_CLICKED NCURSES_MOUSE_MASK(3, NCURSES_DOUBLE_CLICKED)
#define BUTTON3_TRIPLE_CLICKED NCURSES_MOUSE_MASK(3, NCURSES_TRIPLE_CLICKED)
#define BUTTON4_RELEASED NCURSES_MOUSE_MASK(4, NCURSES_BUTTON_RELEASED)
#define BUTTON4_PRESSED NCURSES_MOUSE_MASK(4, NCURSES_BUTTON_PRESSED)
#define BUTTON4_CLICKED NCURSES_MOUSE_MASK(4, NCURSES_BUTTON_CLICKED)
#define BUTTON4_DOUBLE_CLICKED NCURSES_MOUSE_MASK(4, NCURSES_DOUBLE_CLICKED)
#define BUTTON4_TRIPLE_CLICKED NCURSES_MOUSE_MASK(4, NCURSES_TRIPLE_CLICKED)
#define BUTTON5_RELEASED NCURSES_MOUSE_MASK(5, NCURSES_BUTTON_RELEASED)
#define BUTTON5_PRESSED NCURSES_MOUSE_MASK(5, NCURSES_BUTTON_PRESSED)
#define BUTTON5_CLICKED NCURSES_MOUSE_MASK(5, NCURSES_BUTTON_CLICKED)
#define BUTTON5_DOUBLE_CLICKED NCURSES_MOUSE_MASK(5, NCURSES_DOUBLE_CLICKED)
#define BUTTON5_TRIPLE_CLICKED NCURSES_MOUSE_MASK(5, NCURSES_TRIPLE_CLICKED)
#define BUTTON_CTRL NCURSES_MOUSE_MASK(6, 1u)
#define BUTTON_SHIFT NCURSES_MOUSE_MASK(6, 2u)
#define BUTTON_ALT NCURSES_MOUSE_MASK(6, 4u)
#define REPORT_MOUSE_POSITION NCURSES_MOUSE_MASK(6, 8u)
#define ALL_MOUSE_EVENTS (REPORT_MOUSE_POSITION - 1)
#define BUTTON_RELEASE(events, button) ((events) & NCURSES_MOUSE_MASK(button, NCURSES_BUTTON_RELEASED))
#define BUTTON_PRESS(events, button) ((events) & NCURSES_MOUSE_MASK(button, NCURSES_BUTTON_PRESSED))
#define BUTTON_CLICK(events, button) ((events) & NCURSES_MOUSE_MASK(button, NCURSES_BUTTON_CLICKED))
#define BUTTON_DOUBLE_CLICK(events, button) ((events) & NCURSES_MOUSE_MASK(button, NCURSES_DOUBLE_CLICKED))
#define BUTTON_TRIPLE_CLICK(events, button) ((events) & NCURSES_MOUSE_MASK(button, NCURSES_TRIPLE_CLICKED))

#endif
