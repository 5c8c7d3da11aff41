/* Entries of terminals and parameter strings, without a screen. Included by huttavel.h.
 *
 * A handle may hold an entry in place of a screen; huttavel_close closes it. Every call on a screen refuses such a handle
 * with HUTTAVEL_CLOSED, and so do these calls refuse one that holds a screen. terminfo(5), term(5).
 */
#ifndef HUTTAVEL_ENTRIES_H
#define HUTTAVEL_ENTRIES_H

#ifndef HUTTAVEL_H
#error "include huttavel.h"
#endif

/* Opens a compiled entry, term(5), with 16-bit or 32-bit numbers; those above 32,767 count as 32,767. It need not be one
 * that a screen can be opened on. Refused: HUTTAVEL_CLOSED only if the handle is NULL; HUTTAVEL_BAD_LENGTH;
 * HUTTAVEL_IS_OPEN; the errors of a compiled entry; HUTTAVEL_NO_MEMORY. X/Open Curses Issue 7, setupterm(). */
uint32_t huttavel_entry_open(huttavel *handle, const uint8_t *entry, size_t length);

/* Whether the entry has the flag at a position; a number, refused with HUTTAVEL_ABSENT if it has none. tigetflag(),
 * tigetnum(). */
uint32_t huttavel_entry_flag(huttavel *handle, uint32_t position, bool *flag);
uint32_t huttavel_entry_number(huttavel *handle, uint32_t position, uint32_t *number);

/* Copies the text at a position, padding and all, or the entry's names, with `|` between them: the first bytes, at most
 * `room` of them, without a NUL at the end. `length`, if it is not NULL, gets the length of all. Refused:
 * HUTTAVEL_ABSENT, of a text. tigetstr(), termname(), longname(). */
uint32_t huttavel_entry_text(huttavel *handle, uint32_t position, uint8_t *bytes, size_t room, size_t *length);
uint32_t huttavel_entry_names(huttavel *handle, uint8_t *bytes, size_t room, size_t *length);

/* The kind and the position of the capability with a name of terminfo, as `cup`. Refused: HUTTAVEL_ABSENT;
 * HUTTAVEL_BAD_LENGTH. */
uint32_t huttavel_capability_named(const uint8_t *name, size_t length, huttavel_capability *which);

/* Runs a text with nine parameters, terminfo(5), 'Parameterized Strings': copies what it gives, as huttavel_entry_text
 * does. The static variables of the text (`%PA`) are the entry's: they last from one call to the next. Padding stays.
 * Refused: HUTTAVEL_CLOSED; HUTTAVEL_BAD_LENGTH, also without numbers; HUTTAVEL_CUT_DIRECTIVE, HUTTAVEL_BAD_DIRECTIVE,
 * HUTTAVEL_STRING_OPERATOR, HUTTAVEL_TOO_DEEP, for the first that is wrong in the text; HUTTAVEL_STACK_FULL;
 * HUTTAVEL_NO_MEMORY. tparm(). */
uint32_t huttavel_parameters(huttavel *handle, const uint8_t *text, size_t length, const int32_t numbers[9],
                             uint8_t *bytes, size_t room, size_t *count);

#endif
