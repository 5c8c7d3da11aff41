/* The bytes that both programs read. */
#include <stdio.h>
#include <string.h>

/* How many texts of keys there are, of six bytes each. */
#define TEXTS 120

/* Writes 720 bytes, and a NUL: letters, the texts of so many keys in turn, or those with another last byte. */
static void write_stream(const char *action, int keys, char *stream)
{
    for (int number = 0; number < TEXTS; number++) {
        char *text = stream + 6 * number;
        sprintf(text, "\033[%03d~", number % keys % 1000);
        if (strcmp(action, "broken") == 0)
            text[5] = 'x';
        if (strcmp(action, "text") == 0)
            memcpy(text, "letter", 6);
    }
}
