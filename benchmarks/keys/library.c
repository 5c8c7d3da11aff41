/* Gives bytes to a screen of huttavel.h again and again, one at a time, and takes each key when it comes.
   Usage: library ENTRY text|keys|broken KEYS COUNT: ENTRY is a compiled file, and there are 720 bytes COUNT times. */
#include <huttavel.h>
#include <stdlib.h>

#include "stream.h"

/* Gives a byte, and adds up the keys that come. */
static int read_byte(huttavel *screen, uint8_t byte, long *sum)
{
    huttavel_key key;
    size_t taken;

    if (huttavel_key_bytes(screen, &byte, 1, &taken) != HUTTAVEL_OK)
        return 1;
    while (huttavel_next_key(screen, &key) == HUTTAVEL_OK)
        *sum += key.code;
    return 0;
}

int main(int argc, char **argv)
{
    static uint8_t entry[32768];
    huttavel screen = HUTTAVEL_CLOSED_HANDLE;
    char stream[6 * TEXTS + 1] = "";
    long sum = 0;

    if (argc != 5)
        return 2;
    FILE *file = fopen(argv[1], "rb");
    if (!file)
        return 1;
    size_t length = fread(entry, 1, sizeof entry, file);
    if (huttavel_open(&screen, entry, length, 0, 0, NULL) != HUTTAVEL_OK)
        return 1;
    write_stream(argv[2], atoi(argv[3]), stream);
    for (long left = atol(argv[4]); left > 0; left--)
        for (int place = 0; place < 6 * TEXTS; place++)
            if (read_byte(&screen, (uint8_t)stream[place], &sum))
                return 1;
    fprintf(stderr, "%ld\n", sum);
    return 0;
}
