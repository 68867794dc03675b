/* Standard input as one text, and a text to standard output: what the callers here share. */
#ifndef STREAMS_H
#define STREAMS_H

#include <stdio.h>
#include <stdlib.h>

#include "baliseplan.h"

struct text {
    uint8_t *bytes;
    size_t len;
};

/* Reads a stream to its end. The caller frees text->bytes. 0 where memory or the stream fails. */
static int read_all(FILE *stream, struct text *text)
{
    size_t room = 0;
    *text = (struct text){NULL, 0};
    do {
        if (text->len == room) {
            uint8_t *bytes = realloc(text->bytes, room = 2 * room + 4096);
            if (!bytes)
                return 0;
            text->bytes = bytes;
        }
        text->len += fread(text->bytes + text->len, 1, room - text->len, stream);
    } while (!feof(stream) && !ferror(stream));
    return !ferror(stream);
}

/* Prints what a call wrote, also before a fault, and returns the exit status of the program. */
static int print(const char *name, int32_t answer, const struct text *output)
{
    size_t done = output->len ? fwrite(output->bytes, 1, output->len, stdout) : 0;
    int failed = fflush(stdout) || done != output->len;
    if (answer <= BALISEPLAN_BAD_INPUT)
        return failed ? 3 : answer;
    fprintf(stderr, "%s: %d, %s\n", name, (int)answer, baliseplan_strerror(answer));
    return answer == BALISEPLAN_USAGE ? 64 : 3;
}

/* Whether the library is that of the header. */
static int fits(const char *name)
{
    if (baliseplan_abi() == BALISEPLAN_ABI)
        return 1;
    fprintf(stderr, "%s: the library is %s, and the header %s\n", name, baliseplan_version(), BALISEPLAN_VERSION);
    return 0;
}

#endif
