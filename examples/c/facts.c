/* Does what the program for facts does, by one call: facts of the session that stands after the last command.
 *
 * usage: facts [--edit N | --tags] < INPUT > OUTPUT
 */
#include <errno.h>
#include <string.h>

#include "streams.h"

/* What is asked for; a number that is none where the words aren't those above. */
static uint32_t asked_for(int argc, char **argv, uint32_t *serial)
{
    char *end;
    unsigned long long number;
    if (argc == 1)
        return BALISEPLAN_ALL_EDITS;
    if (argc == 2 && !strcmp(argv[1], "--tags"))
        return BALISEPLAN_TAGS;
    if (argc != 3 || strcmp(argv[1], "--edit") || argv[2][0] < '0' || argv[2][0] > '9')
        return UINT32_MAX;
    errno = 0;
    number = strtoull(argv[2], &end, 10);
    if (errno || *end || number > UINT32_MAX)
        return UINT32_MAX;
    *serial = (uint32_t)number;
    return BALISEPLAN_ONE_EDIT;
}

int main(int argc, char **argv)
{
    uint32_t serial = 0, what = asked_for(argc, argv, &serial);
    struct text input, output = {NULL, 0};
    if (what > BALISEPLAN_TAGS) {
        fputs("usage: facts [--edit N | --tags] < INPUT > OUTPUT\n", stderr);
        return 64;
    }
    if (!fits("facts"))
        return 3;
    int32_t answer = BALISEPLAN_READ_FAULT;
    if (read_all(stdin, &input))
        answer = baliseplan_facts_alloc(input.bytes, input.len, what, serial, &output.bytes, &output.len);
    int status = print("facts", answer, &output);
    free(input.bytes);
    baliseplan_free(output.bytes);
    return status;
}
