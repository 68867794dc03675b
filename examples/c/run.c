/* Does what the program does, by one call: reads standard input, writes standard output, ends with the same status.
 *
 * usage: run [--quiet] [--stop] [--journal] [--json] < INPUT > OUTPUT
 */
#include <string.h>

#include "streams.h"

/* The flag of a word; 16, which is none, for any other word. */
static uint32_t flag_of(const char *word)
{
    static const char *const words[] = {"--quiet", "--stop", "--journal", "--json"};
    for (uint32_t i = 0; i < 4; i++)
        if (!strcmp(word, words[i]))
            return 1u << i;
    return BALISEPLAN_FLAGS + 1;
}

int main(int argc, char **argv)
{
    uint32_t flags = 0;
    struct text input, output = {NULL, 0};
    for (int i = 1; i < argc; i++)
        flags |= flag_of(argv[i]);
    if (!fits("run"))
        return 3;
    int32_t answer = BALISEPLAN_READ_FAULT;
    if (read_all(stdin, &input))
        answer = baliseplan_run_alloc(input.bytes, input.len, flags, &output.bytes, &output.len);
    int status = print("run", answer, &output);
    free(input.bytes);
    baliseplan_free(output.bytes);
    return status;
}
