/* Does what the program for fields does, by one call: digits to fields, or with --spell fields to digits.
 *
 * usage: fields [--spell] < INPUT > OUTPUT
 */
#include <string.h>

#include "streams.h"

static int32_t run(int spells, const struct text *input, struct text *output)
{
    if (spells)
        return baliseplan_spell_alloc(input->bytes, input->len, &output->bytes, &output->len);
    return baliseplan_explain_alloc(input->bytes, input->len, &output->bytes, &output->len);
}

int main(int argc, char **argv)
{
    int spells = argc == 2 && !strcmp(argv[1], "--spell");
    struct text input, output = {NULL, 0};
    if (argc > 1 + spells) {
        fputs("usage: fields [--spell] < INPUT > OUTPUT\n", stderr);
        return 64;
    }
    if (!fits("fields"))
        return 3;
    int32_t answer = BALISEPLAN_READ_FAULT;
    if (read_all(stdin, &input))
        answer = run(spells, &input, &output);
    int status = print("fields", answer, &output);
    free(input.bytes);
    baliseplan_free(output.bytes);
    return status;
}
