/* Runs into a block that is allocated here. Not proved: they call the proved ones, and hand their answers on. */
#include <stdlib.h>

#include "baliseplan.h"

enum { LEAST_ROOM = 4096, LONGEST_INPUT = 67108864 };

/* Room for most outputs: replies are shorter than their commands, and a view is some eight times as long as its plan.
 * All of it is allocated twice, so it begins small. */
static size_t first_room(size_t input_len, uint32_t flags)
{
    size_t len = input_len < LONGEST_INPUT ? input_len : LONGEST_INPUT;
    return LEAST_ROOM + (flags & BALISEPLAN_JSON ? 8 * len : len);
}

/* Takes a block of another size in place of *output. 0 where memory ran out: *output stays. */
static int renew(uint8_t **output, size_t room)
{
    uint8_t *block = calloc(room + 1, 1);
    if (!block)
        return 0;
    free(*output);
    *output = block;
    return 1;
}

/* Gives back the room that the output doesn't take. The block may stay as it is. */
static void shrink(uint8_t **output, size_t len)
{
    uint8_t *block = realloc(*output, len + 1);
    if (block)
        *output = block;
}

int32_t baliseplan_run_alloc(const uint8_t *input, size_t input_len, uint32_t flags, uint8_t **output,
                             size_t *output_len)
{
    size_t room = first_room(input_len, flags), size = 0;
    int32_t answer;
    *output = NULL;
    *output_len = 0;
    if (flags & ~BALISEPLAN_FLAGS)
        return BALISEPLAN_USAGE;
    if (!renew(output, room))
        return BALISEPLAN_OUT_OF_MEMORY;
    while ((answer = baliseplan_run(input, input_len, flags, *output, room, output_len)) == BALISEPLAN_OUTPUT_FULL) {
        if (baliseplan_size(input, input_len, flags, &size) == BALISEPLAN_OUT_OF_MEMORY)
            return BALISEPLAN_OUT_OF_MEMORY;
        /* Where memory ran out in a command of one of the two runs, the size may be that of another output. */
        room = size > room ? size : 2 * room;
        if (!renew(output, room))
            return BALISEPLAN_OUT_OF_MEMORY;
    }
    shrink(output, *output_len);
    return answer;
}

int32_t baliseplan_facts_alloc(const uint8_t *input, size_t input_len, uint32_t what, uint32_t serial,
                               uint8_t **output, size_t *output_len)
{
    size_t room = first_room(input_len, 0);
    int32_t answer;
    *output = NULL;
    *output_len = 0;
    if (what > BALISEPLAN_TAGS)
        return BALISEPLAN_USAGE;
    do {
        if (!renew(output, room))
            return BALISEPLAN_OUT_OF_MEMORY;
        answer = baliseplan_facts(input, input_len, what, serial, *output, room, output_len);
        room *= 4;
    } while (answer == BALISEPLAN_OUTPUT_FULL);
    shrink(output, *output_len);
    return answer;
}

/* A call over fields, in either direction. Digits are explained by some eight times as many bytes. */
typedef int32_t fields_call(const uint8_t *, size_t, uint8_t *, size_t, size_t *);

static int32_t into_a_block(fields_call *call, const uint8_t *input, size_t input_len, uint8_t **output,
                            size_t *output_len)
{
    const uint8_t none = 0;
    size_t room = first_room(input_len, BALISEPLAN_JSON);
    int32_t answer;
    *output = NULL;
    *output_len = 0;
    do {
        if (!renew(output, room))
            return BALISEPLAN_OUT_OF_MEMORY;
        answer = call(input_len ? input : &none, input_len, *output, room, output_len);
        room *= 4;
    } while (answer == BALISEPLAN_OUTPUT_FULL);
    shrink(output, *output_len);
    return answer;
}

int32_t baliseplan_explain_alloc(const uint8_t *input, size_t input_len, uint8_t **output, size_t *output_len)
{
    return into_a_block(baliseplan_explain, input, input_len, output, output_len);
}

int32_t baliseplan_spell_alloc(const uint8_t *input, size_t input_len, uint8_t **output, size_t *output_len)
{
    return into_a_block(baliseplan_spell, input, input_len, output, output_len);
}

void baliseplan_free(uint8_t *output)
{
    free(output);
}
