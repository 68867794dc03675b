/* Refuses each allocation of a call in turn, and looks at what the call leaves. Linked with the library and with
 * --wrap=malloc,--wrap=calloc,--wrap=realloc,--wrap=free, so that the library allocates by the four functions below.
 *
 * usage: library_heap FILE FLAGS, of the editor, or library_heap FILE facts, explain or spell
 * Prints the most that a call allocates. Ends with 0; with 1 if a byte wasn't freed, or was written where none should
 * be, or the answer or the output is wrong; with 2 if FILE can't be used.
 */
#include <malloc.h>
#include <stdbool.h>
#include <stdio.h>
#include <stdlib.h>
#include <string.h>

#include "baliseplan.h"

enum { FILL = 0xA5 };

/* What the library allocates while `counting`; allocation number `refused` fails. */
static long calls, refused, blocks, bytes, most;
static bool counting;

void *__real_malloc(size_t size);
void *__real_calloc(size_t count, size_t size);
void *__real_realloc(void *old, size_t size);
void __real_free(void *block);
void *__wrap_malloc(size_t size);
void *__wrap_calloc(size_t count, size_t size);
void *__wrap_realloc(void *old, size_t size);
void __wrap_free(void *block);

static bool refuses(void)
{
    return counting && ++calls == refused;
}

static void *counted(void *block)
{
    if (!counting || !block)
        return block;
    blocks++;
    bytes += (long)malloc_usable_size(block);
    most = bytes > most ? bytes : most;
    return block;
}

static void uncount(void *block)
{
    if (!counting || !block)
        return;
    blocks--;
    bytes -= (long)malloc_usable_size(block);
}

void *__wrap_malloc(size_t size)
{
    return refuses() ? NULL : counted(__real_malloc(size));
}

void *__wrap_calloc(size_t count, size_t size)
{
    return refuses() ? NULL : counted(__real_calloc(count, size));
}

void *__wrap_realloc(void *old, size_t size)
{
    if (refuses())
        return NULL;
    uncount(old);
    void *block = __real_realloc(old, size);
    if (!block)
        counted(old);
    return counted(block);
}

void __wrap_free(void *block)
{
    uncount(block);
    __real_free(block);
}

struct run {
    const uint8_t *input;
    size_t input_len, room, len;
    const char *call;
    int32_t answer;
    uint8_t *whole, *output;
};

static int32_t into(const struct run *run, uint8_t *output, size_t *written)
{
    if (!strcmp(run->call, "facts"))
        return baliseplan_facts(run->input, run->input_len, BALISEPLAN_ALL_EDITS, 0, output, run->room, written);
    if (!strcmp(run->call, "explain"))
        return baliseplan_explain(run->input, run->input_len, output, run->room, written);
    if (!strcmp(run->call, "spell"))
        return baliseplan_spell(run->input, run->input_len, output, run->room, written);
    return baliseplan_run(run->input, run->input_len, (uint32_t)atoi(run->call), output, run->room, written);
}

static int32_t allocated(const struct run *run, uint8_t **output, size_t *len)
{
    if (!strcmp(run->call, "facts"))
        return baliseplan_facts_alloc(run->input, run->input_len, BALISEPLAN_ALL_EDITS, 0, output, len);
    if (!strcmp(run->call, "explain"))
        return baliseplan_explain_alloc(run->input, run->input_len, output, len);
    if (!strcmp(run->call, "spell"))
        return baliseplan_spell_alloc(run->input, run->input_len, output, len);
    return baliseplan_run_alloc(run->input, run->input_len, (uint32_t)atoi(run->call), output, len);
}

static void begin(long fails)
{
    calls = 0;
    refused = fails;
    counting = true;
}

/* What one call with a refused allocation may leave: a beginning of the output with 30; else the editor went on, and a
 * command was answered so. Where `shrinks`, what was refused may have been the last one, which gives room back. */
static bool is_right(const struct run *run, int32_t answer, const uint8_t *output, size_t written, bool shrinks)
{
    if (shrinks && answer == run->answer && written == run->len && !memcmp(output, run->whole, written))
        return true;
    if (answer == BALISEPLAN_OUT_OF_MEMORY)
        return written <= run->len && (!written || !memcmp(output, run->whole, written));
    return answer == BALISEPLAN_SOME_REFUSED && memmem(output, written, "refused 30 OutOfMemory\n", 23);
}

/* How many of the calls with an output of ours are wrong. */
static long refuse_each(struct run *run)
{
    long wrong = 0;
    begin(0);
    run->answer = into(run, run->whole, &run->len);
    counting = false;
    long needed = calls, peak = most;
    for (long fails = 1; fails <= needed; fails++) {
        size_t written = 0;
        memset(run->output, FILL, run->room + 1);
        begin(fails);
        int32_t answer = into(run, run->output, &written);
        counting = false;
        wrong += !is_right(run, answer, run->output, written, false) || blocks || bytes;
        for (size_t i = written; i <= run->room; i++)
            wrong += run->output[i] != FILL;
    }
    printf("answer %d, %zu bytes in, %zu out: %ld allocations, %ld bytes at most beside the caller's %zu, %ld wrong; ",
           (int)run->answer, run->input_len, run->len, needed, peak, run->room, wrong);
    return wrong;
}

/* The same for the call whose name ends with _alloc. Its block stays the caller's until it is freed. */
static long refuse_each_allocated(const struct run *run)
{
    long wrong = 0, needed = 0;
    for (long fails = 0; fails <= needed; fails++) {
        uint8_t *output = NULL;
        size_t len = 99;
        begin(fails);
        int32_t answer = allocated(run, &output, &len);
        if (fails == 0) {
            needed = calls;
            wrong += answer != run->answer || len != run->len || memcmp(output, run->whole, len);
        }
        if (!output)
            wrong += answer != BALISEPLAN_OUT_OF_MEMORY || len;
        else
            wrong += blocks != 1 || output[len] || (fails && !is_right(run, answer, output, len, true));
        baliseplan_free(output);
        counting = false;
        wrong += blocks || bytes;
    }
    printf("allocated: %ld allocations, %ld wrong\n", needed, wrong);
    return wrong;
}

int main(int argc, char **argv)
{
    FILE *file = argc == 3 ? fopen(argv[1], "rb") : NULL;
    static uint8_t input[1 << 20];
    if (!file)
        return 2;
    struct run run = {.input = input, .call = argv[2]};
    run.input_len = fread(input, 1, sizeof input, file);
    if (ferror(file) || !feof(file))
        return 2;
    fclose(file);
    /* Facts grow with the square of the edits. */
    run.room = 20 * run.input_len + (strcmp(run.call, "facts") ? 4096 : 1 << 20);
    run.whole = calloc(run.room + 1, 1);
    run.output = calloc(run.room + 1, 1);
    if (!run.whole || !run.output)
        return 2;
    long wrong = refuse_each(&run) + refuse_each_allocated(&run);
    free(run.whole);
    free(run.output);
    return wrong != 0;
}
