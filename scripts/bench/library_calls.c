/* Times calls of the library: library_calls FILE COUNT [facts | explain | spell]: microseconds of processor time for one
 * call, the least of five rounds of COUNT calls each, over the input of the file. First with an output that just fits,
 * then with one that the library allocates. */
#include <stdio.h>
#include <stdlib.h>
#include <string.h>
#include <time.h>

#include "baliseplan.h"

static uint8_t *read_all(const char *path, size_t *len)
{
    FILE *file = fopen(path, "rb");
    if (!file || fseek(file, 0, SEEK_END))
        return NULL;
    long end = ftell(file);
    uint8_t *bytes = end < 0 ? NULL : malloc((size_t)end + 1);
    rewind(file);
    *len = bytes ? fread(bytes, 1, (size_t)end, file) : 0;
    fclose(file);
    return bytes;
}

static double seconds(void)
{
    struct timespec now;
    clock_gettime(CLOCK_PROCESS_CPUTIME_ID, &now);
    return (double)now.tv_sec + (double)now.tv_nsec / 1e9;
}

struct text {
    uint8_t *bytes;
    size_t len;
};

static void run(const struct text *input, struct text *output)
{
    size_t written = 0;
    baliseplan_run(input->bytes, input->len, 0, output->bytes, output->len, &written);
}

static void facts(const struct text *input, struct text *output)
{
    size_t written = 0;
    baliseplan_facts(input->bytes, input->len, BALISEPLAN_ALL_EDITS, 0, output->bytes, output->len, &written);
}

static void explain(const struct text *input, struct text *output)
{
    size_t written = 0;
    baliseplan_explain(input->bytes, input->len, output->bytes, output->len, &written);
}

static void spell(const struct text *input, struct text *output)
{
    size_t written = 0;
    baliseplan_spell(input->bytes, input->len, output->bytes, output->len, &written);
}

static void run_alloc(const struct text *input, struct text *output)
{
    baliseplan_run_alloc(input->bytes, input->len, 0, &output->bytes, &output->len);
}

static void facts_alloc(const struct text *input, struct text *output)
{
    baliseplan_facts_alloc(input->bytes, input->len, BALISEPLAN_ALL_EDITS, 0, &output->bytes, &output->len);
}

static void explain_alloc(const struct text *input, struct text *output)
{
    baliseplan_explain_alloc(input->bytes, input->len, &output->bytes, &output->len);
}

static void spell_alloc(const struct text *input, struct text *output)
{
    baliseplan_spell_alloc(input->bytes, input->len, &output->bytes, &output->len);
}

struct calls {
    const char *name;
    void (*into)(const struct text *, struct text *);
    void (*alloc)(const struct text *, struct text *);
};

static const struct calls ALL[] = {
    {"run", run, run_alloc},
    {"facts", facts, facts_alloc},
    {"explain", explain, explain_alloc},
    {"spell", spell, spell_alloc}};

/* The calls of a name; null where there are none. */
static const struct calls *calls_of(const char *name)
{
    for (size_t at = 0; at < sizeof ALL / sizeof *ALL; at++)
        if (!strcmp(name, ALL[at].name))
            return &ALL[at];
    return NULL;
}

/* Microseconds of one call. An output that the call allocates is freed after it. */
static double least(void (*call)(const struct text *, struct text *), const struct text *input, struct text *output,
                    long count, int allocates)
{
    double least = 1e9;
    for (int round = 0; round < 5; round++) {
        double start = seconds();
        for (long at = 0; at < count; at++) {
            call(input, output);
            if (allocates)
                baliseplan_free(output->bytes);
        }
        double took = (seconds() - start) / (double)count;
        least = took < least ? took : least;
    }
    return least * 1e6;
}

int main(int argc, char **argv)
{
    struct text input = {NULL, 0}, output = {NULL, 0};
    long count = argc == 3 || argc == 4 ? atol(argv[2]) : 0;
    const struct calls *calls = calls_of(argc == 4 ? argv[3] : "run");
    input.bytes = count > 0 && calls ? read_all(argv[1], &input.len) : NULL;
    if (!input.bytes) {
        fputs("usage: library_calls FILE COUNT [facts | explain | spell]\n", stderr);
        return 2;
    }
    calls->alloc(&input, &output);
    if (!output.bytes)
        return 1;
    printf("%.1f", least(calls->into, &input, &output, count, 0));
    baliseplan_free(output.bytes);
    printf(" (with an allocated output %.1f)\n", least(calls->alloc, &input, &output, count, 1));
    return 0;
}
