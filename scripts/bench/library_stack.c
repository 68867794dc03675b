/* Measures the stack that a call of the library takes: library_stack FILE ..: the most of baliseplan_run_alloc over the
 * files with each of the 16 sets of flags, in bytes, that of baliseplan_facts_alloc with facts of all edits and with
 * tags, that of baliseplan_explain_alloc and of baliseplan_spell_alloc, and what a thread takes that calls nothing. The
 * stack is filled with one byte before the call, and looked at after it. */
#define _GNU_SOURCE
#include <pthread.h>
#include <stdio.h>
#include <stdlib.h>
#include <string.h>
#include <sys/mman.h>

#include "baliseplan.h"

enum { STACK = 1 << 20, FILL = 0xA5 };

struct call {
    uint8_t *input;
    size_t len;
    uint32_t flags;
};

static void *nothing(void *given)
{
    return given;
}

static void *run(void *given)
{
    struct call *call = given;
    uint8_t *output;
    size_t len;
    baliseplan_run_alloc(call->input, call->len, call->flags, &output, &len);
    baliseplan_free(output);
    return NULL;
}

static void *facts(void *given)
{
    struct call *call = given;
    uint8_t *output;
    size_t len;
    baliseplan_facts_alloc(call->input, call->len, call->flags, 0, &output, &len);
    baliseplan_free(output);
    return NULL;
}

static void *explain(void *given)
{
    struct call *call = given;
    uint8_t *output;
    size_t len;
    baliseplan_explain_alloc(call->input, call->len, &output, &len);
    baliseplan_free(output);
    return NULL;
}

static void *spell(void *given)
{
    struct call *call = given;
    uint8_t *output;
    size_t len;
    baliseplan_spell_alloc(call->input, call->len, &output, &len);
    baliseplan_free(output);
    return NULL;
}

/* The bytes that a thread takes from the end of its stack. */
static size_t taken(uint8_t *stack, void *(*work)(void *), struct call *given)
{
    pthread_attr_t attributes;
    pthread_t thread;
    size_t free_bytes = 0;
    memset(stack, FILL, STACK);
    if (pthread_attr_init(&attributes) || pthread_attr_setstack(&attributes, stack, STACK) ||
        pthread_create(&thread, &attributes, work, given) || pthread_join(thread, NULL))
        exit(2);
    pthread_attr_destroy(&attributes);
    while (free_bytes < STACK && stack[free_bytes] == FILL)
        free_bytes++;
    return STACK - free_bytes;
}

static size_t larger(size_t one, size_t other)
{
    return one > other ? one : other;
}

static struct call read_all(const char *path)
{
    struct call call = {malloc(1 << 26), 0, 0};
    FILE *file = fopen(path, "rb");
    if (!file || !call.input)
        exit(2);
    call.len = fread(call.input, 1, 1 << 26, file);
    fclose(file);
    return call;
}

int main(int argc, char **argv)
{
    uint8_t *stack = mmap(NULL, STACK, PROT_READ | PROT_WRITE, MAP_PRIVATE | MAP_ANONYMOUS, -1, 0);
    if (argc < 2 || stack == MAP_FAILED) {
        fputs("usage: library_stack FILE ..\n", stderr);
        return 2;
    }
    size_t of_run = 0, of_facts = 0, of_explain = 0, of_spell = 0, own = taken(stack, nothing, NULL);
    for (int at = 1; at < argc; at++) {
        struct call given = read_all(argv[at]);
        for (given.flags = 0; given.flags <= BALISEPLAN_FLAGS; given.flags++)
            of_run = larger(of_run, taken(stack, run, &given));
        given.flags = BALISEPLAN_ALL_EDITS;
        of_facts = larger(of_facts, taken(stack, facts, &given));
        given.flags = BALISEPLAN_TAGS;
        of_facts = larger(of_facts, taken(stack, facts, &given));
        of_explain = larger(of_explain, taken(stack, explain, &given));
        of_spell = larger(of_spell, taken(stack, spell, &given));
        free(given.input);
    }
    printf("%zu bytes at most, for facts %zu, to explain %zu, to spell %zu; a thread that calls nothing takes %zu\n", of_run,
           of_facts, of_explain, of_spell, own);
    return 0;
}
