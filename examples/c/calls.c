/* Calls the library as a caller may get it wrong or go to its limits, and checks each answer: nothing to run, no room,
 * too little room, unknown flags, bytes that must stay, outputs that the library allocates, and the same call again and
 * again.
 *
 * usage: calls [COUNT]: with COUNT that many calls, for a tool that looks for leaks
 */
#include <stdio.h>
#include <stdlib.h>
#include <string.h>

#include "baliseplan.h"

static const char PLAN[] = "plan 1\n"
                           "group\n"
                           "a1007f80a03250900f82ffffffffffffffffffffffffffffffffc0\n"
                           "edits\n"
                           "set 5.100 0 0 NID_TSR 0 9\n"
                           "set 5.100 0 0 NID_TSR 0 256\n";
static const char OUTPUT[] = "ok 1\n"
                             "refused 19 ValueTooWide\n"
                             "plan 1\n"
                             "group\n"
                             "a1007f80a03250900f84ffffffffffffffffffffffffffffffffc0\n";
static const char FACTS_OUTPUT[] = "refused 19 ValueTooWide\n"
                                   "facts 1\n"
                                   "edit 1\n"
                                   "changes b0/0/b0.NID_TSR.0\n";
static const char TAGS_OUTPUT[] = "refused 19 ValueTooWide\n"
                                  "facts 1\n"
                                  "group 5.100 b0\n"
                                  "telegram 5.100 0 0\n"
                                  "packet 5.100 0 0 b0\n";
static const char DIGITS[] = "packet 33 42403e08\n"
                             "packet 33 42403e09\n";
static const char FIELDS[] = "packet 33\n"
                             "0 8 NID_PACKET 0 66\n"
                             "8 2 Q_DIR 0 1\n"
                             "10 13 L_PACKET 0 31\n"
                             "23 8 NID_TSR 0 4\n"
                             "fault 4 SpareBits - 31 zero\n";
static const char SPELLED[] = "packet 33 42403e08\n"
                              "bad 6 BadLine\n";
static const char GROUP_EXPLAINED[] = "group\n"
                                      "packet 33\n"
                                      "0 8 NID_PACKET 0 44\n"
                                      "8 2 Q_DIR 0 2\n"
                                      "10 13 L_PACKET 0 28\n"
                                      "rest 5 b0\n";
enum { ROOM = 256, FILL = 0xA5 };

/* A call with an output of the caller's, and the one whose output the library allocates. */
struct call {
    const char *name;
    int32_t (*into)(const uint8_t *input, size_t input_len, uint32_t flags, uint8_t *output, size_t output_len,
                    size_t *written);
    int32_t (*alloc)(const uint8_t *input, size_t input_len, uint32_t flags, uint8_t **output, size_t *output_len);
};

static int failed;

static int32_t run(const uint8_t *input, size_t input_len, uint32_t flags, uint8_t *output, size_t output_len,
                   size_t *written)
{
    return baliseplan_run(input, input_len, flags, output, output_len, written);
}

/* What is asked for stands in place of the flags, and the serial is that of the one edit that is done. */
static int32_t facts(const uint8_t *input, size_t input_len, uint32_t what, uint8_t *output, size_t output_len,
                     size_t *written)
{
    return baliseplan_facts(input, input_len, what, 1, output, output_len, written);
}

static int32_t facts_alloc(const uint8_t *input, size_t input_len, uint32_t what, uint8_t **output, size_t *output_len)
{
    return baliseplan_facts_alloc(input, input_len, what, 1, output, output_len);
}

/* The calls over fields have no flags. */
static int32_t explain(const uint8_t *input, size_t input_len, uint32_t flags, uint8_t *output, size_t output_len,
                       size_t *written)
{
    (void)flags;
    return baliseplan_explain(input, input_len, output, output_len, written);
}

static int32_t explain_alloc(const uint8_t *input, size_t input_len, uint32_t flags, uint8_t **output,
                             size_t *output_len)
{
    (void)flags;
    return baliseplan_explain_alloc(input, input_len, output, output_len);
}

static int32_t spell(const uint8_t *input, size_t input_len, uint32_t flags, uint8_t *output, size_t output_len,
                     size_t *written)
{
    (void)flags;
    return baliseplan_spell(input, input_len, output, output_len, written);
}

static int32_t spell_alloc(const uint8_t *input, size_t input_len, uint32_t flags, uint8_t **output,
                           size_t *output_len)
{
    (void)flags;
    return baliseplan_spell_alloc(input, input_len, output, output_len);
}

static const struct call RUN = {"run", run, baliseplan_run_alloc};
static const struct call FACTS = {"facts", facts, facts_alloc};
static const struct call EXPLAIN = {"explain", explain, explain_alloc};
static const struct call SPELL = {"spell", spell, spell_alloc};

/* Compares a call with what is due: its answer, its bytes, and that those after them stayed. */
static void expect(const struct call *call, const char *what, const char *input, uint32_t flags, size_t room,
                   int32_t due, const char *text, size_t len)
{
    uint8_t output[ROOM];
    size_t written = 99, i;
    memset(output, FILL, sizeof output);
    int32_t answer = call->into((const uint8_t *)input, input ? strlen(input) : 0, flags, room ? output : NULL, room,
                                &written);
    for (i = written; i < ROOM && output[i] == FILL; i++) {
    }
    if (answer == due && written == len && i == ROOM && !memcmp(output, text, len))
        return;
    printf("%s, %s: answered %d and wrote %zu bytes\n", call->name, what, (int)answer, written);
    failed = 1;
}

/* An output of each length that is too short, one that just fits, and one with room left. */
static void expect_in_each_room(const struct call *call, const char *input, int32_t due, const char *text)
{
    size_t whole = strlen(text);
    for (size_t room = 0; room < whole; room++)
        expect(call, "a small output", input, 0, room, BALISEPLAN_OUTPUT_FULL, text, room);
    expect(call, "an output that just fits", input, 0, whole, due, text, whole);
    expect(call, "a whole run", input, 0, ROOM, due, text, whole);
}

static void expect_size(const char *what, const char *input, uint32_t flags, int32_t due, size_t len)
{
    size_t size = 99;
    int32_t answer = baliseplan_size((const uint8_t *)input, input ? strlen(input) : 0, flags, &size);
    if (answer == due && size == len)
        return;
    printf("the size of %s: answered %d and %zu bytes\n", what, (int)answer, size);
    failed = 1;
}

/* An output that the library allocates: its answer, its bytes, and the zero byte after them. */
static void expect_alloc(const struct call *call, const char *what, const char *input, uint32_t flags, int32_t due,
                         const char *text)
{
    uint8_t *output = (uint8_t *)&failed;
    size_t len = 99;
    int32_t answer = call->alloc((const uint8_t *)input, input ? strlen(input) : 0, flags, &output, &len);
    int right = text ? output && !strcmp((char *)output, text) && len == strlen(text) : !output && !len;
    baliseplan_free(output);
    if (right && answer == due)
        return;
    printf("%s, the allocated output of %s: answered %d and wrote %zu bytes\n", call->name, what, (int)answer, len);
    failed = 1;
}

/* A long line after the input: what was answered before it is there. */
static void expect_too_long(const struct call *call, const char *before, const char *text)
{
    char input[8192];
    size_t len = strlen(strcpy(input, before));
    memset(input + len, 'x', 4097);
    input[len + 4097] = 0;
    expect(call, "a line that is too long", input, 0, ROOM, BALISEPLAN_INPUT_TOO_LONG, text, strlen(text));
    expect_alloc(call, "a line that is too long", input, 0, BALISEPLAN_INPUT_TOO_LONG, text);
}

/* A text, and then a line again and again. */
static const uint8_t *repeated(const char *first, const char *line, size_t *len)
{
    static char input[100000];
    *len = strlen(strcpy(input, first));
    for (; *len + strlen(line) < sizeof input; *len += strlen(line))
        strcpy(input + *len, line);
    return (const uint8_t *)input;
}

/* Outputs that are longer than the library's first guess. */
static void expect_long(void)
{
    size_t input_len, len, size = 0;
    const uint8_t *input = repeated(PLAN, "undo\n", &input_len);
    uint8_t *output;
    int32_t answer = baliseplan_run_alloc(input, input_len, 0, &output, &len);
    int32_t due = baliseplan_size(input, input_len, 0, &size);
    if (answer != due || answer != BALISEPLAN_SOME_REFUSED || len != size || len < 2 * input_len || output[len]) {
        printf("an output longer than its input: answered %d and wrote %zu bytes\n", (int)answer, len);
        failed = 1;
    }
    baliseplan_free(output);
}

/* Of each edit the facts name every later one, so they are longer than the first room. */
static void expect_long_facts(void)
{
    static uint8_t due[3000000];
    static char edits[100000];
    size_t len, written = 0, at = strlen(strcpy(edits, PLAN));
    for (int i = 0; i < 400; i++)
        at += (size_t)sprintf(edits + at, "set 5.100 0 0 NID_TSR 0 %d\n", i % 200);
    uint8_t *output;
    int32_t answer = baliseplan_facts_alloc((const uint8_t *)edits, at, BALISEPLAN_ALL_EDITS, 0, &output, &len);
    int32_t once = baliseplan_facts((const uint8_t *)edits, at, BALISEPLAN_ALL_EDITS, 0, due, sizeof due, &written);
    if (answer != once || answer != BALISEPLAN_SOME_REFUSED || len != written || len < 16 * at || output[len] ||
        memcmp(output, due, len)) {
        printf("facts longer than their input: answered %d and wrote %zu bytes\n", (int)answer, len);
        failed = 1;
    }
    baliseplan_free(output);
}

/* Each empty line is refused by a line of 29 bytes. */
static void expect_long_fields(void)
{
    static uint8_t due[3000000];
    size_t input_len, len, written = 0;
    const uint8_t *input = repeated("", "\n", &input_len);
    uint8_t *output;
    int32_t answer = baliseplan_explain_alloc(input, input_len, &output, &len);
    int32_t once = baliseplan_explain(input, input_len, due, sizeof due, &written);
    if (answer != once || answer != BALISEPLAN_SOME_REFUSED || len != written || len != 29 * input_len ||
        output[len] || memcmp(output, due, len)) {
        printf("fields longer than their digits: answered %d and wrote %zu bytes\n", (int)answer, len);
        failed = 1;
    }
    baliseplan_free(output);
}

static void expect_texts(void)
{
    if (strcmp(baliseplan_version(), BALISEPLAN_VERSION) || baliseplan_abi() != BALISEPLAN_ABI) {
        puts("the library has another version than its header");
        failed = 1;
    }
    for (int32_t answer = -1; answer < 99; answer++)
        if (!*baliseplan_strerror(answer))
            failed = 1;
    if (strcmp(baliseplan_strerror(BALISEPLAN_OUT_OF_MEMORY), "out of memory") ||
        strcmp(baliseplan_strerror(33), "unknown answer")) {
        puts("an answer has another text");
        failed = 1;
    }
}

static void expect_of_run(void)
{
    size_t whole = strlen(OUTPUT);
    expect_in_each_room(&RUN, PLAN, BALISEPLAN_SOME_REFUSED, OUTPUT);
    expect(&RUN, "no reply to what was accepted", PLAN, BALISEPLAN_QUIET, ROOM, BALISEPLAN_SOME_REFUSED, OUTPUT + 5,
           whole - 5);
    expect(&RUN, "no input", NULL, 0, ROOM, BALISEPLAN_BAD_INPUT, "bad 1 1 BadLine\n", 16);
    expect(&RUN, "no input and no room", NULL, 0, 0, BALISEPLAN_OUTPUT_FULL, "", 0);
    for (int bit = 4; bit < 32; bit++)
        expect(&RUN, "an unknown flag", PLAN, 1u << bit | BALISEPLAN_FLAGS, ROOM, BALISEPLAN_USAGE, "", 0);
    expect_size("a whole run", PLAN, 0, BALISEPLAN_SOME_REFUSED, whole);
    expect_size("no input", NULL, 0, BALISEPLAN_BAD_INPUT, 16);
    expect_size("an unknown flag", PLAN, BALISEPLAN_FLAGS + 1u, BALISEPLAN_USAGE, 0);
    expect_alloc(&RUN, "a whole run", PLAN, 0, BALISEPLAN_SOME_REFUSED, OUTPUT);
    expect_alloc(&RUN, "no input", NULL, 0, BALISEPLAN_BAD_INPUT, "bad 1 1 BadLine\n");
    expect_alloc(&RUN, "an unknown flag", PLAN, 1u << 31, BALISEPLAN_USAGE, NULL);
    expect_too_long(&RUN, PLAN, "ok 1\nrefused 19 ValueTooWide\n");
    expect_long();
}

static void expect_of_facts(void)
{
    size_t whole = strlen(FACTS_OUTPUT);
    expect_in_each_room(&FACTS, PLAN, BALISEPLAN_SOME_REFUSED, FACTS_OUTPUT);
    expect(&FACTS, "one edit", PLAN, BALISEPLAN_ONE_EDIT, ROOM, BALISEPLAN_SOME_REFUSED, FACTS_OUTPUT, whole);
    expect(&FACTS, "tags", PLAN, BALISEPLAN_TAGS, ROOM, BALISEPLAN_SOME_REFUSED, TAGS_OUTPUT, strlen(TAGS_OUTPUT));
    expect(&FACTS, "no input", NULL, 0, ROOM, BALISEPLAN_BAD_INPUT, "bad 1 1 BadLine\n", 16);
    expect(&FACTS, "no input and no room", NULL, 0, 0, BALISEPLAN_OUTPUT_FULL, "", 0);
    expect(&FACTS, "an unknown number", PLAN, BALISEPLAN_TAGS + 1, ROOM, BALISEPLAN_USAGE, "", 0);
    expect(&FACTS, "the largest number", PLAN, UINT32_MAX, ROOM, BALISEPLAN_USAGE, "", 0);
    expect_alloc(&FACTS, "a whole run", PLAN, 0, BALISEPLAN_SOME_REFUSED, FACTS_OUTPUT);
    expect_alloc(&FACTS, "tags", PLAN, BALISEPLAN_TAGS, BALISEPLAN_SOME_REFUSED, TAGS_OUTPUT);
    expect_alloc(&FACTS, "no input", NULL, 0, BALISEPLAN_BAD_INPUT, "bad 1 1 BadLine\n");
    expect_alloc(&FACTS, "an unknown number", PLAN, BALISEPLAN_TAGS + 1, BALISEPLAN_USAGE, NULL);
    expect_too_long(&FACTS, PLAN, "refused 19 ValueTooWide\n");
    expect_long_facts();
}

/* Either way over fields: an input of which something is refused, its output, and an input of which nothing is. */
static void expect_of_fields(const struct call *call, const char *input, const char *text, const char *sound,
                             const char *sound_text)
{
    expect_in_each_room(call, input, BALISEPLAN_SOME_REFUSED, text);
    expect_in_each_room(call, sound, BALISEPLAN_ACCEPTED, sound_text);
    expect(call, "no input", NULL, 0, ROOM, BALISEPLAN_ACCEPTED, "", 0);
    expect(call, "no input and no room", NULL, 0, 0, BALISEPLAN_ACCEPTED, "", 0);
    expect_alloc(call, "a whole run", input, 0, BALISEPLAN_SOME_REFUSED, text);
    expect_alloc(call, "nothing that is refused", sound, 0, BALISEPLAN_ACCEPTED, sound_text);
    expect_alloc(call, "no input", NULL, 0, BALISEPLAN_ACCEPTED, "");
}

/* The same calls again, with each room in turn. */
static void expect_again(const struct call *call, long count, const char *input, const char *text)
{
    size_t room = (size_t)count % ROOM, whole = strlen(text);
    int32_t due = room < whole ? BALISEPLAN_OUTPUT_FULL : BALISEPLAN_SOME_REFUSED;
    expect(call, "the same call again", input, 0, room, due, text, room < whole ? room : whole);
    expect_alloc(call, "the same call again", input, 0, BALISEPLAN_SOME_REFUSED, text);
}

int main(int argc, char **argv)
{
    expect_of_run();
    expect_of_facts();
    expect_of_fields(&EXPLAIN, DIGITS, FIELDS, "group\npacket 33 2c803960", GROUP_EXPLAINED);
    expect_of_fields(&SPELL, FIELDS, SPELLED, GROUP_EXPLAINED, "group\npacket 33 2c803960\n");
    expect_too_long(&EXPLAIN, DIGITS, FIELDS);
    expect_too_long(&SPELL, GROUP_EXPLAINED, "group\n");
    expect_long_fields();
    expect_texts();
    baliseplan_free(NULL);
    for (long count = argc > 1 ? atol(argv[1]) : 0; count > 0; count--) {
        expect_again(&RUN, count, PLAN, OUTPUT);
        expect_again(&FACTS, count, PLAN, FACTS_OUTPUT);
        expect_again(&EXPLAIN, count, DIGITS, FIELDS);
        expect_again(&SPELL, count, FIELDS, SPELLED);
    }
    if (!failed)
        puts("all calls answered what is due");
    return failed;
}
