/* baliseplan, balisefacts and balisefields in your own process: what these programs do from standard input to standard
 * output, from memory to memory.
 *
 * Link with what `pkg-config --cflags --libs baliseplan` prints. baliseplan(3) and LIBRARY.md have the whole interface,
 * FORMATS.md has what goes in and what comes out.
 *
 * What a caller has to uphold. Nothing checks it:
 *
 * 1. A pointer points to at least the number of bytes that the length after it says, all of them initialized; a single
 *    size_t * points to one initialized size_t. A length is less than 2^63.
 * 2. No pointer is null. In C and C++ input and output may be, each where its length is 0.
 * 3. input, output and *written (or *size) don't overlap. Until the call returns nothing else writes to them, and
 *    nothing else reads output and *written (or *size).
 * 4. No call comes from a signal handler, or from the forked child of a process that has threads.
 * 5. malloc, realloc and free are one allocator that aligns its blocks as the C library's does, and that several
 *    threads may use if several threads call.
 *
 * Ownership: a call takes none. What it allocates it frees before it returns, but for the output of a call whose name
 * ends with _alloc. It keeps no state, so calls don't depend on each other.
 *
 * Threads: the calls have no shared data, so several threads may call at once, each with its own output and *written.
 * They may share the input.
 *
 * Time: a call can't be stopped, and may take hours over 64 MiB that were chosen to be slow. LIBRARY.md says what to do
 * about input that you don't trust. */
#ifndef BALISEPLAN_H
#define BALISEPLAN_H

#include <stddef.h>
#include <stdint.h>

/* The version of this header. baliseplan_version() is that of the library. */
#define BALISEPLAN_VERSION "0.1.0"

#ifdef __cplusplus
extern "C" {
#endif

/* From here to the line `end of cffi` all is plain enough for cffi's cdef(). */

/* The number of this interface. A library fits this header where baliseplan_abi() returns the same number. */
#define BALISEPLAN_ABI 1u

/* Flags, to be combined by |. Any other bit is an error of the caller: BALISEPLAN_USAGE. */
#define BALISEPLAN_QUIET 1u   /* leave out the replies to accepted commands */
#define BALISEPLAN_STOP 2u    /* do no command after the first refused one */
#define BALISEPLAN_JOURNAL 4u /* print the journal after the plan */
#define BALISEPLAN_JSON 8u    /* print a line of JSON for each group after that */
#define BALISEPLAN_FLAGS 15u  /* all of them */

/* What facts are asked for. Any other number is an error of the caller: BALISEPLAN_USAGE. */
#define BALISEPLAN_ALL_EDITS 0u /* those of each edit that stands */
#define BALISEPLAN_ONE_EDIT 1u  /* those of one edit, if it stands */
#define BALISEPLAN_TAGS 2u      /* the tags of groups, telegrams and packets */

/* Statuses: the run came to its end, and the output is whole. They are the exit statuses of the program. */
#define BALISEPLAN_ACCEPTED 0     /* all commands were accepted */
#define BALISEPLAN_SOME_REFUSED 1 /* at least one command was refused */
#define BALISEPLAN_BAD_INPUT 2    /* the plan or the journal was refused; the output is a line that says why */

/* Faults: the run didn't come to its end. The output is the beginning of a right one. */
#define BALISEPLAN_INPUT_TOO_LONG 29 /* a line of more than 4,096 bytes, or more than 67,108,864 bytes of input */
#define BALISEPLAN_OUT_OF_MEMORY 30
#define BALISEPLAN_READ_FAULT 31     /* never answered: reading memory doesn't fail */
#define BALISEPLAN_OUTPUT_FULL 32    /* the output is too small, and full (the program's WriteFault) */

/* An unknown flag, or a number of facts that is none: nothing was run or written, and the length is 0. */
#define BALISEPLAN_USAGE 64

/* BALISEPLAN_ABI of the header that the library was built for. */
uint32_t baliseplan_abi(void);

/* BALISEPLAN_VERSION of the header that the library was built for: a text that stays. */
const char *baliseplan_version(void);

/* What an answer means, in a few English words: a text that stays, for any number. */
const char *baliseplan_strerror(int32_t answer);

/* Runs over input: a plan, perhaps its journal, and commands. Writes what the program prints to the front of output,
 * and the number of these bytes to *written; the bytes after them stay as they are.
 * Returns a status, a fault or BALISEPLAN_USAGE.
 *
 * It allocates output_len + 1 bytes beside what the plan and its edits take, and frees them. It takes nearly 16 KiB of
 * stack: a thread that calls it needs 32. */
int32_t baliseplan_run(const uint8_t *input, size_t input_len, uint32_t flags, uint8_t *output, size_t output_len,
                       size_t *written);

/* Writes to *size how many bytes baliseplan_run would write with enough room, and returns what that would return, never
 * BALISEPLAN_OUTPUT_FULL. It is a whole run, which keeps its output until it returns.
 * After a fault other than BALISEPLAN_INPUT_TOO_LONG *size is only a lower bound. */
int32_t baliseplan_size(const uint8_t *input, size_t input_len, uint32_t flags, size_t *size);

/* Runs as baliseplan_run, into a block that it allocates with as much room as the output takes. Writes the block's
 * address to *output and the length of the output to *output_len; a zero byte follows the output. The caller gives the
 * block to baliseplan_free once, whatever the answer. *output is null, and the length 0, only where the answer is
 * BALISEPLAN_USAGE or BALISEPLAN_OUT_OF_MEMORY. Never returns BALISEPLAN_OUTPUT_FULL.
 *
 * input may be null where its length is 0, and *output and *output_len needn't be initialized. */
int32_t baliseplan_run_alloc(const uint8_t *input, size_t input_len, uint32_t flags, uint8_t **output,
                             size_t *output_len);

/* Runs as baliseplan_run with BALISEPLAN_QUIET, and writes what the program balisefacts prints: facts of the session that
 * stands after the last command in place of the plan (FORMATS.md). what is BALISEPLAN_ALL_EDITS, BALISEPLAN_ONE_EDIT or
 * BALISEPLAN_TAGS; only BALISEPLAN_ONE_EDIT looks at serial.
 * Returns a status, a fault or BALISEPLAN_USAGE, as baliseplan_run. */
int32_t baliseplan_facts(const uint8_t *input, size_t input_len, uint32_t what, uint32_t serial, uint8_t *output,
                         size_t output_len, size_t *written);

/* The same with an output that it allocates, as baliseplan_run_alloc does. It begins with some room and runs again with
 * more while it is too small, so it never returns BALISEPLAN_OUTPUT_FULL. */
int32_t baliseplan_facts_alloc(const uint8_t *input, size_t input_len, uint32_t what, uint32_t serial,
                               uint8_t **output, size_t *output_len);

/* Writes what the program balisefields prints for input, a telegram or a packet a line: the fields of its digits, or why
 * and where they are refused (FIELDS.md). It goes to the front of output, and the number of bytes to *written; the bytes
 * after them stay as they are.
 * Returns BALISEPLAN_ACCEPTED; BALISEPLAN_SOME_REFUSED where some digits are refused; or a fault. It never returns
 * BALISEPLAN_BAD_INPUT or BALISEPLAN_USAGE.
 *
 * It allocates output_len + 1 bytes beside what one line takes, and frees them. */
int32_t baliseplan_explain(const uint8_t *input, size_t input_len, uint8_t *output, size_t output_len,
                           size_t *written);

/* The other way: writes what balisefields --spell prints for input, the fields of telegrams and packets: their digits, or
 * which line is refused and why. It allocates what one item takes in place of one line; all else is as for
 * baliseplan_explain. */
int32_t baliseplan_spell(const uint8_t *input, size_t input_len, uint8_t *output, size_t output_len, size_t *written);

/* Do what the two calls above do, with an output that they allocate as baliseplan_run_alloc does. They begin with some
 * room and run again with more while it is too small, so they never return BALISEPLAN_OUTPUT_FULL. */
int32_t baliseplan_explain_alloc(const uint8_t *input, size_t input_len, uint8_t **output, size_t *output_len);
int32_t baliseplan_spell_alloc(const uint8_t *input, size_t input_len, uint8_t **output, size_t *output_len);

/* Frees the output of a call whose name ends with _alloc. Null is nothing to free. */
void baliseplan_free(uint8_t *output);

/* end of cffi */

/* In C and C++ the calls below stand in for those without _or_null. They give the library the address of a byte for a
 * null pointer with length 0. */
static inline int32_t baliseplan_run_or_null(const uint8_t *input, size_t input_len, uint32_t flags, uint8_t *output,
                                             size_t output_len, size_t *written)
{
    uint8_t none = 0;
    return baliseplan_run(input_len ? input : &none, input_len, flags, output_len ? output : &none, output_len,
                          written);
}

static inline int32_t baliseplan_size_or_null(const uint8_t *input, size_t input_len, uint32_t flags, size_t *size)
{
    const uint8_t none = 0;
    return baliseplan_size(input_len ? input : &none, input_len, flags, size);
}

static inline int32_t baliseplan_facts_or_null(const uint8_t *input, size_t input_len, uint32_t what, uint32_t serial,
                                               uint8_t *output, size_t output_len, size_t *written)
{
    uint8_t none = 0;
    return baliseplan_facts(input_len ? input : &none, input_len, what, serial, output_len ? output : &none, output_len,
                            written);
}

static inline int32_t baliseplan_explain_or_null(const uint8_t *input, size_t input_len, uint8_t *output,
                                                 size_t output_len, size_t *written)
{
    uint8_t none = 0;
    return baliseplan_explain(input_len ? input : &none, input_len, output_len ? output : &none, output_len, written);
}

static inline int32_t baliseplan_spell_or_null(const uint8_t *input, size_t input_len, uint8_t *output,
                                               size_t output_len, size_t *written)
{
    uint8_t none = 0;
    return baliseplan_spell(input_len ? input : &none, input_len, output_len ? output : &none, output_len, written);
}

#define baliseplan_run(input, input_len, flags, output, output_len, written) \
    baliseplan_run_or_null(input, input_len, flags, output, output_len, written)
#define baliseplan_size(input, input_len, flags, size) baliseplan_size_or_null(input, input_len, flags, size)
#define baliseplan_facts(input, input_len, what, serial, output, output_len, written) \
    baliseplan_facts_or_null(input, input_len, what, serial, output, output_len, written)
#define baliseplan_explain(input, input_len, output, output_len, written) \
    baliseplan_explain_or_null(input, input_len, output, output_len, written)
#define baliseplan_spell(input, input_len, output, output_len, written) \
    baliseplan_spell_or_null(input, input_len, output, output_len, written)

#ifdef __cplusplus
}
#endif

#endif
