// Loaded before the C library. Lets chosen growths of memory, reads of standard input and writes of standard output
// fail, or lets them give and take little. The environment says which. At the end it writes one line to the descriptor
// REPORT: the numbers of growths, reads and writes, and where the input stood at the growth that failed.
// NO_GROWTH_FROM is a number of bytes: once that many were read, no growth is given.
#define _GNU_SOURCE
#include <dlfcn.h>
#include <errno.h>
#include <stdio.h>
#include <stdlib.h>
#include <string.h>
#include <sys/resource.h>
#include <unistd.h>

static long growths, refused_growth, no_growth_from, place_of_refusal = -1, end_at_refusal;
static long reads, failed_read, read_step, read_error, taken, at_end, reads_after;
static long writes, failed_write, write_step, write_error, writes_after;

static long told(const char *name) {
    const char *text = getenv(name);
    return text ? atol(text) : 0;
}

__attribute__((constructor)) static void start(void) {
    refused_growth = told("REFUSED_GROWTH");
    no_growth_from = told("NO_GROWTH_FROM");
    failed_read = told("FAILED_READ");
    read_step = told("READ_STEP");
    read_error = told("READ_ERROR");
    failed_write = told("FAILED_WRITE");
    write_step = told("WRITE_STEP");
    write_error = told("WRITE_ERROR");
    long limit = told("RUN_SECONDS");
    struct rlimit seconds = {(rlim_t) limit, (rlim_t) limit};
    if (limit) {
        setrlimit(RLIMIT_CPU, &seconds);
        alarm((unsigned) limit);
    }
    growths = 0;
}

__attribute__((destructor)) static void report(void) {
    char line[200];
    int to = (int) told("REPORT");
    int size = snprintf(line, sizeof line, "%ld %ld %ld %ld %ld %ld %ld %ld %ld\n", growths, place_of_refusal,
                        end_at_refusal, reads, taken, at_end, reads_after, writes, writes_after);
    ssize_t (*next)(int, const void *, size_t) = (ssize_t (*)(int, const void *, size_t)) dlsym(RTLD_NEXT, "write");
    if (to > 0 && next(to, line, (size_t) size) < 0) return;
}

static int refused(void) {
    growths++;
    if (no_growth_from && taken >= no_growth_from) return 1;
    if (growths != refused_growth) return 0;
    place_of_refusal = taken;
    end_at_refusal = at_end;
    return 1;
}

void *malloc(size_t size) {
    static void *(*next)(size_t);
    if (!next) next = (void *(*)(size_t)) dlsym(RTLD_NEXT, "malloc");
    return refused() ? NULL : next(size);
}

void *realloc(void *old, size_t size) {
    static void *(*next)(void *, size_t);
    if (!next) next = (void *(*)(void *, size_t)) dlsym(RTLD_NEXT, "realloc");
    return refused() ? NULL : next(old, size);
}

void *aligned_alloc(size_t alignment, size_t size) {
    static void *(*next)(size_t, size_t);
    if (!next) next = (void *(*)(size_t, size_t)) dlsym(RTLD_NEXT, "aligned_alloc");
    return refused() ? NULL : next(alignment, size);
}

ssize_t read(int from, void *bytes, size_t size) {
    static ssize_t (*next)(int, void *, size_t);
    if (!next) next = (ssize_t (*)(int, void *, size_t)) dlsym(RTLD_NEXT, "read");
    if (from != 0) return next(from, bytes, size);
    reads++;
    if (failed_read && reads > failed_read) reads_after++;
    if (reads == failed_read) {
        errno = (int) read_error;
        return -1;
    }
    if (read_step && size > (size_t) read_step) size = (size_t) read_step;
    ssize_t count = next(from, bytes, size);
    if (count > 0) taken += count;
    if (count == 0) at_end = 1;
    return count;
}

ssize_t write(int to, const void *bytes, size_t size) {
    static ssize_t (*next)(int, const void *, size_t);
    if (!next) next = (ssize_t (*)(int, const void *, size_t)) dlsym(RTLD_NEXT, "write");
    if (to != 1) return next(to, bytes, size);
    writes++;
    if (failed_write && writes > failed_write) writes_after++;
    if (writes == failed_write) {
        if (write_error == 0) return 0;
        errno = (int) write_error;
        return -1;
    }
    if (write_step && size > (size_t) write_step) size = (size_t) write_step;
    return next(to, bytes, size);
}
