// What makes a program wrong, by the macro WRONG. Loaded before the C library, and before failing_calls.c.
#define _GNU_SOURCE
#include <dlfcn.h>
#include <signal.h>
#include <stdlib.h>
#include <string.h>
#include <sys/prctl.h>
#include <time.h>
#include <unistd.h>

enum { ALWAYS_77, DROPS_A_LINE, A_LINE_TOO_MUCH, HANGS, IGNORES_A_FAILED_WRITE, ALWAYS_1, A_WORD_IN_ERROR, NEEDS_MEMORY, SLOW };

typedef ssize_t (*writes)(int, const void *, size_t);
typedef ssize_t (*reads)(int, void *, size_t);

static ssize_t pass_on(int to, const void *bytes, size_t size) {
    static writes next;
    if (!next) next = (writes) dlsym(RTLD_NEXT, "write");
    return next(to, bytes, size);
}

__attribute__((constructor)) static void start(void) {
    if (WRONG == ALWAYS_77) _exit(77);
    if (WRONG == A_WORD_IN_ERROR && pass_on(2, "warning\n", 8) != 8) _exit(77);
}

__attribute__((destructor)) static void end(void) {
    if (WRONG == ALWAYS_1) _exit(1);
}

// Leaves out the first line.
static ssize_t drop(const char *bytes, size_t size) {
    static int dropped;
    const char *end = dropped ? NULL : memchr(bytes, '\n', size);
    if (!dropped && !end) return (ssize_t) size;
    size_t skipped = end ? (size_t) (end + 1 - bytes) : 0;
    dropped = 1;
    if (skipped == size) return (ssize_t) size;
    ssize_t written = pass_on(1, bytes + skipped, size - skipped);
    return written < 0 ? written : written + (ssize_t) skipped;
}

ssize_t write(int to, const void *bytes, size_t size) {
    static int began;
    if (to != 1) return pass_on(to, bytes, size);
    if (WRONG == DROPS_A_LINE) return drop(bytes, size);
    if (WRONG == A_LINE_TOO_MUCH && !began++ && pass_on(1, "ok 1\n", 5) < 0) return -1;
    ssize_t written = pass_on(to, bytes, size);
    return WRONG == IGNORES_A_FAILED_WRITE && written <= 0 ? (ssize_t) size : written;
}

// Takes time for these bytes as if it went over all that came before them again.
static void wait_longer(double bytes) {
    static double before;
    struct timespec now;
    clock_gettime(CLOCK_PROCESS_CPUTIME_ID, &now);
    double until = now.tv_sec * 1e6 + now.tv_nsec / 1e3 + 20000 * (bytes / 65536) * (before / 65536);
    before += bytes;
    while (now.tv_sec * 1e6 + now.tv_nsec / 1e3 < until) clock_gettime(CLOCK_PROCESS_CPUTIME_ID, &now);
}

ssize_t read(int from, void *bytes, size_t size) {
    static reads next;
    if (!next) next = (reads) dlsym(RTLD_NEXT, "read");
    if (from == 0) {
        // It has a session of its own, so a check that is killed meanwhile doesn't end it.
        if (WRONG == HANGS) prctl(PR_SET_PDEATHSIG, SIGKILL);
        while (WRONG == HANGS) pause();
        if (WRONG == NEEDS_MEMORY) {
            volatile char *needed = malloc(16);
            if (!needed) _exit(3);
            *needed = 0;
            free((void *) needed);
        }
    }
    ssize_t count = next(from, bytes, size);
    if (WRONG == SLOW && from == 0 && count > 0) wait_longer((double) count);
    return count;
}
