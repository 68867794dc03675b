// A program of one test for selftest.py, which takes memory. Its two statuses are compiled in.
#include <stdlib.h>

int main(void) {
    volatile char *needed = malloc(16);
    if (!needed) return WITHOUT_MEMORY;
    *needed = 0;
    free((void *) needed);
    return WITH_MEMORY;
}
