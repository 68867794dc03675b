// Programs that are wrong on purpose, for selftest.py. WRONG_CALLS and PROGRAM are compiled in.
// It is linked statically, so that calls that a check makes fail don't fail here but in the program.
#include <stdio.h>
#include <stdlib.h>
#include <unistd.h>

int main(int count, char **words) {
    static char libraries[4096];
    const char *others = getenv("LD_PRELOAD");
    (void) count;
    snprintf(libraries, sizeof libraries, "%s%s%s", WRONG_CALLS, others ? ":" : "", others ? others : "");
    if (setenv("LD_PRELOAD", libraries, 1) != 0) return 126;
    words[0] = PROGRAM;
    execv(PROGRAM, words);
    return 127;
}
