/* The texts of the library. Not proved: they say nothing about a plan. */
#include "baliseplan.h"

const char *baliseplan_version(void)
{
    return BALISEPLAN_VERSION;
}

const char *baliseplan_strerror(int32_t answer)
{
    switch (answer) {
    case BALISEPLAN_ACCEPTED:
        return "all commands were accepted";
    case BALISEPLAN_SOME_REFUSED:
        return "a command was refused";
    case BALISEPLAN_BAD_INPUT:
        return "the plan or the journal was refused";
    case BALISEPLAN_INPUT_TOO_LONG:
        return "a line or the input is too long";
    case BALISEPLAN_OUT_OF_MEMORY:
        return "out of memory";
    case BALISEPLAN_READ_FAULT:
        return "the input can't be read";
    case BALISEPLAN_OUTPUT_FULL:
        return "the output is too small";
    case BALISEPLAN_USAGE:
        return "unknown flag or number of facts";
    default:
        return "unknown answer";
    }
}
