/* Floors: `flux_floor` checks and shows any text, and plays the same messages over it. */
#include "run.h"

static const mode modes[] = {
    {"check", "-"},
    {"show", "-"},
    {"check", "--json", "-"},
    {"show", "--json", "-"},
    {"show", "--dot", "-"},
    {"walk", "--enter", "3", "-", "--topic", "bench.run"},
    {"walk", "--json", "--enter=3", "-", "--topic=bench.run"},
    {"trip", "--tree", "--enter=3", "-", "--topic=log", "--answer-errnum=0"},
    {"trip", "--dot", "--enter=3", "-", "--topic=bench.run"},
    {"walk", "--enter", "0", "-", "--topic=log", "--nodeid=1", "--noresponse"},
    {"walk", "--enter", "1", "-", "--topic=log", "--nodeid=1", "--upstream"},
    {"home", "--from", "0", "-", "--topic=log", "--errnum=38",
     "--route=00000002-0123-4567-89ab-cdef01234567"},
};

int LLVMFuzzerTestOneInput(const uint8_t *bytes, size_t length)
{
    run_mode(modes, sizeof modes / sizeof modes[0], bytes, length);
    return 0;
}
