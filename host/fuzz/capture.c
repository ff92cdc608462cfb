/* Captures: each mode of `flux_frame dump` over any bytes. */
#include "run.h"

static const mode modes[] = {
    {"dump"},
    {"dump", "--all"},
    {"dump", "--summary"},
    {"dump", "--json"},
    {"dump", "--frame", "1"},
    {"dump", "--json", "--frame=1"},
    {"dump", "--payload-out", "-", "--frame=1"},
    {"dump", "--frame-out", "-", "--frame=0"},
    {"dump", "--skip-refused"},
    {"dump", "--json", "--skip-refused"},
    {"dump", "--summary", "--errors", "--skip-refused"},
    {"dump", "--topic", "*.get", "--frames", "1-2"},
    {"dump", "--json", "--fields", "topic.text,payload.json,error_name"},
    {"dump", "--type", "request", "--frame-out", "-"},
    {"dump", "--mdp"},
    {"dump", "--mdp", "--all"},
    {"dump", "--mdp", "--json"},
};

int LLVMFuzzerTestOneInput(const uint8_t *bytes, size_t length)
{
    run_mode(modes, sizeof modes / sizeof modes[0], bytes, length);
    return 0;
}
