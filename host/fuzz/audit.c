/* Captures: each mode of `flux_floor audit` over any bytes. FLOOR is the example floor's path. */
#include "run.h"

static const mode modes[] = {
    {"audit", FLOOR, "-"},
    {"audit", "--enter", "5", FLOOR, "-"},
    {"audit", "--json", "--enter=0", FLOOR, "-"},
    {"audit", "--quiet", "--enter=6", FLOOR, "-"},
};

int LLVMFuzzerTestOneInput(const uint8_t *bytes, size_t length)
{
    run_mode(modes, sizeof modes / sizeof modes[0], bytes, length);
    return 0;
}
