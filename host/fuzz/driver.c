/* Runs a harness without a fuzzer over each of the files that are named: seeds, or what was found.
 */
#define _POSIX_C_SOURCE 200112L

#include <stdio.h>
#include <unistd.h>

#include "run.h"

enum { SECONDS_MOST = 30 };

int main(int argc, char **argv)
{
    static uint8_t bytes[1 << 20];

    for (int i = 1; i < argc; i++) {
        FILE *file = fopen(argv[i], "rb");
        size_t length;

        if (file == NULL) {
            perror(argv[i]);
            return 2;
        }
        length = fread(bytes, 1, sizeof bytes, file);
        fclose(file);
        alarm(SECONDS_MOST);
        LLVMFuzzerTestOneInput(bytes, length);
    }
    printf("%d inputs\n", argc - 1);
    return argc > 1 ? 0 : 2;
}
