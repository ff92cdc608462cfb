/*
 * A walk call that differs from the steps, and a check of services that differs from what
 * flux_floor finds, to see that it says so. WRONG names what differs: refusal, answer, rank, links
 * or byte of the walk, or services; anything else leaves the calls as they are.
 */
#include <stdlib.h>
#include <string.h>

#include "lampreycoil.h"

uint32_t wrong_walk(const uint8_t *tree, size_t tree_length, const uint8_t *services,
                    size_t services_length, const uint8_t *identities, size_t identities_length,
                    uint32_t rank, uint8_t *buffer, size_t buffer_length, uint8_t *record,
                    size_t record_length);

uint32_t wrong_walk(const uint8_t *tree, size_t tree_length, const uint8_t *services,
                    size_t services_length, const uint8_t *identities, size_t identities_length,
                    uint32_t rank, uint8_t *buffer, size_t buffer_length, uint8_t *record,
                    size_t record_length)
{
    const char *wrong = getenv("WRONG");
    uint32_t refusal =
        lampreycoil_walk(tree, tree_length, services, services_length, identities,
                         identities_length, rank, buffer, buffer_length, record, record_length);

    if (wrong == NULL)
        return refusal;
    if (strcmp(wrong, "answer") == 0)
        record[4 * LAMPREYCOIL_WALK_ANSWER + 3] ^= 1;
    if (strcmp(wrong, "rank") == 0)
        record[4 * LAMPREYCOIL_WALK_RANK + 3] ^= 1;
    if (strcmp(wrong, "links") == 0)
        record[4 * LAMPREYCOIL_WALK_LINKS + 3] ^= 1;
    if (strcmp(wrong, "byte") == 0)
        buffer[buffer_length - 1] ^= 1;
    return strcmp(wrong, "refusal") == 0 ? refusal ^ 1 : refusal;
}

uint32_t wrong_services(const uint8_t *tree, size_t tree_length, const uint8_t *services,
                        size_t services_length);

uint32_t wrong_services(const uint8_t *tree, size_t tree_length, const uint8_t *services,
                        size_t services_length)
{
    const char *wrong = getenv("WRONG");
    uint32_t refusal = lampreycoil_check_services(tree, tree_length, services, services_length);

    return wrong != NULL && strcmp(wrong, "services") == 0 ? refusal ^ LAMPREYCOIL_SERVICES_WRONG
                                                           : refusal;
}
