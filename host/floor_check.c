#include "files.h"
#include "floor.h"

/* The library's word decides; the rules that were found broken only say why. */
static int agree(struct floor *floor, uint32_t refusal, uint32_t number, int rules)
{
    if (refusal == LAMPREYCOIL_OK && rules == 0)
        return 0;
    if (refusal == number && rules > 0)
        return EXIT_REFUSED;
    broken(floor, 0, LAMPREYCOIL_OK,
           "THE CHECKS DIFFER: the library says %lu, and %d broken rules were found",
           (unsigned long)refusal, rules);
    return EXIT_DIFFERS;
}

/* The rules of all that could be read; the library is not asked, for it would need the rest. */
static int check_lines(struct floor *floor)
{
    explain_tree(floor);
    explain_services(floor);
    explain_identities(floor);
    return EXIT_REFUSED;
}

int check_floor(struct floor *floor)
{
    uint8_t record[LAMPREYCOIL_CHECK_TREE_RECORD];

    if (floor->mistakes.count > 0)
        return check_lines(floor);
    uint32_t refusal = lampreycoil_check_tree(floor->tree_table, floor->tree_length, floor->depth,
                                              sizeof floor->depth, record, sizeof record);
    int status = agree(floor, refusal, LAMPREYCOIL_TREE_WRONG, explain_tree(floor));
    int services = explain_services(floor), identities = explain_identities(floor);

    /* The library judges the other two tables by a valid tree. */
    if (status != 0)
        return status;
    refusal = lampreycoil_check_services(floor->tree_table, floor->tree_length,
                                         floor->service_table, floor->service_length);
    status = agree(floor, refusal, LAMPREYCOIL_SERVICES_WRONG, services);
    refusal = lampreycoil_check_identities(floor->tree_table, floor->tree_length,
                                           floor->identity_table, floor->identity_length);
    int other = agree(floor, refusal, LAMPREYCOIL_IDENTITIES_WRONG, identities);
    return other > status ? other : status;
}

int load_floor(struct floor *floor, const char *name)
{
    int status = read_floor(floor, name);

    if (status != 0)
        return status;
    warn_of_signs(floor);
    return check_floor(floor);
}

int read_valid_floor(struct floor *floor, const char *name)
{
    int status = load_floor(floor, name);

    if (status != EXIT_TROUBLE)
        tell_found(floor, status);
    return status;
}

unsigned tree_depth(const struct floor *floor)
{
    unsigned depth = 0;

    for (uint32_t rank = 0; rank < floor->ranks; rank++)
        depth = floor->depth[rank] > depth ? floor->depth[rank] : depth;
    return depth;
}
