#include <string.h>

#include "floor.h"
#include "names.h"

enum {
    TREE = LAMPREYCOIL_TREE_WRONG,
    SERVICES = LAMPREYCOIL_SERVICES_WRONG,
    IDENTITIES = LAMPREYCOIL_IDENTITIES_WRONG
};

/* Whether the rank's parent is another rank of the floor. */
static int has_parent(const struct floor *floor, uint32_t rank)
{
    return rank != 0 && floor->rank[rank].read && floor->rank[rank].parent < floor->ranks &&
           floor->rank[rank].parent != rank;
}

/* The links from a rank to rank 0, or -1 where its parents do not lead there. */
static long links_to_0(const struct floor *floor, uint32_t rank)
{
    long links = 0;

    while (has_parent(floor, rank) && links <= (long)floor->ranks) {
        rank = floor->rank[rank].parent;
        links++;
    }
    return rank == 0 ? links : -1;
}

/* Whether a rank's parents lead back to it, with no smaller rank among them. */
static int leads_a_ring(const struct floor *floor, uint32_t rank)
{
    uint32_t at = rank;

    for (uint32_t links = 0; links <= floor->ranks && has_parent(floor, at); links++) {
        at = floor->rank[at].parent;
        if (at == rank)
            return 1;
        if (at < rank)
            return 0;
    }
    return 0;
}

static int explain_ring(struct floor *floor, uint32_t rank)
{
    uint32_t length = 1;

    for (uint32_t at = floor->rank[rank].parent; at != rank; at = floor->rank[at].parent)
        length++;
    broken(floor, floor->rank[rank].line, TREE,
           "rank %lu is in a ring: %lu links up is rank %lu again; give one of them a parent "
           "outside of the ring",
           (unsigned long)rank, (unsigned long)length, (unsigned long)rank);
    return 1;
}

/* Of a rank that is read. Where a line is not, the parent that is missing may be that line's. */
static int explain_rank(struct floor *floor, uint32_t rank)
{
    uint32_t parent = floor->rank[rank].parent;
    int line = floor->rank[rank].line;

    if (rank == 0 && parent != LAMPREYCOIL_NO_PARENT)
        broken(floor, line, TREE, "rank 0 is the root: its parent has to be 'none'");
    else if (rank != 0 && parent == LAMPREYCOIL_NO_PARENT)
        broken(floor, line, TREE, "rank %lu has no parent: name one, for only rank 0 has 'none'",
               (unsigned long)rank);
    else if (rank != 0 && parent >= floor->ranks && !floor->unsure)
        broken(floor, line, TREE,
               "rank %lu's parent, %lu, is no rank of this floor: name one of 0 to %lu",
               (unsigned long)rank, (unsigned long)parent, (unsigned long)floor->ranks - 1);
    else if (rank != 0 && parent == rank)
        broken(floor, line, TREE, "rank %lu is its own parent: name another rank",
               (unsigned long)rank);
    else if (leads_a_ring(floor, rank))
        return explain_ring(floor, rank);
    else if (links_to_0(floor, rank) == LAMPREYCOIL_DEPTH_MAX + 1)
        broken(floor, line, TREE,
               "rank %lu is %d links from rank 0, and %d are the most: name a parent that is "
               "nearer to rank 0",
               (unsigned long)rank, LAMPREYCOIL_DEPTH_MAX + 1, LAMPREYCOIL_DEPTH_MAX);
    else
        return 0;
    return 1;
}

int explain_tree(struct floor *floor)
{
    int rules = 0;

    if (floor->ranks == 0 && !floor->unsure) {
        broken(floor, floor->lines, TREE, "no line gives a rank: write at least that of rank 0");
        rules++;
    }
    if (floor->ranks > LAMPREYCOIL_RANKS_MAX && floor->rank[LAMPREYCOIL_RANKS_MAX].line != 0) {
        broken(floor, floor->rank[LAMPREYCOIL_RANKS_MAX].line, TREE,
               "rank %d is one too many: ranks go from 0 to %d", LAMPREYCOIL_RANKS_MAX,
               LAMPREYCOIL_RANKS_MAX - 1);
        rules++;
    }
    for (uint32_t rank = 0; rank < floor->ranks; rank++)
        rules += floor->rank[rank].read ? explain_rank(floor, rank) : 0;
    return rules;
}

static int explain_service(struct floor *floor, size_t index)
{
    const struct floor_service *service = &floor->service[index];
    size_t length = strlen(service->name);
    char word[WORD_ROOM];
    int rules = 0;

    told_word(service->name, word);
    if (length > LAMPREYCOIL_NAME_MAX) {
        broken(floor, service->line, SERVICES,
               "the service %s is too long by %zu byte%s: a name has at most %d", word,
               length - LAMPREYCOIL_NAME_MAX, plural(length - LAMPREYCOIL_NAME_MAX),
               LAMPREYCOIL_NAME_MAX);
        rules++;
    }
    if (strchr(service->name, '.') != NULL) {
        broken(floor, service->line, SERVICES,
               "the service %s has a period: write only what comes before the first period of its "
               "topics",
               word);
        rules++;
    }
    for (size_t i = 0; i < index; i++) {
        if (floor->service[i].rank != service->rank ||
            strcmp(floor->service[i].name, service->name) != 0)
            continue;
        broken(floor, service->line, SERVICES, "rank %lu has the service %s twice: remove one",
               (unsigned long)service->rank, word);
        return rules + 1;
    }
    return rules;
}

int explain_services(struct floor *floor)
{
    int rules = 0;

    if (floor->services > LAMPREYCOIL_SERVICES_MAX) {
        broken(floor, floor->service[LAMPREYCOIL_SERVICES_MAX].line, SERVICES,
               "here is registration %d, and a floor has at most %d: remove some",
               LAMPREYCOIL_SERVICES_MAX + 1, LAMPREYCOIL_SERVICES_MAX);
        rules++;
    }
    for (size_t i = 0; i < floor->services; i++)
        rules += explain_service(floor, i);
    return rules;
}

/* The first character of an identity that is not well-formed; its length where all are. */
static size_t first_wrong(const char *identity)
{
    static const char form[] = "xxxxxxxx-xxxx-xxxx-xxxx-xxxxxxxxxxxx";
    size_t at = 0;

    while (
        at < sizeof form - 1 && identity[at] != '\0' &&
        (form[at] == '-' ? identity[at] == '-' : strchr("0123456789abcdef", identity[at]) != NULL))
        at++;
    return at;
}

#define UUID_FORM "write lower-case hex in groups of 8-4-4-4-12, with hyphens"

static int explain_identity(struct floor *floor, uint32_t rank)
{
    const struct floor_rank *own = &floor->rank[rank];
    size_t length = strlen(own->identity), at = first_wrong(own->identity);
    char word[WORD_ROOM];

    told_word(own->identity, word);
    if (length != LAMPREYCOIL_ROUTE_SIZE - 1) {
        broken(floor, own->line, IDENTITIES,
               "the identity %s has %zu characters, and a UUID has %d: " UUID_FORM, word, length,
               LAMPREYCOIL_ROUTE_SIZE - 1);
        return 1;
    }
    if (at < length) {
        broken(floor, own->line, IDENTITIES,
               "the identity %s is wrong at character %zu: " UUID_FORM, word, at + 1);
        return 1;
    }
    for (uint32_t other = 0; other < rank; other++) {
        if (!floor->rank[other].read || strcmp(floor->rank[other].identity, own->identity) != 0)
            continue;
        broken(floor, own->line, IDENTITIES,
               "rank %lu has the identity of rank %lu, on line %d: give each rank its own",
               (unsigned long)rank, (unsigned long)other, floor->rank[other].line);
        return 1;
    }
    return 0;
}

int explain_identities(struct floor *floor)
{
    int rules = 0;

    for (uint32_t rank = 0; rank < floor->ranks; rank++)
        rules += floor->rank[rank].read ? explain_identity(floor, rank) : 0;
    return rules;
}
