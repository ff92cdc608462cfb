/* A floor: the brokers of a tree and their services, as a text file and as the library's tables. */
#ifndef HOST_FLOOR_H
#define HOST_FLOOR_H

#include <stddef.h>
#include <stdint.h>
#include <stdio.h>

#include "lampreycoil.h"

/* Room for more than is allowed, so that the library and not this program refuses what is over. */
enum { RANKS_ROOM = 2 * LAMPREYCOIL_RANKS_MAX, SERVICES_ROOM = 2 * LAMPREYCOIL_SERVICES_MAX };

/* How many remarks are told, how long each may be, and how long a word that is told in one. */
enum { REMARKS_TOLD = 20, REMARK_ROOM = 512, WORD_ROOM = 288 };

/* What is said of a line: a mistake or a warning. */
struct remark {
    int line;         /* 0: of the floor as a whole */
    uint32_t refusal; /* the library's number for it; 0 where it has none */
    char words[REMARK_ROOM];
};

/* In the order of the lines. All are counted, and the first ones are kept. */
struct remarks {
    size_t count;
    struct remark kept[REMARKS_TOLD];
};

struct floor_rank {
    int line; /* of the file, from 1; 0 where no line gives this rank */
    int read; /* whether parent and identity could be read */
    uint32_t parent;
    const char *identity; /* as written */
};

struct floor_service {
    int line;
    uint32_t rank;
    const char *name; /* as written */
};

struct floor {
    const char *file; /* its name, for what is said of it */
    int lines;        /* lines of the file */
    int unsure;       /* whether there is a line of which no new rank could be read */
    uint32_t ranks;   /* the highest rank given, and one */
    struct floor_rank rank[RANKS_ROOM];
    size_t services; /* records, in the order of the file */
    struct floor_service service[SERVICES_ROOM];
    struct remarks mistakes, warnings;
    /* The tables for the library, made of the above where all of the file could be read. */
    uint8_t tree_table[RANKS_ROOM * LAMPREYCOIL_RANK_SIZE];
    uint8_t service_table[SERVICES_ROOM * LAMPREYCOIL_SERVICE_SIZE];
    uint8_t identity_table[RANKS_ROOM * LAMPREYCOIL_ROUTE_SIZE];
    size_t tree_length, service_length, identity_length; /* of the tables, in bytes */
    uint8_t depth[RANKS_ROOM];                           /* from the library, once it is checked */
};

/*
 * Reads a floor and makes its tables, valid or not. What cannot be read in it is among its mistakes
 * then, and there are no tables. Returns 0, or has said why there is no such file: EXIT_TROUBLE.
 */
int read_floor(struct floor *floor, const char *name);

/*
 * Has the library check the tables, and puts each rule that is broken to the mistakes. Returns 0,
 * EXIT_REFUSED, or EXIT_DIFFERS if the library's word and this program's are not the same.
 */
int check_floor(struct floor *floor);

/* Both in turn, and says nothing of mistakes and warnings. Returns as they do. */
int load_floor(struct floor *floor, const char *name);

/* Says on standard error what load_floor has found: mistakes, if status is not 0, and warnings. */
void tell_found(const struct floor *floor, int status);

/* Reads a floor that has to be valid. Returns 0, or the exit status, and has said what is wrong. */
int read_valid_floor(struct floor *floor, const char *name);

/* One mistake more. The refusal is the library's number for it, or 0. */
void broken(struct floor *floor, int line, uint32_t refusal, const char *format, ...);

/* One warning more: nothing is refused for it. */
void warn(struct floor *floor, int line, const char *format, ...);

/*
 * A word of the file as it is told: in quotes, as text, a long one cut and with its length, so that
 * the reason always has its place. room has WORD_ROOM bytes; returns it.
 */
const char *told_word(const char *word, char *room);

/* Tells the remarks, each with file and line, and how many more there are. */
void tell_remarks(FILE *stream, const struct floor *floor, const struct remarks *remarks,
                  const char *mark);

/* "FILE: not a valid floor: N mistakes", or that nobody can say. */
void tell_not_valid(FILE *stream, const struct floor *floor, int status);

/* Each returns how many broken rules it has found. */
int explain_tree(struct floor *floor);
int explain_services(struct floor *floor);
int explain_identities(struct floor *floor);

/* Warns of a name with a sign in it that looks as if it parted two names. */
void warn_of_signs(struct floor *floor);

/* Whether the rank has any service. */
int has_services(const struct floor *floor, uint32_t rank);

/* How deep the tree is, and how many names the services have. */
unsigned tree_depth(const struct floor *floor);
size_t service_names(const struct floor *floor);

/* The rank whose identity this route is, or LAMPREYCOIL_NO_PARENT. */
uint32_t find_identity(const struct floor *floor, const uint8_t *route);

#endif
