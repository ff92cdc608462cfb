/*
 * The requests of a capture that wait for a reply, and the last ones that wait no more. A response
 * goes with the oldest open request of its key: the topic, the matchtag and the routes on entry.
 */
#ifndef HOST_FLOOR_BOOK_H
#define HOST_FLOOR_BOOK_H

#include <stddef.h>
#include <stdint.h>

#include "lampreycoil.h"

/* How many requests are kept that wait no more: so memory is bounded by what is open. */
enum { SETTLED_MAX = 65536 };

/* A matchtag, a length, a topic and routes. */
enum { KEY_ROOM = 4 + 1 + LAMPREYCOIL_TOPIC_MAX + LAMPREYCOIL_ROUTES_MAX * LAMPREYCOIL_ROUTE_SIZE };

struct key {
    size_t length;
    uint8_t bytes[KEY_ROOM];
};

struct talk;

/* A request of the capture. */
struct booked {
    unsigned long long number; /* of its frame in the capture */
    unsigned long long start;  /* and where that begins */
    uint32_t error;            /* the error reply that is due; 0 where it was delivered */
    int noresponse;
    int streaming;
    unsigned long long replies;
    /* For the book alone. */
    struct talk *talk;
    struct booked *next;           /* of the same key: open, or settled */
    struct booked *before, *after; /* of all: open, or settled */
};

/* Requests in order, each linked to the one behind it. */
struct booked_list {
    struct booked *first, *last;
};

struct book {
    void *talks;                    /* by their keys: a tree of search.h */
    struct booked_list open;        /* as they came */
    struct booked_list settled;     /* as they were settled */
    unsigned long long settled_now; /* how many */
};

/* The key of a message whose routes are those on entry. */
void make_key(struct key *key, const struct lampreycoil_message *message);

/* Keeps a request, open or settled at once. Returns 0, or -1 where there is no memory. */
int keep_open(struct book *book, const struct key *key, const struct booked *request);
int keep_settled(struct book *book, const struct key *key, const struct booked *request);

/* The oldest open request of this key, and the one that was settled last; NULL: there is none. */
struct booked *oldest_open(const struct book *book, const struct key *key);
struct booked *last_settled(const struct book *book, const struct key *key);

/* The request, which is its key's oldest open one, waits no more. The oldest settled one may go. */
void settle(struct book *book, struct booked *request);

/* The topic and the matchtag of a request in the book; all else of the message is zero. */
void recall(const struct booked *request, struct lampreycoil_message *message);

/* Gives all memory back. */
void close_book(struct book *book);

#endif
