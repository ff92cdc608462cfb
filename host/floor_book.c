/* tsearch is X/Open's: a balanced tree, so no choice of keys makes the book slow. */
#define _XOPEN_SOURCE 600

#include "floor_book.h"

#include <search.h>
#include <stdlib.h>
#include <string.h>

/* All requests of one key that the book has. */
struct talk {
    const uint8_t *key;
    size_t length;
    struct booked *open, *open_last; /* here and below: oldest first */
    struct booked *settled, *settled_last;
};

void make_key(struct key *key, const struct lampreycoil_message *message)
{
    uint8_t *at = key->bytes + 4;

    lampreycoil_put_number(key->bytes, 0, message->second);
    *at++ = (uint8_t)message->topic_length;
    memcpy(at, message->topic, message->topic_length);
    at += message->topic_length;
    for (size_t i = 0; i < message->routes_count; i++, at += LAMPREYCOIL_ROUTE_SIZE)
        memcpy(at, lampreycoil_route(message, i), LAMPREYCOIL_ROUTE_SIZE);
    key->length = (size_t)(at - key->bytes);
}

static int compare_keys(const void *one, const void *other)
{
    const struct talk *a = one, *b = other;

    if (a->length != b->length)
        return a->length < b->length ? -1 : 1;
    return memcmp(a->key, b->key, a->length);
}

static struct talk *find_talk(const struct book *book, const struct key *key)
{
    struct talk sought = {.key = key->bytes, .length = key->length};
    struct talk *const *found = tfind(&sought, &book->talks, compare_keys);

    return found == NULL ? NULL : *found;
}

/* The key's talk, a new one where there was none; NULL where there is no memory. */
static struct talk *keep_talk(struct book *book, const struct key *key)
{
    struct talk *talk = find_talk(book, key);
    uint8_t *bytes;

    if (talk != NULL)
        return talk;
    /* The key's bytes lie behind the talk, and go with it. */
    if ((talk = calloc(1, sizeof *talk + key->length)) == NULL)
        return NULL;
    bytes = (uint8_t *)(talk + 1);
    memcpy(bytes, key->bytes, key->length);
    talk->key = bytes;
    talk->length = key->length;
    if (tsearch(talk, &book->talks, compare_keys) == NULL) {
        free(talk);
        return NULL;
    }
    return talk;
}

static void append(struct booked_list *list, struct booked *request)
{
    request->before = list->last;
    request->after = NULL;
    *(list->last == NULL ? &list->first : &list->last->after) = request;
    list->last = request;
}

static void take_out(struct booked_list *list, struct booked *request)
{
    *(request->before == NULL ? &list->first : &request->before->after) = request->after;
    *(request->after == NULL ? &list->last : &request->after->before) = request->before;
}

/* The same of the requests of one key, which only ever go from the front. */
static void append_to_talk(struct booked **first, struct booked **last, struct booked *request)
{
    request->next = NULL;
    *(*first == NULL ? first : &(*last)->next) = request;
    *last = request;
}

static struct booked *keep(struct book *book, const struct key *key, const struct booked *request)
{
    struct talk *talk = keep_talk(book, key);
    struct booked *kept = talk == NULL ? NULL : malloc(sizeof *kept);

    if (kept == NULL)
        return NULL;
    *kept = *request;
    kept->talk = talk;
    return kept;
}

int keep_open(struct book *book, const struct key *key, const struct booked *request)
{
    struct booked *kept = keep(book, key, request);

    if (kept == NULL)
        return -1;
    append(&book->open, kept);
    append_to_talk(&kept->talk->open, &kept->talk->open_last, kept);
    return 0;
}

struct booked *oldest_open(const struct book *book, const struct key *key)
{
    const struct talk *talk = find_talk(book, key);

    return talk == NULL ? NULL : talk->open;
}

struct booked *last_settled(const struct book *book, const struct key *key)
{
    const struct talk *talk = find_talk(book, key);

    return talk == NULL || talk->settled == NULL ? NULL : talk->settled_last;
}

/* The oldest settled request of all is also its key's oldest. */
static void forget_oldest(struct book *book)
{
    struct booked *oldest = book->settled.first;
    struct talk *talk = oldest->talk;

    take_out(&book->settled, oldest);
    book->settled_now--;
    talk->settled = oldest->next;
    free(oldest);
    if (talk->settled != NULL || talk->open != NULL)
        return;
    tdelete(talk, &book->talks, compare_keys);
    free(talk);
}

static void append_settled(struct book *book, struct booked *request)
{
    struct talk *talk = request->talk;

    append(&book->settled, request);
    append_to_talk(&talk->settled, &talk->settled_last, request);
    if (++book->settled_now > SETTLED_MAX)
        forget_oldest(book);
}

void settle(struct book *book, struct booked *request)
{
    take_out(&book->open, request);
    request->talk->open = request->next;
    append_settled(book, request);
}

int keep_settled(struct book *book, const struct key *key, const struct booked *request)
{
    struct booked *kept = keep(book, key, request);

    if (kept == NULL)
        return -1;
    append_settled(book, kept);
    return 0;
}

void recall(const struct booked *request, struct lampreycoil_message *message)
{
    const uint8_t *key = request->talk->key;

    memset(message, 0, sizeof *message);
    message->type = LAMPREYCOIL_REQUEST;
    message->second = lampreycoil_number(key, 0);
    message->topic_length = key[4];
    message->topic = key + 5;
}

void close_book(struct book *book)
{
    while (book->open.first != NULL)
        settle(book, book->open.first);
    while (book->settled.first != NULL)
        forget_oldest(book);
}
