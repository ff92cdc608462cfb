/*
 * What the tests of the stack share. A call is made in a signal handler that has a stack of its
 * own, filled with a pattern; the lowest byte that has changed tells how deep the call went. A line
 * is written for each kind of call, "passed" or "FAILED": LAMPREYCOIL_STACK_MAX is the limit, and
 * 64 KiB is the limit of that.
 */
#define _XOPEN_SOURCE 700
#include <signal.h>
#include <stdio.h>
#include <stdlib.h>
#include <string.h>

#include "lampreycoil.h"

enum {
    STACK = 512 * 1024,
    FILL = 0xA5,
    LONG_BODY = 32730 /* the longest that still grows by a route */
};

/* ---- messages */

static uint8_t payload[LAMPREYCOIL_BODY_MAX];
static uint8_t frame[LAMPREYCOIL_FRAME_MAX];
static size_t frame_length;

/* What a call is lent: a buffer with the frame at its front, and room for any record. */
static uint8_t buffer[LAMPREYCOIL_FRAME_MAX];
static uint8_t record[LAMPREYCOIL_READ_RECORD];

/* The topic is as long as a service's name; the payload makes the body as long as told. */
static void make_frame(uint8_t type, uint8_t more, uint32_t first, const uint8_t *topic,
                       const uint8_t *routes, size_t count, size_t body)
{
    const uint8_t flags = LAMPREYCOIL_TOPIC | LAMPREYCOIL_ROUTE | LAMPREYCOIL_PAYLOAD;
    size_t others = count * LAMPREYCOIL_ROUTE_STEP + 1 + 1 + LAMPREYCOIL_NAME_MAX + 1 + 5 + 21;
    uint8_t row[LAMPREYCOIL_WRITE_RECORD];

    if (lampreycoil_write(type, flags | more, 1000, 0, first, 1, routes,
                          count * LAMPREYCOIL_ROUTE_SIZE, topic, LAMPREYCOIL_NAME_MAX, payload,
                          body - others, frame, sizeof frame, row, sizeof row))
        abort();
    frame_length = lampreycoil_number(row, LAMPREYCOIL_WRITE_LENGTH);
    if (frame_length != body + 8)
        abort();
}

static void make_identity(uint8_t *at, uint32_t number)
{
    char form[LAMPREYCOIL_ROUTE_SIZE];

    snprintf(form, sizeof form, "01234567-0123-4567-89ab-012345%06x", (unsigned)number);
    memcpy(at, form, sizeof form);
}

/* ---- the measurement */

static uint32_t nothing(void)
{
    return 0;
}

static uint32_t (*volatile call)(void);
static volatile uint32_t outcome;
static uint8_t *volatile top;

static void handler(int number)
{
    uint8_t here = (uint8_t)number;

    top = &here;
    outcome = call();
}

static uint8_t *stack;

/* Bytes from the handler's frame down to the lowest that was written. */
static size_t measure_once(uint32_t (*what)(void))
{
    size_t low = 0;

    memset(stack, FILL, STACK);
    memcpy(buffer, frame, frame_length);
    call = what;
    raise(SIGUSR1);
    while (stack[low] == FILL)
        low++;
    return (size_t)(top - (stack + low));
}

/*
 * The second time counts: at the first one the dynamic linker may look for memcpy, on the stack of
 * whoever calls that.
 */
static size_t measure(uint32_t (*what)(void))
{
    measure_once(what);
    return measure_once(what);
}

static void takes_below(size_t limit, const char *label, uint32_t (*what)(void), uint32_t expected)
{
    size_t empty = measure(nothing);
    size_t bytes = measure(what);
    int good = outcome == expected && bytes > empty && bytes < limit;

    printf("%s: stack of %s: %zu bytes", good ? "passed" : "FAILED", label, bytes);
    if (outcome != expected)
        printf(", and it told %u", (unsigned)outcome);
    printf("\n");
}

static void takes(const char *label, uint32_t (*what)(void), uint32_t expected)
{
    takes_below(LAMPREYCOIL_STACK_MAX <= 64 * 1024 ? LAMPREYCOIL_STACK_MAX : 0, label, what,
                expected);
}

/* Begins the measurement: gives signals a stack of their own. */
static void begin(void)
{
    stack_t own;
    struct sigaction action;

    memset(payload, 'x', sizeof payload);
    stack = malloc(STACK);
    if (!stack)
        exit(2);
    memset(&own, 0, sizeof own);
    own.ss_sp = stack;
    own.ss_size = STACK;
    memset(&action, 0, sizeof action);
    action.sa_handler = handler;
    action.sa_flags = SA_ONSTACK;
    if (sigaltstack(&own, NULL) != 0 || sigaction(SIGUSR1, &action, NULL) != 0)
        exit(2);
}
