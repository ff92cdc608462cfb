/* The findings of an audit and its counts, for a person and for a machine. */
#include "floor_audit.h"
#include "floor_put.h"
#include "floor_result.h"
#include "json.h"
#include "names.h"
#include "progress.h"
#include "quoted.h"

static const struct {
    const char *name;  /* for a machine */
    const char *words; /* for a person */
} kinds[FINDINGS] = {
    [BLANK_REPLY] = {"blank_reply", "blank reply"},
    [WRONG_ERROR] = {"wrong_error", "wrong error"},
    [NO_ERROR_REPLY] = {"no_error_reply", "no error reply"},
    [SECOND_REPLY] = {"second_reply", "second reply"},
    [REPLY_TO_NORESPONSE] = {"reply_to_noresponse", "reply to noresponse"},
    [NEVER_ANSWERED] = {"never_answered", "never answered"},
    [RESPONSE_TO_NOBODY] = {"response_to_nobody", "response to nobody"},
    [REFUSED_FRAME] = {"refused_frame", "refused frame"},
    [REFUSED_WALK] = {"refused_walk", "refused walk"},
};

unsigned long long all_findings(const struct counts *counts)
{
    unsigned long long all = 0;

    for (int kind = 0; kind < FINDINGS; kind++)
        all += counts->findings[kind];
    return all;
}

/* ---- a finding */

/* An error by number and name: errnum 0 has none. */
static void print_error(const char *before, uint32_t number)
{
    const char *name = error_name(number);

    printf("%s %lu%s%s", before, (unsigned long)number, name == NULL ? "" : " ",
           name == NULL ? "" : name);
}

static void print_reason(enum finding kind, const struct told *told)
{
    switch (kind) {
    case BLANK_REPLY:
    case WRONG_ERROR:
        print_error("error", told->due);
        print_error(" was due, and the reply says errnum", told->message->first);
        break;
    case NO_ERROR_REPLY:
        print_error("error", told->due);
        printf(" was due, and no reply came");
        break;
    case SECOND_REPLY:
        printf("its request has a reply already");
        break;
    case REPLY_TO_NORESPONSE:
        printf("its request has noresponse set");
        break;
    case NEVER_ANSWERED:
        printf("the request is delivered, and no reply came");
        break;
    case RESPONSE_TO_NOBODY:
        printf("%s", told->request == NULL ? "no request has its topic, matchtag and routes"
                                           : "the stream of its request has ended");
        break;
    default:
        printf("refused, %lu: %s", (unsigned long)told->refusal,
               lampreycoil_refusal_words(told->refusal));
        if (told->fault != NULL)
            printf(" (%s)", told->fault->told);
    }
}

static void print_finding(enum finding kind, const struct told *told)
{
    printf("frame %llu, from byte %llu: %s: ", told->number, told->start, kinds[kind].words);
    print_reason(kind, told);
    if (told->message != NULL) {
        printf("; ");
        print_quoted(stdout, told->message->topic, told->message->topic_length);
        printf(", matchtag %lu", (unsigned long)told->message->second);
    }
    if (told->request != NULL && told->request->number != told->number)
        printf("; the request is frame %llu, from byte %llu", told->request->number,
               told->request->start);
    putchar('\n');
}

/* A number and its name, or null for both. */
static void put_error(const char *name, const char *name_of_name, int there, uint32_t number)
{
    put_number_or_null(name, there, number);
    put_text_or_null(name_of_name, there ? error_name(number) : NULL);
}

static void put_finding(enum finding kind, const struct told *told)
{
    const struct lampreycoil_message *message = told->message;
    int is_response = message != NULL && message->type == LAMPREYCOIL_RESPONSE;
    int has_fault = told->fault != NULL && has_byte(told->fault);

    json_open('{');
    json_name("finding");
    json_text(kinds[kind].name);
    put_named_number("frame", told->number);
    put_named_number("byte", told->start);
    json_name("topic");
    if (message != NULL)
        json_bytes(message->topic, message->topic_length);
    else
        json_null();
    put_number_or_null("matchtag", message != NULL, message == NULL ? 0 : message->second);
    put_error("due", "due_name", told->due != 0, told->due);
    put_error("errnum", "errnum_name", is_response, is_response ? message->first : 0);
    put_number_or_null("request_frame", told->request != NULL,
                       told->request == NULL ? 0 : told->request->number);
    put_number_or_null("refusal", told->refusal != LAMPREYCOIL_OK, told->refusal);
    put_number_or_null("fault_byte", has_fault, has_fault ? told->fault->byte : 0);
    json_close('}');
    json_end();
}

void find(struct audit *audit, enum finding kind, const struct told *told)
{
    audit->counts.findings[kind]++;
    clear_progress();
    if (audit->json)
        put_finding(kind, told);
    else if (!audit->quiet)
        print_finding(kind, told);
}

/* ---- the counts */

static void print_count(const char *name, unsigned long long count)
{
    printf("%-32s%llu\n", name, count);
}

/* The verdict, so that no line of zeros is taken for a yes. */
static void print_verdict(const struct counts *counts)
{
    unsigned long long all = all_findings(counts);

    if (all != 0)
        printf("%llu finding%s\n", all, plural(all));
    else if (counts->frames == 0)
        puts("no frame: the capture is empty, and nothing was judged");
    else if (counts->requests == 0)
        puts("no request: nothing was judged");
    else
        printf("no finding: each of %llu request%s got what was due\n", counts->requests,
               plural(counts->requests));
}

static void print_unregistered(const struct audit *audit)
{
    if (audit->unregistered != NULL)
        puts("services that nobody registers, and requests for each");
    for (const struct unregistered *at = audit->unregistered; at != NULL; at = at->next) {
        printf("  ");
        print_quoted(stdout, at->name, at->length);
        printf(" %llu\n", at->requests);
    }
    if (audit->counts.other_unregistered != 0)
        printf("  others %llu\n", audit->counts.other_unregistered);
}

static void print_counts(const struct audit *audit)
{
    const struct counts *counts = &audit->counts;

    print_verdict(counts);
    print_count("frames", counts->frames);
    print_count("requests", counts->requests);
    print_count("  delivered", counts->delivered);
    print_count("  error 38 ENOSYS due", counts->no_service);
    print_count("  error 113 EHOSTUNREACH due", counts->no_rank);
    print_count("  silenced", counts->silenced);
    print_count("  streams still open", counts->streams);
    print_count("responses", counts->responses);
    print_count("events", counts->events);
    print_count("control messages", counts->controls);
    print_count("findings", all_findings(counts));
    for (int kind = 0; kind < FINDINGS; kind++) {
        if (counts->findings[kind] != 0)
            printf("  %-30s%llu\n", kinds[kind].words, counts->findings[kind]);
    }
    print_unregistered(audit);
}

static void put_unregistered(const struct audit *audit)
{
    json_name("unregistered");
    json_open('[');
    for (const struct unregistered *at = audit->unregistered; at != NULL; at = at->next) {
        json_open('{');
        json_name("service");
        json_bytes(at->name, at->length);
        put_named_number("requests", at->requests);
        json_close('}');
    }
    json_close(']');
    put_named_number("other_unregistered", audit->counts.other_unregistered);
}

static void put_counts(const struct audit *audit, int status)
{
    const struct counts *counts = &audit->counts;

    json_open('{');
    put_named_number("status", (unsigned)status);
    put_named_number("findings", all_findings(counts));
    put_named_number("frames", counts->frames);
    put_named_number("requests", counts->requests);
    put_named_number("delivered", counts->delivered);
    put_named_number("error_38", counts->no_service);
    put_named_number("error_113", counts->no_rank);
    put_named_number("silenced", counts->silenced);
    put_named_number("open_streams", counts->streams);
    put_named_number("responses", counts->responses);
    put_named_number("events", counts->events);
    put_named_number("controls", counts->controls);
    json_name("by_kind");
    json_open('{');
    for (int kind = 0; kind < FINDINGS; kind++)
        put_named_number(kinds[kind].name, counts->findings[kind]);
    json_close('}');
    put_unregistered(audit);
    json_close('}');
    json_end();
}

void tell_counts(const struct audit *audit, int status)
{
    if (audit->json)
        put_counts(audit, status);
    else if (!audit->quiet)
        print_counts(audit);
}
