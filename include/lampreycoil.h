/*
 * lampreycoil.h: the C calls of Lampreycoil, which reads and writes framed Flux messages (RFC 3),
 * tells where a refused one is wrong, lists the frames of a stream, says whether a payload is JSON,
 * checks the tables of the brokers that pass them on, makes one broker's step, and plays a whole
 * walk. It also reads and writes the commands of the Majordomo protocol (MDP 0.2).
 * The functions are in the archive liblampreycoil.a. Usable from C99 and from C++. Files that are
 * named below are in the sources; an install has FORMAT.md and C-GUIDE.md, which has examples, in
 * share/doc/lampreycoil.
 *
 * How every call works
 *
 * - Bytes pass as a slice: a pointer, then a length (size_t). A slice may begin at any byte: no
 *   alignment is needed. An empty slice may be NULL, or any other pointer, which is never followed;
 *   that is tested (host/test/empty.c) and not proved. Otherwise the pointer must be good for the
 *   length given.
 * - Two slices which the call only reads may overlap, or be the same. A slice that the call writes
 *   (one without const) must not overlap with any other slice of the same call. Where it does,
 *   nothing that is said here is promised: not the result, and no byte of any lent slice.
 * - Nobody else may write to a lent slice until the call returns. No call keeps a pointer, and none
 *   keeps any state. There is nothing to set up or to close. Any thread may call at any time, also
 *   in a signal handler, as long as the slices are its own.
 * - A call returns 0, or the number of its refusal (enum lampreycoil_refusal). A compiler that can
 *   will warn where the returned number is not looked at.
 * - A call's results are a record: a row of 4-byte big-endian numbers, which it writes to the
 *   front of a slice lent for it. lampreycoil_number() reads one of them. A record slice that is
 *   too short is refused with 11 before anything else. A longer one keeps its tail as it was.
 * - A refusal writes nothing, to any slice. Three calls differ, lampreycoil_walk,
 *   lampreycoil_read_fault and, for refusal 26, lampreycoil_check_json: see there.
 * - Nothing is allocated. A call takes less than LAMPREYCOIL_STACK_MAX bytes of stack, whatever it
 *   is given, and lampreycoil_check_json less than 4,096 (it took 2,231 at 32 levels). This is
 *   measured (host/test.sh) and not proved. What the dynamic linker takes is not in it: a program
 *   that is not linked with -z now has it look for memcpy, memmove and memset at their first call.
 *
 * What a message is
 *
 * Every number of more than one byte is big endian: its most significant byte comes first.
 *
 * A frame is FF EE 00 12, the body's length (4 bytes, big endian), then the body, of at most 32,768
 * bytes: parts, each with its size in front. A size below 255 is one byte; a longer part has 255
 * and then its size (4 bytes, big endian). The parts come in this order, and each type has its own:
 *
 *   type         routes    delimiter  topic  payload  header
 *   1 request    0 to 64   yes        yes    may be   yes
 *   2 response   0 to 64   yes        yes    may be   yes
 *   4 event      no        no         yes    may be   yes
 *   8 control    no        no         no     no       yes
 *
 * - A route is 37 bytes: 36 characters, which are the hexadecimal digits 0 to 9 and a to f in
 *   groups of 8, 4, 4, 4 and 12 with hyphens between them, then a zero byte. A UUID in capitals is
 *   refused. The top of the stack of routes comes first.
 * - The delimiter is an empty part.
 * - A topic is 1 to 255 bytes, any but zero; it need not be text. In a frame a zero byte follows
 *   it. The calls take and show it without that byte. Its service is all before the first period,
 *   or all of it where there is none.
 * - A payload is any bytes, and may be empty; its flag tells an empty one from none. Whether it is
 *   JSON no call asks but lampreycoil_check_json.
 * - The header is 20 bytes: 8E, 01, type, flags, then userid, rolemask, first field and second
 *   field (4 bytes each, big endian). A request's first field is not 4294967294, and an event's
 *   second field is 0; otherwise these four may be any numbers.
 *
 * Flags topic, payload and route agree exactly with the parts: a request or response has topic and
 * route set (route even where there is no route, for the delimiter's sake), an event has topic, a
 * control message none of them, and payload is set where there is one. The other flags may be set
 * on any type. Flag 80 is refused.
 *
 * What the tables are
 *
 * - The tree: 4 bytes a rank, its parent's rank (big endian), for 1 to 1,024 ranks from rank 0 on.
 *   Rank 0 holds 4294967295, and no other rank does. From every rank the parents lead to rank 0,
 *   over 16 links at the most. A parent may have a larger rank than its child.
 * - The services: 0 to 1,024 records of 32 bytes: the rank (4 bytes, big endian), the name's length
 *   (1 byte, 1 to 27), the name, and zeros to the record's end. A name has neither zero byte nor
 *   period; any other byte may stand in it. Each rank is in the tree, and no rank has a name twice.
 *   A service matches a name bytewise and whole.
 * - The identities: a route of 37 bytes a rank, zero byte included, from rank 0 on; no two equal.
 *
 * docs/FORMAT.md has all of this with pictures of the bytes.
 */
#ifndef LAMPREYCOIL_H
#define LAMPREYCOIL_H

#include <stddef.h>
#include <stdint.h>

/* The version of this header, and of the archive that comes with it. */
#define LAMPREYCOIL_VERSION "0.3.0-dev"
/* The same for the preprocessor, without what follows a hyphen: 10000 * 0 + 100 * 3 + 0. */
#define LAMPREYCOIL_VERSION_NUMBER 300

/* Marks a function whose result has to be looked at. */
#if defined(__GNUC__)
#define LAMPREYCOIL_CHECKED __attribute__((warn_unused_result))
#else
#define LAMPREYCOIL_CHECKED
#endif

#ifdef __cplusplus
extern "C" {
#endif

/* Why a call was refused. docs/FORMAT.md has the table of refusals, and the order of each call. */
enum lampreycoil_refusal {
    /* no refusal */
    LAMPREYCOIL_OK = 0,
    /* fewer than 8 bytes, or fewer than 8 plus the body length */
    LAMPREYCOIL_INPUT_SHORT = 1,
    /* first four bytes wrong */
    LAMPREYCOIL_START_WRONG = 2,
    /* body above 32,768 */
    LAMPREYCOIL_BODY_LONG = 3,
    /* a part's size or data passes the body's end, or a 4-byte size below 255 */
    LAMPREYCOIL_PART_WRONG = 4,
    /* a 69th part begins */
    LAMPREYCOIL_PARTS_MANY = 5,
    /* no part at all, or last part not 20 bytes */
    LAMPREYCOIL_HEADER_WRONG = 6,
    /* parts disagree with type or flags */
    LAMPREYCOIL_PARTS_DISAGREE = 7,
    /* a route not well-formed, or more than 64 */
    LAMPREYCOIL_ROUTE_WRONG = 8,
    /* topic not well-formed */
    LAMPREYCOIL_TOPIC_WRONG = 9,
    /* request nodeid 4294967294; event's unused field not zero */
    LAMPREYCOIL_FIELD_WRONG = 10,
    /* a lent output too short */
    LAMPREYCOIL_OUTPUT_SHORT = 11,
    /* forwarding would make 65 routes or a body above 32,768 */
    LAMPREYCOIL_FORWARD_LONG = 12,
    /* tree wrong (a wrong length included) */
    LAMPREYCOIL_TREE_WRONG = 14,
    /* services wrong (a wrong length included) */
    LAMPREYCOIL_SERVICES_WRONG = 15,
    /* identities wrong (a wrong length included) */
    LAMPREYCOIL_IDENTITIES_WRONG = 16,
    /* rank not in the tree */
    LAMPREYCOIL_RANK_WRONG = 17,
    /* step or walk given an event or control */
    LAMPREYCOIL_NOT_ROUTED = 18,
    /* a response's top route is a broker that is no neighbour, itself included */
    LAMPREYCOIL_NO_NEIGHBOUR = 19,
    /* the header's magic, its first byte, not 8E */
    LAMPREYCOIL_MAGIC_WRONG = 20,
    /* the header's version, its second byte, not 1 */
    LAMPREYCOIL_VERSION_WRONG = 21,
    /* type none of the four */
    LAMPREYCOIL_TYPE_WRONG = 22,
    /* flag 80 set */
    LAMPREYCOIL_FLAG_WRONG = 23,
    /* a payload whose values nest deeper than 32 */
    LAMPREYCOIL_JSON_DEEP = 26,
    /* a command's part: its size or data passes the end, or a 4-byte size below 255 */
    LAMPREYCOIL_COMMAND_PART_WRONG = 30,
    /* a command above 32,768 bytes */
    LAMPREYCOIL_COMMAND_LONG = 31,
    /* a command's first part is neither MDPC02 nor MDPW02, or missing */
    LAMPREYCOIL_MARK_WRONG = 32,
    /* a command's second part is no command of that sender, or missing */
    LAMPREYCOIL_COMMAND_WRONG = 33,
    /* a command has too few or too many parts */
    LAMPREYCOIL_PART_COUNT_WRONG = 34,
    /* a command's name not well-formed, or given to a command without one */
    LAMPREYCOIL_NAME_WRONG = 35,
    /* a command's address not well-formed, or given to a command without one */
    LAMPREYCOIL_ADDRESS_WRONG = 36,
    /* the part between a command's address and its body is not empty */
    LAMPREYCOIL_SEPARATOR_WRONG = 37
};

/* A message's type, with the names of its two fields. */
enum lampreycoil_type {
    LAMPREYCOIL_TYPE_REQUEST = 1,  /* first field nodeid, second matchtag */
    LAMPREYCOIL_TYPE_RESPONSE = 2, /* first field errnum, second matchtag */
    LAMPREYCOIL_TYPE_EVENT = 4,    /* first field sequence, second unused: zero */
    LAMPREYCOIL_TYPE_CONTROL = 8,  /* first field type, second status */

    /* the same, for short */
    LAMPREYCOIL_REQUEST = LAMPREYCOIL_TYPE_REQUEST,
    LAMPREYCOIL_RESPONSE = LAMPREYCOIL_TYPE_RESPONSE,
    LAMPREYCOIL_EVENT = LAMPREYCOIL_TYPE_EVENT,
    LAMPREYCOIL_CONTROL = LAMPREYCOIL_TYPE_CONTROL
};

/* A message's flags. The first, second and fourth agree exactly with the parts present. */
enum lampreycoil_flag {
    LAMPREYCOIL_FLAG_TOPIC = 0x01,
    LAMPREYCOIL_FLAG_PAYLOAD = 0x02,
    LAMPREYCOIL_FLAG_NORESPONSE = 0x04,
    LAMPREYCOIL_FLAG_ROUTE = 0x08,    /* requests and responses have it, even with no route */
    LAMPREYCOIL_FLAG_UPSTREAM = 0x10, /* the nodeid is a rank to be skipped: see lampreycoil_step */
    LAMPREYCOIL_FLAG_PRIVATE = 0x20,
    LAMPREYCOIL_FLAG_STREAMING = 0x40,

    /* the same, for short */
    LAMPREYCOIL_TOPIC = LAMPREYCOIL_FLAG_TOPIC,
    LAMPREYCOIL_PAYLOAD = LAMPREYCOIL_FLAG_PAYLOAD,
    LAMPREYCOIL_NORESPONSE = LAMPREYCOIL_FLAG_NORESPONSE,
    LAMPREYCOIL_ROUTE = LAMPREYCOIL_FLAG_ROUTE,
    LAMPREYCOIL_UPSTREAM = LAMPREYCOIL_FLAG_UPSTREAM,
    LAMPREYCOIL_PRIVATE = LAMPREYCOIL_FLAG_PRIVATE,
    LAMPREYCOIL_STREAMING = LAMPREYCOIL_FLAG_STREAMING
};

/* Sizes, in bytes where nothing else is said. */
enum lampreycoil_size {
    LAMPREYCOIL_FRONT_SIZE = 8,  /* what is in front of a body: four fixed bytes, and its length */
    LAMPREYCOIL_ROUTE_SIZE = 37, /* 36 characters and a zero byte */
    LAMPREYCOIL_ROUTE_STEP = 38, /* a route with its size: from one's data to the next one's */
    LAMPREYCOIL_ROUTES_MAX = 64, /* routes */
    LAMPREYCOIL_TOPIC_MAX = 255, /* without the zero byte */
    LAMPREYCOIL_BODY_MAX = 32768,
    LAMPREYCOIL_COMMAND_PARTS_MAX = 16, /* parts of a Majordomo command's body */
    LAMPREYCOIL_COMMAND_NAME_MAX = 255, /* the service's name in a Majordomo command */
    LAMPREYCOIL_COMMAND_MAX = 32768,
    LAMPREYCOIL_FRAME_MIN = 29,       /* a control message's frame: no frame is shorter */
    LAMPREYCOIL_FRAME_MAX = 32776,    /* an output of this size is never too short */
    LAMPREYCOIL_WALK_ROOM = 32776,    /* the least buffer that a walk takes */
    LAMPREYCOIL_RANKS_MAX = 1024,     /* ranks of a tree */
    LAMPREYCOIL_RANK_SIZE = 4,        /* a rank's record in a tree: its parent */
    LAMPREYCOIL_SERVICES_MAX = 1024,  /* records of services */
    LAMPREYCOIL_SERVICE_SIZE = 32,    /* rank (4), name length (1), name, zero padding */
    LAMPREYCOIL_NAME_MAX = 27,        /* a service's name */
    LAMPREYCOIL_DEPTH_MAX = 16,       /* links from a rank to rank 0 */
    LAMPREYCOIL_STREAM_MAX = 1048576, /* bytes of a stream that are looked at */
    LAMPREYCOIL_ENTRY_SIZE = 8,       /* an entry in a stream's list: start and length */
    LAMPREYCOIL_LIST_MAX = 289256,    /* a list of this size is never too short */
    LAMPREYCOIL_JSON_DEPTH_MAX = 32,  /* levels of a payload's JSON, its outer object being 1 */
    LAMPREYCOIL_STACK_MAX = 16384     /* stack that a call takes */
};

/* Sizes of the records that the calls fill, in bytes: 4 for each number. None is an index. */
enum lampreycoil_record_size {
    LAMPREYCOIL_READ_RECORD = 52,
    LAMPREYCOIL_FAULT_RECORD = 8,
    LAMPREYCOIL_WRITE_RECORD = 4,
    LAMPREYCOIL_STREAM_RECORD = 12,
    LAMPREYCOIL_JSON_RECORD = 8,
    LAMPREYCOIL_CHECK_TREE_RECORD = 4,
    LAMPREYCOIL_STEP_RECORD = 16,
    LAMPREYCOIL_WALK_RECORD = 24,
    LAMPREYCOIL_READ_COMMAND_RECORD = 32,
    LAMPREYCOIL_WRITE_COMMAND_RECORD = 4
};

#define LAMPREYCOIL_NODEID_ANY 0xFFFFFFFFu     /* a request's nodeid: any rank */
#define LAMPREYCOIL_USERID_UNKNOWN 0xFFFFFFFFu /* userid: not known */

/*
 * The numbers of lampreycoil_read's record, by index. Starts count from the frame's front, so
 * bytes + start is the part's data. A part that is absent has start 0 and length 0. A payload that
 * is present and empty has its real start; LAMPREYCOIL_PAYLOAD in the flags tells it from none.
 */
enum lampreycoil_read_index {
    LAMPREYCOIL_READ_TOOK = 0, /* bytes that the frame took; those behind it are ignored */
    LAMPREYCOIL_READ_TYPE = 1,
    LAMPREYCOIL_READ_FLAGS = 2,
    LAMPREYCOIL_READ_USERID = 3,
    LAMPREYCOIL_READ_ROLEMASK = 4,
    LAMPREYCOIL_READ_FIRST = 5,       /* first field */
    LAMPREYCOIL_READ_SECOND = 6,      /* second field */
    LAMPREYCOIL_READ_ROUTES = 7,      /* number of routes */
    LAMPREYCOIL_READ_ROUTE_START = 8, /* of the top route; the next is LAMPREYCOIL_ROUTE_STEP on */
    LAMPREYCOIL_READ_TOPIC_START = 9,
    LAMPREYCOIL_READ_TOPIC_LENGTH = 10, /* without the zero byte */
    LAMPREYCOIL_READ_PAYLOAD_START = 11,
    LAMPREYCOIL_READ_PAYLOAD_LENGTH = 12
};

/* The numbers of lampreycoil_read_fault's record, by index. */
enum lampreycoil_fault_index {
    LAMPREYCOIL_FAULT_NUMBER = 0, /* what the call returned: enum lampreycoil_refusal, or 0 */
    LAMPREYCOIL_FAULT_BYTE = 1    /* from the frame's front; 0 with 0, 1, 2 and 3, and never else */
};

#define LAMPREYCOIL_NO_PARENT 0xFFFFFFFFu /* what rank 0 holds in a tree */

/* The number of lampreycoil_check_tree's record. */
enum lampreycoil_check_tree_index {
    LAMPREYCOIL_CHECK_TREE_DEPTHS = 0 /* depths written, one byte each */
};

/* The number of lampreycoil_write's record. */
enum lampreycoil_write_index {
    LAMPREYCOIL_WRITE_LENGTH = 0 /* bytes of the frame written */
};

/* The numbers of lampreycoil_read_stream's record, by index. */
enum lampreycoil_stream_index {
    LAMPREYCOIL_STREAM_ENTRIES = 0, /* whole frames listed, LAMPREYCOIL_ENTRY_SIZE bytes each */
    LAMPREYCOIL_STREAM_REFUSAL = 1, /* what stopped it: enum lampreycoil_refusal, never 0 */
    LAMPREYCOIL_STREAM_STOP = 2     /* where the frame starts at which it stopped */
};

/*
 * What lampreycoil_check_json says of a payload. Neither is 0, so a record that nobody filled says
 * neither; lampreycoil_is_json() asks for the yes.
 */
enum lampreycoil_json_answer {
    LAMPREYCOIL_JSON_YES = 1, /* it is JSON */
    LAMPREYCOIL_JSON_NO = 2   /* it is not */
};

/* The numbers of lampreycoil_check_json's record, by index. */
enum lampreycoil_json_index {
    LAMPREYCOIL_JSON_ANSWER = 0, /* enum lampreycoil_json_answer; 0 with refusal 26 */
    LAMPREYCOIL_JSON_BYTE = 1    /* the place of a no, or of the level too many; 0 for a yes */
};

/* What a broker did with a message, and what its daemon does now. */
enum lampreycoil_answer {
    LAMPREYCOIL_DELIVERED = 1, /* this broker has the service: the request is for it */
    LAMPREYCOIL_FORWARD = 2,   /* the message goes to another broker: send the new frame there */
    LAMPREYCOIL_REPLIED = 3,   /* the request is now its error reply: step again, with the reply */
    LAMPREYCOIL_SILENCED = 4,  /* an error was due, but LAMPREYCOIL_NORESPONSE is set: drop it */
    LAMPREYCOIL_HOME = 5       /* the response is for this broker, or for a client of its own */
};

/* The errors of answers 3 and 4, with the numbers that Linux has for them. */
enum lampreycoil_error {
    LAMPREYCOIL_NO_SERVICE = 38, /* ENOSYS: nobody whom the request may reach has the service */
    LAMPREYCOIL_NO_RANK = 113    /* EHOSTUNREACH: the nodeid is no rank of the tree */
};

/* The numbers of lampreycoil_step's record, by index. */
enum lampreycoil_step_index {
    LAMPREYCOIL_STEP_ANSWER = 0, /* enum lampreycoil_answer */
    LAMPREYCOIL_STEP_NUMBER = 1, /* 1: the service's record, counted from 0; 2: the rank; else 0 */
    LAMPREYCOIL_STEP_ERROR = 2,  /* 3 and 4: enum lampreycoil_error; else 0 */
    LAMPREYCOIL_STEP_LENGTH = 3  /* of the frame that is now in the buffer */
};

/* The numbers of lampreycoil_walk's record, by index: the last step's four, then two more. */
enum lampreycoil_walk_index {
    LAMPREYCOIL_WALK_ANSWER = 0, /* enum lampreycoil_answer, never 2; 0 for a refused walk */
    LAMPREYCOIL_WALK_NUMBER = 1, /* 1: the service's record, counted from 0; else 0 */
    LAMPREYCOIL_WALK_ERROR = 2,  /* 3 and 4: enum lampreycoil_error; else 0 */
    LAMPREYCOIL_WALK_LENGTH = 3, /* of the frame that is now in the buffer; 0 for a refused walk */
    LAMPREYCOIL_WALK_RANK = 4,   /* of the broker that made the last step, or was refused it */
    LAMPREYCOIL_WALK_LINKS = 5   /* links crossed */
};

/* Who sends a Majordomo command. */
enum lampreycoil_sender { LAMPREYCOIL_CLIENT = 1, LAMPREYCOIL_WORKER = 2 };

/* A client's commands, each with a service's name and a body. */
enum lampreycoil_client_command {
    LAMPREYCOIL_CLIENT_REQUEST = 1,
    LAMPREYCOIL_CLIENT_PARTIAL = 2,
    LAMPREYCOIL_CLIENT_FINAL = 3
};

/* A worker's commands. */
enum lampreycoil_worker_command {
    LAMPREYCOIL_WORKER_READY = 1,   /* with its service's name */
    LAMPREYCOIL_WORKER_REQUEST = 2, /* this one and the next two: with a client's address, a body */
    LAMPREYCOIL_WORKER_PARTIAL = 3,
    LAMPREYCOIL_WORKER_FINAL = 4,
    LAMPREYCOIL_WORKER_HEARTBEAT = 5, /* this one and the next: with nothing */
    LAMPREYCOIL_WORKER_DISCONNECT = 6
};

/*
 * The numbers of lampreycoil_read_command's record, by index. Starts count from the front of the
 * bytes. What a command lacks has start 0, length 0 and 0 parts.
 */
enum lampreycoil_read_command_index {
    LAMPREYCOIL_READ_COMMAND_SENDER = 0, /* enum lampreycoil_sender */
    LAMPREYCOIL_READ_COMMAND_NUMBER = 1, /* one of that sender's commands */
    LAMPREYCOIL_READ_COMMAND_NAME_START = 2,
    LAMPREYCOIL_READ_COMMAND_NAME_LENGTH = 3,
    LAMPREYCOIL_READ_COMMAND_ADDRESS_START = 4, /* it has LAMPREYCOIL_ROUTE_SIZE bytes */
    LAMPREYCOIL_READ_COMMAND_BODY_START = 5,    /* the size of its first part */
    LAMPREYCOIL_READ_COMMAND_BODY_LENGTH = 6,   /* to the end of the bytes, with its parts' sizes */
    LAMPREYCOIL_READ_COMMAND_BODY_PARTS = 7
};

/* The number of lampreycoil_write_command's record. */
enum lampreycoil_write_command_index {
    LAMPREYCOIL_WRITE_COMMAND_LENGTH = 0 /* bytes of the command written */
};

/*
 * Reads the frame at the front of bytes and writes where its parts are to record, which takes
 * LAMPREYCOIL_READ_RECORD bytes. Copies no part, and changes nothing but the record.
 *
 * Refusals, in the order in which they are looked for: 11 for the record; 1 for the 8 bytes; 2; 3;
 * 1 for the body; 4 and 5 as the parts come; 6; 20 to 23; then 7 to 10. lampreycoil_read_fault says
 * at which byte a refused frame is wrong.
 */
LAMPREYCOIL_CHECKED
uint32_t lampreycoil_read(const uint8_t *bytes, size_t bytes_length, uint8_t *record,
                          size_t record_length);

/*
 * Tells what is wrong with the frame at the front of bytes, and at which byte: for a person who has
 * to find the fault, after a read that was refused. Number and byte go to record, which takes
 * LAMPREYCOIL_FAULT_RECORD bytes; the byte counts from the frame's front.
 *
 * The call returns what lampreycoil_read returns for these bytes, and its record has that number
 * again. It is written whatever the number is: this refusal writes. Of a good frame number and byte
 * are 0. Only where the record is too short is nothing written; that is 11, before anything else.
 *
 *   number      the byte
 *   1, 2, 3     none: 0
 *   4, 5        the size byte of that part, the first of five where its size is long
 *   6           the last part's size byte, or 8 where there is no part
 *   7           where the header's data start
 *   8           where the data of the first malformed route start; if none of the first 64 is
 *               malformed, those of the 65th
 *   9           where the topic's data start, or would if it is empty
 *   10          where the field starts
 *   20 to 23    that byte of the header
 *
 * The byte is 8 or more and lies within the frame, but for the 8 of a frame that ends there.
 */
LAMPREYCOIL_CHECKED
uint32_t lampreycoil_read_fault(const uint8_t *bytes, size_t bytes_length, uint8_t *record,
                                size_t record_length);

/*
 * Lists the frames of a stream: bytes that hold one frame behind another and end, as reads from a
 * socket do, somewhere in a frame. For each whole frame from bytes' front on, an entry of
 * LAMPREYCOIL_ENTRY_SIZE bytes goes to list: where the frame starts and how long it is (4 bytes
 * each, big endian; lampreycoil_entry() reads them), so that lampreycoil_read takes it from there.
 * It goes on until the first refusal, and writes to record, which takes LAMPREYCOIL_STREAM_RECORD
 * bytes, how many entries there are, which refusal stopped it, and where that frame starts. List
 * and stop are what lampreycoil_read says when it is called again and again on what remains. Bytes
 * of list behind the entries stay as they were.
 *
 * A stream always stops with some refusal:
 * - 1 where nothing remains, or too little: fewer than 8 bytes, whatever they are, or fewer than
 *   the frame's front asks for; its parts are looked at only when all of it is there. Keep the
 *   bytes from there on, and read more behind them. (Of more than LAMPREYCOIL_STREAM_MAX bytes: see
 *   below.)
 * - 11 where list has no room for an entry more and the next frame is good: go on from there with
 *   another call. A bad frame stops it with its own refusal, whether there is room or not.
 * - Any other refusal of lampreycoil_read is that frame's. After 2 and 3 nothing tells where the
 *   next one starts; after the others only this frame's own front does
 *   (lampreycoil_frame_length).
 *
 * Bytes past the first LAMPREYCOIL_STREAM_MAX count as absent: a frame that crosses that place is 1
 * (or 2 or 3, if its front is in sight and wrong), though the rest of it is there. So where
 * bytes_length is above LAMPREYCOIL_STREAM_MAX, do not wait for more after 1: call again from the
 * stop, which is then never 0. No frame is shorter than LAMPREYCOIL_FRAME_MIN bytes, so a list of
 * LAMPREYCOIL_LIST_MAX bytes has room for whatever bytes hold.
 *
 * The refusal that stopped it stands in record alone. It is no refusal of the call, which returns
 * 0, or 11 where record is too short, and then nothing is written.
 */
LAMPREYCOIL_CHECKED
uint32_t lampreycoil_read_stream(const uint8_t *bytes, size_t bytes_length, uint8_t *list,
                                 size_t list_length, uint8_t *record, size_t record_length);

/*
 * Says whether a payload is JSON, and if not, where it stops being so. Answer and byte go to
 * record, which takes LAMPREYCOIL_JSON_RECORD bytes. payload is what lampreycoil_read shows of it,
 * all of its bytes; they may also come from elsewhere, and be of any number.
 *
 * A payload is JSON if it is one object of RFC 7159 and then one zero byte, with nothing behind
 * that. White space (20, 09, 0A, 0D) may stand around the object; a byte order mark may not. Text,
 * the names of members too, is valid UTF-8 by RFC 3629. Two members may have one name, and a name
 * may be empty. An escape of a surrogate needs no partner. \u0000, DEL, noncharacters and numbers
 * of any size and length pass: they are not looked at more closely. Values nest at most
 * LAMPREYCOIL_JSON_DEPTH_MAX deep; the outer object is 1, and each object or array inside is 1 more
 * than what it stands in.
 *
 * The call returns
 * - 0 with the answer LAMPREYCOIL_JSON_YES and byte 0: it is JSON.
 * - 0 with the answer LAMPREYCOIL_JSON_NO and a byte: it is not. 0 alone is no yes: ask
 *   lampreycoil_is_json().
 * - 26 with the answer 0 and a byte: there a level more opens than may be. What is behind that byte
 *   is not looked at, so this is neither a yes nor a no. The record is written although it is a
 *   refusal.
 * - 11 where the record is too short, before anything else; then nothing is written.
 *
 * The byte counts from the payload's front. That of a no is the first that cannot stand where it
 * does: the bytes in front of it begin some payload that is JSON, and with it they begin none. If
 * there is no such byte the payload ends too early, and the byte is its length. For a byte above
 * 4294967295 the record has 4294967295.
 *
 *   payload (\0: a zero byte)    returns   answer   byte
 *   {"a":[1,2]}\0                      0        1      0
 *   {"a":1}                            0        2      7   no zero byte: its length
 *   {"a":01}\0                         0        2      6   no digit may follow a leading zero
 *   {"a":1.}\0                         0        2      7   a digit has to come: the brace
 *   {"a":1}\0x                         0        2      8   a byte behind the zero byte
 *   [1]\0                              0        2      0   no object
 *   {"a":[[ .. 32 times [             26        0     36   level 33
 */
LAMPREYCOIL_CHECKED
uint32_t lampreycoil_check_json(const uint8_t *payload, size_t payload_length, uint8_t *record,
                                size_t record_length);

/*
 * Writes a message as a frame to the front of out, and the frame's length to record, which takes
 * LAMPREYCOIL_WRITE_RECORD bytes. Bytes of out behind the frame stay as they were.
 *
 * routes holds LAMPREYCOIL_ROUTE_SIZE bytes a route, the top of the stack first; topic goes
 * without its zero byte. A part is given if its slice is not empty. A flag whose slice is empty
 * stands for: no routes (LAMPREYCOIL_ROUTE), an empty payload (LAMPREYCOIL_PAYLOAD), an empty
 * topic, which is refused with 9 (LAMPREYCOIL_TOPIC).
 *
 * Refusals, in the order in which they are looked for: 11 for the record; 22; 23; 7, also for a
 * part given without its flag; 8, also for routes that are not a multiple of 37 bytes; 9; 10; 3;
 * 11 for out.
 */
LAMPREYCOIL_CHECKED
uint32_t lampreycoil_write(uint8_t type, uint8_t flags, uint32_t userid, uint32_t rolemask,
                           uint32_t first, uint32_t second, const uint8_t *routes,
                           size_t routes_length, const uint8_t *topic, size_t topic_length,
                           const uint8_t *payload, size_t payload_length, uint8_t *out,
                           size_t out_length, uint8_t *record, size_t record_length);

/*
 * Checks a tree, of LAMPREYCOIL_RANK_SIZE bytes a rank. Its depths are the links from each rank to
 * rank 0: one byte a rank goes to the front of depths, and how many to record, which takes
 * LAMPREYCOIL_CHECK_TREE_RECORD bytes. Bytes of depths behind them stay as they were.
 *
 * Refusals, in the order in which they are looked for: 11 for the record; 14; 11 for depths.
 */
LAMPREYCOIL_CHECKED
uint32_t lampreycoil_check_tree(const uint8_t *tree, size_t tree_length, uint8_t *depths,
                                size_t depths_length, uint8_t *record, size_t record_length);

/*
 * Checks the services of a tree: at most LAMPREYCOIL_SERVICES_MAX records of
 * LAMPREYCOIL_SERVICE_SIZE bytes, no rank and name twice. None at all is valid. Refusals: 14,
 * then 15.
 */
LAMPREYCOIL_CHECKED
uint32_t lampreycoil_check_services(const uint8_t *tree, size_t tree_length,
                                    const uint8_t *services, size_t services_length);

/*
 * Checks the identities of a tree's ranks: LAMPREYCOIL_ROUTE_SIZE bytes a rank, no two equal.
 * Refusals: 14, then 16.
 */
LAMPREYCOIL_CHECKED
uint32_t lampreycoil_check_identities(const uint8_t *tree, size_t tree_length,
                                      const uint8_t *identities, size_t identities_length);

/*
 * Makes one broker's step with the message whose frame begins at buffer's front: decides where it
 * goes, makes the frame that goes there, and writes the result to record, which takes
 * LAMPREYCOIL_STEP_RECORD bytes.
 *
 * tree, services and identities are the tables that the checks above take. Every step checks all
 * three, so nobody has to check them before. rank is the broker's own. Whether a client or another
 * broker gave the message does not matter. A client's own route is never added or removed here: the
 * daemon whose client it is pushes it before the first step, and pops it when the response is home.
 *
 * Upstream (LAMPREYCOIL_UPSTREAM set, and a nodeid other than LAMPREYCOIL_NODEID_ANY) the nodeid is
 * the rank to be skipped, such as the sender's own: that broker does not try its services, and
 * every other one on the way up does. A nodeid that is not in the tree skips nobody, and is no
 * error.
 *
 * buffer is the frame and all the room behind it, and buffer_length the length of both:
 * - After 2 a request has this broker's identity on top of its routes, and its frame is
 *   LAMPREYCOIL_ROUTE_STEP bytes longer. Only this needs room: a buffer of the frame's length and
 *   LAMPREYCOIL_ROUTE_STEP is enough, and so is one of LAMPREYCOIL_FRAME_MAX bytes for any frame. A
 *   response is without its top route, and as many bytes shorter.
 * - After 3 the frame is the error reply: a response with the request's routes, topic and matchtag,
 *   the error as errnum, userid LAMPREYCOIL_USERID_UNKNOWN, rolemask 0 and no payload. It is never
 *   longer than the request. Another step of the same broker tells where it goes.
 * - After 2 and 3 every byte behind the new frame is zero, to the end of buffer. Lend only what may
 *   be cleared: a next message that was received behind the first one would be lost. The shorter
 *   buffer is the quicker one.
 * - After 1, 4 and 5, and after a refusal, no byte of buffer has changed.
 *
 * Refusals, in the order in which they are looked for: 11 for the record; 14; 15; 16; 17; those of
 * lampreycoil_read; 18; 19; 12; 11 for buffer. The last two come only where a request is to be
 * forwarded. A refused request gets no reply from here: after 12 the daemon answers it itself.
 */
LAMPREYCOIL_CHECKED
uint32_t lampreycoil_step(const uint8_t *tree, size_t tree_length, const uint8_t *services,
                          size_t services_length, const uint8_t *identities,
                          size_t identities_length, uint32_t rank, uint8_t *buffer,
                          size_t buffer_length, uint8_t *record, size_t record_length);

/*
 * Plays a whole walk of the message whose frame begins at buffer's front: the step of the broker at
 * rank, then that of the broker to which it forwards the message, and so on until an answer other
 * than 2. Writes the result to record, which takes LAMPREYCOIL_WALK_RECORD bytes. It is there to
 * try the tables of a whole tree: where a message ends, and over how many links. A broker's daemon
 * acts for one broker, and calls lampreycoil_step.
 *
 * The tables are checked once. Each step is lampreycoil_step's, on the buffer that the one before
 * left. After 1, 4 and 5 on 0 links no byte of buffer has changed; after any other answer every
 * byte behind the frame is zero, to the end of buffer. A response goes home by a walk from the rank
 * at which its request rested; so does the error reply that 3 leaves there.
 *
 * buffer takes LAMPREYCOIL_WALK_ROOM bytes or more, however short the message.
 *
 * A refused walk still tells how far it came: its record has 0, 0, 0, 0, then the rank of the
 * broker whose step was refused and the links crossed. Before any link these are the rank given,
 * even one that is not in the tree, and 0. buffer is as the steps before left it. Where the record
 * is too short, nothing is written at all.
 *
 * Refusals, in the order in which they are looked for: 11 for the record; 11 for buffer; then those
 * of lampreycoil_step at each broker in turn. 12 and 19 can come anywhere on the way, the others
 * only at the first broker.
 */
LAMPREYCOIL_CHECKED
uint32_t lampreycoil_walk(const uint8_t *tree, size_t tree_length, const uint8_t *services,
                          size_t services_length, const uint8_t *identities,
                          size_t identities_length, uint32_t rank, uint8_t *buffer,
                          size_t buffer_length, uint8_t *record, size_t record_length);

/*
 * Reads a Majordomo command, which is all of bytes, and writes where its parts are to record, which
 * takes LAMPREYCOIL_READ_COMMAND_RECORD bytes. Copies no part, and changes nothing but the record.
 *
 * A command is parts, each with its size in front as in a frame, without a frame's eight bytes:
 *
 *   a client's:   MDPC02 | 01 REQUEST, 02 PARTIAL or 03 FINAL | name | body
 *   a worker's:   MDPW02 | 01 READY | name
 *                 MDPW02 | 02 REQUEST, 03 PARTIAL or 04 FINAL | address | empty part | body
 *                 MDPW02 | 05 HEARTBEAT or 06 DISCONNECT
 *
 * A name is 1 to LAMPREYCOIL_COMMAND_NAME_MAX bytes from 20 to 7E. An address is one route, as in a
 * frame. A body is 1 to LAMPREYCOIL_COMMAND_PARTS_MAX parts of any bytes, each of which may be
 * empty. The calls take and show it as one stretch: the parts one behind another, with their sizes.
 * A command has at most LAMPREYCOIL_COMMAND_MAX bytes: an output of that size is never too short.
 *
 * Refusals, in the order in which they are looked for: 11 for the record; 31; 30, of any part;
 * 32; 33; 34; 35; 36; 37.
 */
LAMPREYCOIL_CHECKED
uint32_t lampreycoil_read_command(const uint8_t *bytes, size_t bytes_length, uint8_t *record,
                                  size_t record_length);

/*
 * Writes a Majordomo command to the front of out, and how many bytes it has to record, which takes
 * LAMPREYCOIL_WRITE_COMMAND_RECORD bytes. Bytes of out behind the command stay as they were.
 *
 * sender and command are numbers of the enums above. body is its parts one behind another, each
 * with its size in front. What the command lacks goes as an empty slice. What was read is written
 * again as the same bytes, and what was written is read again as the same fields.
 *
 * Refusals, in the order in which they are looked for: 11 for the record; 33; 30, of the body, also
 * where the command has none; 34, 35 and 36, also for a body, a name and an address that the
 * command lacks; 31; 11 for out.
 */
LAMPREYCOIL_CHECKED
uint32_t lampreycoil_write_command(uint8_t sender, uint8_t command, const uint8_t *name,
                                   size_t name_length, const uint8_t *address,
                                   size_t address_length, const uint8_t *body, size_t body_length,
                                   uint8_t *out, size_t out_length, uint8_t *record,
                                   size_t record_length);

/*
 * What follows is C over the calls above, tested (host/test/helpers.c) and not proved. It asks for
 * no archive beside theirs, and keeps no state either.
 */

/* The version, as text. */
static inline const char *lampreycoil_version(void)
{
    return LAMPREYCOIL_VERSION;
}

/* The number at index of a row of 4-byte big-endian numbers, such as a record or a tree. */
static inline uint32_t lampreycoil_number(const uint8_t *row, size_t index)
{
    const uint8_t *at = row + 4 * index;
    uint32_t number = at[0];

    number = number << 8 | at[1];
    number = number << 8 | at[2];
    return number << 8 | at[3];
}

/* Puts a number at index of such a row: a rank's parent, or the rank in a service's record. */
static inline void lampreycoil_put_number(uint8_t *row, size_t index, uint32_t number)
{
    uint8_t *at = row + 4 * index;

    at[3] = number & 0xFFu;
    number >>= 8;
    at[2] = number & 0xFFu;
    number >>= 8;
    at[1] = number & 0xFFu;
    number >>= 8;
    at[0] = number & 0xFFu;
}

/*
 * How long the frame will be that begins at the front of bytes, as soon as its first eight bytes
 * are there; whatever follows them is not looked at. Refusals, which write nothing: 1 for fewer
 * than LAMPREYCOIL_FRONT_SIZE bytes; 2; 3. So a frame that comes in piecemeal is whole as soon as
 * there are this many bytes, and no more than LAMPREYCOIL_FRAME_MAX are ever asked for.
 */
LAMPREYCOIL_CHECKED
static inline uint32_t lampreycoil_frame_length(const uint8_t *bytes, size_t bytes_length,
                                                size_t *length)
{
    uint8_t record[LAMPREYCOIL_READ_RECORD];
    uint32_t refusal;

    if (bytes_length < LAMPREYCOIL_FRONT_SIZE)
        return LAMPREYCOIL_INPUT_SHORT;
    refusal = lampreycoil_read(bytes, LAMPREYCOIL_FRONT_SIZE, record, sizeof record);
    if (refusal == LAMPREYCOIL_START_WRONG || refusal == LAMPREYCOIL_BODY_LONG)
        return refusal;
    *length = LAMPREYCOIL_FRONT_SIZE + lampreycoil_number(bytes, 1);
    return LAMPREYCOIL_OK;
}

/* Where a frame of a stream lies. */
struct lampreycoil_place {
    size_t start;
    size_t length;
};

/* The entry with this number, counted from 0, of the list that lampreycoil_read_stream filled. */
static inline struct lampreycoil_place lampreycoil_entry(const uint8_t *list, size_t number)
{
    struct lampreycoil_place place;

    place.start = lampreycoil_number(list, 2 * number);
    place.length = lampreycoil_number(list, 2 * number + 1);
    return place;
}

/*
 * Whether lampreycoil_check_json said yes: true if it returned 0 and its record has the answer
 * LAMPREYCOIL_JSON_YES and byte 0, and false for all else, such as a no, a payload that nests too
 * deep, and a record of zeros. returned is what the call returned, and record what it was lent;
 * where that is a refusal, as after a record that was too short, record is not looked at. In one:
 *
 *   if (lampreycoil_is_json(lampreycoil_check_json(p, length, row, sizeof row), row))
 */
LAMPREYCOIL_CHECKED
static inline int lampreycoil_is_json(uint32_t returned, const uint8_t *record)
{
    return returned == LAMPREYCOIL_OK &&
           lampreycoil_number(record, LAMPREYCOIL_JSON_ANSWER) == LAMPREYCOIL_JSON_YES &&
           lampreycoil_number(record, LAMPREYCOIL_JSON_BYTE) == 0;
}

/*
 * The byte in a record that lampreycoil_check_json filled: where a payload stops being JSON, or
 * where it opens a level too many. Of a yes it is 0, and of refusal 11 there is none.
 */
static inline uint32_t lampreycoil_json_byte(const uint8_t *record)
{
    return lampreycoil_number(record, LAMPREYCOIL_JSON_BYTE);
}

/*
 * A message. To write one, set all of it to zero, then what there is. A message that was read can
 * be written again, with other routes, parts or fields. A part that is not there has the length 0,
 * and its pointer means nothing; the flags tell an empty payload from none.
 */
struct lampreycoil_message {
    const uint8_t *routes; /* the top route */
    size_t routes_count;
    size_t routes_step;   /* bytes from one route to the next; 0 says LAMPREYCOIL_ROUTE_SIZE */
    const uint8_t *topic; /* without its zero byte */
    size_t topic_length;
    const uint8_t *payload;
    size_t payload_length;
    uint32_t userid; /* LAMPREYCOIL_USERID_UNKNOWN where it is not known */
    uint32_t rolemask;
    uint32_t first;  /* nodeid, errnum, sequence or type: see enum lampreycoil_type */
    uint32_t second; /* matchtag, matchtag, zero or status */
    uint8_t type;    /* one of enum lampreycoil_type */
    uint8_t flags;   /* of enum lampreycoil_flag, those of the parts included */
};

/* The route with this number, counted from 0 at the top. It has LAMPREYCOIL_ROUTE_SIZE bytes. */
static inline const uint8_t *lampreycoil_route(const struct lampreycoil_message *message,
                                               size_t number)
{
    size_t step = message->routes_step;

    if (step == 0)
        step = LAMPREYCOIL_ROUTE_SIZE;
    return message->routes + number * step;
}

/*
 * Reads the frame at the front of bytes as lampreycoil_read does, with its refusals; message then
 * points into bytes, and took is the bytes that the frame took. A refusal leaves both as they were.
 */
LAMPREYCOIL_CHECKED
static inline uint32_t lampreycoil_read_message(const uint8_t *bytes, size_t bytes_length,
                                                struct lampreycoil_message *message, size_t *took)
{
    uint8_t record[LAMPREYCOIL_READ_RECORD];
    uint32_t refusal = lampreycoil_read(bytes, bytes_length, record, sizeof record);

    if (refusal != LAMPREYCOIL_OK)
        return refusal;
    *took = lampreycoil_number(record, LAMPREYCOIL_READ_TOOK);
    message->type = lampreycoil_number(record, LAMPREYCOIL_READ_TYPE) & 0xFFu;
    message->flags = lampreycoil_number(record, LAMPREYCOIL_READ_FLAGS) & 0xFFu;
    message->userid = lampreycoil_number(record, LAMPREYCOIL_READ_USERID);
    message->rolemask = lampreycoil_number(record, LAMPREYCOIL_READ_ROLEMASK);
    message->first = lampreycoil_number(record, LAMPREYCOIL_READ_FIRST);
    message->second = lampreycoil_number(record, LAMPREYCOIL_READ_SECOND);
    message->routes = bytes + lampreycoil_number(record, LAMPREYCOIL_READ_ROUTE_START);
    message->routes_count = lampreycoil_number(record, LAMPREYCOIL_READ_ROUTES);
    message->routes_step = LAMPREYCOIL_ROUTE_STEP;
    message->topic = bytes + lampreycoil_number(record, LAMPREYCOIL_READ_TOPIC_START);
    message->topic_length = lampreycoil_number(record, LAMPREYCOIL_READ_TOPIC_LENGTH);
    message->payload = bytes + lampreycoil_number(record, LAMPREYCOIL_READ_PAYLOAD_START);
    message->payload_length = lampreycoil_number(record, LAMPREYCOIL_READ_PAYLOAD_LENGTH);
    return LAMPREYCOIL_OK;
}

/*
 * Writes a message as a frame to the front of out as lampreycoil_write does, with its refusals;
 * length is then the frame's. A refusal writes nothing. No part may lie in out. It takes less than
 * 3,072 bytes of stack more than that call, in which the routes are put side by side: by gcc and
 * clang it took 2,416 to 2,544. This is measured (host/test.sh).
 */
LAMPREYCOIL_CHECKED
static inline uint32_t lampreycoil_write_message(const struct lampreycoil_message *message,
                                                 uint8_t *out, size_t out_length, size_t *length)
{
    /* One route more than there may be: any number above that is refused as this one is. */
    uint8_t routes[(LAMPREYCOIL_ROUTES_MAX + 1) * LAMPREYCOIL_ROUTE_SIZE];
    uint8_t record[LAMPREYCOIL_WRITE_RECORD];
    size_t used = 0;
    size_t number;
    size_t at;
    uint32_t refusal;

    routes[0] = 0;
    for (number = 0; number < message->routes_count && used < sizeof routes; number++) {
        for (at = 0; at < LAMPREYCOIL_ROUTE_SIZE; at++)
            routes[used++] = lampreycoil_route(message, number)[at];
    }
    refusal = lampreycoil_write(message->type, message->flags, message->userid, message->rolemask,
                                message->first, message->second, routes, used, message->topic,
                                message->topic_length, message->payload, message->payload_length,
                                out, out_length, record, sizeof record);
    if (refusal == LAMPREYCOIL_OK)
        *length = lampreycoil_number(record, LAMPREYCOIL_WRITE_LENGTH);
    return refusal;
}

/* A refusal in words, for a person. */
static inline const char *lampreycoil_refusal_words(uint32_t refusal)
{
    switch (refusal) {
    case LAMPREYCOIL_OK:
        return "no refusal";
    case LAMPREYCOIL_INPUT_SHORT:
        return "fewer than 8 bytes, or fewer than 8 plus the body length";
    case LAMPREYCOIL_START_WRONG:
        return "first four bytes wrong";
    case LAMPREYCOIL_BODY_LONG:
        return "body above 32,768";
    case LAMPREYCOIL_PART_WRONG:
        return "a part's size or data passes the body's end, or a 4-byte size below 255";
    case LAMPREYCOIL_PARTS_MANY:
        return "a 69th part begins";
    case LAMPREYCOIL_HEADER_WRONG:
        return "no part at all, or last part not 20 bytes";
    case LAMPREYCOIL_PARTS_DISAGREE:
        return "parts disagree with type or flags";
    case LAMPREYCOIL_ROUTE_WRONG:
        return "a route not well-formed, or more than 64";
    case LAMPREYCOIL_TOPIC_WRONG:
        return "topic not well-formed";
    case LAMPREYCOIL_FIELD_WRONG:
        return "request nodeid 4294967294; event's unused field not zero";
    case LAMPREYCOIL_OUTPUT_SHORT:
        return "a lent output too short";
    case LAMPREYCOIL_FORWARD_LONG:
        return "forwarding would make 65 routes or a body above 32,768";
    case LAMPREYCOIL_TREE_WRONG:
        return "tree wrong";
    case LAMPREYCOIL_SERVICES_WRONG:
        return "services wrong";
    case LAMPREYCOIL_IDENTITIES_WRONG:
        return "identities wrong";
    case LAMPREYCOIL_RANK_WRONG:
        return "rank not in the tree";
    case LAMPREYCOIL_NOT_ROUTED:
        return "step or walk given an event or control";
    case LAMPREYCOIL_NO_NEIGHBOUR:
        return "a response's top route is a broker that is no neighbour, itself included";
    case LAMPREYCOIL_MAGIC_WRONG:
        return "the header's magic, its first byte, not 8E";
    case LAMPREYCOIL_VERSION_WRONG:
        return "the header's version, its second byte, not 1";
    case LAMPREYCOIL_TYPE_WRONG:
        return "type none of the four";
    case LAMPREYCOIL_FLAG_WRONG:
        return "flag 80 set";
    case LAMPREYCOIL_JSON_DEEP:
        return "a payload whose values nest deeper than 32";
    case LAMPREYCOIL_COMMAND_PART_WRONG:
        return "a command's part: its size or data passes the end, or a 4-byte size below 255";
    case LAMPREYCOIL_COMMAND_LONG:
        return "command above 32,768 bytes";
    case LAMPREYCOIL_MARK_WRONG:
        return "first part of a command neither MDPC02 nor MDPW02, or missing";
    case LAMPREYCOIL_COMMAND_WRONG:
        return "no command of that sender";
    case LAMPREYCOIL_PART_COUNT_WRONG:
        return "a command's number of parts";
    case LAMPREYCOIL_NAME_WRONG:
        return "a command's name not well-formed, or one that it lacks";
    case LAMPREYCOIL_ADDRESS_WRONG:
        return "a command's address not well-formed, or one that it lacks";
    case LAMPREYCOIL_SEPARATOR_WRONG:
        return "a command's separator not empty";
    default:
        return "no number of a refusal";
    }
}

/* An answer of a step or of a walk in words. */
static inline const char *lampreycoil_answer_words(uint32_t answer)
{
    switch (answer) {
    case LAMPREYCOIL_DELIVERED:
        return "delivered";
    case LAMPREYCOIL_FORWARD:
        return "forward";
    case LAMPREYCOIL_REPLIED:
        return "error reply made";
    case LAMPREYCOIL_SILENCED:
        return "silenced";
    case LAMPREYCOIL_HOME:
        return "home";
    default:
        return "no number of an answer";
    }
}

/* The error of a step or of a walk in words; 0 is none. */
static inline const char *lampreycoil_error_words(uint32_t error)
{
    switch (error) {
    case 0:
        return "no error";
    case LAMPREYCOIL_NO_SERVICE:
        return "nobody whom the request may reach has the service";
    case LAMPREYCOIL_NO_RANK:
        return "the nodeid is no rank of the tree";
    default:
        return "no number of a step's error";
    }
}

#ifdef __cplusplus
}
#endif

#endif
