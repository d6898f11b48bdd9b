/* Meulhaton for C: the server's end of Bolt 4.0, 4.1 and 4.2 as functions on numbers and bytes.
 *
 * Link target/staticlib/libmeulhaton.a, which `tools/build meulhaton` writes (x86-64 Linux). Every function is proved, in the crates
 * `meulhaton` and `meulhaton_c`, to answer what the layer below it is defined to answer, to write nothing outside what it is lent, and to return. It
 * allocates nothing, keeps nothing between calls and does no input or output.
 *
 * What the caller owes. A slice is a pointer and a length. The pointer is not NULL, also where the length is 0; the length is that of
 * the memory behind it; what a function reads and what it writes do not overlap. A connection is not NULL, and one call at a time works
 * on it. Nothing else has to be checked first.
 *
 * What every answer has. `refusal` is 0, or the number of one of the refusals below. A refused call consumed 0 and changed nothing:
 * neither the buffer nor the connection, and but for `refusal` and `place` its answer is all zeros. `place` is an offset into the
 * message where a reader refuses with 7 to 13 or 25 to 27, and else 0. meulhaton_refusal_text has a refusal's text for people.
 *
 * What the caller does after a refusal.
 *    4          wait: call again when more bytes have come, with all the bytes from the frame's first on.
 *    17         take, and report on what is handed over, then call again: 32 requests wait already.
 *    21         call again with a larger buffer.
 *    5 to 15, 25 to 27 (meulhaton_closes)
 *               close: the requests that wait may still be taken and answered, and no other arrives; then call meulhaton_close, send
 *               what was answered, and drop the transport.
 *    1, 2       no connection yet: 1 waits for the rest of the 20 bytes, 2 drops the transport.
 *    3          send four zeros and drop the transport.
 *    18         the connection is DEFUNCT: drop the transport.
 *    19, 22, 24 the caller's own mistake: the arguments, or the record, are not what the call takes.
 *    20         4,294,967,295 requests were accepted: close.
 * 23 is of the trial program's lines, and no function here gives it.
 */
#ifndef MEULHATON_H
#define MEULHATON_H

#include <stdbool.h>
#include <stddef.h>
#include <stdint.h>

#ifdef __cplusplus
extern "C" {
#endif

/* ---- refusals: document 01, "Refusal numbers", with 25, 26 and 27 in place of 16
 *
 * MEULHATON_HANDSHAKE_TRUNCATED = 1 to MEULHATON_OUT_OF_RANGE = 27 are the lines of meulhaton_refusals.def, which lies beside this
 * header. What a caller has to know beyond their texts:
 *     2  a byte of the preamble that is there is wrong, however few bytes are there
 *     3  send four zeros
 *     6  over 16,384 bytes; of a packer also a header for more than can be
 *     7  a marker, its size or tag, or its content is missing
 *     9  of meulhaton_read_value: more open containers than the depth that was passed
 *    19  nothing in flight, more for a request that has none, or no outcome's number
 *    24  the record breaks a standing rule; a number of it, a version or a summary names nothing
 *    25  a required entry is absent, or Null: n of DISCARD and PULL, user_agent of HELLO; the place is the Dictionary's marker
 *    26  a field or an entry of another kind than it has to be, or an item of bookmarks that is no String; the place is its marker.
 *        Null is of the wrong kind for a field and for an item; an entry that is Null counts as absent
 *    27  n, qid or tx_timeout out of its range, or a mode other than "r" and "w"; the place is its marker. Of meulhaton_arrive: n or
 *        qid, or a kind that is no request's; no place */
enum {
#define MEULHATON_REFUSAL(number, name, text) MEULHATON_##name = number,
#include "meulhaton_refusals.def"
#undef MEULHATON_REFUSAL
};

/* A refusal's text for people; another one for a number that is no refusal's. */
static inline const char *meulhaton_refusal_text(uint8_t refusal) {
    switch (refusal) {
#define MEULHATON_REFUSAL(number, name, text) \
    case number:                              \
        return text;
#include "meulhaton_refusals.def"
#undef MEULHATON_REFUSAL
    default:
        return "no refusal has this number";
    }
}

/* Whether the caller has to close the connection after this refusal. */
static inline bool meulhaton_closes(uint8_t refusal) {
    return (refusal >= MEULHATON_EMPTY_MESSAGE && refusal <= MEULHATON_WRONG_FIELD_COUNT) ||
           (refusal >= MEULHATON_MISSING_ENTRY && refusal <= MEULHATON_OUT_OF_RANGE);
}

/* ---- the handshake */

/* The version agreed on is 4.minor; the server echoes the bytes 00 00 minor 04. */
typedef struct {
    uint8_t refusal;
    uint8_t minor;
    uint64_t place;
} meulhaton_agreement;

/* The first of the client's four proposals that is known: 4.0, 4.1 or 4.2. Reads the first 20 bytes; what follows is the caller's.
 * Refusals: 2, else 1, else 3. */
meulhaton_agreement meulhaton_negotiate(const uint8_t *input, size_t input_length);

/* ---- frames */
enum { MEULHATON_MESSAGE = 1, MEULHATON_KEEP_ALIVE = 2 };

/* A message: its length, and how many bytes of input it took. A keep-alive: the two bytes that it took; nothing arrives. */
typedef struct {
    uint8_t refusal;
    uint8_t kind;
    uint64_t place;
    uint64_t length;
    uint64_t consumed;
} meulhaton_frame;

/* Reads the frame at the front of the input, in Bolt 4.minor: a message goes to the front of the buffer, whose rest stays. 16,384
 * bytes of buffer hold every message.
 * Refusals: 24 (minor is not 0, 1 or 2); then, from left to right, 6, 21, 5 (in 4.0), 4. */
meulhaton_frame meulhaton_read_frame(uint8_t minor, const uint8_t *input, size_t input_length, uint8_t *buffer, size_t buffer_length);

/* What a writer answers: the offset past what it wrote. */
typedef struct {
    uint8_t refusal;
    uint64_t place;
    uint64_t end;
} meulhaton_output;

/* Writes a message in chunks of chunk_size bytes, and its end, to the front of out; what lies past them stays.
 * Refusals, in this order: 22, 6, 21. */
meulhaton_output meulhaton_write_chunks(const uint8_t *message, size_t message_length, size_t chunk_size, uint8_t *out, size_t out_length);

/* ---- values */
enum {
    MEULHATON_NULL = 1,
    MEULHATON_BOOLEAN = 2,
    MEULHATON_INTEGER = 3,
    MEULHATON_FLOAT = 4,
    MEULHATON_BYTES = 5,
    MEULHATON_STRING = 6,
    MEULHATON_LIST = 7,
    MEULHATON_DICTIONARY = 8,
    MEULHATON_STRUCTURE = 9
};

/* What a value is. Of Boolean `boolean` (0 or 1), of Integer `integer`, of Float its 64 `bits`, of Structure its `tag`.
 * Bytes and String: their content is `size` bytes of the message from `start` on.
 * List, Dictionary and Structure: `size` items, entries or fields; the first one's marker is at `start`, each other's where the one
 * before it ends. An entry is a key and a value. */
typedef struct {
    uint8_t kind;
    uint8_t boolean;
    uint8_t tag;
    int64_t integer;
    uint64_t bits;
    uint64_t start;
    uint64_t size;
} meulhaton_head;

/* A value, and the offset past it. */
typedef struct {
    uint8_t refusal;
    uint64_t place;
    uint64_t end;
    meulhaton_head head;
} meulhaton_value;

/* Reads a whole message as one value.
 * Refusals: 6 (over 16,384 bytes); then the leftmost of 7, 8, 9, 10, 11, 12; then 13. */
meulhaton_value meulhaton_read_message(const uint8_t *message, size_t message_length);

/* Reads the value at an offset of a message, with room for depth open containers; more than 16 is as 16, which a whole message has.
 * Refusals: 6; then the leftmost of 7, 8, 9, 10, 11, 12. */
meulhaton_value meulhaton_read_value(const uint8_t *message, size_t message_length, size_t at, size_t depth);

/* The packers write the shortest form of a value from the offset `at` of out on; what lies before and past it stays.
 * Refusals: 21. */
meulhaton_output meulhaton_pack_boolean(bool value, uint8_t *out, size_t out_length, size_t at);
meulhaton_output meulhaton_pack_integer(int64_t number, uint8_t *out, size_t out_length, size_t at);

/* A String, given its bytes. Refusals, in this order: 6, 10, 21. */
meulhaton_output meulhaton_pack_string(const uint8_t *text, size_t text_length, uint8_t *out, size_t out_length, size_t at);

/* The header of a Dictionary of `count` entries, or of a Structure of `count` fields: what it holds is packed behind it, piece by piece.
 * Refusals, in this order: 6 (over 16,384 entries, or 15 fields), 21. */
meulhaton_output meulhaton_pack_dictionary(size_t count, uint8_t *out, size_t out_length, size_t at);
meulhaton_output meulhaton_pack_structure(uint8_t tag, size_t count, uint8_t *out, size_t out_length, size_t at);

/* ---- requests: a kind is the request's tag */
enum {
    MEULHATON_HELLO = 0x01,
    MEULHATON_GOODBYE = 0x02,
    MEULHATON_RESET = 0x0F,
    MEULHATON_RUN = 0x10,
    MEULHATON_BEGIN = 0x11,
    MEULHATON_COMMIT = 0x12,
    MEULHATON_ROLLBACK = 0x13,
    MEULHATON_DISCARD = 0x2F,
    MEULHATON_PULL = 0x3F
};

/* A request as the connection is told of it. n and qid are of DISCARD and PULL: n records, or -1 for all; of the stream qid, or -1
 * for the latest. */
typedef struct {
    int64_t n;
    int64_t qid;
    uint8_t kind;
} meulhaton_request;

/* A String that may be absent: its content is `size` bytes of the message from `start` on. */
typedef struct {
    uint8_t present;
    uint64_t start;
    uint64_t size;
} meulhaton_text;

/* A List or a Dictionary that may be absent: the offset of its marker, for meulhaton_read_value. */
typedef struct {
    uint8_t present;
    uint64_t offset;
} meulhaton_place;

/* An Integer that may be absent. */
typedef struct {
    uint8_t present;
    int64_t value;
} meulhaton_number;

typedef struct {
    meulhaton_text user_agent;
    meulhaton_text scheme;
    meulhaton_text principal;
    meulhaton_text credentials;
    meulhaton_place routing;
} meulhaton_hello;

typedef struct {
    meulhaton_text query;
    meulhaton_place parameters;
} meulhaton_run;

enum { MEULHATON_MODE_ABSENT = 0, MEULHATON_MODE_READ = 1, MEULHATON_MODE_WRITE = 2 };

typedef struct {
    meulhaton_place bookmarks;
    meulhaton_number tx_timeout;
    meulhaton_place tx_metadata;
    uint8_t mode;
    meulhaton_text db;
} meulhaton_transaction;

/* `hello` is of HELLO, `run` of RUN, `transaction` of RUN and BEGIN; what a request does not have is absent. */
typedef struct {
    meulhaton_hello hello;
    meulhaton_run run;
    meulhaton_transaction transaction;
} meulhaton_fields;

/* A request, as meulhaton_arrive takes it, and its fields. */
typedef struct {
    uint8_t refusal;
    uint64_t place;
    meulhaton_request request;
    meulhaton_fields fields;
} meulhaton_request_read;

/* What a message of Bolt 4.minor asks for.
 * Refusals: 24 (minor is not 0, 1 or 2); those of meulhaton_read_message; then 14, 15; then 26 at the leftmost field of the wrong kind;
 * then 25, 26 or 27 of the first entry that is wrong, in document 01's checking order. */
meulhaton_request_read meulhaton_read_request(uint8_t minor, const uint8_t *message, size_t message_length);

/* ---- summaries */
enum {
    MEULHATON_IGNORED = 1,
    MEULHATON_SUCCESS = 2,
    MEULHATON_SUCCESS_HAS_MORE = 3,       /* value: 1 if there is more, else 0 */
    MEULHATON_SUCCESS_QID = 4,            /* value: the number of the stream that a RUN opened */
    MEULHATON_FAILURE_STREAMS_FULL = 5,   /* "Parts.Stream.Full" */
    MEULHATON_FAILURE_STREAM_UNKNOWN = 6, /* "Parts.Stream.Unknown" */
    MEULHATON_FAILURE_ENGINE = 7          /* "Parts.Engine.Failed" */
};

/* `value` is 0 but where a kind above says what it is. */
typedef struct {
    uint32_t value;
    uint8_t kind;
} meulhaton_summary;

/* Packs a summary, as a reply has it, from the offset `at` of out on. 60 bytes hold every summary.
 * Refusals, in this order: 24 (the numbers name no summary), 21. */
meulhaton_output meulhaton_pack_summary(meulhaton_summary summary, uint8_t *out, size_t out_length, size_t at);

/* ---- the connection record */
enum {
    MEULHATON_CONNECTED = 0,
    MEULHATON_READY = 1,
    MEULHATON_STREAMING = 2,
    MEULHATON_TX_READY = 3,
    MEULHATON_TX_STREAMING = 4,
    MEULHATON_FAILED = 5,
    MEULHATON_INTERRUPTED = 6,
    MEULHATON_DEFUNCT = 7
};

/* All of a record but its arrays. */
typedef struct {
    uint8_t state;
    uint8_t in_flight;               /* 1 while the first request waits for the engine's report, else 0 */
    size_t first;                    /* the place of the first request that waits: below 32, also where none waits */
    size_t waiting;                  /* how many wait: at most 32 */
    size_t opened;                   /* how many of `streams`, from the front on, are open: at most 8 */
    uint64_t next;                   /* the number of the next stream of the transaction */
    uint64_t accepted;               /* requests accepted */
    uint64_t sent;                   /* summaries handed back */
} meulhaton_control;

/* The record of one connection, which the caller owns: make it by meulhaton_fresh, which is all zeros, and change it by the calls alone.
 * The requests that wait stand around a ring, the one behind i others in place (first + i) % 32 of the last three arrays: meulhaton_arrive
 * writes the place behind the last of them, no other call writes any, and with each summary `first` moves on by one.
 * Each call checks it like any record, and refuses with 24 one that breaks a standing rule: among them that state, in_flight and the kinds
 * of the requests that wait name something. What the places hold in which no request waits, and no stream is open, never matters. */
typedef struct {
    meulhaton_control control;
    uint64_t streams[8];             /* numbers of open streams */
    uint8_t kinds[32];
    int64_t counts[32];              /* n of DISCARD and PULL, else 0 */
    int64_t qids[32];                /* qid of DISCARD and PULL, else 0 */
} meulhaton_connection;

enum {
    MEULHATON_QUEUED = 1,
    MEULHATON_CLOSED = 2,
    MEULHATON_IDLE = 3,
    MEULHATON_HANDED = 4,
    MEULHATON_ANSWERED = 5
};

/* What a call answers.
 * MEULHATON_QUEUED: the request waits.
 * MEULHATON_CLOSED: the connection is DEFUNCT now; nothing is to be sent for it, drop the transport.
 * MEULHATON_IDLE: nothing waits, or a request is in flight.
 * MEULHATON_HANDED: for the engine, which is to report on it: `request`, and its `number` from 1.
 * MEULHATON_ANSWERED: for the client: `summary`, of the request with this `number`. Pack it, write it in chunks and send it. */
typedef struct {
    uint64_t place;
    uint64_t number;
    meulhaton_request request;
    meulhaton_summary summary;
    uint8_t refusal;
    uint8_t said;
} meulhaton_reply;

enum { MEULHATON_OUTCOME_SUCCESS = 0, MEULHATON_OUTCOME_MORE = 1, MEULHATON_OUTCOME_FAILURE = 2 };

/* How the engine ended a request: success, success with more to fetch (PULL and DISCARD only), or failure. */
typedef struct {
    uint8_t number;
} meulhaton_outcome;

/* A fresh record: CONNECTED, with nothing counted, waiting or open. Refuses nothing. */
meulhaton_connection meulhaton_fresh(void);

/* A request has come. A RESET interrupts what is going on at once. In CONNECTED, until HELLO was reported a success, it closes the
 * connection, and a HELLO that waits goes unanswered: give HELLO its turn before what comes behind it arrives.
 * Answers: MEULHATON_QUEUED, or MEULHATON_CLOSED for a RESET in CONNECTED.
 * Refusals, in this order: 24, 18, 27 (n or qid is out of its range, or the kind is no request's), 20, 17. */
meulhaton_reply meulhaton_arrive(meulhaton_connection *connection, meulhaton_request request);

/* The turn of the first request that waits. In FAILED, which a failure leads to, and in INTERRUPTED, while a RESET waits, the requests from
 * RUN to PULL are answered with IGNORED and not handed over: a client may have sent them before it knew of the failure.
 * Answers: MEULHATON_IDLE, MEULHATON_HANDED, MEULHATON_ANSWERED, MEULHATON_CLOSED.
 * Refusals, in this order: 24, 18. */
meulhaton_reply meulhaton_take(meulhaton_connection *connection);

/* The engine's outcome for the request in flight.
 * Answers: MEULHATON_ANSWERED. After a HELLO that failed the connection is DEFUNCT: send the summary and drop the transport. After any other
 * failure it is FAILED, or still INTERRUPTED where a RESET waits: send the summary and go on, a RESET leads back to READY.
 * Refusals, in this order: 24, 18, 19 (nothing is in flight, there is more for a request that has none, or the outcome is none). */
meulhaton_reply meulhaton_report(meulhaton_connection *connection, meulhaton_outcome outcome);

/* Ends the connection: nothing waits afterwards, and every further call is refused.
 * Answers: MEULHATON_CLOSED.
 * Refusals, in this order: 24, 18. */
meulhaton_reply meulhaton_close(meulhaton_connection *connection);

#ifdef __cplusplus
}
#endif

#endif
