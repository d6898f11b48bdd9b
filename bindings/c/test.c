/* Each function of the header, on cases of document 01, with what a refused call leaves as it was. Writes nothing where all hold.
 *
 *    cc -Wall -Wextra -o test bindings/c/test.c target/staticlib/libmeulhaton.a && ./test
 */
#include "meulhaton.h"

#include <stdio.h>
#include <string.h>

static int failed = 0;

#define HOLDS(what)                                                  \
    do {                                                             \
        if (!(what)) {                                               \
            fprintf(stderr, "line %d: %s\n", __LINE__, #what);       \
            failed = 1;                                              \
        }                                                            \
    } while (0)

/* A string literal as a slice. */
#define BYTES(text) (const uint8_t *)(text), sizeof(text) - 1

static bool is(const uint8_t *found, const char *expected, size_t length) {
    return memcmp(found, expected, length) == 0;
}

/* The numbers of the refusals, as the table has them. */
static const uint8_t numbers[] = {
#define MEULHATON_REFUSAL(number, name, text) number,
#include "meulhaton_refusals.def"
#undef MEULHATON_REFUSAL
};

static void texts(void) {
    const char *none = meulhaton_refusal_text(0);
    for (int number = 0; number < 256; number++) {
        bool refusal = number >= 1 && number <= 27 && number != 16;
        bool closes = (number >= 5 && number <= 15) || (number >= 25 && number <= 27);
        HOLDS((memchr(numbers, number, sizeof numbers) != NULL) == refusal);
        HOLDS((strcmp(meulhaton_refusal_text((uint8_t)number), none) != 0) == refusal);
        HOLDS(meulhaton_closes((uint8_t)number) == closes);
    }
    HOLDS(sizeof numbers == 26);
    for (size_t i = 0; i < sizeof numbers; i++) {
        const char *text = meulhaton_refusal_text(numbers[i]);
        HOLDS(strlen(text) > 0 && strlen(text) < 80 && text[strlen(text) - 1] != '.');
        for (size_t j = 0; j < i; j++) HOLDS(strcmp(text, meulhaton_refusal_text(numbers[j])) != 0);
    }
    HOLDS(strcmp(meulhaton_refusal_text(16), none) == 0 && strcmp(meulhaton_refusal_text(28), none) == 0);
    HOLDS(MEULHATON_MISSING_ENTRY == 25 && MEULHATON_WRONG_KIND == 26 && MEULHATON_OUT_OF_RANGE == 27);
    HOLDS(strcmp(meulhaton_refusal_text(25), "a required entry is missing") == 0);
    HOLDS(strcmp(meulhaton_refusal_text(26), "a field or an entry is of the wrong kind, such as a text in place of a number") == 0);
    HOLDS(strcmp(meulhaton_refusal_text(27), "a number is out of its range, or a word is none of those allowed") == 0);
}

static void wire(void) {
    uint8_t buffer[4] = "\xEE\xEE\xEE";
    HOLDS(meulhaton_negotiate(BYTES("\x60\x60\xB0\x17\0\0\3\4\0\0\2\4\0\0\0\0\0\0\0\0")).minor == 2);
    HOLDS(meulhaton_negotiate(BYTES("")).refusal == MEULHATON_HANDSHAKE_TRUNCATED);
    HOLDS(meulhaton_read_frame(0, BYTES("\0\0"), buffer, 3).refusal == MEULHATON_EMPTY_MESSAGE);
    HOLDS(meulhaton_read_frame(3, BYTES("\0\0"), buffer, 3).refusal == MEULHATON_INVALID_RECORD);
    HOLDS(is(buffer, "\xEE\xEE\xEE", 3));
    meulhaton_frame frame = meulhaton_read_frame(1, BYTES("\0\0"), buffer, 3);
    HOLDS(frame.refusal == 0 && frame.kind == MEULHATON_KEEP_ALIVE && frame.length == 0 && frame.consumed == 2);
    frame = meulhaton_read_frame(1, BYTES("\0\1\xC0\0\0\7"), buffer, 3);
    HOLDS(frame.refusal == 0 && frame.kind == MEULHATON_MESSAGE && frame.length == 1 && frame.consumed == 5);
    HOLDS(is(buffer, "\xC0\xEE\xEE", 3));
    uint8_t out[9];
    meulhaton_output written = meulhaton_write_chunks(BYTES("\1\2\3"), 2, out, sizeof out);
    HOLDS(written.refusal == 0 && written.end == 9 && is(out, "\0\2\1\2\0\1\3\0\0", 9));
    HOLDS(meulhaton_write_chunks(BYTES("\1\2\3"), 65536, out, sizeof out).refusal == MEULHATON_INVALID_CHUNKING);
}

static void values(void) {
    meulhaton_value value = meulhaton_read_message(BYTES("\xC8\x80"));
    HOLDS(value.refusal == 0 && value.end == 2 && value.head.kind == MEULHATON_INTEGER && value.head.integer == -128);
    value = meulhaton_read_message(BYTES("\xC1\x3F\xF0\0\0\0\0\0\0"));
    HOLDS(value.head.kind == MEULHATON_FLOAT && value.head.bits == UINT64_C(0x3FF0000000000000));
    value = meulhaton_read_message(BYTES("\xB1\x70\xA0"));
    HOLDS(value.head.kind == MEULHATON_STRUCTURE && value.head.tag == 0x70 && value.head.start == 2 && value.head.size == 1);
    value = meulhaton_read_message(BYTES("\xA2\x81\x61\x01\xD0\x01\x61\x02"));
    HOLDS(value.refusal == MEULHATON_DUPLICATE_KEY && value.place == 4 && value.end == 0 && value.head.kind == 0);
    value = meulhaton_read_value(BYTES("\x92\xC3\x81\x61"), 1, 0);
    HOLDS(value.refusal == 0 && value.end == 2 && value.head.kind == MEULHATON_BOOLEAN && value.head.boolean == 1);
    HOLDS(meulhaton_read_value(BYTES("\x92\xC3\x81\x61"), 0, 0).refusal == MEULHATON_TOO_DEEP);

    uint8_t out[8] = {0};
    HOLDS(meulhaton_pack_structure(0x70, 1, out, sizeof out, 0).end == 2);
    HOLDS(meulhaton_pack_dictionary(1, out, sizeof out, 2).end == 3);
    HOLDS(meulhaton_pack_string(BYTES("qid"), out, sizeof out, 3).end == 7);
    HOLDS(meulhaton_pack_integer(5, out, sizeof out, 7).end == 8);
    HOLDS(is(out, "\xB1\x70\xA1\x83qid\x05", 8));
    HOLDS(meulhaton_pack_boolean(true, out, sizeof out, 8).refusal == MEULHATON_NO_ROOM);
    HOLDS(meulhaton_pack_string(BYTES("\x80"), out, sizeof out, 0).refusal == MEULHATON_INVALID_UTF8);
    HOLDS(meulhaton_pack_structure(0x70, 16, out, sizeof out, 0).refusal == MEULHATON_TOO_LONG);
    HOLDS(is(out, "\xB1\x70\xA1\x83qid\x05", 8));
    HOLDS(meulhaton_pack_boolean(true, out, sizeof out, 7).end == 8 && out[7] == 0xC3);
    meulhaton_summary summary = {.kind = MEULHATON_SUCCESS_QID, .value = 5};
    HOLDS(meulhaton_pack_summary(summary, out, sizeof out, 0).end == 8 && is(out, "\xB1\x70\xA1\x83qid\x05", 8));
    summary.kind = 8;
    HOLDS(meulhaton_pack_summary(summary, out, sizeof out, 0).refusal == MEULHATON_INVALID_RECORD);
}

static void requests(void) {
    meulhaton_request_read read = meulhaton_read_request(1, BYTES("\xB1\x01\xA2\x8Auser_agent\x83P/1\x87routing\xA0"));
    HOLDS(read.refusal == 0 && read.request.kind == MEULHATON_HELLO && !read.fields.hello.scheme.present);
    HOLDS(read.fields.hello.user_agent.present && read.fields.hello.user_agent.start == 15);
    HOLDS(read.fields.hello.user_agent.size == 3 && read.fields.hello.routing.offset == 26);
    read = meulhaton_read_request(0, BYTES("\xB3\x10\x81R\xA0\xA3\x84mode\x81w\x8Atx_timeout\x05\x82" "db\x81p"));
    HOLDS(read.request.kind == MEULHATON_RUN && read.fields.run.query.start == 3 && read.fields.run.parameters.offset == 4);
    HOLDS(read.fields.transaction.mode == MEULHATON_MODE_WRITE && read.fields.transaction.tx_timeout.value == 5);
    HOLDS(read.fields.transaction.db.size == 1 && !read.fields.transaction.bookmarks.present);
}

static void request_refused(const uint8_t *message, size_t length, uint8_t refusal, uint64_t place, int line) {
    meulhaton_request_read read = meulhaton_read_request(1, message, length);
    if (read.refusal != refusal || read.place != place || read.request.kind != 0) {
        fprintf(stderr, "line %d: %d at %d\n", line, read.refusal, (int)read.place);
        failed = 1;
    }
}

#define REFUSED(message, refusal, place) request_refused(BYTES(message), refusal, place, __LINE__)

static void wrong_requests(void) {
    REFUSED("\xB1\x3F\xA0", MEULHATON_MISSING_ENTRY, 2);
    REFUSED("\xB1\x3F\xA1\x81n\xC0", MEULHATON_MISSING_ENTRY, 2);
    REFUSED("\xB1\x01\xA1\x86scheme\x01", MEULHATON_MISSING_ENTRY, 2);
    REFUSED("\xB1\x3F\xA1\x81n\x81\x31", MEULHATON_WRONG_KIND, 5);
    REFUSED("\xB1\x3F\xC0", MEULHATON_WRONG_KIND, 2);
    REFUSED("\xB3\x10\xC0\xA0\xA1\x84mode\x81x", MEULHATON_WRONG_KIND, 2);
    REFUSED("\xB1\x11\xA1\x89" "bookmarks\x92\x81" "a\xC0", MEULHATON_WRONG_KIND, 16);
    REFUSED("\xB1\x3F\xA1\x81n\x00", MEULHATON_OUT_OF_RANGE, 5);
    REFUSED("\xB1\x3F\xA2\x81n\x00\x83qid\xC3", MEULHATON_OUT_OF_RANGE, 5);
    REFUSED("\xB1\x11\xA1\x84mode\x80", MEULHATON_OUT_OF_RANGE, 8);
    REFUSED("\xB1\x11\xA1\x8Atx_timeout\xFF", MEULHATON_OUT_OF_RANGE, 14);
}

/* What the library takes a record's bytes for. */
_Static_assert(sizeof(meulhaton_control) == 56 && sizeof(meulhaton_connection) == 664, "sizes");
_Static_assert(offsetof(meulhaton_control, in_flight) == 1 && offsetof(meulhaton_control, first) == 8, "control");
_Static_assert(offsetof(meulhaton_control, waiting) == 16 && offsetof(meulhaton_control, opened) == 24, "control");
_Static_assert(offsetof(meulhaton_control, next) == 32 && offsetof(meulhaton_control, sent) == 48, "control");
_Static_assert(offsetof(meulhaton_connection, streams) == 56 && offsetof(meulhaton_connection, kinds) == 120, "arrays");
_Static_assert(offsetof(meulhaton_connection, counts) == 152 && offsetof(meulhaton_connection, qids) == 408, "arrays");

/* Padding aside. */
static bool same(const meulhaton_connection *a, const meulhaton_connection *b) {
    const meulhaton_control *p = &a->control, *q = &b->control;
    return p->state == q->state && p->in_flight == q->in_flight && p->first == q->first && p->waiting == q->waiting &&
           p->opened == q->opened && p->next == q->next && p->accepted == q->accepted && p->sent == q->sent &&
           memcmp(a->streams, b->streams, sizeof *a - offsetof(meulhaton_connection, streams)) == 0;
}

/* Kinds and outcomes that name nothing: they are refused with these numbers, and nothing changes. */
static void unnamed(meulhaton_connection *connection, uint8_t kind, uint8_t outcome) {
    meulhaton_connection before = *connection;
    for (int number = 0; number < 256; number++) {
        bool named = number == MEULHATON_HELLO || number == MEULHATON_GOODBYE || (number >= MEULHATON_RESET && number <= MEULHATON_ROLLBACK) ||
                     number == MEULHATON_DISCARD || number == MEULHATON_PULL;
        if (!named) HOLDS(meulhaton_arrive(connection, (meulhaton_request){.kind = (uint8_t)number, .n = 1, .qid = -1}).refusal == kind);
        if (number > 2) HOLDS(meulhaton_report(connection, (meulhaton_outcome){(uint8_t)number}).refusal == outcome);
    }
    HOLDS(same(connection, &before));
}

static void calls(void) {
    meulhaton_connection connection = meulhaton_fresh(), before;
    HOLDS(connection.control.state == MEULHATON_CONNECTED && same(&connection, &(meulhaton_connection){0}));
    HOLDS(meulhaton_arrive(&connection, (meulhaton_request){.kind = MEULHATON_HELLO, .n = 0, .qid = 0}).said == MEULHATON_QUEUED);
    meulhaton_reply reply = meulhaton_take(&connection);
    HOLDS(reply.said == MEULHATON_HANDED && reply.number == 1 && reply.request.kind == MEULHATON_HELLO);
    HOLDS(meulhaton_take(&connection).said == MEULHATON_IDLE);
    before = connection;
    HOLDS(meulhaton_report(&connection, (meulhaton_outcome){MEULHATON_OUTCOME_MORE}).refusal == MEULHATON_UNEXPECTED_REPORT);
    HOLDS(meulhaton_report(&connection, (meulhaton_outcome){3}).refusal == MEULHATON_UNEXPECTED_REPORT);
    reply = meulhaton_arrive(&connection, (meulhaton_request){.kind = 0, .n = 1, .qid = -1});
    HOLDS(reply.refusal == MEULHATON_OUT_OF_RANGE && reply.place == 0 && reply.said == 0);
    HOLDS(meulhaton_arrive(&connection, (meulhaton_request){.kind = MEULHATON_PULL, .n = 0, .qid = -1}).refusal == MEULHATON_OUT_OF_RANGE);
    HOLDS(same(&connection, &before));
    reply = meulhaton_report(&connection, (meulhaton_outcome){MEULHATON_OUTCOME_SUCCESS});
    HOLDS(reply.said == MEULHATON_ANSWERED && reply.number == 1 && reply.summary.kind == MEULHATON_SUCCESS);
    HOLDS(connection.control.state == MEULHATON_READY && connection.control.accepted == 1 && connection.control.sent == 1);
    before = connection;
    connection.control.state = 8;
    HOLDS(meulhaton_take(&connection).refusal == MEULHATON_INVALID_RECORD);
    unnamed(&connection, MEULHATON_INVALID_RECORD, MEULHATON_INVALID_RECORD);
    connection = before;
    connection.control.accepted = 7;
    unnamed(&connection, MEULHATON_INVALID_RECORD, MEULHATON_INVALID_RECORD);
    connection = before;
    unnamed(&connection, MEULHATON_OUT_OF_RANGE, MEULHATON_UNEXPECTED_REPORT);
    HOLDS(meulhaton_arrive(&connection, (meulhaton_request){.kind = MEULHATON_RUN, .n = 5, .qid = -7}).said == MEULHATON_QUEUED);
    HOLDS(connection.control.first == 1 && connection.kinds[1] == MEULHATON_RUN && connection.counts[1] == 0 && connection.qids[1] == 0);
    HOLDS(meulhaton_close(&connection).said == MEULHATON_CLOSED && connection.control.state == MEULHATON_DEFUNCT);
    HOLDS(meulhaton_close(&connection).refusal == MEULHATON_CONNECTION_DEFUNCT);
    unnamed(&connection, MEULHATON_CONNECTION_DEFUNCT, MEULHATON_CONNECTION_DEFUNCT);
}

/* A request that comes, is handed over and has this outcome. */
static meulhaton_reply served(meulhaton_connection *connection, uint8_t kind, uint8_t outcome) {
    HOLDS(meulhaton_arrive(connection, (meulhaton_request){.kind = kind, .n = 0, .qid = 0}).said == MEULHATON_QUEUED);
    HOLDS(meulhaton_take(connection).said == MEULHATON_HANDED);
    return meulhaton_report(connection, (meulhaton_outcome){outcome});
}

/* A driver sends BEGIN, RUN, PULL and COMMIT in one go, and the engine fails the BEGIN. */
static void failed_begin(void) {
    meulhaton_connection connection = meulhaton_fresh();
    served(&connection, MEULHATON_HELLO, MEULHATON_OUTCOME_SUCCESS);
    const uint8_t sent[] = {MEULHATON_BEGIN, MEULHATON_RUN, MEULHATON_PULL, MEULHATON_COMMIT};
    for (size_t i = 0; i < sizeof sent; i++) HOLDS(meulhaton_arrive(&connection, (meulhaton_request){.kind = sent[i], .n = 1, .qid = -1}).said == MEULHATON_QUEUED);
    HOLDS(meulhaton_take(&connection).request.kind == MEULHATON_BEGIN);
    meulhaton_reply reply = meulhaton_report(&connection, (meulhaton_outcome){MEULHATON_OUTCOME_FAILURE});
    HOLDS(reply.said == MEULHATON_ANSWERED && reply.number == 2 && reply.summary.kind == MEULHATON_FAILURE_ENGINE);
    for (uint64_t number = 3; number <= 5; number++) {
        reply = meulhaton_take(&connection);
        HOLDS(reply.said == MEULHATON_ANSWERED && reply.number == number && reply.summary.kind == MEULHATON_IGNORED);
    }
    HOLDS(meulhaton_take(&connection).said == MEULHATON_IDLE && connection.control.state == MEULHATON_FAILED);
    HOLDS(meulhaton_arrive(&connection, (meulhaton_request){.kind = MEULHATON_RESET, .n = 0, .qid = 0}).said == MEULHATON_QUEUED);
    HOLDS(meulhaton_take(&connection).summary.kind == MEULHATON_SUCCESS && connection.control.state == MEULHATON_READY);
    HOLDS(served(&connection, MEULHATON_BEGIN, MEULHATON_OUTCOME_SUCCESS).number == 7 && connection.control.state == MEULHATON_TX_READY);
}

/* Every call is refused with 24, and nothing changes. */
static void broken(meulhaton_connection connection) {
    meulhaton_connection before = connection;
    HOLDS(meulhaton_arrive(&connection, (meulhaton_request){.kind = MEULHATON_RUN, .n = 0, .qid = 0}).refusal == MEULHATON_INVALID_RECORD);
    HOLDS(meulhaton_take(&connection).refusal == MEULHATON_INVALID_RECORD);
    HOLDS(meulhaton_report(&connection, (meulhaton_outcome){MEULHATON_OUTCOME_SUCCESS}).refusal == MEULHATON_INVALID_RECORD);
    HOLDS(meulhaton_close(&connection).refusal == MEULHATON_INVALID_RECORD);
    HOLDS(same(&connection, &before));
}

/* The n of the RUN or PULL that comes in its turn. */
static int64_t n_of(uint64_t turn) {
    return turn % 2 == 0 ? 0 : (int64_t)turn;
}

/* 32 wait, all are served, and 32 wait again: from each first place on, with any bytes in the places in which none waits. */
static void ring(void) {
    for (size_t first = 0; first < 32; first++) {
        meulhaton_connection connection = meulhaton_fresh(), before;
        connection.control.first = (first + 31) % 32;
        memset(connection.kinds, first % 2 == 0 ? MEULHATON_RESET : 0xAA, sizeof connection.kinds);
        memset(connection.counts, 0xAA, sizeof connection.counts);
        served(&connection, MEULHATON_HELLO, MEULHATON_OUTCOME_SUCCESS);
        for (uint64_t turn = 0, arrived = 0; turn < 96; turn++) {
            for (; turn % 32 == 0 && arrived < turn + 32; arrived++) {
                meulhaton_request request = {.kind = arrived % 2 == 0 ? MEULHATON_RUN : MEULHATON_PULL, .n = n_of(arrived), .qid = -1};
                size_t place = (first + arrived) % 32;
                before = connection;
                HOLDS(meulhaton_arrive(&connection, request).said == MEULHATON_QUEUED);
                HOLDS(connection.kinds[place] == request.kind && connection.counts[place] == request.n);
                HOLDS(connection.qids[place] == (request.kind == MEULHATON_PULL ? -1 : 0));
                before.kinds[place] = connection.kinds[place];
                before.counts[place] = connection.counts[place];
                before.qids[place] = connection.qids[place];
                before.control = connection.control;
                HOLDS(same(&connection, &before));
            }
            if (turn % 32 == 0) HOLDS(meulhaton_arrive(&connection, (meulhaton_request){.kind = MEULHATON_RUN, .n = 0, .qid = 0}).refusal == MEULHATON_QUEUE_FULL);
            before = connection;
            meulhaton_reply reply = meulhaton_take(&connection);
            HOLDS(reply.said == MEULHATON_HANDED && reply.number == turn + 2 && reply.request.n == n_of(turn));
            reply = meulhaton_report(&connection, (meulhaton_outcome){MEULHATON_OUTCOME_SUCCESS});
            HOLDS(reply.said == MEULHATON_ANSWERED && reply.number == turn + 2);
            HOLDS(connection.control.first == (first + turn + 1) % 32);
            before.control = connection.control;
            HOLDS(same(&connection, &before));
        }
        HOLDS(meulhaton_take(&connection).said == MEULHATON_IDLE);
        HOLDS(meulhaton_close(&connection).said == MEULHATON_CLOSED && connection.control.first == first);
    }
}

/* The ring's bounds are rules in every state, and so is that what waits is a request. */
static void bounds(void) {
    meulhaton_connection good = meulhaton_fresh(), bad;
    for (int closed = 0; closed < 2; closed++) {
        const size_t wrong[] = {33, 64, SIZE_MAX - 31, SIZE_MAX};
        for (size_t i = 0; i < sizeof wrong / sizeof *wrong; i++) {
            bad = good;
            bad.control.first = wrong[i] - 1;
            broken(bad);
            bad = good;
            bad.control.waiting = wrong[i];
            broken(bad);
        }
        bad = good;
        bad.control.in_flight = 2;
        broken(bad);
        bad = good;
        bad.control.state = 8;
        broken(bad);
        HOLDS(closed || meulhaton_close(&good).said == MEULHATON_CLOSED);
    }
    good = meulhaton_fresh();
    good.control.first = 31;
    served(&good, MEULHATON_HELLO, MEULHATON_OUTCOME_SUCCESS);
    for (size_t i = 0; i < 3; i++) HOLDS(meulhaton_arrive(&good, (meulhaton_request){.kind = MEULHATON_RUN, .n = 0, .qid = 0}).said == MEULHATON_QUEUED);
    for (size_t place = 0; place < 32; place++) {
        bad = good;
        bad.kinds[place] = 0x14;
        if (place < 3) broken(bad);
        else HOLDS(meulhaton_take(&bad).said == MEULHATON_HANDED && bad.kinds[place] == 0x14);
    }
}

int main(void) {
    texts();
    wire();
    values();
    requests();
    wrong_requests();
    calls();
    failed_begin();
    ring();
    bounds();
    return failed;
}
