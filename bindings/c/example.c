/* One conversation through the C interface: handshake, HELLO, a keep-alive, RUN, PULL, GOODBYE. Writes what the server sends, in
 * hexadecimal.
 *
 *    cc -Wall -Wextra -o example bindings/c/example.c target/staticlib/libmeulhaton.a && ./example
 */
#include "meulhaton.h"

#include <stdio.h>
#include <stdlib.h>

static void send_bytes(const uint8_t *bytes, size_t length) {
    for (size_t i = 0; i < length; i++) printf("%02X", bytes[i]);
    printf("\n");
}

static void stop(const char *what, uint8_t refusal) {
    fprintf(stderr, "%s refused with %d: %s\n", what, refusal, meulhaton_refusal_text(refusal));
    exit(1);
}

static void send_summary(meulhaton_summary summary) {
    uint8_t packed[60], chunks[64];
    meulhaton_output p = meulhaton_pack_summary(summary, packed, sizeof packed, 0);
    if (p.refusal) stop("summary", p.refusal);
    meulhaton_output w = meulhaton_write_chunks(packed, p.end, p.end, chunks, sizeof chunks);
    if (w.refusal) stop("chunks", w.refusal);
    send_bytes(chunks, w.end);
}

/* Takes and reports until nothing waits; says whether the connection is closed. Every request succeeds. */
static bool serve(meulhaton_connection *connection) {
    for (;;) {
        meulhaton_reply reply = meulhaton_take(connection);
        if (reply.refusal) stop("take", reply.refusal);
        if (reply.said == MEULHATON_CLOSED) return true;
        if (reply.said == MEULHATON_IDLE) return false;
        if (reply.said == MEULHATON_HANDED) {
            reply = meulhaton_report(connection, (meulhaton_outcome){MEULHATON_OUTCOME_SUCCESS});
            if (reply.refusal) stop("report", reply.refusal);
        }
        send_summary(reply.summary);
    }
}

int main(void) {
    const uint8_t handshake[] = {0x60, 0x60, 0xB0, 0x17, 0, 0, 1, 4, 0, 0, 0, 4, 0, 0, 0, 0, 0, 0, 0, 0};
    const uint8_t input[] = "\x00\x12\xB1\x01\xA1\x8Auser_agent\x83P/1\x00\x00"
                            "\x00\x00"
                            "\x00\x06\xB3\x10\x81R\xA0\xA0\x00\x00"
                            "\x00\x06\xB1\x3F\xA1\x81n\xFF\x00\x00"
                            "\x00\x02\xB0\x02\x00\x00";
    const size_t length = sizeof input - 1;

    meulhaton_agreement agreed = meulhaton_negotiate(handshake, sizeof handshake);
    if (agreed.refusal) stop("handshake", agreed.refusal);
    send_bytes((const uint8_t[]){0, 0, agreed.minor, 4}, 4);

    static uint8_t message[16384];
    meulhaton_connection connection = meulhaton_fresh();
    for (size_t at = 0; at < length;) {
        meulhaton_frame frame = meulhaton_read_frame(agreed.minor, input + at, length - at, message, sizeof message);
        if (frame.refusal) stop("frame", frame.refusal);
        at += frame.consumed;
        if (frame.kind == MEULHATON_KEEP_ALIVE) continue;
        meulhaton_request_read read = meulhaton_read_request(agreed.minor, message, frame.length);
        if (read.refusal) stop("request", read.refusal);
        meulhaton_reply reply = meulhaton_arrive(&connection, read.request);
        if (reply.refusal) stop("arrive", reply.refusal);
        if (reply.said == MEULHATON_CLOSED || serve(&connection)) break;
    }
    return 0;
}
