/*
 * QUIC DATAGRAM frames of HTTP/3, without a QUIC library: in one process a client hands a server the payloads of
 * frames.
 *
 * First with a table of streams, then with one record inside the host's own object of each stream, which is the way
 * for more than MRZ_TABLE_PLACES streams, and the faster one: a table is checked whole in every call.
 *
 *     cc -std=c99 h3_datagrams.c $(pkg-config --cflags --libs maruzhenu) -o h3_datagrams
 */
#include <inttypes.h>
#include <stdint.h>
#include <stdio.h>
#include <stdlib.h>
#include <string.h>

#include "maruzhenu.h"

/* The two arguments of some bytes. */
#define BYTES(text) (const uint8_t *)(text), sizeof(text) - 1

enum {
    PATH = 24,    /* the largest payload of a DATAGRAM frame that the path carries: in earnest some 1,200 bytes */
    PLACES = 4,   /* of the table */
    STREAMS = 200 /* of the second part */
};

static const char *const rules[] = {"refused",
                                    "a frame without a quarter stream ID",
                                    "a quarter stream ID that is too large",
                                    "a stream beyond the limit",
                                    "no such stream, dropped",
                                    "receive side closed, dropped",
                                    "no semantics for datagrams",
                                    "longer than the limit, dropped",
                                    "delivered"};

static void expect(const char *what, uint64_t expected, uint64_t came) {
    if (expected != came) {
        printf("h3_datagrams: %s: expected %" PRIu64 ", came %" PRIu64 "\n", what, expected, came);
        exit(1);
    }
}

/* What the host has to do about an error. */
static mrz_translation carry_out(uint64_t error) {
    const mrz_translation becomes = mrz_translate(error, MRZ_VERSION_HTTP_3);
    expect("translating", MRZ_NOT_REFUSED, becomes.refusal);
    printf(", error %" PRIu64 ": %s with code 0x%" PRIx64, error,
           becomes.action == MRZ_ACTION_STREAM_ERROR ? "abort the stream" : "close the connection", becomes.code);
    return becomes;
}

/*
 * SETTINGS_H3_DATAGRAM: 0 or 1, and not less than the value stored with a 0-RTT ticket (0 where there is none). Frames
 * are sent only where both sides have sent 1.
 */
static void receive_setting(uint64_t received, uint64_t stored) {
    const uint64_t error = mrz_setting_error(received, stored);
    printf("setting %" PRIu64 ", stored %" PRIu64, received, stored);
    if (error != MRZ_NO_ERROR) {
        carry_out(error);
    }
    printf("\n");
}

/* ---- with a table */

static mrz_stream client[PLACES], server[PLACES]; /* all zero: every place is free */

/* The host's own of each stream, at the same place. */
static struct {
    unsigned received;
    uint64_t stream_id;
} server_streams[PLACES];

static const mrz_frame_terms terms = {.our_setting = 1, .peer_setting = 1, .path_size = PATH};

/* Opens a stream; a server does so once the request's fields are read, for before it cannot know of the semantics. */
static void open_stream(mrz_stream *streams, uint64_t stream_id, uint64_t semantics) {
    const mrz_opened opened = mrz_stream_open(streams, PLACES, stream_id, semantics);
    expect("opening a stream", MRZ_NOT_REFUSED, opened.refusal);
    if (streams == server) {
        server_streams[opened.place].stream_id = stream_id;
        server_streams[opened.place].received = 0;
    }
}

static void close_side(mrz_stream *streams, uint64_t stream_id, uint64_t side) {
    const mrz_side_closed closed = mrz_stream_close(streams, PLACES, stream_id, side);
    expect("closing a side", MRZ_NOT_REFUSED, closed.refusal);
    printf("%s closes the %s side of stream %" PRIu64 " at place %" PRIu64 "%s\n",
           streams == client ? "client" : "server", side == MRZ_SIDE_SEND ? "send" : "receive", stream_id, closed.place,
           closed.freed ? ", which is free now" : "");
}

static void server_receives(const uint8_t *frame, size_t length) {
    const mrz_limits limits = {.stream_limit = 100, .datagram_limit = 16}; /* 100 requests are allowed: MAX_STREAMS */
    const mrz_judged judged = mrz_judge(server, PLACES, limits, frame, length);
    expect("judging", MRZ_NOT_REFUSED, judged.refusal);
    printf("server, length %zu: %s", length, rules[judged.rule]);
    if (judged.rule == MRZ_RULE_DELIVERED) {
        server_streams[judged.place].received++;
        printf(", stream %" PRIu64 ", \"%.*s\"", server_streams[judged.place].stream_id, (int)judged.length,
               (const char *)frame + judged.start); /* the payload lies in the frame */
    }
    if (judged.error != MRZ_NO_ERROR && carry_out(judged.error).action == MRZ_ACTION_STREAM_ERROR) {
        /* The place tells the stream. An abort closes both sides, and then the place is free. */
        const uint64_t stream_id = server_streams[judged.place].stream_id;
        printf(", stream %" PRIu64 "\n", stream_id);
        close_side(server, stream_id, MRZ_SIDE_RECEIVE);
        close_side(server, stream_id, MRZ_SIDE_SEND);
        return;
    }
    printf("\n");
}

/* Sends a payload as a frame, or, where it is too long for the path, in a capsule on the stream. */
static void client_sends(uint64_t stream_id, const uint8_t *payload, size_t length) {
    uint8_t out[64];
    mrz_written written = mrz_write_frame(client, PLACES, stream_id, terms, payload, length, out, sizeof out, 0);
    if (written.refusal == MRZ_NOT_REFUSED) {
        server_receives(out, (size_t)written.written);
    } else if (written.refusal == MRZ_REFUSAL_FRAME_TOO_LONG) {
        written = mrz_write_capsule(client, PLACES, stream_id, payload, length, out, sizeof out, 0);
        expect("writing a capsule", MRZ_NOT_REFUSED, written.refusal);
        printf("client: too long for a frame, a capsule of %" PRIu64 " bytes on stream %" PRIu64 "\n", written.written,
               stream_id);
    } else {
        printf("client: sending on stream %" PRIu64 " is refused, %" PRIu64 "\n", stream_id, written.refusal);
    }
}

/* The header alone: a host that sends by vectors leaves the payload where it is. */
static void client_sends_vectors(uint64_t stream_id, const uint8_t *payload, size_t length) {
    uint8_t header[MRZ_LONGEST_FRAME_HEADER], wire[PATH];
    const mrz_written written =
        mrz_write_frame_header(client, PLACES, stream_id, terms, length, header, sizeof header, 0);
    expect("writing a header", MRZ_NOT_REFUSED, written.refusal);
    memcpy(wire, header, (size_t)written.written); /* what sendmsg would do: no more than path_size in all */
    memcpy(wire + written.written, payload, length);
    server_receives(wire, (size_t)written.written + length);
}

static void with_a_table(void) {
    open_stream(client, 0, 1);
    open_stream(client, 4, 1);
    open_stream(client, 8, 0);
    open_stream(server, 0, 1);
    client_sends(0, BYTES("one"));
    client_sends_vectors(0, BYTES("two"));
    client_sends(4, BYTES("early")); /* frames may overtake the request: this one is lost, as datagrams may be */
    open_stream(server, 4, 1);
    open_stream(server, 8, 0);
    client_sends(4, BYTES("three"));
    client_sends(4, BYTES("seventeen letters"));
    client_sends(4, BYTES("longer than any frame on this path"));
    client_sends(8, BYTES("four"));
    server_receives(BYTES("\x02" "four")); /* from a client that sends all the same */
    server_receives(BYTES("\x02" "four"));
    close_side(client, 0, MRZ_SIDE_SEND);
    client_sends(0, BYTES("five"));
    close_side(server, 0, MRZ_SIDE_RECEIVE);
    server_receives(BYTES("\x00" "late"));
    close_side(server, 0, MRZ_SIDE_SEND);
    close_side(client, 0, MRZ_SIDE_RECEIVE);
    server_receives(BYTES("\x00" "later"));
    server_receives(BYTES("\x40\x64" "six"));
    server_receives(BYTES("\xd0\x00\x00\x00\x00\x00\x00\x00" "six"));
    server_receives(BYTES("\x40"));
}

/* ---- with one record in the host's own object */

struct stream {
    uint64_t stream_id;
    mrz_stream record; /* a table of one place: of this stream, or blank */
    unsigned received;
    uint64_t bytes;
};

static struct stream client_objects[STREAMS], server_objects[STREAMS];

static struct stream *place_of(struct stream *objects, uint64_t stream_id) {
    return &objects[mrz_quarter_of(stream_id).quarter % STREAMS];
}

/* The host's own way from a stream ID to its object, here an array; null where there is none. */
static struct stream *find(struct stream *objects, uint64_t stream_id) {
    struct stream *object = place_of(objects, stream_id);
    return object->record.flags != 0 && object->stream_id == stream_id ? object : NULL;
}

static void open_object(struct stream *objects, uint64_t stream_id) {
    struct stream *object = place_of(objects, stream_id);
    memset(object, 0, sizeof *object);
    object->stream_id = stream_id;
    expect("opening a stream", MRZ_NOT_REFUSED, mrz_stream_open(&object->record, 1, stream_id, 1).refusal);
}

/* The rule by which a frame is judged: over its stream's record, or over an empty table where no object is found. */
static uint64_t object_receives(const uint8_t *frame, size_t length) {
    const mrz_limits limits = {.stream_limit = MRZ_UNKNOWN_STREAMS, .datagram_limit = 1200};
    const mrz_varint quarter = mrz_read_varint(frame, length); /* size 0, too large: these the judging finds too */
    const mrz_stream_id id = mrz_stream_id_of(quarter.value);
    struct stream *object = quarter.size == 0 || id.too_large ? NULL : find(server_objects, id.stream_id);
    const mrz_judged judged = object != NULL ? mrz_judge(&object->record, 1, limits, frame, length)
                                             : mrz_judge(NULL, 0, limits, frame, length);
    expect("judging", MRZ_NOT_REFUSED, judged.refusal);
    if (judged.rule == MRZ_RULE_DELIVERED) {
        object->received++;
        object->bytes += judged.length;
    }
    return judged.rule;
}

static void with_one_record(void) {
    static const uint8_t payload[64] = "payload";
    const mrz_frame_terms wide = {.our_setting = 1, .peer_setting = 1, .path_size = 80};
    uint64_t counts[sizeof rules / sizeof rules[0]] = {0}, refused = 0, freed = 0, bytes = 0, i;
    unsigned round;
    for (i = 0; i < STREAMS; i++) {
        open_object(client_objects, mrz_stream_id_of(i).stream_id);
    }
    for (round = 0; round < 4; round++) {
        for (i = 0; i < STREAMS; i++) {
            struct stream *object = &client_objects[i];
            const uint64_t id = object->stream_id;
            uint8_t out[80];
            const mrz_written written = mrz_write_frame(&object->record, 1, id, wide, payload, (size_t)(i % 65), out,
                                                        sizeof out, 0);
            if (written.refusal != MRZ_NOT_REFUSED) {
                expect("the refusal", MRZ_REFUSAL_SEND_SIDE_CLOSED, written.refusal);
                refused++;
            } else {
                counts[object_receives(out, (size_t)written.written)]++;
            }
            if (round == 0) { /* the first frame of each stream came before its request */
                open_object(server_objects, id);
            }
            if (round == 1 && i % 5 == 0) { /* the end of the request overtakes the frames of the next round */
                expect("closing", MRZ_NOT_REFUSED,
                       mrz_stream_close(&server_objects[i].record, 1, id, MRZ_SIDE_RECEIVE).refusal);
            }
            if (round == 2 && i % 5 == 0) {
                expect("closing", MRZ_NOT_REFUSED, mrz_stream_close(&object->record, 1, id, MRZ_SIDE_SEND).refusal);
                freed += mrz_stream_close(&server_objects[i].record, 1, id, MRZ_SIDE_SEND).freed;
            }
        }
    }
    counts[object_receives(BYTES("\x00" "late"))]++; /* its object is gone */
    counts[object_receives(BYTES("\x7f\xff" "unknown"))]++;
    counts[object_receives(BYTES(""))]++;
    counts[object_receives(BYTES("\xd0\x00\x00\x00\x00\x00\x00\x00"))]++;
    printf("%d streams, a record each\n", STREAMS);
    for (i = 1; i < sizeof rules / sizeof rules[0]; i++) {
        printf("%" PRIu64 " frames: %s\n", counts[i], rules[i]);
    }
    for (i = 0; i < STREAMS; i++) {
        expect("frames of a stream", i % 5 == 0 ? 1 : 3, server_objects[i].received);
        bytes += server_objects[i].bytes;
    }
    printf("%" PRIu64 " bytes of payload, %" PRIu64 " frames refused for a closed send side, %" PRIu64
           " records freed\n",
           bytes, refused, freed);
}

int main(void) {
    receive_setting(1, 0);
    receive_setting(1, 1);
    receive_setting(0, 1);
    receive_setting(2, 0);
    with_a_table();
    with_one_record();
    return 0;
}
