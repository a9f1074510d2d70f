/*
 * Two readers in one host, fed in turn with pieces cut at random.
 *
 * One stream is a good one: datagrams with known payloads, and other capsules between them. The other one lies about a
 * length: it names one near 2^62, or more than the limit, and sends something else. Whatever the second stream does,
 * the datagrams of the first arrive unaltered, and nothing outside the lent buffers changes.
 *
 *     cc -std=c99 two_readers.c $(pkg-config --cflags --libs maruzhenu) -o two_readers
 */
#include <inttypes.h>
#include <stdint.h>
#include <stdio.h>
#include <stdlib.h>
#include <string.h>

#include "maruzhenu.h"

enum {
    LIMIT = 1200,        /* the datagram limit of both readers */
    DATAGRAMS = 40,      /* datagrams in the good stream of a round */
    LONGEST_PIECE = 700, /* a piece has 0 to this many bytes */
    ROUNDS = 10,         /* rounds for each false length */
    GUARD = 64           /* bytes around a gathering buffer that nobody may touch */
};

#define LARGEST UINT64_C(0x3fffffffffffffff) /* 2^62-1 */

static uint64_t random_state = 1;

/* xorshift64: the same numbers in every run */
static uint64_t random_number(void) {
    random_state ^= random_state << 13;
    random_state ^= random_state >> 7;
    random_state ^= random_state << 17;
    return random_state;
}

static size_t random_below(size_t bound) {
    return (size_t)(random_number() % bound);
}

static void fail(const char *what, uint64_t expected, uint64_t came) {
    printf("two_readers: %s: expected %" PRIu64 ", came %" PRIu64 "\n", what, expected, came);
    exit(1);
}

static void expect(const char *what, uint64_t expected, uint64_t came) {
    if (expected != came) {
        fail(what, expected, came);
    }
}

struct stream {
    uint8_t bytes[160000];
    size_t length;
};

static void push_number(struct stream *stream, uint64_t number) {
    mrz_written written =
        mrz_write_varint(number, stream->bytes, sizeof stream->bytes, stream->length);
    expect("writing a number", 0, written.refusal);
    stream->length += (size_t)written.written;
}

static void push_byte(struct stream *stream, uint8_t byte) {
    if (stream->length == sizeof stream->bytes) {
        fail("the room of a stream", 0, 1);
    }
    stream->bytes[stream->length++] = byte;
}

/* Byte i of the payload of the datagram with this number in the good stream of this round. */
static uint8_t payload_byte(unsigned round, size_t datagram, size_t i) {
    return (uint8_t)(round * 131 + datagram * 31 + i * 7 + i / 251);
}

static size_t payload_length(unsigned round, size_t datagram) {
    return (datagram * 97 + round * 13) % (LIMIT + 1);
}

/* Datagrams through the capsule writer, and capsules of unknown type between them. */
static void make_good_stream(struct stream *stream, unsigned round) {
    mrz_stream streams[4] = {{0, 0}, {0, 0}, {0, 0}, {0, 0}};
    const uint64_t id = mrz_stream_id_of(round + 1).stream_id; /* divisible by 4 */
    uint8_t payload[LIMIT];
    size_t datagram, i;
    mrz_opened opened = mrz_stream_open(streams, 4, id, 1);
    expect("opening the stream", 0, opened.refusal);
    stream->length = 0;
    for (datagram = 0; datagram < DATAGRAMS; datagram++) {
        const size_t length = payload_length(round, datagram);
        mrz_written written;
        for (i = 0; i < length; i++) {
            payload[i] = payload_byte(round, datagram, i);
        }
        written = mrz_write_capsule(streams, 4, id, payload, length, stream->bytes, sizeof stream->bytes,
                                    stream->length);
        expect("writing a capsule", 0, written.refusal);
        stream->length += (size_t)written.written;
        if (datagram % 3 == 0) {
            push_number(stream, 0x29 * (uint64_t)datagram + 0x17);
            push_number(stream, datagram);
            for (i = 0; i < datagram; i++) {
                push_byte(stream, (uint8_t)random_number());
            }
        }
    }
}

/* A capsule that names a length and sends other bytes, which look like capsules with more of the same. */
static void make_bad_stream(struct stream *stream, uint64_t type, uint64_t false_length) {
    unsigned i;
    stream->length = 0;
    push_number(stream, type);
    push_number(stream, false_length);
    for (i = 0; i < 1000; i++) {
        push_number(stream, i % 5 == 0 ? LARGEST - i : 0);
        push_number(stream, LARGEST - i);
    }
}

struct host {
    mrz_reader reader;
    uint8_t guard_before[GUARD];
    uint8_t gathering[LIMIT];
    uint8_t guard_behind[GUARD];
    size_t fed;         /* bytes of the stream consumed so far */
    size_t delivered;   /* datagrams delivered so far */
    size_t forwarded;   /* bytes written to the output so far */
    size_t other;       /* other capsules that have ended */
};

static void open_host(struct host *host, uint64_t role) {
    mrz_opening opening = {0, 0, 0, 0};
    opening.role = role;
    opening.datagram_limit = LIMIT;
    memset(host, 0, sizeof *host);
    memset(host->guard_before, 0xa5, GUARD);
    memset(host->gathering, 0x5a, LIMIT);
    memset(host->guard_behind, 0xa5, GUARD);
    expect("opening a reader", 0, mrz_reader_open(&host->reader, opening));
}

static void check_guards(const struct host *host) {
    size_t i;
    for (i = 0; i < GUARD; i++) {
        expect("a byte before the gathering buffer", 0xa5, host->guard_before[i]);
        expect("a byte behind the gathering buffer", 0xa5, host->guard_behind[i]);
    }
}

static uint8_t output[LONGEST_PIECE + MRZ_OUTPUT_HEADROOM];

/* One call with the next piece of the stream. */
static mrz_fed feed(struct host *host, const struct stream *stream) {
    const size_t left = stream->length - host->fed;
    size_t length = random_below(LONGEST_PIECE + 1);
    mrz_fed fed;
    if (random_below(3) == 0) {
        length %= 8; /* within headers too */
    }
    if (length > left) {
        length = left;
    }
    fed = mrz_reader_feed(&host->reader, stream->bytes + host->fed, length, host->gathering, LIMIT,
                          NULL, 0, output, length + MRZ_OUTPUT_HEADROOM);
    expect("feeding", 0, fed.refusal);
    if (fed.consumed > length || (length > 0 && fed.consumed == 0)) {
        fail("consumed bytes", length, fed.consumed);
    }
    if (memcmp(output, stream->bytes + host->forwarded, (size_t)fed.written) != 0) {
        fail("forwarded bytes", 0, 1);
    }
    host->fed += (size_t)fed.consumed;
    host->forwarded += (size_t)fed.written;
    return fed;
}

static void feed_good(struct host *host, const struct stream *stream, unsigned round) {
    const mrz_fed fed = feed(host, stream);
    size_t i;
    switch (fed.report) {
    case MRZ_REPORT_NONE:
        break;
    case MRZ_REPORT_DELIVERED:
        expect("the length of a datagram", payload_length(round, host->delivered), fed.length);
        for (i = 0; i < fed.length; i++) {
            expect("a byte of a datagram", payload_byte(round, host->delivered, i),
                   host->gathering[i]);
        }
        host->delivered++;
        break;
    case MRZ_REPORT_SKIPPED:
        host->other++;
        break;
    default:
        fail("the report on the good stream", MRZ_REPORT_NONE, fed.report);
    }
    check_guards(host);
}

/* The stream that lies: the one capsule never ends. */
static void feed_bad(struct host *host, const struct stream *stream) {
    const mrz_fed fed = feed(host, stream);
    size_t i;
    expect("the report on the stream that lies", MRZ_REPORT_NONE, fed.report);
    for (i = 0; i < LIMIT; i++) {
        expect("a byte of the gathering buffer of the stream that lies", 0x5a, host->gathering[i]);
    }
    check_guards(host);
}

static struct stream good_stream, bad_stream;
static struct host hosts[2];

static void one_round(unsigned round, uint64_t role, uint64_t type, uint64_t false_length) {
    struct host *good = &hosts[0], *bad = &hosts[1];
    mrz_closed closed;
    mrz_look look;
    mrz_fed fed;

    make_good_stream(&good_stream, round);
    make_bad_stream(&bad_stream, type, false_length);
    open_host(good, MRZ_ROLE_ENDPOINT);
    open_host(bad, role);
    while (good->fed < good_stream.length || bad->fed < bad_stream.length) {
        if (random_below(2) == 0) {
            feed_good(good, &good_stream, round);
        } else {
            feed_bad(bad, &bad_stream);
        }
    }

    expect("datagrams of the good stream", DATAGRAMS, good->delivered);
    expect("other capsules of the good stream", (DATAGRAMS + 2) / 3, good->other);
    expect("forwarded bytes of the good stream", 0, good->forwarded);
    expect("forwarded bytes of the stream that lies",
           role == MRZ_ROLE_INTERMEDIARY && type != 0 ? bad_stream.length : 0, bad->forwarded);

    /* A host may look at a reader that reports nothing. */
    look = mrz_reader_look(&bad->reader);
    expect("looking at the reader of the stream that lies", 0, look.refusal);
    expect("where it stands", MRZ_FIELD_VALUE, look.field);
    expect("the length that the stream names", false_length, look.length);
    expect("the buffer in use", MRZ_BUFFER_NEITHER, look.buffer);

    closed = mrz_reader_close(&good->reader);
    expect("closing the good reader", 0, closed.refusal);
    expect("the end of the good stream", MRZ_END_CLEAN, closed.end);
    closed = mrz_reader_close(&bad->reader);
    expect("closing the other reader", 0, closed.refusal);
    expect("the end of the stream that lies", MRZ_END_TRUNCATED, closed.end);
    expect("its error", MRZ_ERROR_TRUNCATED, closed.error);
    fed = mrz_reader_feed(&bad->reader, bad_stream.bytes, 1, bad->gathering, LIMIT, NULL, 0, output,
                          sizeof output);
    expect("feeding after the close", MRZ_REFUSAL_FINISHED, fed.refusal);
}

static void false_lengths(const char *what, uint64_t role, uint64_t type, uint64_t false_length) {
    unsigned round;
    for (round = 0; round < ROUNDS; round++) {
        one_round(round, role, type, false_length);
    }
    printf("%s, length %" PRIu64 ": %d datagrams beside it unaltered\n", what, false_length,
           ROUNDS * DATAGRAMS);
}

int main(void) {
    static const uint64_t lengths[] = {LARGEST, LARGEST - 1, LARGEST / 2 + 1, UINT64_C(1) << 32, 65536};
    static const mrz_opening no_datagrams = {MRZ_ROLE_ENDPOINT, 0, 0, 0};
    mrz_reader reader;
    size_t i;
    /* A null pointer with length 0 is an empty buffer. */
    expect("opening a reader with limit 0", 0, mrz_reader_open(&reader, no_datagrams));
    expect("feeding nothing", 0, mrz_reader_feed(&reader, NULL, 0, NULL, 0, NULL, 0, NULL, 0).refusal);
    expect("reading a number from nothing", 0, mrz_read_varint(NULL, 0).size);
    expect("listing nothing", MRZ_END_CLEAN, mrz_list(NULL, 0).end);
    for (i = 0; i < sizeof lengths / sizeof lengths[0]; i++) {
        false_lengths("endpoint, DATAGRAM", MRZ_ROLE_ENDPOINT, 0, lengths[i]);
        false_lengths("endpoint, unknown capsule", MRZ_ROLE_ENDPOINT, 0x17, lengths[i]);
        false_lengths("intermediary, DATAGRAM", MRZ_ROLE_INTERMEDIARY, 0, lengths[i]);
        false_lengths("intermediary, unknown capsule", MRZ_ROLE_INTERMEDIARY, LARGEST, lengths[i]);
    }
    printf("all datagrams unaltered\n");
    return 0;
}
