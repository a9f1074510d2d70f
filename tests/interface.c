/*
 * Every function and every constant of the header. No two arguments and no two fields that could be taken for each
 * other have the same value, and every field of every answer is compared, so that two constants or two fields exchanged
 * are seen. Two parameters of one type exchanged in a declaration no run can see: tests/signatures compares the names.
 */
#include <inttypes.h>
#include <stdio.h>
#include <string.h>

#include "maruzhenu.h"

/* The two arguments of some bytes. */
#define BYTES(text) (const uint8_t *)(text), sizeof(text) - 1

#define LARGEST UINT64_C(0x3fffffffffffffff) /* 2^62-1 */
#define DRAFT_TYPE 0xff37a5

static int failures = 0;
static int compared = 0;

static void compare(int line, const char *what, uint64_t expected, uint64_t found) {
    compared++;
    if (expected != found) {
        printf("line %d: %s: %" PRIu64 " expected, %" PRIu64 " found\n", line, what, expected, found);
        failures++;
    }
}

#define IS(expected, found) compare(__LINE__, #found, (expected), (found))

/* A field of an answer, in a function that is told the line and what is expected under the field's name. */
#define SAME(answer, field) compare(line, #answer "." #field, field, answer.field)

/* ---- version and names */

static void version(void) {
    char text[40];
    IS(0, MRZ_VERSION_MAJOR);
    IS(4, MRZ_VERSION_MINOR);
    IS(0, MRZ_VERSION_PATCH);
    sprintf(text, "%d.%d.%d", MRZ_VERSION_MAJOR, MRZ_VERSION_MINOR, MRZ_VERSION_PATCH);
    IS(0, strcmp(MRZ_VERSION, text) != 0);
}

static void name(uint64_t number, uint64_t refusal, const char *text) {
    IS(number, refusal);
    if (strcmp(mrz_refusal_name(number), text) != 0) {
        printf("refusal %" PRIu64 ": %s expected, %s found\n", number, text, mrz_refusal_name(number));
        failures++;
    }
}

static void names(void) {
    name(0, MRZ_NOT_REFUSED, "not refused");
    name(1, MRZ_REFUSAL_UNMAKEABLE_STATE, "unmakeable state");
    name(2, MRZ_REFUSAL_FINISHED, "finished");
    name(3, MRZ_REFUSAL_LIMIT_TOO_LARGE, "limit too large");
    name(4, MRZ_REFUSAL_GATHERING_TOO_SHORT, "gathering too short");
    name(5, MRZ_REFUSAL_OUTPUT_TOO_SHORT, "output too short");
    name(6, MRZ_REFUSAL_NUMBER_TOO_LARGE, "number too large");
    name(7, MRZ_REFUSAL_NOT_A_REQUEST_STREAM, "not a request stream");
    name(8, MRZ_REFUSAL_NO_FREE_PLACE, "no free place");
    name(9, MRZ_REFUSAL_ALREADY_IN_TABLE, "already in table");
    name(10, MRZ_REFUSAL_NOT_IN_TABLE, "not in table");
    name(11, MRZ_REFUSAL_FRAMES_NOT_AGREED, "frames not agreed");
    name(12, MRZ_REFUSAL_SEND_SIDE_CLOSED, "send side closed");
    name(13, MRZ_REFUSAL_NO_SEMANTICS, "no semantics");
    name(14, MRZ_REFUSAL_FRAME_TOO_LONG, "frame too long");
    name(15, MRZ_REFUSAL_BAD_TABLE, "bad table");
    name(16, MRZ_REFUSAL_BUFFER_TOO_LONG, "buffer too long");
    name(17, MRZ_REFUSAL_UNKNOWN_ERROR_OR_VERSION, "unknown error or version");
    name(18, MRZ_REFUSAL_ADDRESSES_TOO_SHORT, "addresses too short");
    name(19, MRZ_REFUSAL_FIELD_TOO_LONG, "field too long");
    name(26, MRZ_REFUSAL_MALFORMED_TO_WRITE, "malformed to write");
    name(20, 20, "unknown");
    name(25, 25, "unknown");
    name(27, 27, "unknown");
    name(UINT64_MAX, UINT64_MAX, "unknown");
}

/* ---- varints and writers: what was written at a place, and that no other byte changed */

static uint8_t out[64];

static void clear(void) {
    memset(out, 0xee, sizeof out);
}

static void written_is(int line, uint64_t refusal, mrz_written answer, size_t place, const uint8_t *bytes,
                       size_t written) {
    size_t i;
    SAME(answer, refusal);
    SAME(answer, written);
    for (i = 0; i < sizeof out; i++) {
        compare(line, "a byte of the output", i >= place && i - place < written ? bytes[i - place] : 0xee, out[i]);
    }
    clear();
}

#define WROTE(call, place, text) written_is(__LINE__, MRZ_NOT_REFUSED, call, place, BYTES(text))
#define NOT_WRITTEN(refusal, call) written_is(__LINE__, refusal, call, 0, NULL, 0)

static void varints(void) {
    mrz_varint varint = mrz_read_varint(BYTES("\x7b\xbd\x25"));
    IS(15293, varint.value);
    IS(2, varint.size);
    varint = mrz_read_varint(BYTES("\x9d\x7f\x3e"));
    IS(0, varint.value);
    IS(0, varint.size);

    clear();
    WROTE(mrz_write_varint(15293, out, 40, 3), 3, "\x7b\xbd");
    NOT_WRITTEN(MRZ_REFUSAL_NUMBER_TOO_LARGE, mrz_write_varint(LARGEST + 1, out, 40, 41));
    NOT_WRITTEN(MRZ_REFUSAL_OUTPUT_TOO_SHORT, mrz_write_varint(15293, out, 40, 39));
}

/* ---- the reader */

enum { LIMIT = 90 };

static uint8_t gathering[LIMIT], addresses[MRZ_LONGEST_ADDRESS_VALUE], output[64];

static mrz_reader opened(uint64_t role, uint64_t datagram_limit, uint64_t draft, uint64_t takes_addresses) {
    mrz_reader reader;
    mrz_opening opening;
    opening.role = role;
    opening.datagram_limit = datagram_limit;
    opening.draft = draft;
    opening.addresses = takes_addresses;
    memset(&reader, 0, sizeof reader);
    IS(MRZ_NOT_REFUSED, mrz_reader_open(&reader, opening));
    memset(gathering, 0xaa, sizeof gathering);
    memset(addresses, 0xbb, sizeof addresses);
    memset(output, 0xcc, sizeof output);
    return reader;
}

static mrz_fed feed(mrz_reader *reader, const uint8_t *piece, size_t length) {
    return mrz_reader_feed(reader, piece, length, gathering, sizeof gathering, addresses, sizeof addresses, output,
                           length + MRZ_OUTPUT_HEADROOM);
}

static void fed_is(int line, uint64_t refusal, uint64_t consumed, uint64_t written, uint64_t report, uint64_t type,
                   uint64_t length, uint64_t error, mrz_fed fed) {
    SAME(fed, refusal);
    SAME(fed, consumed);
    SAME(fed, written);
    SAME(fed, report);
    SAME(fed, type);
    SAME(fed, length);
    SAME(fed, error);
}

#define FED(consumed, written, report, type, length, error, fed) \
    fed_is(__LINE__, MRZ_NOT_REFUSED, consumed, written, report, type, length, error, fed)
#define NOT_FED(refusal, fed) fed_is(__LINE__, refusal, 0, 0, MRZ_REPORT_NONE, 0, 0, MRZ_NO_ERROR, fed)

static void closed_is(int line, uint64_t refusal, uint64_t end, uint64_t error, mrz_closed closed) {
    SAME(closed, refusal);
    SAME(closed, end);
    SAME(closed, error);
}

#define CLOSED(refusal, end, error, closed) closed_is(__LINE__, refusal, end, error, closed)

static void opening(void) {
    mrz_reader reader;
    mrz_opening opening;
    reader = opened(MRZ_ROLE_ENDPOINT, MRZ_LARGEST_DATAGRAM_LIMIT, 0, 0);
    IS(MRZ_LARGEST_DATAGRAM_LIMIT, mrz_reader_look(&reader).datagram_limit);
    opening.role = MRZ_ROLE_INTERMEDIARY;
    opening.datagram_limit = MRZ_LARGEST_DATAGRAM_LIMIT + 1;
    opening.draft = 2;
    opening.addresses = 3;
    IS(MRZ_REFUSAL_LIMIT_TOO_LARGE, mrz_reader_open(&reader, opening));

    /* what each field of an opening does, the others 0 */
    reader = opened(MRZ_ROLE_ENDPOINT, LIMIT, 0, 0);
    FED(9, 0, MRZ_REPORT_SKIPPED, 1, 7, MRZ_NO_ERROR, feed(&reader, BYTES("\x01\x07\x07\x04\x0a\0\0\x01\x20")));
    FED(7, 0, MRZ_REPORT_SKIPPED, DRAFT_TYPE, 2, MRZ_NO_ERROR, feed(&reader, BYTES("\x80\xff\x37\xa5\x02xyz")));
    reader = opened(MRZ_ROLE_INTERMEDIARY, 0, 0, 0);
    FED(9, 9, MRZ_REPORT_PASSED, 1, 7, MRZ_NO_ERROR, feed(&reader, BYTES("\x01\x07\x07\x04\x0a\0\0\x01\x20")));
    FED(7, 7, MRZ_REPORT_PASSED, DRAFT_TYPE, 2, MRZ_NO_ERROR, feed(&reader, BYTES("\x80\xff\x37\xa5\x02xyz")));
    FED(4, 0, MRZ_REPORT_DROPPED, 0, 2, MRZ_NO_ERROR, feed(&reader, BYTES("\0\x02xyz")));
    reader = opened(0, LIMIT, 5, 0);
    FED(9, 0, MRZ_REPORT_SKIPPED, 1, 7, MRZ_NO_ERROR, feed(&reader, BYTES("\x01\x07\x07\x04\x0a\0\0\x01\x20")));
    FED(7, 0, MRZ_REPORT_DELIVERED, 0, 2, MRZ_NO_ERROR, feed(&reader, BYTES("\x80\xff\x37\xa5\x02xyz")));
    reader = opened(0, LIMIT, 0, 6);
    FED(9, 0, MRZ_REPORT_ADDRESS_DELIVERED, MRZ_TYPE_ADDRESS_ASSIGN, 7, MRZ_NO_ERROR,
        feed(&reader, BYTES("\x01\x07\x07\x04\x0a\0\0\x01\x20")));
    IS(0, memcmp(addresses, "\x07\x04\x0a\0\0\x01\x20", 7) != 0);
    IS(0xbb, addresses[7]);
    FED(7, 0, MRZ_REPORT_SKIPPED, DRAFT_TYPE, 2, MRZ_NO_ERROR, feed(&reader, BYTES("\x80\xff\x37\xa5\x02xyz")));
}

static void feeding(void) {
    mrz_reader reader = opened(MRZ_ROLE_ENDPOINT, LIMIT, 0, 0), zero;
    FED(5, 0, MRZ_REPORT_DELIVERED, 0, 3, MRZ_NO_ERROR, feed(&reader, BYTES("\0\x03" "abcdef")));
    IS(0, memcmp(gathering, "abc", 3) != 0);
    IS(0xaa, gathering[3]);
    FED(3, 0, MRZ_REPORT_NONE, 0, 0, MRZ_NO_ERROR, feed(&reader, BYTES("\0\x05x")));
    FED(0, 0, MRZ_REPORT_NONE, 0, 0, MRZ_NO_ERROR, feed(&reader, BYTES("")));
    CLOSED(MRZ_NOT_REFUSED, MRZ_END_TRUNCATED, MRZ_ERROR_TRUNCATED, mrz_reader_close(&reader));
    CLOSED(MRZ_REFUSAL_FINISHED, MRZ_END_NONE, MRZ_NO_ERROR, mrz_reader_close(&reader));
    NOT_FED(MRZ_REFUSAL_FINISHED, feed(&reader, BYTES("x")));

    reader = opened(MRZ_ROLE_ENDPOINT, 2, 0, 0);
    FED(5, 0, MRZ_REPORT_DROPPED, 0, 3, MRZ_NO_ERROR, feed(&reader, BYTES("\0\x03" "abcdef")));
    IS(0xaa, gathering[0]);
    CLOSED(MRZ_NOT_REFUSED, MRZ_END_CLEAN, MRZ_NO_ERROR, mrz_reader_close(&reader));

    /* a type in two bytes, the first of which is held */
    reader = opened(MRZ_ROLE_INTERMEDIARY, LIMIT, 0, 0);
    FED(1, 0, MRZ_REPORT_NONE, 0, 0, MRZ_NO_ERROR, feed(&reader, BYTES("\x40")));
    FED(7, 8, MRZ_REPORT_PASSED, 23, 5, MRZ_NO_ERROR, feed(&reader, BYTES("\x17\x05hello!")));
    IS(0, memcmp(output, "\x40\x17\x05hello\xcc", 9) != 0);
    NOT_FED(MRZ_REFUSAL_OUTPUT_TOO_SHORT,
            mrz_reader_feed(&reader, BYTES("\x17\x05hello!"), gathering, LIMIT, addresses, 30, output,
                            8 + MRZ_OUTPUT_HEADROOM - 1));
    FED(7, 7, MRZ_REPORT_PASSED, 23, 5, MRZ_NO_ERROR,
        mrz_reader_feed(&reader, BYTES("\x17\x05hello!"), gathering, LIMIT, addresses, 30, output,
                        8 + MRZ_OUTPUT_HEADROOM));
    NOT_FED(MRZ_REFUSAL_GATHERING_TOO_SHORT,
            mrz_reader_feed(&reader, BYTES("x"), gathering, LIMIT - 1, addresses, 30, output, 40));

    /* address capsules */
    reader = opened(MRZ_ROLE_ENDPOINT, LIMIT, 0, 1);
    NOT_FED(MRZ_REFUSAL_ADDRESSES_TOO_SHORT,
            mrz_reader_feed(&reader, BYTES("x"), gathering, LIMIT, addresses, MRZ_LONGEST_ADDRESS_VALUE - 1, output,
                            40));
    FED(9, 0, MRZ_REPORT_ADDRESS_DELIVERED, MRZ_TYPE_ADDRESS_REQUEST, 7, MRZ_NO_ERROR,
        feed(&reader, BYTES("\x02\x07\x07\x04\x0a\0\0\x01\x20")));
    FED(12, 0, MRZ_REPORT_ADDRESS_DELIVERED, MRZ_TYPE_ROUTE_ADVERTISEMENT, 10, MRZ_NO_ERROR,
        feed(&reader, BYTES("\x03\x0a\x04\x0a\0\0\0\x0a\0\0\x05\x11")));
    FED(3, 0, MRZ_REPORT_MALFORMED, MRZ_TYPE_ROUTE_ADVERTISEMENT, MRZ_LONGEST_ADDRESS_VALUE + 1, MRZ_ERROR_MALFORMED,
        feed(&reader, BYTES("\x03\x44\x01\x04")));
    NOT_FED(MRZ_REFUSAL_FINISHED, feed(&reader, BYTES("x")));

    /* words that no call made */
    memset(&zero, 0, sizeof zero);
    NOT_FED(MRZ_REFUSAL_UNMAKEABLE_STATE, feed(&zero, BYTES("x")));
    CLOSED(MRZ_REFUSAL_UNMAKEABLE_STATE, MRZ_END_NONE, MRZ_NO_ERROR, mrz_reader_close(&zero));
    IS(MRZ_REFUSAL_UNMAKEABLE_STATE, mrz_reader_look(&zero).refusal);
}

static void look_is(int line, uint64_t finished, uint64_t datagram_limit, uint64_t field, uint64_t type,
                    uint64_t length, uint64_t to_come, uint64_t gathered, uint64_t buffer, const mrz_reader *reader) {
    const mrz_look look = mrz_reader_look(reader);
    compare(line, "look.refusal", MRZ_NOT_REFUSED, look.refusal);
    SAME(look, finished);
    SAME(look, datagram_limit);
    SAME(look, field);
    SAME(look, type);
    SAME(look, length);
    SAME(look, to_come);
    SAME(look, gathered);
    SAME(look, buffer);
}

#define LOOK(finished, limit, field, type, length, to_come, gathered, buffer, reader) \
    look_is(__LINE__, finished, limit, field, type, length, to_come, gathered, buffer, reader)

static void looking(void) {
    mrz_reader reader = opened(MRZ_ROLE_ENDPOINT, LIMIT, 1, 1);
    LOOK(0, LIMIT, MRZ_FIELD_NONE, 0, 0, 0, 0, MRZ_BUFFER_NEITHER, &reader);
    feed(&reader, BYTES("\x80\xff"));
    LOOK(0, LIMIT, MRZ_FIELD_TYPE, 0, 0, 0, 0, MRZ_BUFFER_NEITHER, &reader);
    feed(&reader, BYTES("\x37\xa5\x40"));
    LOOK(0, LIMIT, MRZ_FIELD_LENGTH, DRAFT_TYPE, 0, 0, 0, MRZ_BUFFER_NEITHER, &reader);
    feed(&reader, BYTES("\x32 nine byte"));
    LOOK(0, LIMIT, MRZ_FIELD_VALUE, DRAFT_TYPE, 50, 40, 10, MRZ_BUFFER_GATHERING, &reader);
    CLOSED(MRZ_NOT_REFUSED, MRZ_END_TRUNCATED, MRZ_ERROR_TRUNCATED, mrz_reader_close(&reader));
    LOOK(1, LIMIT, MRZ_FIELD_VALUE, DRAFT_TYPE, 50, 40, 10, MRZ_BUFFER_GATHERING, &reader);

    reader = opened(MRZ_ROLE_ENDPOINT, LIMIT, 1, 1);
    feed(&reader, BYTES("\x03\x14\x04\x0a\0\0\0\x0a"));
    LOOK(0, LIMIT, MRZ_FIELD_VALUE, MRZ_TYPE_ROUTE_ADVERTISEMENT, 20, 14, 6, MRZ_BUFFER_ADDRESSES, &reader);
    reader = opened(MRZ_ROLE_ENDPOINT, LIMIT, 1, 1);
    feed(&reader, BYTES("\x17\xff\xff\xff\xff\xff\xff\xff\xff" "abcd"));
    LOOK(0, LIMIT, MRZ_FIELD_VALUE, 23, LARGEST, LARGEST - 4, 0, MRZ_BUFFER_NEITHER, &reader);
}

/* One gathering buffer for two readers, the bytes of one saved and put back; and a reader that was copied. */
static void sharing(void) {
    mrz_reader first = opened(MRZ_ROLE_ENDPOINT, LIMIT, 0, 0), second = first, moved;
    uint8_t saved[LIMIT];
    size_t count;
    FED(4, 0, MRZ_REPORT_NONE, 0, 0, MRZ_NO_ERROR, feed(&first, BYTES("\0\x05" "ab")));
    count = (size_t)mrz_reader_look(&first).gathered;
    IS(2, count);
    memcpy(saved, gathering, count);
    FED(5, 0, MRZ_REPORT_DELIVERED, 0, 3, MRZ_NO_ERROR, feed(&second, BYTES("\0\x03xyz")));
    IS(0, memcmp(gathering, "xyz", 3) != 0);
    memcpy(gathering, saved, count);
    moved = first;
    FED(3, 0, MRZ_REPORT_DELIVERED, 0, 5, MRZ_NO_ERROR, feed(&moved, BYTES("cdef")));
    IS(0, memcmp(gathering, "abcde", 5) != 0);
}

/* ---- the listing */

static void listing_is(int line, uint64_t refusal, uint64_t capsules, uint64_t headers, uint64_t end,
                       mrz_listing listing) {
    SAME(listing, refusal);
    SAME(listing, capsules);
    SAME(listing, headers);
    SAME(listing, end);
}

#define LISTING(refusal, capsules, headers, end, listing) \
    listing_is(__LINE__, refusal, capsules, headers, end, listing)

static void listings(void) {
    static const uint8_t zeros[MRZ_LONGEST_LISTING + 1] = {0};
    LISTING(MRZ_NOT_REFUSED, 3, 7, MRZ_END_TRUNCATED, mrz_list(BYTES("\0\x03" "abc\x17\0\x40\x40\x02\xff\xee\0")));
    LISTING(MRZ_NOT_REFUSED, 4, 9, MRZ_END_CLEAN, mrz_list(BYTES("\0\x03" "abc\x17\0\x40\x40\x02\xff\xee\0\0")));
    LISTING(MRZ_NOT_REFUSED, 2048, 4096, MRZ_END_CLEAN, mrz_list(zeros, MRZ_LONGEST_LISTING));
    LISTING(MRZ_REFUSAL_BUFFER_TOO_LONG, 0, 0, MRZ_END_NONE, mrz_list(zeros, MRZ_LONGEST_LISTING + 1));
}

/* ---- the table */

#define BOTH_OPEN (MRZ_STREAM_USED | MRZ_STREAM_RECEIVE | MRZ_STREAM_SEND)

enum { PLACES = 7 };

/* Streams 268, 272, .., 292, so quarters 67 to 73; 288 has no semantics for datagrams. */
static void fill(mrz_stream *streams) {
    uint64_t i;
    memset(streams, 0, PLACES * sizeof *streams);
    for (i = 0; i < PLACES; i++) {
        const uint64_t stream_id = mrz_stream_id_of(67 + i).stream_id;
        const mrz_opened opened = mrz_stream_open(streams, PLACES, stream_id, i == 5 ? 0 : 100);
        IS(MRZ_NOT_REFUSED, opened.refusal);
        IS(i, opened.place);
        IS(67 + i, streams[i].quarter);
        IS(i == 5 ? BOTH_OPEN : BOTH_OPEN | MRZ_STREAM_SEMANTICS, streams[i].flags);
    }
}

static void side_closed(int line, uint64_t refusal, uint64_t place, uint64_t freed, mrz_side_closed closed) {
    SAME(closed, refusal);
    SAME(closed, place);
    SAME(closed, freed);
}

#define SIDE_CLOSED(refusal, place, freed, closed) side_closed(__LINE__, refusal, place, freed, closed)

static void found_is(int line, uint64_t refusal, uint64_t place, mrz_found found) {
    SAME(found, refusal);
    SAME(found, place);
}

#define FOUND(refusal, place, found) found_is(__LINE__, refusal, place, found)

static void not_opened(int line, uint64_t refusal, mrz_opened opened) {
    SAME(opened, refusal);
    compare(line, "opened.place", 0, opened.place);
}

#define NOT_OPENED(refusal, opened) not_opened(__LINE__, refusal, opened)

static void table(void) {
    mrz_stream streams[PLACES], large[MRZ_TABLE_PLACES + 1];
    fill(streams);
    NOT_OPENED(MRZ_REFUSAL_NOT_A_REQUEST_STREAM, mrz_stream_open(streams, PLACES, 285, 1));
    NOT_OPENED(MRZ_REFUSAL_ALREADY_IN_TABLE, mrz_stream_open(streams, PLACES, 284, 1));
    NOT_OPENED(MRZ_REFUSAL_NO_FREE_PLACE, mrz_stream_open(streams, PLACES, 300, 1));
    FOUND(MRZ_NOT_REFUSED, 4, mrz_stream_find(streams, PLACES, 284));
    FOUND(MRZ_REFUSAL_NOT_A_REQUEST_STREAM, 0, mrz_stream_find(streams, PLACES, 285));
    FOUND(MRZ_REFUSAL_NOT_IN_TABLE, 0, mrz_stream_find(streams, PLACES, 300));

    SIDE_CLOSED(MRZ_NOT_REFUSED, 4, 0, mrz_stream_close(streams, PLACES, 284, MRZ_SIDE_RECEIVE));
    IS(MRZ_STREAM_USED | MRZ_STREAM_SEND | MRZ_STREAM_SEMANTICS, streams[4].flags);
    IS(0, streams[4].flags & MRZ_STREAM_RECEIVE);
    SIDE_CLOSED(MRZ_NOT_REFUSED, 3, 0, mrz_stream_close(streams, PLACES, 280, MRZ_SIDE_SEND));
    IS(MRZ_STREAM_USED | MRZ_STREAM_RECEIVE | MRZ_STREAM_SEMANTICS, streams[3].flags);
    IS(0, streams[3].flags & MRZ_STREAM_SEND);
    IS(0, streams[5].flags & MRZ_STREAM_SEMANTICS);
    SIDE_CLOSED(MRZ_NOT_REFUSED, 4, 1, mrz_stream_close(streams, PLACES, 284, MRZ_SIDE_SEND));
    IS(0, streams[4].quarter | streams[4].flags);
    SIDE_CLOSED(MRZ_REFUSAL_NOT_IN_TABLE, 0, 0, mrz_stream_close(streams, PLACES, 284, MRZ_SIDE_SEND));
    SIDE_CLOSED(MRZ_REFUSAL_NOT_A_REQUEST_STREAM, 0, 0, mrz_stream_close(streams, PLACES, 285, MRZ_SIDE_SEND));

    memset(large, 0, sizeof large);
    IS(MRZ_NOT_REFUSED, mrz_stream_open(large, MRZ_TABLE_PLACES, 284, 1).refusal);
    FOUND(MRZ_NOT_REFUSED, 0, mrz_stream_find(large, MRZ_TABLE_PLACES, 284));
    FOUND(MRZ_REFUSAL_BAD_TABLE, 0, mrz_stream_find(large, MRZ_TABLE_PLACES + 1, 284));
    NOT_OPENED(MRZ_REFUSAL_BAD_TABLE, mrz_stream_open(large, MRZ_TABLE_PLACES + 1, 288, 1));
    SIDE_CLOSED(MRZ_REFUSAL_BAD_TABLE, 0, 0, mrz_stream_close(large, MRZ_TABLE_PLACES + 1, 284, MRZ_SIDE_SEND));
}

static void identifiers(void) {
    mrz_quarter quarter = mrz_quarter_of(284);
    mrz_stream_id id = mrz_stream_id_of(71);
    IS(MRZ_NOT_REFUSED, quarter.refusal);
    IS(71, quarter.quarter);
    quarter = mrz_quarter_of(285);
    IS(MRZ_REFUSAL_NOT_A_REQUEST_STREAM, quarter.refusal);
    IS(0, quarter.quarter);
    IS(0, id.too_large);
    IS(284, id.stream_id);
    id = mrz_stream_id_of(MRZ_UNKNOWN_STREAMS - 1);
    IS(0, id.too_large);
    IS(LARGEST - 3, id.stream_id);
    id = mrz_stream_id_of(MRZ_UNKNOWN_STREAMS);
    IS(1, id.too_large);
    IS(0, id.stream_id);
}

/* ---- judging */

static mrz_stream judged_by[PLACES];

static mrz_judged judge(uint64_t stream_limit, uint64_t datagram_limit, const uint8_t *frame, size_t length) {
    mrz_limits limits;
    limits.stream_limit = stream_limit;
    limits.datagram_limit = datagram_limit;
    return mrz_judge(judged_by, PLACES, limits, frame, length);
}

static void judged_is(int line, uint64_t refusal, uint64_t rule, uint64_t quarter, uint64_t place, uint64_t start,
                      uint64_t length, uint64_t error, mrz_judged judged) {
    SAME(judged, refusal);
    SAME(judged, rule);
    SAME(judged, quarter);
    SAME(judged, place);
    SAME(judged, start);
    SAME(judged, length);
    SAME(judged, error);
}

#define JUDGED(refusal, rule, quarter, place, start, length, error, judged) \
    judged_is(__LINE__, refusal, rule, quarter, place, start, length, error, judged)

static void judging(void) {
    mrz_limits limits;
    fill(judged_by);
    mrz_stream_close(judged_by, PLACES, 280, MRZ_SIDE_RECEIVE);
    JUDGED(MRZ_NOT_REFUSED, MRZ_RULE_SHORT_FRAME, 0, 0, 0, 0, MRZ_ERROR_SHORT_FRAME, judge(100, 3, BYTES("\x40")));
    JUDGED(MRZ_NOT_REFUSED, MRZ_RULE_QUARTER_TOO_LARGE, MRZ_UNKNOWN_STREAMS, 0, 0, 0, MRZ_ERROR_QUARTER_TOO_LARGE,
           judge(100, 3, BYTES("\xd0\0\0\0\0\0\0\0")));
    JUDGED(MRZ_NOT_REFUSED, MRZ_RULE_BEYOND_LIMIT, 100, 0, 0, 0, MRZ_ERROR_BEYOND_LIMIT,
           judge(100, 3, BYTES("\x40\x64" "abc")));
    JUDGED(MRZ_NOT_REFUSED, MRZ_RULE_NO_STREAM, 99, 0, 0, 0, MRZ_NO_ERROR, judge(100, 3, BYTES("\x40\x63" "abc")));
    JUDGED(MRZ_NOT_REFUSED, MRZ_RULE_RECEIVE_CLOSED, 70, 3, 0, 0, MRZ_NO_ERROR,
           judge(100, 3, BYTES("\x40\x46" "abc")));
    JUDGED(MRZ_NOT_REFUSED, MRZ_RULE_NO_SEMANTICS, 72, 5, 0, 0, MRZ_ERROR_NO_SEMANTICS,
           judge(100, 3, BYTES("\x40\x48" "abc")));
    JUDGED(MRZ_NOT_REFUSED, MRZ_RULE_TOO_LONG, 73, 6, 0, 0, MRZ_NO_ERROR, judge(100, 3, BYTES("\x40\x49" "abcd")));
    JUDGED(MRZ_NOT_REFUSED, MRZ_RULE_DELIVERED, 73, 6, 2, 3, MRZ_NO_ERROR, judge(100, 3, BYTES("\x40\x49" "abc")));
    JUDGED(MRZ_NOT_REFUSED, MRZ_RULE_DELIVERED, 73, 6, 4, 5, MRZ_NO_ERROR,
           judge(MRZ_UNKNOWN_STREAMS, MRZ_LARGEST_DATAGRAM_LIMIT, BYTES("\x80\0\0\x49" "abcde")));
    JUDGED(MRZ_REFUSAL_LIMIT_TOO_LARGE, MRZ_RULE_NONE, 0, 0, 0, 0, MRZ_NO_ERROR,
           judge(100, MRZ_LARGEST_DATAGRAM_LIMIT + 1, BYTES("\x40\x49" "abc")));
    JUDGED(MRZ_REFUSAL_NUMBER_TOO_LARGE, MRZ_RULE_NONE, 0, 0, 0, 0, MRZ_NO_ERROR,
           judge(MRZ_UNKNOWN_STREAMS + 1, 3, BYTES("\x40\x49" "abc")));
    judged_by[2].flags = MRZ_STREAM_USED;
    JUDGED(MRZ_REFUSAL_BAD_TABLE, MRZ_RULE_NONE, 0, 0, 0, 0, MRZ_NO_ERROR, judge(100, 3, BYTES("\x40\x49" "abc")));

    /* one record in the host's own stream, and no table for a stream that is unknown */
    fill(judged_by);
    limits.stream_limit = 100;
    limits.datagram_limit = 3;
    JUDGED(MRZ_NOT_REFUSED, MRZ_RULE_DELIVERED, 73, 0, 2, 3, MRZ_NO_ERROR,
           mrz_judge(&judged_by[6], 1, limits, BYTES("\x40\x49" "abc")));
    JUDGED(MRZ_NOT_REFUSED, MRZ_RULE_NO_STREAM, 73, 0, 0, 0, MRZ_NO_ERROR,
           mrz_judge(NULL, 0, limits, BYTES("\x40\x49" "abc")));
}

/* ---- capsules and frames */

static mrz_stream written_by[PLACES];

static mrz_frame_terms terms_of(uint64_t our_setting, uint64_t peer_setting, uint64_t path_size) {
    mrz_frame_terms terms;
    terms.our_setting = our_setting;
    terms.peer_setting = peer_setting;
    terms.path_size = path_size;
    return terms;
}

static mrz_written write_capsule(uint64_t stream_id, size_t length, uint64_t place) {
    static const uint8_t payload[65536] = {'a', 'b', 'c'};
    return mrz_write_capsule(written_by, PLACES, stream_id, payload, length, out, 40, place);
}

static mrz_written write_frame(uint64_t stream_id, mrz_frame_terms terms, size_t length, uint64_t place) {
    static const uint8_t payload[65536] = {'a', 'b', 'c'};
    return mrz_write_frame(written_by, PLACES, stream_id, terms, payload, length, out, 40, place);
}

static mrz_written write_frame_header(uint64_t stream_id, mrz_frame_terms terms, size_t length, uint64_t place) {
    return mrz_write_frame_header(written_by, PLACES, stream_id, terms, length, out, 40, place);
}

/* What is refused for a frame and for its header alike. */
static void frames_refused(const char *name, mrz_written (*write)(uint64_t, mrz_frame_terms, size_t, uint64_t)) {
    const mrz_frame_terms good = terms_of(1, 1, 5);
    const int before = failures;
    NOT_WRITTEN(MRZ_REFUSAL_NOT_A_REQUEST_STREAM, write(285, good, 3, 4));
    NOT_WRITTEN(MRZ_REFUSAL_NOT_IN_TABLE, write(300, good, 3, 4));
    NOT_WRITTEN(MRZ_REFUSAL_FRAMES_NOT_AGREED, write(284, terms_of(0, 1, 5), 3, 4));
    NOT_WRITTEN(MRZ_REFUSAL_FRAMES_NOT_AGREED, write(284, terms_of(1, 0, 5), 3, 4));
    NOT_WRITTEN(MRZ_REFUSAL_SEND_SIDE_CLOSED, write(280, good, 3, 4));
    NOT_WRITTEN(MRZ_REFUSAL_NO_SEMANTICS, write(288, good, 3, 4));
    NOT_WRITTEN(MRZ_REFUSAL_NUMBER_TOO_LARGE, write(284, good, 65536, 4));
    NOT_WRITTEN(MRZ_REFUSAL_FRAME_TOO_LONG, write(284, terms_of(1, 1, 4), 3, 4));
    if (failures > before) {
        printf("these of %s\n", name);
    }
}

static void writers(void) {
    const mrz_frame_terms good = terms_of(1, 1, 5);
    const mrz_stream last = {MRZ_UNKNOWN_STREAMS - 1, BOTH_OPEN | MRZ_STREAM_SEMANTICS};
    static const uint8_t payload[65536] = {'a', 'b', 'c'};
    fill(written_by);
    mrz_stream_close(written_by, PLACES, 280, MRZ_SIDE_SEND);
    clear();

    WROTE(write_capsule(284, 3, 4), 4, "\0\x03" "abc");
    NOT_WRITTEN(MRZ_REFUSAL_NOT_A_REQUEST_STREAM, write_capsule(285, 3, 4));
    NOT_WRITTEN(MRZ_REFUSAL_NOT_IN_TABLE, write_capsule(300, 3, 4));
    NOT_WRITTEN(MRZ_REFUSAL_SEND_SIDE_CLOSED, write_capsule(280, 3, 4));
    NOT_WRITTEN(MRZ_REFUSAL_NO_SEMANTICS, write_capsule(288, 3, 4));
    NOT_WRITTEN(MRZ_REFUSAL_NUMBER_TOO_LARGE, write_capsule(284, 65536, 4));
    NOT_WRITTEN(MRZ_REFUSAL_OUTPUT_TOO_SHORT, write_capsule(284, 3, 36));

    WROTE(write_frame(284, good, 3, 4), 4, "\x40\x47" "abc");
    frames_refused("mrz_write_frame", write_frame);
    NOT_WRITTEN(MRZ_REFUSAL_OUTPUT_TOO_SHORT, write_frame(284, good, 3, 36));

    WROTE(write_frame_header(284, good, 3, 4), 4, "\x40\x47");
    WROTE(mrz_write_frame_header(&last, 1, LARGEST - 3, terms_of(1, 1, 100), 92, out, MRZ_LONGEST_FRAME_HEADER, 0), 0,
          "\xcf\xff\xff\xff\xff\xff\xff\xff");
    frames_refused("mrz_write_frame_header", write_frame_header);
    NOT_WRITTEN(MRZ_REFUSAL_OUTPUT_TOO_SHORT, write_frame_header(284, good, 3, 39));

    WROTE(mrz_write_datagram(payload, 3, out, 40, 6), 6, "\0\x03" "abc");
    NOT_WRITTEN(MRZ_REFUSAL_NUMBER_TOO_LARGE, mrz_write_datagram(payload, 65536, out, 40, 41));
    NOT_WRITTEN(MRZ_REFUSAL_OUTPUT_TOO_SHORT, mrz_write_datagram(payload, 3, out, 40, 36));
    WROTE(mrz_write_datagram_header(3, out, 40, 6), 6, "\0\x03");
    WROTE(mrz_write_datagram_header(65535, out, MRZ_LONGEST_CAPSULE_HEADER, 0), 0, "\0\x80\0\xff\xff");
    NOT_WRITTEN(MRZ_REFUSAL_NUMBER_TOO_LARGE, mrz_write_datagram_header(65536, out, 40, 41));
    NOT_WRITTEN(MRZ_REFUSAL_OUTPUT_TOO_SHORT, mrz_write_datagram_header(3, out, 40, 39));
    /* a byte less is too few for the longest of each */
    NOT_WRITTEN(MRZ_REFUSAL_OUTPUT_TOO_SHORT,
                mrz_write_datagram_header(65535, out, MRZ_LONGEST_CAPSULE_HEADER - 1, 0));
    NOT_WRITTEN(MRZ_REFUSAL_OUTPUT_TOO_SHORT,
                mrz_write_frame_header(&last, 1, LARGEST - 3, terms_of(1, 1, 100), 92, out,
                                       MRZ_LONGEST_FRAME_HEADER - 1, 0));

    written_by[2].flags = MRZ_STREAM_USED;
    NOT_WRITTEN(MRZ_REFUSAL_BAD_TABLE, write_capsule(284, 3, 4));
    NOT_WRITTEN(MRZ_REFUSAL_BAD_TABLE, write_frame(284, good, 3, 4));
    NOT_WRITTEN(MRZ_REFUSAL_BAD_TABLE, write_frame_header(284, good, 3, 4));
}

/* ---- address capsules */

#define FIRST_VALUE "\x41\x2c\x06\x20\x01\x0d\xb8\0\0\0\0\0\0\0\0\0\0\0\0\x1d"
#define SECOND_VALUE "\x09\x04\x0a\x0b\x0c\x0d\x20"
#define ROUTE_VALUE "\x04\x0a\x01\x02\x03\x0a\x04\x05\x06\x11"

static void address_found(int line, uint64_t next, uint64_t request_id, uint8_t ip_version, uint8_t prefix_length,
                          const char *ip, mrz_address_found found) {
    static const uint8_t zeros[6] = {0};
    compare(line, "found.found", MRZ_ENTRY_FOUND, found.found);
    SAME(found, next);
    SAME(found.address, request_id);
    SAME(found.address, ip_version);
    SAME(found.address, prefix_length);
    compare(line, "found.address.address", 0, memcmp(found.address.address, ip, 16) != 0);
    compare(line, "found.address.reserved", 0, memcmp(found.address.reserved, zeros, 6) != 0);
}

#define ADDRESS_FOUND(next, request_id, ip_version, prefix_length, ip, found) \
    address_found(__LINE__, next, request_id, ip_version, prefix_length, ip, found)

static void entries(void) {
    mrz_address_found address;
    mrz_route_found route;
    IS(1, mrz_address_value_good(MRZ_TYPE_ADDRESS_ASSIGN, BYTES(FIRST_VALUE)));
    IS(1, mrz_address_value_good(MRZ_TYPE_ADDRESS_REQUEST, BYTES(FIRST_VALUE)));
    IS(0, mrz_address_value_good(MRZ_TYPE_ROUTE_ADVERTISEMENT, BYTES(FIRST_VALUE)));
    IS(1, mrz_address_value_good(MRZ_TYPE_ADDRESS_ASSIGN, BYTES("\0\x04\x0a\0\0\x01\x20")));
    IS(0, mrz_address_value_good(MRZ_TYPE_ADDRESS_REQUEST, BYTES("\0\x04\x0a\0\0\x01\x20")));
    IS(0, mrz_address_value_good(MRZ_TYPE_ADDRESS_ASSIGN, BYTES(ROUTE_VALUE)));
    IS(0, mrz_address_value_good(MRZ_TYPE_ADDRESS_REQUEST, BYTES(ROUTE_VALUE)));
    IS(1, mrz_address_value_good(MRZ_TYPE_ROUTE_ADVERTISEMENT, BYTES(ROUTE_VALUE)));

    ADDRESS_FOUND(20, 300, 6, 29, "\x20\x01\x0d\xb8\0\0\0\0\0\0\0\0\0\0\0\0",
                  mrz_address_next(BYTES(FIRST_VALUE SECOND_VALUE), 0));
    ADDRESS_FOUND(27, 9, 4, 32, "\x0a\x0b\x0c\x0d\0\0\0\0\0\0\0\0\0\0\0\0",
                  mrz_address_next(BYTES(FIRST_VALUE SECOND_VALUE), 20));
    address = mrz_address_next(BYTES(SECOND_VALUE), 7);
    IS(MRZ_ENTRY_NONE, address.found);
    IS(7, address.next);
    IS(0, address.address.request_id);
    address = mrz_address_next(BYTES(SECOND_VALUE), 5);
    IS(MRZ_ENTRY_MALFORMED, address.found);
    IS(5, address.next);
    IS(0, address.address.request_id);

    route = mrz_route_next(BYTES(ROUTE_VALUE), 0);
    IS(MRZ_ENTRY_FOUND, route.found);
    IS(10, route.next);
    IS(4, route.route.ip_version);
    IS(17, route.route.ip_protocol);
    IS(0, memcmp(route.route.start, "\x0a\x01\x02\x03\0\0\0\0\0\0\0\0\0\0\0\0", 16) != 0);
    IS(0, memcmp(route.route.end, "\x0a\x04\x05\x06\0\0\0\0\0\0\0\0\0\0\0\0", 16) != 0);
    route = mrz_route_next(BYTES(ROUTE_VALUE), 10);
    IS(MRZ_ENTRY_NONE, route.found);
    IS(10, route.next);
    route = mrz_route_next(BYTES(ROUTE_VALUE), 3);
    IS(MRZ_ENTRY_MALFORMED, route.found);
    IS(3, route.next);
    IS(0, route.route.ip_version);
}

static void address_writers(void) {
    mrz_address two[2];
    mrz_route routes[2];
    memset(two, 0, sizeof two);
    two[0].request_id = 300;
    two[0].ip_version = 4;
    two[0].prefix_length = 24;
    memcpy(two[0].address, "\x0a\x0b\x0c\0", 4);
    two[1].request_id = 9;
    two[1].ip_version = 4;
    two[1].prefix_length = 32;
    memcpy(two[1].address, "\x0d\x0e\x0f\x10", 4);
    memset(two[1].reserved, 0x77, sizeof two[1].reserved);
    clear();
    WROTE(mrz_write_address_assign(MRZ_ENTRIES(two, 2), out, 40, 5), 5,
          "\x01\x0f\x41\x2c\x04\x0a\x0b\x0c\0\x18\x09\x04\x0d\x0e\x0f\x10\x20");
    WROTE(mrz_write_address_request(MRZ_ENTRIES(two, 1), out, 40, 5), 5, "\x02\x08\x41\x2c\x04\x0a\x0b\x0c\0\x18");
    NOT_WRITTEN(MRZ_REFUSAL_OUTPUT_TOO_SHORT, mrz_write_address_assign(MRZ_ENTRIES(two, 2), out, 40, 24));
    NOT_WRITTEN(MRZ_REFUSAL_OUTPUT_TOO_SHORT, mrz_write_address_request(MRZ_ENTRIES(two, 2), out, 40, 24));
    NOT_WRITTEN(MRZ_REFUSAL_MALFORMED_TO_WRITE, mrz_write_address_assign(two, sizeof two - 1, out, 40, 5));
    two[0].ip_version = 24;
    two[0].prefix_length = 4;
    NOT_WRITTEN(MRZ_REFUSAL_MALFORMED_TO_WRITE, mrz_write_address_assign(MRZ_ENTRIES(two, 2), out, 40, 5));
    NOT_WRITTEN(MRZ_REFUSAL_MALFORMED_TO_WRITE, mrz_write_address_request(MRZ_ENTRIES(two, 2), out, 40, 5));
    two[1].request_id = LARGEST + 1;
    NOT_WRITTEN(MRZ_REFUSAL_NUMBER_TOO_LARGE, mrz_write_address_assign(MRZ_ENTRIES(two, 2), out, 40, 5));
    NOT_WRITTEN(MRZ_REFUSAL_NUMBER_TOO_LARGE, mrz_write_address_request(MRZ_ENTRIES(two, 2), out, 40, 5));

    memset(routes, 0, sizeof routes);
    routes[0].ip_version = 4;
    routes[0].ip_protocol = 6;
    memcpy(routes[0].start, "\x0a\x01\x02\x03", 4);
    memcpy(routes[0].end, "\x0a\x04\x05\x06", 4);
    routes[1] = routes[0];
    routes[1].ip_protocol = 17;
    WROTE(mrz_write_route_advertisement(MRZ_ENTRIES(routes, 2), out, 40, 5), 5,
          "\x03\x14\x04\x0a\x01\x02\x03\x0a\x04\x05\x06\x06\x04\x0a\x01\x02\x03\x0a\x04\x05\x06\x11");
    NOT_WRITTEN(MRZ_REFUSAL_OUTPUT_TOO_SHORT, mrz_write_route_advertisement(MRZ_ENTRIES(routes, 2), out, 40, 19));
    routes[1].ip_protocol = 5;
    NOT_WRITTEN(MRZ_REFUSAL_MALFORMED_TO_WRITE, mrz_write_route_advertisement(MRZ_ENTRIES(routes, 2), out, 40, 5));
}

/* ---- settings, messages, errors */

static void messages(void) {
    IS(MRZ_NO_ERROR, mrz_setting_error(1, 0));
    IS(MRZ_ERROR_BAD_SETTING, mrz_setting_error(0, 1));
    IS(MRZ_ERROR_BAD_SETTING, mrz_setting_error(2, 1));

    IS(0, mrz_request_malformed(0, 0, 0));
    IS(1, mrz_request_malformed(2, 0, 0));
    IS(1, mrz_request_malformed(0, 3, 0));
    IS(1, mrz_request_malformed(0, 0, 4));
    IS(0, mrz_response_malformed(200, 0, 0, 0));
    IS(1, mrz_response_malformed(204, 0, 0, 0));
    IS(1, mrz_response_malformed(205, 0, 0, 0));
    IS(1, mrz_response_malformed(206, 0, 0, 0));
    IS(1, mrz_response_malformed(200, 2, 0, 0));
    IS(1, mrz_response_malformed(200, 0, 3, 0));
    IS(1, mrz_response_malformed(200, 0, 0, 4));

    IS(1, mrz_field_counts(0, 404));
    IS(0, mrz_field_counts(1, 404));
    IS(1, mrz_field_counts(1, 101));
    IS(1, mrz_field_counts(1, 200));
    IS(1, mrz_field_counts(1, 299));
    IS(0, mrz_field_counts(1, 300));
}

/* ---- the value of the Capsule-Protocol field */

static void field_is(int line, uint64_t refusal, uint64_t in_use, mrz_field field) {
    SAME(field, refusal);
    SAME(field, in_use);
}

#define FIELD(in_use, text) field_is(__LINE__, MRZ_NOT_REFUSED, in_use, mrz_field_in_use(BYTES(text)))

/* A value with spaces behind it, of this length. */
static mrz_field padded(const char *text, size_t length) {
    static uint8_t value[MRZ_LONGEST_FIELD_VALUE + 1];
    memset(value, ' ', sizeof value);
    memcpy(value, text, strlen(text));
    return mrz_field_in_use(value, length);
}

static void field_values(void) {
    FIELD(1, "?1");
    FIELD(1, "  ?1 ");
    FIELD(1, "?1;v=2");
    FIELD(1, "?1;   v");
    FIELD(1, " ?1;v=1; w=2 ");
    FIELD(1, "?1;*a.b-c_d*9");
    FIELD(1, "?1;a=1;a=\"x\"");
    FIELD(1, "?1;v=-0");
    FIELD(1, "?1;v=123456789012345");
    FIELD(1, "?1;v=123456789012.999");
    FIELD(1, "?1;v=\"\\\\\"");
    FIELD(1, "?1;v=::");
    FIELD(1, "?1;v=:=:");
    FIELD(1, "?1;a=?0;b=:Zg:;c=\"x\\\"\";d=*t;e=-1.5");

    FIELD(0, "");
    FIELD(0, "?0");
    FIELD(0, "?1 ;v");
    FIELD(0, "?1;");
    FIELD(0, "?1;v =1");
    FIELD(0, "?1;v=");
    FIELD(0, "?1;V=1");
    FIELD(0, "?1;v=1234567890123456");
    FIELD(0, "?1;v=0000000000000000");
    FIELD(0, "?1;v=1234567890123.9");
    FIELD(0, "?1;v=1.9999");
    FIELD(0, "?1;v=1.");
    FIELD(0, "?1;v=\"\\a\"");
    FIELD(0, "?1;v=:Zg");
    FIELD(0, "?1;v=:-_:");
    FIELD(0, "?1,?1");
    FIELD(0, "?1, ?1");
    FIELD(0, "?1;v=(1)");
    FIELD(0, "?10");
    FIELD(0, "?1\t");
    FIELD(0, "\t?1");
    FIELD(0, "1");
    FIELD(0, "?1;v=@1");
    FIELD(0, "?1;v=%\"x\"");
    FIELD(0, "\x80");
    FIELD(0, "?1;v=\"\x80\"");

    IS(1024, MRZ_LONGEST_FIELD_VALUE);
    field_is(__LINE__, MRZ_NOT_REFUSED, 1, padded("?1", MRZ_LONGEST_FIELD_VALUE));
    field_is(__LINE__, MRZ_NOT_REFUSED, 0, padded("?0", MRZ_LONGEST_FIELD_VALUE));
    field_is(__LINE__, MRZ_REFUSAL_FIELD_TOO_LONG, 0, padded("?1", MRZ_LONGEST_FIELD_VALUE + 1));
    field_is(__LINE__, MRZ_REFUSAL_FIELD_TOO_LONG, 0, padded("?0", MRZ_LONGEST_FIELD_VALUE + 1));
}

static void translated(int line, uint64_t refusal, uint64_t action, uint64_t code, mrz_translation translation) {
    SAME(translation, refusal);
    SAME(translation, action);
    SAME(translation, code);
}

#define TRANSLATED(refusal, action, code, translation) translated(__LINE__, refusal, action, code, translation)

/* An error that arises on HTTP/3 alone. */
static void on_http_3(uint64_t code, uint64_t error) {
    TRANSLATED(MRZ_NOT_REFUSED, MRZ_ACTION_NONE, 0, mrz_translate(error, MRZ_VERSION_HTTP_1_1));
    TRANSLATED(MRZ_NOT_REFUSED, MRZ_ACTION_NONE, 0, mrz_translate(error, MRZ_VERSION_HTTP_2));
    TRANSLATED(MRZ_NOT_REFUSED, MRZ_ACTION_CONNECTION_ERROR, code, mrz_translate(error, MRZ_VERSION_HTTP_3));
}

static void on_all(uint64_t code, uint64_t error) {
    TRANSLATED(MRZ_NOT_REFUSED, MRZ_ACTION_CLOSE, 0, mrz_translate(error, MRZ_VERSION_HTTP_1_1));
    TRANSLATED(MRZ_NOT_REFUSED, MRZ_ACTION_STREAM_ERROR, 0x01, mrz_translate(error, MRZ_VERSION_HTTP_2));
    TRANSLATED(MRZ_NOT_REFUSED, MRZ_ACTION_STREAM_ERROR, code, mrz_translate(error, MRZ_VERSION_HTTP_3));
}

static void translation(void) {
    on_all(0x010e, MRZ_ERROR_TRUNCATED);
    on_all(0x33, MRZ_ERROR_NO_SEMANTICS);
    on_http_3(0x33, MRZ_ERROR_SHORT_FRAME);
    on_http_3(0x33, MRZ_ERROR_QUARTER_TOO_LARGE);
    on_http_3(0x0108, MRZ_ERROR_BEYOND_LIMIT);
    on_http_3(0x0109, MRZ_ERROR_BAD_SETTING);
    on_all(0x010e, MRZ_ERROR_MALFORMED);
    TRANSLATED(MRZ_REFUSAL_UNKNOWN_ERROR_OR_VERSION, MRZ_ACTION_NONE, 0, mrz_translate(8, MRZ_VERSION_HTTP_2));
    TRANSLATED(MRZ_REFUSAL_UNKNOWN_ERROR_OR_VERSION, MRZ_ACTION_NONE, 0,
               mrz_translate(MRZ_NO_ERROR, MRZ_VERSION_HTTP_2));
    TRANSLATED(MRZ_REFUSAL_UNKNOWN_ERROR_OR_VERSION, MRZ_ACTION_NONE, 0, mrz_translate(MRZ_ERROR_MALFORMED, 4));
}

int main(void) {
    version();
    names();
    varints();
    opening();
    feeding();
    looking();
    sharing();
    listings();
    table();
    identifiers();
    judging();
    writers();
    entries();
    address_writers();
    messages();
    field_values();
    translation();
    printf("%d values compared, %d differ\n", compared, failures);
    return failures != 0;
}
