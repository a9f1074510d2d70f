/*
 * Every buffer of every call, null with length 0 and then a real place with length 0: the answers are the same, and
 * those expected.
 */
#include <stdio.h>
#include <string.h>

#include "maruzhenu.h"

static int failures = 0;

static void expect(const char *what, uint64_t expected, uint64_t found) {
    if (expected != found) {
        printf("%s: %llu expected, %llu found\n", what, (unsigned long long)expected, (unsigned long long)found);
        failures++;
    }
}

/* Where the empty buffers point. */
struct empty {
    uint8_t *bytes, *out;
    mrz_stream *streams;
    mrz_address *addresses;
    mrz_route *routes;
};

static void open_reader(mrz_reader *reader, uint64_t role, uint64_t datagram_limit, uint64_t addresses) {
    mrz_opening opening;
    opening.role = role;
    opening.datagram_limit = datagram_limit;
    opening.draft = 0;
    opening.addresses = addresses;
    expect("open a reader", 0, mrz_reader_open(reader, opening));
}

/* Every buffer empty. */
static mrz_fed feed_nothing(mrz_reader *reader, struct empty at) {
    return mrz_reader_feed(reader, at.bytes, 0, at.bytes, 0, at.bytes, 0, at.out, 0);
}

static void readers(struct empty at) {
    /* between capsules, within a value, and within a header */
    static const uint8_t starts[3][3] = {{0x17, 0, 0}, {0x17, 5, 0x61}, {0x40, 0, 0}};
    static const size_t lengths[3] = {2, 3, 1};
    mrz_reader reader, before;
    uint8_t addresses[MRZ_LONGEST_ADDRESS_VALUE];
    mrz_fed fed;
    int i;
    for (i = 0; i < 3; i++) {
        open_reader(&reader, MRZ_ROLE_ENDPOINT, 0, 0);
        fed = mrz_reader_feed(&reader, starts[i], lengths[i], at.bytes, 0, at.bytes, 0, at.out, 0);
        expect("feed", 0, fed.refusal);
        expect("feed", lengths[i], fed.consumed);
        before = reader;
        fed = feed_nothing(&reader, at);
        expect("feed nothing", 0, fed.refusal | fed.consumed | fed.written | fed.report);
        expect("reader kept", 0, (uint64_t)(memcmp(&before, &reader, sizeof reader) != 0));
    }
    /* an intermediary that opted in does not look at the address buffer */
    open_reader(&reader, MRZ_ROLE_INTERMEDIARY, 0, 1);
    expect("no output", MRZ_REFUSAL_OUTPUT_TOO_SHORT, feed_nothing(&reader, at).refusal);
    open_reader(&reader, MRZ_ROLE_ENDPOINT, 1, 1);
    expect("no gathering buffer", MRZ_REFUSAL_GATHERING_TOO_SHORT, feed_nothing(&reader, at).refusal);
    open_reader(&reader, MRZ_ROLE_ENDPOINT, 0, 1);
    expect("no address buffer", MRZ_REFUSAL_ADDRESSES_TOO_SHORT, feed_nothing(&reader, at).refusal);
    fed = mrz_reader_feed(&reader, at.bytes, 0, at.bytes, 0, addresses, sizeof addresses, at.out, 0);
    expect("feed nothing for addresses", 0, fed.refusal);
}

static void tables(struct empty at) {
    static const mrz_limits limits = {MRZ_UNKNOWN_STREAMS, 0};
    static const mrz_frame_terms terms = {1, 1, 9};
    static const uint8_t frame[] = {1};
    mrz_stream *none = at.streams;
    mrz_stream one = {1, MRZ_STREAM_USED | MRZ_STREAM_RECEIVE | MRZ_STREAM_SEND | MRZ_STREAM_SEMANTICS};
    uint8_t out[2] = {9, 9};

    expect("open a stream", MRZ_REFUSAL_NO_FREE_PLACE, mrz_stream_open(none, 0, 4, 1).refusal);
    expect("close a stream", MRZ_REFUSAL_NOT_IN_TABLE, mrz_stream_close(none, 0, 4, 0).refusal);
    expect("find a stream", MRZ_REFUSAL_NOT_IN_TABLE, mrz_stream_find(none, 0, 4).refusal);
    expect("judge by no table", MRZ_RULE_NO_STREAM, mrz_judge(none, 0, limits, frame, 1).rule);
    expect("judge nothing", MRZ_RULE_SHORT_FRAME, mrz_judge(none, 0, limits, at.bytes, 0).rule);

    expect("capsule by no table", MRZ_REFUSAL_NOT_IN_TABLE,
           mrz_write_capsule(none, 0, 4, at.bytes, 0, at.out, 0, 0).refusal);
    expect("frame by no table", MRZ_REFUSAL_NOT_IN_TABLE,
           mrz_write_frame(none, 0, 4, terms, at.bytes, 0, at.out, 0, 0).refusal);
    expect("frame header by no table", MRZ_REFUSAL_NOT_IN_TABLE,
           mrz_write_frame_header(none, 0, 4, terms, 0, at.out, 0, 0).refusal);

    expect("capsule into nothing", MRZ_REFUSAL_OUTPUT_TOO_SHORT,
           mrz_write_capsule(&one, 1, 4, at.bytes, 0, at.out, 0, 0).refusal);
    expect("frame into nothing", MRZ_REFUSAL_OUTPUT_TOO_SHORT,
           mrz_write_frame(&one, 1, 4, terms, at.bytes, 0, at.out, 0, 0).refusal);
    expect("frame header into nothing", MRZ_REFUSAL_OUTPUT_TOO_SHORT,
           mrz_write_frame_header(&one, 1, 4, terms, 0, at.out, 0, 0).refusal);
    expect("datagram into nothing", MRZ_REFUSAL_OUTPUT_TOO_SHORT,
           mrz_write_datagram(at.bytes, 0, at.out, 0, 0).refusal);
    expect("datagram header into nothing", MRZ_REFUSAL_OUTPUT_TOO_SHORT,
           mrz_write_datagram_header(0, at.out, 0, 0).refusal);

    expect("capsule of nothing", 2, mrz_write_capsule(&one, 1, 4, at.bytes, 0, out, 2, 0).written);
    expect("its bytes", 0, (uint64_t)(out[0] | out[1]));
    expect("frame of nothing", 1, mrz_write_frame(&one, 1, 4, terms, at.bytes, 0, out, 2, 0).written);
    expect("its byte", 1, out[0]);
    out[0] = out[1] = 9;
    expect("datagram of nothing", 2, mrz_write_datagram(at.bytes, 0, out, 2, 0).written);
    expect("its bytes", 0, (uint64_t)(out[0] | out[1]));
}

static void entries(struct empty at) {
    uint8_t out[2] = {9, 9};
    const mrz_address_found address = mrz_address_next(at.bytes, 0, 0);
    const mrz_route_found route = mrz_route_next(at.bytes, 0, 0);

    expect("no address is assigned", 1, mrz_address_value_good(MRZ_TYPE_ADDRESS_ASSIGN, at.bytes, 0));
    expect("no address is asked for", 0, mrz_address_value_good(MRZ_TYPE_ADDRESS_REQUEST, at.bytes, 0));
    expect("no route", 1, mrz_address_value_good(MRZ_TYPE_ROUTE_ADVERTISEMENT, at.bytes, 0));
    expect("next address", 0, address.found | address.next);
    expect("next route", 0, route.found | route.next);

    expect("assign into nothing", MRZ_REFUSAL_OUTPUT_TOO_SHORT,
           mrz_write_address_assign(at.addresses, 0, at.out, 0, 0).refusal);
    expect("request of nothing", MRZ_REFUSAL_MALFORMED_TO_WRITE,
           mrz_write_address_request(at.addresses, 0, at.out, 0, 0).refusal);
    expect("routes into nothing", MRZ_REFUSAL_OUTPUT_TOO_SHORT,
           mrz_write_route_advertisement(at.routes, 0, at.out, 0, 0).refusal);
    expect("assign nothing", 2, mrz_write_address_assign(at.addresses, 0, out, 2, 0).written);
    expect("its bytes", 0x0100, (uint64_t)(out[0] << 8 | out[1]));
    expect("no routes", 2, mrz_write_route_advertisement(at.routes, 0, out, 2, 0).written);
    expect("its bytes", 0x0300, (uint64_t)(out[0] << 8 | out[1]));
}

static void calls(const char *where, struct empty at) {
    printf("%s\n", where);
    expect("read", 0, mrz_read_varint(at.bytes, 0).size);
    expect("write", MRZ_REFUSAL_OUTPUT_TOO_SHORT, mrz_write_varint(1, at.out, 0, 0).refusal);
    expect("list", MRZ_END_CLEAN, mrz_list(at.bytes, 0).end);
    expect("field", 0, mrz_field_in_use(at.bytes, 0).refusal);
    expect("field", 0, mrz_field_in_use(at.bytes, 0).in_use);
    readers(at);
    tables(at);
    entries(at);
}

int main(void) {
    static const struct empty null = {NULL, NULL, NULL, NULL, NULL};
    uint8_t bytes[1] = {0xff}, out[1] = {0xff};
    mrz_stream stream;
    mrz_address address;
    mrz_route route;
    struct empty place;
    memset(&stream, 0xff, sizeof stream);
    memset(&address, 0xff, sizeof address);
    memset(&route, 0xff, sizeof route);
    place.bytes = bytes;
    place.out = out;
    place.streams = &stream;
    place.addresses = &address;
    place.routes = &route;

    calls("null", null);
    calls("a place", place);
    expect("bytes kept", 0xff, bytes[0]);
    expect("output kept", 0xff, out[0]);
    expect("record kept", UINT64_MAX, stream.quarter & stream.flags);
    return failures != 0;
}
