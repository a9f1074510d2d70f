/*
 * Proxied IP (RFC 9484): a client asks for an address, the proxy assigns one and tells a route.
 *
 * Both sides are readers that take address capsules, fed in pieces of one to three bytes. In the end the proxy sends a
 * capsule with bits beyond its prefix: the client is told so at its last byte, and what to do about it on HTTP/2 and
 * HTTP/3, and its reader is finished.
 *
 *     cc -std=c99 addresses.c $(pkg-config --cflags --libs maruzhenu) -o addresses
 */
#include <inttypes.h>
#include <stdint.h>
#include <stdio.h>
#include <stdlib.h>
#include <string.h>

#include "maruzhenu.h"

static void fail(const char *what, uint64_t number) {
    printf("addresses: %s: %" PRIu64 "\n", what, number);
    exit(1);
}

/* The capsules on the way to one side. */
struct stream {
    uint8_t bytes[256];
    size_t length;
};

static void add(struct stream *stream, mrz_written written) {
    if (written.refusal != MRZ_NOT_REFUSED) {
        fail("writing a capsule was refused", written.refusal);
    }
    stream->length += (size_t)written.written;
}

/* One side of the tunnel. */
struct side {
    const char *name;
    mrz_reader reader;
    uint8_t addresses[MRZ_LONGEST_ADDRESS_VALUE];
    uint64_t request_id; /* of the last entry that came */
};

static void open_side(struct side *side, const char *name) {
    mrz_opening opening = {0, 0, 0, 0};
    uint64_t refusal;
    memset(side, 0, sizeof *side);
    side->name = name;
    /* no datagrams here: limit 0, so that no gathering buffer is needed */
    opening.role = MRZ_ROLE_ENDPOINT;
    opening.addresses = 1;
    refusal = mrz_reader_open(&side->reader, opening);
    if (refusal != MRZ_NOT_REFUSED) {
        fail("opening a reader was refused", refusal);
    }
}

static void print_ip(uint8_t version, const uint8_t *ip) {
    int i;
    if (version == 4) {
        printf("%d.%d.%d.%d", ip[0], ip[1], ip[2], ip[3]);
    } else {
        for (i = 0; i < 16; i += 2) {
            printf("%s%x", i == 0 ? "" : ":", ip[i] << 8 | ip[i + 1]);
        }
    }
}

/* The address of all zeros asks for any. */
static int is_any(const mrz_address *address) {
    static const uint8_t zeros[16] = {0};
    return memcmp(address->address, zeros, sizeof zeros) == 0;
}

/* The entries of a value that was delivered. */
static void print_entries(struct side *side, uint64_t type, const uint8_t *value, size_t length) {
    uint64_t at = 0;
    if (type == MRZ_TYPE_ROUTE_ADVERTISEMENT) {
        mrz_route_found found;
        while ((found = mrz_route_next(value, length, at)).found == MRZ_ENTRY_FOUND) {
            const mrz_route *route = &found.route;
            printf("%s: a route leads to ", side->name);
            print_ip(route->ip_version, route->start);
            printf(" up to ");
            print_ip(route->ip_version, route->end);
            if (route->ip_protocol == 0) {
                printf(", for all protocols\n");
            } else {
                printf(", for protocol %d\n", route->ip_protocol);
            }
            at = found.next;
        }
    } else {
        mrz_address_found found;
        while ((found = mrz_address_next(value, length, at)).found == MRZ_ENTRY_FOUND) {
            const mrz_address *address = &found.address;
            printf("%s: request %" PRIu64 " %s ", side->name, address->request_id,
                   type == MRZ_TYPE_ADDRESS_REQUEST ? "asks for" : "is given");
            if (type == MRZ_TYPE_ADDRESS_REQUEST && is_any(address)) {
                printf("any IPv%d address", address->ip_version);
            } else {
                print_ip(address->ip_version, address->address);
            }
            printf(", prefix length %d\n", address->prefix_length);
            side->request_id = address->request_id;
            at = found.next;
        }
    }
}

static void print_translation(const struct side *side, const char *http, uint64_t error, uint64_t version) {
    const mrz_translation translation = mrz_translate(error, version);
    if (translation.refusal != MRZ_NOT_REFUSED || translation.action != MRZ_ACTION_STREAM_ERROR) {
        fail("an error that does not end a stream", error);
    }
    printf("%s: on %s the stream is reset with code 0x%04" PRIx64 "\n", side->name, http, translation.code);
}

/* Feeds what is on the way, in pieces of one to three bytes. Answers the last feeding. */
static mrz_fed receive(struct side *side, const struct stream *stream) {
    size_t at = 0, piece;
    mrz_fed fed;
    memset(&fed, 0, sizeof fed);
    while (at < stream->length && fed.report != MRZ_REPORT_MALFORMED) {
        piece = 1 + at % 3;
        if (piece > stream->length - at) {
            piece = stream->length - at;
        }
        fed = mrz_reader_feed(&side->reader, stream->bytes + at, piece, NULL, 0, side->addresses,
                              sizeof side->addresses, NULL, 0);
        if (fed.refusal != MRZ_NOT_REFUSED) {
            fail("feeding was refused", fed.refusal);
        }
        at += (size_t)fed.consumed;
        if (fed.report == MRZ_REPORT_ADDRESS_DELIVERED) {
            print_entries(side, fed.type, side->addresses, (size_t)fed.length);
        } else if (fed.report == MRZ_REPORT_MALFORMED) {
            printf("%s: a capsule of type %" PRIu64 " and length %" PRIu64 " is malformed\n", side->name, fed.type,
                   fed.length);
            print_translation(side, "HTTP/2", fed.error, MRZ_VERSION_HTTP_2);
            print_translation(side, "HTTP/3", fed.error, MRZ_VERSION_HTTP_3);
        } else if (fed.report != MRZ_REPORT_NONE) {
            fail("another report", fed.report);
        }
    }
    return fed;
}

/* The client asks for any IPv4 address. */
static void request(struct stream *stream) {
    mrz_address wanted;
    memset(&wanted, 0, sizeof wanted);
    wanted.request_id = 7;
    wanted.ip_version = 4;
    wanted.prefix_length = 32;
    stream->length = 0;
    add(stream, mrz_write_address_request(MRZ_ENTRIES(&wanted, 1), stream->bytes, sizeof stream->bytes, 0));
}

/* The proxy assigns 203.0.113.5 to the request, and tells an IPv4 route for all protocols and an IPv6 route for UDP. */
static void assign(struct stream *stream, uint64_t request_id) {
    static const uint8_t address[4] = {203, 0, 113, 5};
    static const mrz_route routes[2] = {
        {4, 0, {192, 0, 2, 0}, {192, 0, 2, 255}},
        {6, 17, {0x20, 0x01, 0x0d, 0xb8}, {0x20, 0x01, 0x0d, 0xb8, 0, 0, 0, 0, 0, 0, 0, 0, 0, 0, 0xff, 0xff}},
    };
    mrz_address assigned;
    memset(&assigned, 0, sizeof assigned);
    assigned.request_id = request_id;
    assigned.ip_version = 4;
    assigned.prefix_length = 32;
    memcpy(assigned.address, address, sizeof address);
    stream->length = 0;
    add(stream, mrz_write_address_assign(MRZ_ENTRIES(&assigned, 1), stream->bytes, sizeof stream->bytes, 0));
    add(stream, mrz_write_route_advertisement(MRZ_ENTRIES(routes, 2), stream->bytes, sizeof stream->bytes,
                                              stream->length));
}

/* 10.0.0.1/8: a bit beyond the prefix is set. The writer refuses it, so that its bytes stand here. */
static void assign_malformed(struct stream *stream) {
    static const uint8_t capsule[] = {MRZ_TYPE_ADDRESS_ASSIGN, 7, 0, 4, 10, 0, 0, 1, 8};
    mrz_address wrong;
    mrz_written written;
    memset(&wrong, 0, sizeof wrong);
    wrong.ip_version = 4;
    wrong.prefix_length = 8;
    wrong.address[0] = 10;
    wrong.address[3] = 1;
    written = mrz_write_address_assign(MRZ_ENTRIES(&wrong, 1), stream->bytes, sizeof stream->bytes, 0);
    printf("proxy: writing 10.0.0.1/8 is refused, %" PRIu64 " (%s)\n", written.refusal,
           mrz_refusal_name(written.refusal));
    memcpy(stream->bytes, capsule, sizeof capsule);
    stream->length = sizeof capsule;
}

int main(void) {
    static struct side client, proxy;
    static struct stream stream;
    mrz_fed fed;

    open_side(&client, "client");
    open_side(&proxy, "proxy");

    request(&stream);
    receive(&proxy, &stream);
    assign(&stream, proxy.request_id);
    receive(&client, &stream);

    assign_malformed(&stream);
    fed = receive(&client, &stream);
    if (fed.report != MRZ_REPORT_MALFORMED || fed.error != MRZ_ERROR_MALFORMED) {
        fail("the malformed capsule was not found", fed.report);
    }
    fed = mrz_reader_feed(&client.reader, stream.bytes, 1, NULL, 0, client.addresses, sizeof client.addresses, NULL,
                          0);
    printf("client: the next call is refused, %" PRIu64 " (%s)\n", fed.refusal, mrz_refusal_name(fed.refusal));
    printf("proxy: the stream ends %s\n", mrz_reader_close(&proxy.reader).end == MRZ_END_CLEAN ? "clean" : "truncated");
    return 0;
}
