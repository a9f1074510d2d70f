/*
 * A table of 64 streams that is filled, freed and filled again, with frames judged and written under it.
 *
 * Then records with bits that mean nothing: closing a side of a used record keeps them, and a free record that has one
 * makes the table bad. Every refused call leaves the table as it was.
 *
 *     cc -std=c99 full_table.c $(pkg-config --cflags --libs maruzhenu) -o full_table
 */
#include <inttypes.h>
#include <stdint.h>
#include <stdio.h>
#include <stdlib.h>
#include <string.h>

#include "maruzhenu.h"

/* The two arguments of some bytes. */
#define BYTES(text) (const uint8_t *)(text), sizeof(text) - 1

#define ALL_OPEN (MRZ_STREAM_USED | MRZ_STREAM_RECEIVE | MRZ_STREAM_SEND | MRZ_STREAM_SEMANTICS)

/* Bits that mean nothing, the lowest and the highest among them. */
#define STRAY UINT64_C(0x8000abcd00000010)

static void fail(const char *what, uint64_t number) {
    printf("full_table: %s: %" PRIu64 "\n", what, number);
    exit(1);
}

static void print_hex(const uint8_t *bytes, size_t length) {
    size_t i;
    for (i = 0; i < length; i++) {
        printf("%02x", bytes[i]);
    }
}

static void print_record(const mrz_stream *streams, size_t place) {
    printf("record %zu: quarter %" PRIu64 ", flags %" PRIx64 "\n", place, streams[place].quarter,
           streams[place].flags);
}

/* Whether a call was refused, and then says so. */
static int refused(uint64_t refusal) {
    if (refusal != MRZ_NOT_REFUSED) {
        printf("refused %" PRIu64, refusal);
    }
    return refusal != MRZ_NOT_REFUSED;
}

/* A refused call has changed nothing. */
static void check_kept(uint64_t refusal, const mrz_stream *before, const mrz_stream *streams, size_t count) {
    if (refusal != MRZ_NOT_REFUSED && memcmp(before, streams, count * sizeof *streams) != 0) {
        fail("a refused call changed the table", refusal);
    }
}

static void open_stream(mrz_stream *streams, size_t count, uint64_t stream_id, uint64_t semantics) {
    mrz_stream before[MRZ_TABLE_PLACES];
    mrz_opened opened;
    memcpy(before, streams, count * sizeof *streams);
    opened = mrz_stream_open(streams, count, stream_id, semantics);
    check_kept(opened.refusal, before, streams, count);
    printf("open %" PRIu64 ": ", stream_id);
    if (!refused(opened.refusal)) {
        printf("opened at %" PRIu64, opened.place);
    }
    printf("\n");
}

static void close_side(mrz_stream *streams, size_t count, uint64_t stream_id, uint64_t side) {
    mrz_stream before[MRZ_TABLE_PLACES];
    mrz_side_closed closed;
    memcpy(before, streams, count * sizeof *streams);
    closed = mrz_stream_close(streams, count, stream_id, side);
    check_kept(closed.refusal, before, streams, count);
    printf("close %s %" PRIu64 ": ", side == MRZ_SIDE_RECEIVE ? "receive" : "send", stream_id);
    if (!refused(closed.refusal)) {
        printf("closed at %" PRIu64 "%s", closed.place, closed.freed ? ", freed" : "");
    }
    printf("\n");
}

static void find(const mrz_stream *streams, size_t count, uint64_t stream_id) {
    const mrz_found found = mrz_stream_find(streams, count, stream_id);
    printf("find %" PRIu64 ": ", stream_id);
    if (!refused(found.refusal)) {
        printf("at %" PRIu64, found.place);
    }
    printf("\n");
}

static void receive(const mrz_stream *streams, size_t count, uint64_t stream_limit, uint64_t datagram_limit,
                    const uint8_t *frame, size_t length) {
    static const char *const rules[] = {"",       "short frame",  "quarter too large", "beyond limit", "no stream",
                                        "closed", "stream abort", "too long",          "delivered"};
    mrz_limits limits;
    mrz_judged judged;
    limits.stream_limit = stream_limit;
    limits.datagram_limit = datagram_limit;
    judged = mrz_judge(streams, count, limits, frame, length);
    printf("frame ");
    print_hex(frame, length);
    printf(", limit %" PRIu64 ": ", datagram_limit);
    if (!refused(judged.refusal)) {
        printf("%s", rules[judged.rule]);
        if (judged.rule >= MRZ_RULE_QUARTER_TOO_LARGE) {
            printf(", quarter %" PRIu64, judged.quarter);
        }
        if (judged.rule >= MRZ_RULE_RECEIVE_CLOSED) {
            printf(" at %" PRIu64, judged.place);
        }
        if (judged.rule == MRZ_RULE_DELIVERED) {
            printf(", payload ");
            print_hex(frame + judged.start, (size_t)judged.length);
        }
        if (judged.error != MRZ_NO_ERROR) {
            printf(", error %" PRIu64, judged.error);
        }
    }
    printf("\n");
}

static void print_written(mrz_written written, const uint8_t *out, size_t length) {
    if (!refused(written.refusal)) {
        printf("wrote %" PRIu64, written.written);
    }
    printf(", output ");
    print_hex(out, length);
    printf("\n");
}

/* A payload as a capsule and as a frame, at place 1 of an output. */
static void write_both(const mrz_stream *streams, size_t count, uint64_t stream_id, const uint8_t *payload,
                       size_t length) {
    static const mrz_frame_terms terms = {1, 1, 8};
    uint8_t out[8];
    memset(out, 0xee, sizeof out);
    printf("capsule on %" PRIu64 ": ", stream_id);
    print_written(mrz_write_capsule(streams, count, stream_id, payload, length, out, sizeof out, 1), out, sizeof out);
    memset(out, 0xee, sizeof out);
    printf("frame on %" PRIu64 ": ", stream_id);
    print_written(mrz_write_frame(streams, count, stream_id, terms, payload, length, out, sizeof out, 1), out,
                  sizeof out);
}

/* Streams 0, 4, .., 252; every other one has semantics for datagrams. */
static void fill(mrz_stream *streams) {
    uint64_t i;
    for (i = 0; i < MRZ_TABLE_PLACES; i++) {
        const uint64_t stream_id = mrz_stream_id_of(i).stream_id;
        const mrz_opened opened = mrz_stream_open(streams, MRZ_TABLE_PLACES, stream_id, i % 2);
        if (opened.refusal != MRZ_NOT_REFUSED || opened.place != i) {
            fail("a stream was not opened at the lowest free place", stream_id);
        }
    }
    printf("open 0, 4, .., 252: opened at 0, 1, .., 63\n");
    print_record(streams, 62);
    print_record(streams, 63);
}

static void full(void) {
    static mrz_stream streams[MRZ_TABLE_PLACES]; /* all zero: every place is free */
    const size_t count = MRZ_TABLE_PLACES;
    const uint64_t any = MRZ_UNKNOWN_STREAMS;
    receive(streams, count, any, 1200, BYTES("\x01" "a"));
    fill(streams);
    open_stream(streams, count, 256, 1);
    open_stream(streams, count, 252, 1);
    open_stream(streams, count, 5, 1);
    find(streams, count, 252);
    find(streams, count, 256);
    find(streams, count, 5);
    receive(streams, count, any, 1200, BYTES("\x01" "abc"));
    receive(streams, count, any, 3, BYTES("\x40\x01" "abc"));
    receive(streams, count, any, 2, BYTES("\x40\x01" "abc"));
    receive(streams, count, any, 1200, BYTES("\x02" "a"));
    receive(streams, count, any, 1200, BYTES("\x40\x40" "a"));
    receive(streams, count, 64, 1200, BYTES("\x40\x40" "a"));
    receive(streams, count, any, 1200, BYTES("\x40"));
    receive(streams, count, any, 65536, BYTES(""));
    receive(streams, count, any + 1, 1200, BYTES(""));
    write_both(streams, count, 252, BYTES("ab"));
    write_both(streams, count, 248, BYTES("ab"));
    write_both(streams, count, 256, BYTES("ab"));

    close_side(streams, count, 28, MRZ_SIDE_RECEIVE);
    close_side(streams, count, 28, MRZ_SIDE_RECEIVE);
    print_record(streams, 7);
    open_stream(streams, count, 256, 1);
    receive(streams, count, any, 1200, BYTES("\x07" "a"));
    write_both(streams, count, 28, BYTES("a"));
    close_side(streams, count, 252, MRZ_SIDE_SEND);
    write_both(streams, count, 252, BYTES("a"));
    receive(streams, count, any, 1200, BYTES("\x3f" "a"));
    close_side(streams, count, 28, MRZ_SIDE_SEND);
    print_record(streams, 7);
    close_side(streams, count, 28, MRZ_SIDE_SEND);
    find(streams, count, 28);
    open_stream(streams, count, 256, 1);
    receive(streams, count, any, 1200, BYTES("\x40\x40" "a"));
}

static void bits_that_mean_nothing(void) {
    mrz_stream streams[] = {{7, ALL_OPEN | STRAY},
                            {0, 0},
                            {9, MRZ_STREAM_USED | MRZ_STREAM_SEND | STRAY},
                            {11, MRZ_STREAM_USED | MRZ_STREAM_RECEIVE | STRAY}};
    const size_t count = sizeof streams / sizeof streams[0];
    const uint64_t any = MRZ_UNKNOWN_STREAMS;
    receive(streams, count, any, 1200, BYTES("\x07" "a"));
    receive(streams, count, any, 1200, BYTES("\x09" "a"));
    receive(streams, count, any, 1200, BYTES("\x0b" "a"));
    print_record(streams, 0);
    close_side(streams, count, 28, MRZ_SIDE_SEND);
    print_record(streams, 0);
    close_side(streams, count, 28, MRZ_SIDE_SEND);
    print_record(streams, 0);
    open_stream(streams, count, 4, 0);
    print_record(streams, 1);
    print_record(streams, 2);
    close_side(streams, count, 36, MRZ_SIDE_RECEIVE);
    print_record(streams, 2);
    close_side(streams, count, 36, MRZ_SIDE_SEND);
    print_record(streams, 2);
    print_record(streams, 3);
    close_side(streams, count, 44, MRZ_SIDE_RECEIVE);
    print_record(streams, 3);
}

/* Every call on a bad table is refused for that, whatever else is wrong. */
static void bad(const char *why, const mrz_stream *streams, size_t count) {
    static const mrz_limits limits = {MRZ_UNKNOWN_STREAMS, 65536};
    static const mrz_frame_terms terms = {0, 0, 0};
    mrz_stream table[MRZ_TABLE_PLACES + 1];
    uint8_t out[8] = {0};
    memcpy(table, streams, count * sizeof *table);
    printf("%s: open %" PRIu64, why, mrz_stream_open(table, count, 5, 1).refusal);
    printf(", close %" PRIu64, mrz_stream_close(table, count, 5, MRZ_SIDE_SEND).refusal);
    printf(", find %" PRIu64, mrz_stream_find(table, count, 5).refusal);
    printf(", judge %" PRIu64, mrz_judge(table, count, limits, NULL, 0).refusal);
    printf(", capsule %" PRIu64, mrz_write_capsule(table, count, 5, NULL, 0, out, 8, 9).refusal);
    printf(", frame %" PRIu64, mrz_write_frame(table, count, 5, terms, NULL, 0, out, 8, 9).refusal);
    printf(", header %" PRIu64 "\n", mrz_write_frame_header(table, count, 5, terms, 0, out, 8, 9).refusal);
    check_kept(MRZ_REFUSAL_BAD_TABLE, streams, table, count);
}

int main(void) {
    static const mrz_stream stray_bit[2] = {{1, ALL_OPEN}, {0, 16}};
    static const mrz_stream highest_bit[1] = {{0, UINT64_C(1) << 63}};
    static const mrz_stream quarter[1] = {{1, 0}};
    static const mrz_stream both_closed[1] = {{1, MRZ_STREAM_USED | MRZ_STREAM_SEMANTICS}};
    static const mrz_stream too_large[1] = {{MRZ_UNKNOWN_STREAMS, ALL_OPEN}};
    static const mrz_stream twice[3] = {{1, ALL_OPEN}, {0, 0}, {1, ALL_OPEN | STRAY}};
    static const mrz_stream too_many[MRZ_TABLE_PLACES + 1] = {{0, 0}};
    full();
    bits_that_mean_nothing();
    bad("free with a stray bit", stray_bit, 2);
    bad("free with the highest bit", highest_bit, 1);
    bad("free with a quarter", quarter, 1);
    bad("both sides closed", both_closed, 1);
    bad("quarter too large", too_large, 1);
    bad("a quarter twice", twice, 3);
    bad("65 records", too_many, MRZ_TABLE_PLACES + 1);
    return 0;
}
