/* The starred bench cases on frames and on the writers, under a table of one record. */
#include <inttypes.h>
#include <stdint.h>
#include <stdio.h>
#include <string.h>

#include "maruzhenu.h"

#define BYTES(text) (const uint8_t *)(text), sizeof(text) - 1

static mrz_stream just_opened(uint64_t quarter) {
    mrz_stream stream;
    stream.quarter = quarter;
    stream.flags = MRZ_STREAM_USED | MRZ_STREAM_RECEIVE | MRZ_STREAM_SEND | MRZ_STREAM_SEMANTICS;
    return stream;
}

static void print_hex(const uint8_t *bytes, size_t length) {
    size_t i;
    for (i = 0; i < length; i++) {
        printf("%02x", bytes[i]);
    }
}

/* All that judging answers, with the stream limit unknown and the datagram limit 1,200. */
static void frame(mrz_stream stream, const uint8_t *bytes, size_t length) {
    static const mrz_limits limits = {MRZ_UNKNOWN_STREAMS, 1200};
    const mrz_judged judged = mrz_judge(&stream, 1, limits, bytes, length);
    printf("frame ");
    print_hex(bytes, length);
    printf(": refusal %" PRIu64 ", rule %" PRIu64 ", quarter %" PRIu64 ", place %" PRIu64, judged.refusal, judged.rule,
           judged.quarter, judged.place);
    printf(", start %" PRIu64 ", length %" PRIu64 ", error %" PRIu64 "\n", judged.start, judged.length, judged.error);
}

/* What was written, and the first bytes of the output. */
static void print_written(mrz_written written, const uint8_t *out, size_t length) {
    printf("refusal %" PRIu64 ", written %" PRIu64 ", output ", written.refusal, written.written);
    print_hex(out, length < 8 ? length : 8);
    printf("\n");
}

static void capsule(size_t length) {
    static uint8_t payload[16384], out[16400];
    const mrz_stream stream = just_opened(1);
    memset(payload, 0x55, sizeof payload);
    memset(out, 0xaa, sizeof out);
    printf("capsule, payload of %zu: ", length);
    print_written(mrz_write_capsule(&stream, 1, 4, payload, length, out, sizeof out, 0), out, sizeof out);
}

static void sent(uint64_t stream_id) {
    const mrz_stream stream = just_opened(mrz_quarter_of(stream_id).quarter);
    static const mrz_frame_terms terms = {1, 1, 1200};
    uint8_t out[4];
    memset(out, 0xaa, sizeof out);
    printf("frame, stream %" PRIu64 ": ", stream_id);
    print_written(mrz_write_frame(&stream, 1, stream_id, terms, NULL, 0, out, sizeof out, 0), out, sizeof out);
}

int main(void) {
    static const mrz_stream blank = {0, 0};
    const mrz_stream four = just_opened(1);
    frame(four, BYTES(""));
    frame(four, BYTES("\x40"));
    frame(four, BYTES("\x01"));
    frame(four, BYTES("\x01xyz"));
    frame(four, BYTES("\xd0\x00\x00\x00\x00\x00\x00\x00"));
    frame(blank, BYTES("\xcf\xff\xff\xff\xff\xff\xff\xff"));
    capsule(63);
    capsule(64);
    capsule(16383);
    capsule(16384);
    sent(252);
    sent(256);
    sent(5);
    return 0;
}
