/*
 * Maruzhenu: HTTP Datagrams and the Capsule Protocol (RFC 9297), with the address capsules of proxied IP (RFC 9484).
 *
 * Link with libmaruzhenu.a. It uses memcpy, memmove and memset of libc and nothing else. It allocates no memory, keeps
 * no state between calls and calls nothing back.
 *
 * Preconditions. No function has a precondition on the values of its arguments: every number has a meaning (see
 * "Meaning of numbers"), and every call returns an answer. The caller must ensure what C itself requires:
 *   - a pointer is aligned for its type and valid for its length: readable, and writable if it is not const;
 *   - a null pointer with length 0 is an empty buffer; a pointer to a reader is never null;
 *   - memory that a call may write (a reader that is not const, the gathering, addresses and output buffers, out, and
 *     streams if they are not const) overlaps nothing else that is passed to the same call, and no other thread uses it
 *     during the call; const buffers may overlap each other;
 *   - a reader is used by one thread at a time, and so is a table that is changed.
 *
 * Refusals. The answer of a call that can be refused is a struct whose first field is `refusal`; mrz_reader_open
 * returns the refusal itself. 0 means "not refused". Any other number is one of MRZ_REFUSAL_..; then every other field
 * of the answer is 0, and no memory that was passed to the call has changed. "Refusals: 15, 7" at a function lists its
 * refusals in order: if the conditions of several hold, the first in the list is answered.
 *
 * Meaning of numbers. role: 0 is endpoint, any other number intermediary. draft and addresses (of an opening),
 * semantics, content_length, content_type, transfer_encoding and response: 0 is no, any other number yes. side: 0 is
 * receive, any other number send. status: a number above 65,535 is read as 0, which is no status. An answer that is
 * yes or no is 1 or 0.
 *
 * Words. Varint: a variable-length integer (RFC 9000, section 16). Quarter: a quarter stream ID, which is the stream ID
 * divided by 4 (RFC 9297, section 2.1). Place: an index, of a byte in the output or in a value, or of a record in the
 * stream table. x[a .. b) is the bytes x[a] to x[b - 1].
 */
#ifndef MARUZHENU_H
#define MARUZHENU_H

#include <stddef.h>
#include <stdint.h>

#if SIZE_MAX != UINT64_MAX
#error "the library was built for a size_t of 64 bits"
#endif
#if defined(__BYTE_ORDER__) && defined(__ORDER_LITTLE_ENDIAN__) && __BYTE_ORDER__ != __ORDER_LITTLE_ENDIAN__
#error "the library was built for numbers stored least significant byte first, as x86-64 stores them"
#endif

#ifdef __cplusplus
extern "C" {
#endif

/* The version of this header. The pkg-config file has the same one. */
#define MRZ_VERSION_MAJOR 0
#define MRZ_VERSION_MINOR 4
#define MRZ_VERSION_PATCH 0
#define MRZ_VERSION "0.4.0"

/* ---- refusals */

#define MRZ_NOT_REFUSED 0
#define MRZ_REFUSAL_UNMAKEABLE_STATE 1      /* a state that no opening, feeding and closing makes, such as all zeros */
#define MRZ_REFUSAL_FINISHED 2              /* the reader is finished */
#define MRZ_REFUSAL_LIMIT_TOO_LARGE 3       /* datagram limit above 65,535 */
#define MRZ_REFUSAL_GATHERING_TOO_SHORT 4   /* gathering buffer shorter than the datagram limit */
#define MRZ_REFUSAL_OUTPUT_TOO_SHORT 5      /* below piece length + 8 (intermediary), or no room for what is written */
#define MRZ_REFUSAL_NUMBER_TOO_LARGE 6      /* number above 2^62-1, stream limit above 2^60, payload above 65,535 */
#define MRZ_REFUSAL_NOT_A_REQUEST_STREAM 7  /* stream ID not divisible by 4, or above 2^62-1 */
#define MRZ_REFUSAL_NO_FREE_PLACE 8         /* every record of the table is used */
#define MRZ_REFUSAL_ALREADY_IN_TABLE 9      /* the table has a record of this stream */
#define MRZ_REFUSAL_NOT_IN_TABLE 10         /* the table has no record of this stream */
#define MRZ_REFUSAL_FRAMES_NOT_AGREED 11    /* our setting or the peer's is not 1 */
#define MRZ_REFUSAL_SEND_SIDE_CLOSED 12
#define MRZ_REFUSAL_NO_SEMANTICS 13         /* the request has no semantics for datagrams */
#define MRZ_REFUSAL_FRAME_TOO_LONG 14       /* the frame, quarter included, is longer than the path size */
#define MRZ_REFUSAL_BAD_TABLE 15            /* see "the stream table" */
#define MRZ_REFUSAL_BUFFER_TOO_LONG 16      /* more than 4,096 bytes to list */
#define MRZ_REFUSAL_UNKNOWN_ERROR_OR_VERSION 17 /* no error number, or no HTTP version */
#define MRZ_REFUSAL_ADDRESSES_TOO_SHORT 18  /* address buffer shorter than 1,024 bytes (endpoint that opted in) */
#define MRZ_REFUSAL_FIELD_TOO_LONG 19       /* value of the Capsule-Protocol field longer than 1,024 bytes */
#define MRZ_REFUSAL_MALFORMED_TO_WRITE 26   /* entries whose value a reader would report as malformed */

/* The name of a refusal, for logs; "unknown" for a number that is no refusal. */
static inline const char *mrz_refusal_name(uint64_t refusal) {
    switch (refusal) {
    case MRZ_NOT_REFUSED: return "not refused";
    case MRZ_REFUSAL_UNMAKEABLE_STATE: return "unmakeable state";
    case MRZ_REFUSAL_FINISHED: return "finished";
    case MRZ_REFUSAL_LIMIT_TOO_LARGE: return "limit too large";
    case MRZ_REFUSAL_GATHERING_TOO_SHORT: return "gathering too short";
    case MRZ_REFUSAL_OUTPUT_TOO_SHORT: return "output too short";
    case MRZ_REFUSAL_NUMBER_TOO_LARGE: return "number too large";
    case MRZ_REFUSAL_NOT_A_REQUEST_STREAM: return "not a request stream";
    case MRZ_REFUSAL_NO_FREE_PLACE: return "no free place";
    case MRZ_REFUSAL_ALREADY_IN_TABLE: return "already in table";
    case MRZ_REFUSAL_NOT_IN_TABLE: return "not in table";
    case MRZ_REFUSAL_FRAMES_NOT_AGREED: return "frames not agreed";
    case MRZ_REFUSAL_SEND_SIDE_CLOSED: return "send side closed";
    case MRZ_REFUSAL_NO_SEMANTICS: return "no semantics";
    case MRZ_REFUSAL_FRAME_TOO_LONG: return "frame too long";
    case MRZ_REFUSAL_BAD_TABLE: return "bad table";
    case MRZ_REFUSAL_BUFFER_TOO_LONG: return "buffer too long";
    case MRZ_REFUSAL_UNKNOWN_ERROR_OR_VERSION: return "unknown error or version";
    case MRZ_REFUSAL_ADDRESSES_TOO_SHORT: return "addresses too short";
    case MRZ_REFUSAL_FIELD_TOO_LONG: return "field too long";
    case MRZ_REFUSAL_MALFORMED_TO_WRITE: return "malformed to write";
    default: return "unknown";
    }
}

/* ---- errors, which mrz_translate translates */

#define MRZ_NO_ERROR 0
#define MRZ_ERROR_TRUNCATED 1
#define MRZ_ERROR_NO_SEMANTICS 2
#define MRZ_ERROR_SHORT_FRAME 3
#define MRZ_ERROR_QUARTER_TOO_LARGE 4
#define MRZ_ERROR_BEYOND_LIMIT 5
#define MRZ_ERROR_BAD_SETTING 6
#define MRZ_ERROR_MALFORMED 7                  /* translated like MRZ_ERROR_TRUNCATED */

/* ---- varints (RFC 9000, section 16) */

/* size: 1, 2, 4 or 8; or 0 if the varint is incomplete, and then value is 0 */
typedef struct mrz_varint { uint64_t value, size; } mrz_varint;

/* The answer of every writer. written: how many bytes it wrote, out[place .. place + written). */
typedef struct mrz_written { uint64_t refusal, written; } mrz_written;

/*
 * Reads the varint at the start of the bytes: its value and its size. Never refused. Changes nothing.
 *
 * Forms of one and two bytes are tried first. A host that reads many numbers below 64 can save the call: if bytes_len is
 * not 0 and bytes[0] is below 0x40, the number is bytes[0] and its size is 1.
 */
mrz_varint mrz_read_varint(const uint8_t *bytes, size_t bytes_len);

/*
 * Writes a number as a varint, in the shortest form, from out[place] on. No other byte of out changes.
 * Refusals: 6, 5.
 */
mrz_written mrz_write_varint(uint64_t number, uint8_t *out, size_t out_len, uint64_t place);

/* ---- the capsule reader */

/*
 * The state of a reader of one stream. Opaque: mrz_reader_open makes it, and the calls below use it. It contains no
 * pointer, so it can be moved and copied; a copy is an independent reader. Words that these calls cannot have made are
 * refused with 1; a zeroed struct is refused as well.
 */
typedef struct mrz_reader { uint64_t words[8]; } mrz_reader;

#define MRZ_ROLE_ENDPOINT 0
#define MRZ_ROLE_INTERMEDIARY 1

#define MRZ_LARGEST_DATAGRAM_LIMIT 65535

/* An intermediary's output must be longer than the piece by at least this many bytes. */
#define MRZ_OUTPUT_HEADROOM 8

/* The address capsules, which an endpoint that opted in reads (RFC 9484, section 4.7), and their longest value. */
#define MRZ_TYPE_ADDRESS_ASSIGN 1
#define MRZ_TYPE_ADDRESS_REQUEST 2
#define MRZ_TYPE_ROUTE_ADVERTISEMENT 3
#define MRZ_LONGEST_ADDRESS_VALUE 1024

#define MRZ_REPORT_NONE 0               /* no capsule ended in the piece */
#define MRZ_REPORT_DELIVERED 1          /* DATAGRAM within the limit; its payload is gathering[0 .. length) */
#define MRZ_REPORT_DROPPED 2            /* DATAGRAM longer than the limit */
#define MRZ_REPORT_SKIPPED 3            /* capsule of another type, at an endpoint */
#define MRZ_REPORT_PASSED 4             /* capsule of another type, at an intermediary */
#define MRZ_REPORT_ADDRESS_DELIVERED 5  /* well-formed address capsule; its value is addresses[0 .. length) */
#define MRZ_REPORT_MALFORMED 6          /* malformed address capsule; the reader is finished (feeding and close: 2) */

#define MRZ_END_NONE 0          /* refused */
#define MRZ_END_CLEAN 1         /* the bytes end after a complete capsule, or there are none */
#define MRZ_END_TRUNCATED 2     /* the bytes end inside a capsule */

/*
 * What is fixed when a reader is opened.
 * role: MRZ_ROLE_..
 * datagram_limit: the length of the longest DATAGRAM that is delivered, at most MRZ_LARGEST_DATAGRAM_LIMIT.
 * draft: whether type 0xff37a5 is DATAGRAM too, as in draft-ietf-masque-h3-datagram-05; type 0 always is.
 * addresses: whether an endpoint opts in to address capsules. No effect for an intermediary, which passes them on.
 */
typedef struct mrz_opening { uint64_t role, datagram_limit, draft, addresses; } mrz_opening;

/*
 * Opens a reader: writes its state into *reader, whatever was there before. Returns 0 or the refusal.
 * Refusals: 3.
 */
uint64_t mrz_reader_open(mrz_reader *reader, mrz_opening opening);

/*
 * consumed: how many bytes of the piece the call used. written: how many bytes it wrote, output[0 .. written).
 * report: MRZ_REPORT_.., about the capsule that ended in the consumed bytes; type and length are that capsule's.
 * type is 0 for a DATAGRAM (delivered or dropped, also of type 0xff37a5). If no capsule ended, type and length are 0.
 * error: MRZ_ERROR_MALFORMED with MRZ_REPORT_MALFORMED, otherwise 0.
 */
typedef struct mrz_fed { uint64_t refusal, consumed, written, report, type, length, error; } mrz_fed;

/*
 * Feeds the next piece of the stream, of any length. The call consumes the piece up to and including the byte that ends
 * the first capsule to end in it, or all of the piece if no capsule ends. Feed the rest, from piece + consumed on, with
 * the next call. An accepted call consumes at least one byte of a piece that is not empty. An accepted call
 * with an empty piece answers 0 in every field and changes nothing.
 * Refusals: 1, 2, 4, 18, 5.
 *
 * Changes: *reader, and the bytes of gathering, addresses and output that are named here. No other byte changes.
 *
 * gathering: at least datagram_limit bytes (otherwise 4). Value byte i of a DATAGRAM within the limit is stored at
 * gathering[i] when it is consumed. Pass the same buffer until the capsule has ended. A delivered payload stays there
 * until the next feeding.
 *
 * addresses: at least MRZ_LONGEST_ADDRESS_VALUE bytes for an endpoint that opted in (otherwise 18); other readers
 * ignore it. Value byte i of an address capsule is stored at addresses[i] when it is consumed. The value is checked in
 * this buffer when its last byte has been stored, so pass the same buffer until the capsule has ended. A value longer
 * than MRZ_LONGEST_ADDRESS_VALUE is reported as malformed when its length field is complete; no byte of it is stored or
 * consumed. A malformed capsule finishes the reader.
 *
 * "The same buffer" means the same contents. Several readers can share one buffer if the host saves and restores the
 * bytes gathered for each reader (mrz_reader_look says how many there are). Without that, they overwrite each other's
 * datagrams.
 *
 * output: for an intermediary at least piece_len + MRZ_OUTPUT_HEADROOM bytes (otherwise 5); an endpoint writes nothing.
 * The bytes to forward are output[0 .. written). An intermediary holds back the bytes of a type until the type is
 * complete, so written can be larger than consumed, by at most 7.
 */
mrz_fed mrz_reader_feed(mrz_reader *reader, const uint8_t *piece, size_t piece_len,
                        uint8_t *gathering, size_t gathering_len, uint8_t *addresses, size_t addresses_len,
                        uint8_t *output, size_t output_len);

/* end: MRZ_END_..; error: MRZ_ERROR_TRUNCATED if the end is truncated, otherwise 0 */
typedef struct mrz_closed { uint64_t refusal, end, error; } mrz_closed;

/*
 * Tells the reader that the stream ended with a clean close, and answers whether it ended between capsules. Changes
 * *reader: it is finished, and later feedings and closes are refused with 2.
 * Refusals: 1, 2.
 * For a stream that was reset, no call is needed: discard the reader.
 */
mrz_closed mrz_reader_close(mrz_reader *reader);

#define MRZ_FIELD_NONE 0    /* between capsules */
#define MRZ_FIELD_TYPE 1    /* in a type, of which at least one byte has come */
#define MRZ_FIELD_LENGTH 2  /* after a complete type; perhaps no byte of the length has come */
#define MRZ_FIELD_VALUE 3   /* after a complete length, and the value is not complete */

#define MRZ_BUFFER_NEITHER 0    /* the value is not stored */
#define MRZ_BUFFER_GATHERING 1  /* a DATAGRAM within the limit */
#define MRZ_BUFFER_ADDRESSES 2  /* an address capsule, of an endpoint that opted in */

/*
 * type is set with MRZ_FIELD_LENGTH and MRZ_FIELD_VALUE; length, to_come, gathered and buffer are set with
 * MRZ_FIELD_VALUE only. Otherwise they are 0.
 */
typedef struct mrz_look {
    uint64_t refusal, finished, datagram_limit;
    uint64_t field;                 /* MRZ_FIELD_..: where the bytes fed so far end */
    uint64_t type;                  /* the type of the unfinished capsule */
    uint64_t length, to_come;       /* the length of its value, and how many bytes of it are missing */
    uint64_t gathered, buffer;      /* how many bytes of the value are stored, and where: MRZ_BUFFER_.. */
} mrz_look;

/*
 * Answers where a reader is in its stream, its datagram limit and whether it is finished (1 or 0). A finished reader is
 * not refused. Changes nothing.
 * Refusals: 1.
 */
mrz_look mrz_reader_look(const mrz_reader *reader);

/* ---- one-shot listing */

#define MRZ_LONGEST_LISTING 4096

/* capsules: how many are complete; headers: the bytes of their type and length fields; end: MRZ_END_.. */
typedef struct mrz_listing { uint64_t refusal, capsules, headers, end; } mrz_listing;

/*
 * Counts the capsules of a buffer. Changes nothing.
 * Refusals: 16.
 * Call it with at least 256 KiB of stack: its calls nest, deeper with each capsule of the buffer. On a legal buffer
 * 201,128 bytes of stack were measured; a smaller stack overflows.
 */
mrz_listing mrz_list(const uint8_t *bytes, size_t bytes_len);

/*
 * ---- the stream table
 *
 * A table is an array of at most MRZ_TABLE_PLACES records, owned by the host. The place of a stream is the index of its
 * record. streams_len is a number of records, not of bytes. Every call reads the whole array.
 *
 * A host that has more than MRZ_TABLE_PLACES streams, or needs more speed, puts a table of one record into its own
 * stream object, and passes an empty table for an unknown stream. The host finds its object by the quarter, and the
 * place is 0. The host must then ensure that no two objects hold the same stream, since no call sees two records.
 *     mrz_varint quarter = mrz_read_varint(frame, frame_len);
 *     struct host_stream *found = quarter.size == 0 ? NULL : host_find(quarter.value);
 *     mrz_judged judged = mrz_judge(found ? &found->record : NULL, found ? 1 : 0, limits, frame, frame_len);
 */
#define MRZ_TABLE_PLACES 64

/* A stream record, 16 bytes without padding. A record of zeros is the blank: a free place. */
typedef struct mrz_stream {
    uint64_t quarter; /* the stream ID divided by 4 */
    uint64_t flags;   /* MRZ_STREAM_.. */
} mrz_stream;

/*
 * The bits of flags. Other bits have no meaning: in a used record they are ignored, and only freeing the place clears
 * them; a free record with such a bit is not the blank.
 * A table is bad (refusal 15) if it has more than MRZ_TABLE_PLACES records, a free record that differs from the blank
 * in any bit, a used record with a quarter above 2^60-1, a used record with both sides closed, or two used records with
 * the same quarter.
 */
#define MRZ_STREAM_USED 1      /* the record holds a stream */
#define MRZ_STREAM_RECEIVE 2   /* the receive side is open */
#define MRZ_STREAM_SEND 4      /* the send side is open */
#define MRZ_STREAM_SEMANTICS 8 /* the request has semantics for datagrams */

#define MRZ_SIDE_RECEIVE 0
#define MRZ_SIDE_SEND 1

/* place: of the record that the stream was given */
typedef struct mrz_opened { uint64_t refusal, place; } mrz_opened;

/*
 * Adds a request stream to the table: writes its record, with both sides open, at the lowest free place. No other
 * record changes. semantics: whether the request has semantics for datagrams.
 * Refusals: 15, 7, 9, 8.
 * Call it after the request's header fields are read, when the semantics are known. If the stream is added earlier,
 * without semantics, an early datagram aborts it (rule 6 of judging). While the stream is not in the table, an early
 * datagram is dropped (rule 4).
 */
mrz_opened mrz_stream_open(mrz_stream *streams, size_t streams_len, uint64_t stream_id, uint64_t semantics);

/* place: of the stream's record; freed: 1 if both sides are now closed and the record became the blank, otherwise 0 */
typedef struct mrz_side_closed { uint64_t refusal, place, freed; } mrz_side_closed;

/*
 * Closes a side (MRZ_SIDE_..) of a stream: clears that side's bit and no other bit. If that side is closed already,
 * nothing changes. If both sides are closed afterwards, the record becomes the blank. No other record changes.
 * Refusals: 15, 7, 10.
 */
mrz_side_closed mrz_stream_close(mrz_stream *streams, size_t streams_len, uint64_t stream_id, uint64_t side);

/* place: of the stream's record */
typedef struct mrz_found { uint64_t refusal, place; } mrz_found;

/* Finds the record of a stream. Changes nothing. Refusals: 15, 7, 10. */
mrz_found mrz_stream_find(const mrz_stream *streams, size_t streams_len, uint64_t stream_id);

/* quarter: the stream ID divided by 4 */
typedef struct mrz_quarter { uint64_t refusal, quarter; } mrz_quarter;

/* Converts a request stream's ID to its quarter. Refusals: 7. */
mrz_quarter mrz_quarter_of(uint64_t stream_id);

/* too_large: 1 if the number is above 2^60-1 and so is no quarter, and then stream_id is 0; otherwise 0 */
typedef struct mrz_stream_id { uint64_t too_large, stream_id; } mrz_stream_id;

/* Converts a quarter to the ID of its request stream. Never refused. */
mrz_stream_id mrz_stream_id_of(uint64_t quarter);

/* ---- QUIC DATAGRAM payloads */

/*
 * stream_limit: a frame whose quarter is at or above this number is a connection error. It is at most
 * MRZ_UNKNOWN_STREAMS (2^60); pass that if no limit is known.
 * datagram_limit: the length of the longest payload that is delivered, at most MRZ_LARGEST_DATAGRAM_LIMIT.
 */
typedef struct mrz_limits { uint64_t stream_limit, datagram_limit; } mrz_limits;

#define MRZ_UNKNOWN_STREAMS UINT64_C(1152921504606846976) /* 2^60 */

#define MRZ_RULE_NONE 0               /* refused */
#define MRZ_RULE_SHORT_FRAME 1        /* the quarter is incomplete: connection error, MRZ_ERROR_SHORT_FRAME */
#define MRZ_RULE_QUARTER_TOO_LARGE 2  /* quarter above 2^60-1: connection error, MRZ_ERROR_QUARTER_TOO_LARGE */
#define MRZ_RULE_BEYOND_LIMIT 3       /* quarter at or above stream_limit: connection error, MRZ_ERROR_BEYOND_LIMIT */
#define MRZ_RULE_NO_STREAM 4          /* the stream is not in the table: dropped */
#define MRZ_RULE_RECEIVE_CLOSED 5     /* its receive side is closed: dropped */
#define MRZ_RULE_NO_SEMANTICS 6       /* no semantics for datagrams: stream abort, MRZ_ERROR_NO_SEMANTICS */
#define MRZ_RULE_TOO_LONG 7           /* the payload is longer than datagram_limit: dropped */
#define MRZ_RULE_DELIVERED 8          /* none of the above */

/*
 * rule: MRZ_RULE_.., the first that matches. quarter: the number that the frame starts with, set with rules 2 to 8.
 * place: of the stream's record, set with rules 5 to 8. start, length: set with rule 8, where the payload is
 * frame[start .. start + length). With the other rules each of these is 0.
 * error: the error of the rule, or 0 if it has none.
 */
typedef struct mrz_judged { uint64_t refusal, rule, quarter, place, start, length, error; } mrz_judged;

/*
 * Judges the payload of a received QUIC DATAGRAM frame: whether it is delivered or dropped, or is an error. Changes
 * nothing.
 * Refusals: 15, 3, 6.
 */
mrz_judged mrz_judge(const mrz_stream *streams, size_t streams_len, mrz_limits limits,
                     const uint8_t *frame, size_t frame_len);

/*
 * ---- writers
 *
 * A writer writes from out[place] on and answers how many bytes it wrote. Nothing else changes. It is refused with 5 if
 * these bytes do not fit between place and out_len.
 */

/* The most bytes that the header of a DATAGRAM capsule (type and length) and that of a frame (quarter) can have. */
#define MRZ_LONGEST_CAPSULE_HEADER 5
#define MRZ_LONGEST_FRAME_HEADER 8

/*
 * Writes a DATAGRAM capsule for a stream of the table: type 0, length in the shortest form, payload.
 * Refusals: 15, 7, 10, 12, 13, 6, 5.
 */
mrz_written mrz_write_capsule(const mrz_stream *streams, size_t streams_len, uint64_t stream_id,
                              const uint8_t *payload, size_t payload_len,
                              uint8_t *out, size_t out_len, uint64_t place);

/*
 * our_setting, peer_setting: SETTINGS_H3_DATAGRAM as sent and as received; both must be 1 (otherwise 11).
 * path_size: the longest payload of a QUIC DATAGRAM frame that the path carries, quarter included.
 */
typedef struct mrz_frame_terms { uint64_t our_setting, peer_setting, path_size; } mrz_frame_terms;

/*
 * Writes the payload of a QUIC DATAGRAM frame for a stream of the table: quarter in the shortest form, payload.
 * Refusals: 15, 7, 10, 11, 12, 13, 6, 14, 5.
 */
mrz_written mrz_write_frame(const mrz_stream *streams, size_t streams_len, uint64_t stream_id,
                            mrz_frame_terms terms, const uint8_t *payload, size_t payload_len,
                            uint8_t *out, size_t out_len, uint64_t place);

/*
 * Writes only the quarter of such a frame; the host sends payload_length bytes of payload after it.
 * Refusals: 15, 7, 10, 11, 12, 13, 6, 14, 5. 6 and 14 count the payload, 5 does not.
 */
mrz_written mrz_write_frame_header(const mrz_stream *streams, size_t streams_len, uint64_t stream_id,
                                   mrz_frame_terms terms, uint64_t payload_length,
                                   uint8_t *out, size_t out_len, uint64_t place);

/*
 * Writes a DATAGRAM capsule without a table, for example on HTTP/2, whose stream IDs are odd; mrz_write_datagram_header
 * writes only its type and length, and the host sends payload_length bytes of payload after them. The host must check
 * what the table would check: the stream is open, its send side is open, and its request has semantics for datagrams.
 * Refusals: 6, 5. 6 counts the payload; 5 counts the bytes that the call writes.
 */
mrz_written mrz_write_datagram(const uint8_t *payload, size_t payload_len,
                               uint8_t *out, size_t out_len, uint64_t place);
mrz_written mrz_write_datagram_header(uint64_t payload_length, uint8_t *out, size_t out_len, uint64_t place);

/*
 * ---- address capsules (RFC 9484, section 4.7)
 *
 * A value is well formed if
 *   - it has at most MRZ_LONGEST_ADDRESS_VALUE bytes, and consists of whole entries with nothing after the last;
 *   - each IP version is 4 or 6;
 *   - ADDRESS_ASSIGN, ADDRESS_REQUEST: each prefix length is at most 32 (IPv4) or 128 (IPv6), and the bits of the
 *     address after the prefix are 0;
 *   - ADDRESS_REQUEST: it has at least one entry, and no request ID is 0;
 *   - ROUTE_ADVERTISEMENT: the start of each range is not above its end. Of any two ranges, the later one has no lower
 *     IP version, with the same version no lower protocol, and with the same version and protocol it starts after the
 *     end of the earlier one. A range for all protocols (0) overlaps no other range of its version.
 */

/*
 * An entry of ADDRESS_ASSIGN or ADDRESS_REQUEST, 32 bytes. An IPv4 address is address[0 .. 4). The other bytes of
 * address, and reserved, are 0 in an entry that was read and are ignored in an entry to write.
 */
typedef struct mrz_address {
    uint64_t request_id;
    uint8_t ip_version, prefix_length, address[16], reserved[6];
} mrz_address;

/* An entry of ROUTE_ADVERTISEMENT, 34 bytes. IPv4 addresses as in mrz_address. ip_protocol 0 means all protocols. */
typedef struct mrz_route { uint8_t ip_version, ip_protocol, start[16], end[16]; } mrz_route;

#define MRZ_ENTRY_NONE 0       /* the place is at the end of the value or after it */
#define MRZ_ENTRY_FOUND 1      /* the entry is in the answer */
#define MRZ_ENTRY_MALFORMED 2  /* the bytes at the place are no whole entry */

/* found: MRZ_ENTRY_..; next: the place after the entry. If none was found, next is `at` and the entry is all zeros. */
typedef struct mrz_address_found { uint64_t found, next; mrz_address address; } mrz_address_found;
typedef struct mrz_route_found { uint64_t found, next; mrz_route route; } mrz_route_found;

/* Whether a value is well formed for an address capsule of this type: 1 or 0. 0 for any other type. Never refused. */
uint64_t mrz_address_value_good(uint64_t type, const uint8_t *value, size_t value_len);

/*
 * Reads the entry at a place of a value. Start with at = 0 and continue with at = next while found is MRZ_ENTRY_FOUND.
 * These calls split a value and do not check it. Never refused. Change nothing.
 * The value of a delivered capsule is the first `length` bytes of the address buffer: pass that length as value_len,
 * since the buffer can hold bytes of earlier values after it.
 * mrz_address_next is for ADDRESS_ASSIGN and ADDRESS_REQUEST, mrz_route_next for ROUTE_ADVERTISEMENT.
 */
mrz_address_found mrz_address_next(const uint8_t *value, size_t value_len, uint64_t at);
mrz_route_found mrz_route_next(const uint8_t *value, size_t value_len, uint64_t at);

/*
 * Writes an address capsule from out[place] on: type, length, entries. No other byte of out changes.
 * Refusals: 6, 26, 5; mrz_write_route_advertisement: 26, 5.
 * addresses_size and routes_size are IN BYTES, not a number of entries; MRZ_ENTRIES(array, count) expands to the two
 * arguments. A size that is no multiple of the size of an entry is refused with 26. A request ID above 2^62-1 in any
 * whole entry is refused with 6, whatever else is wrong.
 */
#define MRZ_ENTRIES(array, count) (array), (count) * sizeof *(array)

mrz_written mrz_write_address_assign(const mrz_address *addresses, size_t addresses_size,
                                     uint8_t *out, size_t out_len, uint64_t place);
mrz_written mrz_write_address_request(const mrz_address *addresses, size_t addresses_size,
                                      uint8_t *out, size_t out_len, uint64_t place);
mrz_written mrz_write_route_advertisement(const mrz_route *routes, size_t routes_size,
                                          uint8_t *out, size_t out_len, uint64_t place);

/* ---- settings, messages, errors. Only mrz_field_in_use and mrz_translate can be refused. */

/*
 * Checks a received SETTINGS_H3_DATAGRAM. stored: the value stored for 0-RTT, 0 if none is stored. Answers
 * MRZ_ERROR_BAD_SETTING if the received value is above 1 or below the stored one, otherwise 0.
 */
uint64_t mrz_setting_error(uint64_t received, uint64_t stored);

/*
 * Whether a message that uses the Capsule Protocol is malformed: 1 or 0. A request is if it carries one of the three
 * header fields; a response is if it carries one of them or its status is 204, 205 or 206.
 */
uint64_t mrz_request_malformed(uint64_t content_length, uint64_t content_type, uint64_t transfer_encoding);
uint64_t mrz_response_malformed(uint64_t status, uint64_t content_length, uint64_t content_type,
                                uint64_t transfer_encoding);

/*
 * Whether the Capsule-Protocol header field counts on a message: 1 or 0. It counts on every request, and on a response
 * with status 101 or 200 to 299. response: 0 for a request, whose status is ignored.
 */
uint64_t mrz_field_counts(uint64_t response, uint64_t status);

#define MRZ_LONGEST_FIELD_VALUE 1024

/* in_use: 1 if the value says that the Capsule Protocol is in use, otherwise 0; 0 also if the call was refused */
typedef struct mrz_field { uint64_t refusal, in_use; } mrz_field;

/*
 * Reads the value of the Capsule-Protocol field as an Item of Structured Field Values (RFC 8941). Changes nothing.
 * Refusals: 19, before anything is read. Every byte counts, spaces too. A refused value was not read, so it is neither
 * in use nor absent: what to do then is the host's decision.
 *
 * in_use is 1 exactly if the value is the Boolean true, ?1, with any number of well-formed parameters, as in ?1;v=2.
 * Parameters are read and ignored. Spaces (0x20, no tabs) are allowed at both ends, after the semicolon of a parameter
 * and in strings, and nowhere else. In a byte sequence only the alphabet is checked (letters, digits, + / =), not that
 * it can be decoded.
 *
 * in_use is 0 in every other case that is not refused, and the field is then to be treated as absent: an empty value,
 * ?0, an Item of another type, a list, an inner list, and any syntax error, in a parameter or elsewhere. Dates and
 * display strings (RFC 9651) are no Items of RFC 8941: a parameter with one is a syntax error.
 *
 * The value is the field's value without its name, and without the spaces and tabs around it that HTTP removes (RFC
 * 9110, section 5.5): a tab that is left makes it absent. A host that receives several lines of the field must first
 * join their values, in order and with ", " between them. Two lines ?1 are then ?1, ?1, which is a list: in_use is 0.
 */
mrz_field mrz_field_in_use(const uint8_t *value, size_t value_len);

#define MRZ_VERSION_HTTP_1_1 1
#define MRZ_VERSION_HTTP_2 2
#define MRZ_VERSION_HTTP_3 3

#define MRZ_ACTION_NONE 0              /* the error does not arise on this version, or the call was refused */
#define MRZ_ACTION_CLOSE 1             /* close the connection; there is no code */
#define MRZ_ACTION_STREAM_ERROR 2      /* a stream error with the code */
#define MRZ_ACTION_CONNECTION_ERROR 3  /* a connection error with the code */

/* action: MRZ_ACTION_..; code: an error code of the HTTP version, or 0 with MRZ_ACTION_NONE and MRZ_ACTION_CLOSE */
typedef struct mrz_translation { uint64_t refusal, action, code; } mrz_translation;

/* Answers what to do about an error (MRZ_ERROR_..) on an HTTP version (MRZ_VERSION_HTTP_..). Refusals: 17. */
mrz_translation mrz_translate(uint64_t error, uint64_t version);

/* ---- the layout that the library was built for */

#if defined(__cplusplus)
#if __cplusplus >= 201103L
#define MRZ_LAYOUT(condition) static_assert(condition, "the layout that the library was built for")
#endif
#elif defined(__STDC_VERSION__) && __STDC_VERSION__ >= 201112L
#define MRZ_LAYOUT(condition) _Static_assert(condition, "the layout that the library was built for")
#elif defined(__GNUC__)
#define MRZ_LAYOUT(condition) __extension__ _Static_assert(condition, "the layout that the library was built for")
#endif
#ifdef MRZ_LAYOUT
MRZ_LAYOUT(sizeof(mrz_reader) == 64 && offsetof(mrz_reader, words) == 0);
MRZ_LAYOUT(sizeof(mrz_opening) == 32 && offsetof(mrz_opening, role) == 0 && offsetof(mrz_opening, datagram_limit) == 8);
MRZ_LAYOUT(offsetof(mrz_opening, draft) == 16 && offsetof(mrz_opening, addresses) == 24);
MRZ_LAYOUT(sizeof(mrz_limits) == 16 && offsetof(mrz_limits, stream_limit) == 0);
MRZ_LAYOUT(offsetof(mrz_limits, datagram_limit) == 8);
MRZ_LAYOUT(sizeof(mrz_frame_terms) == 24 && offsetof(mrz_frame_terms, our_setting) == 0);
MRZ_LAYOUT(offsetof(mrz_frame_terms, peer_setting) == 8 && offsetof(mrz_frame_terms, path_size) == 16);
MRZ_LAYOUT(sizeof(mrz_stream) == 16 && offsetof(mrz_stream, quarter) == 0 && offsetof(mrz_stream, flags) == 8);
MRZ_LAYOUT(sizeof(mrz_address) == 32 && offsetof(mrz_address, request_id) == 0);
MRZ_LAYOUT(offsetof(mrz_address, ip_version) == 8 && offsetof(mrz_address, prefix_length) == 9);
MRZ_LAYOUT(offsetof(mrz_address, address) == 10 && offsetof(mrz_address, reserved) == 26);
MRZ_LAYOUT(sizeof(mrz_route) == 34 && offsetof(mrz_route, ip_version) == 0 && offsetof(mrz_route, ip_protocol) == 1);
MRZ_LAYOUT(offsetof(mrz_route, start) == 2 && offsetof(mrz_route, end) == 18);
MRZ_LAYOUT(sizeof(mrz_varint) == 16 && sizeof(mrz_written) == 16 && sizeof(mrz_fed) == 56 && sizeof(mrz_closed) == 24);
MRZ_LAYOUT(sizeof(mrz_look) == 72 && sizeof(mrz_listing) == 32 && sizeof(mrz_opened) == 16 && sizeof(mrz_found) == 16);
MRZ_LAYOUT(sizeof(mrz_side_closed) == 24 && sizeof(mrz_quarter) == 16 && sizeof(mrz_stream_id) == 16);
MRZ_LAYOUT(sizeof(mrz_judged) == 56 && sizeof(mrz_address_found) == 48 && sizeof(mrz_route_found) == 56);
MRZ_LAYOUT(sizeof(mrz_field) == 16 && sizeof(mrz_translation) == 24);
#undef MRZ_LAYOUT
#endif

#ifdef __cplusplus
}
#endif

#endif
