/*
 * A relay of HTTP/2 tunnels (extended CONNECT, RFC 8441) over nghttp2.
 *
 * Client, relay and origin are nghttp2 sessions in one process, without sockets: what one writes the next one reads,
 * cut at random places. The relay has two sessions, a server towards the client and a client towards the origin, and
 * reads both directions of every tunnel with a reader as intermediary: capsules of unknown type pass as they came,
 * datagrams are read and written anew. Some tunnels end inside a capsule, some are reset, some come with malformed
 * messages, some do not say that they have capsules and pass as they are. In the end what each end got is compared with
 * what the other one sent.
 *
 * What a host would take over is the part "the relay", with the callbacks; the ends and their scripts try it.
 *
 *     cc -std=c99 h2_relay.c $(pkg-config --cflags --libs maruzhenu libnghttp2) -o h2_relay
 */
#include <inttypes.h>
#include <stdint.h>
#include <stdio.h>
#include <stdlib.h>
#include <string.h>

#include <nghttp2/nghttp2.h>

#include "maruzhenu.h"

enum {
    TUNNELS = 48,
    CAPSULES = 24,         /* of a script */
    LONGEST_VALUE = 1500,  /* of a capsule in a script */
    TEXT = (CAPSULES + 1) * (LONGEST_VALUE + 16),
    RELAY_LIMIT = 1200,    /* datagram limits */
    END_LIMIT = 1500,
    RELAY_WINDOW = 4096,   /* of a stream towards the relay, and towards an end */
    END_WINDOW = 1000,
    LOW_WATER = 2048,      /* the relay opens a window again when so much or less waits to be sent on */
    QUEUE = 4 * RELAY_WINDOW, /* enough: no more than LOW_WATER, a window and a datagram can wait */
    LONGEST_CUT = 900,     /* of the bytes between two sessions */
    WIRE = 65536
};

static uint64_t random_state = 24;

/* xorshift64: the same numbers in every run */
static size_t random_below(size_t bound) {
    random_state ^= random_state << 13;
    random_state ^= random_state >> 7;
    random_state ^= random_state << 17;
    return (size_t)(random_state % bound);
}

/*
 * Apart from field values that are too long, neither nghttp2 nor the library refuses anything in this program: if one
 * does, the program is wrong.
 */
static void expect(const char *what, int64_t expected, int64_t came) {
    if (expected != came) {
        printf("h2_relay: %s: expected %" PRId64 ", came %" PRId64 "\n", what, expected, came);
        exit(1);
    }
}

/* ---- the two ends' scripts */

struct text {
    uint8_t bytes[TEXT];
    size_t length;
};

struct counts {
    uint64_t datagrams, dropped, others; /* capsules */
    uint64_t sum;                        /* of the datagrams' payloads, in their order */
};

/* What one end of a tunnel sends, and what it got. */
struct end {
    struct text sent, got;
    struct text relayed;  /* what the other end should get for it */
    struct counts script; /* the capsules in sent, as the relay should count them */
    struct counts counts; /* the datagrams and other capsules in got */
    size_t taken;         /* so many bytes of sent are nghttp2's */
    size_t reset_at;      /* there the stream is reset; 0 is nowhere */
    uint32_t code;        /* that the stream was closed with */
    int closed, clean;
};

enum kind {
    WHOLE, PLAIN, REFUSED, TRUNCATED_REQUEST, TRUNCATED_RESPONSE, CLIENT_RESETS, ORIGIN_RESETS, MALFORMED_REQUEST,
    MALFORMED_RESPONSE, KINDS
};

static struct tunnel {
    enum kind kind;
    unsigned variant;
    struct end client, origin;
} tunnels[TUNNELS];

static void push(struct text *text, const uint8_t *bytes, size_t length) {
    expect("the room of a text", 1, length <= sizeof text->bytes - text->length);
    memcpy(text->bytes + text->length, bytes, length);
    text->length += length;
}

static size_t shortest(uint64_t number) {
    return number < 1 << 6 ? 1 : number < 1 << 14 ? 2 : number < 1 << 30 ? 4 : 8;
}

/* A varint of 1, 2, 4 or 8 bytes: one that is longer than needed is legal. */
static void push_number(struct text *text, uint64_t number, size_t size) {
    const unsigned mark = size == 1 ? 0x00 : size == 2 ? 0x40 : size == 4 ? 0x80 : 0xc0;
    uint8_t bytes[8];
    size_t i;
    for (i = 0; i < size; i++) {
        bytes[i] = (uint8_t)((number >> 8 * (size - 1 - i)) | (i == 0 ? mark : 0));
    }
    push(text, bytes, size);
}

static uint64_t summed(uint64_t sum, const uint8_t *bytes, size_t length) {
    size_t i;
    for (i = 0; i < length; i++) {
        sum = (sum ^ bytes[i]) * UINT64_C(0x100000001b3);
    }
    return (sum ^ length) * UINT64_C(0x100000001b3);
}

/* A capsule that names a length and sends so many bytes. Its numbers have `size` bytes, or the fewest if that is 0. */
static void push_capsule(struct end *end, uint64_t type, uint64_t length, size_t size, size_t sent) {
    uint8_t value[LONGEST_VALUE];
    struct text *text = &end->sent;
    const size_t start = text->length;
    size_t i;
    for (i = 0; i < sent; i++) {
        value[i] = (uint8_t)random_below(256);
    }
    push_number(text, type, size ? size : shortest(type));
    push_number(text, length, size ? size : shortest(length));
    push(text, value, sent);
    if (type != 0) {
        push(&end->relayed, text->bytes + start, text->length - start);
        end->script.others += sent == length;
    } else if (length > RELAY_LIMIT) {
        end->script.dropped++;
    } else if (sent == length) {
        push_number(&end->relayed, 0, 1);
        push_number(&end->relayed, length, shortest(length));
        push(&end->relayed, value, sent);
        end->script.datagrams++;
        end->script.sum = summed(end->script.sum, value, sent);
    }
}

static void make_script(struct end *end) {
    static const size_t lengths[] = {0, 1, 63, 64, 500, RELAY_LIMIT - 1, RELAY_LIMIT, RELAY_LIMIT + 1};
    static const uint64_t types[] = {0x17, 0x40, 0x29 * 100 + 0x17, MRZ_TYPE_ADDRESS_ASSIGN, (UINT64_C(1) << 62) - 1};
    unsigned i;
    for (i = 0; i < CAPSULES; i++) {
        const uint64_t type = types[random_below(5)];
        const size_t datagram = lengths[random_below(8)], value = random_below(LONGEST_VALUE + 1);
        switch (i % 6) {
        case 0: push_capsule(end, type, value, 0, value); break;
        case 1: push_capsule(end, type, value, 8, value); break;
        case 2: push_capsule(end, type, 0, 0, 0); break;
        case 3: push_capsule(end, 0, datagram, random_below(2) == 0 ? 4 : 8, datagram); break;
        default: push_capsule(end, 0, datagram, 0, datagram); break;
        }
    }
}

/* A script's end inside a capsule: in a value, in a length, in a type. */
static void push_part(struct end *end, unsigned variant) {
    switch (variant) {
    case 0: push_capsule(end, 0x17, (UINT64_C(1) << 62) - 1, 0, 100); break;
    case 1: push_capsule(end, 0, 900, 0, 100); break;
    case 2: push(&end->sent, (const uint8_t *)"\x80\x00", 2); break;
    default: push(&end->sent, (const uint8_t *)"\x00\x80\x00", 3); break;
    }
}

static void make_tunnels(void) {
    static const enum kind others[] = {PLAIN, REFUSED, TRUNCATED_REQUEST, TRUNCATED_RESPONSE,
                                       CLIENT_RESETS, ORIGIN_RESETS, MALFORMED_REQUEST, MALFORMED_RESPONSE};
    unsigned i;
    for (i = 0; i < TUNNELS; i++) {
        struct tunnel *tunnel = &tunnels[i];
        tunnel->kind = i % 2 == 0 ? WHOLE : others[i / 2 % 8];
        tunnel->variant = i / 16 % 3;
        make_script(&tunnel->client);
        if (tunnel->kind == REFUSED) {
            push(&tunnel->origin.sent, (const uint8_t *)"no such tunnel", 14);
        } else {
            make_script(&tunnel->origin);
        }
        switch (tunnel->kind) {
        case TRUNCATED_REQUEST: push_part(&tunnel->client, tunnel->variant); break;
        case TRUNCATED_RESPONSE: push_part(&tunnel->origin, tunnel->variant + 1); break;
        case CLIENT_RESETS: tunnel->client.reset_at = tunnel->client.sent.length / 2; break;
        case ORIGIN_RESETS: tunnel->origin.reset_at = tunnel->origin.sent.length / 2; break;
        case PLAIN: tunnel->client.relayed = tunnel->client.sent; /* fall through */
        case REFUSED: tunnel->origin.relayed = tunnel->origin.sent; break;
        default: break;
        }
    }
}

/* ---- sessions and their streams */

/* The fields of a message that say how its content is read. */
struct message {
    char path[24], status[24];
    char protocol[2 * MRZ_LONGEST_FIELD_VALUE]; /* the value of Capsule-Protocol, which is passed on as it came */
    unsigned content_length, content_type, transfer_encoding;
};

/* A tunnel's stream on one session. */
struct leg {
    struct peer *peer;
    int32_t id;
    struct leg *mate;       /* of the relay: the tunnel's stream on its other session */
    struct end *end;        /* of the ends */
    int open, reset;        /* nghttp2 has not closed it yet; we have asked for a reset */
    int sent_end, got_end;  /* END_STREAM */
    struct message message; /* that came */
    int read, capsules;     /* it is read to its end; its content is capsules */
    mrz_reader reader;      /* of what comes here; that of a stream that was reset is not closed, just left */
    uint8_t gathering[END_LIMIT]; /* of that reader alone: many streams may have gathered half a datagram */
    uint8_t queue[QUEUE];   /* of the relay: queue[head .. tail) is to be sent here */
    size_t head, tail;
    int finish;             /* and then END_STREAM */
    size_t owed;            /* of the relay: bytes that came here and that its windows are not opened by yet */
    struct counts counts;
};

static struct peer {
    nghttp2_session *session;
    struct peer *relay_to;     /* the other session of the relay; null: this is an end */
    struct leg legs[TUNNELS];
    size_t legs_used;
    uint64_t came, given_back; /* bytes of DATA; bytes that windows were opened by */
    uint8_t wire[WIRE];        /* written, and not read by the other side yet */
    size_t wire_length;
} client, relay_server, relay_client, origin;

static unsigned truncated_in[4]; /* by MRZ_FIELD_.. */
static unsigned fields_too_long; /* values of Capsule-Protocol that the library refused to read */

static struct leg *leg_of(nghttp2_session *session, int32_t id) {
    return nghttp2_session_get_stream_user_data(session, id);
}

static struct leg *new_leg(struct peer *peer, int32_t id) {
    struct leg *leg = &peer->legs[peer->legs_used++];
    leg->peer = peer;
    leg->id = id;
    leg->open = 1;
    return leg;
}

static void reset(struct leg *leg, uint32_t code) {
    if (leg->open && !leg->reset) {
        leg->reset = 1;
        expect("a reset", 0, nghttp2_submit_rst_stream(leg->peer->session, NGHTTP2_FLAG_NONE, leg->id, code));
    }
}

/* Both sides: the other one has got a part of the message. */
static void reset_tunnel(struct leg *leg, uint32_t code) {
    reset(leg, code);
    if (leg->mate != NULL) {
        reset(leg->mate, code);
    }
}

/* There is something to send; where sending had not stopped for want of it, nghttp2 answers INVALID_ARGUMENT. */
static void resume(struct leg *leg) {
    const int answer = nghttp2_session_resume_data(leg->peer->session, leg->id);
    expect("resuming", 0, answer == NGHTTP2_ERR_INVALID_ARGUMENT ? 0 : answer);
}

/*
 * Opens the windows of stream and connection by so many bytes. Every byte that on_data_chunk got must be given back
 * once, of a closed stream too (then the connection's window alone opens), or the connection stalls.
 */
static void give_back(struct peer *peer, int32_t id, size_t length) {
    expect("opening a window", 0, nghttp2_session_consume(peer->session, id, length));
    peer->given_back += length;
}

static void pay(struct leg *leg) {
    if (leg->owed > 0) {
        give_back(leg->peer, leg->id, leg->owed);
        leg->owed = 0;
    }
}

static uint64_t number_of(const char *digits) {
    return strtoul(digits, NULL, 10);
}

/*
 * Whether a message's content is capsules. The field counts on requests, and on responses of certain statuses alone. A
 * value that is too long to be read is treated as absent, and counted.
 */
static int says_capsules(const struct message *message, int response) {
    mrz_field value;
    if (!mrz_field_counts((uint64_t)response, number_of(message->status))) {
        return 0;
    }
    value = mrz_field_in_use((const uint8_t *)message->protocol, strlen(message->protocol));
    fields_too_long += value.refusal == MRZ_REFUSAL_FIELD_TOO_LONG;
    return value.refusal == MRZ_NOT_REFUSED && value.in_use;
}

static void open_reader(struct leg *leg, uint64_t role, uint64_t limit) {
    mrz_opening opening = {0};
    opening.role = role;
    opening.datagram_limit = limit;
    leg->read = 1;
    if (leg->capsules) {
        expect("opening a reader", MRZ_NOT_REFUSED, (int64_t)mrz_reader_open(&leg->reader, opening));
    }
}

static nghttp2_nv field(const char *name, const char *value) {
    nghttp2_nv nv = {(uint8_t *)name, (uint8_t *)value, strlen(name), strlen(value), NGHTTP2_NV_FLAG_NONE};
    return nv; /* without flags nghttp2 copies name and value */
}

/* A request on a new stream, or the response on one that is open. */
static void submit(struct leg *leg, const nghttp2_nv *fields, size_t count, nghttp2_data_source_read_callback read) {
    nghttp2_session *session = leg->peer->session;
    nghttp2_data_provider provider;
    provider.source.ptr = leg;
    provider.read_callback = read;
    if (leg->id == 0) {
        leg->id = nghttp2_submit_request(session, NULL, fields, count, &provider, leg);
        expect("a request", 1, leg->id > 0);
    } else {
        expect("a response", 0, nghttp2_submit_response(session, leg->id, fields, count, &provider));
    }
}

#define CONNECT(path)                                                                                                  \
    field(":method", "CONNECT"), field(":protocol", "connect-udp"), field(":scheme", "https"),                         \
        field(":authority", "origin.example"), field(":path", path)

/* ---- the relay */

/* Room for so many bytes behind the queue's. */
static void make_room(struct leg *leg, size_t length) {
    if (length > sizeof leg->queue - leg->tail) {
        memmove(leg->queue, leg->queue + leg->head, leg->tail - leg->head);
        leg->tail -= leg->head;
        leg->head = 0;
    }
    expect("the room of a queue", 1, length <= sizeof leg->queue - leg->tail);
}

/* nghttp2 asks for bytes to send: 0 with EOF ends the stream, DEFERRED stops until resume. */
static ssize_t relay_read(nghttp2_session *session, int32_t id, uint8_t *to, size_t length, uint32_t *flags,
                          nghttp2_data_source *source, void *user_data) {
    struct leg *leg = source->ptr;
    (void)session, (void)id, (void)user_data;
    if (length > leg->tail - leg->head) {
        length = leg->tail - leg->head;
    }
    memcpy(to, leg->queue + leg->head, length);
    leg->head += length;
    if (leg->tail - leg->head <= LOW_WATER) {
        pay(leg->mate);
    }
    if (leg->head == leg->tail && leg->finish) {
        *flags |= NGHTTP2_DATA_FLAG_EOF;
        leg->sent_end = 1;
        return (ssize_t)length;
    }
    return length > 0 ? (ssize_t)length : NGHTTP2_ERR_DEFERRED;
}

/* Bytes that came on one leg go to the other one's queue. */
static void relay_take(struct leg *leg, const uint8_t *piece, size_t length) {
    struct leg *mate = leg->mate;
    leg->owed += length;
    if (leg->reset || !leg->read || !mate->open || mate->reset) {
        pay(leg); /* what still comes for a tunnel that is over */
        return;
    }
    while (length > 0) {
        mrz_fed fed;
        make_room(mate, length + MRZ_OUTPUT_HEADROOM + MRZ_LONGEST_CAPSULE_HEADER + RELAY_LIMIT);
        if (!leg->capsules) {
            memcpy(mate->queue + mate->tail, piece, length);
            mate->tail += length;
            break;
        }
        fed = mrz_reader_feed(&leg->reader, piece, length, leg->gathering, sizeof leg->gathering, NULL, 0,
                              mate->queue + mate->tail, sizeof mate->queue - mate->tail);
        expect("feeding", MRZ_NOT_REFUSED, (int64_t)fed.refusal);
        mate->tail += (size_t)fed.written; /* other capsules, as they came */
        if (fed.report == MRZ_REPORT_DELIVERED) {
            const mrz_written written = mrz_write_datagram(leg->gathering, (size_t)fed.length, mate->queue,
                                                           sizeof mate->queue, mate->tail);
            expect("writing a datagram", MRZ_NOT_REFUSED, (int64_t)written.refusal);
            mate->tail += (size_t)written.written;
            leg->counts.datagrams++;
            leg->counts.sum = summed(leg->counts.sum, leg->gathering, (size_t)fed.length);
        }
        leg->counts.dropped += fed.report == MRZ_REPORT_DROPPED;
        leg->counts.others += fed.report == MRZ_REPORT_PASSED;
        piece += fed.consumed;
        length -= (size_t)fed.consumed;
    }
    resume(mate);
    if (mate->tail - mate->head <= LOW_WATER) {
        pay(leg);
    }
}

/*
 * A whole header section. A malformed message is an error of its stream (RFC 9113, section 8.1.1). The reader is opened
 * here, before the first byte of content. A relay for more than this program passes the other fields on too.
 */
static void relay_headers(struct leg *leg) {
    const struct message *m = &leg->message;
    const int response = leg->peer == &relay_client;
    const size_t has_protocol = m->protocol[0] != 0;
    leg->capsules = says_capsules(m, response);
    if (leg->capsules &&
        (response ? mrz_response_malformed(number_of(m->status), m->content_length, m->content_type,
                                           m->transfer_encoding)
                  : mrz_request_malformed(m->content_length, m->content_type, m->transfer_encoding))) {
        reset_tunnel(leg, NGHTTP2_PROTOCOL_ERROR);
        return;
    }
    open_reader(leg, MRZ_ROLE_INTERMEDIARY, RELAY_LIMIT);
    if (response) {
        const nghttp2_nv fields[] = {field(":status", m->status), field("capsule-protocol", m->protocol)};
        submit(leg->mate, fields, 1 + has_protocol, relay_read);
    } else {
        const nghttp2_nv fields[] = {CONNECT(m->path), field("capsule-protocol", m->protocol)};
        leg->mate = new_leg(leg->peer->relay_to, 0);
        leg->mate->mate = leg;
        submit(leg->mate, fields, 5 + has_protocol, relay_read);
    }
}

/* The stream ended: its reader is closed, and an end inside a capsule is an error of that stream. */
static void relay_end(struct leg *leg) {
    if (leg->reset || !leg->read) {
        return;
    }
    if (leg->capsules) {
        const mrz_look look = mrz_reader_look(&leg->reader);
        const mrz_closed closed = mrz_reader_close(&leg->reader);
        expect("looking", MRZ_NOT_REFUSED, (int64_t)look.refusal);
        expect("closing", MRZ_NOT_REFUSED, (int64_t)closed.refusal);
        if (closed.end == MRZ_END_TRUNCATED) {
            const mrz_translation becomes = mrz_translate(closed.error, MRZ_VERSION_HTTP_2);
            expect("the action", MRZ_ACTION_STREAM_ERROR, (int64_t)becomes.action);
            truncated_in[look.field]++;
            reset_tunnel(leg, (uint32_t)becomes.code);
            return;
        }
    }
    leg->mate->finish = 1;
    resume(leg->mate);
}

/* A stream is gone. If it was reset the other one is reset too, and what waits for either is dropped. */
static void relay_closed(struct leg *leg, uint32_t code) {
    pay(leg);
    if (!(leg->sent_end && leg->got_end)) {
        reset_tunnel(leg, code);
    }
}

/* ---- the ends */

static ssize_t end_read(nghttp2_session *session, int32_t id, uint8_t *to, size_t length, uint32_t *flags,
                        nghttp2_data_source *source, void *user_data) {
    struct leg *leg = source->ptr;
    struct end *end = leg->end;
    const size_t stop = end->reset_at != 0 ? end->reset_at : end->sent.length;
    (void)session, (void)id, (void)user_data;
    if (length > stop - end->taken) {
        length = stop - end->taken;
    }
    memcpy(to, end->sent.bytes + end->taken, length);
    end->taken += length;
    if (length > 0) {
        return (ssize_t)length;
    }
    if (end->reset_at != 0) {
        reset(leg, NGHTTP2_CANCEL);
        return NGHTTP2_ERR_TEMPORAL_CALLBACK_FAILURE; /* this stream alone fails, with the code just given */
    }
    if (leg->peer == &origin && !leg->got_end) {
        return NGHTTP2_ERR_DEFERRED; /* the client ends its side first */
    }
    *flags |= NGHTTP2_DATA_FLAG_EOF;
    return 0;
}

static void end_take(struct leg *leg, const uint8_t *piece, size_t length) {
    struct end *end = leg->end;
    push(&end->got, piece, length);
    give_back(leg->peer, leg->id, length);
    while (leg->capsules && length > 0) {
        const mrz_fed fed = mrz_reader_feed(&leg->reader, piece, length, leg->gathering, sizeof leg->gathering, NULL, 0,
                                            NULL, 0);
        expect("feeding an end", MRZ_NOT_REFUSED, (int64_t)fed.refusal);
        if (fed.report == MRZ_REPORT_DELIVERED) {
            end->counts.datagrams++;
            end->counts.sum = summed(end->counts.sum, leg->gathering, (size_t)fed.length);
        }
        end->counts.others += fed.report == MRZ_REPORT_SKIPPED;
        piece += fed.consumed;
        length -= (size_t)fed.consumed;
    }
}

/* Values of Capsule-Protocol that say "in use", with parameters too; one for each variant of a tunnel. */
static const char *const in_use[] = {"?1", "?1;v=2", "?1; from=\"a, b\"; *w=-1.5"};

/* One that would say so, and is one byte too long. */
static char too_long[MRZ_LONGEST_FIELD_VALUE + 2];

static void end_headers(struct leg *leg) {
    if (leg->peer == &origin) {
        struct tunnel *tunnel = &tunnels[number_of(leg->message.path + 1) % TUNNELS];
        const int refused = tunnel->kind == REFUSED, bad = tunnel->kind == MALFORMED_RESPONSE;
        const int partial = bad && tunnel->variant == 0, typed = refused || (bad && !partial);
        const int plain = tunnel->kind == PLAIN, no_field = plain && tunnel->variant == 0;
        /* With 404 the field does not count: the content is not capsules, and may have a type. */
        const nghttp2_nv fields[] = {field(":status", refused ? "404" : partial ? "206" : "200"),
                                     field("capsule-protocol", plain ? too_long : in_use[tunnel->variant]),
                                     field("content-type", "text/plain")};
        leg->end = &tunnel->origin;
        submit(leg, fields, no_field ? 1 : typed ? 3 : 2, end_read);
    }
    leg->capsules = says_capsules(&leg->message, leg->peer == &client);
    open_reader(leg, MRZ_ROLE_ENDPOINT, END_LIMIT);
}

static void end_end(struct leg *leg) {
    leg->end->clean = !leg->capsules || mrz_reader_close(&leg->reader).end == MRZ_END_CLEAN;
    if (leg->peer == &origin) {
        resume(leg);
    }
}

static void end_closed(struct leg *leg, uint32_t code) {
    if (leg->end != NULL) {
        leg->end->closed = 1;
        leg->end->code = code;
    }
}

static void start_tunnel(unsigned number) {
    struct tunnel *tunnel = &tunnels[number];
    struct leg *leg = new_leg(&client, 0);
    char path[16] = "";
    nghttp2_nv fields[] = {CONNECT(path), field("capsule-protocol", in_use[tunnel->variant]),
                           field("capsule-protocol", "?1")};
    size_t count = 6;
    sprintf(path, "/%u", number % TUNNELS);
    fields[4] = field(":path", path);
    if (tunnel->kind == PLAIN) { /* no field; one that says no; two lines, which together are no value of the field */
        count = 5 + tunnel->variant;
        fields[5] = field("capsule-protocol", tunnel->variant == 1 ? "?0" : "?1");
    } else if (tunnel->kind == MALFORMED_REQUEST) {
        count = 7;
        fields[6] = tunnel->variant == 0 ? field("content-length", "7") : field("content-type", "text/plain");
    }
    leg->end = &tunnel->client;
    submit(leg, fields, count, end_read);
}

/* ---- nghttp2's callbacks: 0 goes on, TEMPORAL_CALLBACK_FAILURE resets the stream (where allowed), others end all */

static int on_begin_headers(nghttp2_session *session, const nghttp2_frame *frame, void *user_data) {
    struct peer *peer = user_data;
    if (frame->hd.type != NGHTTP2_HEADERS || frame->headers.cat != NGHTTP2_HCAT_REQUEST) {
        return 0;
    }
    if (peer->legs_used == TUNNELS) {
        return NGHTTP2_ERR_TEMPORAL_CALLBACK_FAILURE;
    }
    return nghttp2_session_set_stream_user_data(session, frame->hd.stream_id, new_leg(peer, frame->hd.stream_id));
}

/* Names come in lower case. Several lines of a field are one value, with commas between. */
static int on_header(nghttp2_session *session, const nghttp2_frame *frame, const uint8_t *name, size_t name_length,
                     const uint8_t *value, size_t length, uint8_t flags, void *user_data) {
#define IS(text) (strcmp((const char *)name, text) == 0)
    struct leg *leg = leg_of(session, frame->hd.stream_id);
    struct message *m;
    char *text;
    (void)name_length, (void)flags, (void)user_data;
    if (leg == NULL || leg->read) {
        return 0; /* fields of a trailer section say nothing of the content */
    }
    m = &leg->message;
    m->content_length |= IS("content-length");
    m->content_type |= IS("content-type");
    m->transfer_encoding |= IS("transfer-encoding");
    text = IS(":path") ? m->path : IS(":status") ? m->status : IS("capsule-protocol") ? m->protocol : NULL;
    if (text != NULL) {
        const size_t used = strlen(text), room = text == m->protocol ? sizeof m->protocol : sizeof m->path;
        if (used + 2 + length >= room) {
            return NGHTTP2_ERR_TEMPORAL_CALLBACK_FAILURE; /* cut short it could mean something else */
        }
        sprintf(text + used, "%s%.*s", used > 0 ? ", " : "", (int)length, (const char *)value);
    }
    return 0;
}

static int on_frame(nghttp2_session *session, const nghttp2_frame *frame, void *user_data) {
    struct peer *peer = user_data;
    struct leg *leg = frame->hd.stream_id != 0 ? leg_of(session, frame->hd.stream_id) : NULL;
    if (leg == NULL || (frame->hd.type != NGHTTP2_HEADERS && frame->hd.type != NGHTTP2_DATA)) {
        return 0;
    }
    if (frame->hd.type == NGHTTP2_HEADERS && !leg->read) {
        if (leg->message.status[0] == '1') { /* an interim response: the one that counts is still to come */
            memset(&leg->message, 0, sizeof leg->message);
            return 0;
        }
        (peer->relay_to != NULL ? relay_headers : end_headers)(leg);
    }
    if (frame->hd.flags & NGHTTP2_FLAG_END_STREAM) {
        leg->got_end = 1;
        (peer->relay_to != NULL ? relay_end : end_end)(leg);
    }
    return 0;
}

static int on_data_chunk(nghttp2_session *session, uint8_t flags, int32_t id, const uint8_t *data, size_t length,
                         void *user_data) {
    struct peer *peer = user_data;
    struct leg *leg = leg_of(session, id);
    (void)flags;
    peer->came += length;
    if (leg == NULL) {
        give_back(peer, id, length);
    } else {
        (peer->relay_to != NULL ? relay_take : end_take)(leg, data, length);
    }
    return 0;
}

/* Comes for every stream but those that are open when the session is deleted: their objects are left to the host. */
static int on_stream_close(nghttp2_session *session, int32_t id, uint32_t code, void *user_data) {
    struct peer *peer = user_data;
    struct leg *leg = leg_of(session, id);
    if (leg != NULL) {
        leg->open = 0;
        (peer->relay_to != NULL ? relay_closed : end_closed)(leg, code);
    }
    return 0;
}

static void open_peer(struct peer *peer, int server, struct peer *relay_to) {
    const nghttp2_settings_entry settings[] = {{NGHTTP2_SETTINGS_INITIAL_WINDOW_SIZE,
                                                relay_to != NULL ? RELAY_WINDOW : END_WINDOW},
                                               {NGHTTP2_SETTINGS_MAX_CONCURRENT_STREAMS, TUNNELS},
                                               {NGHTTP2_SETTINGS_ENABLE_CONNECT_PROTOCOL, 1}};
    nghttp2_session_callbacks *callbacks;
    nghttp2_option *option;
    expect("callbacks", 0, nghttp2_session_callbacks_new(&callbacks));
    expect("an option", 0, nghttp2_option_new(&option));
    nghttp2_session_callbacks_set_on_begin_headers_callback(callbacks, on_begin_headers);
    nghttp2_session_callbacks_set_on_header_callback(callbacks, on_header);
    nghttp2_session_callbacks_set_on_frame_recv_callback(callbacks, on_frame);
    nghttp2_session_callbacks_set_on_data_chunk_recv_callback(callbacks, on_data_chunk);
    nghttp2_session_callbacks_set_on_stream_close_callback(callbacks, on_stream_close);
    nghttp2_option_set_no_auto_window_update(option, 1); /* windows are opened by give_back alone */
    peer->relay_to = relay_to;
    expect("a session", 0, server ? nghttp2_session_server_new2(&peer->session, callbacks, peer, option)
                                  : nghttp2_session_client_new2(&peer->session, callbacks, peer, option));
    expect("settings", 0, nghttp2_submit_settings(peer->session, NGHTTP2_FLAG_NONE, settings, server ? 3 : 2));
    nghttp2_option_del(option);
    nghttp2_session_callbacks_del(callbacks);
}

/* Takes what one session writes, and hands the next piece of it to the other one. Answers whether there was any. */
static int move(struct peer *from, struct peer *to) {
    const uint8_t *bytes;
    size_t cut = 1 + random_below(random_below(3) == 0 ? 12 : LONGEST_CUT);
    ssize_t length = 0;
    while (from->wire_length < WIRE / 2) {
        length = nghttp2_session_mem_send(from->session, &bytes);
        if (length <= 0) {
            break;
        }
        expect("the room of a wire", 1, (size_t)length <= WIRE - from->wire_length);
        memcpy(from->wire + from->wire_length, bytes, (size_t)length);
        from->wire_length += (size_t)length;
    }
    expect("sending", 1, length >= 0);
    if (from->wire_length == 0) {
        return 0;
    }
    cut = cut < from->wire_length ? cut : from->wire_length;
    expect("receiving", (int64_t)cut, nghttp2_session_mem_recv(to->session, from->wire, cut));
    from->wire_length -= cut;
    memmove(from->wire, from->wire + cut, from->wire_length);
    return 1;
}

/* Until nothing moves. */
static void run(void) {
    while (move(&client, &relay_server) + move(&relay_server, &client) + move(&relay_client, &origin) +
               move(&origin, &relay_client) > 0) {
    }
}

/* ---- what came of it */

/* Whether an end got what the other one sent: all of it, or, of a tunnel that was cut off, the front of it. */
static int got_right(const struct end *end, const struct end *other, int all) {
    return end->got.length <= other->relayed.length &&
           memcmp(end->got.bytes, other->relayed.bytes, end->got.length) == 0 &&
           (!all || (end->clean && end->got.length == other->relayed.length));
}

/* Of the whole tunnels, both directions. */
static struct counts total;
static uint64_t total_sent, total_got;

/* Whether the relay and the end that got a script have counted what is in it. Adds it to the total. */
static int counted_right(const struct end *from, const struct leg *relay, const struct end *to) {
    const struct counts *script = &from->script;
    total.datagrams += relay->counts.datagrams;
    total.dropped += relay->counts.dropped;
    total.others += relay->counts.others;
    total.sum ^= to->counts.sum;
    total_sent += from->sent.length;
    total_got += to->got.length;
    return memcmp(script, &relay->counts, sizeof *script) == 0 && script->datagrams == to->counts.datagrams &&
           script->others == to->counts.others && script->sum == to->counts.sum;
}

static unsigned compare(void) {
    static const struct {
        const char *name;
        uint32_t client_code, origin_code; /* that the streams should be closed with */
    } kinds[KINDS] = {{"whole", 0, 0},
                      {"without capsules", 0, 0},
                      {"answered 404", 0, 0},
                      {"request truncated", NGHTTP2_PROTOCOL_ERROR, NGHTTP2_PROTOCOL_ERROR},
                      {"response truncated", NGHTTP2_PROTOCOL_ERROR, 0},
                      {"reset by the client", NGHTTP2_CANCEL, NGHTTP2_CANCEL},
                      {"reset by the origin", NGHTTP2_CANCEL, NGHTTP2_CANCEL},
                      {"request malformed", NGHTTP2_PROTOCOL_ERROR, 0},
                      {"response malformed", NGHTTP2_PROTOCOL_ERROR, NGHTTP2_PROTOCOL_ERROR}};
    const struct peer *const peers[] = {&client, &relay_server, &relay_client, &origin};
    unsigned wrong = 0, counts[KINDS] = {0}, i;
    for (i = 0; i < TUNNELS; i++) {
        const struct tunnel *t = &tunnels[i];
        const struct leg *leg = &relay_server.legs[i]; /* streams come in the order of the requests */
        const int reached = t->kind != MALFORMED_REQUEST;
        int right = t->client.closed && t->client.code == kinds[t->kind].client_code &&
                    t->origin.closed == reached && t->origin.code == kinds[t->kind].origin_code &&
                    got_right(&t->origin, &t->client, t->kind <= REFUSED || t->kind == TRUNCATED_RESPONSE) &&
                    got_right(&t->client, &t->origin, t->kind <= REFUSED);
        if (right && t->kind == WHOLE) {
            right = counted_right(&t->client, leg, &t->origin) && counted_right(&t->origin, leg->mate, &t->client);
        }
        if (!right) {
            printf("tunnel %u, %s: not as it should be\n", i, kinds[t->kind].name);
            wrong++;
        }
        counts[t->kind]++;
    }
    for (i = 0; i < KINDS; i++) {
        printf("%u %s: closed with code %u at the client, %u at the origin\n", counts[i], kinds[i].name,
               (unsigned)kinds[i].client_code, (unsigned)kinds[i].origin_code);
    }
    printf("of the whole ones: %" PRIu64 " bytes sent and %" PRIu64 " got, %" PRIu64 " datagrams written anew, %" PRIu64
           " dropped, %" PRIu64 " capsules passed, sum %016" PRIx64 "\n",
           total_sent, total_got, total.datagrams, total.dropped, total.others, total.sum);
    printf("truncated in a type: %u, in a length: %u, in a value: %u\n", truncated_in[MRZ_FIELD_TYPE],
           truncated_in[MRZ_FIELD_LENGTH], truncated_in[MRZ_FIELD_VALUE]);
    printf("field values that are too long, treated as absent: %u\n", fields_too_long);
    for (i = 0; i < 4; i++) {
        if (peers[i]->came != peers[i]->given_back) {
            printf("session %u: %" PRIu64 " bytes came, %" PRIu64 " were given back\n", i, peers[i]->came,
                   peers[i]->given_back);
            wrong++;
        }
    }
    return wrong;
}

int main(void) {
    unsigned i, wrong;
    make_tunnels();
    memset(too_long, 'a', sizeof too_long - 1);
    memcpy(too_long, "?1;v=", 5);
    open_peer(&client, 0, NULL);
    open_peer(&relay_server, 1, &relay_client);
    open_peer(&relay_client, 0, &relay_server);
    open_peer(&origin, 1, NULL);
    run(); /* settings: a client must have seen this one before it sends an extended CONNECT */
    expect("the relay's setting", 1,
           nghttp2_session_get_remote_settings(client.session, NGHTTP2_SETTINGS_ENABLE_CONNECT_PROTOCOL));
    expect("the origin's setting", 1,
           nghttp2_session_get_remote_settings(relay_client.session, NGHTTP2_SETTINGS_ENABLE_CONNECT_PROTOCOL));
    for (i = 0; i < TUNNELS; i++) {
        start_tunnel(i);
    }
    run();
    wrong = compare();
    nghttp2_session_del(client.session);
    nghttp2_session_del(relay_server.session);
    nghttp2_session_del(relay_client.session);
    nghttp2_session_del(origin.session);
    if (wrong > 0) {
        printf("%u differences\n", wrong);
        return 1;
    }
    printf("each end got what the other one sent, and every window was opened by what came\n");
    return 0;
}
