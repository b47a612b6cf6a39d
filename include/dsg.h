/*
 * dsg.h: the DSG receiver (ITU-T J.128, advanced mode), and the writing of a DCD for a head end, for a host in C99 or C++11.
 *
 * The functions are proved: each does, for every input, what its definition says. A definition is named with each
 * function below and stands in crates/NAME/specs; those of dsg_pieces, dsg_tables, dsg_frames and dsg_events say how
 * answers become numbers.
 * No function allocates, keeps a pointer, has state of its own, reads a clock or calls back. So they may run in
 * several threads at once, as long as no two calls are lent the same record or buffer, unless both only read it.
 *
 * An answer of more than 16 bytes is written where the first argument points, and that pointer is what the function
 * returns: struct dsg_verdict v; if (dsg_judge_prepared(&v, &tunnel, frame, length)->kind == DSG_JUDGE_FORWARD) .. Every
 * field is written; nothing that was there is read. It is the same call on x86-64 and on Arm.
 *
 * When a board calls what, from power-up to a change of channel: docs/BOARD.md; in C: examples/host.c.
 *
 * What only the caller can promise:
 *   - a pointer to a record points to one, is not null, and is aligned as C aligns that record; a pointer to bytes points to
 *     as many as its length says, or is anything, null too, where the length is 0; the compiler's layout of the records is
 *     asserted below;
 *   - a record or buffer that is lent was written once, with whatever bytes; one that is only written (an answer, the record
 *     of dsg_empty_.., the tunnel of dsg_prepare) need not be. Of records of nothing but zeros a collection has nothing
 *     collected and is loose, a modem counts as Idle and in a tunnel no rule fits; a table has timers of 0, which is not the
 *     table of the empty message;
 *   - what a function may write overlaps nothing else that is lent to the same call;
 *   - nobody else (a thread, an interrupt, DMA) writes what is lent while the call runs, nor reads what it may write;
 *   - the stack has room for the call: the numbers are below.
 * Everything else is tested: no value of a record, no length and no byte is an error of the caller. A record that no
 * calls could have made counts as nothing collected (collection) or as Idle (modem), a count above its limit is read
 * as the limit (table, tunnel; dsg_write alone refuses such a table), and a number that names no event is an event that
 * changes nothing by itself.
 *
 * A refusal is a number, DSG_REFUSED_..: document 01's, 19 to 21 of document 02, and one of our own above them. After a refusal
 * every record and every buffer that was lent holds what it held before, but for two: where dsg_receive takes a body whose
 * message is then refused, the pieces stay collected and the table is as before; and 21 drops what was collected (kind 5):
 * the collection is empty and keeps its setting, both buffers hold what they would hold had the message been complete, and
 * the table is as before. Fields of an answer that its kind does not use are 0. The bytes between the fields of a record
 * mean nothing and may change at any call that is lent the record to write: compare records field by field.
 *
 * Memory that a board needs: the records below and two buffers of DSG_BUFFER_BYTES, some 55,000 bytes. Stack, as
 * examples/stack.c measures it on x86-64: dsg_list_body 128,700 bytes, dsg_receive 80,900, dsg_read 60,600,
 * dsg_judge 26,500, dsg_prepare 22,000, dsg_list_table 20,200, dsg_write 19,500, dsg_choose 13,300, dsg_collect 4,000;
 * what runs for each frame and event (dsg_judge_prepared, dsg_event, dsg_transmits, dsg_forwards) and the empty records under 200. Of the C library
 * only memcpy, memmove and memset are called.
 */
#ifndef DSG_H
#define DSG_H

#include <stddef.h>
#include <stdint.h>
#ifndef __cplusplus
#include <stdbool.h>
#endif

/* The library is compiled for these two: 64 bits, little-endian, the same sizes and alignments. */
#if !(defined(__linux__) && (defined(__x86_64__) || defined(__aarch64__)) && defined(__LP64__) && \
      defined(__BYTE_ORDER__) && __BYTE_ORDER__ == __ORDER_LITTLE_ENDIAN__)
#error "dsg.h: libdsg.a is for Linux on x86-64 and on 64-bit little-endian Arm (aarch64), and for nothing else"
#endif

#ifdef __cplusplus
extern "C" {
#endif

/* ---- limits ------------------------------------------------------------------------------------------------- */

#define DSG_BUFFER_BYTES 24000u   /* the least length of the slot buffer and of the join buffer */
#define DSG_BODY_BYTES 1500u      /* the longest body that is taken */
#define DSG_MESSAGE_BYTES 23952u  /* the longest message that is read */
#define DSG_FRAME_LEAST 14u       /* the shortest and */
#define DSG_FRAME_MOST 1518u      /* the longest frame that is judged */
#define DSG_LISTING_BYTES 3755u   /* the least length of a buffer for a listing: the longest listing of any table */
#define DSG_WRITE_BYTES 12000u    /* a buffer that is never too short for dsg_write, with vendor blocks (Req 05) too */
#define DSG_PIECE_STEP 1500u      /* from the start of a piece that dsg_write writes to the start of the next */

#define DSG_SLOTS 16u             /* pieces of a collection */
#define DSG_RULES 32u             /* the room of a table */
#define DSG_CLASSIFIERS 32u
#define DSG_CHANNELS 32u
#define DSG_RULE_CLIENTS 8u       /* the room of a rule */
#define DSG_RULE_CLASSIFIERS 8u
#define DSG_RULE_UCIDS 16u

/* ---- refusals ----------------------------------------------------------------------------------------------- */

enum dsg_refusal {
    DSG_REFUSED_NOTHING = 0,         /* no refusal */
    DSG_REFUSED_SHORT_BUFFER = 1,    /* a lent buffer under DSG_BUFFER_BYTES */
    DSG_REFUSED_SHORT_BODY = 2,      /* body under 3 bytes */
    DSG_REFUSED_TOO_LONG = 3,        /* body over DSG_BODY_BYTES, or message over DSG_MESSAGE_BYTES */
    DSG_REFUSED_FRAGMENTS = 4,       /* number of fragments 0 or over 16 */
    DSG_REFUSED_SEQUENCE = 5,        /* sequence number 0 or above the number */
    DSG_REFUSED_LONE_BYTE = 6,       /* one byte left where an element should start */
    DSG_REFUSED_LENGTH_255 = 7,      /* length 255 */
    DSG_REFUSED_PAST_END = 8,        /* value runs past its row or the message */
    DSG_REFUSED_SECOND_COPY = 9,     /* second copy of a type that does not repeat */
    DSG_REFUSED_LENGTH = 10,         /* length other than the type's */
    DSG_REFUSED_VALUE = 11,          /* value that the type does not allow */
    DSG_REFUSED_FULL = 12,           /* list already full, or too many UCIDs */
    DSG_REFUSED_MISSING = 13,        /* row ends without an element that it must have */
    DSG_REFUSED_TAKEN = 14,          /* rule or classifier number already taken */
    DSG_REFUSED_NO_CLASSIFIER = 15,  /* a rule names a classifier that the message has not */
    DSG_REFUSED_FRAME = 16,          /* frame under DSG_FRAME_LEAST or over DSG_FRAME_MOST */
    DSG_REFUSED_NO_RULE = 17,        /* no rule fits the client */
    DSG_REFUSED_CLOCK_BACK = 18,     /* clock went back */
    DSG_REFUSED_CANNOT_PRODUCE = 19, /* a table to write that no message reads to (document 02) */
    DSG_REFUSED_SHORT_OUTPUT = 20,   /* a buffer shorter than the pieces of a table need (document 02) */
    DSG_REFUSED_CUT = 21,            /* pieces of a strict collection were cut inside an element (document 02) */
    DSG_REFUSED_SHORT_LISTING = 100  /* a buffer for a listing under DSG_LISTING_BYTES (of our own) */
};

/* ---- records that the host owns and lends ------------------------------------------------------------------- */

/* The kinds of a client. */
enum dsg_client_kind {
    DSG_CLIENT_BROADCAST_ALL = 0, /* broadcast of length 0; its value is 0 */
    DSG_CLIENT_BROADCAST = 1,     /* broadcast of a value */
    DSG_CLIENT_MAC = 2,           /* well-known MAC: six bytes as one big-endian number */
    DSG_CLIENT_CA_SYSTEM = 3,
    DSG_CLIENT_APPLICATION = 4
};

/* A client ID. A rule fits a client where it lists one of that kind and that value, whatever the numbers are. */
struct dsg_client {
    uint8_t kind;
    uint64_t value;
};

/* A rule. Of each list the first places up to its count are used; no UCID means no UCID list. */
struct dsg_rule {
    uint8_t number;
    uint8_t priority;
    uint8_t ucidcount;
    uint8_t clientcount;
    uint8_t numbercount;
    uint8_t ucids[16];
    uint16_t numbers[8]; /* the numbers of its classifiers */
    uint64_t tunnel;     /* the tunnel address: six bytes as one big-endian number; no frame has one of 2^48 or more */
    struct dsg_client clients[8];
};

/* A classifier. A part whose mark is 0 is absent, and its value means nothing; in a table that was read a mark is 0 or 1, and an
 * absent part is 0. Addresses are big-endian numbers: 0x0A000001 is 10.0.0.1. */
struct dsg_classifier {
    uint32_t destination;
    uint32_t source;
    uint32_t mask;
    uint16_t number;
    uint16_t start;
    uint16_t end;
    uint8_t priority;
    uint8_t hassource;
    uint8_t hasmask;
    uint8_t hasstart;
    uint8_t hasend;
};

/* Timer values in seconds. */
struct dsg_timer_values {
    uint16_t tdsg1;
    uint16_t tdsg2;
    uint16_t tdsg3;
    uint16_t tdsg4;
};

/* A table. Of each list the first places up to its count are used; in a table that was read the others hold 0. */
struct dsg_table {
    uint8_t rulecount;
    uint8_t classifiercount;
    uint8_t channelcount;
    struct dsg_timer_values timers;
    uint32_t channels[32]; /* in Hz */
    struct dsg_classifier classifiers[32];
    struct dsg_rule rules[32];
};

/* What is collected: for each slot whether it is filled (1, else 0) and the bytes of its piece. Number 0: nothing.
 * The setting: 0 is loose, every other number is strict. Under the strict setting a message is dropped whose pieces were cut
 * anywhere but between its top-level elements; under the loose one it may be cut anywhere. Every call leaves the setting as it
 * was lent. Set it only in an empty record, as dsg_empty_collection does: the message that is being collected is judged by the
 * setting that is lent with its last missing piece. */
struct dsg_collection {
    uint8_t count;
    uint8_t number;
    uint8_t filled[16];
    uint16_t lengths[16];
    uint16_t strict;
};

/* What dsg_prepare gives. A host may copy and keep it; what its fields mean is the library's. Places behind the count are not
 * looked at. */
struct dsg_tunnel {
    uint64_t address;
    uint8_t mode; /* 0: no rule fits; 1: the rule names no classifier; else by the entries */
    uint8_t count;
    uint32_t destinations[32];
    uint32_t sources[32];
    uint32_t masks[32];
    uint16_t starts[32];
    uint16_t ends[32];
    uint16_t numbers[32];
    uint8_t ports[32];
};

/* The states of a modem. */
enum dsg_state {
    DSG_IDLE = 0,
    DSG_SCANNING = 1,
    DSG_CHECKING = 2,
    DSG_ONE_WAY = 3,
    DSG_RANGING = 4,
    DSG_TWO_WAY = 5,
    DSG_RESTING = 6
};

/* The modem. Times in milliseconds, timer values in seconds. A mark (receiveon, retryon, hasucid) is 1 where the timer runs or the
 * UCID is known, else 0; a value beside a mark of 0 means nothing. A record counts as Idle, and only DSG_START changes it,
 * where the state, a mark or the permission is outside its values; the receive timer is off in Checking, Resting or a
 * forwarding state, or on in Scanning; the retry timer is on outside OneWay or without permission; there is a UCID outside
 * TwoWay, or none in it; Ranging or TwoWay is without permission; tdsg1 or tdsg2 is 0; a timer is over 65,535,000. */
struct dsg_modem {
    uint32_t last; /* the last clock */
    uint32_t receive;
    uint32_t retry;
    uint16_t tdsg1;
    uint16_t tdsg2;
    uint16_t tdsg3;
    uint16_t tdsg4;
    uint16_t receiveon;
    uint16_t retryon;
    uint8_t state;
    uint8_t permission; /* 1: may transmit */
    uint8_t hasucid;
    uint8_t ucid;
};

/* Records to begin with: nothing collected under a setting (0 loose, else strict), the table of the empty message, an idle modem.
 * Written: the record, all of it.
 * Definitions: collection/specs/Record empty_collection, table/specs/Table empty_table, modem_record/specs/Record empty_modem. */
struct dsg_collection *dsg_empty_collection(struct dsg_collection *held, uint16_t strict);
struct dsg_table *dsg_empty_table(struct dsg_table *table);
struct dsg_modem *dsg_empty_modem(struct dsg_modem *modem);

/* ---- collecting and reading --------------------------------------------------------------------------------- */

enum dsg_collected_kind {
    DSG_COLLECT_REFUSED = 0,       /* number: 1 to 5 */
    DSG_COLLECT_REPEAT = 1,        /* this piece is held already: nothing changed */
    DSG_COLLECT_WAITING = 2,       /* empty: how many slots are empty */
    DSG_COLLECT_COMPLETE_BODY = 3, /* the message is the part of the body at start, of length bytes */
    DSG_COLLECT_COMPLETE_JOIN = 4, /* the message is the part of the join buffer at start, of length bytes */
    DSG_COLLECT_DROPPED = 5        /* all pieces came, cut inside an element; number: 21, offset: of the first bad cut */
};

struct dsg_collected {
    uint32_t kind;
    uint32_t number;
    size_t empty;
    size_t start;
    size_t length;
    size_t offset;
};

/* Takes one body.
 * Lent: the record, a slot buffer and a join buffer of DSG_BUFFER_BYTES or more, the body.
 * Written: the record; of the slots, the bytes of the piece; of the join buffer, the bytes of a message that came in
 *   more pieces than one, at its start. Pass the same record and the same buffers, untouched, each time; empty the record
 *   (dsg_empty_collection) on every entry of the modem into Scanning.
 * Complete: start and length name the message's bytes, of the body (kind 3) or of the join buffer as it is after the call (4).
 *   A message is complete once, at its last missing piece; a further copy of a piece is a repeat. In the join buffer it stays
 *   until another message of more pieces than one is complete or dropped.
 * Dropped (kind 5): the setting is strict, no piece is missing, and a piece but the last ends where it may not; offset is the first
 *   such end, as a byte of the joined message. A piece may end where a top-level element starts, at the message's end, and
 *   anywhere behind the start of the first top-level element that itself gives 6, 7 or 8: only type and length bytes count.
 *   The record is empty and keeps its setting; slots and join buffer are as they would be at Complete. The next body that is
 *   not refused starts a run, a copy of this one too. A message in one piece is never dropped.
 * Refused (kind 0): all that was lent holds what it held.
 * Definition: collector/specs/Step collect_step, cuts/specs/Cuts cuts_in; dsg_pieces/specs/Bodies collected_of. */
struct dsg_collected *dsg_collect(struct dsg_collected *answer, struct dsg_collection *held, uint8_t *slots,
                                  size_t slots_length, uint8_t *join, size_t join_length, const uint8_t *body,
                                  size_t body_length);

struct dsg_read_answer {
    uint32_t number; /* 0: accepted; else the refusal, 3 or 6 to 15 */
    size_t offset;   /* of the type byte that a refusal 6 to 15 concerns; else 0 */
};

/* Reads a whole message.
 * Lent: the table, the message. Written: the table, where the message is accepted; nothing of what it held is kept.
 * Refused (number not 0): the table holds what it held.
 * Definition: reader/specs/Read read_table; dsg_tables/specs/Tables read_answer. */
struct dsg_read_answer dsg_read(struct dsg_table *table, const uint8_t *message, size_t length);

enum dsg_received_kind {
    DSG_RECEIVE_REFUSED = 0,         /* the body was refused; number: 1 to 5 */
    DSG_RECEIVE_REPEAT = 1,          /* this piece is held already: nothing changed */
    DSG_RECEIVE_WAITING = 2,         /* empty: how many slots are empty */
    DSG_RECEIVE_ACCEPTED = 3,        /* the message is complete, and the table is its table */
    DSG_RECEIVE_MESSAGE_REFUSED = 4, /* the message is complete and was refused; number, offset: as dsg_read's */
    DSG_RECEIVE_DROPPED = 5          /* all pieces came, cut inside an element; number, offset: as dsg_collect's */
};

struct dsg_received {
    uint32_t kind;
    uint32_t number;
    size_t empty;
    size_t offset;
};

/* Takes one body and, where it completes a message, reads that: dsg_collect and then dsg_read.
 * Lent, written: as by these two. A refused body changes nothing. Whatever is answered, the record and both buffers are
 *   exactly those that dsg_collect leaves for this body. So where a message is complete and refused (kind 4) its pieces
 *   stay collected, and a repeat is a repeat; the table holds what it held, and number and offset are those that dsg_read
 *   gives for that message. A message that is dropped (kind 5) is not read: the table holds what it held.
 * Definition: receiver/specs/Receive receive_step; dsg_pieces/specs/Bodies received_of. */
struct dsg_received *dsg_receive(struct dsg_received *answer, struct dsg_collection *held, struct dsg_table *table,
                                 uint8_t *slots, size_t slots_length, uint8_t *join, size_t join_length,
                                 const uint8_t *body, size_t body_length);

/* ---- choosing and judging ----------------------------------------------------------------------------------- */

/* A client is a kind and a value; a UCID counts where ucid_known is not 0. */

struct dsg_choice {
    uint32_t number; /* 0: chosen; else the refusal, 17 */
    size_t place;    /* of the rule in the table, from 0 */
};

/* Chooses the rule for a client. Lent: the table. Nothing is written.
 * Definition: choice/specs/Choose choice_of; dsg_frames/specs/Frames choice_as. */
struct dsg_choice dsg_choose(const struct dsg_table *table, uint8_t kind, uint64_t value, uint8_t ucid_known,
                             uint8_t ucid);

enum dsg_verdict_kind {
    DSG_JUDGE_REFUSED = 0, /* number: 16 or 17 */
    DSG_JUDGE_OTHER = 1,   /* not for this tunnel */
    DSG_JUDGE_FORWARD = 2, /* number: of the classifier that matches, or 0; start, length: the payload in the frame */
    DSG_JUDGE_FILTERED = 3 /* for this tunnel, and no classifier matches */
};

struct dsg_verdict {
    uint32_t kind;
    uint32_t number;
    size_t start;
    size_t length;
};

/* Judges a frame for a client. A classifier looks for the port behind the IP header, which is as long as its first byte
 * says: options are stepped over. A header under five words, or one that passes the frame's end, matches no classifier; a
 * rule that names none forwards all the same. Lent: the table, the frame. Nothing is written.
 * Definition: tunnel/specs/Judge verdict_of, packets/specs/Packets; dsg_frames/specs/Frames verdict_as. */
struct dsg_verdict *dsg_judge(struct dsg_verdict *answer, const struct dsg_table *table, uint8_t kind, uint64_t value,
                              uint8_t ucid_known, uint8_t ucid, const uint8_t *frame, size_t length);

/* The rule for a client and its classifiers, taken out of the table once, to judge many frames with. Anew after each
 * accepted table, and where the UCID or the client changes. Lent: the table. Written: the tunnel alone.
 * Definition: preparing/specs/Preparing prepared_tunnel. */
struct dsg_tunnel *dsg_prepare(struct dsg_tunnel *tunnel, const struct dsg_table *table, uint8_t kind, uint64_t value,
                               uint8_t ucid_known, uint8_t ucid);

/* Judges a frame with what dsg_prepare gave: the verdict is that of dsg_judge with the same table, client and UCID.
 * Lent: the tunnel, the frame. Nothing is written. Definition: tunnel_parts/specs/Prepared prepared_verdict; dsg_frames/specs/Frames verdict_as. */
struct dsg_verdict *dsg_judge_prepared(struct dsg_verdict *answer, const struct dsg_tunnel *tunnel,
                                       const uint8_t *frame, size_t length);

/* ---- the modem ---------------------------------------------------------------------------------------------- */

/* Events, in the order of document 01's table. What each carries is in brackets; an argument that it does not carry is
 * not looked at. Any other number, a permission other than 0 and 1 and a UCID over 255 name no event: the clock and the
 * running timers move as at any event, and nothing else does. In Idle every event but DSG_START changes nothing at all. */
enum dsg_event_kind {
    DSG_START = 1, /* (a: 1 may transmit, 0 may not) */
    DSG_LOCKED = 2,
    DSG_SCAN_EMPTY = 3,
    DSG_TABLE_ACCEPTED = 4, /* (a, b, c, d: Tdsg1 to Tdsg4 of the table; a Tdsg1 or Tdsg2 of 0 counts as its default) */
    DSG_PACKET = 5,
    DSG_TICK = 6, /* the only event at which a timer acts */
    DSG_ENABLE = 7,
    DSG_UPSTREAM_UP = 8, /* (a: the UCID) */
    DSG_UPSTREAM_LOST = 9,
    DSG_DISABLE = 10,
    DSG_HUNT = 11,
    DSG_DOWNSTREAM_LOST = 12
};

/* One event at a clock in milliseconds, which runs over its top. Returns 0, or 18 where the clock went back: 2^31 or more after
 * the last one, modulo 2^32 (never for DSG_START with 0 or 1, nor in Idle).
 * Lent: the modem. Written: the modem. Refused (18): the modem holds what it held.
 * Definition: modem_step/specs/Numbers numbered_step; dsg_events/specs/Events event_stepped. */
uint32_t dsg_event(struct dsg_modem *modem, uint32_t clock, uint8_t event, uint16_t a, uint16_t b, uint16_t c,
                   uint16_t d);

/* Whether the transmitter is on, and whether tunnels are forwarded. Lent: the modem. Nothing is written.
 * Definition: modem_asked/specs/Asked transmits, forwards. */
bool dsg_transmits(const struct dsg_modem *modem);
bool dsg_forwards(const struct dsg_modem *modem);

/* ---- listing ------------------------------------------------------------------------------------------------ */

struct dsg_listed {
    uint32_t number; /* 0: written; else the refusal, 100 */
    size_t length;   /* of the text */
};

/* The text of a table that came under a change count: the lines that dcdlist writes.
 * Lent: the table, a buffer of DSG_LISTING_BYTES or more. Written: the text, at the buffer's start, and no byte behind it: it
 *   does not end with a 0 byte. Of a tunnel of 2^48 or more the last twelve digits are written.
 * Refused (number not 0): the buffer holds what it held.
 * Definition: notices/specs/Listing listing, listing/specs/Text table_text; dsg_tables/specs/Tables list_after. */
struct dsg_listed dsg_list_table(const struct dsg_table *table, uint8_t count, uint8_t *out, size_t out_length);

/* What dcdlist writes for one body, taken with nothing collected: a table, a refusal, or how many pieces it waits for.
 * Lent, written, refused: as dsg_list_table. It takes the most stack: it has two buffers of its own.
 * Definition: notices/specs/Listing listing, bodies/specs/Body body_text; dsg_tables/specs/Tables body_after. */
struct dsg_listed dsg_list_body(const uint8_t *body, size_t body_length, uint8_t *out, size_t out_length);

/* ---- writing: the head end's half --------------------------------------------------------------------------- */

struct dsg_written {
    uint32_t number;      /* 0: written; else the refusal, 19 or 20 */
    uint32_t pieces;      /* how many bodies were written, 1 to 16; refused: 0 */
    uint16_t lengths[16]; /* of each body, its head among them: 3 to DSG_BODY_BYTES; the places behind the last: 0 */
};

/* Writes a table as the bodies of a DCD under a change count.
 * Lent: the table, a buffer; DSG_WRITE_BYTES are enough for every table.
 * Written: body s, from 1, at out + (s - 1) * DSG_PIECE_STEP, lengths[s - 1] bytes long: the count, the number of pieces, s,
 *   a part of the message. The bytes between the bodies and behind the last hold what they held.
 *   The message is the configuration (its channels, and those timers that are not 2, 600, 300 and 1800; none at all where
 *   there is neither), then the classifiers, then the rules, in table order. It is cut between these elements alone, each piece
 *   filled as far as the next one allows: so a strict collection takes it too. Without any element there is one body of 3 bytes.
 *   Where nothing or another count is collected, dsg_receive of the bodies, in any order, gives this table back, field by
 *   field. A table that changed wants another count.
 * Refused (number 19 or 20, 19 first): no byte of the buffer has changed, pieces and lengths are 0.
 *   19: there is no message that reads to this table, so no receiver could have it back. A table of dsg_read, dsg_receive or
 *   dsg_empty_table is never so; one that the host made or changed is, where
 *     - a count is over its limit, or a place behind a count is not 0 (of an unused rule, classifier or client, every field);
 *     - two rules or two classifiers have one number, a classifier has 0, or a rule names a number that no classifier has;
 *     - the mark of a classifier's part is neither 0 nor 1, or is 0 beside a value that is not;
 *     - a client is none of these: kind 0 with 0, kind 1 with 1 to 65535, kinds 3 and 4 with 0 to 65535, kind 2 below 2^48;
 *     - a tunnel is 2^48 or more, a channel no multiple of 62,500 from 62,500 to 1,000,000,000, tdsg1 or tdsg2 0.
 *   Only fields count: the bytes between them mean nothing here too. Begin such a table with dsg_empty_table.
 *   20: the buffer is under (pieces - 1) * DSG_PIECE_STEP and the last body's length together.
 * Definition: writing_table/specs/Writing writing, writing_elements/specs/Encode elements_of, writing_check/specs/Producible
 *   producible; dsg_tables/specs/Tables write_after. */
struct dsg_written *dsg_write(struct dsg_written *answer, const struct dsg_table *table, uint8_t count, uint8_t *out,
                              size_t out_length);

/* ---- layout ------------------------------------------------------------------------------------------------- */

/* x86-64 and aarch64 lay these records out alike; where a compiler lays one out otherwise, these do not compile. */
#if defined(__cplusplus)
#define DSG_ASSERT(name, test) static_assert(test, #name)
#elif defined(__STDC_VERSION__) && __STDC_VERSION__ >= 201112L
#define DSG_ASSERT(name, test) _Static_assert(test, #name)
#else
#define DSG_ASSERT(name, test) typedef char dsg_assert_##name[(test) ? 1 : -1]
#endif
#define DSG_SIZE(type, bytes) DSG_ASSERT(type##_size, sizeof(struct type) == (bytes))
#define DSG_AT(type, field, bytes) DSG_ASSERT(type##_##field, offsetof(struct type, field) == (bytes))

DSG_ASSERT(byte_bits, (unsigned char)-1 == 255);
DSG_ASSERT(size_t_size, sizeof(size_t) == 8);
DSG_ASSERT(pointer_size, sizeof(void *) == 8);
DSG_ASSERT(bool_size, sizeof(bool) == 1);

DSG_SIZE(dsg_client, 16);
DSG_AT(dsg_client, kind, 0);
DSG_AT(dsg_client, value, 8);

DSG_SIZE(dsg_rule, 176);
DSG_AT(dsg_rule, number, 0);
DSG_AT(dsg_rule, priority, 1);
DSG_AT(dsg_rule, ucidcount, 2);
DSG_AT(dsg_rule, clientcount, 3);
DSG_AT(dsg_rule, numbercount, 4);
DSG_AT(dsg_rule, ucids, 5);
DSG_AT(dsg_rule, numbers, 22);
DSG_AT(dsg_rule, tunnel, 40);
DSG_AT(dsg_rule, clients, 48);

DSG_SIZE(dsg_classifier, 24);
DSG_AT(dsg_classifier, destination, 0);
DSG_AT(dsg_classifier, source, 4);
DSG_AT(dsg_classifier, mask, 8);
DSG_AT(dsg_classifier, number, 12);
DSG_AT(dsg_classifier, start, 14);
DSG_AT(dsg_classifier, end, 16);
DSG_AT(dsg_classifier, priority, 18);
DSG_AT(dsg_classifier, hassource, 19);
DSG_AT(dsg_classifier, hasmask, 20);
DSG_AT(dsg_classifier, hasstart, 21);
DSG_AT(dsg_classifier, hasend, 22);

DSG_SIZE(dsg_timer_values, 8);
DSG_AT(dsg_timer_values, tdsg1, 0);
DSG_AT(dsg_timer_values, tdsg2, 2);
DSG_AT(dsg_timer_values, tdsg3, 4);
DSG_AT(dsg_timer_values, tdsg4, 6);

DSG_SIZE(dsg_table, 6544);
DSG_AT(dsg_table, rulecount, 0);
DSG_AT(dsg_table, classifiercount, 1);
DSG_AT(dsg_table, channelcount, 2);
DSG_AT(dsg_table, timers, 4);
DSG_AT(dsg_table, channels, 12);
DSG_AT(dsg_table, classifiers, 140);
DSG_AT(dsg_table, rules, 912);

DSG_SIZE(dsg_collection, 52);
DSG_AT(dsg_collection, count, 0);
DSG_AT(dsg_collection, number, 1);
DSG_AT(dsg_collection, filled, 2);
DSG_AT(dsg_collection, lengths, 18);
DSG_AT(dsg_collection, strict, 50);

DSG_SIZE(dsg_tunnel, 624);
DSG_AT(dsg_tunnel, address, 0);
DSG_AT(dsg_tunnel, mode, 8);
DSG_AT(dsg_tunnel, count, 9);
DSG_AT(dsg_tunnel, destinations, 12);
DSG_AT(dsg_tunnel, sources, 140);
DSG_AT(dsg_tunnel, masks, 268);
DSG_AT(dsg_tunnel, starts, 396);
DSG_AT(dsg_tunnel, ends, 460);
DSG_AT(dsg_tunnel, numbers, 524);
DSG_AT(dsg_tunnel, ports, 588);

DSG_SIZE(dsg_modem, 28);
DSG_AT(dsg_modem, last, 0);
DSG_AT(dsg_modem, receive, 4);
DSG_AT(dsg_modem, retry, 8);
DSG_AT(dsg_modem, tdsg1, 12);
DSG_AT(dsg_modem, tdsg2, 14);
DSG_AT(dsg_modem, tdsg3, 16);
DSG_AT(dsg_modem, tdsg4, 18);
DSG_AT(dsg_modem, receiveon, 20);
DSG_AT(dsg_modem, retryon, 22);
DSG_AT(dsg_modem, state, 24);
DSG_AT(dsg_modem, permission, 25);
DSG_AT(dsg_modem, hasucid, 26);
DSG_AT(dsg_modem, ucid, 27);

DSG_SIZE(dsg_collected, 40);
DSG_AT(dsg_collected, kind, 0);
DSG_AT(dsg_collected, number, 4);
DSG_AT(dsg_collected, empty, 8);
DSG_AT(dsg_collected, start, 16);
DSG_AT(dsg_collected, length, 24);
DSG_AT(dsg_collected, offset, 32);

DSG_SIZE(dsg_read_answer, 16);
DSG_AT(dsg_read_answer, number, 0);
DSG_AT(dsg_read_answer, offset, 8);

DSG_SIZE(dsg_received, 24);
DSG_AT(dsg_received, kind, 0);
DSG_AT(dsg_received, number, 4);
DSG_AT(dsg_received, empty, 8);
DSG_AT(dsg_received, offset, 16);

DSG_SIZE(dsg_choice, 16);
DSG_AT(dsg_choice, number, 0);
DSG_AT(dsg_choice, place, 8);

DSG_SIZE(dsg_verdict, 24);
DSG_AT(dsg_verdict, kind, 0);
DSG_AT(dsg_verdict, number, 4);
DSG_AT(dsg_verdict, start, 8);
DSG_AT(dsg_verdict, length, 16);

DSG_SIZE(dsg_listed, 16);
DSG_AT(dsg_listed, number, 0);
DSG_AT(dsg_listed, length, 8);

DSG_SIZE(dsg_written, 40);
DSG_AT(dsg_written, number, 0);
DSG_AT(dsg_written, pieces, 4);
DSG_AT(dsg_written, lengths, 8);

#undef DSG_AT
#undef DSG_SIZE
#undef DSG_ASSERT

#ifdef __cplusplus
}
#endif

#endif /* DSG_H */
