/*
 * registers.c: arguments under 64 bits leave the upper bits of their registers to the caller, who may have anything there
 * (on Arm also above a number of 32 bits). Each function is called once as dsg.h declares it, and once with those bits
 * set; both calls must give and leave the same. A function with an answer over 16 bytes must return its first pointer.
 * A table is written once more with the bytes between its fields set.
 *
 * usage: registers        exit status 1 where a call differs
 */
#include <stdio.h>
#include <string.h>

#include "dsg.h"

/* The same functions, declared with arguments of the whole register. */
struct dsg_collection *wide_empty_collection(struct dsg_collection *held,
                                             uint64_t strict) __asm__("dsg_empty_collection");
struct dsg_choice wide_choose(const struct dsg_table *table, uint64_t kind, uint64_t value, uint64_t known,
                              uint64_t ucid) __asm__("dsg_choose");
struct dsg_verdict *wide_judge(struct dsg_verdict *answer, const struct dsg_table *table, uint64_t kind, uint64_t value,
                               uint64_t known, uint64_t ucid, const uint8_t *frame, size_t length) __asm__("dsg_judge");
struct dsg_tunnel *wide_prepare(struct dsg_tunnel *tunnel, const struct dsg_table *table, uint64_t kind, uint64_t value,
                                uint64_t known, uint64_t ucid) __asm__("dsg_prepare");
uint32_t wide_event(struct dsg_modem *modem, uint64_t clock, uint64_t event, uint64_t a, uint64_t b, uint64_t c,
                    uint64_t d) __asm__("dsg_event");
struct dsg_listed wide_list_table(const struct dsg_table *table, uint64_t count, uint8_t *out,
                                  size_t out_length) __asm__("dsg_list_table");
struct dsg_written *wide_write(struct dsg_written *answer, const struct dsg_table *table, uint64_t count, uint8_t *out,
                               size_t out_length) __asm__("dsg_write");

#define DIRT UINT64_C(0xa5a5a5a5a5a5a5a5)
#define WIDE8(n) ((DIRT & ~UINT64_C(0xff)) | (n))
#define WIDE16(n) ((DIRT & ~UINT64_C(0xffff)) | (n))
#define WIDE32(n) ((DIRT & ~UINT64_C(0xffffffff)) | (n))

/* A rule for application 42 with the UCID list 4 and classifier 10, that classifier, and a channel. */
static const uint8_t message[] = {
    0x32, 0x1b, 0x01, 0x01, 0x06, 0x02, 0x01, 0x09, 0x03, 0x01, 0x04, 0x04, 0x04, 0x04, 0x02, 0x00, 0x2a, 0x05, 0x06, 0x01, 0x00,
    0x5e, 0x06, 0x06, 0x06, 0x06, 0x02, 0x00, 0x0a, 0x17, 0x17, 0x02, 0x02, 0x00, 0x0a, 0x05, 0x01, 0x01, 0x09, 0x0e, 0x05, 0x04,
    0xe0, 0x00, 0x00, 0x01, 0x09, 0x02, 0x13, 0x88, 0x0a, 0x02, 0x13, 0x88, 0x33, 0x06, 0x01, 0x04, 0x23, 0xf1, 0x0c, 0xc0};
static const uint8_t frame[] = {0x01, 0x00, 0x5e, 0x06, 0x06, 0x06, 0x02, 0x00, 0x00, 0x00, 0x00, 0x01, 0x08, 0x00,
                                0x45, 0x00, 0x00, 0x1c, 0x00, 0x00, 0x00, 0x00, 0x10, 0x11, 0x00, 0x00, 0x0a, 0x00,
                                0x00, 0x02, 0xe0, 0x00, 0x00, 0x01, 0x04, 0x00, 0x13, 0x88, 0x00, 0x08, 0x00, 0x00};

static struct dsg_table table;
static unsigned long calls, differ;

static void count(bool same)
{
    calls++;
    if (!same) differ++;
}

static bool same_verdict(const struct dsg_verdict *a, const struct dsg_verdict *b)
{
    return a->kind == b->kind && a->number == b->number && a->start == b->start && a->length == b->length;
}

/* One client with one UCID, every way. */
static void try_client(uint8_t kind, uint8_t known, uint8_t ucid)
{
    struct dsg_choice a = dsg_choose(&table, kind, 42, known, ucid);
    struct dsg_choice b = wide_choose(&table, WIDE8(kind), 42, WIDE8(known), WIDE8(ucid));
    struct dsg_verdict v, w;
    struct dsg_tunnel t, u;
    bool placed;

    count(a.number == b.number && a.place == b.place);
    placed = dsg_judge(&v, &table, kind, 42, known, ucid, frame, sizeof frame) == &v;
    placed = wide_judge(&w, &table, WIDE8(kind), 42, WIDE8(known), WIDE8(ucid), frame, sizeof frame) == &w && placed;
    count(placed && same_verdict(&v, &w));
    memset(&t, 0, sizeof t);
    memset(&u, 0, sizeof u);
    placed = dsg_prepare(&t, &table, kind, 42, known, ucid) == &t;
    placed = wide_prepare(&u, &table, WIDE8(kind), 42, WIDE8(known), WIDE8(ucid)) == &u && placed;
    count(placed && t.address == u.address && t.mode == u.mode && t.count == u.count);
    count(dsg_judge_prepared(&w, &u, frame, sizeof frame) == &w && same_verdict(&v, &w));
}

/* Every setting of a collection, over records that held different bytes. */
static void try_settings(void)
{
    struct dsg_collection a, b;
    uint32_t strict;
    bool placed;

    for (strict = 0; strict <= UINT16_MAX; strict++) {
        memset(&a, 0, sizeof a);
        memset(&b, 0xff, sizeof b);
        placed = dsg_empty_collection(&a, (uint16_t)strict) == &a;
        placed = wide_empty_collection(&b, WIDE16(strict)) == &b && placed;
        /* a collection has no bytes between its fields */
        count(placed && a.strict == strict && memcmp(&a, &b, sizeof a) == 0);
    }
}

/* The same events for two records. */
static void try_events(void)
{
    struct dsg_modem m, n;
    uint32_t k;

    dsg_empty_modem(&m);
    dsg_empty_modem(&n);
    for (k = 0; k < 500; k++) {
        uint32_t clock = k * 700, x, y;
        uint8_t event = (uint8_t)(k % 7 == 0 ? k % 14 : k % 9);
        uint16_t a = (uint16_t)(k % 5 == 4 ? k : k % 2);
        x = dsg_event(&m, clock, event, a, 600, 300, 1800);
        y = wide_event(&n, WIDE32(clock), WIDE8(event), WIDE16(a), WIDE16(600), WIDE16(300), WIDE16(1800));
        count(x == y && memcmp(&m, &n, sizeof m) == 0); /* a modem has no bytes between its fields */
    }
}

static void try_listing(void)
{
    static uint8_t one[DSG_LISTING_BYTES], other[DSG_LISTING_BYTES];
    unsigned n;

    for (n = 0; n < 256; n++) {
        struct dsg_listed a = dsg_list_table(&table, (uint8_t)n, one, sizeof one);
        struct dsg_listed b = wide_list_table(&table, WIDE8(n), other, sizeof other);
        count(a.number == b.number && a.length == b.length && memcmp(one, other, sizeof one) == 0);
    }
}

/* Sets the bytes of a record from a place on up to another. */
static void set_bytes(void *record, size_t from, size_t to) { memset((uint8_t *)record + from, 0xa5, to - from); }

/* Sets every byte of a table that is in no field. */
static void set_between(struct dsg_table *lent)
{
    size_t i, k;

    set_bytes(lent, offsetof(struct dsg_table, channelcount) + 1, offsetof(struct dsg_table, timers));
    set_bytes(lent, offsetof(struct dsg_table, classifiers) + sizeof lent->classifiers, offsetof(struct dsg_table, rules));
    for (i = 0; i < DSG_CLASSIFIERS; i++)
        set_bytes(&lent->classifiers[i], offsetof(struct dsg_classifier, hasend) + 1, sizeof(struct dsg_classifier));
    for (i = 0; i < DSG_RULES; i++) {
        struct dsg_rule *rule = &lent->rules[i];
        set_bytes(rule, offsetof(struct dsg_rule, ucids) + sizeof rule->ucids, offsetof(struct dsg_rule, numbers));
        set_bytes(rule, offsetof(struct dsg_rule, numbers) + sizeof rule->numbers, offsetof(struct dsg_rule, tunnel));
        for (k = 0; k < DSG_RULE_CLIENTS; k++)
            set_bytes(&rule->clients[k], offsetof(struct dsg_client, kind) + 1, offsetof(struct dsg_client, value));
    }
}

/* Every count, with room and without, over answers that held different bytes; an answer has no bytes between its fields. */
static void try_writing(void)
{
    static uint8_t one[DSG_WRITE_BYTES], other[DSG_WRITE_BYTES];
    static struct dsg_table set;
    struct dsg_written a, b, c;
    unsigned n;
    bool placed;

    memcpy(&set, &table, sizeof set);
    set_between(&set);
    for (n = 0; n < 512; n++) {
        /* the message and a head of three bytes */
        size_t length = sizeof message + 3 - n / 256;
        memset(&a, 0, sizeof a);
        memset(&b, 0xff, sizeof b);
        memset(&c, 0xff, sizeof c);
        memset(one, 1, sizeof one);
        memset(other, 1, sizeof other);
        placed = dsg_write(&a, &table, (uint8_t)n, one, length) == &a;
        placed = wide_write(&b, &table, WIDE8(n % 256), other, length) == &b && placed;
        count(placed && a.number == (n < 256 ? 0 : 20) && a.lengths[0] == (n < 256 ? length : 0));
        count(memcmp(&a, &b, sizeof a) == 0 && memcmp(one, other, sizeof one) == 0);
        memset(other, 1, sizeof other);
        placed = dsg_write(&c, &set, (uint8_t)n, other, length) == &c;
        count(placed && memcmp(&a, &c, sizeof a) == 0 && memcmp(one, other, sizeof one) == 0);
    }
}

int main(void)
{
    unsigned kind, known, ucid;

    if (dsg_empty_table(&table) != &table || dsg_read(&table, message, sizeof message).number != 0) return 1;
    for (kind = 0; kind < 8; kind++)
        for (known = 0; known < 3; known++)
            for (ucid = 0; ucid < 8; ucid++) try_client((uint8_t)kind, (uint8_t)known, (uint8_t)ucid);
    try_settings();
    try_events();
    try_listing();
    try_writing();
    printf("%lu calls with anything in the upper bits of their registers or between fields, %lu differ\n", calls, differ);
    return differ != 0;
}
