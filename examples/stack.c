/*
 * stack.c: how many bytes of stack each function of the library uses. Each call runs on a stack of its own that was
 * painted before; what the paint lost, less what an empty call loses, is printed.
 *
 * usage: stack [MOST]        exit status 1 where a function uses more than MOST bytes
 */
#define _XOPEN_SOURCE 600
#include <stdio.h>
#include <stdlib.h>
#include <string.h>
#include <ucontext.h>

#include "dsg.h"

#define STACK_BYTES (256u * 1024u)
#define PAINT 0xA5

static uint8_t stack[STACK_BYTES];
static ucontext_t here, there;

static struct dsg_collection held;
static struct dsg_table table;
static struct dsg_tunnel tunnel;
static struct dsg_modem modem;
static struct dsg_collected collected;
static struct dsg_received received;
static struct dsg_verdict verdict;
static struct dsg_written written;
static uint8_t slots[DSG_BUFFER_BYTES], join[DSG_BUFFER_BYTES], out[DSG_LISTING_BYTES], pieces[DSG_WRITE_BYTES];

/* A rule with a UCID list and a classifier, that classifier with an IP part, and a configuration: rows three deep. */
static const uint8_t body[] = {
    0x08, 0x01, 0x01, 0x32, 0x1b, 0x01, 0x01, 0x06, 0x02, 0x01, 0x09, 0x03, 0x01, 0x04, 0x04, 0x04, 0x04, 0x02,
    0x00, 0x2a, 0x05, 0x06, 0x01, 0x00, 0x5e, 0x06, 0x06, 0x06, 0x06, 0x02, 0x00, 0x0a, 0x17, 0x17, 0x02, 0x02,
    0x00, 0x0a, 0x05, 0x01, 0x01, 0x09, 0x0e, 0x05, 0x04, 0xe0, 0x00, 0x00, 0x01, 0x09, 0x02, 0x13, 0x88, 0x0a,
    0x02, 0x13, 0x88, 0x33, 0x06, 0x01, 0x04, 0x23, 0xf1, 0x0c, 0xc0};

/* A frame that the classifier matches. */
static const uint8_t frame[] = {0x01, 0x00, 0x5e, 0x06, 0x06, 0x06, 0x02, 0x00, 0x00, 0x00, 0x00, 0x01, 0x08, 0x00,
                                0x45, 0x00, 0x00, 0x1c, 0x00, 0x00, 0x00, 0x00, 0x10, 0x11, 0x00, 0x00, 0x0a, 0x00,
                                0x00, 0x02, 0xe0, 0x00, 0x00, 0x01, 0x04, 0x00, 0x13, 0x88, 0x00, 0x08, 0x00, 0x00};

static void call_nothing(void) {}
static void call_empty_table(void) { dsg_empty_table(&table); }
static void call_empty_collection(void) { dsg_empty_collection(&held, 1); }
static void call_empty_modem(void) { dsg_empty_modem(&modem); }
static void call_read(void) { dsg_read(&table, body + 3, sizeof body - 3); }
static void call_choose(void) { dsg_choose(&table, DSG_CLIENT_APPLICATION, 42, 1, 4); }
static void call_judge(void) { dsg_judge(&verdict, &table, DSG_CLIENT_APPLICATION, 42, 1, 4, frame, sizeof frame); }
static void call_prepare(void) { dsg_prepare(&tunnel, &table, DSG_CLIENT_APPLICATION, 42, 1, 4); }
static void call_judge_prepared(void) { dsg_judge_prepared(&verdict, &tunnel, frame, sizeof frame); }
static void call_transmits(void) { dsg_transmits(&modem); }
static void call_forwards(void) { dsg_forwards(&modem); }
static void call_list_table(void) { dsg_list_table(&table, 8, out, sizeof out); }
static void call_list_body(void) { dsg_list_body(body, sizeof body, out, sizeof out); }
static void call_write(void) { dsg_write(&written, &table, 8, pieces, sizeof pieces); }

/* A body of two pieces, so that there is something to join, cut behind the rule, so that a strict collection takes it. */
static void collect_half(int receive, uint8_t piece)
{
    uint8_t half[64] = {9, 2, 0};
    size_t cut = 2 + (size_t)body[4];
    size_t bytes = piece == 1 ? cut : sizeof body - 3 - cut;
    half[2] = piece;
    memcpy(half + 3, body + 3 + (piece == 1 ? 0 : cut), bytes);
    if (receive) dsg_receive(&received, &held, &table, slots, sizeof slots, join, sizeof join, half, bytes + 3);
    else dsg_collect(&collected, &held, slots, sizeof slots, join, sizeof join, half, bytes + 3);
}

static void call_collect(void)
{
    dsg_empty_collection(&held, 1);
    collect_half(0, 2);
    collect_half(0, 1);
}

static void call_receive(void)
{
    dsg_empty_collection(&held, 1);
    collect_half(1, 2);
    collect_half(1, 1);
}

/* The events that go through every state, and a tick at which a timer acts. */
static void call_event(void)
{
    dsg_event(&modem, 0, DSG_START, 1, 0, 0, 0);
    dsg_event(&modem, 1, DSG_LOCKED, 0, 0, 0, 0);
    dsg_event(&modem, 2, DSG_TABLE_ACCEPTED, 2, 600, 300, 1800);
    dsg_event(&modem, 3, DSG_UPSTREAM_UP, 4, 0, 0, 0);
    dsg_event(&modem, 700000, DSG_TICK, 0, 0, 0, 0);
}

static const struct {
    const char *name;
    void (*call)(void);
} calls[] = {
    {"dsg_empty_collection", call_empty_collection},
    {"dsg_empty_table", call_empty_table},
    {"dsg_empty_modem", call_empty_modem},
    {"dsg_collect", call_collect},
    {"dsg_read", call_read},
    {"dsg_receive", call_receive},
    {"dsg_choose", call_choose},
    {"dsg_judge", call_judge},
    {"dsg_prepare", call_prepare},
    {"dsg_judge_prepared", call_judge_prepared},
    {"dsg_event", call_event},
    {"dsg_transmits", call_transmits},
    {"dsg_forwards", call_forwards},
    {"dsg_list_table", call_list_table},
    {"dsg_list_body", call_list_body},
    {"dsg_write", call_write},
};

/* The bytes of a fresh stack that a call touches. */
static size_t used_by(void (*call)(void))
{
    size_t clean = 0;
    memset(stack, PAINT, sizeof stack);
    getcontext(&there);
    there.uc_stack.ss_sp = stack;
    there.uc_stack.ss_size = sizeof stack;
    there.uc_link = &here;
    makecontext(&there, call, 0);
    swapcontext(&here, &there);
    while (clean < sizeof stack && stack[clean] == PAINT) clean++;
    return sizeof stack - clean;
}

int main(int argc, char **argv)
{
    unsigned long most = argc > 1 ? strtoul(argv[1], NULL, 10) : STACK_BYTES;
    size_t nothing = used_by(call_nothing), i;
    int bad = 0;

    for (i = 0; i < sizeof calls / sizeof calls[0]; i++) {
        size_t used = used_by(calls[i].call);
        used = used > nothing ? used - nothing : 0;
        printf("%-22s %6lu\n", calls[i].name, (unsigned long)used);
        if (used > most) bad = 1;
    }
    return bad;
}
