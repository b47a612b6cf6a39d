/*
 * collected.c: the listing of a message that came in any number of bodies, as a strict board collects them.
 *
 * usage: collected < BODIES
 * Standard input has the bodies in hexadecimal, one to a line, with blanks between the bytes: what headend writes, in any order.
 * Standard output has what dcdlist would write for the message in one body. Exit status 1 where a line is no body, where a body,
 * the collection or the message is refused, where no message is complete, or one is before the last body.
 */
#include <stdio.h>
#include <stdlib.h>

#include "dsg.h"

/* A line of three characters to a byte, with its end. */
#define LINE_BYTES (3 * DSG_BODY_BYTES + 16)

static char line[LINE_BYTES];
static uint8_t slots[DSG_BUFFER_BYTES], join[DSG_BUFFER_BYTES], listing[DSG_LISTING_BYTES];
static struct dsg_collection held;
static struct dsg_table table;

static int stop(const char *words, unsigned long number)
{
    fprintf(stderr, "collected: %s %lu\n", words, number);
    return 1;
}

/* The bytes that a line spells; 0 where it spells none. */
static size_t read_body(const char *text, uint8_t *body)
{
    size_t length = 0;
    char *end;

    for (; length < DSG_BODY_BYTES; text = end) {
        unsigned long byte = strtoul(text, &end, 16);
        if (end == text) break;
        if (byte > 255) return 0;
        body[length++] = (uint8_t)byte;
    }
    while (*text == ' ' || *text == '\n') text++;
    return *text ? 0 : length;
}

int main(void)
{
    uint8_t body[DSG_BODY_BYTES];
    struct dsg_received received = {DSG_RECEIVE_WAITING, 0, 0, 0};
    struct dsg_listed listed;
    unsigned long bodies = 0;
    size_t length;

    dsg_empty_table(&table);
    dsg_empty_collection(&held, 1);
    while (fgets(line, sizeof line, stdin)) {
        bodies++;
        length = read_body(line, body);
        if (length == 0) return stop("this line is no body:", bodies);
        if (received.kind == DSG_RECEIVE_ACCEPTED) return stop("complete before body", bodies);
        dsg_receive(&received, &held, &table, slots, sizeof slots, join, sizeof join, body, length);
        if (received.kind != DSG_RECEIVE_WAITING && received.kind != DSG_RECEIVE_ACCEPTED) {
            return stop(received.kind == DSG_RECEIVE_REPEAT ? "here already: body" : "refused: body", bodies);
        }
    }
    if (received.kind != DSG_RECEIVE_ACCEPTED) return stop("not complete, bodies:", bodies);
    listed = dsg_list_table(&table, held.count, listing, sizeof listing);
    fwrite(listing, 1, listed.length, stdout);
    return fflush(stdout) == 0 ? 0 : stop("not written, bytes:", listed.length);
}
