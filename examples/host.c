/*
 * host.c: a small receiver for a board, as docs/BOARD.md describes it. It plays a script of what a tuner's driver
 * reports and writes the plain log that an installer reads. All memory is in one struct; nothing is allocated.
 *
 * usage: host [SCRIPT]        (no SCRIPT: standard input)
 * Exit status 1 where the script cannot be opened or read or the log cannot be written, with a line on standard error that
 * names what; the log up to there is written. A word too many is 2.
 *
 * A line of a script is a clock in milliseconds, a word, and what goes with it, and nothing more; `#` starts a comment,
 * numbers are decimal or 0x.., hex may have blanks:
 *   T start 0|1 (may the board transmit?)    T locked    T empty (the scan found nothing)    T tick
 *   T up UCID    T lost (upstream)    T enable    T disable    T hunt    T downlost
 *   T body HEX   T frame HEX
 * and two lines without a clock:
 *   client KIND VALUE (whose tunnel is wanted; KIND is a number of dsg_client_kind)
 *   strict 0|1 (are messages refused that were cut inside an element? At first they are not; what was collected is forgotten)
 */
#include <ctype.h>
#include <stdio.h>
#include <string.h>

#include "dsg.h"

#define LINE_BYTES 8192
#define BYTES_MOST 2048

/* What the board keeps. The library owns none of it. */
struct board {
    struct dsg_modem modem;
    struct dsg_collection held; /* with its two buffers, */
    uint8_t slots[DSG_BUFFER_BYTES];
    uint8_t join[DSG_BUFFER_BYTES];
    uint16_t strict;        /* and the setting that it is emptied with: 0 loose, else strict */
    struct dsg_table table; /* the last one that was accepted, */
    bool has_table;         /* if there was one */
    uint8_t kind;           /* the client, */
    uint64_t value;
    struct dsg_tunnel tunnel; /* and its tunnel, prepared */
    bool told, chosen;        /* whether the log tells of its rule; whether there is one, and which */
    uint8_t rule;
    uint64_t address;
    uint32_t clock; /* of the last line */
    unsigned long forwarded, filtered, other, dropped;
};

static struct board the_board;

static const char *const state_words[] = {"idle", "scanning", "checking", "one-way", "ranging", "two-way", "resting"};

/* By the refusal's number; one that no function gives has no words. */
static const char *const refusal_words[] = {
    "nothing",
    "a buffer of the board is too short",
    "shorter than its head",
    "too long",
    "number of fragments 0 or over 16",
    "sequence number 0 or above the number",
    "one byte left where an element should start",
    "length 255",
    "an element runs past its row",
    "a second copy of what may stand once",
    "an element of a wrong length",
    "a value that is not allowed",
    "a list is full",
    "a row ends without an element that it must have",
    "a number is taken already",
    "no classifier has that number",
    "a frame that is too short or too long",
    "no rule fits the client",
    "the clock went back",
    [DSG_REFUSED_CUT] = "cut inside an element",
};

/* ---- the log ------------------------------------------------------------------------------------------------ */

/* The clock at the start of a log line, in seconds. */
static void stamp(uint32_t clock)
{
    printf("%7lu.%03lu  ", (unsigned long)(clock / 1000u), (unsigned long)(clock % 1000u));
}

static const char *words_of(uint32_t refusal)
{
    const char *words = refusal < sizeof refusal_words / sizeof refusal_words[0] ? refusal_words[refusal] : NULL;

    return words ? words : "unknown";
}

/* A number and what it counts: "1 rule", "2 rules". */
static void print_count(const char *before, unsigned count, const char *what)
{
    printf("%s%u %s%s", before, count, what, count == 1 ? "" : "s");
}

/* ---- what the library asks of a board ----------------------------------------------------------------------- */

/* Records to begin with. The buffers were cleared with the rest of the_board. */
static void begin(struct board *b)
{
    dsg_empty_modem(&b->modem);
    dsg_empty_collection(&b->held, b->strict);
    dsg_empty_table(&b->table);
    b->kind = DSG_CLIENT_BROADCAST_ALL;
    dsg_prepare(&b->tunnel, &b->table, b->kind, b->value, 0, 0);
}

/* Prepares the client's tunnel anew: after an accepted table, after a change of the UCID, after a change of the client.
 * Where another tunnel than before is chosen, or none, the log says so. */
static void prepare(struct board *b, uint32_t clock)
{
    struct dsg_choice choice = dsg_choose(&b->table, b->kind, b->value, b->modem.hasucid, b->modem.ucid);
    bool chosen = choice.number == DSG_REFUSED_NOTHING;
    const struct dsg_rule *rule = &b->table.rules[chosen ? choice.place : 0];
    bool same = b->told && b->chosen == chosen && (!chosen || (b->rule == rule->number && b->address == rule->tunnel));

    dsg_prepare(&b->tunnel, &b->table, b->kind, b->value, b->modem.hasucid, b->modem.ucid);
    if (!b->has_table || same) return;
    stamp(clock);
    if (chosen) {
        printf("tunnel %012llx chosen: rule %u, priority %u\n", (unsigned long long)rule->tunnel, rule->number,
               rule->priority);
    } else {
        printf("no tunnel: refused %lu, %s\n", (unsigned long)choice.number, words_of(choice.number));
    }
    b->told = true;
    b->chosen = chosen;
    b->rule = rule->number;
    b->address = rule->tunnel;
}

/* One event, and what follows from it. False where it was refused: then nothing has changed. */
static bool notify(struct board *b, uint32_t clock, uint8_t event, uint16_t a, const struct dsg_timer_values *timers)
{
    struct dsg_modem before = b->modem;
    bool sent = dsg_transmits(&b->modem);
    uint32_t refusal = timers ? dsg_event(&b->modem, clock, event, timers->tdsg1, timers->tdsg2, timers->tdsg3,
                                          timers->tdsg4)
                              : dsg_event(&b->modem, clock, event, a, 0, 0, 0);

    if (refusal != DSG_REFUSED_NOTHING) {
        stamp(clock);
        printf("event refused %lu: %s\n", (unsigned long)refusal, words_of(refusal));
        return false;
    }
    if (b->modem.state != before.state) {
        stamp(clock);
        printf("%s", state_words[b->modem.state % 7]);
        if (b->modem.hasucid) printf(" on upstream %u", b->modem.ucid);
        printf("\n");
    }
    if (dsg_transmits(&b->modem) != sent) {
        stamp(clock);
        printf("transmitter %s\n", sent ? "off" : "on");
    }
    /* Into Scanning: what was collected belongs to the channel that is left. Kept, its message would be a repeat for ever
     * on the next channel, and no table would be accepted there. */
    if (b->modem.state == DSG_SCANNING && (before.state != DSG_SCANNING || event == DSG_START)) {
        dsg_empty_collection(&b->held, b->strict);
    }
    if (b->modem.hasucid != before.hasucid || b->modem.ucid != before.ucid) prepare(b, clock);
    return true;
}

/* Whether a table would do something now. One that is taken up in another state does nothing, and is a repeat later. */
static bool wants_table(const struct board *b)
{
    return b->modem.state == DSG_CHECKING || dsg_forwards(&b->modem);
}

/* One body from the tuner. */
static void take_body(struct board *b, uint32_t clock, const uint8_t *body, size_t length)
{
    struct dsg_received r;

    stamp(clock);
    if (!wants_table(b)) {
        printf("body dropped: no table is wanted in this state\n");
        return;
    }
    dsg_receive(&r, &b->held, &b->table, b->slots, sizeof b->slots, b->join, sizeof b->join, body, length);
    if (r.kind == DSG_RECEIVE_REFUSED) {
        printf("body refused %lu: %s\n", (unsigned long)r.number, words_of(r.number));
        return;
    }
    printf("table %u, piece %u of %u: ", body[0], body[2], body[1]);
    switch (r.kind) {
    case DSG_RECEIVE_REPEAT:
        printf("here already\n");
        break;
    case DSG_RECEIVE_WAITING:
        print_count("", (unsigned)r.empty, "piece");
        printf(" missing\n");
        break;
    case DSG_RECEIVE_ACCEPTED:
        print_count("accepted, ", b->table.rulecount, "rule");
        print_count(", ", b->table.classifiercount, "classifier");
        print_count(", ", b->table.channelcount, "channel");
        printf("\n");
        b->has_table = true;
        /* an event that is refused is lost on the modem: the next copy of the message must not be a repeat */
        if (!notify(b, clock, DSG_TABLE_ACCEPTED, 0, &b->table.timers)) dsg_empty_collection(&b->held, b->strict);
        prepare(b, clock);
        break;
    case DSG_RECEIVE_DROPPED: /* nothing is collected now: the next piece, of this message too, starts anew */
        printf("refused %lu at byte %lu: %s, all pieces dropped\n", (unsigned long)r.number, (unsigned long)r.offset,
               words_of(r.number));
        break;
    default:
        printf("refused %lu at byte %lu: %s\n", (unsigned long)r.number, (unsigned long)r.offset, words_of(r.number));
        break;
    }
}

/* One frame from the tuner. */
static void take_frame(struct board *b, uint32_t clock, const uint8_t *frame, size_t length)
{
    struct dsg_verdict v;

    if (!dsg_forwards(&b->modem)) {
        b->dropped++;
        stamp(clock);
        printf("frame dropped: nothing is forwarded in this state\n");
        return;
    }
    dsg_judge_prepared(&v, &b->tunnel, frame, length);
    stamp(clock);
    switch (v.kind) {
    case DSG_JUDGE_FORWARD:
        b->forwarded++;
        printf("frame forwarded: %lu bytes", (unsigned long)v.length);
        if (v.number != 0) printf(" by classifier %lu", (unsigned long)v.number);
        printf("\n"); /* a board hands frame + v.start, v.length bytes, to the guide here */
        notify(b, clock, DSG_PACKET, 0, NULL);
        break;
    case DSG_JUDGE_FILTERED:
        b->filtered++;
        printf("frame filtered\n");
        break;
    case DSG_JUDGE_OTHER:
        b->other++;
        printf("frame of another tunnel\n");
        break;
    default:
        b->dropped++;
        printf("frame refused %lu: %s\n", (unsigned long)v.number, words_of(v.number));
        break;
    }
}

/* Another client: its tunnel is another one. */
static void take_client(struct board *b, uint8_t kind, uint64_t value)
{
    stamp(b->clock);
    printf("client %u %llu\n", kind, (unsigned long long)value);
    b->kind = kind;
    b->value = value;
    prepare(b, b->clock);
}

/* Another setting. It goes with an empty record: a message that is half here would be judged by what it did not begin with. */
static void take_setting(struct board *b, uint16_t strict)
{
    stamp(b->clock);
    printf("messages cut inside an element are %s\n", strict ? "refused" : "taken");
    b->strict = strict;
    dsg_empty_collection(&b->held, b->strict);
}

/* ---- the script --------------------------------------------------------------------------------------------- */

static bool is_blank(char c)
{
    return c == ' ' || c == '\t';
}

/* The next word, of letters and digits. Gives the text behind it, or NULL where no word of fewer than `room` stands. */
static const char *read_word(const char *text, char *word, size_t room)
{
    size_t n = 0;

    while (is_blank(*text)) text++;
    while (isalnum((unsigned char)text[n]) && n < room) n++;
    if (n == 0 || n == room || (text[n] != '\0' && !is_blank(text[n]))) return NULL;
    memcpy(word, text, n);
    word[n] = '\0';
    return text + n;
}

/* The value of a digit in a base, or -1. */
static int digit_in(char c, int base)
{
    int digit = isdigit((unsigned char)c) ? c - '0' : isxdigit((unsigned char)c) ? tolower((unsigned char)c) - 'a' + 10 : base;

    return digit < base ? digit : -1;
}

/* The next number, decimal or 0x.., at most `most`. Gives the text behind it, or NULL where there is none. */
static const char *read_number(const char *text, uint64_t most, uint64_t *value)
{
    char word[24];
    const char *behind = read_word(text, word, sizeof word), *digits = word;
    int base = 10, digit;

    if (!behind) return NULL;
    if (word[0] == '0' && word[1] == 'x') {
        base = 16;
        digits += 2;
    }
    if (*digits == '\0') return NULL;
    for (*value = 0; *digits; digits++) {
        digit = digit_in(*digits, base);
        if (digit < 0 || *value > (most - (uint64_t)digit) / (uint64_t)base) return NULL;
        *value = *value * (uint64_t)base + (uint64_t)digit;
        if (*value > most) return NULL;
    }
    return behind;
}

/* Hex digits, with or without blanks, to the end as bytes. Gives the count, or BYTES_MOST + 1 where they are no bytes or too
 * many. */
static size_t read_hex(const char *text, uint8_t *bytes)
{
    size_t count = 0;
    int high = -1, digit;

    for (; *text; text++) {
        if (is_blank(*text)) continue;
        digit = digit_in(*text, 16);
        if (digit < 0 || count == BYTES_MOST) return BYTES_MOST + 1;
        if (high < 0) {
            high = digit;
        } else {
            bytes[count++] = (uint8_t)(high * 16 + digit);
            high = -1;
        }
    }
    return high < 0 ? count : BYTES_MOST + 1;
}

static bool at_end(const char *text)
{
    return text && text[strspn(text, " \t")] == '\0';
}

/* The events of a script: a word, its number, and the greatest value that goes with it, if one does. */
static const struct {
    const char *word;
    uint8_t event;
    bool carries;
    uint8_t most;
    const char *said; /* what the log says of it, where its effect alone does not */
} events[] = {
    {"start", DSG_START, true, 1, "started"},
    {"locked", DSG_LOCKED, false, 0, "locked"},
    {"empty", DSG_SCAN_EMPTY, false, 0, "scan empty"},
    {"tick", DSG_TICK, false, 0, NULL},
    {"up", DSG_UPSTREAM_UP, true, 255, "upstream up"},
    {"lost", DSG_UPSTREAM_LOST, false, 0, "upstream lost"},
    {"enable", DSG_ENABLE, false, 0, "may transmit"},
    {"disable", DSG_DISABLE, false, 0, "may not transmit"},
    {"hunt", DSG_HUNT, false, 0, "told to hunt"},
    {"downlost", DSG_DOWNSTREAM_LOST, false, 0, "downstream lost"},
};

/* The greatest value of each kind of client. */
static const uint64_t value_most[] = {0, 0xFFFF, 0xFFFFFFFFFFFF, 0xFFFF, 0xFFFF};

/* A client: `rest` is what stands behind the word. False where the line cannot be read. */
static bool play_client(struct board *b, const char *rest)
{
    uint64_t kind, value;

    rest = read_number(rest, DSG_CLIENT_APPLICATION, &kind);
    if (rest) rest = read_number(rest, value_most[kind], &value);
    if (!at_end(rest)) return false;
    take_client(b, (uint8_t)kind, value);
    return true;
}

/* A setting, likewise. */
static bool play_setting(struct board *b, const char *rest)
{
    uint64_t strict;

    if (!at_end(read_number(rest, 1, &strict))) return false;
    take_setting(b, (uint16_t)strict);
    return true;
}

/* An event, likewise. */
static bool play_event(struct board *b, uint32_t clock, const char *word, const char *rest)
{
    uint64_t value = 0;
    size_t i;

    for (i = 0; i < sizeof events / sizeof events[0]; i++) {
        if (strcmp(word, events[i].word) != 0) continue;
        if (events[i].carries) rest = read_number(rest, events[i].most, &value);
        if (!at_end(rest)) return false;
        if (events[i].said) {
            stamp(clock);
            printf("%s\n", events[i].said);
        }
        notify(b, clock, events[i].event, (uint16_t)value, NULL);
        return true;
    }
    return false;
}

/* A body or a frame, likewise. */
static bool play_bytes(struct board *b, uint32_t clock, bool is_body, const char *rest)
{
    static uint8_t bytes[BYTES_MOST];
    size_t count = read_hex(rest, bytes);

    if (count > BYTES_MOST) return false;
    if (is_body) take_body(b, clock, bytes, count);
    else take_frame(b, clock, bytes, count);
    return true;
}

/* One line of the script, without its end. False where it cannot be read; then nothing is told to the library. */
static bool play(struct board *b, const char *line)
{
    char word[16];
    uint64_t clock;
    const char *rest;

    if (at_end(line)) return true;
    rest = read_word(line, word, sizeof word);
    if (rest && strcmp(word, "client") == 0) return play_client(b, rest);
    if (rest && strcmp(word, "strict") == 0) return play_setting(b, rest);
    rest = read_number(line, UINT32_MAX, &clock);
    if (rest) rest = read_word(rest, word, sizeof word);
    if (!rest) return false;
    b->clock = (uint32_t)clock;
    if (strcmp(word, "body") == 0) return play_bytes(b, b->clock, true, rest);
    if (strcmp(word, "frame") == 0) return play_bytes(b, b->clock, false, rest);
    return play_event(b, b->clock, word, rest);
}

/* The next line of a script without its end and its comment: 1, 0 at the end of the script, -1 where it is too long or no
 * text. */
static int read_line(FILE *script, char *line, size_t room)
{
    size_t n = 0;
    int c;

    while ((c = getc(script)) != EOF && c != '\n') {
        if (c == '\0' || n + 1 == room) return -1;
        line[n++] = (char)c;
    }
    if (n > 0 && line[n - 1] == '\r') n--;
    line[n] = '\0';
    line[strcspn(line, "#")] = '\0';
    return c == EOF && n == 0 ? 0 : 1;
}

int main(int argc, char **argv)
{
    static char line[LINE_BYTES];
    struct board *b = &the_board;
    FILE *script = argc > 1 ? fopen(argv[1], "r") : stdin;
    unsigned long number = 1;
    int found;

    if (argc > 2) {
        fprintf(stderr, "usage: host [SCRIPT]\n");
        return 2;
    }
    if (!script) {
        perror(argv[1]);
        return 1;
    }
    begin(b);
    for (; (found = read_line(script, line, sizeof line)) > 0; number++) {
        if (!play(b, line)) break;
    }
    if (ferror(script)) {
        perror(argc > 1 ? argv[1] : "standard input");
        return 1;
    }
    if (found != 0) {
        fflush(stdout);
        fprintf(stderr, "line %lu cannot be read: %.60s\n", number, found < 0 ? "too long, or no text" : line);
        return 1;
    }
    printf("frames: %lu forwarded, %lu filtered, %lu of other tunnels, %lu dropped\n", b->forwarded, b->filtered,
           b->other, b->dropped);
    if (fflush(stdout) != 0) {
        perror("the log");
        return 1;
    }
    return 0;
}
