/*
 * headend.c: a small head end. It reads the rows of a table as an operator edits them, and gives the bodies of the DCD that
 * carries the table: what a modulator sends again and again.
 *
 * usage: headend < TABLE
 * Standard output has the bodies in hexadecimal, one to a line, each as examples/bytes and then dcdlist take it. The last line on
 * standard error is `pieces N bytes L`: how many bodies, and how many bytes the message has without their heads.
 * Exit status 2 where the table cannot be read, 1 where the library refuses it: then standard output has nothing, and a line on
 * standard error says why, with the line of the table where there is one. 1 too where standard input or output fails.
 *
 * A row to a line; `#` starts a comment, numbers are decimal. Rows of one kind stand in the DCD in their order.
 *   count N                the change count, 0 to 255, once; a table that changes wants another one
 *   timers N N N N         Tdsg1 to Tdsg4 in seconds; without this row 2 600 300 1800
 *   channel N              in Hz
 *   classifier N priority N destination A [source A or source A/A] [mask A] [ports N-N or N- or -N]
 *   rule N tunnel H [priority N] [ucids N,..] [clients C,..] [classifiers N,..]
 * A is an address like 239.1.2.3, H has twelve hexadecimal digits, C is broadcast, broadcast:N, mac:H, ca:N or app:N. The second
 * address of a source is its mask. Behind the number of a classifier or rule the parts stand in any order.
 */
#include <ctype.h>
#include <stdarg.h>
#include <stdio.h>
#include <string.h>

#include "dsg.h"

#define LINE_BYTES 1024

/* What was read, and on which line; lines count from 1. */
struct headend {
    struct dsg_table table;
    uint8_t count;
    unsigned long line, count_line, timers_line;
    unsigned long rule_lines[DSG_RULES], classifier_lines[DSG_CLASSIFIERS], channel_lines[DSG_CHANNELS];
};

static struct headend the_headend;
static char said[240]; /* what is wrong */

/* Says what is wrong; false, for whoever found it to return. */
static bool fault(const char *format, ...)
{
    va_list words;

    va_start(words, format);
    vsnprintf(said, sizeof said, format, words);
    va_end(words);
    return false;
}

/* ---- words -------------------------------------------------------------------------------------------------- */

#define BLANKS " \t\r"

/* The next word of a row, ended by a 0 byte, or NULL where there is none. The rest is what stands behind it. */
static char *next_word(char **rest)
{
    char *word = *rest + strspn(*rest, BLANKS);
    char *end = word + strcspn(word, BLANKS);

    *rest = *end ? end + 1 : end;
    *end = '\0';
    return word < end ? word : NULL;
}

/* What stands before the next mark, likewise; it may be empty. Behind the last one the rest is NULL, and then there is none. */
static char *next_entry(char **rest, char mark)
{
    char *entry = *rest, *end = entry ? strchr(entry, mark) : NULL;

    *rest = end ? end + 1 : NULL;
    if (end) *end = '\0';
    return entry;
}

/* A number of digits alone, without needless zeros, at most `most`. */
static bool is_number(const char *word, uint64_t most, uint64_t *value)
{
    if (!*word || (word[0] == '0' && word[1])) return false;
    for (*value = 0; *word; word++) {
        if (!isdigit((unsigned char)*word)) return false;
        *value = *value * 10 + (uint64_t)(*word - '0');
        if (*value > most) return false;
    }
    return true;
}

static bool read_number(const char *what, const char *word, uint64_t most, uint64_t *value)
{
    if (!word) return fault("%s: a number is missing", what);
    if (is_number(word, most, value)) return true;
    return fault("%s: '%.40s' is no number from 0 to %llu", what, word, (unsigned long long)most);
}

static bool read_byte(const char *what, const char *word, uint8_t *value)
{
    uint64_t n;

    if (!read_number(what, word, UINT8_MAX, &n)) return false;
    *value = (uint8_t)n;
    return true;
}

static bool read_pair(const char *what, const char *word, uint16_t *value)
{
    uint64_t n;

    if (!read_number(what, word, UINT16_MAX, &n)) return false;
    *value = (uint16_t)n;
    return true;
}

/* Six bytes as twelve digits. */
static bool read_six(const char *what, const char *word, uint64_t *value)
{
    size_t digits = strspn(word, "0123456789abcdefABCDEF");

    if (digits != 12 || word[digits]) return fault("%s: '%.40s' is not twelve hexadecimal digits", what, word);
    for (*value = 0; *word; word++) {
        int c = tolower((unsigned char)*word);
        *value = *value << 4 | (uint64_t)(isdigit(c) ? c - '0' : c - 'a' + 10);
    }
    return true;
}

static bool read_address(const char *what, const char *word, uint32_t *address)
{
    char copy[16] = "", *rest = copy, *entry; /* longer ones are no address */
    uint64_t byte;
    int bytes = 0;

    if (strlen(word) < sizeof copy) strcpy(copy, word);
    for (*address = 0; (entry = next_entry(&rest, '.')) && is_number(entry, UINT8_MAX, &byte); bytes++) {
        *address = *address << 8 | (uint32_t)byte;
    }
    return (bytes == 4 && !entry) || fault("%s: '%.40s' is no address like 239.1.2.3", what, word);
}

/* ---- parts of rules and classifiers ------------------------------------------------------------------------- */

/* A part of a row: its word, whether the row must have it, and what reads its value into the row. */
struct part {
    const char *word;
    bool must;
    bool (*read)(void *row, char *value);
};

static bool read_tunnel(void *row, char *value)
{
    return read_six("tunnel", value, &((struct dsg_rule *)row)->tunnel);
}

static bool read_rule_priority(void *row, char *value)
{
    return read_byte("priority", value, &((struct dsg_rule *)row)->priority);
}

static bool read_ucids(void *row, char *value)
{
    struct dsg_rule *rule = row;
    char *entry;

    while ((entry = next_entry(&value, ','))) {
        if (rule->ucidcount == DSG_RULE_UCIDS) return fault("ucids: there is room for %u", DSG_RULE_UCIDS);
        if (!read_byte("ucids", entry, &rule->ucids[rule->ucidcount++])) return false;
    }
    return true;
}

static bool read_numbers(void *row, char *value)
{
    struct dsg_rule *rule = row;
    char *entry;

    while ((entry = next_entry(&value, ','))) {
        if (rule->numbercount == DSG_RULE_CLASSIFIERS) return fault("classifiers: there is room for %u", DSG_RULE_CLASSIFIERS);
        if (!read_pair("classifiers", entry, &rule->numbers[rule->numbercount++])) return false;
    }
    return true;
}

static bool read_client(struct dsg_client *client, char *entry)
{
    static const char *const kinds[] = {"", "broadcast", "mac", "ca", "app"}; /* by dsg_client_kind */
    char *value = entry, *word = next_entry(&value, ':');
    uint8_t kind = DSG_CLIENT_APPLICATION;

    while (kind > 0 && strcmp(word, kinds[kind]) != 0) kind--;
    if (kind == 0 || (!value && kind != DSG_CLIENT_BROADCAST)) {
        return fault("clients: '%.40s' is none of broadcast, broadcast:N, mac:H, ca:N and app:N", word);
    }
    client->kind = value ? kind : DSG_CLIENT_BROADCAST_ALL;
    if (!value) return true;
    return kind == DSG_CLIENT_MAC ? read_six("mac", value, &client->value)
                                  : read_number(kinds[kind], value, UINT16_MAX, &client->value);
}

static bool read_clients(void *row, char *value)
{
    struct dsg_rule *rule = row;
    char *entry;

    while ((entry = next_entry(&value, ','))) {
        if (rule->clientcount == DSG_RULE_CLIENTS) return fault("clients: there is room for %u", DSG_RULE_CLIENTS);
        if (!read_client(&rule->clients[rule->clientcount++], entry)) return false;
    }
    return true;
}

static bool read_classifier_priority(void *row, char *value)
{
    return read_byte("priority", value, &((struct dsg_classifier *)row)->priority);
}

static bool read_destination(void *row, char *value)
{
    return read_address("destination", value, &((struct dsg_classifier *)row)->destination);
}

static bool read_mask(void *row, char *value)
{
    struct dsg_classifier *classifier = row;

    if (classifier->hasmask) return fault("mask stands twice");
    classifier->hasmask = 1;
    return read_address("mask", value, &classifier->mask);
}

static bool read_source(void *row, char *value)
{
    struct dsg_classifier *classifier = row;
    char *mask = value, *source = next_entry(&mask, '/');

    classifier->hassource = 1;
    return read_address("source", source, &classifier->source) && (!mask || read_mask(row, mask));
}

static bool read_ports(void *row, char *value)
{
    struct dsg_classifier *classifier = row;
    char *end = value, *start = next_entry(&end, '-');

    if (!end || (!*start && !*end)) return fault("ports: neither N-N nor N- nor -N");
    classifier->hasstart = *start != '\0';
    classifier->hasend = *end != '\0';
    return (!*start || read_pair("ports", start, &classifier->start)) && (!*end || read_pair("ports", end, &classifier->end));
}

static const struct part rule_parts[] = {
    {"tunnel", true, read_tunnel},    {"priority", false, read_rule_priority}, {"ucids", false, read_ucids},
    {"clients", false, read_clients}, {"classifiers", false, read_numbers},    {NULL, false, NULL}};
static const struct part classifier_parts[] = {
    {"priority", true, read_classifier_priority}, {"destination", true, read_destination}, {"source", false, read_source},
    {"mask", false, read_mask},                   {"ports", false, read_ports},            {NULL, false, NULL}};

/* The parts of a row, each once and in any order. */
static bool read_parts(const struct part *parts, void *row, char *rest)
{
    unsigned seen = 0;
    char *word, *value;
    size_t i;

    while ((word = next_word(&rest))) {
        for (i = 0; parts[i].word && strcmp(word, parts[i].word) != 0; i++) continue;
        if (!parts[i].word) return fault("'%.40s' is no part of this row", word);
        if (seen & 1u << i) return fault("%s stands twice", word);
        seen |= 1u << i;
        value = next_word(&rest);
        if (!value) return fault("%s: nothing stands behind it", word);
        if (!parts[i].read(row, value)) return false;
    }
    for (i = 0; parts[i].word; i++) {
        if (parts[i].must && !(seen & 1u << i)) return fault("%s is missing", parts[i].word);
    }
    return true;
}

/* ---- rows --------------------------------------------------------------------------------------------------- */

static bool at_end(char *rest)
{
    char *word = next_word(&rest);

    return !word || fault("'%.40s' is a word too many", word);
}

static bool read_count(struct headend *h, char *rest)
{
    if (h->count_line) return fault("count stands on line %lu already", h->count_line);
    h->count_line = h->line;
    return read_byte("count", next_word(&rest), &h->count) && at_end(rest);
}

static bool read_timers(struct headend *h, char *rest)
{
    struct dsg_timer_values *timers = &h->table.timers;

    if (h->timers_line) return fault("timers stand on line %lu already", h->timers_line);
    h->timers_line = h->line;
    return read_pair("timers", next_word(&rest), &timers->tdsg1) && read_pair("timers", next_word(&rest), &timers->tdsg2) &&
           read_pair("timers", next_word(&rest), &timers->tdsg3) && read_pair("timers", next_word(&rest), &timers->tdsg4) &&
           at_end(rest);
}

static bool read_channel(struct headend *h, char *rest)
{
    uint8_t place = h->table.channelcount;
    uint64_t hertz;

    if (place == DSG_CHANNELS) return fault("there is room for %u channels", DSG_CHANNELS);
    if (!read_number("channel", next_word(&rest), UINT32_MAX, &hertz)) return false;
    h->table.channels[place] = (uint32_t)hertz;
    h->channel_lines[place] = h->line;
    h->table.channelcount++;
    return at_end(rest);
}

static bool read_classifier(struct headend *h, char *rest)
{
    uint8_t place = h->table.classifiercount;

    if (place == DSG_CLASSIFIERS) return fault("there is room for %u classifiers", DSG_CLASSIFIERS);
    h->classifier_lines[place] = h->line;
    h->table.classifiercount++;
    return read_pair("classifier", next_word(&rest), &h->table.classifiers[place].number) &&
           read_parts(classifier_parts, &h->table.classifiers[place], rest);
}

static bool read_rule(struct headend *h, char *rest)
{
    uint8_t place = h->table.rulecount;

    if (place == DSG_RULES) return fault("there is room for %u rules", DSG_RULES);
    h->rule_lines[place] = h->line;
    h->table.rulecount++;
    return read_byte("rule", next_word(&rest), &h->table.rules[place].number) &&
           read_parts(rule_parts, &h->table.rules[place], rest);
}

static bool read_row(struct headend *h, char *rest)
{
    char *word = next_word(&rest);

    if (!word) return true;
    if (strcmp(word, "count") == 0) return read_count(h, rest);
    if (strcmp(word, "timers") == 0) return read_timers(h, rest);
    if (strcmp(word, "channel") == 0) return read_channel(h, rest);
    if (strcmp(word, "classifier") == 0) return read_classifier(h, rest);
    if (strcmp(word, "rule") == 0) return read_rule(h, rest);
    return fault("'%.40s' is none of count, timers, channel, classifier and rule", word);
}

/* The next line without its end and its comment: 1, 0 at the end of the table, -1 where it is too long or no text. */
static int read_line(FILE *table, char *line)
{
    size_t n = 0;
    int c;

    while ((c = getc(table)) != EOF && c != '\n') {
        if (iscntrl(c) && c != '\t' && c != '\r') {
            fault("a byte that is no text");
            return -1;
        }
        if (n + 1 == LINE_BYTES) {
            fault("longer than %d bytes", LINE_BYTES - 1);
            return -1;
        }
        line[n++] = (char)c;
    }
    line[n] = '\0';
    line[strcspn(line, "#")] = '\0';
    return c == EOF && n == 0 ? 0 : 1;
}

/* The whole table. False where it is not one; then `said` and the line tell why. */
static bool read_table(struct headend *h, FILE *table)
{
    char line[LINE_BYTES];
    int found;

    dsg_empty_table(&h->table);
    for (h->line = 1; (found = read_line(table, line)) > 0; h->line++) {
        if (!read_row(h, line)) return false;
    }
    if (found < 0) return false;
    h->line = 0; /* what is missing stands on no line */
    return h->count_line || fault("no line has the count");
}

/* ---- writing ------------------------------------------------------------------------------------------------ */

/* Where a classifier with that number stands, of the first so many; so many where there is none. */
static size_t classifier_at(const struct dsg_table *t, uint16_t number, size_t many)
{
    size_t i = 0;

    while (i < many && t->classifiers[i].number != number) i++;
    return i;
}

/* Whether a DCD can say this classifier, as far as is easy to see. */
static bool is_classifier_good(const struct headend *h, size_t i)
{
    const struct dsg_table *t = &h->table;
    size_t other = classifier_at(t, t->classifiers[i].number, i);

    if (t->classifiers[i].number == 0) return fault("classifier 0: numbers start at 1");
    return other == i ||
           fault("classifier %u stands on line %lu already", t->classifiers[i].number, h->classifier_lines[other]);
}

/* The same of a rule. */
static bool is_rule_good(const struct headend *h, size_t i)
{
    const struct dsg_table *t = &h->table;
    const struct dsg_rule *rule = &t->rules[i];
    size_t other = 0, j;

    while (t->rules[other].number != rule->number) other++;
    if (other < i) return fault("rule %u stands on line %lu already", rule->number, h->rule_lines[other]);
    for (j = 0; j < rule->clientcount; j++) {
        if (rule->clients[j].kind == DSG_CLIENT_BROADCAST && rule->clients[j].value == 0) {
            return fault("clients: broadcast:0 is prohibited; broadcast alone is the one without a value");
        }
    }
    for (j = 0; j < rule->numbercount; j++) {
        if (classifier_at(t, rule->numbers[j], t->classifiercount) == t->classifiercount) {
            return fault("no classifier has the number %u", rule->numbers[j]);
        }
    }
    return true;
}

/* Says why there is no DCD for the table, where one row or two show it. */
static void explain(struct headend *h)
{
    const struct dsg_table *t = &h->table;
    bool has_timers = t->timers.tdsg1 != 0 && t->timers.tdsg2 != 0;
    size_t i;

    for (i = 0; i < t->channelcount; i++) {
        h->line = h->channel_lines[i];
        if (t->channels[i] % 62500 == 0 && t->channels[i] >= 62500 && t->channels[i] <= 1000000000) continue;
        fault("channel %lu is no multiple of 62500 from 62500 to 1000000000", (unsigned long)t->channels[i]);
        return;
    }
    for (i = 0; i < t->classifiercount; i++) {
        h->line = h->classifier_lines[i];
        if (!is_classifier_good(h, i)) return;
    }
    for (i = 0; i < t->rulecount; i++) {
        h->line = h->rule_lines[i];
        if (!is_rule_good(h, i)) return;
    }
    h->line = has_timers ? 0 : h->timers_line;
    fault(has_timers ? "there is no DCD for this table" : "the first two timers must not be 0");
}

/* The line on standard error for a table that is not written; a refusal of the library is not 0. */
static void complain(const struct headend *h, uint32_t refusal)
{
    if (h->line) fprintf(stderr, "line %lu: ", h->line);
    if (refusal) fprintf(stderr, "refused %lu: ", (unsigned long)refusal);
    fprintf(stderr, "%s\n", said);
}

static void print_body(const uint8_t *body, size_t length)
{
    size_t i;

    for (i = 0; i < length; i++) printf("%s%02X", i > 0 ? " " : "", body[i]);
    printf("\n");
}

int main(int argc, char **argv)
{
    static uint8_t out[DSG_WRITE_BYTES]; /* enough for every table */
    struct headend *h = &the_headend;
    struct dsg_written written;
    unsigned long bytes = 0;
    bool is_table;
    uint32_t s;

    if (argc > 1) {
        fprintf(stderr, "usage: %s < TABLE\n", argv[0]);
        return 2;
    }
    is_table = read_table(h, stdin);
    if (ferror(stdin)) {
        perror("standard input");
        return 1;
    }
    if (!is_table) {
        complain(h, DSG_REFUSED_NOTHING);
        return 2;
    }
    dsg_write(&written, &h->table, h->count, out, sizeof out);
    if (written.number != DSG_REFUSED_NOTHING) {
        if (written.number == DSG_REFUSED_CANNOT_PRODUCE) explain(h);
        else fault("the buffer is too short");
        complain(h, written.number);
        return 1;
    }
    for (s = 0; s < written.pieces; s++) {
        print_body(out + s * DSG_PIECE_STEP, written.lengths[s]);
        bytes += written.lengths[s] - 3u;
    }
    if (fflush(stdout) != 0 || ferror(stdout)) {
        perror("standard output");
        return 1;
    }
    fprintf(stderr, "pieces %lu bytes %lu\n", (unsigned long)written.pieces, bytes);
    return 0;
}
