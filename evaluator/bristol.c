/* A circuit file from Bristol Fashion text.  The words in quotation marks are
   those of request T-01; docs/DECISIONS.md has how its open points are read.

   The text is gone through once, line by line, and a line's refusal goes out
   as soon as it is found: "first by line and in this order on one line". */
#include "evaluator.h"

#include <string.h>

enum {
    ROOM = 20000,        /* "The room is 20,000 bytes" */
    MOST_WIRES = 8192,   /* "The wire count is at most 8,192" */
    MOST_VALUES = 99999, /* a number "of one to five digits" */
    HEADER_LINES = 3,
    RENAMES = 0,         /* the kind of an EQW, which is no gate of ours */
    NOT_WRITTEN = -1
};

/* "the number of input values and their widths", or "likewise for outputs" */
struct values {
    uint32_t count, sum;
    uint32_t width[MOST_VALUES];
};

/* What was read of a text so far. */
struct reading {
    struct slice rest;       /* the lines that are still to come */
    size_t lines;            /* how many were read, blank ones too */
    size_t taken;            /* how many of them had words */
    uint32_t said, wires;    /* "gate and wire counts", as the text says */
    struct values inputs, outputs;
    uint32_t gates;          /* ours: the text's without EQW */
    struct gate gate[MOST_WIRES];
    int32_t ours[MOST_WIRES]; /* "Wires are numbered anew" */
};

/* A gate line as it stands.  No gate word that is known has more wires. */
struct line_of_gate {
    uint32_t reads, writes;
    uint32_t wire[3];
    struct slice word;
};

static const struct known {
    const char *word;
    uint32_t reads;
    uint16_t kind;
} known_words[] = {
    {"XOR", 2, XOR}, {"AND", 2, AND}, {"INV", 1, NOT}, {"EQW", 1, RENAMES},
};

/* ---- Lines, words and numbers */

static struct slice taken_off(struct slice *from, size_t length)
{
    struct slice front = {from->at, length};
    from->at += length;
    from->length -= length;
    return front;
}

/* "words parted by spaces or CR"; no word is left where it is empty. */
static struct slice next_word(struct slice *line)
{
    size_t n = 0;

    while (n < line->length && (line->at[n] == ' ' || line->at[n] == '\r'))
        n++;
    taken_off(line, n);
    n = 0;
    while (n < line->length && line->at[n] != ' ' && line->at[n] != '\r')
        n++;
    return taken_off(line, n);
}

static int has_words(struct slice line)
{
    return next_word(&line).length > 0;
}

/* "LF after each line but perhaps the last", "and blank lines that only
   count".  Answers whether there was another line with words. */
static int next_line(struct reading *r, struct slice *line)
{
    while (r->rest.length) {
        const uint8_t *end = memchr(r->rest.at, '\n', r->rest.length);

        *line = taken_off(&r->rest, end ? (size_t)(end - r->rest.at)
                                        : r->rest.length);
        if (end)
            taken_off(&r->rest, 1);
        r->lines++;
        if (has_words(*line))
            return 1;
    }
    return 0;
}

/* "numbers of one to five digits" */
static int next_number(struct slice *line, uint32_t *number)
{
    struct slice word = next_word(line);

    *number = 0;
    for (size_t n = 0; n < word.length && n < 6; n++) {
        if (word.at[n] < '0' || word.at[n] > '9')
            return 0;
        *number = 10 * *number + (uint32_t)(word.at[n] - '0');
    }
    return word.length >= 1 && word.length <= 5;
}

/* ---- One line: each answers 0 or the number of its refusal */

/* "a line with gate and wire counts" */
static uint32_t take_counts(struct reading *r, struct slice line)
{
    if (!next_number(&line, &r->said) || !next_number(&line, &r->wires)
        || r->wires > MOST_WIRES || has_words(line))
        return 15;
    return 0;
}

/* "neither sum of widths is above it" */
static uint32_t take_values(struct values *v, uint32_t wires,
                            struct slice line)
{
    uint64_t sum = 0;

    if (!next_number(&line, &v->count))
        return 15;
    for (uint32_t n = 0; n < v->count; n++) {
        if (!next_number(&line, &v->width[n]))
            return 15;
        sum += v->width[n];
    }
    if (sum > wires || has_words(line))
        return 15;
    v->sum = (uint32_t)sum;
    return 0;
}

/* "Inputs are the lowest wires", and "an input counts as written". */
static uint32_t take_inputs(struct reading *r, struct slice line)
{
    uint32_t refusal = take_values(&r->inputs, r->wires, line);

    for (uint32_t wire = 0; !refusal && wire < r->wires; wire++)
        r->ours[wire] = wire < r->inputs.sum ? (int32_t)wire : NOT_WRITTEN;
    return refusal;
}

/* "two counts, that many wires and a word"; "wires are below" the count. */
static int gate_line(struct slice line, uint32_t wires,
                     struct line_of_gate *g)
{
    uint32_t wire;

    if (!next_number(&line, &g->reads) || !next_number(&line, &g->writes))
        return 0;
    for (uint32_t n = 0; n < g->reads + g->writes; n++) {
        if (!next_number(&line, &wire) || wire >= wires)
            return 0;
        if (n < 3)
            g->wire[n] = wire;
    }
    g->word = next_word(&line);
    return g->word.length > 0 && !has_words(line);
}

static const struct known *known_word(struct slice word)
{
    for (size_t n = 0; n < sizeof known_words / sizeof known_words[0]; n++)
        if (word.length == 3 && !memcmp(word.at, known_words[n].word, 3))
            return &known_words[n];
    return NULL;
}

/* "XOR, AND and INV map to ours in the text's order; EQW renames a wire." */
static uint32_t put_gate(struct reading *r, const struct known *known,
                         const uint32_t *wire)
{
    int32_t first = r->ours[wire[0]];
    int32_t second = known->reads == 2 ? r->ours[wire[1]] : 0;
    int32_t *made = &r->ours[wire[known->reads]];
    struct gate gate = {known->kind, (uint16_t)first, (uint16_t)second};

    if (first == NOT_WRITTEN || second == NOT_WRITTEN || *made != NOT_WRITTEN)
        return 17;
    if (known->kind == RENAMES) {
        *made = first;
        return 0;
    }
    *made = (int32_t)(r->inputs.sum + r->gates);
    r->gate[r->gates++] = gate;
    return 0;
}

/* "as many gates as said"; "XOR and AND with 2 1, INV and EQW with 1 1" */
static uint32_t take_gate(struct reading *r, struct slice line)
{
    struct line_of_gate g;
    const struct known *known;

    if (r->taken >= HEADER_LINES + (size_t)r->said)
        return 15;
    if (!gate_line(line, r->wires, &g))
        return 15;
    known = known_word(g.word);
    if (!known)
        return 16;
    if (g.reads != known->reads || g.writes != 1)
        return 15;
    return put_gate(r, known, g.wire);
}

static uint32_t take_line(struct reading *r, struct slice line)
{
    switch (r->taken) {
    case 0: return take_counts(r, line);
    case 1: return take_inputs(r, line);
    case 2: return take_values(&r->outputs, r->wires, line);
    default: return take_gate(r, line);
    }
}

/* ---- The text and the owners */

static struct answer take_text(struct reading *r)
{
    struct slice line;

    while (next_line(r, &line)) {
        uint32_t refusal = take_line(r, line);
        if (refusal)
            return refused(refusal, r->lines);
        r->taken++;
    }
    /* Before the first line was read, 0 gates are said: three are missing. */
    if (r->taken < HEADER_LINES + (size_t)r->said)
        return refused(15, r->lines);
    for (uint32_t n = 0; n < r->outputs.sum; n++)
        if (r->ours[r->wires - r->outputs.sum + n] == NOT_WRITTEN)
            return refused(17, r->lines);
    return good();
}

/* "place the count of values if the owners' list has another length, else
   the first bad value" */
static struct answer check_owners(const struct values *v, struct slice owners)
{
    if (owners.length != v->count)
        return refused(4, v->count);
    for (uint32_t n = 0; n < v->count; n++)
        if (owners.at[n] < 1 || owners.at[n] > 3)
            return refused(4, n);
    return good();
}

/* "our limits hold then": those of document 01, on the new numbers. */
static struct answer check_limits(const struct reading *r)
{
    if (r->inputs.sum > 1024)
        return refused(2, 0);
    if (r->gates > 3072)
        return refused(2, 1);
    if (r->outputs.sum > 256)
        return refused(2, 2);
    return good();
}

/* ---- The file */

static uint8_t *put_short(uint8_t *at, uint32_t number)
{
    *at++ = (uint8_t)number;
    *at++ = (uint8_t)(number >> 8);
    return at;
}

static uint8_t *put_number(uint8_t *at, uint32_t number)
{
    return put_short(put_short(at, number), number >> 16);
}

/* "Outputs" are "the highest" wires.  Answers the file's length. */
static uint32_t write_file(const struct reading *r, struct slice owners,
                           uint8_t *at)
{
    uint32_t gates = HEADER + r->inputs.sum, outputs = gates + 6 * r->gates;
    uint32_t length = outputs + 2 * r->outputs.sum;
    const uint32_t field[8] = {length, r->inputs.sum, r->gates,
                               r->outputs.sum, HEADER, gates, outputs, 0};

    for (unsigned n = 0; n < 8; n++)
        at = put_number(at, field[n]);
    for (size_t n = 0; n < owners.length; n++)
        for (uint32_t wire = 0; wire < r->inputs.width[n]; wire++)
            *at++ = owners.at[n];
    for (uint32_t g = 0; g < r->gates; g++) {
        at = put_short(at, r->gate[g].kind);
        at = put_short(at, r->gate[g].first);
        at = put_short(at, r->gate[g].second);
    }
    for (uint32_t n = r->wires - r->outputs.sum; n < r->wires; n++)
        at = put_short(at, (uint32_t)r->ours[n]);
    return length;
}

struct answer from_bristol_call(struct slice text, struct slice owners,
                                struct slice room)
{
    static struct reading r; /* too large for the stack */
    struct answer answer;

    if (room.length != ROOM)
        return refused(10, 0);
    r.rest = text;
    r.lines = r.taken = 0;
    r.said = r.gates = 0;
    answer = take_text(&r);
    if (answer.outcome == GOOD)
        answer = check_owners(&r.inputs, owners);
    if (answer.outcome == GOOD)
        answer = check_limits(&r);
    if (answer.outcome != GOOD)
        return answer;
    return good_with(1, write_file(&r, owners, room.at), 0, 0);
}
