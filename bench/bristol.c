/* A circuit file from Bristol Fashion text, in plain C: what bakebutton_from_bristol does, with the same checks in the same order.

   One cursor goes through the text once. Gates are kept in an array of six bytes each, as the file has them, until the text is accepted; what
   each wire of the text is in the file stands in another. Only the line of input widths is read a second time, to write the owners. */
#include "engine.h"

#include <string.h>

enum { MOST_WIRES = 8192, MOST_INPUTS = 1024, MOST_GATES = 3072, MOST_OUTPUTS = 256 };
enum { NOT_GOOD = 15, OTHER_WORD = 16, BAD_WIRE = 17 };

struct text {
    const uint8_t *at, *end;
    size_t lines;               /* so far, blank ones too */
    size_t header;              /* how many of the three header lines */
    uint32_t lines_left;        /* gate lines still to come, of those that the text says */
    uint32_t wires;
    const uint8_t *widths;      /* the line of input widths */
    size_t values, inputs, outputs;
    uint32_t gates;             /* ours: without EQW */
    uint16_t *ours;             /* of each wire of the text one above the file's; 0 is not written */
    uint8_t *gate;              /* as they stand in the file */
};

static inline void put16(uint8_t *at, size_t x)
{
    at[0] = (uint8_t)x;
    at[1] = (uint8_t)(x >> 8);
}

static inline void put32(uint8_t *at, size_t x)
{
    put16(at, x);
    put16(at + 2, x >> 16);
}

/* ---- Words and numbers: each is given the cursor, and gives it back behind what it took */

static inline const uint8_t *gaps(const uint8_t *at, const uint8_t *end)
{
    while (at < end && (*at == ' ' || *at == '\r'))
        at++;
    return at;
}

static inline int at_line_end(const uint8_t *at, const uint8_t *end)
{
    return at == end || *at == '\n';
}

static inline int at_word_end(const uint8_t *at, const uint8_t *end)
{
    return at == end || *at == ' ' || *at == '\r' || *at == '\n';
}

/* The next word, if it is a number of one to five digits; null if not. */
static inline const uint8_t *number(const uint8_t *at, const uint8_t *end, uint32_t *x)
{
    uint32_t sum = 0, digit;

    at = gaps(at, end);
    const uint8_t *from = at;
    while (at < end && (digit = *at - (uint32_t)'0') <= 9) {
        sum = 10 * sum + digit;
        at++;
    }
    *x = sum;
    return at > from && at - from <= 5 && at_word_end(at, end) ? at : NULL;
}

/* ---- Lines: 0, or the number of the refusal. The cursor stands at the first word, and behind a good line at its end. */

static size_t ended(struct text *t, const uint8_t *at)
{
    t->at = gaps(at, t->end);
    return at_line_end(t->at, t->end) ? 0 : NOT_GOOD;
}

static size_t counts_line(struct text *t)
{
    const uint8_t *at = number(t->at, t->end, &t->lines_left);

    if (!at || !(at = number(at, t->end, &t->wires)) || t->wires > MOST_WIRES)
        return NOT_GOOD;
    return ended(t, at);
}

static size_t widths_line(struct text *t, size_t *values, size_t *total)
{
    uint32_t count, width;
    const uint8_t *at = number(t->at, t->end, &count);
    size_t sum = 0;

    if (!at)
        return NOT_GOOD;
    for (uint32_t k = 0; k < count; k++) {
        if (!(at = number(at, t->end, &width)))
            return NOT_GOOD;
        sum += width;
    }
    if (sum > t->wires)
        return NOT_GOOD;
    *values = count;
    *total = sum;
    return ended(t, at);
}

static size_t inputs_line(struct text *t)
{
    t->widths = t->at;
    size_t refusal = widths_line(t, &t->values, &t->inputs);
    if (refusal)
        return refusal;
    memset(t->ours, 0, t->wires * sizeof *t->ours);
    for (size_t w = 0; w < t->inputs; w++)
        t->ours[w] = (uint16_t)(w + 1);
    return 0;
}

/* Kinds as the file has them, and EQW. */
enum { OTHER = 0, EQW = 5 };

static inline uint32_t kind_of(const uint8_t *word, size_t length)
{
    if (length != 3)
        return OTHER;
    if (!memcmp(word, "XOR", 3))
        return BAKEBUTTON_XOR;
    if (!memcmp(word, "AND", 3))
        return BAKEBUTTON_AND;
    if (!memcmp(word, "INV", 3))
        return BAKEBUTTON_NOT;
    return memcmp(word, "EQW", 3) ? OTHER : EQW;
}

/* A gate whose line is good: its wires are read before and written anew, or it is refused. */
static inline size_t take_gate(struct text *t, uint32_t kind, const uint32_t *wire)
{
    int two = kind <= BAKEBUTTON_AND;
    uint32_t x = t->ours[wire[0]], y = two ? t->ours[wire[1]] : 1; /* INV's second is 0 in the file */
    uint16_t *made = &t->ours[wire[two ? 2 : 1]];

    if (!x || !y || *made)
        return BAD_WIRE;
    if (kind == EQW) {
        *made = (uint16_t)x;
        return 0;
    }
    if (t->gates < MOST_GATES) {
        uint8_t *at = t->gate + 6 * (size_t)t->gates;
        put16(at, kind);
        put16(at + 2, x - 1);
        put16(at + 4, y - 1);
    }
    t->gates++;
    *made = (uint16_t)(t->inputs + t->gates);
    return 0;
}

static size_t gate_line(struct text *t)
{
    const uint8_t *at = t->at, *end = t->end;
    uint32_t reads, writes, one, wire[3];

    if (!t->lines_left || !(at = number(at, end, &reads)) || !(at = number(at, end, &writes)))
        return NOT_GOOD;
    t->lines_left--;
    for (uint32_t k = 0; k < reads + writes; k++) {
        if (!(at = number(at, end, &one)) || one >= t->wires)
            return NOT_GOOD;
        if (k < 3)
            wire[k] = one;
    }
    const uint8_t *word = gaps(at, end);
    for (at = word; !at_word_end(at, end);)
        at++;
    uint32_t kind = kind_of(word, (size_t)(at - word));
    if (at == word || ended(t, at))
        return NOT_GOOD;
    if (kind == OTHER)
        return OTHER_WORD;
    if (reads != (kind <= BAKEBUTTON_AND ? 2u : 1u) || writes != 1)
        return NOT_GOOD;
    return take_gate(t, kind, wire);
}

static size_t next_line(struct text *t)
{
    size_t values;

    switch (t->header) {
    case 0: t->header++; return counts_line(t);
    case 1: t->header++; return inputs_line(t);
    case 2: t->header++; return widths_line(t, &values, &t->outputs);
    default: return gate_line(t);
    }
}

/* All lines, and what can be told only behind them. */
static size_t text_refusal(struct text *t)
{
    while (t->at < t->end) {
        t->lines++;
        t->at = gaps(t->at, t->end);
        size_t refusal = at_line_end(t->at, t->end) ? 0 : next_line(t);
        if (refusal)
            return refusal;
        t->at += t->at < t->end;
    }
    if (t->header < 3 || t->lines_left)
        return NOT_GOOD;
    for (size_t w = t->wires - t->outputs; w < t->wires; w++)
        if (!t->ours[w])
            return BAD_WIRE;
    return 0;
}

/* ---- The call */

static struct bakebutton_file_answer refuse(size_t number, size_t place)
{
    struct bakebutton_file_answer answer = {number, place, 0};
    return answer;
}

static size_t write_file(struct text *t, const uint8_t *owners, uint8_t *file)
{
    size_t gates = 32 + t->inputs, outputs = gates + 6 * (size_t)t->gates, length = outputs + 2 * t->outputs;
    const size_t field[8] = {length, t->inputs, t->gates, t->outputs, 32, gates, outputs, 0};
    uint8_t *at = file + 32;
    uint32_t width;

    for (unsigned k = 0; k < 8; k++)
        put32(file + 4 * k, field[k]);
    const uint8_t *from = number(t->widths, t->end, &width); /* how many there are */
    for (size_t k = 0; k < t->values; k++) {
        from = number(from, t->end, &width);
        memset(at, owners[k], width);
        at += width;
    }
    memcpy(at, t->gate, 6 * (size_t)t->gates);
    for (size_t k = 0; k < t->outputs; k++)
        put16(file + outputs + 2 * k, t->ours[t->wires - t->outputs + k] - 1u);
    return length;
}

struct bakebutton_file_answer plain_from_bristol(const uint8_t *text, size_t text_length, const uint8_t *owners, size_t owners_length,
                                                 uint8_t *room, size_t room_length)
{
    uint16_t ours[MOST_WIRES];
    uint8_t gate[6 * MOST_GATES];
    struct text t = {.at = text, .end = text + text_length, .ours = ours, .gate = gate};

    if (room_length != BAKEBUTTON_FILE_ROOM_BYTES)
        return refuse(10, 0);
    size_t number_of = text_refusal(&t);
    if (number_of)
        return refuse(number_of, t.lines);
    if (owners_length != t.values)
        return refuse(4, t.values);
    for (size_t k = 0; k < t.values; k++)
        if (owners[k] - 1u > 2u)
            return refuse(4, k);
    if (t.inputs > MOST_INPUTS)
        return refuse(2, 0);
    if (t.gates > MOST_GATES)
        return refuse(2, 1);
    if (t.outputs > MOST_OUTPUTS)
        return refuse(2, 2);
    struct bakebutton_file_answer answer = {0, 0, write_file(&t, owners, room)};
    return answer;
}
